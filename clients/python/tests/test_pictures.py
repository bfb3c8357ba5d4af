import gc
import os
import tempfile
import unittest
import weakref
from unittest import mock

import numpy

from gaslab import Drain, Snapshot, Source, film, palette, picture, picture_bytes, text_picture
from gaslab.pictures.drawing import drawn
from gaslab.pictures.pixels import density_pixels

from .seen import read
from .test_lab import run


def plane(cells, width=64, height=64):
    found = numpy.zeros((height, width), bool)
    for x, y in cells:
        found[y, x] = True
    return numpy.packbits(found, axis=1).tobytes()


def colour(index):
    return palette.CELLS[index]


def shade(count, cells):
    return palette.DENSITIES[palette.density_index(count, cells)]


class Cells(unittest.TestCase):
    GAS = Snapshot(64, 64, 3, (Drain(10, 0, 2, 2),),
                   (Source(20, 0, 3, 1, 5), Source(11, 1, 2, 1, 1)),
                   plane({(0, 0), (1, 0), (5, 0), (6, 0), (10, 0), (63, 63)}),
                   plane({(2, 0), (5, 0), (7, 0)}), plane({(3, 0), (6, 0), (7, 0)}))

    def test_each_kind(self):
        found = read(picture_bytes(self.GAS, scale=1))
        kinds = {(0, 0): palette.PARTICLE, (2, 0): palette.WALL, (3, 0): palette.OBSTACLE,
                 (4, 0): palette.EMPTY, (5, 0): palette.HIT, (6, 0): palette.HIT,
                 (7, 0): palette.OBSTACLE, (10, 0): palette.PARTICLE, (11, 0): palette.DRAIN,
                 (11, 1): palette.DRAIN, (12, 0): palette.EMPTY, (12, 1): palette.SOURCE,
                 (13, 1): palette.EMPTY, (19, 0): palette.EMPTY, (20, 0): palette.SOURCE,
                 (22, 0): palette.SOURCE, (23, 0): palette.EMPTY, (20, 1): palette.EMPTY,
                 (9, 0): palette.EMPTY, (63, 63): palette.PARTICLE, (62, 63): palette.EMPTY}
        for (x, y), kind in kinds.items():
            self.assertEqual(found.pixel(x, y), colour(kind), (x, y))

    def test_particles_are_the_rows(self):
        cells = {(x, y) for x in range(128) for y in range(64) if (x * x + 3 * y) % 7 == 0}
        gas = Snapshot(128, 64, particle_bytes=plane(cells, 128))
        found = read(picture_bytes(gas, scale=1))
        self.assertEqual(found.cells(colour(palette.PARTICLE)), cells)

    def test_scale(self):
        large, small = (read(picture_bytes(self.GAS, scale=scale)) for scale in (3, 1))
        self.assertEqual((large.width, large.height), (192, 192))
        for y in range(192):
            for x in range(192):
                self.assertEqual(large.pixel(x, y), small.pixel(x // 3, y // 3))

    def test_the_scale_that_is_chosen(self):
        """The longer side has some 600 pixels, if the gas has no more cells."""
        for width, height, mean, pixels in ((64, 64, None, 576), (64, 128, None, 640),
                                            (256, 64, None, 512), (192, 192, None, 576),
                                            (1024, 64, None, 1024), (1024, 64, 16, 576)):
            image = picture(Snapshot(width, height), mean=mean)
            self.assertEqual(max(image.width, image.height - (36 if mean else 0)), pixels)

    def test_velocities(self):
        for tick in (-1, 0, 1, 4):
            full = Snapshot(64, 64, tick, particle_bytes=b"\xff" * 512)
            found = read(picture_bytes(full, scale=1, colour="velocity"))
            for y in range(64):
                for x in range(64):
                    right, down = (x + tick) % 2 == 0, (y + tick) % 2 == 0
                    kind = ((palette.LEFT_UP, palette.LEFT_DOWN),
                            (palette.RIGHT_UP, palette.RIGHT_DOWN))[right][down]
                    self.assertEqual(found.pixel(x, y), colour(kind))

    def test_arrays(self):
        bare = Snapshot(64, 64, particle_bytes=self.GAS.particle_bytes)
        found = picture_bytes(bare.particles)
        self.assertEqual(found, picture_bytes(bare))
        self.assertEqual(picture_bytes([list(row) for row in bare.particles]), found)

    def test_a_notebook(self):
        self.assertEqual(picture(self.GAS)._repr_png_()[:4], b"\x89PNG")
        with run() as lab:
            self.assertEqual(read(picture(lab)._repr_png_()).width, 576)

    def test_wrong_wishes(self):
        for wish in ({"scale": 0}, {"scale": 65}, {"colour": "red"}, {"mean": 0}, {"mean": 3},
                     {"mean": 128}, {"mean": 8, "colour": "velocity"}):
            with self.assertRaises(ValueError, msg=wish):
                picture_bytes(self.GAS, **wish)
        with self.assertRaisesRegex(ValueError, "at most 16,384 pixels a side"):
            picture(Snapshot(4096, 64), scale=5)


class Files(unittest.TestCase):
    GAS = Cells.GAS

    def setUp(self):
        room = tempfile.TemporaryDirectory()
        self.addCleanup(room.cleanup)
        self.room = room.name

    def path(self, name):
        return os.path.join(self.room, name)

    def test_the_ending_says_which_kind(self):
        for name, kind in (("it.png", "PNG"), ("it.GIF", "GIF")):
            picture(self.GAS, self.path(name), scale=1)
            seen = read(self.path(name))
            self.assertEqual((seen.format, seen.width), (kind, 64))
            self.assertEqual(seen.pixel(3, 0), colour(palette.OBSTACLE))
        for name in ("it.jpg", "it", "it.png.svg", "it.apng"):
            with self.assertRaisesRegex(ValueError, "a picture's path ends in .png or .gif"):
                picture(self.GAS, self.path(name))
        self.assertEqual(sorted(os.listdir(self.room)), ["it.GIF", "it.png"])

    def test_a_wrong_wish_leaves_the_file(self):
        path = self.path("it.png")
        picture(self.GAS, path)
        self.assertRaises(ValueError, picture, self.GAS, path, scale=0)
        with open(path, "rb") as file:
            self.assertEqual(file.read(), picture_bytes(self.GAS))


class Densities(unittest.TestCase):
    def test_counts(self):
        cells = {(x, y) for y in range(64) for x in range(64) if x % 8 < y // 8}
        gas = Snapshot(64, 64, particle_bytes=plane(cells))
        for mean in (8, 16):
            found, plain = read(picture_bytes(gas, scale=2, mean=mean)), density_pixels(gas, mean)
            for row in range(64 // mean):
                count = sum((x, y) in cells for x in range(mean)
                            for y in range(row * mean, row * mean + mean))
                for column in range(64 // mean):
                    self.assertEqual(found.pixel(2 * column, 2 * row), shade(count, mean * mean))
                    self.assertEqual(palette.DENSITIES[plain[row, column]], shade(count, mean * mean))

    def test_ends_of_the_ramp(self):
        self.assertEqual(palette.DENSITIES[palette.density_index(0, 64)], (255, 255, 255))
        self.assertEqual(palette.density_index(64, 64), 255)
        self.assertEqual(len(palette.DENSITIES), 256)
        light = [0.2126 * r + 0.7152 * g + 0.0722 * b
                 for r, g, b in palette.DENSITIES[palette.density_index(0, 64):]]
        self.assertEqual(light, sorted(light, reverse=True))

    def test_squares_that_are_solid(self):
        """Where a square is one pixel, one that is half solid has the solid's colour."""
        half = {(x, y) for x in range(8) for y in range(4)}
        less = {(x + 8, y) for x in range(8) for y in range(4)} - {(8, 0)}
        gas = Snapshot(64, 64, wall_bytes=plane(half | less),
                       obstacle_bytes=plane({(x + 16, y) for x in range(8) for y in range(8)}))
        found = density_pixels(gas, 8)
        self.assertEqual(found.shape, (8, 8))
        row = [palette.DENSITIES[index] for index in found[0]]
        self.assertEqual(row, [palette.DENSITIES[palette.WALL], (255, 255, 255), colour(palette.OBSTACLE)]
                         + 5 * [(255, 255, 255)])

    def test_outlines(self):
        """Lines of two pixels along the edge of each shape, cell by cell, in squares of any size.

        At scale 32 and mean 4 a cell has 8 by 8 pixels.
        """
        gas = Snapshot(64, 64, 0, (Drain(60, 18, 4, 28),), (Source(4, 18, 2, 28, 1),),
                       wall_bytes=plane({(x, y) for x in range(64) for y in (9, 10)}),
                       obstacle_bytes=plane({(x, y) for x in range(30, 33) for y in range(30, 33)}))
        found = read(picture_bytes(gas, scale=32, mean=4))
        marks = palette.DENSITIES
        for x, y, w, h, line, inside in ((30, 30, 3, 3, palette.OBSTACLE, palette.OBSTACLE_INSIDE),
                                         (0, 9, 64, 2, palette.WALL, palette.WALL_INSIDE),
                                         (4, 18, 2, 28, palette.SOURCE, palette.EMPTY),
                                         (60, 18, 4, 28, palette.DRAIN, palette.EMPTY)):
            left, top, right, bottom = (8 * place for place in (x, y, x + w, y + h))
            area = {(a, b) for a in range(left, right) for b in range(top, bottom)}
            inner = {(a, b) for a in range(left + 2, right - 2) for b in range(top + 2, bottom - 2)}
            self.assertEqual(found.cells(marks[line]) & area, area - inner)
            self.assertEqual({found.pixel(a, b) for a, b in inner}, {marks[inside]})
            if line != palette.WALL:
                self.assertEqual(found.cells(marks[line]), area - inner)

    def test_a_shape_smaller_than_a_pixel_is_seen(self):
        gas = Snapshot(1024, 64, obstacle_bytes=plane({(501, 33)}, 1024))
        found = read(picture_bytes(gas, scale=1, mean=8))
        self.assertEqual(found.cells(palette.DENSITIES[palette.OBSTACLE]), {(62, 4)})

    def test_the_bar(self):
        """Below the picture, from white at its left to the darkest shade at its right."""
        found = read(picture_bytes(Snapshot(64, 64), scale=32, mean=4))
        self.assertEqual((found.width, found.height), (512, 512 + 36))
        bar = [found.pixel(x, 512 + 12) for x in range(1, 511)]
        self.assertEqual((bar[0], bar[-1]), (shade(0, 1), shade(1, 1)))
        light = [sum(pixel) for pixel in bar]
        self.assertEqual(light, sorted(light, reverse=True))
        words = found.frames[0][512 + 20:] != 255
        for left, right in ((0, 20), (200, 320), (490, 512)):
            self.assertTrue(words[:, left:right].any())
        self.assertFalse(words[:, 20:200].any())


class Films(unittest.TestCase):
    def filmed(self, name, **options):
        with tempfile.TemporaryDirectory() as room, run() as lab:
            lab.wall(0, 0, 64, 1)
            lab.put(10, 10, 1, 1)
            film(lab, os.path.join(room, name), **options)
            self.assertEqual(os.listdir(room), [name])
            return read(os.path.join(room, name)), lab.tally().tick

    def test_frames_are_those_ticks(self):
        for name, kind in (("film.png", "PNG"), ("film.apng", "PNG"), ("film.gif", "GIF")):
            found, tick = self.filmed(name, steps=2, frames=4, scale=1, milliseconds=50)
            self.assertEqual((tick, found.format, len(found.frames)), (6, kind, 4))
            self.assertEqual(found.delays, [50] * 4)
            for n in range(4):
                self.assertEqual(found.cells(colour(palette.WALL), n),
                                 {(x, 0) for x in range(64)})
                self.assertEqual(found.cells(colour(palette.PARTICLE), n),
                                 {(10 + 2 * n, 10 + 2 * n)})

    def test_densities(self):
        found, _ = self.filmed("film.gif", steps=8, frames=2, scale=8, mean=8)
        one = palette.density_index(1, 64)
        for n in range(2):
            seen = {(x // 8, y // 8) for x, y in found.cells(palette.DENSITIES[one], n) if y < 64}
            self.assertEqual(seen, {(1 + n, 1 + n)})

    def test_a_film_that_stands_still_lasts_as_long(self):
        with tempfile.TemporaryDirectory() as room, run() as lab:
            for name in ("it.png", "it.gif"):
                film(lab, os.path.join(room, name), 1, 5, milliseconds=40)
                self.assertEqual(sum(read(os.path.join(room, name)).delays), 200)

    def test_momentum(self):
        """A particle that flies right is blue, and one that flies left is orange, in each frame."""
        right, left = (colour(kind) for kind in (palette.PARTICLE, palette.OBSTACLE))
        for name in ("film.png", "film.gif"):
            with tempfile.TemporaryDirectory() as room, run() as lab:
                lab.put(8, 8, 1, 1)
                lab.put(41, 40, 1, 1)
                film(lab, os.path.join(room, name), 8, 3, scale=3, mean=8, show="px", limit=1 / 64)
                found = read(os.path.join(room, name))
            for n in range(3):
                for flies, (x, y) in ((right, (1 + n, 1 + n)), (left, (5 - n, 5 + n))):
                    seen = {(x // 3, y // 3) for x, y in found.cells(flies, n) if y < 24}
                    self.assertEqual(seen, {(x, y)})

    def test_no_frame_is_kept(self):
        """While a frame is drawn, the one before is the last that may still be there, with the first."""
        drawings, most = [], []

        def counted(*wishes):
            gc.collect()
            most.append(sum(it() is not None for it in drawings))
            image = drawn(*wishes)
            drawings.append(weakref.ref(image))
            return image
        with tempfile.TemporaryDirectory() as room, run() as lab, \
                mock.patch("gaslab.pictures.films.drawn", counted):
            for name in ("it.gif", "it.png"):
                film(lab, os.path.join(room, name), 1, 12)
        self.assertEqual(len(most), 24)
        self.assertLessEqual(max(most), 2)

    def test_progress(self):
        told = []
        with tempfile.TemporaryDirectory() as room, run() as lab:
            film(lab, os.path.join(room, "it.gif"), 1, 3,
                 progress=lambda done, total: told.append((done, total)))
        self.assertEqual(told, [(1, 3), (2, 3), (3, 3)])

    def test_other_endings_are_refused_before_a_step(self):
        with run() as lab:
            for path in ("film", "film.mp4", "film.jpg"):
                with self.assertRaisesRegex(ValueError, "film's path ends in .png or .apng or .gif"):
                    film(lab, path, steps=1, frames=2)
            for wish in ({"frames": 0}, {"frames": 2, "milliseconds": 0},
                         {"frames": 2, "milliseconds": 65536}, {"frames": 2, "scale": 0},
                         {"frames": 2, "show": "pz"}, {"frames": 2, "show": "px", "limit": 0},
                         {"frames": 2, "show": "px", "colour": "velocity"}):
                self.assertRaises(ValueError, film, lab, "/no/folder/it.gif", steps=1, **wish)
            self.assertEqual(lab.tally().tick, 0)

    def test_a_film_that_fails_leaves_the_old_one(self):
        with tempfile.TemporaryDirectory() as room, run() as lab:
            path = os.path.join(room, "film.gif")
            film(lab, path, steps=1, frames=2)
            with open(path, "rb") as file:
                old = file.read()
            advance, steps = lab.advance, []

            def failing(n):
                steps.append(n)
                advance(n if len(steps) < 3 else 1.5)
            lab.advance = failing
            self.assertRaises(TypeError, film, lab, path, steps=1, frames=9)
            self.assertEqual(len(steps), 3)
            with open(path, "rb") as file:
                self.assertEqual(file.read(), old)
            self.assertEqual(os.listdir(room), ["film.gif"])


class HalfWrittenFiles(unittest.TestCase):
    """A fault or Ctrl-C in the middle of a file leaves the old one, and nothing beside it."""

    def test_pictures_and_films(self):
        def half(image, file, *_, **options):
            file.write(b"half")
            raise KeyboardInterrupt

        def half_film(file, *_):
            half(None, file)
        with tempfile.TemporaryDirectory() as room, run() as lab:
            path = os.path.join(room, "it.gif")
            for write, what in ((lambda: picture(lab, path), "PIL.Image.Image.save"),
                                (lambda: film(lab, path, steps=1, frames=2), "gaslab.pictures.films._gif")):
                write()
                with open(path, "rb") as file:
                    old = file.read()
                with mock.patch(what, half if "save" in what else half_film):
                    self.assertRaises(KeyboardInterrupt, write)
                with open(path, "rb") as file:
                    self.assertEqual(file.read(), old)
                self.assertEqual(os.listdir(room), ["it.gif"])


class Texts(unittest.TestCase):
    GAS = Snapshot(64, 64, particle_bytes=plane({(0, 0), (1, 1), (2, 0), (2, 1), (63, 63)}))

    def test_plain(self):
        lines = text_picture(self.GAS, 64, coloured=False).split("\n")
        self.assertEqual((len(lines), lines[0], lines[31]), (32, "▀▄█" + 61 * " ", 63 * " " + "▄"))

    def test_coloured(self):
        line = text_picture(self.GAS, 64).split("\n")[0]
        blue, white = ("0;114;178", "255;255;255")
        self.assertEqual(line, f"\x1b[38;2;{blue};48;2;{white}m▀\x1b[38;2;{white};48;2;{blue}m▀"
                         f"\x1b[38;2;{blue};48;2;{blue}m▀\x1b[38;2;{white};48;2;{white}m"
                         + 61 * "▀" + "\x1b[0m")

    def test_a_low_terminal(self):
        for rows, height in ((32, 32), (31, 16), (16, 16), (15, 8), (1, 1)):
            lines = text_picture(self.GAS, 200, coloured=False, rows=rows).split("\n")
            self.assertEqual((len(lines), len(lines[0])), (height, 2 * height))

    def test_densities(self):
        full = Snapshot(64, 64, particle_bytes=plane({(x, y) for x in range(8) for y in range(8)}))
        lines = text_picture(full, 200, coloured=False, mean=8).split("\n")
        self.assertEqual(lines, ["▀" + 7 * " ", *3 * [8 * " "]])
        self.assertRaises(ValueError, text_picture, full, mean=7)

    def test_a_narrow_terminal(self):
        for columns, width in ((64, 64), (63, 32), (20, 16), (1, 1), (0, 1)):
            lines = text_picture(self.GAS, columns, coloured=False).split("\n")
            self.assertEqual((len(lines[0]), len(lines)), (width, max(1, width // 2)))


# Matrices of Machado, Oliveira and Fernandes (2009), for the full lack of one kind of cones.
BLINDNESS = {
    "protan": ((0.152286, 1.052583, -0.204868), (0.114503, 0.786281, 0.099216),
               (-0.003882, -0.048116, 1.051998)),
    "deutan": ((0.367322, 0.860646, -0.227968), (0.280085, 0.672501, 0.047413),
               (-0.011820, 0.042940, 0.968881)),
    "tritan": ((1.255528, -0.076749, -0.178779), (-0.078411, 0.930809, 0.147602),
               (0.004733, 0.691367, 0.303900)),
    "none": ((1, 0, 0), (0, 1, 0), (0, 0, 1)),
}


def lab_colour(rgb, blindness):
    """Lightness, a and b of CIE 1976, as it is seen."""
    linear = [c / 255 / 12.92 if c <= 10 else ((c / 255 + 0.055) / 1.055) ** 2.4 for c in rgb]
    seen = [min(1, max(0, sum(m * c for m, c in zip(line, linear))))
            for line in BLINDNESS[blindness]]
    to_xyz = ((0.4124, 0.3576, 0.1805), (0.2126, 0.7152, 0.0722), (0.0193, 0.1192, 0.9505))
    x, y, z = (sum(m * c for m, c in zip(line, seen)) / white
               for line, white in zip(to_xyz, (0.9505, 1.0, 1.089)))
    x, y, z = (c ** (1 / 3) if c > 0.008856 else 7.787 * c + 16 / 116 for c in (x, y, z))
    return 116 * y - 16, 500 * (x - y), 200 * (y - z)


class ColourBlindReaders(unittest.TestCase):
    def check(self, indices, least, colours=palette.CELLS):
        for blindness in BLINDNESS:
            seen = [lab_colour(colours[index], blindness) for index in indices]
            for i, one in enumerate(seen):
                for j in range(i):
                    far = sum((a - b) ** 2 for a, b in zip(one, seen[j])) ** 0.5
                    self.assertGreater(far, least, (blindness, indices[i], indices[j]))

    def test_kinds_can_be_told_apart(self):
        self.check(range(7), 20)

    def test_velocities_can_be_told_apart(self):
        self.check([palette.EMPTY, *range(7, 11)], 20)

    def test_marks_of_densities_can_be_told_apart(self):
        """From one another, and lines and tints from each shade."""
        lines = [palette.WALL, palette.OBSTACLE, palette.SOURCE, palette.DRAIN]
        self.check(lines, 20, palette.DENSITIES)
        for mark in (*lines, palette.WALL_INSIDE, palette.OBSTACLE_INSIDE):
            for shade in range(palette.density_index(0, 1), 256, 3):
                self.check([mark, shade], 19.5, palette.DENSITIES)

    def test_the_measure_finds_red_and_green(self):
        red, green = (lab_colour(rgb, "deutan") for rgb in ((200, 60, 40), (95, 120, 40)))
        self.assertLess(sum((a - b) ** 2 for a, b in zip(red, green)) ** 0.5, 20)
