"""What came with this client: the program of a wheel, and the lessons."""
from pathlib import Path

_PACKAGE = Path(__file__).resolve().parents[1]
_INSTALLED = _PACKAGE / "lessons"
_LESSONS = _INSTALLED if _INSTALLED.is_dir() else _PACKAGE.parents[2] / "examples"
WHEEL_PROGRAM = _PACKAGE / "program" / "lib" / "gaslab_program"
"""The program, if this client was installed from a wheel that has one. Otherwise there is no such file."""


def lesson_names() -> list[str]:
    """The names of all lessons' scripts, in the order of the lessons."""
    return sorted((it.stem for it in _LESSONS.glob("*.txt")), key=lambda it: (int(it.partition("_")[0]), it))


def lesson(name: str) -> Path:
    """The path of a lesson's script, such as `lesson("4_tunnel")`.

    The same path with the ending .out has the replies to it. Raises `ValueError`, with the names that there
    are, for another name.
    """
    names = lesson_names()
    if name not in names:
        raise ValueError(f"no lesson {name!r}: there are {', '.join(names) or 'none in this installation'}")
    return _LESSONS / f"{name}.txt"
