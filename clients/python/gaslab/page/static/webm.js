// A video file of encoded pictures: the few elements of WebM that players need.

const text = (signs) => new TextEncoder().encode(signs);

function whole(n) {
  const bytes = [];
  for (let rest = n; rest > 0 || !bytes.length; rest = Math.floor(rest / 256)) bytes.unshift(rest % 256);
  return Uint8Array.from(bytes);
}

function real(n) {
  const bytes = new Uint8Array(8);
  new DataView(bytes.buffer).setFloat64(0, n);
  return bytes;
}

/** An element as a list of bytes: its id, its length in eight bytes, and what it has. */
function element(id, ...parts) {
  const all = parts.flat(), size = all.reduce((sum, { length }) => sum + length, 0), head = new Uint8Array(8);
  new DataView(head.buffer).setBigUint64(0, BigInt(size));
  head[0] = 1;
  return [whole(id), head, ...all];
}

function block({ bytes, isKey }, time) {
  const head = new DataView(new ArrayBuffer(4));
  head.setUint8(0, 0x81);                // track 1
  head.setInt16(1, time);
  head.setUint8(3, isKey ? 0x80 : 0);
  return element(0xA3, new Uint8Array(head.buffer), bytes);
}

/** Pictures in clusters, of which each begins with one that needs no other. Times are milliseconds. */
function clusters(pictures, rate) {
  const at = (k) => Math.round(k * 1000 / rate), out = [];
  let from = 0;
  pictures.forEach((picture, k) => {
    if (picture.isKey) {
      out.push([element(0xE7, whole(at(k)))]);
      from = at(k);
    }
    out.at(-1).push(block(picture, at(k) - from));
  });
  return out.flatMap((parts) => element(0x1F43B675, ...parts));
}

/** The file as a Blob. `pictures` are VP8, { bytes, isKey } each, and the first is a key. */
export function webm(pictures, { width, height, rate }) {
  const head = element(0x1A45DFA3, element(0x4286, whole(1)), element(0x42F7, whole(1)),
    element(0x42F2, whole(4)), element(0x42F3, whole(8)), element(0x4282, text("webm")),
    element(0x4287, whole(2)), element(0x4285, whole(2)));
  const length = real(pictures.length * 1000 / rate);
  const info = element(0x1549A966, element(0x2AD7B1, whole(1e6)), element(0x4489, length),
    element(0x4D80, text("gaslab")), element(0x5741, text("gaslab")));
  const track = element(0xAE, element(0xD7, whole(1)), element(0x73C5, whole(1)), element(0x83, whole(1)),
    element(0x86, text("V_VP8")), element(0x23E383, whole(Math.round(1e9 / rate))),
    element(0xE0, element(0xB0, whole(width)), element(0xBA, whole(height))));
  const all = [...head, ...element(0x18538067, info, element(0x1654AE6B, track), clusters(pictures, rate))];
  return new Blob(all, { type: "video/webm" });
}
