// Random gases. For a seed they are bit for bit those of the client's `random_gas`.

const WORDS = 624, MIDDLE = 397;

/** The numbers of numpy's RandomState: MT19937, of which two words make a number from 0 to 1. */
export class Draw {
  place = WORDS;

  constructor(seed) {
    this.words = new Uint32Array(WORDS);
    this.words[0] = seed;
    for (let k = 1; k < WORDS; k++) {
      const before = this.words[k - 1];
      this.words[k] = Math.imul(1812433253, before ^ before >>> 30) + k;
    }
  }

  renew() {
    const { words } = this;
    for (let k = 0; k < WORDS; k++) {
      const next = words[(k + 1) % WORDS], both = words[k] & 0x80000000 | next & 0x7FFFFFFF;
      words[k] = words[(k + MIDDLE) % WORDS] ^ both >>> 1 ^ (next & 1 ? 0x9908B0DF : 0);
    }
    this.place = 0;
  }

  word() {
    if (this.place === WORDS) this.renew();
    let v = this.words[this.place++];
    v ^= v >>> 11;
    v ^= v << 7 & 0x9D2C5680;
    v ^= v << 15 & 0xEFC60000;
    return v ^ v >>> 18;
  }

  /** A number from 0 to 1, and never 1. */
  next() {
    const high = this.word() >>> 5, low = this.word() >>> 6;
    return (high * 67108864 + low) / 9007199254740992;
  }
}

/**
 * The `row` lines of a random gas at tick 0. A cell whose particle would move with (vx, vy) is full with
 * probability density * (1 + down * vy) * (1 + right * vx), times what `share` has for its place.
 */
export function randomRows(width, height, { density, right = 0, down = 0, seed }, share = null) {
  const draw = new Draw(seed), across = [1 + right, 1 - right];
  return Array.from({ length: height }, (_, y) => {
    const row = density * (1 + (y & 1 ? -down : down));
    let digits = "";
    for (let x = 0; x < width; x += 4) {
      let four = 0;
      for (let k = x; k < x + 4; k++) {
        const chance = row * across[k & 1];
        four = four << 1 | draw.next() < (share ? chance * share(k, y) : chance);
      }
      digits += four.toString(16);
    }
    return `row ${y} ${digits}`;
  });
}
