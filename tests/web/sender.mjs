// What tests/parts/sender.c has: the fragments of a file, as TS004 defines them, and random numbers that are the same everywhere.

export const SUM_OF_NONE = 2166136261;

// A draw of numbers below one, from a seed on.
export function drawFrom(seed) {
  let state = BigInt(seed);
  return (below) => {
    state = BigInt.asUintN(64, state * 6364136223846793005n + 1442695040888963407n);
    return Number((state >> 33n) % BigInt(below));
  };
}

// A sum of bytes, over the sum of those before.
export function summed(sum, bytes) {
  return bytes.reduce((so, byte) => Math.imul(so ^ byte, 16777619) >>> 0, sum);
}

// The pieces of a coded fragment's line.
function lineOf(n, pieces) {
  const line = new Set();
  const modulus = pieces + ((pieces & (pieces - 1)) === 0 ? 1 : 0);
  let x = 1 + 1001 * n;
  for (let count = 0; count < pieces >> 1; count++) {
    let piece;
    do {
      x = (x >>> 1) | ((((x >>> 5) ^ x) & 1) << 22);
      piece = x % modulus;
    } while (piece >= pieces);
    line.add(piece);
  }
  return line;
}

// The payload of fragment n, from 1, of a file of so many pieces.
export function fragment(file, n, pieces, size) {
  const payload = new Uint8Array(3 + size);
  payload.set([0x08, n & 255, n >> 8]);
  for (const piece of n <= pieces ? [n - 1] : lineOf(n - pieces, pieces)) {
    for (let k = 0; k < size; k++) payload[3 + k] ^= file[piece * size + k];
  }
  return payload;
}
