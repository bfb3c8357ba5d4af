// Means with their standard errors, and the binomial distribution.

/** [mean, standard error] of some numbers. The deviation is that of a sample: it divides by n - 1. */
export function meanOf(numbers) {
  const n = numbers.length, mean = numbers.reduce((sum, one) => sum + one, 0) / n;
  const squares = numbers.reduce((sum, one) => sum + (one - mean) ** 2, 0);
  return [mean, n > 1 ? Math.sqrt(squares / (n - 1) / n) : 0];
}

const FIRST = [0];
for (let n = 1; n < 20; n++) FIRST.push(FIRST[n - 1] + Math.log(n));

/** The logarithm of n!, by Stirling's series from 20 on: its next term is below 1e-13 there. */
function logFactorial(n) {
  return FIRST[n] ?? n * Math.log(n) - n + Math.log(2 * Math.PI * n) / 2 + 1 / (12 * n) - 1 / (360 * n ** 3)
    + 1 / (1260 * n ** 5) - 1 / (1680 * n ** 7);
}

/** The probability of k full cells among n, of which each is full with probability p. */
export function binomial(n, p, k) {
  if (p <= 0 || p >= 1) return Number(k === (p > 0 ? n : 0));
  return Math.exp(logFactorial(n) - logFactorial(k) - logFactorial(n - k)
    + k * Math.log(p) + (n - k) * Math.log(1 - p));
}

const MOST = 40;           // bins
const FAR = 9;             // standard deviations beyond which a binomial distribution has nothing to be seen

/**
 * Counts in bins, beside the binomial distribution of the same mean: [middle count, share, probability]
 * of each. `times` is a map that tells how often each count of 0 to n came.
 */
export function binned(times, n) {
  const all = [...times], total = all.reduce((sum, [, often]) => sum + often, 0);
  const mean = all.reduce((sum, [count, often]) => sum + count * often, 0) / total, p = mean / n;
  const deviation = Math.sqrt(n * p * (1 - p)), far = Math.max(2, Math.ceil(4 * deviation));
  const least = Math.max(0, all.reduce((low, [count]) => Math.min(low, count), Math.floor(mean - far)));
  const most = Math.min(n, all.reduce((high, [count]) => Math.max(high, count), Math.ceil(mean + far)));
  const wide = Math.ceil((most - least + 1) / MOST);
  const bins = Array.from({ length: Math.ceil((most - least + 1) / wide) }, (_, bin) => {
    const from = least + bin * wide, last = Math.min(from + wide - 1, n);
    const seen = all.reduce((sum, [count, often]) => from <= count && count <= last ? sum + often : sum, 0);
    let probability = 0;
    const end = Math.min(last, Math.ceil(mean + FAR * deviation));
    for (let k = Math.max(from, Math.floor(mean - FAR * deviation)); k <= end; k++)
      probability += binomial(n, p, k);
    return [(from + last) / 2, seen / total, probability];
  });
  return { mean, p, bins };
}
