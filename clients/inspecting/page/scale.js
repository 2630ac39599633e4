// The scale of a time axis: from a minute to a millisecond, and what stands for a time on it.

const SECOND = 1_000_000;
export const SPANS = [
  [60 * SECOND, "1 min"], [10 * SECOND, "10 s"], [SECOND, "1 s"], [100_000, "100 ms"], [10_000, "10 ms"], [1_000, "1 ms"],
];
export const LEAST = 1_000, MOST = 24 * 3_600 * SECOND;

/** A step of 1, 2 or 5 and zeros, so that about so many steps fit into a span. */
export function stepOf(span, count) {
  const rough = Math.max(1, span / Math.max(1, count)), power = 10 ** Math.floor(Math.log10(rough));
  return [1, 2, 5, 10].map((it) => it * power).find((it) => it >= rough - 1e-9);
}

/** The times of the marks of an axis. */
export function marksOf(from, to, count) {
  const step = stepOf(to - from, count), found = [];
  for (let at = Math.ceil(from / step) * step; at <= to; at += step) found.push(at);
  return found;
}

/** A time in words as fine as the step between two marks: of the day if that is known, otherwise since the start. */
export function textOf(time, step, epoch) {
  const digits = step >= SECOND ? 0 : step >= 1_000 ? 3 : 6;
  const all = epoch ? dayTime(epoch + time) : time / SECOND;
  const seconds = epoch ? all % 60 : all, text = seconds.toFixed(digits);
  if (!epoch) return `${text} s`;
  const two = (number) => String(Math.floor(number)).padStart(2, "0");
  return `${two(all / 3_600)}:${two((all / 60) % 60)}:${text.padStart(digits ? 3 + digits : 2, "0")}`;
}

/** The seconds of the day here. */
function dayTime(micros) {
  const zone = new Date(micros / 1_000).getTimezoneOffset() * 60;
  return (((Math.floor(micros) / SECOND - zone) % 86_400) + 86_400) % 86_400;
}
