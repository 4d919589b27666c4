// The numbers that callers pass. The core takes integers of 8, 16 or 32 bits, and WebAssembly cuts all else to
// these without a word.

export const UINT8 = [0, 2 ** 8 - 1];
export const UINT16 = [0, 2 ** 16 - 1];
export const INT32 = [-(2 ** 31), 2 ** 31 - 1];
export const UINT32 = [0, 2 ** 32 - 1];

/** The value, if it is an integer from the least to the most. Throws a TypeError if it is no number, and
 * else a RangeError. */
export function integer(name, value, [least, most]) {
  if (typeof value !== 'number') throw new TypeError(`${name}: expected an integer, got ${typeof value}`);
  if (!Number.isInteger(value) || value < least || value > most) {
    throw new RangeError(`${name}: expected an integer from ${least} to ${most}, got ${value}`);
  }
  return value;
}

/** The values, if they are an array of such integers. Throws the same errors, and a RangeError if there
 * are not so many. */
export function integers(name, values, range, count = values?.length) {
  if (!Array.isArray(values) && !(ArrayBuffer.isView(values) && 'length' in values)) {
    throw new TypeError(`${name}: expected an array of integers, got ${values === null ? 'null' : typeof values}`);
  }
  if (values.length !== count) throw new RangeError(`${name}: expected ${count} integers, got ${values.length}`);
  // Not by forEach, which leaves out what an array lacks.
  for (let k = 0; k < values.length; k++) integer(`${name}[${k}]`, values[k], range);
  return values;
}
