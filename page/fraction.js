// Exact fractions, as pairs of whole numbers of any size. Nothing in the page is computed in floating point but the places of
// things in pictures.

export function greatestCommonDivisor(first, second) {
  let [a, b] = [first < 0n ? -first : first, second < 0n ? -second : second];
  while (b !== 0n) {
    [a, b] = [b, a % b];
  }
  return a;
}

/** A fraction in least terms, whose denominator is at least 1. */
export class Fraction {
  constructor(numerator, denominator = 1n) {
    const [top, bottom] = [BigInt(numerator), BigInt(denominator)];
    const divisor = greatestCommonDivisor(top, bottom) || 1n;
    const sign = bottom < 0n ? -1n : 1n;
    this.numerator = (sign * top) / divisor;
    this.denominator = (sign * bottom) / divisor;
  }

  plus(other) {
    const { numerator: a, denominator: b } = this;
    return new Fraction(a * other.denominator + other.numerator * b, b * other.denominator);
  }

  times(other) {
    return new Fraction(this.numerator * other.numerator, this.denominator * other.denominator);
  }

  over(other) {
    return new Fraction(this.numerator * other.denominator, this.denominator * other.numerator);
  }

  isZero() {
    return this.numerator === 0n;
  }

  isNegative() {
    return this.numerator < 0n;
  }

  /** The nearest number in floating point, for a place in a picture. It is right for numbers of any length. */
  toPlace() {
    const scaled = (this.numerator * 1000000000n) / this.denominator;
    return Number(scaled) / 1e9;
  }

  /** A whole number, or a fraction, with a true minus sign. */
  toString() {
    const size = this.numerator < 0n ? -this.numerator : this.numerator;
    const text = this.denominator === 1n ? `${size}` : `${size}/${this.denominator}`;
    return this.isNegative() ? `\u2212${text}` : text;
  }

  /** A decimal: rounded to four digits, and to no fewer than two behind the point. */
  toDecimal() {
    const size = this.numerator < 0n ? -this.numerator : this.numerator;
    const places = size === 0n ? 2 : Math.max(2, 3 - powerOf(size, this.denominator));
    const digits = `${(2n * size * 10n ** BigInt(places) + this.denominator) / (2n * this.denominator)}`.padStart(places + 1, "0");
    const text = `${digits.slice(0, -places)}.${digits.slice(-places)}`.replace(/\.?0+$/, "");
    return this.isNegative() ? `\u2212${text}` : text;
  }
}

/** The greatest power of ten that is at most a fraction above 0, by its exponent. */
function powerOf(top, bottom) {
  const digits = `${top}`.length - `${bottom}`.length;
  const isReached = top * 10n ** BigInt(Math.max(-digits, 0)) >= bottom * 10n ** BigInt(Math.max(digits, 0));
  return isReached ? digits : digits - 1;
}

/** The sum of fractions. */
export function sum(fractions) {
  return fractions.reduce((total, each) => total.plus(each), new Fraction(0n));
}

/** A whole number with spaces between its thousands, or a list's count. */
export function counted(many, singular, plural = `${singular}s`) {
  return `${many.toLocaleString("en")} ${many === 1 ? singular : plural}`;
}
