/* Arithmetic of 128 bits, which a processor of 64 bits has no instructions for: what a compiler calls by these names.
 *
 * `page/test_arithmetic` compares each function with the compiler's own on a million cases. Nothing here uses a shift, a product
 * or a division of 128 bits, which would become calls of these very functions.
 */
typedef __UINT64_TYPE__ u64;
typedef __INT64_TYPE__ i64;
typedef __UINT32_TYPE__ u32;
typedef unsigned __int128 wide;
typedef __int128 signed_wide;

/* A number of 128 bits as its two halves. */
struct halves {
    u64 low, high;
};

static struct halves halves_of(wide number)
{
    union {
        wide number;
        struct halves halves;
    } both = {number};
    return both.halves;
}

static wide wide_of(u64 high, u64 low)
{
    union {
        struct halves halves;
        wide number;
    } both = {{low, high}};
    return both.number;
}

/* A number as it is, of which the compiler knows nothing: else it knows a product of 128 bits again in the four products of
 * `product`, and makes a function call itself. */
static u64 plain(u64 number)
{
    __asm__("" : "+r"(number));
    return number;
}

/* The product of two numbers of 64 bits, by their halves of 32 bits. */
static struct halves product(u64 a, u64 b)
{
    u64 a_low = (u32)a, a_high = a >> 32, b_low = (u32)b, b_high = b >> 32;
    u64 low = a_low * b_low;
    u64 middle = a_high * b_low + (plain(low) >> 32);
    u64 other = a_low * b_high + (u32)middle;
    struct halves whole = {(other << 32) | (u32)low, a_high * b_high + (middle >> 32) + (other >> 32)};
    return whole;
}

wide __multi3(wide a, wide b)
{
    struct halves x = halves_of(a), y = halves_of(b), low = product(x.low, y.low);
    return wide_of(low.high + x.low * y.high + x.high * y.low, low.low);
}

/* Shifts by 0 to 127. */
wide __ashlti3(wide number, int by)
{
    struct halves x = halves_of(number);
    if (by == 0)
        return number;
    if (by >= 64)
        return wide_of(x.low << (by - 64), 0);
    return wide_of((x.high << by) | (x.low >> (64 - by)), x.low << by);
}

wide __lshrti3(wide number, int by)
{
    struct halves x = halves_of(number);
    if (by == 0)
        return number;
    if (by >= 64)
        return wide_of(0, x.high >> (by - 64));
    return wide_of(x.high >> by, (x.low >> by) | (x.high << (64 - by)));
}

signed_wide __ashrti3(signed_wide number, int by)
{
    struct halves x = halves_of((wide)number);
    i64 high = (i64)x.high;
    if (by == 0)
        return number;
    if (by >= 64)
        return (signed_wide)wide_of((u64)(high >> 63), (u64)(high >> (by - 64)));
    return (signed_wide)wide_of((u64)(high >> by), (x.low >> by) | (x.high << (64 - by)));
}

/* The quotient of a number of 128 bits, whose high half is below the divisor, and its rest. The divisor is shifted until its
 * highest bit is set; then two digits of 32 bits are guessed from its upper half, each too great by at most 2. */
static u64 divided(u64 high, u64 low, u64 divisor, u64 *rest)
{
    unsigned shift = (unsigned)__builtin_clzll(divisor);
    u64 d = divisor << shift, upper = d >> 32, lower = (u32)d, digits[2];
    u64 left = shift == 0 ? high : (high << shift) | (low >> (64 - shift));
    u64 next[2] = {(low << shift) >> 32, (u32)(low << shift)};
    for (int k = 0; k < 2; k++) {
        u64 digit = left / upper, over = left % upper;
        while (digit >> 32 != 0 || digit * lower > ((over << 32) | next[k])) {
            digit--;
            over += upper;
            if (over >> 32 != 0)
                break;
        }
        left = (left << 32) + next[k] - digit * d;
        digits[k] = digit;
    }
    *rest = left >> shift;
    return (digits[0] << 32) + digits[1];
}

/* The quotient by a divisor of 64 bits, and the rest. */
static wide divided_by_half(struct halves x, u64 divisor, wide *rest)
{
    u64 left = 0, high = x.high / divisor;
    u64 low = x.high == 0 ? x.low / divisor : divided(x.high % divisor, x.low, divisor, &left);
    *rest = x.high == 0 ? x.low % divisor : left;
    return wide_of(high, low);
}

/* The quotient by a divisor of more than 64 bits, and the rest. The quotient of half the number by the upper 64 bits of the
 * divisor is at most one too great, and one less than it at most one too small. */
static wide divided_by_wide(wide number, wide divisor, wide *rest)
{
    int shift = __builtin_clzll(halves_of(divisor).high);
    struct halves half = halves_of(__lshrti3(number, 1));
    u64 unused, upper = halves_of(__ashlti3(divisor, shift)).high;
    u64 guess = divided(half.high, half.low, upper, &unused) >> (63 - shift);
    u64 quotient = guess == 0 ? 0 : guess - 1;
    *rest = number - __multi3(divisor, quotient);
    if (*rest >= divisor) {
        *rest -= divisor;
        quotient++;
    }
    return quotient;
}

/* The quotient of two numbers, and the rest. As in C, nothing is said of a divisor of 0. */
static wide quotient_of(wide number, wide divisor, wide *rest)
{
    struct halves x = halves_of(number), y = halves_of(divisor);
    if (number < divisor) {
        *rest = number;
        return 0;
    }
    return y.high == 0 ? divided_by_half(x, y.low, rest) : divided_by_wide(number, divisor, rest);
}

static wide size_of(signed_wide number)
{
    return number < 0 ? -(wide)number : (wide)number;
}

wide __udivti3(wide number, wide divisor)
{
    wide rest;
    return quotient_of(number, divisor, &rest);
}

wide __umodti3(wide number, wide divisor)
{
    wide rest;
    quotient_of(number, divisor, &rest);
    return rest;
}

signed_wide __divti3(signed_wide number, signed_wide divisor)
{
    wide rest, quotient = quotient_of(size_of(number), size_of(divisor), &rest);
    return (signed_wide)((number < 0) != (divisor < 0) ? -quotient : quotient);
}

signed_wide __modti3(signed_wide number, signed_wide divisor)
{
    wide rest;
    quotient_of(size_of(number), size_of(divisor), &rest);
    return (signed_wide)(number < 0 ? -rest : rest);
}
