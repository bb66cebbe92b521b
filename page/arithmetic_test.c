/* Compares the functions of arithmetic.c, under names of their own, with what the compiler makes of the same operators. It prints
 * how many cases it tried and how many were wrong, and ends with 1 where there is one.
 */
#include <stdint.h>
#include <stdio.h>
#include <stdlib.h>

typedef unsigned __int128 wide;
typedef __int128 signed_wide;

wide page_multiply(wide a, wide b);
wide page_shift_left(wide number, int by);
wide page_shift_right(wide number, int by);
signed_wide page_shift_signed(signed_wide number, int by);
wide page_divide(wide number, wide divisor);
wide page_rest(wide number, wide divisor);
signed_wide page_divide_signed(signed_wide number, signed_wide divisor);
signed_wide page_rest_signed(signed_wide number, signed_wide divisor);

static uint64_t state = 1;

/* The next number of 64 bits of a generator (splitmix). */
static uint64_t next(void)
{
    uint64_t z = state += 0x9e3779b97f4a7c15;
    z = (z ^ (z >> 30)) * 0xbf58476d1ce4e5b9;
    z = (z ^ (z >> 27)) * 0x94d049bb133111eb;
    return z ^ (z >> 31);
}

/* A number of any length; one of four has long runs of ones and noughts, and one of eight is at or beside a power of two, where
 * a guess of a digit is most often wrong. */
static wide number(void)
{
    unsigned length = next() % 129;
    wide drawn = ((wide)next() << 64) | next();
    wide mask = length == 0 ? 0 : ~(wide)0 >> (128 - length);
    if (next() % 4 == 0)
        drawn = (~(wide)0 << next() % 128) ^ (~(wide)0 << next() % 128);
    if (next() % 8 == 0)
        drawn = ((wide)1 << next() % 128) + next() % 3 - 1;
    return drawn & mask;
}

static int is_right(wide a, wide b)
{
    int by = (int)(next() % 128);
    signed_wide x = (signed_wide)a, y = (signed_wide)b;
    /* The one quotient that does not fit. */
    int is_out = a == (wide)1 << 127 && y == -1;
    return page_multiply(a, b) == a * b && page_shift_left(a, by) == a << by && page_shift_right(a, by) == a >> by &&
           page_shift_signed(x, by) == x >> by &&
           (b == 0 || (page_divide(a, b) == a / b && page_rest(a, b) == a % b &&
                       (is_out || (page_divide_signed(x, y) == x / y && page_rest_signed(x, y) == x % y))));
}

int main(int count, char **words)
{
    long cases = count > 1 ? atol(words[1]) : 1000000, wrong = 0;
    for (long k = 0; k < cases; k++) {
        wide a = number(), b = number();
        wrong += !is_right(a, b) + !is_right(-a, b) + !is_right(a, -b);
        /* A multiple and its neighbours, whose quotient changes there. */
        wrong += b != 0 && !is_right(a / b * b - next() % 2, b);
    }
    printf("%ld cases, %ld wrong\n", 4 * cases, wrong);
    return wrong != 0;
}
