/* A library in the form of include/mechdes.h that tells what it is given, so that the way in which it is called can be tried.
 *
 *   long N  answers with N bytes `x`, and N bytes `y` on standard error
 *   meet    waits, for ten seconds at most, until two calls are under way at once; its status is 0 where they are, else 1
 *   else    answers with its words, the setting and the second file, a byte of 0 between two of them; its status is 22
 */
#include "../../include/mechdes.h"
#include <stdlib.h>
#include <string.h>
#include <unistd.h>

static int inside;

/* Lays bytes into a room behind those that are there, as far as it goes, and gives the length of all. */
static size_t lay(uint8_t *room, size_t size, size_t at, const uint8_t *bytes, size_t length)
{
    for (size_t k = 0; k < length; k++)
        if (at + k < size)
            room[at + k] = bytes[k];
    return at + length;
}

static uint8_t meet(void)
{
    __atomic_add_fetch(&inside, 1, __ATOMIC_SEQ_CST);
    for (int k = 0; k < 10000 && __atomic_load_n(&inside, __ATOMIC_SEQ_CST) < 2; k++)
        usleep(1000);
    return __atomic_load_n(&inside, __ATOMIC_SEQ_CST) < 2;
}

uint8_t mechdes_call(const uint8_t *words, size_t words_length, const uint8_t *setting, size_t setting_length,
                     const uint8_t *second, size_t second_length, uint8_t *out, size_t out_room, uint8_t *err,
                     size_t err_room, struct mechdes_counts *counts)
{
    char text[64] = "";
    memcpy(text, words, words_length < sizeof text ? words_length : sizeof text - 1);
    counts->out = counts->err = 0;
    if (strcmp(text, "meet") == 0)
        return meet();
    if (strncmp(text, "long\n", 5) == 0) {
        counts->out = counts->err = strtoul(text + 5, NULL, 10);
        memset(out, 'x', counts->out < out_room ? counts->out : out_room);
        memset(err, 'y', counts->err < err_room ? counts->err : err_room);
        return 0;
    }
    counts->out = lay(out, out_room, counts->out, words, words_length);
    counts->out = lay(out, out_room, counts->out, (const uint8_t *)"", 1);
    counts->out = lay(out, out_room, counts->out, setting, setting_length);
    counts->out = lay(out, out_room, counts->out, (const uint8_t *)"", 1);
    counts->out = lay(out, out_room, counts->out, second, second_length);
    return 22;
}
