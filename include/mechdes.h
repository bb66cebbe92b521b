/* mechdes as one call: exact automated mechanism design in whole numbers, with the program's own statuses and texts.
 *
 * The call keeps no state, so that any number of threads may call at once. It allocates by malloc, realloc and free alone, and
 * gives back all that it took.
 */
#ifndef MECHDES_H
#define MECHDES_H

#include <stddef.h>
#include <stdint.h>

#ifdef __cplusplus
extern "C" {
#endif

/* How many bytes the texts of a call have, whatever room there was for them. */
struct mechdes_counts {
    size_t out;
    size_t err;
};

/* Carries out a command over two files in memory, and gives the status that the program would end with.
 *
 * words     the words behind the program's name, in UTF-8, with one newline between two of them and none at the end, as
 *           "check\nsetting\nanswer". Where they name a file, the name `setting` has the bytes of `setting`, and every other
 *           name those of `second`
 * out, err  the rooms for what the program would write to standard output and to standard error. A text that is longer than
 *           its room is cut there; where it is shorter, the rest of the room stays as it was
 * counts    the lengths of both texts as they are whole. Where one is greater than its room, call again with more
 *
 * The lengths and rooms are in bytes. A pointer may be to anything that is not null where its length is 0. The rooms and
 * counts must not overlap one another, nor what is read.
 *
 * Statuses: 0 an answer that says yes, or a text; 10 infeasible; 11 unbounded; 12 too wide; 20 broken or rejected; 21 violated;
 * 22 undecided; 64 words that are no command (or no UTF-8: both texts are empty then); 65 setting refused; 66 answer refused;
 * 67 word refused; 72 want of memory (both texts may be empty). 70 and 71 never come: nothing is read or written.
 */
uint8_t mechdes_call(const uint8_t *words, size_t words_length, const uint8_t *setting, size_t setting_length,
                     const uint8_t *second, size_t second_length, uint8_t *out, size_t out_room, uint8_t *err,
                     size_t err_room, struct mechdes_counts *counts);

#ifdef __cplusplus
}
#endif

#endif
