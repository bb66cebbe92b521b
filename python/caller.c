/* Calls mechdes from C as the program would be called, so that both can be compared: the words behind the program's name, of
 * which those that name files are read. It prints what the call says, and ends with its status.
 */
#include "../include/mechdes.h"
#include <stdio.h>
#include <stdlib.h>
#include <string.h>

struct bytes {
    uint8_t *at;
    size_t length;
};

/* The bytes of a file, or the status of a read fault. */
static struct bytes read_file(const char *path)
{
    FILE *file = fopen(path, "rb");
    struct bytes found = {malloc(1), 0};
    size_t room = 1;
    if (file == NULL) {
        fputs("mechdes: read fault\n", stderr);
        exit(70);
    }
    for (;;) {
        found.length += fread(found.at + found.length, 1, room - found.length, file);
        if (found.length < room)
            break;
        room *= 2;
        found.at = realloc(found.at, room);
    }
    fclose(file);
    return found;
}

int main(int count, char **words)
{
    static uint8_t out[1 << 24], err[1 << 10];
    static char text[1 << 12];
    struct bytes files[2] = {{(uint8_t *)"", 0}, {(uint8_t *)"", 0}};
    struct mechdes_counts counts;
    /* The setting comes behind the command's word, but for `make` and `drill`. Then comes the second file, if no number of units
       stands in its place. */
    const char *command = count > 1 ? words[1] : "";
    int with_files = strcmp(command, "make") != 0 && strcmp(command, "drill") != 0;
    int with_units = strcmp(command, "units") == 0 || strcmp(command, "ironunits") == 0 || strcmp(command, "threshold") == 0 ||
                     strcmp(command, "award") == 0;
    int second = with_units ? 0 : 3;
    for (int k = 1; k < count; k++) {
        int is_file = with_files && (k == 2 || k == second) && words[k][0] != '-';
        if (is_file)
            files[k == 2 ? 0 : 1] = read_file(words[k]);
        strcat(text, k == 1 ? "" : "\n");
        strcat(text, is_file ? (k == 2 ? "setting" : "second") : words[k]);
    }
    uint8_t status = mechdes_call((uint8_t *)text, strlen(text), files[0].at, files[0].length, files[1].at, files[1].length,
                                  out, sizeof out, err, sizeof err, &counts);
    fwrite(out, 1, counts.out, stdout);
    fwrite(err, 1, counts.err, stderr);
    return status;
}
