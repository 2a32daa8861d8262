/* convert SHEET: writes the list of the sheet in the file SHEET to standard output, as bytes. On a refusal it writes nothing there, says the number on
 * standard error, and exits with it; 64 is for a wrong use and 74 for a file that cannot be read or written. */
#include <stdio.h>

#include "zatongae.h"

/* one byte more than a sheet may have, so that a longer file is a sheet that is too large */
static uint8_t sheet[ZATONGAE_SHEET_BYTES + 1];
static uint8_t list[ZATONGAE_LIST_BYTES];

int main(int argc, char **argv) {
    if (argc != 2) {
        fprintf(stderr, "usage: convert SHEET > LIST\n");
        return 64;
    }
    FILE *file = fopen(argv[1], "rb");
    if (file == NULL) {
        perror(argv[1]);
        return 74;
    }
    size_t n = fread(sheet, 1, sizeof sheet, file);
    if (ferror(file)) {
        perror(argv[1]);
        return 74;
    }
    fclose(file);
    struct zatongae_answer answer = zatongae_convert(sheet, n, list, sizeof list);
    if (answer.number != ZATONGAE_LIST) {
        fprintf(stderr, "%s: refused, number %u\n", argv[1], (unsigned)answer.number);
        return (int)answer.number;
    }
    if (fwrite(list, 1, answer.length, stdout) != answer.length || fflush(stdout) != 0) {
        perror("standard output");
        return 74;
    }
    return 0;
}
