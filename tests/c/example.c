/* example FILE: one bin of the first cut, and where that cut is blind, ray by ray. */
#include "polar.h"
#include <stdio.h>

static uint8_t file[POLAR_MOST_FILE + 1];

static int refused(uint64_t returned)
{
    printf("refused %u at %lu: %s\n", (unsigned)POLAR_NUMBER(returned), (unsigned long)POLAR_PLACE(returned),
           polar_refusal_text(POLAR_NUMBER(returned)));
    return 1;
}

int main(int argc, char **argv)
{
    FILE *in = argc > 1 ? fopen(argv[1], "rb") : NULL;
    size_t len = in != NULL ? fread(file, 1, sizeof file, in) : 0; /* no file is a file too short */
    uint64_t returned, bin[POLAR_BIN_WORDS], list[POLAR_LIST_WORDS] = {0};
    uint32_t words[100 * POLAR_ENTRY_WORDS]; /* room for a hundred entries at a time */
    double value = POLAR_NO_VALUE_DOUBLE;

    if ((returned = polar_bin_value(file, len, 0, 1, 0, &value, bin)) != 0)
        return refused(returned);
    if (bin[POLAR_BIN_MARK] == POLAR_MARK_MEASURED)
        printf("ray 1, bin 0: %.2f\n", value);
    else
        puts("ray 1, bin 0: no value, which is not 0");
    do { /* a portion begins where the last one ended, and an empty one ends the list */
        size_t ray = (size_t)list[POLAR_LIST_NEXT_RAY], first = (size_t)list[POLAR_LIST_NEXT_BIN];
        returned = polar_house_stretches(file, len, 0, ray, first, words, sizeof words / sizeof *words, list);
        if (returned != 0)
            return refused(returned);
        for (size_t i = 0; i < list[POLAR_LIST_COUNT]; i++) {
            const uint32_t *entry = words + i * POLAR_ENTRY_WORDS;
            if (entry[POLAR_ENTRY_KIND] == POLAR_MISSING)
                printf("ray %u: blind from bin %u, length %u\n", (unsigned)entry[POLAR_ENTRY_RAY],
                       (unsigned)entry[POLAR_ENTRY_FIRST], (unsigned)entry[POLAR_ENTRY_LENGTH]);
        }
    } while (list[POLAR_LIST_COUNT] > 0);
    return 0;
}
