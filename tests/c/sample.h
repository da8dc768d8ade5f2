/* The sample whose path is the first argument of a test: `file`, of `len` octets. */
#ifndef SAMPLE_H
#define SAMPLE_H

#include <stdint.h>
#include <stdio.h>

static uint8_t file[65536];
static size_t len;

/* 1 where the sample was read. */
static int read_sample(int argc, char **argv)
{
    FILE *sample = argc > 1 ? fopen(argv[1], "rb") : NULL;

    if (sample == NULL) {
        puts("no sample file");
        return 0;
    }
    len = fread(file, 1, sizeof file, sample);
    fclose(sample);
    return 1;
}

#endif
