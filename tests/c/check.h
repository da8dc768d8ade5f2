/* CHECK(condition): counts it, and says where it failed. */
#ifndef CHECK_H
#define CHECK_H

#include <stdio.h>

static int checks_failed = 0;

#define CHECK(condition)                                                  \
    do {                                                                  \
        if (!(condition)) {                                               \
            checks_failed++;                                              \
            printf("%s:%d: not so: %s\n", __FILE__, __LINE__, #condition); \
        }                                                                 \
    } while (0)

/* What a call returns that refuses by this number at this place. */
#define REFUSED(number, place) ((uint64_t)(number) + 256u * (uint64_t)(place))

#endif
