/* Every call at once on threads of the least stack, on one lent file of each format: the answers are those of one
   thread. The paths of samples/document01.bin and samples/dual.bin are the arguments. */
#define _POSIX_C_SOURCE 200809L
#include "check.h"
#include "polar.h"
#include "sample.h"

#include <limits.h>
#include <pthread.h>
#include <string.h>

enum { THREADS = 8, ROUNDS = 200 };

static uint8_t dual[65536];
static size_t dual_len;

/* All that the calls answer and write. */
typedef struct {
    uint64_t returned[16];
    uint64_t run[2], opened[9], dual_opened[9], bin[1], dual_bin[1], list[3], house[3];
    int64_t cut[10], dual_cut[6];
    uint8_t levels[8], from[8], run_levels[8], run_octets[8], marks[8], marks_from[8];
    int32_t values[8], values_from[8];
    polar_ray_record records[2];
    double value, dual_value;
    uint32_t words[8 * POLAR_ENTRY_WORDS], house_words[8 * POLAR_ENTRY_WORDS];
} answers;

static void every_call(answers *a)
{
    static const uint8_t octets[] = {3, 11};
    uint64_t *returned = a->returned;

    *returned++ = polar_run_check(octets, 2, 10, 1);
    *returned++ = polar_run_read(octets, 2, 10, 1, a->run_levels, 8);
    *returned++ = polar_run_write(octets, 2, a->run_octets, 8, a->run);
    *returned++ = polar_open(file, len, a->opened);
    *returned++ = polar_cut(file, len, 0, a->cut);
    *returned++ = polar_ray_levels(file, len, 0, 1, a->levels, 8);
    *returned++ = polar_ray_values(file, len, 0, 1, a->marks, 8, a->values, 8);
    *returned++ = polar_build_index(file, len, 0, a->records, 2);
    *returned++ = polar_ray_levels_from(file, len, 0, 1, a->records[1].offset, a->records[1].before, a->from, 8);
    *returned++ = polar_ray_values_from(file, len, 0, 1, a->records[1].offset, a->records[1].before, a->marks_from, 8,
                                        a->values_from, 8);
    *returned++ = polar_bin_value(file, len, 0, 1, 0, &a->value, a->bin);
    *returned++ = polar_stretches(file, len, 0, 4000, 0, 0, a->words, 8 * POLAR_ENTRY_WORDS, a->list);
    *returned++ = polar_house_stretches(file, len, 0, 0, 0, a->house_words, 8 * POLAR_ENTRY_WORDS, a->house);
    *returned++ = polar_dual_open(dual, dual_len, a->dual_opened);
    *returned++ = polar_dual_cut(dual, dual_len, 0, a->dual_cut);
    *returned++ = polar_dual_bin_value(dual, dual_len, 0, 0, 0, &a->dual_value, a->dual_bin);
}

static answers expected;

/* Answers its argument where every round answered as one thread did. */
static void *rounds(void *argument)
{
    answers *mine = argument;
    int i;

    for (i = 0; i < ROUNDS; i++) {
        memset(mine, 0, sizeof *mine);
        every_call(mine);
        if (memcmp(mine, &expected, sizeof expected) != 0)
            return NULL;
    }
    return argument;
}

int main(int argc, char **argv)
{
    static answers of_thread[THREADS];
    pthread_t threads[THREADS];
    pthread_attr_t least;
    void *same;
    size_t i;

    if (argc < 3 || !read_sample(2, argv + 1))
        return 2;
    memcpy(dual, file, len);
    dual_len = len;
    if (!read_sample(argc, argv))
        return 2;
    memset(&expected, 0, sizeof expected);
    every_call(&expected);
    for (i = 0; i < 16; i++)
        CHECK(expected.returned[i] == 0);
    CHECK(expected.value == 41.12 && expected.list[POLAR_LIST_COUNT] == 5);

    CHECK(pthread_attr_init(&least) == 0);
    CHECK(pthread_attr_setstacksize(&least, PTHREAD_STACK_MIN > 16384 ? PTHREAD_STACK_MIN : 16384) == 0);
    for (i = 0; i < THREADS; i++)
        CHECK(pthread_create(threads + i, &least, rounds, of_thread + i) == 0);
    for (i = 0; i < THREADS; i++) {
        CHECK(pthread_join(threads[i], &same) == 0);
        CHECK(same == of_thread + i);
    }
    return checks_failed != 0;
}
