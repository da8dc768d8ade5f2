/* The bare run calls from C: FORMAT.md, "Checked examples", and what stays unchanged; what the header offers besides calls. */
#include "check.h"
#include "polar.h"

#include <string.h>

static void reading(void)
{
    const uint8_t octets[] = {3, 11, 12};
    uint8_t levels[250];
    size_t i;

    memset(levels, 9, sizeof levels);
    CHECK(polar_run_check(octets, 3, 10, 246) == 0);
    CHECK(polar_run_read(octets, 3, 10, 246, levels, sizeof levels) == 0);
    for (i = 0; i < sizeof levels; i++)
        CHECK(levels[i] == (i < 246 ? 3 : 9));

    memset(levels, 9, sizeof levels);
    CHECK(polar_run_read(octets, 3, 254, 1, levels, sizeof levels) == POLAR_V);
    CHECK(polar_run_read(octets, 3, 10, 2097153, levels, sizeof levels) == POLAR_ARGUMENT);
    CHECK(polar_run_read(octets, 3, 10, 246, levels, 245) == POLAR_ROOM);
    CHECK(polar_run_read(octets, 3, 10, 245, levels, sizeof levels) == REFUSED(POLAR_DATA, 2));
    CHECK(polar_run_read(octets + 1, 2, 10, 1, levels, sizeof levels) == REFUSED(POLAR_DATA, 0));
    /* a V that fewer bits would hold as 10 */
    CHECK(polar_run_read(octets, 3, 256 + 10, 246, levels, sizeof levels) == POLAR_V);
    CHECK(polar_run_read(octets, 3, (UINT64_C(1) << 32) + 10, 246, levels, sizeof levels) == POLAR_V);
    CHECK(polar_run_check(octets, 3, 256 + 10, 246) == POLAR_V);
    CHECK(polar_run_check(octets, 3, UINT64_MAX, 246) == POLAR_V);
    for (i = 0; i < sizeof levels; i++)
        CHECK(levels[i] == 9);

    /* no octets give no levels */
    CHECK(polar_run_check(octets, 0, 10, 0) == 0);
    CHECK(polar_run_check(octets, 1, 10, 0) == REFUSED(POLAR_DATA, 0));
}

/* Octets that do not give n levels under V, and the octet at fault. */
static const struct {
    uint8_t octets[8];
    size_t len;
    uint64_t v;
    size_t n, at_fault;
} faults[] = {
    {{11}, 1, 10, 1, 0},                         /* opens above V: alone, */
    {{11, 3}, 2, 10, 1, 0},                      /* ahead of what is wanted, */
    {{255, 254, 3, 255}, 4, 253, 1, 0},          /* and ahead of more */
    {{3}, 1, 10, 0, 0},                          /* passed: by the first octet, */
    {{3, 4, 5, 6}, 4, 10, 2, 2},                 /* by a level, */
    {{3, 4, 5}, 3, 10, 2, 2},                    /* which may be the last octet, */
    {{3, 16, 9}, 3, 10, 5, 1},                   /* by a digit, */
    {{3, 4, 11, 12}, 4, 10, 3, 3},               /* which may be the last octet, */
    {{0, 131, 131, 132}, 4, 130, 1, 3},          /* behind zero digits, */
    {{0, 131, 132, 131, 131, 7}, 6, 130, 1, 2},  /* and ahead of some */
    {{0, 1, 1, 0, 1}, 5, 0, 1, 3},
    {{7, 255, 255}, 3, 252, 8, 2},
    {{3}, 0, 10, 1, 0},                          /* too few: no octet, */
    {{3}, 1, 10, 2, 1},                          /* one, */
    {{3, 4, 16}, 3, 10, 8, 3},                   /* more, */
    {{3, 4, 16, 11, 11}, 5, 10, 8, 5},           /* and zero digits behind them */
};

static void faulty_octets(void)
{
    uint8_t levels[8];
    size_t i, k;

    memset(levels, 9, sizeof levels);
    for (i = 0; i < sizeof faults / sizeof *faults; i++) {
        const uint64_t refused = REFUSED(POLAR_DATA, faults[i].at_fault);

        CHECK(polar_run_check(faults[i].octets, faults[i].len, faults[i].v, faults[i].n) == refused);
        CHECK(polar_run_read(faults[i].octets, faults[i].len, faults[i].v, faults[i].n, levels, 8) == refused);
        for (k = 0; k < sizeof levels; k++)
            CHECK(levels[k] == 9);
    }
}

/* A hundred thousand zero digits: ahead of the digit at fault, and behind it. */
static void many_zeros(void)
{
    static uint8_t octets[100002];

    memset(octets, 131, sizeof octets);
    octets[0] = 0;
    CHECK(polar_run_check(octets, sizeof octets, 130, 1) == 0);
    CHECK(polar_run_check(octets, sizeof octets, 130, 2) == REFUSED(POLAR_DATA, 100002));
    octets[100001] = 132;
    CHECK(polar_run_check(octets, sizeof octets, 130, 1) == REFUSED(POLAR_DATA, 100001));
    octets[1] = 133;
    CHECK(polar_run_check(octets, sizeof octets, 130, 2) == REFUSED(POLAR_DATA, 1));
}

static void writing(void)
{
    const uint8_t levels[] = {252, 252, 252, 252, 252, 252, 252, 252, 252, 252};
    const uint8_t expected[] = {252, 253, 253, 254, 9};
    const uint8_t above[] = {253};
    uint8_t octets[] = {9, 9, 9, 9, 9};
    uint64_t answer[2] = {77, 77};

    CHECK(polar_run_write(levels, 10, octets, 3, answer) == POLAR_ROOM);
    CHECK(answer[0] == 77 && answer[1] == 77 && octets[0] == 9);
    CHECK(polar_run_write(above, 1, octets, 5, answer) == POLAR_ARGUMENT);
    CHECK(answer[0] == 77 && answer[1] == 77 && octets[0] == 9);
    CHECK(polar_run_write(levels, 10, octets, 5, answer) == 0);
    CHECK(answer[POLAR_RUN_V] == 252 && answer[POLAR_RUN_OCTETS] == 4);
    CHECK(memcmp(octets, expected, sizeof expected) == 0);
    CHECK(polar_run_write(levels, 0, octets, 0, answer) == 0);
    CHECK(answer[0] == 0 && answer[1] == 0);
}

/* Two 7s: as short as can be, and `7 7` is as short. */
static void shortest(void)
{
    const uint8_t levels[] = {7, 7};
    uint8_t octets[] = {0, 0}, back[] = {0, 0};
    uint64_t answer[2];

    CHECK(polar_run_write(levels, 2, octets, 1, answer) == POLAR_ROOM);
    CHECK(polar_run_write(levels, 2, octets, 2, answer) == 0);
    CHECK(answer[POLAR_RUN_V] == 7 && answer[POLAR_RUN_OCTETS] == 2 && octets[0] == 7 && octets[1] == 9);
    CHECK(polar_run_read(levels, 2, 7, 2, back, 2) == 0);
    CHECK(memcmp(back, levels, 2) == 0);
}

/* Where a length is 0 the pointer may be null. */
static void nulls(void)
{
    const uint8_t octets[] = {3};
    uint64_t answer[9] = {77, 77, 77};
    int64_t cut[10];

    CHECK(polar_run_check(NULL, 0, 10, 0) == 0);
    CHECK(polar_run_check(NULL, 0, 10, 1) == REFUSED(POLAR_DATA, 0));
    CHECK(polar_run_read(NULL, 0, 10, 0, NULL, 0) == 0);
    CHECK(polar_run_read(octets, 1, 10, 1, NULL, 0) == POLAR_ROOM);
    CHECK(polar_run_write(NULL, 0, NULL, 0, answer) == 0 && answer[0] == 0 && answer[1] == 0);
    CHECK(polar_run_write(octets, 1, NULL, 0, answer) == POLAR_ROOM);
    CHECK(polar_open(NULL, 0, answer) == POLAR_FILE_SIZE);
    CHECK(polar_cut(NULL, 0, 0, cut) == POLAR_FILE_SIZE);
    CHECK(polar_ray_levels(NULL, 0, 0, 0, NULL, 0) == POLAR_FILE_SIZE);
    CHECK(polar_ray_values(NULL, 0, 0, 0, NULL, 0, NULL, 0) == POLAR_FILE_SIZE);
    CHECK(polar_build_index(NULL, 0, 0, NULL, 0) == POLAR_FILE_SIZE);
    CHECK(polar_ray_levels_from(NULL, 0, 0, 0, 0, 0, NULL, 0) == POLAR_FILE_SIZE);
    CHECK(polar_ray_values_from(NULL, 0, 0, 0, 0, 0, NULL, 0, NULL, 0) == POLAR_FILE_SIZE);
    CHECK(polar_stretches(NULL, 0, 0, 0, 0, 0, NULL, 0, answer) == POLAR_FILE_SIZE);
    CHECK(polar_house_stretches(NULL, 0, 0, 0, 0, NULL, 0, answer) == POLAR_FILE_SIZE);
    CHECK(polar_dual_open(NULL, 0, answer) == POLAR_FILE_SIZE);
    CHECK(polar_dual_cut(NULL, 0, 0, cut) == POLAR_FILE_SIZE);
}

/* A word has the number in its last eight bits and the place in the rest. */
static void words(void)
{
    CHECK(POLAR_NUMBER(0) == 0 && POLAR_PLACE(0) == 0);
    CHECK(POLAR_NUMBER(REFUSED(POLAR_RECORD, 673)) == POLAR_RECORD && POLAR_PLACE(REFUSED(POLAR_RECORD, 673)) == 673);
    CHECK(POLAR_PLACE(REFUSED(POLAR_UNREAD, POLAR_MOST_FILE)) == POLAR_MOST_FILE);
}

/* Every refusal has a text of its own, and no other number has one. */
static void texts(void)
{
    const char *none = polar_refusal_text(POLAR_UNREAD + 1);
    uint32_t number, other;

    CHECK(none == polar_refusal_text(UINT32_MAX));
    for (number = 0; number <= POLAR_UNREAD; number++) {
        CHECK(strcmp(polar_refusal_text(number), none) != 0);
        for (other = 0; other < number; other++)
            CHECK(strcmp(polar_refusal_text(number), polar_refusal_text(other)) != 0);
    }
}

/* What places are filled with is no value. */
static void no_values(void)
{
    const double none = POLAR_NO_VALUE_DOUBLE;

    CHECK(POLAR_NO_VALUE < POLAR_LEAST_THRESHOLD);
    CHECK(!(none == none));
    CHECK(POLAR_RUN_WORDS == 2 && POLAR_OPEN_WORDS == 9 && POLAR_CUT_WORDS == 10 && POLAR_DUAL_CUT_WORDS == 6);
    CHECK(POLAR_BIN_WORDS == 1 && POLAR_LIST_WORDS == 3);
}

int main(void)
{
    reading();
    faulty_octets();
    many_zeros();
    writing();
    shortest();
    nulls();
    words();
    texts();
    no_values();
    return checks_failed != 0;
}
