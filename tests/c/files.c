/* The file calls from C on samples/document01.bin, whose path is the first argument. */
#include "check.h"
#include "polar.h"
#include "sample.h"

#include <string.h>

static void opening(void)
{
    uint64_t answer[9];
    int64_t cut[10];
    size_t i;

    CHECK(len == 689);
    CHECK(polar_open(file, len, answer) == 0);
    CHECK(answer[POLAR_OPEN_PRODUCT] == POLAR_REFLECTIVITY && answer[POLAR_OPEN_CUTS] == 1);
    CHECK(answer[POLAR_OPEN_YEAR] == 2026 && answer[POLAR_OPEN_MONTH] == 6 && answer[POLAR_OPEN_DAY] == 14);
    CHECK(answer[POLAR_OPEN_HOUR] == 3 && answer[POLAR_OPEN_MINUTE] == 40 && answer[POLAR_OPEN_SECOND] == 0);
    CHECK(answer[POLAR_OPEN_SITE] == 47695);
    CHECK(polar_cut(file, len, 0, cut) == 0);
    CHECK(cut[POLAR_CUT_BINS] == 5 && cut[POLAR_CUT_RAYS] == 2 && cut[POLAR_CUT_DX] == 500000);
    CHECK(cut[POLAR_CUT_DSTART] == 0 && cut[POLAR_CUT_START_AZIMUTH] == 4500 && cut[POLAR_CUT_ELEVATION_KNOWN] == 1);
    CHECK(cut[POLAR_CUT_ELEVATION] == 130 && cut[POLAR_CUT_LATITUDE] != 0 && cut[POLAR_CUT_LONGITUDE] != 0);

    for (i = 0; i < 10; i++)
        cut[i] = -77;
    CHECK(polar_cut(file, len, 1, cut) == POLAR_ARGUMENT);
    for (i = 0; i < 10; i++)
        CHECK(cut[i] == -77);
    for (i = 0; i < 9; i++)
        answer[i] = 77;
    CHECK(polar_open(file, len - 1, answer) == POLAR_SECTION_0);
    CHECK(polar_open(file, 19, answer) == POLAR_FILE_SIZE);

    /* the month of section 1, which begins at 16 */
    file[16 + 14] = 13;
    CHECK(polar_open(file, len, answer) == REFUSED(POLAR_FIELD, 16));
    file[16 + 14] = 6;
    /* the data begins at 678: a digit of it that makes a run longer than the bins that are left */
    file[681] = 141;
    CHECK(polar_open(file, len, answer) == REFUSED(POLAR_DATA, 681));
    file[681] = 134;
    for (i = 0; i < 9; i++)
        CHECK(answer[i] == 77);
}

static void rays(void)
{
    const uint8_t expected[] = {130, 1, 1, 1, 0, 9};
    uint8_t levels[] = {9, 9, 9, 9, 9, 9};
    uint8_t marks[] = {9, 9, 9, 9, 9, 9};
    int32_t values[] = {9, 9, 9, 9, 9, 9};
    uint64_t answer[1];
    double value = -1.0;

    CHECK(polar_ray_levels(file, len, 0, 1, levels, 4) == POLAR_ROOM);
    CHECK(polar_ray_levels(file, len, 0, 2, levels, 6) == POLAR_ARGUMENT);
    CHECK(levels[0] == 9);
    CHECK(polar_ray_levels(file, len, 0, 1, levels, 6) == 0);
    CHECK(memcmp(levels, expected, sizeof expected) == 0);
    CHECK(polar_ray_values(file, len, 0, 1, marks, 6, values, 6) == 0);
    CHECK(marks[0] == 1 && marks[3] == 1 && marks[4] == 0 && marks[5] == 9);
    CHECK(values[0] == 4112 && values[1] == 0 && values[4] == 9 && values[5] == 9);

    /* level 0 never gets a number */
    CHECK(polar_bin_value(file, len, 0, 1, 4, &value, answer) == 0);
    CHECK(answer[POLAR_BIN_MARK] == POLAR_MARK_MISSING && value == -1.0);
    CHECK(polar_bin_value(file, len, 0, 1, 0, &value, answer) == 0);
    CHECK(answer[POLAR_BIN_MARK] == POLAR_MARK_MEASURED && value == 41.12);
    CHECK(polar_bin_value(file, len, 0, 1, 5, &value, answer) == POLAR_ARGUMENT);

    /* no room is too little room, whatever its pointer */
    CHECK(polar_ray_levels(file, len, 0, 1, NULL, 0) == POLAR_ROOM);
    CHECK(polar_ray_values(file, len, 0, 1, NULL, 0, values, 6) == POLAR_ROOM);
    CHECK(polar_ray_values(file, len, 0, 1, marks, 6, NULL, 0) == POLAR_ROOM);
}

/* the words of the whole list, of five entries */
#define WHOLE (5 * POLAR_ENTRY_WORDS)

static void stretches(void)
{
    const uint32_t expected[] = {0, 0, 2, POLAR_MISSING, 0, 2, 3, POLAR_OVER,    1, 0, 1,
                                 POLAR_OVER, 1, 1, 3, POLAR_UNDER, 1, 4, 1, POLAR_MISSING};
    uint32_t words[POLAR_ENTRY_WORDS], all[WHOLE + 1];
    uint64_t answer[3];
    size_t ray = 0, bin = 0, found = 0;

    /* in portions of one entry */
    while (ray != 2 && found < 5) {
        CHECK(polar_house_stretches(file, len, 0, ray, bin, words, POLAR_ENTRY_WORDS, answer) == 0);
        CHECK(answer[POLAR_LIST_COUNT] == 1);
        CHECK(memcmp(words, expected + POLAR_ENTRY_WORDS * found, sizeof words) == 0);
        found++;
        ray = (size_t)answer[POLAR_LIST_NEXT_RAY];
        bin = (size_t)answer[POLAR_LIST_NEXT_BIN];
    }
    CHECK(found == 5 && ray == 2 && bin == 0);

    /* whole */
    all[WHOLE] = 77;
    CHECK(polar_stretches(file, len, 0, POLAR_HOUSE_THRESHOLD, 0, 0, all, WHOLE + 1, answer) == 0);
    CHECK(answer[0] == 5 && answer[1] == 2 && answer[2] == 0 && all[WHOLE] == 77);
    CHECK(memcmp(all, expected, sizeof expected) == 0);
    CHECK(polar_stretches(file, len, 0, 32768, 0, 0, all, WHOLE + 1, answer) == POLAR_ARGUMENT);
    /* thresholds that fewer bits would hold as 4000 */
    CHECK(polar_stretches(file, len, 0, INT64_C(4294967296) + 4000, 0, 0, all, WHOLE + 1, answer) == POLAR_ARGUMENT);
    CHECK(polar_stretches(file, len, 0, INT64_C(65536) + 4000, 0, 0, all, WHOLE + 1, answer) == POLAR_ARGUMENT);
    CHECK(polar_stretches(file, len, 0, INT64_MIN, 0, 0, all, WHOLE + 1, answer) == POLAR_ARGUMENT);
    CHECK(polar_stretches(file, len, 0, 0, 0, 0, all, POLAR_ENTRY_WORDS - 1, answer) == POLAR_ROOM);
    CHECK(polar_stretches(file, len, 0, 0, 0, 0, NULL, 0, answer) == POLAR_ROOM);
    CHECK(answer[0] == 5 && answer[1] == 2 && answer[2] == 0 && memcmp(all, expected, sizeof expected) == 0);
}

int main(int argc, char **argv)
{
    if (!read_sample(argc, argv))
        return 2;
    opening();
    rays();
    stretches();
    return checks_failed != 0;
}
