/* The index and the calls by a record from C on samples/document01.bin, whose path is the first argument. */
#include "check.h"
#include "polar.h"
#include "sample.h"

#include <string.h>

/* Where section 7 begins, and its data: 0 132 130 134 1 133 0 under V 130. */
enum { SECTION_7 = 673, DATA = SECTION_7 + 5 };

/* A record is two words, one after the other, and nothing else. */
static void shape(void)
{
    const polar_ray_record record = {7, 9};
    uint32_t words[2];

    CHECK(sizeof(polar_ray_record) == 8);
    CHECK(offsetof(polar_ray_record, offset) == 0 && offsetof(polar_ray_record, before) == 4);
    memcpy(words, &record, sizeof words);
    CHECK(words[0] == 7 && words[1] == 9);
}

static void building(void)
{
    polar_ray_record records[] = {{77, 78}, {77, 78}, {77, 78}};

    CHECK(polar_build_index(file, len, 0, records, 1) == POLAR_ROOM);
    CHECK(polar_build_index(file, len, 1, records, 0) == POLAR_ARGUMENT);
    CHECK(polar_build_index(file, len, 0, NULL, 0) == POLAR_ROOM);
    CHECK(polar_build_index(file, len - 1, 0, records, 3) == POLAR_SECTION_0);
    /* a bin too few: one past the data, which is seven octets */
    file[DATA + 1] = 131;
    CHECK(polar_build_index(file, len, 0, records, 3) == REFUSED(POLAR_DATA, DATA + 7));
    file[DATA + 1] = 132;
    CHECK(records[0].offset == 77 && records[0].before == 78 && records[1].offset == 77 && records[1].before == 78);

    CHECK(polar_build_index(file, len, 0, records, 2) == 0);
    CHECK(records[0].offset == 0 && records[0].before == 0);
    CHECK(records[1].offset == 2 && records[1].before == 3);
    CHECK(records[2].offset == 77 && records[2].before == 78);
}

/* Each ray by its record is the ray of the plain calls. */
static void rays(void)
{
    polar_ray_record records[2];
    uint8_t levels[6], plain_levels[6], marks[6], plain_marks[6];
    int32_t values[6], plain_values[6];
    size_t ray, i;

    CHECK(polar_build_index(file, len, 0, records, 2) == 0);
    for (ray = 0; ray < 2; ray++) {
        const polar_ray_record at = records[ray];

        memset(levels, 9, sizeof levels);
        memset(plain_levels, 9, sizeof plain_levels);
        CHECK(polar_ray_levels(file, len, 0, ray, plain_levels, 6) == 0);
        CHECK(polar_ray_levels_from(file, len, 0, ray, at.offset, at.before, levels, 6) == 0);
        CHECK(memcmp(levels, plain_levels, sizeof levels) == 0 && levels[5] == 9);

        memset(marks, 9, sizeof marks);
        memset(plain_marks, 9, sizeof plain_marks);
        for (i = 0; i < 6; i++)
            values[i] = plain_values[i] = -9;
        CHECK(polar_ray_values(file, len, 0, ray, plain_marks, 6, plain_values, 6) == 0);
        CHECK(polar_ray_values_from(file, len, 0, ray, at.offset, at.before, marks, 6, values, 6) == 0);
        CHECK(memcmp(marks, plain_marks, sizeof marks) == 0 && memcmp(values, plain_values, sizeof values) == 0);
        CHECK(marks[5] == 9 && values[5] == -9);
    }

    /* the record says where, whichever ray is asked for */
    CHECK(polar_ray_levels_from(file, len, 0, 1, 0, 0, levels, 6) == 0);
    CHECK(levels[0] == 0 && levels[1] == 0 && levels[2] == 130 && levels[4] == 130);
    /* and the ray's data alone is looked at: here the last octet is spoiled */
    file[DATA + 6] = 255;
    CHECK(polar_ray_levels(file, len, 0, 0, levels, 6) == REFUSED(POLAR_DATA, DATA + 6));
    CHECK(polar_ray_levels_from(file, len, 0, 0, 0, 1, levels, 6) == 0);
    CHECK(levels[0] == 0 && levels[1] == 130 && levels[4] == 130);
    file[DATA + 6] = 0;
}

/* What both calls return for a record; nothing changes. */
static uint64_t refused(uint32_t offset, uint32_t before)
{
    uint8_t levels[] = {9, 9, 9, 9, 9}, marks[] = {9, 9, 9, 9, 9};
    int32_t values[] = {-9, -9, -9, -9, -9};
    uint64_t returned = polar_ray_levels_from(file, len, 0, 0, offset, before, levels, 5);
    size_t i;

    CHECK(polar_ray_values_from(file, len, 0, 0, offset, before, marks, 5, values, 5) == returned);
    for (i = 0; i < 5; i++)
        CHECK(levels[i] == 9 && marks[i] == 9 && values[i] == -9);
    return returned;
}

static void refusals(void)
{
    uint8_t levels[] = {9, 9, 9, 9, 9}, marks[] = {9, 9, 9, 9, 9};
    int32_t values[] = {-9, -9, -9, -9, -9};
    const uint64_t unfit = REFUSED(POLAR_RECORD, SECTION_7);

    CHECK(refused(7, 0) == unfit && refused(UINT32_MAX, 0) == unfit); /* outside the data */
    CHECK(refused(1, 0) == unfit);                                    /* an octet above V */
    CHECK(refused(2, 4) == unfit && refused(0, UINT32_MAX) == unfit); /* past the run */
    CHECK(refused(4, 0) == unfit && refused(6, 0) == unfit);          /* the data ends */

    /* 10 before 11 before 13 */
    CHECK(polar_ray_levels_from(file, len, 0, 2, 7, 0, levels, 4) == POLAR_ARGUMENT);
    CHECK(polar_ray_levels_from(file, len, 1, 0, 7, 0, levels, 4) == POLAR_ARGUMENT);
    CHECK(polar_ray_levels_from(file, len, 0, 1, 7, 0, levels, 4) == POLAR_ROOM);
    CHECK(polar_ray_values_from(file, len, 0, SIZE_MAX, 7, 0, marks, 4, values, 4) == POLAR_ARGUMENT);
    CHECK(polar_ray_values_from(file, len, 0, 1, 7, 0, marks, 4, values, 5) == POLAR_ROOM);
    CHECK(polar_ray_values_from(file, len, 0, 1, 7, 0, marks, 5, values, 4) == POLAR_ROOM);
    /* and the file's own before them */
    CHECK(polar_ray_levels_from(file, len - 1, 9, 9, 7, 0, levels, 4) == POLAR_SECTION_0);
    CHECK(levels[0] == 9 && levels[3] == 9 && marks[0] == 9 && values[0] == -9);
}

int main(int argc, char **argv)
{
    if (!read_sample(argc, argv))
        return 2;
    CHECK(len == 689);
    shape();
    building();
    rays();
    refusals();
    return checks_failed != 0;
}
