/* On a refusal not one octet of what was lent has changed, in any call. The paths of samples/document01.bin and
   samples/dual.bin are the arguments. */
#include "check.h"
#include "polar.h"
#include "sample.h"

#include <string.h>

static uint8_t dual[65536];
static size_t dual_len;

/* All that may be lent to a call, and what it held before. */
typedef struct {
    uint64_t run[POLAR_RUN_WORDS], opened[POLAR_OPEN_WORDS], bin[POLAR_BIN_WORDS], list[POLAR_LIST_WORDS];
    int64_t cut[POLAR_CUT_WORDS], dual_cut[POLAR_DUAL_CUT_WORDS];
    polar_ray_record records[2];
    double value;
    uint32_t words[8 * POLAR_ENTRY_WORDS];
    int32_t values[8];
    uint8_t levels[8], octets[8], marks[8];
} memory;

static memory lent, before;

/* A pattern in every octet; the float holds a NaN with bits of its own. */
static void fill(void)
{
    const uint64_t nan_bits = UINT64_C(0x7FF8000000000A5A);

    memset(&lent, 0xA5, sizeof lent);
    memcpy(&lent.value, &nan_bits, sizeof nan_bits);
    memcpy(&before, &lent, sizeof lent);
}

/* The call returned this refusal, and all that was lent is as it was. */
#define REFUSES(call, refusal)                               \
    do {                                                     \
        CHECK((call) == (refusal));                          \
        CHECK(memcmp(&lent, &before, sizeof before) == 0);   \
    } while (0)

static void runs(void)
{
    const uint8_t octets[] = {3, 11};

    REFUSES(polar_run_read(octets, 2, 256 + 10, 2, lent.levels, 8), POLAR_V);
    REFUSES(polar_run_read(octets, 2, 10, SIZE_MAX, lent.levels, 8), POLAR_ARGUMENT);
    REFUSES(polar_run_read(octets, 2, 10, 9, lent.levels, 8), POLAR_ROOM);
    REFUSES(polar_run_read(octets, 2, 10, 2, lent.levels, 8), REFUSED(POLAR_DATA, 2));
    REFUSES(polar_run_read(octets, 2, 10, 0, lent.levels, 8), REFUSED(POLAR_DATA, 0));
    REFUSES(polar_run_read(octets + 1, 1, 10, 1, lent.levels, 8), REFUSED(POLAR_DATA, 0));
    REFUSES(polar_run_write((const uint8_t *)"\375", 1, lent.octets, 8, lent.run), POLAR_ARGUMENT);
    REFUSES(polar_run_write(octets, 2, lent.octets, 1, lent.run), POLAR_ROOM);
}

/* Every call on `size` octets of the sample that looks at all their data, with an argument that is out of range and with
   too little room. */
static void plain_calls(size_t size, uint64_t argument, uint64_t room)
{
    REFUSES(polar_cut(file, size, 1, lent.cut), argument);
    REFUSES(polar_ray_levels(file, size, 0, 2, lent.levels, 8), argument);
    REFUSES(polar_ray_levels(file, size, 0, 1, lent.levels, 4), room);
    REFUSES(polar_ray_values(file, size, 0, 2, lent.marks, 8, lent.values, 8), argument);
    REFUSES(polar_ray_values(file, size, 0, 1, lent.marks, 8, lent.values, 4), room);
    REFUSES(polar_ray_values(file, size, 0, 1, lent.marks, 4, lent.values, 8), room);
    REFUSES(polar_build_index(file, size, 1, lent.records, 2), argument);
    REFUSES(polar_build_index(file, size, 0, lent.records, 1), room);
    REFUSES(polar_bin_value(file, size, 0, 0, 5, &lent.value, lent.bin), argument);
    REFUSES(polar_stretches(file, size, 0, 32768, 0, 0, lent.words, 8 * POLAR_ENTRY_WORDS, lent.list), argument);
    REFUSES(polar_stretches(file, size, 0, 4000, 0, 0, lent.words, POLAR_ENTRY_WORDS - 1, lent.list), room);
    REFUSES(polar_house_stretches(file, size, 0, 3, 0, lent.words, 8 * POLAR_ENTRY_WORDS, lent.list), argument);
    REFUSES(polar_house_stretches(file, size, 0, 0, 0, lent.words, POLAR_ENTRY_WORDS - 1, lent.list), room);
}

/* Those by a record, which do not. */
static void calls_by_a_record(size_t size, uint64_t argument, uint64_t room)
{
    REFUSES(polar_ray_levels_from(file, size, 0, 2, 0, 0, lent.levels, 8), argument);
    REFUSES(polar_ray_levels_from(file, size, 0, 0, 0, 0, lent.levels, 4), room);
    REFUSES(polar_ray_values_from(file, size, 0, 2, 0, 0, lent.marks, 8, lent.values, 8), argument);
    REFUSES(polar_ray_values_from(file, size, 0, 0, 0, 0, lent.marks, 4, lent.values, 8), room);
}

static void files(size_t size, uint64_t argument, uint64_t room)
{
    plain_calls(size, argument, room);
    calls_by_a_record(size, argument, room);
}

/* Data that does not give its ten bins: the seven octets of it, which begin at 678, and the octet at fault. Every call that
   looks at all data names it, before an argument and before room; the calls by a record do not come to it. */
static void bad_data(void)
{
    static const struct {
        uint8_t data[7];
        size_t at_fault;
    } bad[] = {
        {{131, 0, 140, 131, 131, 131, 131}, 0}, /* opens above V, and the rest gives ten bins */
        {{0, 141, 131, 131, 131, 131, 131}, 1}, /* passed by a digit */
        {{0, 140, 131, 131, 7, 131, 131}, 4},   /* passed by a level behind zero digits */
        {{0, 131, 131, 131, 131, 131, 132}, 6}, /* passed by the last octet */
        {{0, 139, 131, 131, 131, 131, 131}, 7}, /* a bin too few: where 7777 stands */
    };
    uint8_t kept[7];
    size_t i;

    memcpy(kept, file + 678, sizeof kept);
    for (i = 0; i < sizeof bad / sizeof *bad; i++) {
        const uint64_t data = REFUSED(POLAR_DATA, 678 + bad[i].at_fault);

        memcpy(file + 678, bad[i].data, sizeof kept);
        REFUSES(polar_open(file, len, lent.opened), data);
        REFUSES(polar_cut(file, len, 0, lent.cut), data);
        REFUSES(polar_ray_levels(file, len, 0, 1, lent.levels, 8), data);
        REFUSES(polar_ray_values(file, len, 0, 1, lent.marks, 8, lent.values, 8), data);
        REFUSES(polar_build_index(file, len, 0, lent.records, 2), data);
        REFUSES(polar_bin_value(file, len, 0, 0, 0, &lent.value, lent.bin), data);
        REFUSES(polar_stretches(file, len, 0, 4000, 0, 0, lent.words, 8 * POLAR_ENTRY_WORDS, lent.list), data);
        REFUSES(polar_house_stretches(file, len, 0, 0, 0, lent.words, 8 * POLAR_ENTRY_WORDS, lent.list), data);
        plain_calls(len, data, data);
        calls_by_a_record(len, POLAR_ARGUMENT, POLAR_ROOM);
    }
    memcpy(file + 678, kept, sizeof kept);
}

/* V over 252, and over what an octet holds: every call on the file refuses section 5 for it, which begins at 146, and
   none returns POLAR_V. The dual-polarisation calls do not come so far. */
static void greatest_levels(void)
{
    static const uint16_t over[] = {253, 254, 255, 256, 65535};
    const uint64_t field = REFUSED(POLAR_FIELD, 146), length = REFUSED(POLAR_SECTION_LENGTH, 37);
    uint8_t *v = file + 146 + 12;
    const uint8_t kept[] = {v[0], v[1]};
    size_t i;

    for (i = 0; i < sizeof over / sizeof *over; i++) {
        v[0] = (uint8_t)(over[i] >> 8);
        v[1] = (uint8_t)(over[i] & 255);
        files(len, field, field);
        REFUSES(polar_open(file, len, lent.opened), field);
        REFUSES(polar_dual_open(file, len, lent.opened), length);
        REFUSES(polar_dual_cut(file, len, 0, lent.dual_cut), length);
        REFUSES(polar_dual_bin_value(file, len, 0, 0, 0, &lent.value, lent.bin), length);
    }
    memcpy(v, kept, sizeof kept);
}

int main(int argc, char **argv)
{
    if (argc < 3 || !read_sample(2, argv + 1))
        return 2;
    memcpy(dual, file, len);
    dual_len = len;
    if (!read_sample(argc, argv))
        return 2;
    fill();
    runs();
    files(len, POLAR_ARGUMENT, POLAR_ROOM);
    files(len - 1, POLAR_SECTION_0, POLAR_SECTION_0);
    REFUSES(polar_open(file, len - 1, lent.opened), POLAR_SECTION_0);
    bad_data();
    greatest_levels();
    /* the month of section 1, which begins at 16: a refusal with a place */
    file[16 + 14] = 13;
    files(len, REFUSED(POLAR_FIELD, 16), REFUSED(POLAR_FIELD, 16));
    REFUSES(polar_open(file, len, lent.opened), REFUSED(POLAR_FIELD, 16));

    REFUSES(polar_dual_open(dual, dual_len - 1, lent.opened), POLAR_SECTION_0);
    REFUSES(polar_dual_cut(dual, dual_len, 2, lent.dual_cut), POLAR_ARGUMENT);
    REFUSES(polar_dual_bin_value(dual, dual_len, 2, 0, 0, &lent.value, lent.bin), POLAR_ARGUMENT);
    dual[16 + 14] = 13;
    REFUSES(polar_dual_open(dual, dual_len, lent.opened), REFUSED(POLAR_FIELD, 16));
    REFUSES(polar_dual_cut(dual, dual_len, 0, lent.dual_cut), REFUSED(POLAR_FIELD, 16));
    REFUSES(polar_dual_bin_value(dual, dual_len, 0, 0, 0, &lent.value, lent.bin), REFUSED(POLAR_FIELD, 16));
    return checks_failed != 0;
}
