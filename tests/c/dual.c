/* The dual-polarisation calls from C on samples/dual.bin, whose path is the first argument. */
#include "check.h"
#include "polar.h"
#include "sample.h"

/* Where the sample's sections begin: 1, then 3, 4, 5, 6, 7 of its first cut. */
enum { SECTION_1 = 16, SECTION_3 = 37, SECTION_4 = 607, SECTION_5 = 1182, SECTION_7 = 1209 };

/* What opening returns with octet `octet` of the section at `section` set to `value` meanwhile. */
static uint64_t spoiled(size_t section, size_t octet, uint8_t value)
{
    uint64_t answer[9], returned;
    size_t at = section + octet - 1;
    uint8_t kept = file[at];
    size_t i;

    for (i = 0; i < 9; i++)
        answer[i] = 77;
    file[at] = value;
    returned = polar_dual_open(file, len, answer);
    file[at] = kept;
    for (i = 0; returned != 0 && i < 9; i++)
        CHECK(answer[i] == 77);
    return returned;
}

static void opening(void)
{
    uint64_t answer[9];
    int64_t cut[6];
    size_t i;

    CHECK(len == 30555);
    CHECK(polar_dual_open(file, len, answer) == 0);
    CHECK(answer[0] == 195 && answer[7] == 47695 && answer[8] == 2);
    CHECK(answer[1] == 2026 && answer[2] == 6 && answer[3] == 14 && answer[4] == 3 && answer[5] == 40 && answer[6] == 0);
    CHECK(polar_dual_cut(file, len, 1, cut) == 0);
    CHECK(cut[0] == 50 && cut[1] == 128 && cut[2] == 35859722 && cut[3] == 139959722);
    CHECK(cut[4] == 1000000 && cut[5] == 0);

    for (i = 0; i < 6; i++)
        cut[i] = -77;
    CHECK(polar_dual_cut(file, len, 2, cut) == POLAR_ARGUMENT);
    CHECK(polar_dual_cut(file, len, SIZE_MAX, cut) == POLAR_ARGUMENT);
    for (i = 0; i < 6; i++)
        CHECK(cut[i] == -77);

    /* south of the line: sign and magnitude */
    file[SECTION_3 + 22] |= 0x80;
    CHECK(polar_dual_cut(file, len, 0, cut) == 0);
    CHECK(cut[0] == 60 && cut[2] == -35859722);
    file[SECTION_3 + 22] &= 0x7F;
}

static void refusals(void)
{
    uint64_t answer[9];

    CHECK(polar_dual_open(file, 19, answer) == POLAR_FILE_SIZE);
    CHECK(polar_dual_open(file, len - 1, answer) == POLAR_SECTION_0);
    CHECK(spoiled(SECTION_4, 5, 5) == REFUSED(POLAR_FRAME, SECTION_4));
    CHECK(spoiled(SECTION_3, 53, 0) == REFUSED(POLAR_SECTION_LENGTH, SECTION_3));
    CHECK(spoiled(SECTION_1, 15, 13) == REFUSED(POLAR_FIELD, SECTION_1));
    CHECK(spoiled(SECTION_5, 19, 5) == REFUSED(POLAR_FIELD, SECTION_5));
    CHECK(spoiled(SECTION_5, 9, 1) == REFUSED(POLAR_POINTS, SECTION_5));
    /* a scan that is no turn; R of all ones in its exponent; cells of 64 bits */
    CHECK(spoiled(SECTION_3, 40, 0) == REFUSED(POLAR_UNREAD, SECTION_3));
    CHECK(spoiled(SECTION_5, 12, 0xFF) == 0);
    file[SECTION_5 + 12] |= 0x80;
    CHECK(spoiled(SECTION_5, 12, 0xFF) == REFUSED(POLAR_UNREAD, SECTION_5));
    file[SECTION_5 + 12] &= 0x7F;
    CHECK(spoiled(SECTION_5, 20, 64) == REFUSED(POLAR_UNREAD, SECTION_5));
    /* 8 bits are read, but there are too many octets for them */
    CHECK(spoiled(SECTION_5, 20, 8) == REFUSED(POLAR_SECTION_LENGTH, SECTION_7));
    /* the base format's calls do not take it */
    CHECK(polar_open(file, len, answer) == REFUSED(POLAR_SECTION_LENGTH, SECTION_3));
}

static void values(void)
{
    uint64_t answer[1] = {77};
    double value = -1.0;

    /* behind the ridge there is no value, whatever stood there */
    CHECK(polar_dual_bin_value(file, len, 0, 109, 48, &value, answer) == 0);
    CHECK(answer[0] == POLAR_MARK_MISSING && value == -1.0);
    CHECK(polar_dual_bin_value(file, len, 1, 109, 48, &value, answer) == 0);
    CHECK(answer[0] == POLAR_MARK_MEASURED && value == 56.59);
    /* a measured 0 is a value */
    CHECK(polar_dual_bin_value(file, len, 0, 32, 21, &value, answer) == 0);
    CHECK(answer[0] == POLAR_MARK_MEASURED && value == 0.0);

    answer[0] = 77;
    value = -1.0;
    CHECK(polar_dual_bin_value(file, len, 0, 0, 60, &value, answer) == POLAR_ARGUMENT);
    CHECK(polar_dual_bin_value(file, len, 0, 128, 0, &value, answer) == POLAR_ARGUMENT);
    CHECK(polar_dual_bin_value(file, len, 2, 0, 0, &value, answer) == POLAR_ARGUMENT);
    CHECK(polar_dual_bin_value(file, len, 0, SIZE_MAX, 0, &value, answer) == POLAR_ARGUMENT);
    CHECK(answer[0] == 77 && value == -1.0);
}

int main(int argc, char **argv)
{
    if (!read_sample(argc, argv))
        return 2;
    opening();
    refusals();
    values();
    return checks_failed != 0;
}
