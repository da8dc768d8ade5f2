/*
 * polar.h: polar weather-radar files (GRIB2), by proved calls, in two formats: the base format, run-length packed
 * (polar_*), and the dual-polarisation format, simply packed (polar_dual_*). A file of the one is refused by the
 * other's calls. docs/FORMAT.md has the rules of both; its headings are named here.
 *
 * Any octets may be lent, whole, cut short or spoiled. Every call ends, and gives its answer or one numbered refusal
 * with its place. A call asks nothing of its caller beforehand but that the memory it is lent is there, and that what
 * it may write overlaps nothing else that it is lent. Where a length is 0 the pointer before it is not followed and may
 * be null. Any number may be handed in. Cuts, rays and bins count from 0.
 *
 * Each call returns 0, or a refusal in one word: POLAR_NUMBER has its number (POLAR_FILE_SIZE and so on), POLAR_PLACE
 * its place. On a refusal nothing that was lent has changed; else it has changed no further than is said to be written.
 * Arguments are judged as they are handed in: none is cut to fewer bits before it is.
 *
 * NO DATA IS NOT ZERO. Where there is no value a call leaves the value's place as it was. In cleared memory that reads
 * 0, which is a value: 0 dBZ, dry weather. So look at the mark before the value, each time; and fill the place with
 * POLAR_NO_VALUE (or POLAR_NO_VALUE_DOUBLE) beforehand, which no value is. Calls that this concerns say "UNCHANGED".
 *
 * Threads: the library keeps nothing between calls, and has no memory of its own that can be written. Calls may run at
 * once, also on one file, as long as nobody writes what a call is lent. No heap is used. The deepest call took about
 * 4 KiB of stack in the code that was looked at; the tests run every call on threads of 16 KiB.
 *
 * Every call on a file is lent the whole file and makes all its checks itself: "Order of checks". Values are in
 * hundredths: of dBZ for reflectivity, of m/s for velocity.
 */
#ifndef POLAR_H
#define POLAR_H

#include <math.h>
#include <stddef.h>
#include <stdint.h>

#ifdef __cplusplus
extern "C" {
#endif

#define POLAR_VERSION_MAJOR 0
#define POLAR_VERSION_MINOR 4
#define POLAR_VERSION_PATCH 0
#define POLAR_VERSION "0.4.0"

/* The refusals of calls on a file: "Refusals". The bare run calls return 8, 10 and 11 of these. */
#define POLAR_FILE_SIZE 1u      /* the lent file is under 20 or over 8,388,608 octets */
#define POLAR_SECTION_0 2u      /* section 0 is not as it should be */
#define POLAR_FRAME 3u          /* a section's length or number cannot stand here, or the end is wrong */
#define POLAR_SECTION_LENGTH 4u /* a section's own length is wrong */
#define POLAR_FIELD 5u          /* a named field is outside its rule */
#define POLAR_POINTS 6u         /* the point count in section 3 or 5 is not Nb x Nr */
#define POLAR_TABLE 7u          /* the value table differs from the published one */
#define POLAR_DATA 8u           /* data opens above V, or gives more or fewer bins than wanted: at the octet at fault */
#define POLAR_CUT_COUNT 9u      /* a section 3 or 4 begins a 65th cut */
#define POLAR_ARGUMENT 10u      /* an argument is outside its range */
#define POLAR_ROOM 11u          /* the lent room is too short */
#define POLAR_RECORD 13u        /* a record does not fit the data, or the data ends before the ray does */
#define POLAR_UNREAD 14u        /* R infinite or not a number, a width other than 8 or 16, or a scan other than PPI */

/* And that of polar_run_check and polar_run_read alone: no call on a file returns it. */
#define POLAR_V 12u             /* V is over 253 */

/*
 * What a call returned: the number of its refusal, 0 where there is none, and the refusal's place. That is where the
 * section concerned starts, counted from 0 in the file, and 0 where no section is concerned. For POLAR_DATA it is the
 * octet at fault, counted likewise: the first octet of the data if it is above V; the level or digit octet at which the
 * bins are first passed; one past the data if there are too few, and there the next section or the file's end stands.
 */
#define POLAR_NUMBER(returned) ((uint32_t)((uint64_t)(returned) & 255u))
#define POLAR_PLACE(returned) ((uint64_t)(returned) >> 8)

/* What a refusal's number means, in a plain sentence. Never null. */
static inline const char *polar_refusal_text(uint32_t number)
{
    switch (number) {
    case 0u:
        return "nothing is refused";
    case POLAR_FILE_SIZE:
        return "the file is shorter than 20 octets or longer than 8,388,608";
    case POLAR_SECTION_0:
        return "this is no radar file, or it was cut short: its first 16 octets are not as they should be, or say "
               "another length";
    case POLAR_FRAME:
        return "the sections do not follow each other as they should, or the file's end is wrong";
    case POLAR_SECTION_LENGTH:
        return "a section has not the length that it should have";
    case POLAR_FIELD:
        return "a field of a section is outside what it may be";
    case POLAR_POINTS:
        return "a section's number of points is not its bins times its rays";
    case POLAR_TABLE:
        return "the table of values is not the published one";
    case POLAR_DATA:
        return "the packed data does not give exactly the bins that it should give";
    case POLAR_CUT_COUNT:
        return "the file has more than 64 cuts";
    case POLAR_ARGUMENT:
        return "a number that was asked for is outside its range";
    case POLAR_ROOM:
        return "the room for the answer is too short";
    case POLAR_V:
        return "the greatest level of packed data is over 253";
    case POLAR_RECORD:
        return "the record is none of this cut's: no ray can be read from where it points";
    case POLAR_UNREAD:
        return "this kind of dual-polarisation file is not read: its reference value is no number, its cells are "
               "neither 8 nor 16 bits wide, or its scan is not a turn at one elevation";
    default:
        return "no refusal has this number";
    }
}

/* Limits. */
#define POLAR_LEAST_FILE 20u        /* octets of a file */
#define POLAR_MOST_FILE 8388608u    /* octets of a file */
#define POLAR_MOST_CUTS 64u         /* cuts of a file */
#define POLAR_MOST_BINS 2048u       /* Nb, bins on a ray */
#define POLAR_MOST_RAYS 1024u       /* Nr, rays of a cut */
#define POLAR_MOST_LEVELS 2097152u  /* levels of a run call */
#define POLAR_MOST_LEVEL 252u       /* the greatest level that is written */
#define POLAR_MOST_V 253u           /* the greatest V that is read under */
#define POLAR_LEAST_THRESHOLD (-32767)
#define POLAR_MOST_THRESHOLD 32767

/* The threshold of polar_house_stretches, in hundredths. */
#define POLAR_HOUSE_THRESHOLD 4000

/* Products of the base format. */
#define POLAR_REFLECTIVITY 1u
#define POLAR_VELOCITY 2u

/* Marks of a bin. A mark that is not POLAR_MARK_MEASURED goes with no value. */
#define POLAR_MARK_MISSING 0u
#define POLAR_MARK_MEASURED 1u

/* To fill the places of values with beforehand: no hundredths are so few, and no double equals the second. */
#define POLAR_NO_VALUE INT32_MIN
#define POLAR_NO_VALUE_DOUBLE ((double)NAN)

/* Kinds of a stretch. */
#define POLAR_MISSING 0u /* out of range or missing: no number */
#define POLAR_UNDER 1u   /* value below the threshold */
#define POLAR_OVER 2u    /* value at or above the threshold */

/* The words of an entry of the stretch list, and how many they are. */
#define POLAR_ENTRY_RAY 0
#define POLAR_ENTRY_FIRST 1
#define POLAR_ENTRY_LENGTH 2
#define POLAR_ENTRY_KIND 3
#define POLAR_ENTRY_WORDS 4u

/* The words of the answers, and how many they are. */
enum { POLAR_RUN_V, POLAR_RUN_OCTETS, POLAR_RUN_WORDS };
enum {
    POLAR_OPEN_PRODUCT, /* of a dual-polarisation file: the parameter number */
    POLAR_OPEN_YEAR,
    POLAR_OPEN_MONTH,
    POLAR_OPEN_DAY,
    POLAR_OPEN_HOUR,
    POLAR_OPEN_MINUTE,
    POLAR_OPEN_SECOND,
    POLAR_OPEN_SITE,
    POLAR_OPEN_CUTS,
    POLAR_OPEN_WORDS
};
enum {
    POLAR_CUT_BINS,
    POLAR_CUT_RAYS,
    POLAR_CUT_LATITUDE,
    POLAR_CUT_LONGITUDE,
    POLAR_CUT_DX,
    POLAR_CUT_DSTART,
    POLAR_DUAL_CUT_WORDS, /* the words from here on are of the base format alone */
    POLAR_CUT_START_AZIMUTH = POLAR_DUAL_CUT_WORDS,
    POLAR_CUT_MODE,
    POLAR_CUT_ELEVATION_KNOWN,
    POLAR_CUT_ELEVATION,
    POLAR_CUT_WORDS
};
enum { POLAR_BIN_MARK, POLAR_BIN_WORDS };
enum { POLAR_LIST_COUNT, POLAR_LIST_NEXT_RAY, POLAR_LIST_NEXT_BIN, POLAR_LIST_WORDS };

/* ---- runs, without a file: "Run-length rule" ---- */

/*
 * The place of a refusal is 0, but for POLAR_DATA: there it is that of the octet at fault, counted from the first of
 * `octets`, and octets_len where there are too few. A place over 2^56 - 1 (no memory has so many octets) is told as
 * 2^56 - 1.
 */

/*
 * Run check: what polar_run_read would find in `octets` under V for n levels, with nothing lent.
 * Refusals, in this order: 12 where v is over POLAR_MOST_V; 10 where n is over POLAR_MOST_LEVELS; 8.
 */
uint64_t polar_run_check(const uint8_t *octets, size_t octets_len, uint64_t v, size_t n);

/*
 * Run read: writes n levels at the front of `levels`, which has room for `room`.
 * Refusals, in this order: 12 where v is over POLAR_MOST_V; 10 where n is over POLAR_MOST_LEVELS; 11 where room is
 * under n; 8.
 */
uint64_t polar_run_read(const uint8_t *octets, size_t octets_len, uint64_t v, size_t n, uint8_t *levels, size_t room);

/*
 * Run write: writes the octets of `n` levels at the front of `octets`, which has room for `room`. Read back under the V
 * that it answers, they give the same levels. They are never more than n, and no octets that give these levels, under
 * this V or another, are fewer.
 * answer: V, number of octets (POLAR_RUN_*).
 * Refusals, in this order: 10 where n is over POLAR_MOST_LEVELS or a level over POLAR_MOST_LEVEL; 11 where room is
 * under the exact length.
 */
uint64_t polar_run_write(const uint8_t *levels, size_t n, uint8_t *octets, size_t room, uint64_t answer[2]);

/* ---- files: "Calls" ---- */

/* No call from here on returns POLAR_V: section 5 is judged before data is looked at, and refused for a V over 252. */

/*
 * Open.
 * answer: product (1 reflectivity, 2 velocity), year, month, day, hour, minute, second, site number, number of cuts
 * (POLAR_OPEN_*).
 */
uint64_t polar_open(const uint8_t *file, size_t len, uint64_t answer[9]);

/*
 * Cut: what sections 3 and 4 say of one cut.
 * answer (POLAR_CUT_*): Nb, bins on a ray; Nr, rays; latitude and longitude in 10^-6 degrees; Dx, the bins'
 * spacing, and Dstart, both in 10^-3 m; start azimuth in 10^-2 degrees; mode of operation (0, 1, 2, or 255 missing);
 * 1 where the elevation is known and 0 where it is missing; the elevation constant in 10^-2 degrees.
 * Where the elevation is missing its word is UNCHANGED: look at POLAR_CUT_ELEVATION_KNOWN first.
 * Refusal 10: cut.
 */
uint64_t polar_cut(const uint8_t *file, size_t len, size_t cut, int64_t answer[10]);

/*
 * Ray levels: writes Nb levels at the front of `levels`. Level 0 is missing: it is no value, and never 0 dBZ.
 * Refusal 10: cut, ray. Refusal 11: room under Nb.
 */
uint64_t polar_ray_levels(const uint8_t *file, size_t len, size_t cut, size_t ray, uint8_t *levels, size_t room);

/*
 * Ray values: writes Nb marks (POLAR_MARK_*) at the front of `marks` and, at each measured place, the value in
 * hundredths into `values`.
 * A missing place of `values` is UNCHANGED: look at its mark first, and fill `values` with POLAR_NO_VALUE beforehand.
 * Refusal 10: cut, ray. Refusal 11: either room under Nb.
 */
uint64_t polar_ray_values(const uint8_t *file, size_t len, size_t cut, size_t ray, uint8_t *marks, size_t marks_room,
                          int32_t *values, size_t values_room);

/*
 * A record says where a ray begins in its cut's data, which is section 7 from octet 6 on: the offset in the data of the
 * level octet whose run holds the ray's first bin, and how many bins of that run came before. Two words and nothing
 * else. "Rays by a record".
 */
typedef struct {
    uint32_t offset;
    uint32_t before;
} polar_ray_record;

/*
 * Build index: writes a record for each ray of a cut, 0 to Nr - 1, at the front of `records`, which has room for `room`
 * records.
 * Refusal 10: cut. Refusal 11: room under Nr.
 */
uint64_t polar_build_index(const uint8_t *file, size_t len, size_t cut, polar_ray_record *records, size_t room);

/*
 * Ray levels by a record, given as its two words: writes the Nb levels that decoding from there gives at the front of
 * `levels`. With the record that polar_build_index wrote for this file, cut and ray, they are those of
 * polar_ray_levels. The ray is tested for refusal 10 and takes no other part. This call and the next make every check
 * of the file but 8: they look at no data but the ray's.
 * Refusal 10: cut, ray. Refusal 11: room under Nb. Refusal 13, at the cut's section 7: the offset lies outside the
 * data; the octet there is above V; `before` is not under the run's length; the data ends before Nb bins.
 */
uint64_t polar_ray_levels_from(const uint8_t *file, size_t len, size_t cut, size_t ray, uint32_t offset,
                               uint32_t before, uint8_t *levels, size_t room);

/*
 * Ray values by a record: writes marks and values as polar_ray_values does, of the bins of polar_ray_levels_from.
 * A missing place of `values` is UNCHANGED: look at its mark first, and fill `values` with POLAR_NO_VALUE beforehand.
 * Refusal 10: cut, ray. Refusal 11: either room under Nb. Refusal 13: as there.
 */
uint64_t polar_ray_values_from(const uint8_t *file, size_t len, size_t cut, size_t ray, uint32_t offset,
                               uint32_t before, uint8_t *marks, size_t marks_room, int32_t *values,
                               size_t values_room);

/*
 * Bin value: sets *value to the value, the whole hundredths taken over exactly and divided once by 100, where the bin
 * is measured.
 * answer: the mark (POLAR_BIN_MARK).
 * Where the bin is missing *value is UNCHANGED: look at the mark first, and set *value to POLAR_NO_VALUE_DOUBLE
 * beforehand.
 * Refusal 10: cut, ray, bin.
 */
uint64_t polar_bin_value(const uint8_t *file, size_t len, size_t cut, size_t ray, size_t bin, double *value,
                         uint64_t answer[1]);

/*
 * Stretches: every longest stretch of one kind on a ray that starts at or past the point (ray, bin), by ray and then by
 * first bin, as many as fit: POLAR_ENTRY_WORDS words to an entry (ray, first bin, length, kind: POLAR_ENTRY_*) at the
 * front of `words`, which has room for `room` words. t is the threshold in hundredths, POLAR_LEAST_THRESHOLD to
 * POLAR_MOST_THRESHOLD. The point is inside the grid, or (Nr, 0).
 * answer (POLAR_LIST_*): count of entries, and the next point, ray and bin: the first unlisted start at or past
 * the point, or (Nr, 0) if there is none. Handed back as the next call's point it goes on with the list.
 * Refusal 10: cut, t, point. Refusal 11: room under POLAR_ENTRY_WORDS.
 */
uint64_t polar_stretches(const uint8_t *file, size_t len, size_t cut, int64_t t, size_t ray, size_t bin,
                         uint32_t *words, size_t room, uint64_t answer[3]);

/* The same at the house threshold, POLAR_HOUSE_THRESHOLD. */
uint64_t polar_house_stretches(const uint8_t *file, size_t len, size_t cut, size_t ray, size_t bin, uint32_t *words,
                               size_t room, uint64_t answer[3]);

/* ---- dual-polarisation files: "Dual-polarisation files" ---- */

/*
 * Open.
 * answer: parameter number (octet 11 of section 4: 195 is horizontal reflectivity, and so on), year, month, day, hour,
 * minute, second, site number, number of cuts (POLAR_OPEN_*).
 */
uint64_t polar_dual_open(const uint8_t *file, size_t len, uint64_t answer[9]);

/*
 * Cut: what section 3 says of one cut.
 * answer (POLAR_CUT_*): Nb, bins on a ray; Nr, rays; latitude and longitude in 10^-6 degrees; Dx, the bins'
 * spacing, and Dstart, both in 10^-3 m.
 * Refusal 10: cut.
 */
uint64_t polar_dual_cut(const uint8_t *file, size_t len, size_t cut, int64_t answer[6]);

/*
 * Bin value: sets *value to the value in the parameter's own unit where the bin is measured. A cell of all ones has no
 * value: it is invalid or nothing was detected there, and the file does not say which. It does not say that the radar
 * was blind. The value lies within |Y|/2^51 of the exact Y, where Y x 10^D = R + Z x 2^E, and is 0 where Y is.
 * answer: the mark (POLAR_BIN_MARK).
 * Where there is no value *value is UNCHANGED: look at the mark first, and set *value to POLAR_NO_VALUE_DOUBLE
 * beforehand.
 * Refusal 10: cut, ray, bin.
 */
uint64_t polar_dual_bin_value(const uint8_t *file, size_t len, size_t cut, size_t ray, size_t bin, double *value,
                              uint64_t answer[1]);

#ifdef __cplusplus
}
#endif

#endif
