/* Calls hinth_cut and hinth_read_cut from C. Prints a line for each check; exits with 1 if one is wrong. */
#include "hinthevoun.h"
#include "checks.h"

#include <string.h>

#define MARK 0xa5u
static uint8_t bytes[64];
static int32_t lines[12];
static uint64_t out[3];

/* whether the call returns this, tells these two words, leaves this file and touches nothing behind it */
static int cuts(const uint32_t *list, size_t words, size_t room, uint32_t number, const char *file, uint64_t record) {
    size_t stands = strlen(file);
    int right = 1;
    memset(bytes, MARK, sizeof bytes);
    memset(out, MARK, sizeof out);
    right &= hinth_cut(list, words, 7, bytes, room, out, 3) == number && out[0] == stands && out[1] == record;
    right &= out[2] == 0xa5a5a5a5a5a5a5a5u && memcmp(bytes, file, stands) == 0;
    for (size_t i = stands; i < sizeof bytes; i++) right &= bytes[i] == MARK;
    return right;
}

/* the same of a reading with room for so many numbers; the lines are 1,1 to 2,2 to 3,3 */
static int reads_by(uint32_t table, const char *file, size_t room, uint32_t number, uint64_t count, uint64_t position) {
    static const int32_t drawn[12] = {1, 1, 2, 2, 2, 2, -3, 0, -3, 0, -8388608, 8388607};
    int right = 1;
    for (size_t i = 0; i < 12; i++) lines[i] = 77;
    memset(out, MARK, sizeof out);
    right &= hinth_read_cut((const uint8_t *)file, strlen(file), table, lines, room, out, 3) == number;
    right &= out[0] == count && out[1] == position && out[2] == 0xa5a5a5a5a5a5a5a5u;
    for (size_t i = 0; i < 12; i++) right &= lines[i] == (i < 4 * count ? drawn[i] : 77);
    return right;
}

#define OLD 0
#define NEW 1

/* by both tables */
static int reads(const char *file, size_t room, uint32_t number, uint64_t count, uint64_t position) {
    return reads_by(OLD, file, room, number, count, position) && reads_by(NEW, file, room, number, count, position);
}

#define HALF 0x3f000000u
#define MINUS_HALF 0xbf000000u
#define TWO_AND_A_HALF 0x40200000u
#define NOT_A_NUMBER 0x7fc00000u

/* ties to even, a zero without a sign, another path between, and words left over; then a good start and a bad end */
static void files(void) {
    static const uint32_t list[23] = {7, 9, HALF, MINUS_HALF, TWO_AND_A_HALF, 0x3fc00000u, 8, 0, NOT_A_NUMBER, 0, 0, 0,
                                      7, 0, TWO_AND_A_HALF, 0x3fc00000u, 0xc6fffe00u, 0x46fffe00u, 7, 7, 7, 7, 7};
    static const uint32_t bad[6] = {7, 0, 0, 0, 0, NOT_A_NUMBER};
    CHECK(cuts(list, 23, 64, 0, "IN;PU0,0;PD2,2;PD-32767,32767;", 0));
    CHECK(cuts(list, 23, 30, 0, "IN;PU0,0;PD2,2;PD-32767,32767;", 0));
    CHECK(cuts(list, 23, 29, 31, "IN;PU0,0;PD2,2;", 2));
    CHECK(cuts(list, 23, 14, 31, "IN;PU0,0;", 0));
    CHECK(cuts(list, 23, 2, 31, "", 0));
    CHECK(cuts(list, 5, 64, 0, "IN;", 0));
    CHECK(cuts(bad, 6, 64, 30, "IN;PU0,0;", 0));
    CHECK(cuts(bad, 6, 9, 30, "IN;PU0,0;", 0));
    CHECK(cuts(bad, 6, 8, 31, "IN;", 0));
    CHECK(hinth_cut(list, 23, 7, bytes, 64, out, 1) == 0);
}

static void readings(void) {
    static const char *file = "IN;PU1,1;PD2,2;PD-3,0;";
    CHECK(reads(file, 12, 0, 2, 0));
    CHECK(reads(file, 8, 0, 2, 0));
    CHECK(reads(file, 7, 34, 1, 15));
    CHECK(reads("IN;PU1,1;PD2,2;PD-0,0;", 12, 33, 1, 18));
    CHECK(reads("IN;PU1,1;PD2,2", 12, 33, 0, 14));
    CHECK(reads("IN;PU1,1;PD2,2;PD-8388609,0;", 12, 32, 1, 17));
    CHECK(reads("IN;", 0, 0, 0, 0));
    CHECK(reads("", 0, 33, 0, 0));
}

/* what the new table takes and the old one does not; a number that names no table is the old one */
static void longer(void) {
    static const char *file = "IN;PU1,1;PD2,2;PD-3,0;PD-8388608,8388607;";
    static const uint32_t ends[6] = {7, 0, 0xcaffffffu, 0x4afffffeu, 0, 0};
    static const uint32_t past[6] = {7, 0, 0, 0, 0, 0x4affffffu};
    CHECK(reads_by(NEW, file, 12, 0, 3, 0));
    CHECK(reads_by(OLD, file, 12, 32, 2, 24));
    CHECK(reads_by(2, file, 12, 32, 2, 24));
    CHECK(cuts(ends, 6, 64, 0, "IN;PU-8388608,8388607;PD0,0;", 0));
    CHECK(cuts(past, 6, 64, 30, "IN;PU0,0;", 0));
}

int main(void) {
    files();
    longer();
    readings();
    return failed;
}
