/* Calls hinth_mend from C. Prints a line for each check; exits with 1 if one is wrong. */
#include "hinthevoun.h"
#include "checks.h"

#include <string.h>

#define MARK 0xa5a5a5a5u
#define ONE 0x3f800000u
#define MINUS_ZERO 0x80000000u

/* the room stands right behind the list */
static uint32_t list[24];
static uint32_t report[13];
static uint64_t out[3];

/* a line of path 4 and a loop of path 2 */
static const uint32_t lines[18] = {4, 0, MINUS_ZERO, 0, ONE, 0, 2, 0, 0, 0, ONE, 0, 2, 0, ONE, 0, 0, 0};

static uint32_t called(size_t words, uint32_t within, size_t room, size_t report_words, size_t out_len) {
    memcpy(list, lines, sizeof lines);
    for (size_t i = 18; i < 24; i++) list[i] = MARK;
    for (size_t i = 0; i < 13; i++) report[i] = MARK;
    for (size_t i = 0; i < 3; i++) out[i] = MARK;
    return hinth_mend(list, words, within, list + 18, room, report, report_words, out, out_len);
}

static int marked(const uint32_t *words, size_t n) {
    for (size_t i = 0; i < n; i++)
        if (words[i] != MARK) return 0;
    return 1;
}

static int untouched(void) {
    return marked(list + 18, 6) && marked(report, 13) && memcmp(list, lines, sizeof lines) == 0;
}

static void mends(void) {
    static const uint32_t appended[6] = {4, 0xffffffffu, ONE, 0, 0, 0};
    static const uint32_t said[12] = {4, 1, ONE, 0, 0, 0, 2, 0, 0, 0, 0, 0};
    static const uint32_t left[12] = {4, 2, 0, 0, 0, 0, 2, 0, 0, 0, 0, 0};
    CHECK(called(18, 1, 6, 13, 3) == 0 && out[0] == 2 && out[1] == 1 && out[2] == MARK);
    CHECK(memcmp(list, lines, sizeof lines) == 0 && memcmp(list + 18, appended, sizeof appended) == 0);
    CHECK(memcmp(report, said, sizeof said) == 0 && report[12] == MARK);
    CHECK(hinth_check(list, 24, out, 2) == 0 && out[0] == 0);
    CHECK(called(18, 0, 0, 12, 2) == 0 && out[0] == 2 && out[1] == 0);
    CHECK(memcmp(report, left, sizeof left) == 0 && marked(list + 18, 6));
    CHECK(called(18, 1, 6, 12, 1) == 0 && out[0] == MARK && out[1] == MARK && list[18] == 4);
    CHECK(called(0, 1, 0, 0, 2) == 0 && out[0] == 0 && out[1] == 0 && untouched());
}

static void refusals(void) {
    static uint32_t many[6 * 2001 + 5];
    CHECK(called(17, 1, 6, 13, 3) == 51 && out[0] == 0 && out[1] == 0 && untouched());
    CHECK(called(18, 1, 5, 12, 3) == 53 && out[0] == 2 && out[1] == 1 && out[2] == MARK && untouched());
    CHECK(called(18, 1, 6, 11, 3) == 53 && out[0] == 2 && out[1] == 1 && untouched());
    CHECK(hinth_mend(many, 6 * 2001 + 5, 1, list + 18, 6, report, 13, out, 2) == 50 && out[0] == 0 && untouched());
    many[6 * 7 + 3] = 0x7f800000u;
    CHECK(hinth_mend(many, 6 * 2000, 1, list + 18, 0, report, 0, out, 2) == 52 && out[0] == 7 && out[1] == 0 && untouched());
}

int main(void) {
    mends();
    refusals();
    return failed;
}
