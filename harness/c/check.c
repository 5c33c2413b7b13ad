/* Calls hinth_check from C. Prints a line for each check; exits with 1 if one is wrong. */
#include "hinthevoun.h"
#include "checks.h"

#define MARK 0xa5a5a5a5u
#define ONE 0x3f800000u
#define MINUS_ZERO 0x80000000u
static uint64_t out[3];

static uint32_t called(const uint32_t *list, size_t words, size_t out_len) {
    for (size_t i = 0; i < 3; i++) out[i] = MARK;
    return hinth_check(list, words, out, out_len);
}

/* whether the call returns this, tells these two words and writes nothing else */
static int says(const uint32_t *list, size_t words, uint32_t number, uint64_t verdict, uint64_t record) {
    return called(list, words, 3) == number && out[0] == verdict && out[1] == record && out[2] == MARK;
}

/* there and back, with zeros of both signs and a second word that is no number; and the way back in another path */
static void balances(void) {
    static const uint32_t loop[12] = {0, 7, 0, MINUS_ZERO, ONE, 0, 0, 0x7fc00000u, ONE, MINUS_ZERO, MINUS_ZERO, 0};
    static const uint32_t mixed[12] = {0, 0, 0, 0, ONE, 0, 1, 0, ONE, 0, 0, 0};
    CHECK(says(loop, 0, 0, 0, 0));
    CHECK(says(loop, 12, 0, 0, 0));
    CHECK(says(loop, 6, 0, 2, 0));
    CHECK(says(loop + 6, 6, 0, 2, 0));
    CHECK(says(mixed, 12, 0, 2, 0));
    CHECK(called(loop, 6, 2) == 0 && out[0] == 2 && out[1] == 0);
    CHECK(called(loop, 6, 1) == 0 && out[0] == MARK && out[1] == MARK);
    CHECK(called(loop, 6, 0) == 0 && out[0] == MARK);
}

/* a bad number goes before a gap, wherever it stands */
static void numbers(void) {
    static const uint32_t bad[4] = {0x7f800000u, 0xff800000u, 0x7f800001u, 0xffffffffu};
    for (size_t place = 2; place < 6; place++)
        for (size_t i = 0; i < 4; i++) {
            uint32_t list[12] = {0, 0, 0, 0, ONE, 0, 5, 0, 0, 0, 0, 0};
            list[6 + place] = bad[i];
            CHECK(says(list, 12, 0, 1, 1));
        }
}

/* 50 goes before 51, and both before any record */
static void sizes(void) {
    static uint32_t list[6 * 2001 + 5];
    list[2] = 0x7fc00000u;
    CHECK(says(list, 6 * 2000, 0, 1, 0));
    CHECK(says(list, 6 * 2000 + 5, 51, 0, 0));
    CHECK(says(list, 6 * 2001, 50, 0, 0));
    CHECK(says(list, 6 * 2001 + 5, 50, 0, 0));
    CHECK(says(list, 5, 51, 0, 0));
    CHECK(says(list + 6, 6 * 2000, 0, 0, 0));
}

int main(void) {
    balances();
    numbers();
    sizes();
    return failed;
}
