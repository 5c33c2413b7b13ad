/* Reads path data from C, with the pen and the buffers of the header. Prints a line for each check; exits with 1 if one is wrong. */
#include "hinthevoun.h"
#include "checks.h"

#include <string.h>

#define TAGS 4
#define POINTS 10
#define UNTOUCHED 0xa5a5a5a5a5a5a5a5u
static uint64_t pen[HINTH_PEN + 1];
static uint64_t out[2];
static uint8_t tags[TAGS];
static uint32_t points[POINTS];

/* Whether the text gets this number and byte, and leaves so many of these tags and floats, and marks behind them. */
static int reads(const char *text, uint32_t number, uint64_t byte, const char *drawn, const float *floats, size_t n) {
    size_t length = strlen(drawn);
    int right = 1;
    memset(pen, 0, sizeof pen);
    memset(out, 0xa5, sizeof out);
    memset(tags, 0xa5, sizeof tags);
    memset(points, 0xa5, sizeof points);
    pen[HINTH_PEN] = 77;
    right &= hinth_import(pen, HINTH_PEN, (const uint8_t *)text, strlen(text), tags, TAGS, points, POINTS, out, 2) == number;
    right &= out[0] == byte && out[1] == UNTOUCHED && pen[5] == length && pen[6] == n && pen[HINTH_PEN] == 77;
    for (size_t i = 0; i < TAGS; i++) right &= tags[i] == (i < length ? (uint8_t)drawn[i] : 0xa5);
    for (size_t i = 0; i < POINTS; i++) {
        uint32_t word = 0xa5a5a5a5u;
        if (i < n) memcpy(&word, floats + i, sizeof word);
        right &= points[i] == word;
    }
    return right;
}

int main(void) {
    static const float triangle[] = {0, 0, 3, 0, 0, 6, 0, 0};
    static const float again[] = {1, 2, 3, 4, 1, 2, 1, 2};
    static const float parted[] = {16777218, 0.5, -0.0f, 16777220, 16777218, 0.5};
    static const float rounded[] = {16777216, 0.5, -0.0f, 16777220};
    static const float full[] = {0, 0, 3, 0, 0, 6, 0, 0, 0, 0};
    CHECK(reads("M0 0L3 0L0 6Z", 0, 0, "\x09\x09\x0d", triangle, 8));
    CHECK(reads("\n M 0,0 3,0 0 6 ", 0, 0, "\x09\x09\x0d", triangle, 8));
    CHECK(reads("", 0, 0, "", NULL, 0) && reads(" \t\r\n\f", 0, 0, "", NULL, 0));
    CHECK(reads("M1 2L3 4ZL", 60, 10, "\x09\x0d", again, 6));
    CHECK(reads("M16777217.5.5-000000000 16777219", 0, 0, "\x09\x0d", parted, 6));
    CHECK(reads("M16777217 .5-000000000 16777219Q", 60, 32, "\x09", rounded, 4));
    CHECK(reads("M1 2,", 60, 5, "", NULL, 0) && reads("M1,,2", 60, 3, "", NULL, 0));
    CHECK(reads("Z", 60, 0, "", NULL, 0) && reads("M", 60, 1, "", NULL, 0) && reads("M0 0L1 2.", 60, 9, "", NULL, 0));
    CHECK(reads("M0 0L3 0L-1234567890 0", 61, 9, "\x09", triangle, 4));
    CHECK(reads("M0 0L3 0L0 6L0 0 0 0 0 0L", 21, 24, "\x09\x09\x09\x09", full, 10));
    CHECK(hinth_import(pen, HINTH_PEN - 1, (const uint8_t *)"x", 1, tags, TAGS, points, POINTS, out, 2) == 21);
    CHECK(out[0] == 0 && out[1] == UNTOUCHED && pen[5] == 4);
    CHECK(hinth_import(pen, HINTH_PEN, (const uint8_t *)"x", 1, tags, TAGS, points, POINTS, NULL, 0) == 60);
    return failed;
}
