/* Calls each function of the header from C. Prints a line for each check; exits with 1 if one is wrong. */
#include "hinthevoun.h"
#include "checks.h"

#include <stdio.h>
#include <string.h>

/* The answer must have this word, or be a NaN where the word is a NaN's. */
static void expect(const char *call, float answer, uint32_t word) {
    uint32_t got;
    memcpy(&got, &answer, sizeof got);
    int nan_wanted = (word & 0x7fffffffu) > 0x7f800000u;
    int right = nan_wanted ? answer != answer : got == word;
    printf("%s %s = %08lx\n", right ? "ok  " : "FAIL", call, (unsigned long)got);
    failed |= !right;
}

#define EXPECT(call, word) expect(#call, call, word)

/* A triangle: its tags at word 0, points at 64, transform at 68, style at 74; and what is stored of it, by tags 2 to 4. */
#define SCENE_LEN 76
#define TRANSFORM 68
#define STYLE 74
static uint32_t triangle[SCENE_LEN] = {
    [0] = 0x01014020u, 0x00001005u, [64] = 0x00000000u, 0x00000003u, 0x00060000u, 0x00000000u,
    [TRANSFORM] = 0x3f800000u, 0, 0, 0x3f800000u, 0, 0, [STYLE] = 0, 0};
static const uint32_t triangle_lines[18] = {0, 2, 0, 0, 0x40400000u, 0, 0, 3, 0x40400000u,
                                            0, 0, 0x40c00000u, 0, 4, 0, 0x40c00000u, 0, 0};

/* What one call is lent: lists one longer than the scan, the lines and the answer need, filled with a mark. */
#define MARK 0xa5a5a5a5u
static uint32_t prefixes[4 * SCENE_LEN + 1], lines[19];
static struct hinth_box box;
static uint64_t out[4];

static void prepare(void) {
    const struct hinth_box fresh = {INT32_MAX, INT32_MAX, INT32_MIN, INT32_MIN, 7, 7};
    for (size_t i = 0; i < sizeof prefixes / sizeof *prefixes; i++) prefixes[i] = MARK;
    for (size_t i = 0; i < sizeof lines / sizeof *lines; i++) lines[i] = MARK;
    for (size_t i = 0; i < sizeof out / sizeof *out; i++) out[i] = MARK;
    box = fresh;
}

/* Whether the first words are the triangle's lines and the others are as at entry. */
static int stored(size_t words) {
    for (size_t i = 0; i < sizeof lines / sizeof *lines; i++)
        if (lines[i] != (i < words ? triangle_lines[i] : MARK)) return 0;
    return 1;
}

static int boxed(uint32_t draw_flags, uint32_t trans_ix) {
    return box.x0 == 0 && box.y0 == 0 && box.x1 == 3 && box.y1 == 6 && box.draw_flags == draw_flags &&
           box.trans_ix == trans_ix;
}

static uint32_t scan(uint32_t tag_base, size_t out_len) {
    prepare();
    return hinth_scan(triangle, SCENE_LEN, tag_base, prefixes, 4 * SCENE_LEN + 1, out, out_len);
}

static uint32_t flatten(uint32_t data_base, size_t n_boxes, size_t line_words, size_t out_len) {
    scan(0, 0);
    return hinth_flatten(1, 0, data_base, TRANSFORM, STYLE, triangle, SCENE_LEN, prefixes, 4 * SCENE_LEN, &box, n_boxes, lines,
                         line_words, out, out_len);
}

/* none of a transform's six numbers may be a NaN or an infinity; a large one is another matter */
static void bad_transforms(void) {
    static const uint32_t bad[3] = {0x7f800000u, 0xff800000u, 0x7fc00000u};
    for (size_t i = 0; i < 6; i++)
        for (size_t k = 0; k < 3; k++) {
            uint32_t sound = triangle[TRANSFORM + i];
            triangle[TRANSFORM + i] = bad[k];
            CHECK(flatten(64, 1, 19, 3) == 9 && out[0] == 2 && out[1] == 0 && out[2] == 0 && out[3] == MARK && stored(0));
            CHECK(box.x0 == INT32_MAX && box.draw_flags == 7 && box.trans_ix == 7);
            triangle[TRANSFORM + i] = sound;
        }
    triangle[TRANSFORM] = 0x7f7fffffu;
    CHECK(flatten(64, 1, 19, 3) == 8 && out[0] == 2);
    triangle[TRANSFORM] = 0x3f800000u;
}

/* a stroke whose marker leads to NaN has a cap that starts nowhere; one of width NaN has no count */
static void not_numbers(void) {
    static const uint32_t stroke[80] = {[0] = 0x0e094020u, [1] = 0x00000010u,
                                        [66] = 0x40400000u, [70] = 0x7fc00000u,
                                        [72] = 0x3f800000u, [75] = 0x3f800000u,
                                        [78] = 0x80000000u, [79] = 0x3f800000u};
    for (size_t out_len = 1; out_len <= 3; out_len++) {
        prepare();
        CHECK(hinth_scan(stroke, 80, 0, prefixes, 4 * SCENE_LEN, out, 0) == 0);
        CHECK(hinth_flatten(1, 0, 64, 72, 78, stroke, 80, prefixes, 4 * SCENE_LEN, &box, 1, lines, 19, out, out_len) == 5);
        CHECK(out_len < 2 ? out[0] == MARK : out[0] == 3 && out[1] == 3);
        CHECK(out[2] == (out_len < 3 ? MARK : 1) && out[3] == MARK);
    }
    triangle[STYLE] = 0x80000000u;
    triangle[STYLE + 1] = 0x7fc00000u;
    CHECK(flatten(64, 1, 19, 3) == 8 && out[0] == 2 && out[1] == 0 && out[2] == 0 && stored(0));
    triangle[STYLE] = 0;
    triangle[STYLE + 1] = 0;
}

static void paths(void) {
    /* the second prefix sums a transform, a style and two lines; the third also a last line and a path */
    CHECK(scan(0, 3) == 0 && out[0] == SCENE_LEN && out[1] == MARK);
    CHECK(prefixes[3] == 0 && prefixes[4] == 0 && prefixes[5] == 1 && prefixes[6] == 2 && prefixes[7] == 2);
    CHECK(prefixes[8] == 1 && prefixes[9] == 1 && prefixes[10] == 2 && prefixes[11] == 4);
    CHECK(prefixes[4 * SCENE_LEN - 1] != MARK && prefixes[4 * SCENE_LEN] == MARK);
    CHECK(scan(SCENE_LEN, 1) == 0 && out[0] == 0 && prefixes[0] == MARK);
    CHECK(scan(SCENE_LEN + 1, 1) == 1 && out[0] == 0 && prefixes[0] == MARK);
    CHECK(scan(0, 0) == 0 && out[0] == MARK);
    CHECK(flatten(64, 1, 19, 2) == 0 && out[0] == 0 && out[1] == 3 && out[2] == MARK);
    CHECK(stored(18) && boxed(0, 0));
    CHECK(flatten(64, 1, 19, 1) == 0 && out[0] == MARK && out[1] == MARK && stored(18) && boxed(0, 0));
    CHECK(flatten(64, 1, 19, 3) == 0 && out[1] == 3 && out[2] == 0 && out[3] == MARK);
    CHECK(flatten(64, 1, 12, 2) == 6 && out[0] == 4 && out[1] == 2);
    CHECK(stored(12) && boxed(7, 7));
    CHECK(flatten(64, 0, 19, 2) == 4 && out[0] == 5 && out[1] == 3);
    CHECK(stored(18) && box.x0 == INT32_MAX);
    CHECK(flatten(SCENE_LEN + 1, 1, 19, 2) == 1 && out[0] == 0 && out[1] == 0 && stored(0));
    bad_transforms();
    not_numbers();
}

int main(void) {
    EXPECT(hinth_sqrt(2.0f), 0x3fb504f3u);
    EXPECT(hinth_sqrt(-1.0f), 0x7fc00000u);
    EXPECT(hinth_hypot(3.0f, 4.0f), 0x40a00000u);
    EXPECT(hinth_cbrt(-8.0f), 0xc0000000u);
    EXPECT(hinth_two_thirds(8.0f), 0x40800000u);
    EXPECT(hinth_two_thirds(-8.0f), 0x7fc00000u);
    EXPECT(hinth_half(0xabcd4400u), 0x40800000u);
    EXPECT(hinth_half(0x0001u), 0x33800000u);
    EXPECT(hinth_sin(0.0f), 0x00000000u);
    EXPECT(hinth_sin(-0.0f), 0x80000000u);
    EXPECT(hinth_cos(0.0f), 0x3f800000u);
    EXPECT(hinth_sin(100000.0f), 0x3d126d55u);
    EXPECT(hinth_cos(-100000.0f), 0xbf7fd61cu);
    EXPECT(hinth_atan2(-0.0f, 1.0f), 0x80000000u);
    EXPECT(hinth_atan2(1.0f, 0.0f), 0x3fc90fdbu);
    EXPECT(hinth_asin(2.0f), 0x7fc00000u);
    EXPECT(hinth_acos(0.0f), 0x3fc90fdbu);
    EXPECT(hinth_acos(1.0f), 0x00000000u);
    paths();
    return failed;
}
