/* Calls hinth_cut_text from C. Prints a line for each check; exits with 1 if one is wrong. */
#include "hinthevoun.h"
#include "checks.h"

#include <math.h>
#include <string.h>

#define MARK 0xa5u
#define MARKS 0xa5a5a5a5a5a5a5a5u
#define OLD 0
#define NEW 1
static const char *triangle = "M0 0L3 0L0 6Z";
static uint8_t tags[8], bytes[64];
static uint32_t points[40], scene[100], prefixes[256], lines[60];
static uint64_t out[4];

/* The room of each list, which a check may make smaller. */
static size_t n_tags, n_points, n_scene, n_prefixes, n_lines, n_bytes, n_out;

static void ample(void) {
    n_tags = 8, n_points = 40, n_scene = 100, n_prefixes = 256, n_lines = 60, n_bytes = 64, n_out = 4;
}

static uint32_t called(const char *text, float a, float c, float d, uint32_t table) {
    memset(tags, MARK, sizeof tags);
    memset(bytes, MARK, sizeof bytes);
    memset(points, MARK, sizeof points);
    memset(scene, MARK, sizeof scene);
    memset(lines, MARK, sizeof lines);
    memset(out, MARK, sizeof out);
    return hinth_cut_text((const uint8_t *)text, strlen(text), a, 0, c, d, 0, 0, table, tags, n_tags, points, n_points, scene, n_scene,
                          prefixes, n_prefixes, lines, n_lines, bytes, n_bytes, out, n_out);
}

/* whether the bytes begin with the file and all behind it are as they were */
static int holds(const char *file) {
    size_t length = strlen(file);
    int right = memcmp(bytes, file, length) == 0;
    for (size_t i = length; i < sizeof bytes; i++) right &= bytes[i] == MARK;
    return right && out[0] == length;
}

static int cuts(const char *text, float a, float d, uint32_t table, const char *file) {
    return called(text, a, 0, d, table) == 0 && holds(file) && out[1] == 0 && out[2] == 0 && out[3] == MARKS;
}

static int refuses(const char *text, float a, float c, uint32_t table, uint32_t number, uint64_t stage, uint64_t place) {
    return called(text, a, c, 1, table) == number && holds("") && out[1] == stage && out[2] == place && out[3] == MARKS;
}

static void files(void) {
    ample();
    CHECK(cuts(triangle, 1, 1, NEW, "IN;PU0,0;PD3,0;PD0,6;PD0,0;"));
    CHECK(memcmp(tags, "\x09\x09\x0d\xa5", 4) == 0 && scene[0] == 0x09094020u && scene[1] == 0x100du && scene[63] == 0);
    CHECK(memcmp(scene + 64, points, 32) == 0 && scene[79] == 0 && scene[80] == 0xa5a5a5a5u);
    CHECK(lines[1] == 2 && lines[7] == 3 && lines[13] == 4 && lines[18] == 0xa5a5a5a5u);
    CHECK(cuts(triangle, 2, -2, OLD, "IN;PU0,0;PD6,0;PD0,-12;PD0,0;"));
    CHECK(cuts("M0 0L32768 0Z", 1, 1, NEW, "IN;PU0,0;PD32768,0;PD0,0;"));
    n_tags = 3, n_points = 8, n_scene = 80, n_prefixes = 8, n_lines = 18, n_bytes = 27;
    CHECK(cuts(triangle, 1, 1, NEW, "IN;PU0,0;PD3,0;PD0,6;PD0,0;"));
    n_tags = n_points = n_lines = 0, n_scene = 72, n_prefixes = 4, n_bytes = 3;
    CHECK(cuts("", 1, 1, OLD, "IN;"));
}

static void refusals(void) {
    ample();
    CHECK(refuses("M0 0H3", 1, 0, NEW, 60, 1, 4) && refuses("M0 0L1234567890 0", 1, 0, NEW, 61, 1, 5));
    CHECK(refuses(triangle, 1, 1, NEW, 73, 4, 2) && refuses(triangle, 1, NAN, NEW, 73, 4, 2));
    CHECK(refuses(triangle, INFINITY, 0, NEW, 9, 5, 2));
    CHECK(refuses("M0 0L1 1L8388608 0Z", 1, 0, NEW, 30, 6, 1) && refuses("M0 0L1 1L32768 0Z", 1, 0, OLD, 30, 6, 1));
    CHECK(refuses("M0 0L1 1L32768 0Z", 1, 0, 2, 30, 6, 1));
    n_tags = 2;
    CHECK(refuses(triangle, 1, 0, NEW, 21, 1, 12));
    n_tags = 8, n_scene = 79;
    CHECK(refuses(triangle, 1, 0, NEW, 80, 2, 80) && scene[0] == 0xa5a5a5a5u);
    n_scene = 80, n_prefixes = 7;
    CHECK(refuses(triangle, 1, 0, NEW, 3, 4, 4));
    n_prefixes = 8, n_lines = 17;
    CHECK(refuses(triangle, 1, 0, NEW, 6, 5, 4) && lines[6] == 0 && lines[12] == 0xa5a5a5a5u);
    n_lines = 18, n_bytes = 26;
    CHECK(refuses(triangle, 1, 0, NEW, 31, 6, 2));
    n_bytes = 2;
    CHECK(refuses(triangle, 1, 0, NEW, 31, 6, 0));
    ample(), n_out = 2;
    CHECK(called(triangle, 1, 0, 1, NEW) == 0 && out[0] == MARKS && out[1] == MARKS && bytes[0] == 'I');
}

int main(void) {
    files();
    refusals();
    return failed;
}
