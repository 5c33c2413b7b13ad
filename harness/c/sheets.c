/* Calls hinth_to_f32 and hinth_to_i16 from C. Prints a line for each check; exits with 1 if one is wrong. */
#include "hinthevoun.h"
#include "checks.h"

#include <string.h>

#define MARK 0xa5
static const uint8_t old_tags[3] = {0x21, 0x05, 0x18}, new_tags[3] = {0x29, 0x0d, 0x18};
static const uint32_t old_points[4] = {0x00020001u, 0x8000ffffu, 0x00007fffu, 0xffffffffu};
static const uint32_t new_points[6] = {0x3f800000u, 0x40000000u, 0xbf800000u, 0xc7000000u, 0x46fffe00u, 0};
static uint8_t tags[4];
static uint32_t points[7];
static uint64_t out[4];

static void clear(void) {
    memset(tags, MARK, sizeof tags);
    memset(points, MARK, sizeof points);
    memset(out, MARK, sizeof out);
}

static int is_marked(const void *from, size_t bytes) {
    const unsigned char *byte = from;
    for (size_t i = 0; i < bytes; i++)
        if (byte[i] != MARK) return 0;
    return 1;
}

static uint32_t there(size_t words, size_t tag_room, size_t point_room, size_t out_len) {
    clear();
    return hinth_to_f32(old_tags, 3, old_points, words, tags, tag_room, points, point_room, out, out_len);
}

static int told(uint64_t n_tags, uint64_t words, uint64_t at) {
    return out[0] == n_tags && out[1] == words && out[2] == at && is_marked(out + 3, 8);
}

static int is_untouched(void) { return is_marked(tags, sizeof tags) && is_marked(points, sizeof points); }

int main(void) {
    CHECK(there(4, 4, 7, 4) == 0 && told(3, 6, 0));
    CHECK(!memcmp(tags, new_tags, 3) && is_marked(tags + 3, 1));
    CHECK(!memcmp(points, new_points, sizeof new_points) && is_marked(points + 6, 4));
    CHECK(there(3, 3, 6, 2) == 0 && is_marked(out, sizeof out));
    CHECK(there(2, 0, 0, 3) == 43 && told(0, 0, 2) && is_untouched());
    CHECK(there(3, 2, 6, 3) == 42 && told(0, 0, 0) && is_untouched());
    CHECK(there(3, 3, 5, 3) == 42 && told(0, 0, 0) && is_untouched());
    clear();
    CHECK(hinth_to_f32(new_tags, 3, old_points, 0, tags, 0, points, 0, out, 3) == 40 && told(0, 0, 0) && is_untouched());
    CHECK(hinth_to_i16(new_tags, 3, new_points, 6, tags, 4, points, 7, out, 4) == 0 && told(3, 3, 0));
    CHECK(!memcmp(tags, old_tags, 3) && !memcmp(points, old_points, 12) && is_marked(points + 3, 16));
    clear();
    {
        uint32_t minus_zero[6];
        memcpy(minus_zero, new_points, sizeof new_points);
        minus_zero[5] = 0x80000000u;
        CHECK(hinth_to_i16(new_tags, 3, minus_zero, 6, tags, 0, points, 0, out, 3) == 41 && told(0, 0, 5) && is_untouched());
    }
    return failed;
}
