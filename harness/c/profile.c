/* Calls hinth_profile from C. Prints a line for each check; exits with 1 if one is wrong. */
#include "hinthevoun.h"
#include "checks.h"

#include <string.h>

#define ONE 0x3f800000u
#define MARK 0xa5a5a5a5a5a5a5a5u
static uint32_t scene[86], prefixes[256];
static uint64_t out[4];

/* A triangle of three lines, tags 2 to 4, behind a transform and a style. */
static void draw(void) {
    static const uint32_t rest[22] = {0, 0, ONE, 0, ONE, ONE, 0, 0, ONE, 0, 0, ONE, 0, 0, 0, 0, 0, 0, 0, 0, 0, 0};
    memset(scene, 0, sizeof scene);
    scene[0] = 0x09094020u;
    scene[1] = 0x0000100du;
    memcpy(scene + 64, rest, sizeof rest);
}

static uint32_t tested(size_t words, size_t out_len) {
    uint64_t count;
    hinth_scan(scene, words, 0, prefixes, 256, &count, 1);
    for (int i = 0; i < 4; i++) out[i] = MARK;
    return hinth_profile(1, 0, 64, 72, 78, scene, words, prefixes, 256, out, out_len);
}

static int told(uint64_t tag, uint64_t segments, uint64_t subpaths) {
    return out[0] == tag && out[1] == segments && out[2] == subpaths && out[3] == MARK;
}

int main(void) {
    draw();
    CHECK(tested(86, 4) == 0 && told(0, 3, 1));
    CHECK(tested(86, 2) == 0 && out[0] == MARK && out[1] == MARK);
    scene[78] = 0xc0000000u;
    CHECK(tested(86, 4) == 70 && told(2, 0, 0));
    scene[78] = 0x40000000u;
    CHECK(tested(86, 4) == 71 && told(2, 0, 0));
    draw();
    scene[0] = 0x09014020u;
    CHECK(tested(86, 4) == 72 && told(2, 0, 0));
    draw();
    scene[74] = ONE;
    CHECK(tested(86, 4) == 73 && told(2, 0, 0));
    draw();
    scene[1] = 0x00001009u;
    CHECK(tested(86, 4) == 74 && told(4, 0, 0));
    draw();
    scene[71] = ONE;
    CHECK(tested(86, 4) == 74 && told(4, 0, 0));
    CHECK(tested(63, 4) == 1 && told(0, 0, 0));
    CHECK(tested(70, 4) == 2 && told(0, 0, 0));
    for (int i = 0; i < 4; i++) out[i] = MARK;
    CHECK(hinth_profile(1, 0, 64, 72, 78, scene, 86, prefixes, 3, out, 4) == 3 && told(0, 0, 0));
    return failed;
}
