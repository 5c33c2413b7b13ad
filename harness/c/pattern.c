/* Draws a triangle from C, with the pen and the buffers of the header. Prints a line for each check; exits with 1 if one is wrong. */
#include "hinthevoun.h"
#include "checks.h"

#include <math.h>
#include <string.h>

#define TAGS 4
#define POINTS 10
static uint64_t pen[HINTH_PEN + 1];
static uint8_t tags[TAGS];
static uint32_t points[POINTS];

static void prepare(void) {
    memset(pen, 0, sizeof pen);
    memset(tags, 0xa5, sizeof tags);
    memset(points, 0xa5, sizeof points);
    pen[HINTH_PEN] = 77;
}

/* Whether the tags are these and then marks. */
static int drawn(const char *bytes, size_t n) {
    for (size_t i = 0; i < TAGS; i++)
        if (tags[i] != (i < n ? (uint8_t)bytes[i] : 0xa5)) return 0;
    return pen[5] == n;
}

static int pointed(const float *floats, size_t n) {
    for (size_t i = 0; i < POINTS; i++) {
        uint32_t word = 0xa5a5a5a5u;
        if (i < n) memcpy(&word, floats + i, sizeof word);
        if (points[i] != word) return 0;
    }
    return pen[6] == n;
}

#define BUFFERS tags, TAGS, points, POINTS
#define MOVE(x, y) hinth_move(pen, HINTH_PEN, x, y, BUFFERS)
#define LINE(x, y) hinth_line(pen, HINTH_PEN, x, y, BUFFERS)
#define QUAD(x1, y1, x, y) hinth_quad(pen, HINTH_PEN, x1, y1, x, y, BUFFERS)
#define CUBIC(x1, y1, x2, y2, x, y) hinth_cubic(pen, HINTH_PEN, x1, y1, x2, y2, x, y, BUFFERS)
#define END() hinth_end(pen, HINTH_PEN, BUFFERS)

int main(void) {
    static const float triangle[] = {0, 0, 3, 0, 0, 6, 0, 0};
    prepare();
    CHECK(MOVE(0, 0) == 0 && drawn("", 0));
    CHECK(LINE(3, 0) == 0 && LINE(0, 6) == 0);
    CHECK(END() == 0);
    CHECK(drawn("\x09\x09\x0d", 3) && pointed(triangle, 8));
    CHECK(pen[0] == 0 && pen[HINTH_PEN] == 77);
    CHECK(END() == 0 && drawn("\x09\x09\x0d", 3));

    static const float curves[] = {1, 2, 3, 4, 5, 6, 7, 8, 1, 2};
    prepare();
    CHECK(MOVE(1, 2) == 0 && CUBIC(3, 4, 5, 6, 7, 8) == 0 && pen[0] == 2);
    CHECK(MOVE(9, 9) == 0 && pen[0] == 1);
    CHECK(drawn("\x0b\x0d", 2) && pointed(curves, 10));
    CHECK(QUAD(0, 0, 1, 1) == 21 && drawn("\x0b\x0d", 2) && pointed(curves, 10));

    prepare();
    CHECK(LINE(NAN, 0) == 20);
    CHECK(MOVE(0, INFINITY) == 22 && pen[0] == 0);
    CHECK(MOVE(0, -0.0f) == 0 && pen[2] == 0x80000000u);
    CHECK(QUAD(0, NAN, 1, 1) == 22 && CUBIC(0, 0, 0, 0, -INFINITY, 0) == 22);
    CHECK(hinth_line(pen, HINTH_PEN, 1, 1, tags, 0, points, POINTS) == 21);
    CHECK(hinth_line(pen, HINTH_PEN, 1, 1, tags, 1, points, 3) == 21);
    CHECK(hinth_line(pen, HINTH_PEN - 1, 1, 1, BUFFERS) == 21);
    CHECK(hinth_end(pen, 0, BUFFERS) == 21);
    CHECK(pen[0] == 1 && drawn("", 0) && pointed(curves, 0));
    return failed;
}
