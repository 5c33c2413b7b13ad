/* What the C programs here share: a line for each check, and whether one was wrong. */
#ifndef CHECKS_H
#define CHECKS_H

#include <stdio.h>

static int failed = 0;

static void check(const char *what, int right) {
    printf("%s %s\n", right ? "ok  " : "FAIL", what);
    failed |= !right;
}

#define CHECK(what) check(#what, what)

#endif
