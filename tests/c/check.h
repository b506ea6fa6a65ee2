/* A line 'ok ..' or 'FAIL ..' for each test. */
#ifndef CHECK_H
#define CHECK_H

#include <stddef.h>
#include <stdio.h>

static int failures = 0;

/* Stands before each text, where the same tests are gone through more than once: what they are about this time. */
static const char *about = "";

static void check(int holds, const char *what) {
    printf("%s %s%s\n", holds ? "ok  " : "FAIL", about, what);
    failures += !holds;
}

/* Goes through tests with a small journal, and then with a large one; ready makes it the one in use. */
static inline void with_each_size(void (*const tests[])(void), size_t count, void (*ready)(int large)) {
    for (int large = 0; large <= 1; large++) {
        about = large ? "large journal: " : "small journal: ";
        for (size_t at = 0; at < count; at++) {
            ready(large);
            tests[at]();
        }
    }
    about = "";
}

#endif
