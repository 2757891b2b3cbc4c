/* What a test expects: counted, and said where it does not hold. */
#ifndef EXPECT_H
#define EXPECT_H

#include <stdio.h>

static unsigned long checks, failures;

static void expect(int holds, const char *what, int line) {
    checks++;
    if (!holds) {
        failures++;
        fprintf(stderr, "line %d: %s\n", line, what);
    }
}

#define EXPECT(condition) expect(condition, #condition, __LINE__)

static int finish(const char *name) {
    printf("%s: %lu checks, %lu failed\n", name, checks, failures);
    return failures != 0;
}

#endif
