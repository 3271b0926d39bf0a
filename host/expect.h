/* What the test programs expect: what is not so is told with its file and line, and counted. It is C and C++. */
#ifndef EXPECT_H
#define EXPECT_H

#include <stdbool.h>
#include <stdio.h>

/* What is told before the file: a program that includes the expectations of another one puts its own name here. */
#ifndef EXPECT_IN
#define EXPECT_IN ""
#endif

#define EXPECT(what) expect(what, #what, __FILE__, __LINE__)

static int failures;

static void expect(bool holds, const char *what, const char *file, int line) {
    if (holds)
        return;
    failures++;
    printf("%s%s:%d: not so: %s\n", EXPECT_IN, file, line, what);
}

#endif
