/* What must hold in a test: the first thing that does not ends the program with status 1, and is told with the test's file. */
#ifndef EXPECT_H
#define EXPECT_H

#include <stdio.h>
#include <stdlib.h>

static void expect(int holds, const char *what)
{
    if (!holds) {
        fprintf(stderr, "%s: %s\n", __BASE_FILE__, what);
        exit(1);
    }
}

#endif
