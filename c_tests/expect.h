/* Fixed calls: what is expected, counted; what is wrong, printed. For a program of one file. */
#ifndef EXPECT_H
#define EXPECT_H

#include <stdio.h>
#include <stdlib.h>

static size_t tried;
static size_t wrong;

static void expect(int holds, const char *what)
{
    tried++;
    if (holds)
        return;
    wrong++;
    printf("wrong: %s\n", what);
}

/* The score, and the status that a program ends with. */
static int print_tried(void)
{
    printf("%zu tried, %zu wrong\n", tried, wrong);
    return wrong == 0 ? EXIT_SUCCESS : EXIT_FAILURE;
}

#endif
