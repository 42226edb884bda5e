/* Included before bench/stack.c, which reads its inputs from the standard input: on a board they come from a file. */
#include <stdio.h>

static inline FILE *inputs(void)
{
    static FILE *file;
    if (file == NULL) {
        file = fopen(INPUTS, "rb");
    }
    return file;
}

#define scanf(...) fscanf(inputs(), __VA_ARGS__)
