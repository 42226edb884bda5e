/* The entry of a test program: its words are compiled in, since not every start hands them over, and exit writes what is still buffered. */
#include <stddef.h>
#include <stdlib.h>

int program_main(int, char **);

int main(void)
{
    static char *words[] = {"program", WORDS NULL};
    exit(program_main(sizeof words / sizeof words[0] - 1, words));
}
