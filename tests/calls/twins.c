/* The twins by pointer: a line to each, whether a call of the lines before was made through it as well, and how many of those differ from the
 * call by value. */
#include "calls.h"

static int called[TWINS];
static unsigned different[TWINS];

void twin_called(int twin, int same) {
    called[twin] = 1;
    if (!same) different[twin]++;
}

void twin_lines(void) {
#define NAME(name) #name,
    static const char *const names[] = {EACH_TWIN(NAME)};
#undef NAME
    for (int i = 0; i < TWINS; i++) printf("twin of %s: %s, %u differ\n", names[i], called[i] ? "called" : "never called", different[i]);
}
