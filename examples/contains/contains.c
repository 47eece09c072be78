/* Asks the library whether one path contains another, and how long that one is without the slashes at its end: contains OUTER INNER. */
#include "guvrendik.h"

#include <stdio.h>
#include <string.h>

int main(int count, char **words) {
    if (count != 3) {
        fprintf(stderr, "usage: contains OUTER INNER\n");
        return 2;
    }
    const char *outer = words[1], *inner = words[2];
    guvrendik_containment answer =
        guvrendik_contains((const uint8_t *)outer, strlen(outer), (const uint8_t *)inner, strlen(inner));
    printf("contained=%u length=%zu\n", (unsigned)answer.contained, answer.length);
    return 0;
}
