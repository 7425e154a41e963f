/* The trial program `runone`, written from paper 01 alone. */
#include <stdio.h>

#include "fifty_five_second.h"

enum { KEPT = 6 * 4096 };

/* The whole input is counted; bytes past 4,096 words are refused unseen. */
int main(void)
{
    static uint8_t bytes[KEPT];
    char line[SECOND_LINE_ROOM];
    size_t n = 0;
    for (int c = getchar(); c != EOF; c = getchar()) {
        if (n < KEPT)
            bytes[n] = (uint8_t)c;
        n++;
    }
    second_runone(bytes, n, line);
    fputs(line, stdout);
    return 0;
}
