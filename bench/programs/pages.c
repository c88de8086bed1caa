/* Writes a number into each of many pages, again and again, as a measure of the memory that a run by windows takes. */
#include <stdio.h>

#ifndef PAGES
#define PAGES 16000
#endif

#ifndef ROUNDS
#define ROUNDS 100
#endif

enum { PAGE = 4096 };

static volatile unsigned pages[PAGES][PAGE / sizeof(unsigned)];

int main(void) {
    unsigned sum = 0;
    for (unsigned round = 0; round < ROUNDS; round++)
        for (unsigned page = 0; page < PAGES; page++) pages[page][round % (PAGE / sizeof(unsigned))] = round + page;
    for (unsigned page = 0; page < PAGES; page++) sum += pages[page][0];
    printf("%u pages, sum %u\n", (unsigned)PAGES, sum);
    return 0;
}
