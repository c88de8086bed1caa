// Shows a long loop over memory: counts the prime numbers below a million by the sieve of Eratosthenes.
#include <stdio.h>

#ifndef LIMIT
#define LIMIT 1000000
#endif

static char is_crossed[LIMIT];

// Crosses out the multiples of a number, from its square on.
static void cross_out(int number) {
    for (int multiple = number * number; multiple < LIMIT; multiple += number) is_crossed[multiple] = 1;
}

int main(void) {
    for (int number = 2; number * number < LIMIT; number++)
        if (!is_crossed[number]) cross_out(number);
    int count = 0;
    for (int number = 2; number < LIMIT; number++) count += !is_crossed[number];
    printf("%d primes below %d\n", count, LIMIT);
    return 0;
}
