/* The prime numbers below a limit by the sieve of Eratosthenes, again and again, as a measure of stores over many pages. */
#include <stdio.h>
#include <string.h>

#ifndef LIMIT
#define LIMIT 7200000
#endif

#ifndef ROUNDS
#define ROUNDS 1
#endif

static char is_crossed[LIMIT];

/* Crosses out the multiples of a number, from its square on. */
static void cross_out(int number) {
    for (int multiple = number * number; multiple < LIMIT; multiple += number) is_crossed[multiple] = 1;
}

/* How many primes there are below the limit. */
static int count_primes(void) {
    int count = 0;
    memset(is_crossed, 0, sizeof is_crossed);
    for (int number = 2; number * number < LIMIT; number++)
        if (!is_crossed[number]) cross_out(number);
    for (int number = 2; number < LIMIT; number++) count += !is_crossed[number];
    return count;
}

int main(void) {
    unsigned sum = 0;
    for (int round = 0; round < ROUNDS; round++) sum += count_primes();
    printf("%u primes in %d rounds\n", sum, ROUNDS);
    return 0;
}
