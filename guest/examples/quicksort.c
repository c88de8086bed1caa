// Shows calls by a function pointer: sorts the same numbers twice, in two orders.
#include <stdio.h>

#ifndef COUNT
#define COUNT 2000
#endif

static unsigned numbers[COUNT];

// Tells whether the first number comes before the second: the small before the great.
static int is_less(unsigned one, unsigned other) {
    return one < other;
}

// The same for the other order: the great before the small.
static int is_greater(unsigned one, unsigned other) {
    return one > other;
}

// Exchanges two numbers.
static void swap(unsigned *one, unsigned *other) {
    unsigned kept = *one;
    *one = *other;
    *other = kept;
}

// Sorts numbers in the order that the function tells.
static void sort(unsigned *first, int count, int (*comes_before)(unsigned, unsigned)) {
    if (count < 2) return;
    swap(first, first + count / 2);
    int border = 0;
    for (int i = 1; i < count; i++)
        if (comes_before(first[i], first[0])) swap(first + i, first + ++border);
    swap(first, first + border);
    sort(first, border, comes_before);
    sort(first + border + 1, count - border - 1, comes_before);
}

// Fills the numbers with a fixed series that looks mixed.
static void fill(void) {
    unsigned number = 1;
    for (int i = 0; i < COUNT; i++) {
        number = number * 1103515245 + 12345;
        numbers[i] = number >> 16 & 0x7fff;
    }
}

int main(void) {
    fill();
    sort(numbers, COUNT, is_less);
    printf("%u %u %u\n", numbers[0], numbers[COUNT / 2], numbers[COUNT - 1]);
    sort(numbers, COUNT, is_greater);
    printf("%u %u %u\n", numbers[0], numbers[COUNT / 2], numbers[COUNT - 1]);
    return 0;
}
