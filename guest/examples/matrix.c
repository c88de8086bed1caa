// Shows multiplication in nested loops: the product of two matrices, and the sum of its diagonal.
#include <stdio.h>

#ifndef SIZE
#define SIZE 64
#endif

static int left[SIZE][SIZE], right[SIZE][SIZE], product[SIZE][SIZE];

// Fills both matrices with small numbers.
static void fill(void) {
    for (int row = 0; row < SIZE; row++)
        for (int column = 0; column < SIZE; column++) {
            left[row][column] = (row + 2 * column) % 7 - 3;
            right[row][column] = (3 * row + column) % 5 - 2;
        }
}

// Makes the number of the product in this row and column.
static int cell(int row, int column) {
    int sum = 0;
    for (int i = 0; i < SIZE; i++) sum += left[row][i] * right[i][column];
    return sum;
}

int main(void) {
    int trace = 0;
    fill();
    for (int row = 0; row < SIZE; row++)
        for (int column = 0; column < SIZE; column++) product[row][column] = cell(row, column);
    for (int i = 0; i < SIZE; i++) trace += product[i][i];
    printf("first %d, last %d, trace %d\n", product[0][0], product[SIZE - 1][SIZE - 1], trace);
    return 0;
}
