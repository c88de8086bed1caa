// Shows the heap: a tree of numbers that grows and shrinks, and blocks that are made greater.
#include <stdio.h>
#include <stdlib.h>

enum { COUNT = 20000 };

// a tree that has the smaller numbers on the left
struct tree {
    unsigned number;
    struct tree *left, *right;
};

// Puts a number into the tree, unless it is there; tells whether there was memory.
static int put(struct tree **tree, unsigned number) {
    while (*tree != NULL) {
        if ((*tree)->number == number) return 1;
        tree = number < (*tree)->number ? &(*tree)->left : &(*tree)->right;
    }
    *tree = calloc(1, sizeof **tree);
    if (*tree == NULL) return 0;
    (*tree)->number = number;
    return 1;
}

// Gives the memory of a tree back; gives how many numbers it had.
static unsigned drop(struct tree *tree) {
    if (tree == NULL) return 0;
    unsigned count = drop(tree->left) + 1 + drop(tree->right);
    free(tree);
    return count;
}

// Collects squares in one block that is made greater by and by; gives the sum of the last hundred.
static unsigned collect(unsigned count) {
    unsigned *squares = NULL, room = 0, sum = 0;
    for (unsigned i = 0; i < count; i++) {
        if (i == room) {
            room = 2 * room + 16;
            squares = realloc(squares, room * sizeof *squares);
            if (squares == NULL) return 0;
        }
        squares[i] = i * i;
    }
    for (unsigned i = count - 100; i < count; i++) sum += squares[i];
    free(squares);
    return sum;
}

int main(void) {
    struct tree *tree = NULL;
    unsigned number = 1;
    for (int i = 0; i < COUNT; i++) {
        number = number * 1103515245 + 12345;
        if (!put(&tree, number >> 16 & 0x7fff)) return 1;
    }
    printf("%u different numbers\n", drop(tree));
    printf("squares %u\n", collect(10000));
    printf("a block of 3,000,000 bytes: %s\n", malloc(3000000) == NULL ? "no" : "yes");
    return 0;
}
