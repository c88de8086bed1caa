// Shows a stack without a lock, as programs with threads have it: its head is changed by compare_exchange alone. The head is one word,
// the number of the top node and a counter that each change raises, so that a head which was changed and has the same top again is known
// to be another.
#include <stdatomic.h>
#include <stdint.h>
#include <stdio.h>

enum { NODES = 64, NONE = 0, ROUNDS = 100 };

static struct {
    uint16_t next;
    int value;
} nodes[NODES + 1];
static _Atomic uint32_t used = NONE, unused = NONE;

// A head with this top, which follows another head.
static uint32_t head_behind(uint32_t head, uint16_t top) {
    return ((head >> 16) + 1) << 16 | top;
}

static void push(_Atomic uint32_t *head, uint16_t node) {
    uint32_t old = atomic_load(head);
    do {
        nodes[node].next = (uint16_t)old;
    } while (!atomic_compare_exchange_weak(head, &old, head_behind(old, node)));
}

// Takes the top node; NONE where there is none.
static uint16_t pop(_Atomic uint32_t *head) {
    uint32_t old = atomic_load(head);
    uint16_t top;
    do {
        top = (uint16_t)old;
        if (top == NONE) return NONE;
    } while (!atomic_compare_exchange_weak(head, &old, head_behind(old, nodes[top].next)));
    return top;
}

// Moves nodes between the two stacks, up and down, and gives the sum of the values that were taken.
static long long move_nodes(void) {
    long long sum = 0;
    for (int round = 0; round < ROUNDS; round++) {
        uint16_t node;
        for (int i = 0; i < 1 + round * 7 % NODES && (node = pop(&unused)) != NONE; i++) {
            nodes[node].value = round * 100 + i;
            push(&used, node);
        }
        for (int i = 0; i < 1 + round * 5 % NODES && (node = pop(&used)) != NONE; i++) {
            sum = sum * 3 % 1000003 + nodes[node].value;
            push(&unused, node);
        }
    }
    return sum;
}

// Begins to take a node, and ends it behind others who took two and gave the first one back: the counter tells.
static void show_late(void) {
    while (pop(&used) != NONE) {}
    for (uint16_t node = 1; node <= 3; node++) push(&used, node);
    uint32_t old = atomic_load(&used);
    uint16_t next = nodes[(uint16_t)old].next;
    uint16_t first = pop(&used), second = pop(&used);
    push(&used, first);
    int same = (uint16_t)atomic_load(&used) == (uint16_t)old;
    int done = atomic_compare_exchange_strong(&used, &old, head_behind(old, next));
    printf("took %d and %d, the same top again: %d, the late one is done: %d\n", first, second, same, done);
    for (uint16_t node = pop(&used); node != NONE; node = pop(&used)) printf("left %d\n", node);
}

int main(void) {
    for (uint16_t node = NODES; node > 0; node--) push(&unused, node);
    printf("sum %lld\n", move_nodes());
    show_late();
    return 0;
}
