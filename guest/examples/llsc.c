// Shows lr.w and sc.w by hand. sc.w stores, and gives 0, where its address is the one that is reserved; otherwise it gives 1. Either way
// nothing is reserved behind it. With an argument it shows what else stands between the two: a call ends a reservation here, and a store
// does not. Other machines do otherwise there, and may.
#include <stdint.h>
#include <stdio.h>

static volatile uint32_t word, other;

// Shows what sc.w gave, and the two words, which it sets back.
static void show(const char *what, uint32_t answer) {
    printf("%s: %u, words %u and %u\n", what, (unsigned)answer, (unsigned)word, (unsigned)other);
    word = 1, other = 2;
}

// Pairs of which no instruction of memory and no call is in between.
static void show_pairs(void) {
    uint32_t old, first, second;
    __asm__ volatile("lr.w %0,(%2)\n\tsc.w %1,%3,(%2)" : "=&r"(old), "=&r"(first) : "r"(&word), "r"(5) : "memory");
    show("reserved", first);
    __asm__ volatile("sc.w %0,%2,(%1)" : "=&r"(first) : "r"(&word), "r"(6) : "memory");
    show("nothing reserved", first);
    __asm__ volatile("lr.w %0,(%2)\n\tsc.w %1,%4,(%3)" : "=&r"(old), "=&r"(first) : "r"(&word), "r"(&other), "r"(7) : "memory");
    show("another address", first);
    __asm__ volatile("lr.w %0,(%2)\n\tlr.w %0,(%3)\n\tsc.w %1,%4,(%2)"
                     : "=&r"(old), "=&r"(first) : "r"(&word), "r"(&other), "r"(8) : "memory");
    show("another address reserved later", first);
    __asm__ volatile("lr.w %0,(%3)\n\tsc.w %1,%4,(%3)\n\tsc.w %2,%5,(%3)"
                     : "=&r"(old), "=&r"(first), "=&r"(second) : "r"(&word), "r"(9), "r"(10) : "memory");
    show("twice, at first", first);
    show("twice, at last", second);
    __asm__ volatile("lr.w %0,(%3)\n\tsc.w %1,%5,(%4)\n\tsc.w %2,%5,(%3)"
                     : "=&r"(old), "=&r"(first), "=&r"(second) : "r"(&word), "r"(&other), "r"(11) : "memory");
    show("behind one that failed", second);
}

// A store, an atomic and a call, getpid, each between the two.
static void show_between(void) {
    uint32_t old, answer;
    __asm__ volatile("lr.w %0,(%2)\n\tsw %3,(%2)\n\tsc.w %1,%4,(%2)"
                     : "=&r"(old), "=&r"(answer) : "r"(&word), "r"(12), "r"(13) : "memory");
    show("a store between", answer);
    __asm__ volatile("lr.w %0,(%2)\n\tamoadd.w %0,%3,(%2)\n\tsc.w %1,%3,(%2)"
                     : "=&r"(old), "=&r"(answer) : "r"(&word), "r"(14) : "memory");
    show("an atomic between", answer);
    __asm__ volatile("li a7,172\n\tlr.w %0,(%2)\n\tecall\n\tsc.w %1,%3,(%2)"
                     : "=&r"(old), "=&r"(answer) : "r"(&word), "r"(15) : "a0", "a7", "memory");
    show("a call between", answer);
}

int main(int argc, char **argv) {
    (void)argv;
    word = 1, other = 2;
    if (argc > 1) show_between();
    else show_pairs();
    return 0;
}
