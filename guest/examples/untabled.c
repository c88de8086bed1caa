// Shows a call that has no row in docs/CALLS.md: asks for 8 random bytes by call 278, getrandom, which ends the run by
// refusal 6. The C library never makes such a call; this program makes it by itself.
#include <stdio.h>

enum { GETRANDOM = 278 };

// Makes the call, and gives its result.
static long get_random(void *bytes, unsigned long size) {
    register long a0 __asm__("a0") = (long)bytes;
    register unsigned long a1 __asm__("a1") = size;
    register long a2 __asm__("a2") = 0;
    register long a7 __asm__("a7") = GETRANDOM;
    __asm__ volatile("ecall" : "+r"(a0) : "r"(a1), "r"(a2), "r"(a7) : "memory");
    return a0;
}

int main(void) {
    char bytes[8];
    printf("before the call\n");
    fflush(stdout);
    printf("behind the call: %ld\n", get_random(bytes, sizeof bytes));
    return 0;
}
