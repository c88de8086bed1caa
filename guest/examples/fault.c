// Shows a fault: stores to an address that no area has, which ends the run by signal 11. What is still in the buffer of the
// output at a fault is not written, as on Linux, so it is flushed before.
#include <stdio.h>

int main(void) {
    int *volatile nowhere = (int *)16;
    printf("before the fault\n");
    fflush(stdout);
    *nowhere = 1;
    printf("behind the fault\n");
    return 0;
}
