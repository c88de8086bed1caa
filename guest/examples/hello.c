// Shows the least program: one line of text, and the end with status 0.
#include <stdio.h>

int main(void) {
    printf("hello\n");
    return 0;
}
