// Shows what a program is given and what it gives back: writes each of its arguments on a line, then its standard input in
// capital letters, and ends with the number of its arguments as its exit status.
#include <ctype.h>
#include <stdio.h>

int main(int argc, char **argv) {
    for (int i = 1; i < argc; i++) printf("%d: %s\n", i, argv[i]);
    for (int c = getchar(); c != EOF; c = getchar()) putchar(toupper(c));
    return argc - 1;
}
