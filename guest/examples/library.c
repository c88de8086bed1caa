// Shows some of the C library: numbers from text and back, strings, mathematics, time, jumps, errors.
#include <errno.h>
#include <math.h>
#include <setjmp.h>
#include <stdio.h>
#include <stdlib.h>
#include <string.h>
#include <time.h>

static jmp_buf place;

// Orders numbers, but for 0, at which it jumps out of the call that asked.
static int compare(const void *one, const void *other) {
    int left = *(const int *)one, right = *(const int *)other;
    if (left == 0 || right == 0) longjmp(place, 1);
    return (left > right) - (left < right);
}

// Numbers and text.
static void show_text(void) {
    int day, year;
    char month[16], text[32] = "one,two,,three";
    printf("[%5d] [%-5d] [%05d] [%+d] [%x] [%#o]\n", 42, 42, 42, 42, 42u, 42u);
    printf("[%.3f] [%10.2e] [%g] [%8.3s] [%c]\n", 2.0 / 3, 123456.0, 0.0001, "letters", 'c');
    printf("%ld %ld %g\n", strtol("0x1f", NULL, 0), strtol("-12 apples", NULL, 10), strtod("6.02e23", NULL));
    if (sscanf("29 February 2000", "%d %15s %d", &day, month, &year) == 3) printf("%d/%s/%d\n", day, month, year);
    for (char *part = strtok(text, ","); part != NULL; part = strtok(NULL, ",")) printf("<%s>", part);
    printf("\n");
}

// Lines of the input; the last one needs no line end.
static void show_lines(void) {
    char line[32];
    while (fgets(line, sizeof line, stdin) != NULL) {
        line[strcspn(line, "\n")] = 0;
        printf("line of %zu: %s\n", strlen(line), line);
    }
}

// Time: a given one as text, and that it does not go back.
static void show_time(void) {
    char text[32];
    time_t day = 951825600;
    clock_t start = clock();
    strftime(text, sizeof text, "%Y-%m-%d %H:%M:%S", gmtime(&day));
    printf("%s, later %d, now %d\n", text, clock() >= start, time(NULL) >= 0);
}

int main(void) {
    show_text();
    show_lines();
    printf("%.9f %.9f %.9f\n", sqrt(2), sin(1), pow(2, 0.1));
    show_time();
    if (setjmp(place) == 0) qsort((int[]){3, 1, 2, 0}, 4, sizeof(int), compare);
    else printf("out of qsort\n");
    errno = 0;
    FILE *file = fopen("library.c", "r");
    printf("a file: %s, %s\n", file == NULL ? "no" : "yes", strerror(errno));
    fprintf(stderr, "to the error stream\n");
    return 42;
}
