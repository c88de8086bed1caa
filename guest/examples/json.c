// Shows recursion over the input: reads a JSON text, tells its first error or what is in it.
#include <ctype.h>
#include <stdio.h>
#include <stdlib.h>
#include <string.h>

enum { DEEPEST = 1000 };

static int next;                    // the next character of the input, or EOF
static long line = 1;               // the line where it stands
static int depth, greatest_depth;
static long objects, arrays, strings, numbers, words;
static double sum;                  // of all numbers

// Ends the program: says what was expected in place of the next character.
static void fail(const char *expected) {
    if (next == EOF) printf("line %ld: expected %s, and the text ends\n", line, expected);
    else printf("line %ld: expected %s, not '%c'\n", line, expected, next);
    exit(1);
}

// Goes on by one character.
static void step(void) {
    if (next == '\n') line++;
    next = getchar();
}

// Passes over spaces.
static void pass_spaces(void) {
    while (next == ' ' || next == '\t' || next == '\r' || next == '\n') step();
}

// Passes over this character, if it is the next one behind spaces; tells whether it was.
static int is_passed(int character) {
    pass_spaces();
    if (next != character) return 0;
    step();
    return 1;
}

// Reads a string, from its first quote to its last.
static void read_string(void) {
    pass_spaces();
    if (next != '"') fail("a string");
    step();
    while (next != '"') {
        if (next == EOF || next < ' ') fail("a character of a string");
        if (next == '\\') {
            step();
            if (next == EOF || strchr("\"\\/bfnrtu", next) == NULL) fail("an escape");
        }
        step();
    }
    step();
    strings++;
}

// Reads a number, and adds it to the sum.
static void read_number(void) {
    char text[64], *end;
    size_t length = 0;
    while (next != EOF && (isdigit(next) || strchr("+-.eE", next) != NULL) && length + 1 < sizeof text) {
        text[length++] = (char)next;
        step();
    }
    text[length] = 0;
    sum += strtod(text, &end);
    if (length == 0 || *end != 0) fail("a number");
    numbers++;
}

// Reads one of the words true, false and null.
static void read_word(const char *word) {
    for (; *word != 0; word++) {
        if (next != *word) fail("true, false or null");
        step();
    }
    words++;
}

static void read_value(void);

// Reads the members of an object or the values of an array, up to the bracket that closes it.
static void read_members(int close) {
    if (++depth > DEEPEST) fail("fewer brackets in one another");
    if (depth > greatest_depth) greatest_depth = depth;
    step();
    if (!is_passed(close)) {
        do {
            if (close == '}') {
                read_string();
                if (!is_passed(':')) fail("a colon");
            }
            read_value();
        } while (is_passed(','));
        if (!is_passed(close)) fail(close == '}' ? "a comma or }" : "a comma or ]");
    }
    depth--;
}

// Reads any value.
static void read_value(void) {
    pass_spaces();
    switch (next) {
    case '{': objects++; read_members('}'); break;
    case '[': arrays++; read_members(']'); break;
    case '"': read_string(); break;
    case 't': read_word("true"); break;
    case 'f': read_word("false"); break;
    case 'n': read_word("null"); break;
    default: read_number();
    }
}

int main(void) {
    step();
    read_value();
    pass_spaces();
    if (next != EOF) fail("the end");
    printf("%ld objects, %ld arrays, %ld strings, %ld words, depth %d\n", objects, arrays, strings, words, greatest_depth);
    printf("%ld numbers with the sum %g\n", numbers, sum);
    return 0;
}
