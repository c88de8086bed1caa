// Shows the standard input and the heap: counts how often each word is in the input, and writes the most frequent ones.
#include <ctype.h>
#include <stdio.h>
#include <stdlib.h>
#include <string.h>

enum { SHELVES = 1024, MOST_SHOWN = 10, LONGEST = 63 };

// a word, and how often it came
struct word {
    char *text;
    unsigned count;
    struct word *next;
};

static struct word *shelves[SHELVES];
static size_t different;

// Ends the program where there is no memory.
static void *some(size_t size) {
    void *memory = malloc(size);
    if (memory == NULL) {
        fprintf(stderr, "words: no memory\n");
        exit(2);
    }
    return memory;
}

// Gives the shelf on which a word stands.
static struct word **shelf_of(const char *text) {
    unsigned sum = 5381;
    while (*text != 0) sum = sum * 33 + (unsigned char)*text++;
    return &shelves[sum % SHELVES];
}

// Counts a word.
static void count(const char *text) {
    struct word **shelf = shelf_of(text);
    for (struct word *word = *shelf; word != NULL; word = word->next)
        if (strcmp(word->text, text) == 0) {
            word->count++;
            return;
        }
    struct word *word = some(sizeof *word);
    *word = (struct word){strcpy(some(strlen(text) + 1), text), 1, *shelf};
    *shelf = word;
    different++;
}

// Reads the next word, in lower case, at most its first 63 letters; tells whether there was one.
static int read_word(char *text) {
    int character, length = 0;
    while ((character = getchar()) != EOF && !isalpha(character)) {}
    for (; character != EOF && isalpha(character); character = getchar())
        if (length < LONGEST) text[length++] = (char)tolower(character);
    text[length] = 0;
    return length > 0;
}

// Orders words: the frequent ones first, and equal ones by their letters.
static int compare(const void *one, const void *other) {
    const struct word *left = *(struct word *const *)one, *right = *(struct word *const *)other;
    if (left->count != right->count) return left->count < right->count ? 1 : -1;
    return strcmp(left->text, right->text);
}

int main(void) {
    char text[LONGEST + 1];
    while (read_word(text)) count(text);

    struct word **sorted = some((different + 1) * sizeof *sorted);
    size_t size = 0;
    for (int i = 0; i < SHELVES; i++)
        for (struct word *word = shelves[i]; word != NULL; word = word->next) sorted[size++] = word;
    qsort(sorted, size, sizeof *sorted, compare);
    for (size_t i = 0; i < size && i < MOST_SHOWN; i++) printf("%7u %s\n", sorted[i]->count, sorted[i]->text);
    return 0;
}
