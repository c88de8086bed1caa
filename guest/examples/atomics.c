// Shows the atomic objects of C: numbers of 4 bytes, which instructions change by themselves; numbers of 1, 2 and 8 bytes and an object
// of 12, which routines change; and a flag.
#include <inttypes.h>
#include <stdatomic.h>
#include <stdbool.h>
#include <stdio.h>

enum { TURNS = 1000 };

struct place {
    int32_t x, y, z;
};

static atomic_uint_least32_t word;
static struct {
    _Atomic int8_t byte, beside;
    _Atomic uint16_t half;
} parts = {.beside = 99};
static _Atomic uint64_t twice;
static _Atomic struct place place;
static atomic_flag flag = ATOMIC_FLAG_INIT;

// Numbers of 4 bytes.
static void show_words(void) {
    uint32_t sum = 0;
    for (uint32_t i = 0; i < TURNS; i++) sum += (uint32_t)atomic_fetch_add(&word, i);
    printf("added %" PRIuLEAST32 ", before %" PRIu32 "\n", atomic_load(&word), sum);
    sum = (uint32_t)atomic_exchange(&word, 0xf0f0);
    sum += (uint32_t)atomic_fetch_or(&word, 0xff) + (uint32_t)atomic_fetch_and(&word, 0x0fff);
    sum += (uint32_t)atomic_fetch_xor(&word, 0x5555) + (uint32_t)atomic_fetch_sub(&word, 0x6000);
    printf("bits %#" PRIxLEAST32 ", before %#" PRIx32 "\n", atomic_load(&word), sum);
}

// Puts a number where another is expected; a weak one may fail without a cause, so it is tried again.
static void show_exchanges(void) {
    uint_least32_t expected = 7;
    atomic_store(&word, 9);
    bool first = atomic_compare_exchange_strong(&word, &expected, 11);
    bool second = atomic_compare_exchange_strong(&word, &expected, 11);
    printf("strong %d, %d, found %" PRIuLEAST32 ", now %" PRIuLEAST32 "\n", first, second, expected, atomic_load(&word));
    for (int turn = 0; turn < TURNS; turn++) {
        expected = atomic_load(&word);
        while (!atomic_compare_exchange_weak(&word, &expected, expected * 3 + 1)) {}
    }
    printf("weak %" PRIuLEAST32 "\n", atomic_load(&word));
}

// Numbers of 1 and 2 bytes, in one word with another that must stay, and of 8 bytes.
static void show_sizes(void) {
    int8_t greatest = -128;
    uint64_t old = 0;
    for (int turn = 0; turn < TURNS; turn++) {
        parts.byte += 3;
        parts.half ^= (uint16_t)(turn * 77);
        twice += UINT64_C(0x100000001) * (unsigned)turn;
        int8_t now = atomic_load(&parts.byte);
        greatest = now > greatest ? now : greatest;
    }
    while (!atomic_compare_exchange_weak(&twice, &old, old << 4 | 15)) {}
    printf("1 byte %d, greatest %d; 2 bytes %u; 8 bytes %#" PRIx64 "\n", parts.byte, greatest, parts.half, twice);
    printf("exchanged %d, %u, %#" PRIx64, atomic_exchange(&parts.byte, -1), atomic_exchange(&parts.half, 65535), atomic_exchange(&twice, 1));
    printf(", beside %d\n", parts.beside);
    printf("without a lock: 4 bytes %d, 8 bytes %d\n", atomic_is_lock_free(&word), atomic_is_lock_free(&twice));
}

// An object that no number is as great as.
static void show_object(void) {
    struct place expected = atomic_load(&place), next;
    do {
        next = (struct place){expected.x + 1, expected.y - 2, expected.z + 3};
    } while (!atomic_compare_exchange_strong(&place, &expected, next));
    next = atomic_exchange(&place, expected);
    printf("object %" PRId32 " %" PRId32 " %" PRId32 "\n", next.x, next.y, next.z);
}

// A lock that turns nobody away, since there is one thread; and the builtins that are older than C's own.
static void show_flag(void) {
    static char old_byte;
    static long long old_twice;
    bool taken = atomic_flag_test_and_set(&flag), again = atomic_flag_test_and_set(&flag);
    atomic_flag_clear(&flag);
    printf("flag %d, %d, %d\n", taken, again, atomic_flag_test_and_set(&flag));
    for (int turn = 0; turn < 100; turn++) __sync_fetch_and_add(&old_byte, 1), __sync_sub_and_fetch(&old_twice, turn);
    printf("older %d, %lld, %d\n", old_byte, old_twice, __sync_bool_compare_and_swap(&old_byte, 100, 1));
}

int main(void) {
    show_words();
    show_exchanges();
    show_sizes();
    show_object();
    show_flag();
    return 0;
}
