// What compilers call for atomic objects that no single instruction serves: those of 1, 2 and 8 bytes, those of any other size, and, in
// code that was compiled without the A extension, those of 4. Their names and types are those of gcc's manual, "Built-in Functions for
// Memory Model Aware Atomic Operations" and "Legacy __sync Built-in Functions". Debian has no libatomic for RISC-V.
//
// An object of 1 or 2 bytes is changed by lr.w and sc.w on the word that holds it. A greater one is changed by plain loads and stores, since
// a guest has one thread and gets no signals: nothing comes between. All names are weak, so that a library of the user's wins.
#include <stdbool.h>
#include <stddef.h>
#include <stdint.h>

// Declares the function that is called by the name; C's own names differ, since the compiler knows these.
#define CALLED(name, answer, ...) __attribute__((weak)) answer(__VA_ARGS__) __asm__(name)

// Puts the new number where the old one is found; otherwise puts what was found in the place of the old one. Says whether it did.

static bool change_4(volatile uint32_t *at, uint32_t *old, uint32_t new) {
    return __atomic_compare_exchange_n(at, old, new, false, __ATOMIC_SEQ_CST, __ATOMIC_SEQ_CST);
}

// The same of a part of a word, whose bits below its place are those of the mask.
static bool change_part(volatile void *at, uint32_t mask, uint32_t *old, uint32_t new) {
    volatile uint32_t *word = (volatile uint32_t *)((uintptr_t)at & ~(uintptr_t)3);
    unsigned place = 8 * ((uintptr_t)at & 3);
    uint32_t whole = *word;
    do {
        uint32_t found = whole >> place & mask;
        if (found != *old) {
            *old = found;
            return false;
        }
    } while (!change_4(word, &whole, (whole & ~(mask << place)) | new << place));
    return true;
}

static bool change_1(volatile uint8_t *at, uint8_t *old, uint8_t new) {
    uint32_t found = *old;
    bool done = change_part(at, UINT8_MAX, &found, new);
    *old = (uint8_t)found;
    return done;
}

static bool change_2(volatile uint16_t *at, uint16_t *old, uint16_t new) {
    uint32_t found = *old;
    bool done = change_part(at, UINT16_MAX, &found, new);
    *old = (uint16_t)found;
    return done;
}

static bool change_8(volatile uint64_t *at, uint64_t *old, uint64_t new) {
    uint64_t found = *at;
    if (found != *old) {
        *old = found;
        return false;
    }
    *at = new;
    return true;
}

// The routines of numbers: an operation by name, what it makes of `old` and `value`, and the size and the type.
#define OPERATION(name, made, size, type)                                                                       \
    CALLED("__atomic_fetch_" #name "_" #size, type fetch_##name##_##size, volatile type *, type, int);          \
    type fetch_##name##_##size(volatile type *at, type value, int order) {                                      \
        type old = *at;                                                                                         \
        (void)order;                                                                                            \
        while (!change_##size(at, &old, (type)(made))) {}                                                       \
        return old;                                                                                             \
    }                                                                                                           \
    CALLED("__sync_fetch_and_" #name "_" #size, type sync_fetch_##name##_##size, volatile type *, type);        \
    type sync_fetch_##name##_##size(volatile type *at, type value) {                                            \
        return fetch_##name##_##size(at, value, __ATOMIC_SEQ_CST);                                              \
    }                                                                                                           \
    CALLED("__sync_" #name "_and_fetch_" #size, type sync_##name##_fetch_##size, volatile type *, type);        \
    type sync_##name##_fetch_##size(volatile type *at, type value) {                                            \
        type old = fetch_##name##_##size(at, value, __ATOMIC_SEQ_CST);                                          \
        return (type)(made);                                                                                    \
    }

#define NUMBERS(size, type)                                                                                     \
    OPERATION(add, old + value, size, type)                                                                     \
    OPERATION(sub, old - value, size, type)                                                                     \
    OPERATION(and, old & value, size, type)                                                                     \
    OPERATION(or, old | value, size, type)                                                                      \
    OPERATION(xor, old ^ value, size, type)                                                                     \
    OPERATION(nand, ~(old & value), size, type)                                                                 \
    CALLED("__atomic_load_" #size, type load_##size, const volatile type *, int);                               \
    type load_##size(const volatile type *at, int order) {                                                      \
        (void)order;                                                                                            \
        return *at;                                                                                             \
    }                                                                                                           \
    CALLED("__atomic_store_" #size, void store_##size, volatile type *, type, int);                             \
    void store_##size(volatile type *at, type value, int order) {                                               \
        (void)order;                                                                                            \
        *at = value;                                                                                            \
    }                                                                                                           \
    CALLED("__atomic_exchange_" #size, type exchange_##size, volatile type *, type, int);                       \
    type exchange_##size(volatile type *at, type value, int order) {                                            \
        type old = *at;                                                                                         \
        (void)order;                                                                                            \
        while (!change_##size(at, &old, value)) {}                                                              \
        return old;                                                                                             \
    }                                                                                                           \
    CALLED("__atomic_compare_exchange_" #size, bool compare_##size, volatile type *, type *, type, int, int);    \
    bool compare_##size(volatile type *at, type *old, type value, int done, int undone) {                       \
        (void)done, (void)undone;                                                                               \
        return change_##size(at, old, value);                                                                   \
    }                                                                                                           \
    CALLED("__sync_bool_compare_and_swap_" #size, bool sync_bool_##size, volatile type *, type, type);          \
    bool sync_bool_##size(volatile type *at, type old, type value) { return change_##size(at, &old, value); }   \
    CALLED("__sync_val_compare_and_swap_" #size, type sync_value_##size, volatile type *, type, type);          \
    type sync_value_##size(volatile type *at, type old, type value) {                                           \
        (void)change_##size(at, &old, value);                                                                   \
        return old;                                                                                             \
    }                                                                                                           \
    CALLED("__sync_lock_test_and_set_" #size, type sync_set_##size, volatile type *, type);                     \
    type sync_set_##size(volatile type *at, type value) { return exchange_##size(at, value, __ATOMIC_ACQUIRE); } \
    CALLED("__sync_lock_release_" #size, void sync_release_##size, volatile type *);                            \
    void sync_release_##size(volatile type *at) { *at = 0; }

NUMBERS(1, uint8_t)
NUMBERS(2, uint16_t)
NUMBERS(4, uint32_t)
NUMBERS(8, uint64_t)

// The routines of objects of any size, by their bytes.

CALLED("__atomic_load", void load, size_t, const volatile void *, void *, int);
void load(size_t size, const volatile void *at, void *to, int order) {
    (void)order;
    for (size_t i = 0; i < size; i++) ((char *)to)[i] = ((const volatile char *)at)[i];
}

CALLED("__atomic_store", void store, size_t, volatile void *, const void *, int);
void store(size_t size, volatile void *at, const void *from, int order) {
    (void)order;
    for (size_t i = 0; i < size; i++) ((volatile char *)at)[i] = ((const char *)from)[i];
}

CALLED("__atomic_exchange", void exchange, size_t, volatile void *, const void *, void *, int);
void exchange(size_t size, volatile void *at, const void *from, void *to, int order) {
    (void)order;
    for (size_t i = 0; i < size; i++) {
        char old = ((volatile char *)at)[i];
        ((volatile char *)at)[i] = ((const char *)from)[i];
        ((char *)to)[i] = old;
    }
}

CALLED("__atomic_compare_exchange", bool compare_exchange, size_t, volatile void *, void *, const void *, int, int);
bool compare_exchange(size_t size, volatile void *at, void *old, const void *from, int done, int undone) {
    for (size_t i = 0; i < size; i++) {
        if (((volatile char *)at)[i] != ((char *)old)[i]) {
            load(size, at, old, undone);
            return false;
        }
    }
    store(size, at, from, done);
    return true;
}

// Only what instructions change by themselves is said to need no lock.
CALLED("__atomic_is_lock_free", bool is_lock_free, size_t, const volatile void *);
bool is_lock_free(size_t size, const volatile void *at) {
    return (size == 1 || size == 2 || size == 4) && (uintptr_t)at % size == 0;
}
