/* What the tests share: a row is a call with the code and the output that it must have. */
#ifndef CALLS_H
#define CALLS_H
#define _DEFAULT_SOURCE

#include <inttypes.h>
#include <num_modular.h>
#include <setjmp.h>
#include <signal.h>
#include <stdio.h>
#include <string.h>

/* what an output holds before a call, and still after a call that refuses */
#define UNTOUCHED UINT64_C(0xABCDEF0123456789)
#define UNTOUCHED_SYMBOL INT32_C(77)

extern int passed, failed;

/* Puts the digits of 64 bits of a number in place, by its count digits of 16 bits, the lowest first. */
void pack(const uint16_t *digits, size_t count, uint64_t *words);

/* Counts a row, and prints one that fails. */
void row(const char *call, int holds, uint32_t code);

/* A call that writes the word out. */
#define WORD(want_code, want, call)                                                                                    \
    do {                                                                                                               \
        uint64_t out = UNTOUCHED;                                                                                      \
        uint32_t code = (call);                                                                                        \
        row(#call, code == (want_code) && out == (code == NM_OK ? (uint64_t)(want) : UNTOUCHED), code);                \
    } while (0)

/* A call that writes the symbol out. */
#define SYMBOL(want_code, want, call)                                                                                  \
    do {                                                                                                               \
        int32_t out = UNTOUCHED_SYMBOL;                                                                                \
        uint32_t code = (call);                                                                                        \
        row(#call, code == (want_code) && out == (code == NM_OK ? (want) : UNTOUCHED_SYMBOL), code);                   \
    } while (0)

/* A call that writes the numbers words and factors out. */
#define ROOM(want_code, want_words, want_factors, call)                                                                \
    do {                                                                                                               \
        size_t words = 77, factors = 77;                                                                               \
        uint32_t code = (call);                                                                                        \
        int is = code == NM_OK ? words == (want_words) && factors == (want_factors) : words == 77 && factors == 77;    \
        row(#call, code == (want_code) && is, code);                                                                   \
    } while (0)

/* A call that writes nothing but its code. */
#define CODE(want_code, call)                                                                                          \
    do {                                                                                                               \
        uint32_t code = (call);                                                                                        \
        row(#call, code == (want_code), code);                                                                         \
    } while (0)

/* A call after which the list holds these words. */
#define LIST(want_code, list, call, ...)                                                                               \
    do {                                                                                                               \
        const uint64_t wanted[] = {__VA_ARGS__};                                                                       \
        uint32_t code = (call);                                                                                        \
        row(#call, code == (want_code) && memcmp(list, wanted, sizeof wanted) == 0, code);                             \
    } while (0)

/* The words 1, 2, 3 and so on, in two pages that can't be written, and whether they are there. */
extern uint64_t *read_only;
int begin_read_only(void);
void end_read_only(void);
extern sigjmp_buf before_the_call;
extern volatile sig_atomic_t in_a_call;

/* A call that refuses, all of whose outputs are in these pages: it doesn't write at all, where the proof says only that the
 * outputs hold afterwards what they held before. */
#define REFUSES(want_code, call)                                                                                       \
    do {                                                                                                               \
        volatile uint32_t code = CAUGHT;                                                                               \
        in_a_call = 1;                                                                                                 \
        if (sigsetjmp(before_the_call, 1) == 0) code = (call);                                                         \
        in_a_call = 0;                                                                                                 \
        row("read-only: " #call, code == (want_code), code);                                                           \
    } while (0)

/* Whether a call that writes is caught. */
#define CAUGHT UINT32_MAX

/* The groups of rows. */
#define GROUPS(DO)                                                                                                     \
    DO(header) DO(plain) DO(symbol) DO(divider) DO(word_list) DO(montgomery) DO(run) DO(transform) DO(plan)            \
    DO(plan_value) DO(erasure) DO(corrector) DO(user) DO(polynomial) DO(prefix) DO(search) DO(residue_system)          \
    DO(any_length) DO(sharing) DO(check_digit) DO(read_only)
#define DECLARED(group) void group##_rows(void);
GROUPS(DECLARED)

#endif
