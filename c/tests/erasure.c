/* Erasure codes: words, messages from some of the symbols and from wrong ones, secrets, and bad input. */
#include "calls.h"

/* places of a word */
#define SCRATCH_LENGTH 200
static const size_t in_order[16] = {0, 1, 2, 3, 4, 5, 6, 7, 8, 9, 10, 11, 12, 13, 14, 15};
static const uint64_t counted[16] = {0, 1, 2, 3, 4, 5, 6, 7, 8, 9, 10, 11, 12, 13, 14, 15};
static const uint64_t word_of_929[7] = {1, 6, 17, 34, 57, 86, 121};
static nm_montgomery_t of_929, of_1001;
static uint64_t scratch[SCRATCH_LENGTH];

/* the word of three symbols at the points 0 to 6, modulo 929 */
static void word_rows(void) {
    const uint64_t message[3] = {1, 2, 3}, above[3] = {930, 931, 932}, points[7] = {929, 1, 2, 932, 4, 5, 6};
    uint64_t word[7] = {7, 7, 7, 7, 7, 7, 7};
    LIST(NM_OK, word, nm_erasure_encode(&of_929, counted, 7, message, 3, word, 7, scratch,
                                        NM_ERASURE_ENCODE_SCRATCH(7, 3)), 1, 6, 17, 34, 57, 86, 121);
    LIST(NM_OK, word, nm_erasure_encode(&of_929, points, 7, above, 3, word, 7, scratch, SCRATCH_LENGTH), 1, 6, 17, 34, 57, 86, 121);
    const uint64_t other[3] = {500, 700, 999};
    LIST(NM_OK, word, nm_erasure_encode(&of_1001, counted, 7, other, 3, word, 7, scratch,
                                        NM_ERASURE_ENCODE_SCRATCH(7, 3)), 500, 197, 891, 580, 265, 947, 624);
    LIST(NM_OK, word, nm_erasure_encode(&of_929, counted, 2, NULL, 0, word, 2, scratch, 2), 0, 0, 891, 580);
    CODE(NM_OK, nm_erasure_encode(&of_929, NULL, 0, message, 3, NULL, 0, scratch, 3));
    CODE(NM_OK, nm_erasure_encode(&of_929, NULL, 0, NULL, 0, NULL, 0, NULL, 0));
    LIST(NM_BAD_ARGUMENT, word, nm_erasure_encode(&of_929, counted, 7, message, 3, word, 6, scratch, 10), 0, 0, 891);
    LIST(NM_BAD_ARGUMENT, word, nm_erasure_encode(&of_929, counted, 6, message, 3, word, 7, scratch, 10), 0, 0, 891);
    LIST(NM_BAD_ARGUMENT, word, nm_erasure_encode(&of_929, counted, 7, message, 3, word, 7, scratch,
                                                  NM_ERASURE_ENCODE_SCRATCH(7, 3) - 1), 0, 0, 891);
    LIST(NM_BAD_ARGUMENT, word, nm_erasure_encode(&of_929, counted, 7, message, 3, word, 7, NULL, 0), 0, 0, 891);
}

/* points that don't fit: the word is written, and restoring from all places tells it */
static void equal_points_rows(void) {
    const uint64_t equal[3] = {1, 1, 2}, fitting[3] = {1, 3, 2}, message[2] = {5, 10}, any[3] = {0, 0, 0};
    uint64_t word[3] = {7, 7, 7}, restored[3] = {7, 7, 7};
    LIST(NM_OK, word, nm_erasure_encode(&of_929, equal, 3, message, 2, word, 3, scratch, SCRATCH_LENGTH), 15, 15, 25);
#define FIT(points) nm_erasure_restore(&of_929, points, 3, in_order, 3, any, 3, restored, 3, scratch, SCRATCH_LENGTH)
    LIST(NM_POINTS_DONT_FIT, restored, FIT(equal), 7, 7, 7);
    LIST(NM_OK, restored, FIT(fitting), 0, 0, 0);
#undef FIT
}

/* the message from every three of the seven symbols */
static void restore_rows(void) {
    uint64_t message[3] = {7, 7, 7};
    for (size_t a = 0; a < 7; a++)
        for (size_t b = 0; b < 7; b++)
            for (size_t c = 0; c < 7; c++) {
                if (a == b || a == c || b == c) continue;
                const size_t places[3] = {a, b, c};
                const uint64_t symbols[3] = {word_of_929[a], word_of_929[b], word_of_929[c] + 929};
                LIST(NM_OK, message, nm_erasure_restore(&of_929, counted, 7, places, 3, symbols, 3, message, 3, scratch,
                                                       NM_ERASURE_RESTORE_SCRATCH(7, 3, 3)), 1, 2, 3);
                message[0] = message[1] = message[2] = 7;
            }
    /* the first three places alone count */
    const size_t more[5] = {6, 0, 3, 3, 77};
    const uint64_t symbols[5] = {121, 1, 34, 900, 900};
    LIST(NM_OK, message, nm_erasure_restore(&of_929, counted, 7, more, 5, symbols, 5, message, 3, scratch,
                                               NM_ERASURE_RESTORE_SCRATCH(7, 5, 3)), 1, 2, 3);
    CODE(NM_OK, nm_erasure_restore(&of_929, NULL, 0, NULL, 0, NULL, 0, NULL, 0, NULL, 0));
}

/* what is wrong with places and points */
static void refused_rows(void) {
    const size_t few[2] = {0, 1}, twice[3] = {4, 1, 4}, beyond[3] = {0, 8, 1}, apart[3] = {0, 3, 7};
    const uint64_t symbols[3] = {1, 2, 1};
    uint64_t message[3] = {7, 7, 7};
#define RESTORE(places, s, t, room) nm_erasure_restore(&of_1001, counted, 8, places, s, symbols, t, message, 3, scratch, room)
    LIST(NM_TOO_FEW_SYMBOLS, message, RESTORE(few, 2, 2, SCRATCH_LENGTH), 7, 7, 7);
    LIST(NM_PLACE_TWICE, message, RESTORE(twice, 3, 3, SCRATCH_LENGTH), 7, 7, 7);
    LIST(NM_PLACE_OUT_OF_RANGE, message, RESTORE(beyond, 3, 3, SCRATCH_LENGTH), 7, 7, 7);
    LIST(NM_POINTS_DONT_FIT, message, RESTORE(apart, 3, 3, SCRATCH_LENGTH), 7, 7, 7);
    LIST(NM_BAD_ARGUMENT, message, RESTORE(in_order, 3, 2, SCRATCH_LENGTH), 7, 7, 7);
    LIST(NM_BAD_ARGUMENT, message, RESTORE(in_order, 2, 3, SCRATCH_LENGTH), 7, 7, 7);
    LIST(NM_BAD_ARGUMENT, message, RESTORE(in_order, 3, 3, NM_ERASURE_RESTORE_SCRATCH(8, 3, 3) - 1), 7, 7, 7);
    /* of several faults the first */
    const size_t all_beyond[2] = {8, 8}, beyond_first[3] = {8, 1, 1}, twice_first[3] = {1, 1, 8};
    const size_t beyond_apart[3] = {0, 7, 8}, twice_apart[3] = {0, 7, 0};
    LIST(NM_BAD_ARGUMENT, message, RESTORE(all_beyond, 2, 3, SCRATCH_LENGTH), 7, 7, 7);
    LIST(NM_TOO_FEW_SYMBOLS, message, RESTORE(all_beyond, 2, 2, SCRATCH_LENGTH), 7, 7, 7);
    LIST(NM_PLACE_OUT_OF_RANGE, message, RESTORE(beyond_first, 3, 3, SCRATCH_LENGTH), 7, 7, 7);
    LIST(NM_PLACE_TWICE, message, RESTORE(twice_first, 3, 3, SCRATCH_LENGTH), 7, 7, 7);
    LIST(NM_PLACE_OUT_OF_RANGE, message, RESTORE(beyond_apart, 3, 3, SCRATCH_LENGTH), 7, 7, 7);
    LIST(NM_PLACE_TWICE, message, RESTORE(twice_apart, 3, 3, SCRATCH_LENGTH), 7, 7, 7);
    LIST(NM_OK, message, RESTORE(in_order, 3, 3, NM_ERASURE_RESTORE_SCRATCH(8, 3, 3)), 1, 2, 1000);
#undef RESTORE
    message[2] = 7;
    LIST(NM_TOO_FEW_SYMBOLS, message, nm_erasure_restore(&of_1001, NULL, 0, NULL, 0, NULL, 0, message, 3, scratch, 9), 1, 2, 7);
    LIST(NM_BAD_ARGUMENT, message, nm_erasure_restore(&of_1001, counted, 8, in_order, 3, symbols, 3, message, 3, NULL, 0), 1, 2, 7);
}

/* symbols at places of the points 0 to 6 modulo 929, and the message with the number of errors */
static void correct_row(uint32_t want, const size_t *places, size_t s, const uint64_t *symbols, size_t count) {
    uint64_t message[3] = {7, 7, 7}, word[7] = {7, 7, 7, 7, 7, 7, 7}, number = UNTOUCHED;
    size_t errors = 77;
    uint32_t code = nm_erasure_correct(&of_929, counted, 7, places, s, symbols, s, message, 3, word, 7, scratch,
                                       NM_ERASURE_CORRECT_SCRATCH(7, s, 3), &errors, &number);
    const uint64_t sevens[7] = {7, 7, 7, 7, 7, 7, 7}, sent[3] = {1, 2, 3};
    int right = memcmp(message, want ? sevens : sent, sizeof message) == 0 && errors == (want ? 77 : count);
    row("a correction", code == want && right && memcmp(word, want ? sevens : word_of_929, sizeof word) == 0, code);
    row("its number", number == UNTOUCHED, code);
}

static void correct_rows(void) {
    static const size_t five[5] = {1, 2, 3, 4, 5}, three[3] = {4, 5, 6}, four[4] = {3, 4, 5, 6}, twice[4] = {3, 4, 5, 3};
    static const size_t beyond[4] = {3, 4, 7, 6};
    correct_row(NM_OK, in_order, 7, (const uint64_t[]){1, 0, 17, 34, 57, 900, 121}, 2);
    correct_row(NM_TOO_MANY_ERRORS, in_order, 7, (const uint64_t[]){1, 0, 17, 34, 57, 900, 1}, 0);
    correct_row(NM_OK, five, 5, (const uint64_t[]){6, 16, 34, 57, 86}, 1);
    correct_row(NM_OK, three, 3, (const uint64_t[]){57, 86, 121}, 0);
    correct_row(NM_TOO_MANY_ERRORS, four, 4, (const uint64_t[]){34, 58, 86, 121}, 0);
    correct_row(NM_TOO_FEW_SYMBOLS, four, 2, (const uint64_t[]){34, 57}, 0);
    correct_row(NM_PLACE_TWICE, twice, 4, (const uint64_t[]){34, 57, 86, 34}, 0);
    correct_row(NM_PLACE_OUT_OF_RANGE, beyond, 4, (const uint64_t[]){34, 57, 86, 121}, 0);
}

/* four errors in sixteen symbols; the points are 3^(16 i) modulo 257 */
static void four_errors_row(void) {
    static const uint64_t points[16] = {1, 249, 64, 2, 241, 128, 4, 225, 256, 8, 193, 255, 16, 129, 253, 32};
    static const uint64_t symbols[16] = {1, 166, 198, 34, 141, 61, 6, 7, 51, 200, 123, 157, 9, 183, 31, 0};
    uint64_t message[8], word[16], number = 77;
    size_t errors = 77;
    nm_montgomery_t of_257;
    CODE(NM_OK, nm_montgomery(257, &of_257));
    LIST(NM_OK, message, nm_erasure_correct(&of_257, points, 16, in_order, 16, symbols, 16, message, 8, word, 16, scratch,
                                            NM_ERASURE_CORRECT_SCRATCH(16, 16, 8), &errors, &number),
         72, 101, 108, 108, 111, 33, 0, 255);
    row("four errors", errors == 4 && number == 77, NM_OK);
}

/* a number without an inverse, modulo 35 */
static void no_inverse_rows(void) {
    static const uint64_t symbols[5] = {2, 10, 4, 26, 34};
    uint64_t message[2] = {7, 7}, word[5] = {7, 7, 7, 7, 7}, number = 0;
    size_t errors = 77;
    nm_montgomery_t of_35;
    CODE(NM_OK, nm_montgomery(35, &of_35));
#define CORRECT(n, s, t, k, length, room)                                                                              \
    nm_erasure_correct(&of_35, counted, n, in_order, s, symbols, t, message, k, word, length, scratch, room, &errors, &number)
    LIST(NM_NO_INVERSE, message, CORRECT(5, 5, 5, 2, 5, 40), 7, 7);
    row("a factor with 35", number > 0 && number < 35 && (number % 5 == 0 || number % 7 == 0), NM_NO_INVERSE);
    row("nothing else is written", errors == 77 && word[0] == 7 && word[4] == 7, NM_NO_INVERSE);
    number = 77;
    LIST(NM_BAD_ARGUMENT, message, CORRECT(5, 5, 5, 2, 5, NM_ERASURE_CORRECT_SCRATCH(5, 5, 2) - 1), 7, 7);
    LIST(NM_BAD_ARGUMENT, message, CORRECT(5, 5, 4, 2, 5, 40), 7, 7);
    LIST(NM_BAD_ARGUMENT, message, CORRECT(5, 5, 5, 0, 5, 40), 7, 7);
    LIST(NM_BAD_ARGUMENT, message, CORRECT(5, 5, 5, 2, 4, 40), 7, 7);
    LIST(NM_POINTS_DONT_FIT, word, CORRECT(6, 6, 6, 2, 6, 60), 7, 7, 7, 7, 7);
#undef CORRECT
    row("nothing is written", errors == 77 && number == 77 && word[0] == 7 && word[4] == 7, NM_OK);
    CODE(NM_BAD_ARGUMENT, nm_erasure_correct(&of_35, NULL, 0, NULL, 0, NULL, 0, NULL, 0, NULL, 0, NULL, 0, &errors, &number));
    LIST(NM_TOO_FEW_SYMBOLS, message, nm_erasure_correct(&of_35, NULL, 0, NULL, 0, NULL, 0, message, 1, NULL, 0, scratch, 6,
                                                         &errors, &number), 7, 7);
}

/* shares at points, and the secret from three of them and from five of which one is forged */
static void secret_rows(void) {
    static const uint64_t coefficients[3] = {123, 456, 789}, at_zero[3] = {1, 0, 2}, at_m[3] = {1, 2, 929};
    static const uint64_t common[3] = {6, 7, 1}, equal[3] = {1, 2, 1}, seven[3] = {1, 2, 8};
    const size_t places[3] = {4, 1, 3};
    uint64_t shares[5] = {7, 7, 7, 7, 7}, secret[3], word[5], number;
    size_t errors;
    CODE(NM_OK, nm_erasure_share(&of_929, counted + 1, 5, coefficients, 3, shares, 5, scratch,
                                   NM_ERASURE_ENCODE_SCRATCH(5, 3)));
    row("the shares at 1, 2 and 3", shares[0] == 439 && shares[1] == 475 && shares[2] == 231, NM_OK);
    const uint64_t three[3] = {shares[4], shares[1], shares[3]};
    LIST(NM_OK, secret, nm_erasure_restore(&of_929, counted + 1, 5, places, 3, three, 3, secret, 3, scratch,
                                          NM_ERASURE_RESTORE_SCRATCH(5, 3, 3)), 123, 456, 789);
    shares[3] += 1;
    LIST(NM_OK, secret, nm_erasure_correct(&of_929, counted + 1, 5, in_order, 5, shares, 5, secret, 3, word, 5, scratch,
                                           NM_ERASURE_CORRECT_SCRATCH(5, 5, 3), &errors, &number), 123, 456, 789);
    row("one is forged", errors == 1 && (word[3] + 1) % 929 == shares[3] % 929, NM_OK);
    shares[0] = shares[1] = shares[2] = 7;
#define SHARE(ring, points, length, room) nm_erasure_share(&ring, points, 3, coefficients, 3, shares, length, scratch, room)
    LIST(NM_POINT_WITHOUT_INVERSE, shares, SHARE(of_929, at_zero, 3, 6), 7, 7, 7);
    LIST(NM_POINT_WITHOUT_INVERSE, shares, SHARE(of_929, at_m, 3, 6), 7, 7, 7);
    LIST(NM_POINT_WITHOUT_INVERSE, shares, SHARE(of_1001, common, 3, 6), 7, 7, 7);
    LIST(NM_POINTS_DONT_FIT, shares, SHARE(of_929, equal, 3, 6), 7, 7, 7);
    LIST(NM_POINTS_DONT_FIT, shares, SHARE(of_1001, seven, 3, 6), 7, 7, 7);
    LIST(NM_BAD_ARGUMENT, shares, SHARE(of_929, counted + 1, 2, 6), 7, 7, 7);
    LIST(NM_BAD_ARGUMENT, shares, SHARE(of_929, counted + 1, 3, NM_ERASURE_ENCODE_SCRATCH(3, 3) - 1), 7, 7, 7);
#undef SHARE
    /* no secret, and fewer points than would recover it */
    LIST(NM_BAD_ARGUMENT, shares, nm_erasure_share(&of_929, counted + 1, 3, NULL, 0, shares, 3, scratch, 6), 7, 7, 7);
    CODE(NM_BAD_ARGUMENT, nm_erasure_share(&of_929, NULL, 0, NULL, 0, NULL, 0, scratch, 6));
    LIST(NM_BAD_ARGUMENT, shares, nm_erasure_share(&of_929, counted + 1, 2, coefficients, 3, shares, 2, scratch, 6), 7, 7, 7);
    CODE(NM_BAD_ARGUMENT, nm_erasure_share(&of_929, NULL, 0, coefficients, 3, NULL, 0, scratch, 6));
    LIST(NM_OK, shares, nm_erasure_share(&of_929, counted + 1, 1, coefficients, 1, shares, 1, scratch, 2), 123, 7, 7);
    CODE(NM_BAD_ARGUMENT, nm_erasure_share(&of_929, counted + 1, 3, coefficients, 3, shares, 3, NULL, 0));
}

/* what every call answers of a changed context */
static void changed_rows(void) {
    nm_montgomery_t changed = of_929;
    uint64_t out[3] = {7, 7, 7}, number = 77;
    size_t errors = 77;
    changed.square ^= 1;
    LIST(NM_BAD_CONTEXT, out, nm_erasure_encode(&changed, counted, 3, counted, 3, out, 3, scratch, SCRATCH_LENGTH), 7, 7, 7);
    LIST(NM_BAD_CONTEXT, out, nm_erasure_share(&changed, counted + 1, 3, counted, 3, out, 3, scratch, SCRATCH_LENGTH), 7, 7, 7);
    LIST(NM_BAD_CONTEXT, out, nm_erasure_restore(&changed, counted, 3, in_order, 3, counted, 3, out, 3, scratch, SCRATCH_LENGTH), 7, 7, 7);
    LIST(NM_BAD_CONTEXT, out, nm_erasure_correct(&changed, counted, 2, in_order, 2, counted, 2, out, 1, out + 1, 2, scratch,
                                                 SCRATCH_LENGTH, &errors, &number), 7, 7, 7);
    row("errors and number stay", errors == 77 && number == 77, NM_BAD_CONTEXT);
}

void erasure_rows(void) {
    CODE(NM_OK, nm_montgomery(929, &of_929));
    CODE(NM_OK, nm_montgomery(1001, &of_1001));
    word_rows();
    equal_points_rows();
    restore_rows();
    refused_rows();
    correct_rows();
    four_errors_row();
    no_inverse_rows();
    secret_rows();
    changed_rows();
}
