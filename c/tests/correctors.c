/* Correction of words in place: every word of small codes beside a search of all messages, rows by hand, and bad input. */
#include "calls.h"

#define MOST 6
#define SCRATCH NM_CORRECTOR_SCRATCH(MOST, 0)
static const uint64_t counted[MOST] = {1, 2, 3, 4, 5, 6};
/* the word of the message 5, 7 at the points 1 to 6, modulo 97 */
static const uint64_t word_of_97[MOST] = {12, 19, 26, 33, 40, 47};
static uint64_t forms[2][2 * MOST], checks[MOST * MOST], scratch[SCRATCH];

/* The code of k symbols at the points 1 to n, without checks and with them. */
static void make(uint64_t m, size_t n, size_t k, nm_corrector_t *codes) {
    nm_montgomery_t context;
    CODE(NM_OK, nm_montgomery(m, &context));
    CODE(NM_OK, nm_corrector_make(&context, counted, n, k, forms[0], 2 * n, NULL, 0, scratch, n, &codes[0]));
    CODE(NM_OK, nm_corrector_make(&context, counted, n, k, forms[1], 2 * n, checks, (n - k) * n, scratch, n, &codes[1]));
}

/* How many listed symbols differ from the nearest word of a message of k symbols, at most two; that word. */
static size_t nearest(uint64_t m, size_t n, size_t k, const uint64_t *symbols, unsigned lost, uint64_t *word) {
    size_t least = n + 1;
    for (uint64_t message = 0; message < (k == 0 ? 1 : k == 1 ? m : m * m); message++) {
        size_t errors = 0;
        for (size_t i = 0; i < n; i++) errors += !(lost >> i & 1) && (message % m + message / m * counted[i]) % m != symbols[i];
        if (errors >= least) continue;
        least = errors;
        for (size_t i = 0; i < n; i++) word[i] = (message % m + message / m * counted[i]) % m;
    }
    return least;
}

static int has_factor(uint64_t m, uint64_t a) {
    for (uint64_t d = 2; d <= m; d++)
        if (m % d == 0 && a % d == 0) return 0 < a && a < m;
    return 0;
}

/* a word, whose symbols come as they are or above m, with any lost ones */
static void search_row(const nm_corrector_t *code, uint64_t m, size_t n, size_t k, const uint64_t *symbols, unsigned lost) {
    uint64_t word[MOST], near[MOST] = {0}, number = UNTOUCHED;
    size_t places[MOST], count = 0, errors = 77, least = nearest(m, n, k, symbols, lost, near);
    for (size_t i = n; i-- > 0;)
        if (lost >> i & 1) places[count++] = i;
    for (size_t i = 0; i < n; i++) word[i] = symbols[i] + (lost + i) % 2 * m;
    uint32_t found = nm_corrector_correct(code, places, count, word, n, scratch, NM_CORRECTOR_SCRATCH(n, k), &errors, &number);
    int holds = found == (count + k > n ? NM_TOO_FEW_SYMBOLS : 2 * least + count + k <= n ? NM_OK : NM_TOO_MANY_ERRORS);
    if (found == NM_NO_INVERSE) holds = least > 1 && has_factor(m, number);
    holds = holds && (errors == 77) == (found != NM_OK) && (number == UNTOUCHED) == (found != NM_NO_INVERSE);
    if (found == NM_OK) holds = holds && errors == least && memcmp(word, near, n * sizeof *word) == 0;
    for (size_t i = 0; i < n && found != NM_OK; i++) holds = holds && word[i] == symbols[i] + (lost + i) % 2 * m;
    row("a word of a small code", holds, found);
}

static void small_code_rows(uint64_t m, size_t n, size_t k, uint64_t words) {
    nm_corrector_t codes[2];
    make(m, n, k, codes);
    for (uint64_t number = 0; number < words; number++) {
        uint64_t symbols[MOST], rest = number;
        for (size_t i = 0; i < n; i++, rest /= m) symbols[i] = rest % m;
        for (unsigned lost = 0; lost < 1u << n; lost++) search_row(&codes[lost % 2], m, n, k, symbols, lost);
    }
}

/* what is found of wrong and lost symbols of the word of 97, which the code then is again */
static void word_rows(void) {
    static const size_t two[2] = {1, 5}, four[4] = {5, 0, 2, 3}, five[5] = {5, 0, 2, 3, 1}, beyond[2] = {6, 6}, twice[2] = {5, 5};
    uint64_t number = UNTOUCHED;
    nm_corrector_t codes[2];
    make(97, 6, 2, codes);
    for (int i = 0; i < 2; i++) {
        size_t errors = 77;
#define CORRECT(lost, count) nm_corrector_correct(&codes[i], lost, count, word, 6, scratch, NM_CORRECTOR_SCRATCH(6, 2), &errors, &number)
#define CORRECTED(lost, count, wrong, ...)                                                                             \
    do {                                                                                                               \
        uint64_t word[6] = {__VA_ARGS__};                                                                              \
        CODE(NM_OK, CORRECT(lost, count));                                                                             \
        row("a corrected word", memcmp(word, word_of_97, sizeof word) == 0 && errors == (wrong), NM_OK);               \
    } while (0)
        CORRECTED(NULL, 0, 0, 12, 19, 26, 33, 40, 47);
        CORRECTED(NULL, 0, 0, 109, 19, UINT64_C(18446744073709551581), 33, 40, 47);
        CORRECTED(NULL, 0, 2, 12, 0, 26, 33, 90, 47);
        CORRECTED(two, 2, 1, 12, 0, 50, 33, 40, UINT64_MAX);
        CORRECTED(four, 4, 0, 0, 19, 0, 0, 40, 0);
#undef CORRECTED
        /* at most three symbols are those of one message */
        uint64_t word[6] = {12, 19, 26, 0, 0, 98};
        errors = 77;
        LIST(NM_TOO_MANY_ERRORS, word, CORRECT(NULL, 0), 12, 19, 26, 0, 0, 98);
        LIST(NM_TOO_FEW_SYMBOLS, word, CORRECT(five, 5), 12, 19, 26, 0, 0, 98);
        LIST(NM_PLACE_OUT_OF_RANGE, word, CORRECT(beyond, 2), 12, 19, 26, 0, 0, 98);
        LIST(NM_PLACE_TWICE, word, CORRECT(twice, 2), 12, 19, 26, 0, 0, 98);
        row("errors and number stay", errors == 77 && number == UNTOUCHED, NM_OK);
#undef CORRECT
    }
}

/* modulo 35, the symbols of the message 3, two of which are wrong, one by 5 and one by 7 */
static void no_inverse_row(void) {
    uint64_t word[5] = {8, 10, 3, 3, 3}, number = 0;
    size_t errors = 77;
    nm_corrector_t codes[2];
    make(35, 5, 1, codes);
    LIST(NM_NO_INVERSE, word, nm_corrector_correct(&codes[0], NULL, 0, word, 5, scratch, SCRATCH, &errors, &number), 8, 10, 3, 3, 3);
    row("a factor with 35", has_factor(35, number) && errors == 77, NM_NO_INVERSE);
}

static void refused_rows(void) {
    static const uint64_t equal[3] = {1, 2, 98};
    uint64_t list[12] = {7, 7, 7, 7, 7, 7, 7, 7, 7, 7, 7, 7}, table[4] = {7, 7, 7, 7}, word[2] = {5, 6}, number = UNTOUCHED;
    size_t errors = 77;
    nm_montgomery_t context, changed;
    CODE(NM_OK, nm_montgomery(97, &context));
    changed = context, changed.square ^= 1;
    nm_corrector_t made, before;
    memset(&made, 7, sizeof made);
    before = made;
#define MAKE(context, points, k, length, count, room) nm_corrector_make(context, points, 3, k, list, length, table, count, scratch, room, &made)
    LIST(NM_BAD_CONTEXT, list, MAKE(&changed, counted, 4, 6, 3, 3), 7, 7, 7, 7, 7, 7, 7);
    LIST(NM_BAD_ARGUMENT, list, MAKE(&context, equal, 4, 6, 0, 3), 7, 7, 7, 7, 7, 7, 7);
    LIST(NM_BAD_ARGUMENT, list, MAKE(&context, equal, 2, 5, 0, 3), 7, 7, 7, 7, 7, 7, 7);
    LIST(NM_BAD_ARGUMENT, list, MAKE(&context, equal, 2, 7, 0, 3), 7, 7, 7, 7, 7, 7, 7);
    LIST(NM_BAD_ARGUMENT, list, MAKE(&context, equal, 2, 6, 2, 3), 7, 7, 7, 7, 7, 7, 7);
    LIST(NM_BAD_ARGUMENT, list, MAKE(&context, equal, 2, 6, 4, 3), 7, 7, 7, 7, 7, 7, 7);
    LIST(NM_BAD_ARGUMENT, list, MAKE(&context, equal, 2, 6, 3, 2), 7, 7, 7, 7, 7, 7, 7);
    LIST(NM_POINTS_DONT_FIT, table, MAKE(&context, equal, 2, 6, 3, 3), 7, 7, 7, 7);
#undef MAKE
    row("no corrector", memcmp(&made, &before, sizeof made) == 0, NM_OK);
    CODE(NM_OK, nm_corrector_make(&context, counted, 2, 1, list, 4, NULL, 0, scratch, 2, &made));
#define CORRECT(length, room) nm_corrector_correct(&made, NULL, 0, word, length, scratch, room, &errors, &number)
    LIST(NM_BAD_ARGUMENT, word, CORRECT(1, SCRATCH), 5, 6);
    LIST(NM_BAD_ARGUMENT, word, CORRECT(2, NM_CORRECTOR_SCRATCH(2, 1) - 1), 5, 6);
    LIST(NM_TOO_MANY_ERRORS, word, CORRECT(2, NM_CORRECTOR_SCRATCH(2, 1)), 5, 6);
    made.context.square ^= 1;
    LIST(NM_BAD_CONTEXT, word, CORRECT(1, 0), 5, 6);
    row("errors and number stay", errors == 77 && number == UNTOUCHED, NM_OK);
    CODE(NM_OK, nm_corrector_make(&context, NULL, 0, 0, NULL, 0, NULL, 0, NULL, 0, &made));
    CODE(NM_OK, nm_corrector_correct(&made, NULL, 0, NULL, 0, scratch, 3, &errors, &number));
    CODE(NM_BAD_ARGUMENT, nm_corrector_correct(&made, NULL, 0, NULL, 0, NULL, 0, &errors, &number));
#undef CORRECT
}

void corrector_rows(void) {
    small_code_rows(5, 4, 2, 625);
    small_code_rows(7, 5, 1, 2401);
    small_code_rows(9, 2, 0, 81);
    small_code_rows(9, 3, 1, 729);
    small_code_rows(35, 4, 1, 35 * 35);
    small_code_rows(5, 2, 2, 25);
    word_rows();
    no_inverse_row();
    refused_rows();
}
