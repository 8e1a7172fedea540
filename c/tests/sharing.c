/* What calls may share: arguments that are only read overlap each other, and are read in several threads. */
#include <pthread.h>

#include "calls.h"

#define THREADS 4
#define WORDS 4096

static void overlap_rows(void) {
    static const uint8_t text[] = "a longer text";
    static const uint64_t numbers[3] = {7, 5, 3};
    static const uint16_t digits[6] = {47768, 65244, 57072, 39612, 22136, 4660};
    /* 0x123456789abcdef0fedcba98 squared, and times itself without its lowest digit */
    static const uint16_t square[12] = {14912, 56641, 15766, 40568, 53270, 37067, 18598, 51745, 44252, 13302, 26332, 331};
    static const uint16_t shifted[11] = {10912, 50515, 33880, 55309, 47844, 15201, 51745, 44252, 13302, 26332, 331};
    static const uint64_t words[3] = {UINT64_C(0x9abcdef0fedcba98), UINT64_C(0x12345678), UINT64_C(0xfedcba9876543210)};
    static const uint64_t of_words[5] = {UINT64_C(0x364cc08a35068740), UINT64_C(0xaa7300627d131c0e),
                                         UINT64_C(0x14ee17fa2cb12115), UINT64_C(0xdeec6cd7c8898115),
                                         UINT64_C(0xfdbac097c8dc5acc)};
    uint64_t first[2], second[2], left[16], product[5], known[4] = {0};
    nm_factor_t right[16];
    size_t position = 77;
    nm_double_t number = {77, 77};
    row("a pattern inside its text", nm_find(1000, text, 13, text + 2, 6, &position) == NM_OK && position == 2, 0);
    row("a text as its own pattern", nm_find(1000, text, 13, text, 13, &position) == NM_OK && position == 0, 0);
    row("residues behind their moduli", nm_decode(numbers, 2, numbers + 1, 2, &number) == NM_OK, 0);
    row("the number of these", number.low == 33 && number.high == 0, 0);
    pack(digits, 6, first);
    pack(square, 12, known);
    CODE(NM_OK, nm_product(first, 2, first, 2, product, 4, left, 16, right, 16));
    row("the digits of a square", memcmp(product, known, sizeof known) == 0, 0);
    pack(digits + 1, 5, second);
    pack(shifted, 11, known);
    CODE(NM_OK, nm_product(first, 2, second, 2, product, 4, left, 16, right, 16));
    row("the digits of a product without the lowest digit", memcmp(product, known, sizeof known) == 0, 0);
    CODE(NM_OK, nm_product(words, 3, words + 1, 2, product, 5, left, 16, right, 16));
    row("the digits of a product of overlapping numbers", memcmp(product, of_words, sizeof of_words) == 0, 0);
}

/* what all threads read */
static nm_montgomery_t ring;
static nm_factor_t table[WORDS / 2];
static uint64_t root;
static nm_plan_t plan;

/* Puts a product of polynomials in place of the list, by the context, by the table and by the plan in turn. */
static void *work(void *list) {
    uint64_t *xs = list, other[WORDS];
    for (int turn = 0; turn < 8; turn++) {
        memcpy(other, xs, sizeof other);
        if (nm_montgomery_convolve(&ring, xs, WORDS, other, WORDS, root) != NM_OK) return NULL;
        memcpy(other, xs, sizeof other);
        if (nm_convolve_planned(ring.modulus, xs, WORDS, other, WORDS, table, WORDS / 2, 1) != NM_OK) return NULL;
        memcpy(other, xs, sizeof other);
        if (nm_plan_convolve(&plan, xs, WORDS, other, WORDS) != NM_OK) return NULL;
    }
    return list;
}

/* four threads with lists of their own, over one context and one plan, and then the same work once more in one */
static void thread_rows(void) {
    static uint64_t lists[THREADS + 1][WORDS];
    pthread_t threads[THREADS];
    int ended = 0, alike = 0;
    CODE(NM_OK, nm_montgomery(UINT64_C(4179340454199820289), &ring));
    CODE(NM_OK, nm_montgomery_find_root(&ring, WORDS, &root));
    CODE(NM_OK, nm_plan_make(ring.modulus, root, table, WORDS / 2, &plan));
    for (int i = 0; i <= THREADS; i++)
        for (int j = 0; j < WORDS; j++) lists[i][j] = (uint64_t)j * j;
    int started = 0;
    while (started < THREADS && pthread_create(&threads[started], NULL, work, lists[started]) == 0) started++;
    for (int i = 0; i < started; i++) {
        void *result = NULL;
        ended += pthread_join(threads[i], &result) == 0 && result == lists[i];
    }
    row("four threads share a context and a plan", started == THREADS && ended == THREADS, 0);
    row("the same work in one thread", work(lists[THREADS]) == lists[THREADS], 0);
    for (int i = 0; i < THREADS; i++) alike += memcmp(lists[i], lists[THREADS], sizeof lists[i]) == 0;
    row("each thread's words", alike == THREADS, 0);
}

void sharing_rows(void) {
    overlap_rows();
    thread_rows();
}
