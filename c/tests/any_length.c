/* Transforms of any length modulo any m, with known values computed by hand. */
#include "calls.h"

#define GREATEST UINT64_MAX
#define NUMBERS(...) (const uint64_t[]){__VA_ARGS__}

/* a transform without scratch lists */
#define TRANSFORM(m, g, xs, n, ...) LIST(NM_OK, out, nm_transform(m, g, xs, n, out, n, NULL, 0, NULL, 0), __VA_ARGS__)
#define INVERSE(m, g, xs, n, ...)                                                                                      \
    LIST(NM_OK, out, nm_transform_inverse(m, g, xs, n, out, n, NULL, 0, NULL, 0), __VA_ARGS__)

static void known_rows(void) {
    static const uint64_t five[5] = {1, 2, 3, 4, 5}, of_five[5] = {4, 8, 2, 4, 9};
    uint64_t out[5] = {7, 7, 7, 7, 7};
    CODE(NM_OK, nm_transform(7, 3, NULL, 0, NULL, 0, NULL, 0, NULL, 0));
    TRANSFORM(7, 2, five, 3, 6, 3, 1, 7);
    INVERSE(7, 2, NUMBERS(6, 3, 1), 3, 1, 2, 3, 7);
    TRANSFORM(11, 3, five, 5, 4, 8, 2, 4, 9);
    INVERSE(11, 3, of_five, 5, 1, 2, 3, 4, 5);
    TRANSFORM(91, 16, five, 3, 6, 73, 15);
    INVERSE(91, 16, NUMBERS(6, 73, 15), 3, 1, 2, 3);
    TRANSFORM(1, 0, five, 2, 0, 0, 3);
    INVERSE(1, 0, five, 2, 0, 0, 3);
    TRANSFORM(7, 1, five + 4, 1, 5);
    INVERSE(7, 1, five + 4, 1, 5);
    /* where g isn't of that order, or values aren't reduced */
    TRANSFORM(10, 3, five, 4, 0, 2, 8, 4);
    TRANSFORM(GREATEST, 2, NUMBERS(GREATEST - 1, 1, 1), 3, 1, 5, 19);
    TRANSFORM(1, 5, five, 2, 0, 0);
    TRANSFORM(7, 3, NUMBERS(9), 1, 2);
}

static void room_rows(void) {
    ROOM(NM_OK, 0, 0, nm_transform_room(5, &words, &factors));
    ROOM(NM_OK, 36, 0, nm_transform_room(6, &words, &factors));
    ROOM(NM_OK, 1194, 0, nm_transform_room(199, &words, &factors));
    ROOM(NM_OK, 1200 + 4096, 1536, nm_transform_room(200, &words, &factors));
    ROOM(NM_OK, 6000 + 16384, 6144, nm_transform_room(1000, &words, &factors));
    ROOM(NM_OK, (size_t)UINT64_C(25769803774), (size_t)UINT64_C(6442450944),
         nm_transform_room((size_t)UINT64_C(1431655765), &words, &factors));
    ROOM(NM_BAD_ARGUMENT, 0, 0, nm_transform_room((size_t)UINT64_C(1431655766), &words, &factors));
    ROOM(NM_BAD_ARGUMENT, 0, 0, nm_transform_room(SIZE_MAX, &words, &factors));
}

static void root_rows(void) {
    CODE(NM_OK, nm_transform_root_fits(7, 2, 3));
    CODE(NM_NO_ROOT, nm_transform_root_fits(7, 6, 6));
    CODE(NM_NO_ROOT, nm_transform_root_fits(15, 4, 2));
    CODE(NM_OK, nm_transform_root_fits(91, 16, 3));
    CODE(NM_OK, nm_transform_root_fits(41, 2, 20));
    CODE(NM_NO_ROOT, nm_transform_root_fits(41, 2, 40));
    CODE(NM_OK, nm_transform_root_fits(1, 0, 5));
    CODE(NM_OK, nm_transform_root_fits(7, 1, 1));
    CODE(NM_NO_ROOT, nm_transform_root_fits(7, 1, 0));
    CODE(NM_BAD_ARGUMENT, nm_transform_root_fits(0, 1, 1));
    /* these take no time, though the order is great */
    CODE(NM_NO_ROOT, nm_transform_root_fits(7, 1, SIZE_MAX));
    CODE(NM_OK, nm_transform_root_fits(1, 1, SIZE_MAX));
    CODE(NM_NO_ROOT, nm_transform_root_fits((UINT64_C(1) << 61) - 1, 3, (size_t)1 << 60));
    CODE(NM_OK, nm_transform_root_fits(7, 3, 6));
    CODE(NM_NO_ROOT, nm_transform_root_fits(7, 1, 7));
}

static void found_rows(void) {
    WORD(NM_OK, 2, nm_transform_find_root(31, 5, &out));
    WORD(NM_NO_ROOT, 0, nm_transform_find_root(31, 7, &out));
    WORD(NM_OK, 4, nm_transform_find_root(7, 3, &out));
    WORD(NM_OK, 3, nm_transform_find_root(7, 6, &out));
    WORD(NM_OK, 14, nm_transform_find_root(15, 2, &out));
    WORD(NM_OK, 5, nm_transform_find_root(97, 96, &out));
    WORD(NM_OK, 121, nm_transform_find_root(1009, 504, &out));
    WORD(NM_NO_ROOT, 0, nm_transform_find_root(91, 3, &out));
    WORD(NM_OK, 0, nm_transform_find_root(1, 5, &out));
    WORD(NM_NO_ROOT, 0, nm_transform_find_root(7, 0, &out));
    WORD(NM_NO_ROOT, 0, nm_transform_find_root(7, SIZE_MAX, &out));
    WORD(NM_BAD_ARGUMENT, 0, nm_transform_find_root(0, 1, &out));
}

#define REFUSED(code, call) LIST(code, out, call, 7, 7, 7)

static void refused_rows(void) {
    static const uint64_t xs[2] = {1, 2};
    uint64_t out[3] = {7, 7, 7};
    REFUSED(NM_BAD_ARGUMENT, nm_transform(0, 1, xs, 2, out, 2, NULL, 0, NULL, 0));
    REFUSED(NM_BAD_ARGUMENT, nm_transform_inverse(0, 1, xs, 2, out, 2, NULL, 0, NULL, 0));
    REFUSED(NM_NO_INVERSE, nm_transform(9, 6, xs, 2, out, 2, NULL, 0, NULL, 0));
    REFUSED(NM_NO_INVERSE, nm_transform_inverse(9, 6, xs, 2, out, 2, NULL, 0, NULL, 0));
    REFUSED(NM_BAD_ARGUMENT, nm_transform(9, 2, xs, 2, out, 3, NULL, 0, NULL, 0));
    REFUSED(NM_BAD_ARGUMENT, nm_transform_inverse(9, 2, xs, 2, out, 3, NULL, 0, NULL, 0));
    REFUSED(NM_BAD_ARGUMENT, nm_transform(9, 2, NULL, 0, out, 2, NULL, 0, NULL, 0));
    REFUSED(NM_BAD_ARGUMENT, nm_transform_inverse(9, 2, NULL, 0, out, 2, NULL, 0, NULL, 0));
    CODE(NM_BAD_ARGUMENT, nm_transform(9, 2, xs, 2, NULL, 0, NULL, 0, NULL, 0));
    CODE(NM_BAD_ARGUMENT, nm_transform_inverse(9, 2, xs, 2, NULL, 0, NULL, 0, NULL, 0));
    REFUSED(NM_NO_INVERSE, nm_transform_inverse(8, 7, xs, 2, out, 2, NULL, 0, NULL, 0));
    LIST(NM_OK, out, nm_transform(8, 7, xs, 2, out, 2, NULL, 0, NULL, 0), 3, 7, 7);
}

/* Whether entry 0 is the first number, and the others the second. */
static int is_first_then(const uint64_t *list, size_t n, uint64_t first, uint64_t others) {
    int is = list[0] == first;
    for (size_t i = 1; i < n; i++) is &= list[i] == others;
    return is;
}

/* the transform of n ones by a root of order n is n and zeros */
static void ones_rows(uint64_t m, uint64_t g, size_t n, size_t room, size_t factors_room) {
    static uint64_t ones[1000], there[1000], back[1000], words[22384];
    static nm_factor_t factors[6144];
    for (size_t i = 0; i < n; i++) ones[i] = 1;
    there[0] = words[0] = factors[0].value = 7;
    CODE(NM_OK, nm_transform_root_fits(m, g, n));
    CODE(NM_BAD_ARGUMENT, nm_transform(m, g, ones, n, there, n, words, room - 1, factors, factors_room));
    CODE(NM_BAD_ARGUMENT, nm_transform_inverse(m, g, ones, n, there, n, NULL, 0, factors, factors_room));
    if (factors_room) {
        CODE(NM_BAD_ARGUMENT, nm_transform(m, g, ones, n, there, n, words, room, factors, factors_room - 1));
        CODE(NM_BAD_ARGUMENT, nm_transform_inverse(m, g, ones, n, there, n, words, room, NULL, 0));
    }
    row("no room, and nothing is written", there[0] == 7 && words[0] == 7 && factors[0].value == 7, 0);
    CODE(NM_OK, nm_transform(m, g, ones, n, there, n, words, room, factors, factors_room));
    row("the transform of ones", is_first_then(there, n, n % m, 0), 0);
    CODE(NM_OK, nm_transform_inverse(m, g, there, n, back, n, words, room, factors, factors_room));
    row("ones again", is_first_then(back, n, 1, 1), 0);
}

/* The transform of the numbers i * i, computed by the sums. */
static void sums_rows(uint64_t m, uint64_t g, size_t n, size_t room, size_t factors_room) {
    static uint64_t squares[504], out[504], words[11216];
    static nm_factor_t factors[3072];
    uint64_t step = 1 % m;
    int same = 1;
    for (size_t i = 0; i < n; i++) squares[i] = i * i;
    CODE(NM_OK, nm_transform(m, g, squares, n, out, n, words, room, factors, factors_room));
    for (size_t j = 0; j < n; j++) {
        uint64_t sum = 0, power = 1 % m;
        for (size_t i = 0; i < n; i++) {
            sum = (sum + squares[i] * power) % m;
            power = power * step % m;
        }
        same &= out[j] == sum;
        step = step * g % m;
    }
    row("the transform by the sums", same, 0);
}

void any_length_rows(void) {
    known_rows();
    room_rows();
    root_rows();
    found_rows();
    refused_rows();
    ones_rows(41, 2, 20, 120, 0);
    ones_rows(1009, 121, 504, 6 * 504 + 8192, 3072);
    ones_rows(3001, 2744, 1000, 6 * 1000 + 16384, 6144);
    sums_rows(41, 2, 20, 120, 0);
    sums_rows(1009, 121, 504, 6 * 504 + 8192, 3072);
    sums_rows(1000, 3, 199, 6 * 199, 0);
    sums_rows(1000000, 7, 200, 6 * 200 + 4096, 1536);
}
