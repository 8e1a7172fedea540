/* The calls of the library for C on the list of docs/secrets.md, as calls.rs has those of the Cargo crate. A line has
 * `<= N` where the code tells N things, such as whether each of N words is a form: so many reports are accepted. */
#include <num_modular.h>
#include <stdio.h>
#include <valgrind/memcheck.h>

#define LENGTH(list) (sizeof(list) / sizeof(*(list)))
#define SECRET(place) ((void)VALGRIND_MAKE_MEM_UNDEFINED(&(place), sizeof(place)))
#define TRIED(told, name, call)                                                                       \
    do {                                                                                              \
        unsigned before = VALGRIND_COUNT_ERRORS;                                                      \
        nm_code_t code = (call);                                                                      \
        unsigned after = VALGRIND_COUNT_ERRORS;                                                       \
        (void)VALGRIND_MAKE_MEM_DEFINED(&code, sizeof(code));                                         \
        printf("%u\t<= %d\t%s%s\n", code ? ~0u : after - before, told, name, code ? ": FAILED" : ""); \
    } while (0)

static void controls(void) {
    static volatile const unsigned char table[256];
    volatile uint64_t a = 5;
    SECRET(a);
    TRIED(0, "control::jump", a > 70 ? (nm_code_t)puts("above") : NM_OK);
    TRIED(0, "control::index", table[a % 256]);
}

static void forms(const nm_montgomery_t *context, uint64_t x, uint64_t y) {
    uint64_t a, b, word = y, out;
    if (nm_montgomery_transform(context, x, &a) || nm_montgomery_transform(context, y, &b)) return;
    SECRET(a);
    SECRET(b);
    SECRET(word);
    TRIED(0, "nm_montgomery_transform", nm_montgomery_transform(context, word, &out));
    TRIED(1, "nm_montgomery_residue", nm_montgomery_residue(context, a, &out));
    TRIED(2, "nm_montgomery_add", nm_montgomery_add(context, a, b, &out));
    TRIED(2, "nm_montgomery_sub", nm_montgomery_sub(context, a, b, &out));
    TRIED(2, "nm_montgomery_mul", nm_montgomery_mul(context, a, b, &out));
    TRIED(1, "nm_montgomery_pow", nm_montgomery_pow(context, a, 13, &out));
}

static void powers(uint64_t m, uint64_t a, uint64_t exponent) {
    uint64_t short_exponent = exponent % 128, out;
    SECRET(a);
    SECRET(exponent);
    SECRET(short_exponent);
    TRIED(0, "nm_powm_secret", nm_powm_secret(a, exponent, 64, m, &out));
    TRIED(1, "nm_powm_secret (7 bits)", nm_powm_secret(a, short_exponent, 7, m, &out));
}

static void inverses(uint64_t m) {
    uint64_t a = 1, b = m + 2, out;
    SECRET(a);
    SECRET(b);
    TRIED(1, "nm_invm_secret", nm_invm_secret(a, m, &out));
    TRIED(1, "nm_invm_secret", nm_invm_secret(b, m, &out));
}

static void form_lists(const nm_montgomery_t *context) {
    uint64_t a = 5, xs[5] = {5, 1, 0, 7, 9}, ys[5] = {4, 1, 6, 0, 2}, product;
    SECRET(a);
    SECRET(xs);
    SECRET(ys);
    TRIED(10, "nm_montgomery_add_lists", nm_montgomery_add_lists(context, xs, LENGTH(xs), ys, LENGTH(ys)));
    TRIED(10, "nm_montgomery_sub_lists", nm_montgomery_sub_lists(context, xs, LENGTH(xs), ys, LENGTH(ys)));
    TRIED(10, "nm_montgomery_multiply_lists", nm_montgomery_multiply_lists(context, xs, LENGTH(xs), ys, LENGTH(ys)));
    TRIED(6, "nm_montgomery_scale_list", nm_montgomery_scale_list(context, xs, LENGTH(xs), a));
    TRIED(10, "nm_montgomery_dot_product", nm_montgomery_dot_product(context, xs, LENGTH(xs), ys, LENGTH(ys), &product));
}

static void lists(const nm_montgomery_t *context, uint64_t root) {
    uint64_t xs[8] = {5, 1, 0, 7, 9, 3, 2, 8}, ys[8] = {4, 1, 6, 0, 2, 8, 1, 3};
    const nm_command_t commands[] = {{NM_ADD, 1, 0, 2, 0}, {NM_SUB, 2, 1, 3, 0}, {NM_MUL, 3, 2, 1, 0}, {NM_NEG, 0, 3, 0, 0},
                                     {NM_DBL, 1, 0, 0, 0}, {NM_SQR, 2, 1, 0, 0}, {NM_POW, 3, 2, 0, 13}};
    size_t done;
    SECRET(xs);
    SECRET(ys);
    TRIED(0, "nm_montgomery_ntt", nm_montgomery_ntt(context, xs, LENGTH(xs), root));
    TRIED(0, "nm_montgomery_intt", nm_montgomery_intt(context, xs, LENGTH(xs), root));
    TRIED(0, "nm_montgomery_convolve", nm_montgomery_convolve(context, xs, LENGTH(xs), ys, LENGTH(ys), root));
    TRIED(0, "nm_montgomery_run", nm_montgomery_run(context, xs, LENGTH(xs), commands, LENGTH(commands), &done));
}

static void codes(const nm_montgomery_t *context) {
    const uint64_t points[5] = {1, 2, 3, 4, 5};
    const size_t places[3] = {3, 0, 4};
    uint64_t message[3] = {7, 1, 3}, word[5], scratch[NM_ERASURE_RESTORE_SCRATCH(5, 3, 3)];
    SECRET(message);
    TRIED(0, "nm_erasure_encode", nm_erasure_encode(context, points, 5, message, 3, word, 5, scratch, LENGTH(scratch)));
    TRIED(0, "nm_erasure_share", nm_erasure_share(context, points, 5, message, 3, word, 5, scratch, LENGTH(scratch)));
    TRIED(0, "nm_erasure_restore",
          nm_erasure_restore(context, points, 5, places, 3, word, 3, message, 3, scratch, LENGTH(scratch)));
}

int main(void) {
    const uint64_t moduli[] = {998244353, UINT64_C(0xffffffffffffffc5), UINT64_C(1) << 40, 97};
    controls();
    for (size_t i = 0; i < LENGTH(moduli); i++) {
        nm_montgomery_t context;
        uint64_t m = moduli[i], root;
        if (nm_montgomery(m, &context)) return 1;
        powers(m, m / 3, m - 1);
        powers(m, UINT64_MAX, 0);
        forms(&context, 0, m - 1);
        forms(&context, m / 3, m / 2);
        form_lists(&context);
        if (nm_montgomery_find_root(&context, 8, &root) == NM_OK) lists(&context, root);
        if (m % 2 == 0) continue;
        inverses(m);
        codes(&context);
    }
    return 0;
}
