/* Operations, symbols and dividers. */
#include "calls.h"

static void residue_rows(void) {
    static const struct { uint64_t a, b, m, sum; } sums[] = {
        {0, 0, 5, 0}, {1, 2, 5, 3}, {2, 2, 5, 4}, {3, 2, 5, 0}, {6, 1, 5, 2}, {11, 7, 5, 3}, {7, 11, 5, 3},
    };
    static const struct { uint64_t a, b, m, difference; } differences[] = {
        {0, 0, 7, 0}, {11, 9, 7, 2}, {5, 2, 7, 3}, {2, 5, 7, 4}, {6, 7, 7, 6},
        {1, 7, 7, 1}, {7, 1, 7, 6},  {0, 6, 7, 1}, {15, 1, 7, 0}, {1, 15, 7, 0},
    };
    static const struct { uint64_t a, b, m, product; } products[] = {
        {0, 0, 7, 0}, {11, 9, 7, 1}, {5, 2, 7, 3}, {6, 7, 7, 0}, {0, 6, 7, 0}, {15, 1, 7, 1},
    };
    for (size_t i = 0; i < sizeof sums / sizeof *sums; i++)
        WORD(NM_OK, sums[i].sum, nm_addm(sums[i].a, sums[i].b, sums[i].m, &out));
    for (size_t i = 0; i < sizeof differences / sizeof *differences; i++)
        WORD(NM_OK, differences[i].difference, nm_subm(differences[i].a, differences[i].b, differences[i].m, &out));
    for (size_t i = 0; i < sizeof products / sizeof *products; i++)
        WORD(NM_OK, products[i].product, nm_mulm(products[i].a, products[i].b, products[i].m, &out));
    WORD(NM_OK, UINT64_MAX - 2, nm_addm(UINT64_MAX - 1, UINT64_MAX - 1, UINT64_MAX, &out));
    WORD(NM_BAD_ARGUMENT, 0, nm_addm(1, 2, 0, &out));
    WORD(NM_BAD_ARGUMENT, 0, nm_subm(1, 2, 0, &out));
    WORD(NM_BAD_ARGUMENT, 0, nm_mulm(1, 2, 0, &out));
}

static void power_rows(void) {
    static const struct { uint64_t m, base, exponent, power; } powers[] = {
        {7, 0, 0, 1},     {7, 11, 9, 1},   {7, 5, 2, 4},  {7, 2, 5, 4},     {7, 6, 7, 6},       {7, 7, 1, 0},
        {7, 0, 6, 0},     {7, 15, 1, 1},   {1, 3, 0, 0},  {7, 255, 255, 6}, {10, 255, 255, 5},
        {UINT64_C(18446744073709551557), 3, UINT64_C(9223372036854775778), UINT64_C(18446744073709551556)},
    };
    static const struct { uint64_t a, m, inverse; } inverses[] = {
        {5, 11, 9},       {8, 11, 7},        {10, 11, 10}, {3, 5000, 1667}, {1667, 5000, 3}, {999, 5000, 3999}, {0, 1, 0},
        {999, UINT64_C(9223372036854775807), UINT64_C(3619181019466538655)},
        {UINT64_C(9223372036854775804), UINT64_C(9223372036854775807), UINT64_C(3074457345618258602)},
    };
    for (size_t i = 0; i < sizeof powers / sizeof *powers; i++)
        WORD(NM_OK, powers[i].power, nm_powm(powers[i].base, powers[i].exponent, powers[i].m, &out));
    for (size_t i = 0; i < sizeof inverses / sizeof *inverses; i++)
        WORD(NM_OK, inverses[i].inverse, nm_invm(inverses[i].a, inverses[i].m, &out));
    WORD(NM_NO_INVERSE, 0, nm_invm(0, 21, &out));
    WORD(NM_NO_INVERSE, 0, nm_invm(7, 21, &out));
    WORD(NM_BAD_ARGUMENT, 0, nm_powm(5, 3, 0, &out));
    WORD(NM_BAD_ARGUMENT, 0, nm_invm(5, 0, &out));
}

/* Powers and inverses of Python's pow. */
static void secret_rows(void) {
    static const struct { uint64_t a, exponent, m, power; uint32_t bits; } powers[] = {
        {3, 5, 97, 49, 4}, {3, 0, 97, 1, 0}, {0, 0, 1, 0, 64}, {5, 3, 10, 5, 2}, {255, 255, 10, 5, 8},
        {3, UINT64_C(9223372036854775778), UINT64_C(18446744073709551557), UINT64_C(18446744073709551556), 63},
        {UINT64_C(18446744073709551615), UINT64_C(18446744073709551615), UINT64_C(18446744073709551614), 1, 64},
        {7, 1, UINT64_C(1099511627776), 7, 1},
        {UINT64_C(1099511627779), UINT64_C(8589934592), UINT64_C(1099511627776), UINT64_C(996432412673), 34},
    };
    static const struct { uint64_t a, m, inverse; } inverses[] = {
        {3, 7, 5}, {8, 11, 7}, {18, 11, 8}, {0, 1, 0},
        {999, UINT64_C(9223372036854775807), UINT64_C(3619181019466538655)},
        {UINT64_C(18446744073709551615), UINT64_C(18446744073709551557), UINT64_C(1590236558078409617)},
        {2, UINT64_C(18446744073709551615), UINT64_C(9223372036854775808)},
    };
    for (size_t i = 0; i < sizeof powers / sizeof *powers; i++)
        WORD(NM_OK, powers[i].power, nm_powm_secret(powers[i].a, powers[i].exponent, powers[i].bits, powers[i].m, &out));
    for (size_t i = 0; i < sizeof inverses / sizeof *inverses; i++)
        WORD(NM_OK, inverses[i].inverse, nm_invm_secret(inverses[i].a, inverses[i].m, &out));
    WORD(NM_BAD_ARGUMENT, 0, nm_powm_secret(3, 5, 3, 0, &out));
    WORD(NM_BAD_ARGUMENT, 0, nm_powm_secret(3, 5, 65, 7, &out));
    WORD(NM_BAD_ARGUMENT, 0, nm_powm_secret(3, 8, 3, 7, &out));
    WORD(NM_BAD_ARGUMENT, 0, nm_powm_secret(3, 1, 0, 7, &out));
    WORD(NM_BAD_ARGUMENT, 0, nm_powm_secret(3, UINT64_C(1) << 63, 63, 7, &out));
    WORD(NM_NO_INVERSE, 0, nm_invm_secret(0, 21, &out));
    WORD(NM_NO_INVERSE, 0, nm_invm_secret(14, 21, &out));
    WORD(NM_BAD_ARGUMENT, 0, nm_invm_secret(3, 0, &out));
    WORD(NM_BAD_ARGUMENT, 0, nm_invm_secret(3, 10, &out));
}

void plain_rows(void) {
    residue_rows();
    power_rows();
    secret_rows();
}

struct symbol_row { int64_t n, a; int32_t symbol; };

static void legendre_rows(void) {
    static const struct symbol_row rows[] = {
        {11, 0, 0}, {11, 1, 1}, {11, 2, -1}, {11, 4, 1}, {11, 7, -1}, {11, 10, -1}, {11, -10, 1}, {11, -7, 1},
        {11, -4, -1}, {11, -2, 1}, {11, -1, -1}, {17, 0, 0}, {17, 1, 1}, {17, 2, 1}, {17, 4, 1}, {17, 9, 1},
        {17, 10, -1}, {17, -10, -1}, {17, -9, 1}, {17, -4, 1}, {17, -2, 1}, {17, -1, 1}, {101, 0, 0}, {101, 1, 1},
        {101, 2, -1}, {101, 4, 1}, {101, 9, 1}, {101, 10, -1}, {101, -10, -1}, {101, -9, 1}, {101, -4, 1},
        {101, -2, -1}, {101, -1, 1}, {127, -128, -1},
    };
    for (size_t i = 0; i < sizeof rows / sizeof *rows; i++) {
        SYMBOL(NM_OK, rows[i].symbol, nm_legendre_signed(rows[i].a, rows[i].n, &out));
        if (rows[i].a >= 0) SYMBOL(NM_OK, rows[i].symbol, nm_legendre((uint64_t)rows[i].a, (uint64_t)rows[i].n, &out));
    }
    SYMBOL(NM_OK, -1, nm_legendre(3, UINT64_C(18446744073709551557), &out));
    SYMBOL(NM_BAD_ARGUMENT, 0, nm_legendre(2, 9, &out));
    SYMBOL(NM_BAD_ARGUMENT, 0, nm_legendre(3, 0, &out));
    SYMBOL(NM_BAD_ARGUMENT, 0, nm_legendre_signed(3, -128, &out));
}

static void jacobi_rows(void) {
    static const struct symbol_row rows[] = {
        {1, 1, 1}, {1, 15, 1}, {3, 2, -1}, {9, 29, 1}, {11, 4, 1}, {11, 17, -1}, {11, -10, 1}, {11, -9, -1},
        {11, -4, -1}, {11, -2, 1}, {11, -1, -1}, {13, -10, 1}, {13, -9, 1}, {13, -4, 1}, {13, -2, -1}, {13, -1, 1},
        {15, -10, 0}, {15, -7, 1}, {15, -4, -1}, {15, -2, -1}, {15, -1, -1}, {29, 19, -1}, {33, 10, -1}, {33, 11, 0},
        {33, 12, 0}, {33, 14, -1}, {33, 15, 0}, {37, 15, -1}, {59, 29, 1}, {59, 30, -1},
    };
    for (size_t i = 0; i < sizeof rows / sizeof *rows; i++) {
        SYMBOL(NM_OK, rows[i].symbol, nm_jacobi_signed(rows[i].a, rows[i].n, &out));
        if (rows[i].a >= 0) SYMBOL(NM_OK, rows[i].symbol, nm_jacobi((uint64_t)rows[i].a, (uint64_t)rows[i].n, &out));
    }
    SYMBOL(NM_OK, -1, nm_jacobi(3, UINT64_C(18446744073709551557), &out));
    SYMBOL(NM_OK, 1, nm_jacobi(UINT64_C(18446744073709551556), UINT64_C(18446744073709551557), &out));
    SYMBOL(NM_BAD_ARGUMENT, 0, nm_jacobi(3, 8, &out));
    SYMBOL(NM_BAD_ARGUMENT, 0, nm_jacobi(3, 0, &out));
    SYMBOL(NM_BAD_ARGUMENT, 0, nm_jacobi_signed(2, -3, &out));
    SYMBOL(NM_BAD_ARGUMENT, 0, nm_jacobi_signed(2, 4, &out));
}

static void kronecker_rows(void) {
    static const struct symbol_row rows[] = {
        {15, 0, 0}, {15, 1, 1}, {15, 2, 1}, {15, 4, 1}, {15, 7, -1}, {15, 10, 0}, {15, -10, 0}, {15, -7, 1},
        {15, -4, -1}, {15, -2, -1}, {15, -1, -1}, {14, 0, 0}, {14, 1, 1}, {14, 2, 0}, {14, 4, 0}, {14, 9, 1},
        {14, 10, 0}, {14, -10, 0}, {14, -9, -1}, {14, -4, 0}, {14, -2, 0}, {14, -1, -1}, {11, 0, 0}, {11, 1, 1},
        {11, 2, -1}, {11, 4, 1}, {11, 9, 1}, {11, 10, -1}, {11, -10, 1}, {11, -9, -1}, {11, -4, -1}, {11, -2, 1},
        {11, -1, -1}, {-11, -10, -1}, {-11, -9, 1}, {-11, -4, 1}, {-11, -2, -1}, {-11, -1, 1}, {-11, 0, 0},
        {-11, 1, 1}, {-11, 2, -1}, {0, 1, 1}, {0, -1, 1}, {0, 0, 0}, {0, 2, 0}, {-128, -128, 0}, {127, -128, -1},
        {-1, -1, -1}, {-1, 0, 1}, {1, 0, 1},
    };
    for (size_t i = 0; i < sizeof rows / sizeof *rows; i++) {
        SYMBOL(NM_OK, rows[i].symbol, nm_kronecker_signed(rows[i].a, rows[i].n, &out));
        if (rows[i].a >= 0 && rows[i].n >= 0)
            SYMBOL(NM_OK, rows[i].symbol, nm_kronecker((uint64_t)rows[i].a, (uint64_t)rows[i].n, &out));
    }
}

void symbol_rows(void) {
    legendre_rows();
    jacobi_rows();
    kronecker_rows();
}

#define TOP (UINT64_C(1) << 63)
static const nm_division_t none = {UNTOUCHED, UNTOUCHED};

/* A call that writes the division out. */
#define DIVISION(want_code, want_quotient, want_remainder, call)                                                       \
    do {                                                                                                               \
        nm_division_t out = none;                                                                                      \
        uint32_t code = (call);                                                                                        \
        nm_division_t want = {want_quotient, want_remainder};                                                          \
        if (code != NM_OK) want = none;                                                                                \
        row(#call, code == (want_code) && out.quotient == want.quotient && out.remainder == want.remainder, code);     \
    } while (0)

/* each bit of a divider changed is found out */
static void changed_divider_rows(void) {
    for (int bit = 0; bit < 128; bit++) {
        nm_divider_t divider;
        CODE(NM_OK, nm_divider(60, &divider));
        *(bit < 64 ? &divider.divisor : &divider.reciprocal) ^= UINT64_C(1) << bit % 64;
        DIVISION(NM_BAD_CONTEXT, 0, 0, nm_div_rem(&divider, 61, &out));
        DIVISION(NM_BAD_CONTEXT, 0, 0, nm_div_rem_2by1(&divider, 61, 0, &out));
    }
}

void divider_rows(void) {
    nm_divider_t by = {UNTOUCHED, UNTOUCHED};
    uint32_t code = nm_divider(0, &by);
    row("nm_divider(0, &by)", code == NM_BAD_ARGUMENT && by.divisor == UNTOUCHED && by.reciprocal == UNTOUCHED, code);
    CODE(NM_OK, nm_divider(3, &by));
    DIVISION(NM_OK, 85, 0, nm_div_rem(&by, 255, &out));
    DIVISION(NM_OK, 84, 2, nm_div_rem(&by, 254, &out));
    CODE(NM_OK, nm_divider(60, &by));
    DIVISION(NM_OK, UINT64_C(307445734561825860), 15, nm_div_rem(&by, UINT64_MAX, &out));
    DIVISION(NM_OK, UINT64_C(18139298339147725755), 49, nm_div_rem_2by1(&by, 5, 59, &out));
    DIVISION(NM_BAD_ARGUMENT, 0, 0, nm_div_rem_2by1(&by, 5, 60, &out));
    CODE(NM_OK, nm_divider(TOP + 12345, &by));
    DIVISION(NM_OK, 1975308641, UINT64_C(9223347651793059452), nm_div_rem_2by1(&by, 123456789, 987654321, &out));
    CODE(NM_OK, nm_divider(UINT64_MAX, &by));
    DIVISION(NM_OK, 1, 0, nm_div_rem(&by, UINT64_MAX, &out));
    CODE(NM_OK, nm_divider(1, &by));
    DIVISION(NM_OK, UINT64_MAX, 0, nm_div_rem(&by, UINT64_MAX, &out));
    DIVISION(NM_BAD_ARGUMENT, 0, 0, nm_div_rem_2by1(&by, 5, 1, &out));
    memset(&by, 0, sizeof by);
    DIVISION(NM_BAD_CONTEXT, 0, 0, nm_div_rem(&by, 5, &out));
    changed_divider_rows();
}

/* the preprocessor reads codes, operations and versions */
#if NM_OK != 0 || NM_LOAD != 0 || NM_POW != 9 || NM_NOT_FOUND != 5 || NM_VERSION != 700
#error "a macro of the header has another value"
#endif

void header_rows(void) {
    row("nm_version()", nm_version() == NM_VERSION, nm_version());
    for (uint32_t code = 0; code <= NM_NOT_ACCEPTED + 1; code++)
        for (uint32_t other = 0; other < code; other++)
            row("nm_strerror", strcmp(nm_strerror(code), nm_strerror(other)) != 0, code);
    row("nm_strerror of no code", strcmp(nm_strerror(NM_NOT_ACCEPTED + 1), nm_strerror(UINT32_MAX)) == 0, 13);
}
