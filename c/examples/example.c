/* A key agreed by powers, a product of polynomials, and a message from some symbols of its word. */
#include <inttypes.h>
#include <num_modular.h>
#include <stdio.h>

/* base to the power exponent modulo the context's modulus; the code goes through */
static nm_code_t power(const nm_montgomery_t *ring, uint64_t base, uint64_t exponent, uint64_t *result) {
    uint64_t form;
    nm_code_t code = nm_montgomery_transform(ring, base, &form);
    if (code == NM_OK) code = nm_montgomery_pow(ring, form, exponent, &form);
    if (code == NM_OK) code = nm_montgomery_residue(ring, form, result);
    return code;
}

int main(void) {
    nm_montgomery_t ring;
    uint64_t alice, bob, one, other;
    if (nm_montgomery(UINT64_C(18446744073709551557), &ring) != NM_OK) return 1;
    if (power(&ring, 3, 123456789, &alice) != NM_OK || power(&ring, 3, 987654321, &bob) != NM_OK) return 1;
    if (power(&ring, bob, 123456789, &one) != NM_OK || power(&ring, alice, 987654321, &other) != NM_OK) return 1;
    printf("the keys are %s\n", one == other ? "equal" : "different");

    uint64_t xs[8] = {1, 2, 3}, ys[8] = {4, 5}, root;
    if (nm_solinas_find_root(8, &root) != NM_OK) return 1;
    if (nm_solinas_convolve(xs, 8, ys, 8, root) != NM_OK) return 1;
    printf("(1 + 2X + 3X^2)(4 + 5X) has the coefficients");
    for (int i = 0; i < 4; i++) printf(" %" PRIu64, xs[i]);
    printf("\n");

    const uint64_t points[5] = {0, 1, 2, 3, 4}, sent[3] = {1, 2, 3};
    const size_t places[3] = {4, 0, 3};
    uint64_t word[5], message[3], scratch[NM_ERASURE_RESTORE_SCRATCH(5, 3, 3)];
    if (nm_erasure_encode(&ring, points, 5, sent, 3, word, 5, scratch, NM_ERASURE_ENCODE_SCRATCH(5, 3)) != NM_OK) return 1;
    const uint64_t symbols[3] = {word[4], word[0], word[3]};
    if (nm_erasure_restore(&ring, points, 5, places, 3, symbols, 3, message, 3, scratch, sizeof scratch / sizeof *scratch)
        != NM_OK) return 1;
    printf("the message is %" PRIu64 " %" PRIu64 " %" PRIu64 "\n", message[0], message[1], message[2]);

    uint64_t untouched = 7;
    printf("a sum modulo 0 returns %" PRIu32, nm_addm(1, 2, 0, &untouched));
    printf(", and %" PRIu64 " stays\n", untouched);
    return 0;
}
