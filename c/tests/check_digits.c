/* Check digits of standards, by known numbers, and codes of one's own. */
#include "calls.h"

#define TEXT(text) (const uint8_t *)(text), sizeof(text) - 1

/* A number of a standard: it is accepted, and behind the text without its last symbol comes this check digit. */
#define NUMBER(standard, text, symbol)                                                                                 \
    do {                                                                                                               \
        CODE(NM_OK, nm_check_accepts(standard, TEXT(text)));                                                           \
        WORD(NM_OK, symbol, nm_check_digit(standard, (const uint8_t *)(text), sizeof(text) - 2, &out));                \
    } while (0)

/* real numbers, with check digits that were printed with them */
static void number_rows(void) {
    NUMBER(NM_ISBN_10, "0306406152", 2);
    NUMBER(NM_ISBN_10, "080442957X", 10);
    NUMBER(NM_ISBN_13, "9780306406157", 7);
    NUMBER(NM_EAN_13, "4 006381 333931", 1);
    NUMBER(NM_EAN_8, "73513537", 7);
    NUMBER(NM_UPC_A, "036000291452", 2);
    NUMBER(NM_ISSN, "0378-5955", 5);
    NUMBER(NM_ISSN, "2434-561X", 10);
    NUMBER(NM_ORCID, "0000-0002-1694-233X", 10);
    NUMBER(NM_ORCID, "0000-0002-1825-0097", 7);
    NUMBER(NM_ABA_RTN, "111000025", 5);
    NUMBER(NM_LUHN, "4539 5787 6362 1486", 6);
    NUMBER(NM_LUHN, "79927398713", 3);
    NUMBER(NM_VERHOEFF, "2363", 3);
    NUMBER(NM_VERHOEFF, "84736430954837284567892", 2);
    NUMBER(NM_DAMM, "5724", 4);
    CODE(NM_OK, nm_check_accepts(NM_ISBN_10, TEXT("0-306-40615-2")));
    CODE(NM_OK, nm_check_accepts(NM_ISBN_13, TEXT("978-0-306-40615-7")));
    CODE(NM_OK, nm_check_accepts(NM_EAN_13, TEXT("9780306406157")));
    CODE(NM_OK, nm_check_accepts(NM_DAMM, TEXT("0")));
    WORD(NM_OK, 7, nm_check_digit(NM_ISBN_13, TEXT("978-0-306-40615"), &out));
}

/* another digit, an article's number for a book's, texts of another form and length */
static void other_rows(void) {
    static const char *const no_texts[] = {"", "-", " 1", "1-", "1--2", "1 -2", "1_2", "12x", "A"};
    for (size_t i = 0; i < sizeof no_texts / sizeof *no_texts; i++) {
        const uint8_t *text = (const uint8_t *)no_texts[i];
        CODE(NM_NOT_ACCEPTED, nm_check_accepts(NM_DAMM, text, strlen(no_texts[i])));
        WORD(NM_NOT_ACCEPTED, 0, nm_check_digit(NM_DAMM, text, strlen(no_texts[i]), &out));
    }
    CODE(NM_NOT_ACCEPTED, nm_check_accepts(NM_LUHN, NULL, 0));
    WORD(NM_NOT_ACCEPTED, 0, nm_check_digit(NM_LUHN, NULL, 0, &out));
    CODE(NM_NOT_ACCEPTED, nm_check_accepts(NM_ORCID, TEXT("0000-0002-1825-0098")));
    CODE(NM_NOT_ACCEPTED, nm_check_accepts(NM_ISBN_13, TEXT("4006381333931")));
    CODE(NM_NOT_ACCEPTED, nm_check_accepts(NM_ISBN_10, TEXT("X000000050")));
    CODE(NM_NOT_ACCEPTED, nm_check_accepts(NM_ISBN_10, TEXT("030640615")));
    CODE(NM_NOT_ACCEPTED, nm_check_accepts(NM_LUHN, TEXT("79927398731")));
    CODE(NM_NOT_ACCEPTED, nm_check_accepts(NM_LUHN, TEXT("X")));
    WORD(NM_NOT_ACCEPTED, 0, nm_check_digit(NM_EAN_8, TEXT("73513537"), &out));
    WORD(NM_NOT_ACCEPTED, 0, nm_check_digit(NM_ISBN_13, TEXT("400638133393"), &out));
    WORD(NM_NOT_ACCEPTED, 0, nm_check_digit(NM_VERHOEFF, TEXT("23X"), &out));
}

/* numbers of no standard, and texts of 128 characters and of more */
static void bound_rows(void) {
    uint8_t ones[129];
    memset(ones, '1', sizeof ones);
    /* 64 ones and 63 doubled ones count 190 */
    WORD(NM_OK, 9, nm_check_digit(NM_LUHN, ones, 127, &out));
    ones[127] = '9';
    CODE(NM_OK, nm_check_accepts(NM_LUHN, ones, 128));
    CODE(NM_BAD_ARGUMENT, nm_check_accepts(NM_LUHN, ones, 129));
    WORD(NM_BAD_ARGUMENT, 0, nm_check_digit(NM_LUHN, ones, 129, &out));
    CODE(NM_BAD_ARGUMENT, nm_check_accepts(11, TEXT("0")));
    CODE(NM_BAD_ARGUMENT, nm_check_accepts(UINT32_MAX, TEXT("0")));
    WORD(NM_BAD_ARGUMENT, 0, nm_check_digit(11, TEXT("0"), &out));
}

/* A call after which digits holds these two characters, after it was filled with "??". */
#define CHECKED(want_code, want, call)                                                                                 \
    do {                                                                                                               \
        uint8_t digits[3] = "??";                                                                                      \
        uint32_t code = (call);                                                                                        \
        row(#call, code == (want_code) && memcmp(digits, want, 2) == 0, code);                                         \
    } while (0)

static void iban_rows(void) {
    static const uint8_t account[22] = "GB00WEST12345698765432";
    CODE(NM_OK, nm_iban_accepts(TEXT("GB82WEST12345698765432")));
    CODE(NM_OK, nm_iban_accepts(TEXT("GB82 WEST 1234 5698 7654 32")));
    CODE(NM_OK, nm_iban_accepts(TEXT("FR1420041010050500013M02606")));
    CODE(NM_OK, nm_iban_accepts(TEXT("GB02WEST12345600000017")));
    /* another digit; check digits that aren't generated; small letters; another group; none */
    CODE(NM_NOT_ACCEPTED, nm_iban_accepts(TEXT("GB82WEST12345698765433")));
    CODE(NM_NOT_ACCEPTED, nm_iban_accepts(TEXT("GB99WEST12345600000017")));
    CODE(NM_NOT_ACCEPTED, nm_iban_accepts(TEXT("gb82west12345698765432")));
    CODE(NM_NOT_ACCEPTED, nm_iban_accepts(TEXT("GB82 WEST 1234 5698 76543 2")));
    CODE(NM_NOT_ACCEPTED, nm_iban_accepts(NULL, 0));
    CHECKED(NM_OK, "82", nm_iban_check_digits(TEXT("GB00WEST12345698765432"), digits, 2));
    CHECKED(NM_OK, "02", nm_iban_check_digits(TEXT("GB99WEST12345600000017"), digits, 2));
    CHECKED(NM_NOT_ACCEPTED, "??", nm_iban_check_digits(TEXT("GB00 WEST 1234 5698 7654 32"), digits, 2));
    CHECKED(NM_NOT_ACCEPTED, "??", nm_iban_check_digits(NULL, 0, digits, 2));
    CHECKED(NM_BAD_ARGUMENT, "??", nm_iban_check_digits(account, 22, digits, 1));
    CHECKED(NM_BAD_ARGUMENT, "??", nm_iban_check_digits(account, 22, digits, 3));
    CHECKED(NM_BAD_ARGUMENT, "??", nm_iban_check_digits(account, 22, NULL, 0));
}

/* the weights that the standards print, and words by them */
static void standard_rows(void) {
    static const uint64_t weights[] = {10, 9, 8, 7, 6, 5, 4, 3, 2, 1}, book[] = {0, 3, 0, 6, 4, 0, 6, 1, 5, 2};
    static const size_t places[] = {10, 13, 13, 8, 12, 8, 16, 9};
    static const uint64_t moduli[] = {11, 10, 10, 10, 10, 11, 11, 10};
    nm_check_code_t own = {77, 77, NULL, 77, NULL, 77, NULL, 77};
    CODE(NM_BAD_ARGUMENT, nm_check_code(NM_LUHN, &own));
    CODE(NM_BAD_ARGUMENT, nm_check_code(11, &own));
    row("a refused call leaves the code", own.modulus == 77 && own.weights_length == 77 && !own.greatest, 0);
    for (uint32_t standard = NM_ISBN_10; standard <= NM_ABA_RTN; standard++) {
        CODE(NM_OK, nm_check_code(standard, &own));
        row("the modulus", own.modulus == moduli[standard] && own.residue == (standard == NM_ORCID), standard);
        row("the places", own.weights_length == places[standard] && own.least_length == places[standard]
            && own.greatest_length == places[standard] && own.weights[places[standard] - 1] == 1, standard);
    }
    CODE(NM_OK, nm_check_code(NM_ISBN_10, &own));
    row("the weights of ISBN-10", memcmp(own.weights, weights, sizeof weights) == 0, 0);
    row("X is 10, at the last place", own.greatest[9] == 10 && own.greatest[8] == 9 && own.least[9] == 0, 0);
    CODE(NM_OK, nm_check_code_accepts(&own, book, 10));
    for (size_t place = 0; place < 10; place++) {
        uint64_t word[10];
        memcpy(word, book, sizeof word);
        word[place] = UINT64_MAX;
        CODE(NM_NOT_ACCEPTED, nm_check_code_accepts(&own, word, 10));
        WORD(NM_OK, book[place], nm_check_code_restore(&own, word, 10, place, &out));
    }
}

/* 3x + y + 5z is 6 modulo 7, x and y are 0 to 6, and z is 2 or 3 */
static void own_rows(void) {
    static const uint64_t weights[] = {3, 1, 5}, least[] = {0, 0, 2}, greatest[] = {6, 6, 3};
    static const uint64_t fives[] = {5, 5, 5}, six[] = {1, 1, 6}, four[] = {1, 0, 4};
    const nm_check_code_t own = {7, 13, weights, 3, least, 3, greatest, 3};
    const nm_check_code_t zero = {0, 0, weights, 3, least, 3, greatest, 3};
    const nm_check_code_t few = {7, 0, weights, 3, least, 2, greatest, 3}, many = {7, 0, weights, 2, least, 2, greatest, 3};
    const nm_check_code_t tens = {10, 0, fives, 3, least, 3, greatest, 3}, none = {7, 0, NULL, 0, NULL, 0, NULL, 0};
    const nm_check_code_t one = {1, 0, weights, 3, least, 3, greatest, 3};
    /* each word of symbols below 8 by its sum, and each symbol by trying all */
    int same = 1;
    for (uint64_t at = 0; at < 512; at++) {
        const uint64_t word[] = {at / 64, at / 8 % 8, at % 8};
        int is = (3 * word[0] + word[1] + 5 * word[2]) % 7 == 6 && word[0] < 7 && word[1] < 7 && (word[2] | 1) == 3;
        same &= nm_check_code_accepts(&own, word, 3) == (is ? NM_OK : NM_NOT_ACCEPTED);
        for (size_t place = 0; place < 3; place++) {
            uint64_t tried[] = {word[0], word[1], word[2]}, found = UNTOUCHED, symbol = 77;
            for (uint64_t t = 0; t < 7; t++) {
                tried[place] = t;
                if (nm_check_code_accepts(&own, tried, 3) == NM_OK) found = t;
            }
            uint32_t wanted = found == UNTOUCHED ? NM_NOT_ACCEPTED : NM_OK;
            same &= nm_check_code_restore(&own, word, 3, place, &symbol) == wanted && symbol == (wanted ? 77 : found);
        }
    }
    row("words and symbols of a code of one's own", same, 0);
    CODE(NM_BAD_ARGUMENT, nm_check_code_accepts(&zero, six, 3));
    CODE(NM_BAD_ARGUMENT, nm_check_code_accepts(&few, six, 3));
    CODE(NM_BAD_ARGUMENT, nm_check_code_accepts(&many, six, 2));
    CODE(NM_NOT_ACCEPTED, nm_check_code_accepts(&own, six, 2));
    CODE(NM_NOT_ACCEPTED, nm_check_code_accepts(&own, NULL, 0));
    CODE(NM_OK, nm_check_code_accepts(&none, NULL, 0));
    WORD(NM_BAD_ARGUMENT, 0, nm_check_code_restore(&zero, six, 3, 0, &out));
    WORD(NM_BAD_ARGUMENT, 0, nm_check_code_restore(&few, six, 3, 0, &out));
    WORD(NM_BAD_ARGUMENT, 0, nm_check_code_restore(&own, six, 3, 3, &out));
    WORD(NM_BAD_ARGUMENT, 0, nm_check_code_restore(&own, six, 2, 0, &out));
    WORD(NM_BAD_ARGUMENT, 0, nm_check_code_restore(&none, NULL, 0, 0, &out));
    WORD(NM_NO_INVERSE, 0, nm_check_code_restore(&tens, six, 3, 2, &out));
    /* the only symbol below the modulus 1 is 0, which isn't allowed at the last place */
    WORD(NM_NOT_ACCEPTED, 0, nm_check_code_restore(&one, four, 3, 0, &out));
    WORD(NM_NOT_ACCEPTED, 0, nm_check_code_restore(&one, four, 3, 2, &out));
}

void check_digit_rows(void) {
    number_rows();
    other_rows();
    bound_rows();
    iban_rows();
    standard_rows();
    own_rows();
}
