/* Lists of commands. */
#include "calls.h"

#define COUNT(list) (sizeof(list) / sizeof *(list))

/* Runs the commands modulo m on five registers of 0, and compares the code, the number and the registers. */
static void run_row(const char *name, uint64_t m, const nm_command_t *commands, size_t length, uint32_t want_code,
                    size_t want_done, const uint64_t *want) {
    nm_montgomery_t ring;
    uint64_t registers[5] = {0};
    size_t done = 77;
    CODE(NM_OK, nm_montgomery(m, &ring));
    uint32_t code = nm_montgomery_run(&ring, registers, 5, commands, length, &done);
    row(name, code == want_code && done == want_done && memcmp(registers, want, sizeof registers) == 0, code);
}

#define RUN(m, commands, want_code, want_done, ...)                                                                    \
    run_row(#commands " modulo " #m, m, commands, COUNT(commands), want_code, want_done, (const uint64_t[5]){__VA_ARGS__})

static void hostile_rows(void) {
    static const nm_command_t one[] = {
        {NM_LOAD, 0, 9, 9, 255}, {NM_INV, 1, 0, 9, 9}, {NM_POW, 2, 0, 9, 0}, {NM_POW, 3, 0, 9, 1}, {NM_NEG, 4, 0, 9, 9},
    };
    static const nm_command_t most[] = {
        {NM_LOAD, 0, 0, 0, 254}, {NM_MUL, 1, 0, 0, 0}, {NM_ADD, 2, 0, 0, 0}, {NM_INV, 3, 0, 0, 0}, {NM_POW, 4, 0, 0, 255},
    };
    static const nm_command_t powers[] = {
        {NM_LOAD, 0, 0, 0, 5}, {NM_POW, 1, 0, 0, 0}, {NM_POW, 2, 0, 0, 1}, {NM_POW, 3, 0, 0, 2}, {NM_POW, 4, 4, 0, 0},
    };
    static const nm_command_t stop[] = {{NM_LOAD, 0, 0, 0, 255}, {NM_INV, 0, 0, 0, 0}, {NM_LOAD, 1, 0, 0, 1}};
    RUN(1, one, NM_OK, 5, 0, 0, 0, 0, 0);
    RUN(255, most, NM_OK, 5, 254, 1, 253, 254, 254);
    RUN(21, powers, NM_OK, 5, 5, 1, 5, 4, 1);
    RUN(21, stop, NM_NO_INVERSE, 1, 3, 0, 0, 0, 0);
}

static void operation_rows(void) {
    static const nm_command_t product[] = {{NM_LOAD, 0, 0, 0, 10}, {NM_LOAD, 1, 0, 0, 20}, {NM_MUL, 2, 0, 1, 0}};
    static const nm_command_t below[] = {
        {NM_LOAD, 0, 0, 0, 0}, {NM_SUB, 1, 0, 0, 0}, {NM_LOAD, 2, 0, 0, 1}, {NM_SUB, 3, 0, 2, 0},
    };
    static const nm_command_t quotient[] = {{NM_LOAD, 0, 0, 0, 10}, {NM_LOAD, 1, 0, 0, 5}, {NM_DIV, 2, 0, 1, 0}};
    static const nm_command_t missing[] = {
        {NM_LOAD, 0, 0, 0, 5}, {NM_LOAD, 1, 0, 0, 7}, {NM_DIV, 2, 0, 1, 0}, {NM_LOAD, 3, 0, 0, 9},
    };
    static const nm_command_t in_place[] = {{NM_LOAD, 0, 0, 0, 7}, {NM_LOAD, 1, 0, 0, 9}, {NM_DIV, 1, 0, 1, 0}};
    static const nm_command_t doubled[] = {{NM_LOAD, 0, 0, 0, 50}, {NM_DBL, 1, 0, 0, 0}, {NM_SQR, 2, 0, 0, 0}};
    static const nm_command_t zero[] = {{NM_DIV, 0, 0, 0, 0}};
    RUN(97, product, NM_OK, 3, 10, 20, 6, 0, 0);
    RUN(97, below, NM_OK, 4, 0, 0, 1, 96, 0);
    RUN(21, quotient, NM_OK, 3, 10, 5, 2, 0, 0);
    RUN(21, missing, NM_NO_INVERSE, 2, 5, 7, 0, 0, 0);
    RUN(20, in_place, NM_OK, 3, 7, 3, 0, 0, 0);
    RUN(97, doubled, NM_OK, 3, 50, 3, 75, 0, 0);
    RUN(21, zero, NM_NO_INVERSE, 0, 0, 0, 0, 0, 0);
}

/* a list with one command that isn't admitted: nothing is written */
static void refused_row(const char *name, nm_command_t bad) {
    nm_montgomery_t ring;
    uint64_t registers[3] = {1, UNTOUCHED, 3};
    nm_command_t commands[2] = {{NM_LOAD, 0, 0, 0, 5}, bad};
    size_t done = 77;
    CODE(NM_OK, nm_montgomery(97, &ring));
    uint32_t code = nm_montgomery_run(&ring, registers, 3, commands, 2, &done);
    int untouched = registers[0] == 1 && registers[1] == UNTOUCHED && registers[2] == 3;
    row(name, code == NM_BAD_ARGUMENT && done == 77 && untouched, code);
}

static void empty_rows(void) {
    nm_montgomery_t ring;
    uint64_t registers[2] = {98, UINT64_MAX};
    nm_command_t load = {NM_LOAD, 0, 0, 0, 5};
    size_t done = 77;
    CODE(NM_OK, nm_montgomery(97, &ring));
    CODE(NM_BAD_ARGUMENT, nm_montgomery_run(&ring, NULL, 0, &load, 1, &done));
    row("no register is written", done == 77, NM_BAD_ARGUMENT);
    CODE(NM_OK, nm_montgomery_run(&ring, NULL, 0, NULL, 0, &done));
    row("no command is carried out", done == 0, NM_OK);
    LIST(NM_OK, registers, nm_montgomery_run(&ring, registers, 2, NULL, 0, &done), 1, 60);
}

void run_rows(void) {
    hostile_rows();
    operation_rows();
    refused_row("an operation without a name", (nm_command_t){10, 0, 0, 0, 0});
    refused_row("the greatest operation", (nm_command_t){UINT32_MAX, 0, 0, 0, 0});
    refused_row("a destination out of range", (nm_command_t){NM_LOAD, 3, 0, 0, 0});
    refused_row("a first operand out of range", (nm_command_t){NM_POW, 0, 3, 0, 0});
    refused_row("a second operand out of range", (nm_command_t){NM_DIV, 0, 0, SIZE_MAX, 0});
    empty_rows();
}
