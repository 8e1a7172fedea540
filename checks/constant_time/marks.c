/* What calls.rs asks of memcheck: to mark secrets, and how many reports it has made. */
#include <stddef.h>
#include <valgrind/memcheck.h>

void calls(void);

void mark_secret(void *place, size_t bytes) { (void)VALGRIND_MAKE_MEM_UNDEFINED(place, bytes); }

unsigned reports(void) { return VALGRIND_COUNT_ERRORS; }

int main(void) {
    calls();
    return 0;
}
