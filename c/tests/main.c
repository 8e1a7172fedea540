/* Tries each call of the library. The last line is 'N passed, M failed'. */
#include "calls.h"

int passed = 0, failed = 0;

void row(const char *call, int holds, uint32_t code) {
    if (holds) {
        passed++;
    } else {
        failed++;
        printf("%s: code %" PRIu32 "\n", call, code);
    }
}

int main(void) {
    row("pages to read", begin_read_only(), 0);
#define RUN(group) group##_rows();
    GROUPS(RUN)
    end_read_only();
    printf("%d passed, %d failed\n", passed, failed);
    return failed != 0;
}
