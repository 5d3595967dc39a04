/* What the tests in C share: what was expected and what came, and memory that ends where a list ends. */
#define _DEFAULT_SOURCE
#include "../host/hypergroup.h"

#include <stdio.h>
#include <stdlib.h>
#include <string.h>
#include <sys/mman.h>

static unsigned passed, failed;

static void expect(uint64_t got, uint64_t wanted, const char *what) {
    if (got == wanted) {
        passed++;
    } else {
        failed++;
        printf("%s: %lu, not %lu\n", what, (unsigned long)got, (unsigned long)wanted);
    }
}

/* Memory that ends at `end`, with a page after it that must not be touched. */
enum { AREA = 1 << 20, PAGE = 1 << 16 };

static uint8_t *guarded(void) {
    uint8_t *at = mmap(NULL, AREA + PAGE, PROT_READ | PROT_WRITE, MAP_PRIVATE | MAP_ANONYMOUS, -1, 0);
    if (at == MAP_FAILED || mprotect(at + AREA, PAGE, PROT_NONE) != 0) {
        puts("no memory");
        exit(1);
    }
    return at + AREA;
}

static bool all(const uint8_t *bytes, size_t length, uint8_t is) {
    size_t i;
    for (i = 0; i < length; i++)
        if (bytes[i] != is) return false;
    return true;
}

/* The last line, and the status of the program. */
static int told(void) {
    printf("%u passed, %u failed\n", passed, failed);
    return failed != 0;
}
