// Loaded before a program by LD_PRELOAD: refuses the allocation of the number in REFUSE, counted
// from 1, and prints a line.
#include <stdlib.h>
#include <unistd.h>

void *__libc_malloc(size_t size);
void *__libc_realloc(void *block, size_t size);

static int is_refused(void) {
    static unsigned long made;
    const char *number = getenv("REFUSE");
    return number != NULL && ++made == strtoul(number, NULL, 10) && write(2, "refused\n", 8) == 8;
}

void *malloc(size_t size) {
    return is_refused() ? NULL : __libc_malloc(size);
}

void *realloc(void *block, size_t size) {
    return is_refused() ? NULL : __libc_realloc(block, size);
}
