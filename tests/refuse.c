/* Refuses one allocation of the program that it is loaded into: the one whose number, counted from 1,
   the variable RAID_REFUSE names. tests/allocations.sh builds and uses it. */
#define _GNU_SOURCE
#include <dlfcn.h>
#include <stdatomic.h>
#include <stddef.h>
#include <stdlib.h>

/* All threads count together. Which of them takes the allocation with a number is as it comes. */
static atomic_long taken;

static int refused(void) {
    const char *number = getenv("RAID_REFUSE");
    long own = atomic_fetch_add(&taken, 1) + 1;
    return number != NULL && atol(number) == own;
}

void *malloc(size_t size) {
    static void *(*real)(size_t);
    if (real == NULL) real = (void *(*)(size_t))dlsym(RTLD_NEXT, "malloc");
    return refused() ? NULL : real(size);
}

void *realloc(void *old, size_t size) {
    static void *(*real)(void *, size_t);
    if (real == NULL) real = (void *(*)(void *, size_t))dlsym(RTLD_NEXT, "realloc");
    return refused() ? NULL : real(old, size);
}
