// Refuses the allocation of the number that REFUSE_NTH gives, from 1 on, and makes the file of REFUSE_MARK as it does.
// Loaded by LD_PRELOAD; tests/refused_memory.py builds it.
#define _GNU_SOURCE
#include <dlfcn.h>
#include <errno.h>
#include <fcntl.h>
#include <stdatomic.h>
#include <stddef.h>
#include <stdlib.h>
#include <unistd.h>

static atomic_long made;
static long nth;
static const char *mark;
static void *(*next_malloc)(size_t);
static void *(*next_realloc)(void *, size_t);

__attribute__((constructor)) static void begin(void) {
    next_malloc = dlsym(RTLD_NEXT, "malloc");
    next_realloc = dlsym(RTLD_NEXT, "realloc");
    mark = getenv("REFUSE_MARK");
    const char *number = getenv("REFUSE_NTH");
    nth = number ? atol(number) : 0;
}

static int is_refused(void) {
    if (nth == 0 || atomic_fetch_add(&made, 1) + 1 != nth) {
        return 0;
    }
    if (mark) {
        close(open(mark, O_CREAT | O_WRONLY, 0666));
    }
    errno = ENOMEM;
    return 1;
}

void *malloc(size_t size) {
    if (!next_malloc) {
        next_malloc = dlsym(RTLD_NEXT, "malloc");
    }
    return is_refused() ? NULL : next_malloc(size);
}

void *realloc(void *old, size_t size) {
    if (!next_realloc) {
        next_realloc = dlsym(RTLD_NEXT, "realloc");
    }
    return is_refused() ? NULL : next_realloc(old, size);
}
