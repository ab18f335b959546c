/* Counts the allocations of a program that is linked to libc dynamically, and refuses some of them: see refuse.sh.
 *
 *   REFUSE_AT=N      refuses the Nth allocation alone, counted from 1
 *   REFUSE_FROM=N    refuses that one and all that follow
 *   REFUSE_COUNT=F   keeps the count in the file F as 8 bytes, so that it is there however the program ends
 */
#define _GNU_SOURCE
#include <dlfcn.h>
#include <errno.h>
#include <fcntl.h>
#include <stdatomic.h>
#include <stdlib.h>
#include <string.h>
#include <sys/mman.h>
#include <unistd.h>

static atomic_long own_count;
static atomic_long *asked = &own_count;
static long refused_at = -1, refused_from = -1;

static void *(*real_malloc)(size_t);
static void *(*real_calloc)(size_t, size_t);
static void *(*real_realloc)(void *, size_t);
static void *(*real_aligned_alloc)(size_t, size_t);
static int (*real_posix_memalign)(void **, size_t, size_t);
static void (*real_free)(void *);

/* What is asked for while the functions above are looked up comes from here, and is never given back. */
static char early[65536];
static size_t early_used;

static void *take_early(size_t size) {
    size = (size + 15) & ~(size_t)15;
    if (size > sizeof early - early_used)
        return NULL;
    void *taken = early + early_used;
    early_used += size;
    return taken;
}

static int is_early(const void *place) {
    return (const char *)place >= early && (const char *)place < early + sizeof early;
}

static long number_in(const char *name) {
    const char *text = getenv(name);
    return text ? atol(text) : -1;
}

static void map_count(const char *file) {
    int opened = open(file, O_RDWR | O_CREAT | O_TRUNC, 0644);
    if (opened < 0 || ftruncate(opened, sizeof own_count) < 0)
        return;
    void *mapped = mmap(NULL, sizeof own_count, PROT_READ | PROT_WRITE, MAP_SHARED, opened, 0);
    close(opened);
    if (mapped != MAP_FAILED)
        asked = mapped;
}

/* Whether the functions are known. While they are looked up they are not. */
static int is_ready(void) {
    static int state; /* 0: not begun, 1: begun, 2: ready */
    if (state == 0) {
        state = 1;
        real_malloc = dlsym(RTLD_NEXT, "malloc");
        real_calloc = dlsym(RTLD_NEXT, "calloc");
        real_realloc = dlsym(RTLD_NEXT, "realloc");
        real_aligned_alloc = dlsym(RTLD_NEXT, "aligned_alloc");
        real_posix_memalign = dlsym(RTLD_NEXT, "posix_memalign");
        real_free = dlsym(RTLD_NEXT, "free");
        refused_at = number_in("REFUSE_AT");
        refused_from = number_in("REFUSE_FROM");
        if (getenv("REFUSE_COUNT"))
            map_count(getenv("REFUSE_COUNT"));
        state = 2;
    }
    return state == 2;
}

static int is_refused(void) {
    long number = atomic_fetch_add(asked, 1) + 1;
    return number == refused_at || (refused_from > 0 && number >= refused_from);
}

static void *refuse(void) {
    errno = ENOMEM;
    return NULL;
}

void *malloc(size_t size) {
    if (!is_ready())
        return take_early(size);
    return is_refused() ? refuse() : real_malloc(size);
}

void *calloc(size_t count, size_t size) {
    if (!is_ready())
        return take_early(count * size); /* never used before, so it is all 0 */
    return is_refused() ? refuse() : real_calloc(count, size);
}

void *realloc(void *place, size_t size) {
    if (is_early(place)) {
        void *moved = malloc(size);
        size_t rest = (size_t)(early + sizeof early - (char *)place);
        if (moved)
            memcpy(moved, place, size < rest ? size : rest);
        return moved;
    }
    if (!is_ready())
        return take_early(size);
    return is_refused() ? refuse() : real_realloc(place, size);
}

void *aligned_alloc(size_t alignment, size_t size) {
    if (!is_ready())
        return take_early(size);
    return is_refused() ? refuse() : real_aligned_alloc(alignment, size);
}

int posix_memalign(void **place, size_t alignment, size_t size) {
    if (!is_ready() || is_refused())
        return ENOMEM;
    return real_posix_memalign(place, alignment, size);
}

void free(void *place) {
    if (place && !is_early(place) && is_ready())
        real_free(place);
}
