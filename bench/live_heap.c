/* live_heap.so, put before a program by LD_PRELOAD: at each allocation of at least 1,000,000 bytes a line on descriptor 9, with
   its bytes, the bytes that are allocated then, and the most that were. For programs of one thread. */
#define _GNU_SOURCE
#include <dlfcn.h>
#include <malloc.h>
#include <stdio.h>
#include <unistd.h>

static void *(*next_malloc)(size_t);
static void *(*next_realloc)(void *, size_t);
static void (*next_free)(void *);
static long live, most;

__attribute__((constructor)) static void start(void) {
    next_malloc = dlsym(RTLD_NEXT, "malloc");
    next_realloc = dlsym(RTLD_NEXT, "realloc");
    next_free = dlsym(RTLD_NEXT, "free");
}

static void *taken(void *place, size_t bytes, long old) {
    if (!place) return place;
    live += (long)malloc_usable_size(place) - old;
    if (live > most) most = live;
    if (bytes >= 1000000) {
        char line[100];
        int length = snprintf(line, sizeof line, "%zu %ld %ld\n", bytes, live, most);
        if (write(9, line, length) != length) _exit(1);
    }
    return place;
}

void *malloc(size_t bytes) {
    if (!next_malloc) start();
    return taken(next_malloc(bytes), bytes, 0);
}

void *realloc(void *place, size_t bytes) {
    if (!next_realloc) start();
    long old = place ? malloc_usable_size(place) : 0;
    return taken(next_realloc(place, bytes), bytes, old);
}

void free(void *place) {
    if (!next_free) start();
    if (place) live -= malloc_usable_size(place);
    next_free(place);
}
