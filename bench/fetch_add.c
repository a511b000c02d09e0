/* Threads that draw numbers by one plain atomic fetch_add until none is left: what the claim table is measured against.
   Words: the numbers of threads and of draws. Prints how many nanoseconds that took. */
#include <pthread.h>
#include <stdatomic.h>
#include <stdint.h>
#include <stdio.h>
#include <stdlib.h>
#include <time.h>

static _Atomic uint64_t next;
static uint64_t cells;

static void *draw_all(void *unused) {
    (void)unused;
    while (atomic_fetch_add(&next, 1) < cells) {
    }
    return NULL;
}

int main(int argc, char **argv) {
    if (argc != 3) {
        return 2;
    }
    int threads = atoi(argv[1]);
    cells = strtoull(argv[2], NULL, 10);
    if (threads < 1 || threads > 64) {
        return 2;
    }
    pthread_t others[64];
    struct timespec start, end;
    clock_gettime(CLOCK_MONOTONIC, &start);
    for (int i = 1; i < threads; i++) {
        if (pthread_create(&others[i], NULL, draw_all, NULL) != 0) {
            return 1;
        }
    }
    draw_all(NULL);
    for (int i = 1; i < threads; i++) {
        pthread_join(others[i], NULL);
    }
    clock_gettime(CLOCK_MONOTONIC, &end);
    printf("%lld\n", (end.tv_sec - start.tv_sec) * 1000000000LL + (end.tv_nsec - start.tv_nsec));
    return 0;
}
