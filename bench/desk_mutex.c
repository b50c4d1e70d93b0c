/* The same hand-overs by a pthread mutex, for comparison. */
#include <pthread.h>
#include <stdint.h>
#include <stdio.h>
#include <time.h>

enum { HOLDS = 4000000 };

static pthread_mutex_t lock = PTHREAD_MUTEX_INITIALIZER;
static volatile uint64_t value;

static void *hold(void *count) {
    for (intptr_t i = 0; i < (intptr_t)count; i++) {
        pthread_mutex_lock(&lock);
        value = value;
        pthread_mutex_unlock(&lock);
    }
    return NULL;
}

int main(void) {
    for (int workers = 1; workers <= 4; workers *= 2) {
        pthread_t threads[4];
        struct timespec start, end;
        clock_gettime(CLOCK_MONOTONIC, &start);
        for (int i = 0; i < workers; i++)
            pthread_create(&threads[i], NULL, hold, (void *)(intptr_t)(HOLDS / workers));
        for (int i = 0; i < workers; i++)
            pthread_join(threads[i], NULL);
        clock_gettime(CLOCK_MONOTONIC, &end);
        printf("%d %lld\n", workers, (end.tv_sec - start.tv_sec) * 1000000LL + (end.tv_nsec - start.tv_nsec) / 1000);
    }
    return 0;
}
