// The mode `turns` of crates/speed in C: one thread and eight add to a sum behind a mutex, a million times in all.
// cc -O2 -pthread bench/turns.c -o /tmp/turns && /tmp/turns
#include <pthread.h>
#include <stdint.h>
#include <stdio.h>
#include <time.h>

enum { CALLS = 1000000, TIMES = 10, MOST = 8 };

static pthread_mutex_t lock = PTHREAD_MUTEX_INITIALIZER;
static uint64_t sum;

static uint64_t now(void) {
    struct timespec t;
    clock_gettime(CLOCK_MONOTONIC, &t);
    return t.tv_sec * 1000000000ull + t.tv_nsec;
}

__attribute__((noinline)) static uint64_t add(uint64_t amount) {
    pthread_mutex_lock(&lock);
    uint64_t answer = sum += amount;
    pthread_mutex_unlock(&lock);
    return answer;
}

static void *add_often(void *times) {
    for (uint32_t i = 0; i < *(uint32_t *)times; i++) add(1);
    return NULL;
}

static uint64_t micros(int threads) {
    pthread_t thread[MOST];
    uint32_t times = CALLS / threads;
    uint64_t start = now();
    for (int i = 0; i < threads; i++) pthread_create(&thread[i], NULL, add_often, &times);
    for (int i = 0; i < threads; i++) pthread_join(thread[i], NULL);
    return (now() - start) / 1000;
}

int main(void) {
    int counts[] = {1, 8};
    for (int i = 0; i < 2; i++) {
        uint64_t least = UINT64_MAX;
        for (int j = 0; j < TIMES; j++) {
            sum = 0;
            uint64_t time = micros(counts[i]);
            if (time < least) least = time;
        }
        printf("%d callers: %llu microseconds, %llu\n", counts[i], (unsigned long long)least, (unsigned long long)sum);
    }
    return 0;
}
