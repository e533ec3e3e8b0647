/* Threads that rest as rest.c has it, which has the headers in a kernel's form. Some of their calls meet another in the zone; none fails, no
 * rest has a length of its own, and no page is lost. Prints one line and answers 0; or tells what was wrong and answers 1. */
#include <inttypes.h>
#include <pthread.h>
#include "checking.h"
#include "rest.h"

enum { THREADS = 4, TIMES = 2000, ROUNDS = 1000 };

static void *thread(void *number)
{
    return (void *)(uintptr_t)use((uint32_t)(uintptr_t)number, TIMES);
}

int main(void)
{
    pthread_t threads[THREADS];
    void *failed;
    uintptr_t i;
    int round;
    CHECK(lengths() == 0);
    CHECK(begin(THREADS) == 0);
    for (round = 0; round < ROUNDS && rests[0] < 100; round++) {
        for (i = 0; i < THREADS; i++)
            CHECK(pthread_create(&threads[i], NULL, thread, (void *)i) == 0);
        for (i = 0; i < THREADS; i++)
            CHECK(pthread_join(threads[i], &failed) == 0 && failed == NULL);
    }
    CHECK(end(THREADS) == 0);
    CHECK(rests[0] >= 100 && rests[REST_LENGTHS - 1] == 0);
    printf("rest: %" PRIu64 " calls rested, %" PRIu64 " as long as may be: %u checks, %u failures\n", rests[0], rests[REST_LENGTHS - 2], checks, failures);
    return failures == 0 ? 0 : 1;
}
