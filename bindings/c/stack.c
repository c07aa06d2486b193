/* How much stack a call takes: 128 KB, which musl gives to a thread, are enough for each but laspidru_log_run and laspidru_log_compare,
   and 512 KB for these. What is called is what the tests of test.c call. */
#define main all_tests
#include "test.c"
#undef main
#include <pthread.h>

static void *run_parts(void *none) {
    test_small();
    return none;
}

static void *run_all(void *none) {
    all_tests();
    return none;
}

static int ran_in(size_t kilobytes, void *(*work)(void *)) {
    pthread_attr_t small;
    pthread_t thread;
    return pthread_attr_init(&small) == 0 && pthread_attr_setstacksize(&small, kilobytes * 1024) == 0 &&
           pthread_create(&thread, &small, work, NULL) == 0 && pthread_join(thread, NULL) == 0;
}

int main(void) {
    return !ran_in(128, run_parts) || !ran_in(512, run_all) || failed != 0;
}
