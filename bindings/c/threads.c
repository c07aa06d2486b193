/* Threads: each has a document of its own, and all change one that a lock gives to one call at a time. It is compiled with
   ThreadSanitizer, which sees this file, the heap and the lock, and nothing inside the library. Its last line is 'passed'. */
#include <pthread.h>
#include <stdio.h>
#include <string.h>

#include "laspidru.h"

enum { THREADS = 4, CHANGES = 2000 };

static laspidru_handle shared;
static pthread_mutex_t lock = PTHREAD_MUTEX_INITIALIZER;

/* Puts a letter before the text. */
static int put(laspidru_handle *document) {
    laspidru_edit edit = {{0, 0}, {0, 0}, 1, 0};
    laspidru_fault fault;
    return laspidru_document_change(document, LASPIDRU_UTF16, &edit, 1, (const unsigned char *)"x", 1, &fault) == LASPIDRU_OK;
}

static int has_length(laspidru_handle *document, laspidru_size wanted) {
    laspidru_length length;
    return laspidru_document_size(document, &length) == LASPIDRU_OK && length.bytes == wanted;
}

/* What a thread does; NULL where a call failed. */
static void *work(void *done) {
    laspidru_handle own = {0};
    int is_right = laspidru_document_new(&own, (const unsigned char *)"", 0) == LASPIDRU_OK;
    for (int i = 0; i < CHANGES && is_right; i++) {
        is_right = put(&own);
        pthread_mutex_lock(&lock);
        is_right = put(&shared) && is_right;
        pthread_mutex_unlock(&lock);
    }
    is_right = is_right && has_length(&own, CHANGES);
    laspidru_handle_free(&own);
    return is_right ? done : NULL;
}

int main(void) {
    pthread_t threads[THREADS];
    int failed = laspidru_document_new(&shared, (const unsigned char *)"", 0) != LASPIDRU_OK;
    for (int i = 0; i < THREADS; i++)
        failed |= pthread_create(&threads[i], NULL, work, &shared) != 0;
    for (int i = 0; i < THREADS; i++) {
        void *done;
        failed |= pthread_join(threads[i], &done) != 0 || done == NULL;
    }
    failed |= !has_length(&shared, THREADS * CHANGES);
    laspidru_handle_free(&shared);
    puts(failed ? "failed" : "passed");
    return failed;
}
