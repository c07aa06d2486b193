/* A heap that counts its requests, refuses the one of a chosen number, and knows how many blocks are in use: that of heap.c, over
   functions that count. */
#include "counting_heap.h"

#define malloc counted_malloc
#define realloc counted_realloc
#define free counted_free
#include "heap.c"
#undef malloc
#undef realloc
#undef free
void *malloc(size_t size);
void *realloc(void *at, size_t size);
void free(void *at);

static long requests, refused, blocks;

void heap_refuse(long number) {
    requests = 0;
    refused = number;
}

long heap_requests(void) { return requests; }

long heap_blocks(void) { return blocks; }

void *counted_malloc(size_t size) {
    if (++requests == refused)
        return 0;
    blocks++;
    return malloc(size);
}

void *counted_realloc(void *at, size_t size) { return ++requests == refused ? 0 : realloc(at, size); }

void counted_free(void *at) {
    blocks--;
    free(at);
}
