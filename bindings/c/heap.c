/* The heap of the library: malloc, realloc and free of the program that it is linked into. Whether a request was met,
   and the memory; without memory the pointer is any that isn't null. Sizes and pointers have 64 bits, as the library
   has them on every target. No object has more bytes than a signed word counts, as in every C. */
typedef __SIZE_TYPE__ size_t;
typedef unsigned long long u64;
void *malloc(size_t size);
void *realloc(void *at, size_t size);
void free(void *at);

struct memory {
    _Bool is_met;
    u64 at;
};

static unsigned char nowhere;

static const u64 most = (size_t)-1 >> 1;

static struct memory answer(void *at) { return (struct memory){at != 0, (size_t)(at ? at : &nowhere)}; }

struct memory rattle_alloc(u64 size, u64 align) {
    u64 room = size ? size : align;
    return answer(room <= most ? malloc((size_t)room) : 0);
}

struct memory rattle_realloc(void *at, u64 kept, u64 size, u64 align) {
    u64 room = size ? size : align;
    (void)kept;
    return answer(room <= most ? realloc(at, (size_t)room) : 0);
}

void rattle_dealloc(void *at) { free(at); }
