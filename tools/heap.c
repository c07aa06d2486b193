/* The heap of a test program for tools/refused. It refuses the one request whose number is in the variable REFUSE,
   counted from 1; 0 refuses none. At its end the program prints how many requests it made. The kit's compiler has
   no headers of C, so what is called is declared here. */
typedef __SIZE_TYPE__ size_t;
void *malloc(size_t size);
void *realloc(void *at, size_t size);
void free(void *at);
char *getenv(const char *name);
long atol(const char *digits);
int dprintf(int file, const char *format, ...);

/* Whether a request was met, and the memory. Without memory the pointer is any that isn't null. */
struct memory {
    _Bool is_met;
    void *at;
};

static unsigned char nowhere;
static long requests;
static long refused;

__attribute__((constructor)) static void begin(void) {
    const char *digits = getenv("REFUSE");
    refused = digits ? atol(digits) : 0;
}

__attribute__((destructor)) static void end(void) { dprintf(1, "requests %ld\n", requests); }

static _Bool is_refused(void) { return ++requests == refused; }

static struct memory answer(void *at) { return (struct memory){at != 0, at ? at : &nowhere}; }

struct memory rattle_alloc(size_t size, size_t align) {
    return answer(is_refused() ? 0 : malloc(size ? size : align));
}

struct memory rattle_realloc(void *at, size_t kept, size_t size, size_t align) {
    (void)kept;
    return answer(is_refused() ? 0 : realloc(at, size ? size : align));
}

void rattle_dealloc(void *at) { free(at); }
