/* What the library that `make library UNPROVED=1` makes has beside the code of Rattle: it says at its first use that it isn't proved, and
   two calls take a position apart. */
#include <laspidru.h>

extern long write(int to, const void *from, laspidru_size size);
extern char *getenv(const char *name);

/* (`make install`, `make packages` and `make release` refuse a library that has this) */
static const char NOTICE[] = "laspidru: this library is compiled without proofs (make library UNPROVED=1)\n";

/* Whether LASPIDRU_UNPROVED is `quiet`, for tests that read standard error */
static int is_quiet(void) {
    const char *found = getenv("LASPIDRU_UNPROVED"), *quiet = "quiet";
    while (found && *found && *found == *quiet) found++, quiet++;
    return found && *found == *quiet;
}

__attribute__((constructor)) static void say(void) {
    if (is_quiet() || write(2, NOTICE, sizeof NOTICE - 1) < 0) return; /* (nobody reads it) */
}

laspidru_u32 laspidru_document_offset_at(laspidru_handle *, laspidru_u32, laspidru_u32, laspidru_u32, laspidru_size *);
laspidru_u32 laspidru_session_document_offset_at(laspidru_handle *, const unsigned char *, laspidru_size, laspidru_u32, laspidru_u32,
                                                 laspidru_u32, laspidru_size *);

laspidru_u32 laspidru_document_offset(laspidru_handle *handle, laspidru_u32 encoding, laspidru_position at, laspidru_size *out) {
    return laspidru_document_offset_at(handle, encoding, at.line, at.character, out);
}

laspidru_u32 laspidru_session_document_offset(laspidru_handle *handle, const unsigned char *uri, laspidru_size uri_len,
                                              laspidru_u32 encoding, laspidru_position at, laspidru_size *out) {
    return laspidru_session_document_offset_at(handle, uri, uri_len, encoding, at.line, at.character, out);
}
