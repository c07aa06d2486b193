/* The test of the library from C. It takes no header of C, so that the kit's clang compiles it. Its last line is
   'N passed, M failed'. */
#include "counting_heap.h"
#include "laspidru.h"

int printf(const char *format, ...);
int snprintf(char *out, laspidru_size room, const char *format, ...);
int memcmp(const void *one, const void *other, laspidru_size len);
laspidru_size strlen(const char *text);

static int passed, failed;

static void check(int is_right, const char *what, int line) {
    if (is_right) {
        passed++;
        return;
    }
    failed++;
    printf("line %d: %s\n", line, what);
}

#define CHECK(condition) check((condition), #condition, __LINE__)

static const unsigned char *bytes(const char *text) { return (const unsigned char *)text; }

static laspidru_u32 new_document(laspidru_handle *document, const char *text) {
    return laspidru_document_new(document, bytes(text), strlen(text));
}

static int has_text(laspidru_handle *document, const char *text) {
    unsigned char out[64];
    laspidru_size copied = 99;
    laspidru_length length = {99, 99};
    return laspidru_document_size(document, &length) == LASPIDRU_OK && length.bytes == strlen(text) &&
           laspidru_document_copy(document, 0, out, sizeof out, &copied) == LASPIDRU_OK && copied == length.bytes &&
           memcmp(out, text, copied) == 0;
}

/* "a", CRLF, "b" and a character of four bytes and two units of UTF-16. */
static const char sample[] = "a\r\nb\xf0\x9f\x98\x80";

/* Each part uses what those before it have. */
#include "test/documents.h"
#include "test/servers.h"
#include "test/logs.h"
#include "test/ends.h"
#include "test/positions.h"
#include "test/streams.h"
#include "test/edits.h"
#include "test/members.h"
#include "test/memory.h"

/* Those that need little of the stack (stack.c) */
static void test_small(void) {
    test_documents();
    test_change();
    test_edits();
    test_server();
    test_framer();
    test_client_lifecycle();
    test_client_documents();
    test_bad_servers();
    test_both_ends();
    test_positions_of_ends();
    test_server_take();
    test_server_take_in_order();
    test_client_take();
    test_server_batch_of_edits();
    test_server_message();
    test_texts();
    test_message_uri();
}

int main(void) {
    test_small();
    test_logs();
    test_log_options();
    test_log_listing();
    test_compare();
    test_compare_refused();
    test_log_faults();
    test_defaults();
    test_settings_of_servers();
    test_settings_of_clients();
    test_members_of_results();
    test_refused(run_refused);
    test_refused(run_refused_server);
    test_refused(run_refused_logs);
    test_refused(run_refused_framer);
    test_refused(run_refused_client);
    test_refused(run_refused_take);
    test_refused(run_refused_served);
    CHECK(heap_blocks() == 0);
    printf("%d passed, %d failed\n", passed, failed);
    return failed != 0;
}
