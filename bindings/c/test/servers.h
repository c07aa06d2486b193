/* The test of servers, and the messages of a session. test.c includes it. */

static const laspidru_settings settings = {.max_body = 4096, .max_text = 64, .max_docs = 2, .max_changes = 4, .encoding = LASPIDRU_UTF8};
static const char initialize[] = "{\"jsonrpc\":\"2.0\",\"id\":1,\"method\":\"initialize\",\"params\":{\"capabilities\":"
                                 "{\"general\":{\"positionEncodings\":[\"utf-8\",\"utf-16\"]}}}}";
static const char open_a[] = "{\"jsonrpc\":\"2.0\",\"method\":\"textDocument/didOpen\",\"params\":{\"textDocument\":"
                             "{\"uri\":\"file:///a\",\"languageId\":\"c\",\"version\":1,\"text\":\"ab\\ncd\"}}}";
static const char change_a[] = "{\"jsonrpc\":\"2.0\",\"method\":\"textDocument/didChange\",\"params\":{\"textDocument\":"
                               "{\"uri\":\"file:///a\",\"version\":7},\"contentChanges\":[{\"range\":{\"start\":"
                               "{\"line\":1,\"character\":0},\"end\":{\"line\":1,\"character\":1}},\"text\":\"XY\"}]}}";
static const char close_a[] = "{\"jsonrpc\":\"2.0\",\"method\":\"textDocument/didClose\",\"params\":{\"textDocument\":"
                              "{\"uri\":\"file:///a\"}}}";
static const char shutdown[] = "{\"jsonrpc\":\"2.0\",\"id\":2,\"method\":\"shutdown\"}";
static const char exits[] = "{\"jsonrpc\":\"2.0\",\"method\":\"exit\"}";
static const char uri_a[] = "file:///a";

static laspidru_u32 hand(laspidru_handle *server, const char *body, laspidru_answer *answer) {
    return laspidru_session_deliver(server, bytes(body), strlen(body), answer);
}

static int is_kind(laspidru_answer answer, laspidru_u32 kind, laspidru_u32 reason, laspidru_i32 error) {
    return answer.kind == kind && answer.reason == reason && answer.error == error && answer.status == 0 &&
           (kind == LASPIDRU_REPLIED ? answer.reply_len > 0 : answer.reply_len == 0);
}

static int is_state(laspidru_handle *end, laspidru_u32 phase, laspidru_u32 reason, laspidru_u32 encoding, laspidru_size documents) {
    laspidru_state state = {9, 9, 9, 9};
    return laspidru_session_state(end, &state) == LASPIDRU_OK && state.phase == phase && state.reason == reason &&
           state.encoding == encoding && state.documents == documents;
}

/* Whether an end has this version and text of the document. */
static int holds(laspidru_handle *server, laspidru_i32 version, const char *text) {
    unsigned char out[64];
    laspidru_size copied = 99;
    laspidru_opened opened = {99, 99};
    return laspidru_session_document_state(server, bytes(uri_a), 9, &opened) == LASPIDRU_OK && opened.version == version &&
           opened.bytes == strlen(text) &&
           laspidru_session_document_text(server, bytes(uri_a), 9, 0, out, sizeof out, &copied) == LASPIDRU_OK &&
           copied == opened.bytes && memcmp(out, text, copied) == 0;
}

static void test_server(void) {
    static const char wanted[] = "Content-Length: 38\r\n\r\n{\"id\":2,\"jsonrpc\":\"2.0\",\"result\":null}";
    laspidru_handle server = {0};
    laspidru_answer answer = {9, 9, 9, 9, 9};
    laspidru_opened opened = {9, 9};
    unsigned char out[80];
    laspidru_size copied = 9;
    CHECK(hand(&server, shutdown, &answer) == LASPIDRU_EMPTY && answer.kind == 9);
    CHECK(laspidru_server_new(&server, &settings) == LASPIDRU_OK && is_state(&server, LASPIDRU_PHASE_NEW, 0, 0, 0));
    CHECK(laspidru_session_frame(&server, 0, out, sizeof out, &copied) == LASPIDRU_OK && copied == 0);
    CHECK(hand(&server, open_a, &answer) == LASPIDRU_OK && is_kind(answer, LASPIDRU_DROPPED, 0, 0));
    CHECK(hand(&server, shutdown, &answer) == LASPIDRU_OK && is_kind(answer, LASPIDRU_REPLIED, 0, -32002));
    CHECK(hand(&server, initialize, &answer) == LASPIDRU_OK && is_kind(answer, LASPIDRU_REPLIED, 0, 0));
    CHECK(hand(&server, open_a, &answer) == LASPIDRU_OK && is_kind(answer, LASPIDRU_CHANGED, 0, 0));
    CHECK(laspidru_session_frame(&server, 0, out, sizeof out, &copied) == LASPIDRU_OK && copied == 0);
    CHECK(hand(&server, open_a, &answer) == LASPIDRU_OK && is_kind(answer, LASPIDRU_REFUSED, LASPIDRU_ALREADY_OPEN, 0));
    CHECK(is_state(&server, LASPIDRU_PHASE_READY, 0, LASPIDRU_UTF8, 1) && holds(&server, 1, "ab\ncd"));
    CHECK(hand(&server, change_a, &answer) == LASPIDRU_OK && is_kind(answer, LASPIDRU_CHANGED, 0, 0));
    CHECK(holds(&server, 7, "ab\nXYd"));
    CHECK(hand(&server, change_a, &answer) == LASPIDRU_OK && is_kind(answer, LASPIDRU_REFUSED, LASPIDRU_STALE_VERSION, 0));
    CHECK(laspidru_session_document_text(&server, bytes(uri_a), 9, 4, out, 1, &copied) == LASPIDRU_OK && copied == 1 && out[0] == 'Y');
    CHECK(hand(&server, close_a, &answer) == LASPIDRU_OK && is_kind(answer, LASPIDRU_CHANGED, 0, 0));
    CHECK(laspidru_session_document_state(&server, bytes(uri_a), 9, &opened) == LASPIDRU_NOT_OPEN && opened.version == 9);
    CHECK(hand(&server, shutdown, &answer) == LASPIDRU_OK && is_kind(answer, LASPIDRU_REPLIED, 0, 0));
    CHECK(answer.reply_len == strlen(wanted) && laspidru_session_frame(&server, 0, out, sizeof out, &copied) == LASPIDRU_OK);
    CHECK(copied == strlen(wanted) && memcmp(out, wanted, copied) == 0);
    CHECK(laspidru_session_frame(&server, 59, out, 3, &copied) == LASPIDRU_OK && copied == 1 && out[0] == '}');
    CHECK(is_state(&server, LASPIDRU_PHASE_CLOSED, 0, LASPIDRU_UTF8, 0));
    CHECK(hand(&server, exits, &answer) == LASPIDRU_OK && answer.kind == LASPIDRU_EXITED && answer.status == 0);
    CHECK(is_state(&server, LASPIDRU_PHASE_DONE, 0, LASPIDRU_UTF8, 0));
    CHECK(hand(&server, exits, &answer) == LASPIDRU_ENDED && answer.kind == LASPIDRU_EXITED);
    laspidru_handle_free(&server);
}
