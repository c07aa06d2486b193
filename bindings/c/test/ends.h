/* The test of framers and clients, and of both ends together. test.c includes it. */

static int is_taken(laspidru_taken it, laspidru_size count, int is_whole, laspidru_size body_len) {
    return it.bytes == count && it.is_whole == is_whole && it.body_len == body_len && it.offset == 0 && it.frame == 0;
}

static int is_body(laspidru_handle *framer, const char *body) {
    unsigned char out[64];
    laspidru_size copied = 99;
    return laspidru_framer_body(framer, 0, out, sizeof out, &copied) == LASPIDRU_OK && copied == strlen(body) &&
           memcmp(out, body, copied) == 0;
}

static int is_at_rest(laspidru_handle *framer, int wanted) {
    laspidru_bool at_rest = !wanted;
    return laspidru_framer_at_rest(framer, &at_rest) == LASPIDRU_OK && at_rest == wanted;
}

static void test_framer(void) {
    static const char stream[] = "Content-Length: 2\r\n\r\nabContent-Length: 0\r\n\r\nContent-Length: 3\r\n\r\nx";
    const unsigned char *at = bytes(stream), *end = at + strlen(stream);
    laspidru_handle framer = {0};
    laspidru_taken taken = {0, 0, 0, 0, 0};
    unsigned char out[4] = "---";
    laspidru_size copied = 9;
    CHECK(laspidru_framer_new(&framer, 4096) == LASPIDRU_OK && framer.is_full && is_at_rest(&framer, 1));
    CHECK(laspidru_framer_body(&framer, 0, out, 3, &copied) == LASPIDRU_NO_MESSAGE && copied == 9);
    /* A byte at a time, up to the first message; then all that is left, which goes up to the end of the second one. */
    for (; at < bytes(stream) + 22; at++)
        CHECK(laspidru_framer_feed(&framer, at, 1, &taken) == LASPIDRU_OK && is_taken(taken, 1, 0, 0));
    CHECK(laspidru_framer_feed(&framer, at++, 1, &taken) == LASPIDRU_OK && is_taken(taken, 1, 1, 2));
    CHECK(is_body(&framer, "ab") && is_at_rest(&framer, 0));
    CHECK(laspidru_framer_feed(&framer, at, (laspidru_size)(end - at), &taken) == LASPIDRU_OK && is_taken(taken, 0, 1, 2));
    CHECK(laspidru_framer_body(&framer, 1, out, 3, &copied) == LASPIDRU_OK && copied == 1 && memcmp(out, "b--", 3) == 0);
    CHECK(laspidru_framer_next(&framer) == LASPIDRU_OK && is_at_rest(&framer, 1));
    CHECK(laspidru_framer_next(&framer) == LASPIDRU_OK && is_at_rest(&framer, 1));
    CHECK(laspidru_framer_feed(&framer, at, (laspidru_size)(end - at), &taken) == LASPIDRU_OK && is_taken(taken, 21, 1, 0));
    CHECK(is_body(&framer, "") && laspidru_framer_next(&framer) == LASPIDRU_OK);
    at += 21;
    CHECK(laspidru_framer_feed(&framer, at, (laspidru_size)(end - at), &taken) == LASPIDRU_OK && is_taken(taken, 22, 0, 0));
    CHECK(is_at_rest(&framer, 0) && laspidru_framer_next(&framer) == LASPIDRU_OK && is_at_rest(&framer, 0));
    CHECK(laspidru_framer_feed(&framer, bytes("yzContent-Length 3"), 18, &taken) == LASPIDRU_OK && is_taken(taken, 2, 1, 3));
    CHECK(is_body(&framer, "xyz") && laspidru_framer_next(&framer) == LASPIDRU_OK);
    /* 68 bytes were released; the fault is decided on the space after "Content-Length". */
    CHECK(laspidru_framer_feed(&framer, bytes("Content-Length 3"), 16, &taken) == LASPIDRU_BAD_FRAME);
    CHECK(taken.offset == 68 + 14 && taken.frame == 1 && taken.bytes == 0 && !taken.is_whole);
    CHECK(laspidru_framer_feed(&framer, bytes("C"), 1, &taken) == LASPIDRU_FAILED && taken.offset == 82);
    CHECK(laspidru_framer_body(&framer, 0, out, 3, &copied) == LASPIDRU_NO_MESSAGE && is_at_rest(&framer, 0));
    laspidru_handle_free(&framer);
}

static const laspidru_client_settings client_settings = {.max_body = 4096, .max_text = 64, .max_docs = 2, .max_changes = 4, .utf8 = 1};

static laspidru_u32 did_open(laspidru_handle *client, const char *uri, laspidru_i32 version, const char *text, laspidru_size *len) {
    return laspidru_client_did_open(client, bytes(uri), strlen(uri), bytes("c"), 1, version, bytes(text), strlen(text), len);
}

static laspidru_u32 did_change(laspidru_handle *client, laspidru_i32 version, const laspidru_edit *edits, laspidru_size count,
                                const char *texts, laspidru_fault *fault, laspidru_size *len) {
    return laspidru_client_did_change(client, bytes(uri_a), 9, version, edits, count, bytes(texts), strlen(texts), fault, len);
}

/* Whether the frame to send is of this body. */
static int sends(laspidru_handle *client, laspidru_size len, const char *body) {
    static unsigned char out[8192];
    part wanted = {{0}, 0};
    laspidru_size copied = 99;
    add_frame(&wanted, "", body);
    return len == wanted.len && laspidru_session_frame(client, 0, out, sizeof out, &copied) == LASPIDRU_OK &&
           copied == wanted.len && memcmp(out, wanted.bytes, copied) == 0;
}

static void start_client(laspidru_handle *client) {
    laspidru_answer answer = {9, 9, 9, 9, 9};
    laspidru_size len = 0;
    CHECK(laspidru_client_new(client, &client_settings) == LASPIDRU_OK);
    CHECK(laspidru_client_start(client, &len) == LASPIDRU_OK);
    CHECK(hand(client, capabilities, &answer) == LASPIDRU_OK && is_kind(answer, LASPIDRU_REPLIED, 0, 0));
    CHECK(sends(client, answer.reply_len, "{\"jsonrpc\":\"2.0\",\"method\":\"initialized\",\"params\":{}}"));
}

static void test_client_lifecycle(void) {
    static const char asked[] = "{\"id\":1,\"jsonrpc\":\"2.0\",\"method\":\"initialize\",\"params\":{\"capabilities\":{\"general\":"
                                "{\"positionEncodings\":[\"utf-8\",\"utf-16\"]}},\"processId\":null,\"rootUri\":null}}";
    laspidru_handle client = {0};
    laspidru_answer answer = {9, 9, 9, 9, 9};
    laspidru_size len = 9, copied = 9;
    unsigned char out[8] = "-------";
    CHECK(laspidru_client_new(&client, &client_settings) == LASPIDRU_OK);
    CHECK(laspidru_session_frame(&client, 0, out, 7, &copied) == LASPIDRU_OK && copied == 0);
    CHECK(hand(&client, capabilities, &answer) == LASPIDRU_WRONG_PHASE && answer.kind == 9);
    CHECK(laspidru_client_start(&client, &len) == LASPIDRU_OK && sends(&client, len, asked));
    CHECK(laspidru_session_frame(&client, 1, out, 6, &copied) == LASPIDRU_OK && copied == 6 && memcmp(out, "ontent-", 7) == 0);
    CHECK(is_state(&client, LASPIDRU_PHASE_ASKED, 0, 0, 0));
    CHECK(hand(&client, "{\"jsonrpc\":\"2.0\",\"method\":\"$/logTrace\"}", &answer) == LASPIDRU_OK && is_kind(answer, LASPIDRU_IGNORED, 0, 0));
    CHECK(laspidru_session_frame(&client, 0, out, 7, &copied) == LASPIDRU_OK && copied == 0);
    CHECK(hand(&client, "{\"jsonrpc\":\"2.0\",\"id\":7,\"method\":\"a/b\"}", &answer) == LASPIDRU_OK && is_kind(answer, LASPIDRU_REPLIED, 0, 0));
    CHECK(hand(&client, capabilities, &answer) == LASPIDRU_OK && is_kind(answer, LASPIDRU_REPLIED, 0, 0));
    CHECK(is_state(&client, LASPIDRU_PHASE_READY, 0, LASPIDRU_UTF8, 0));
    CHECK(laspidru_client_shutdown(&client, &len) == LASPIDRU_OK && sends(&client, len, "{\"id\":2,\"jsonrpc\":\"2.0\",\"method\":\"shutdown\"}"));
    CHECK(hand(&client, "{\"jsonrpc\":\"2.0\",\"id\":2,\"result\":null}", &answer) == LASPIDRU_OK && is_kind(answer, LASPIDRU_NOTED, 0, 0));
    CHECK(is_state(&client, LASPIDRU_PHASE_CLOSED, 0, LASPIDRU_UTF8, 0));
    CHECK(laspidru_client_exit(&client, &len) == LASPIDRU_OK && sends(&client, len, "{\"jsonrpc\":\"2.0\",\"method\":\"exit\"}"));
    CHECK(hand(&client, capabilities, &answer) == LASPIDRU_WRONG_PHASE && is_state(&client, LASPIDRU_PHASE_DONE, 0, LASPIDRU_UTF8, 0));
    laspidru_handle_free(&client);
}

static void test_client_documents(void) {
    laspidru_handle client = {0};
    laspidru_edit both[2] = {{{1, 0}, {1, 1}, 2, 0}, {{0, 0}, {0, 0}, 1, 0}};
    laspidru_edit inside = {{0, 1}, {0, 2}, 0, 0}, reversed = {{0, 1}, {0, 0}, 0, 0}, whole = {{0, 0}, {0, 0}, 3, 1};
    laspidru_fault fault = {9, 1};
    laspidru_opened opened = {9, 9};
    laspidru_size len = 9, copied = 9;
    unsigned char out[4] = "---";
    start_client(&client);
    CHECK(did_open(&client, uri_a, 1, "ab\ncd", &len) == LASPIDRU_OK && holds(&client, 1, "ab\ncd"));
    CHECK(sends(&client, len, "{\"jsonrpc\":\"2.0\",\"method\":\"textDocument/didOpen\",\"params\":{\"textDocument\":{\"languageId\":\"c\","
                              "\"text\":\"ab\\ncd\",\"uri\":\"file:///a\",\"version\":1}}}"));
    CHECK(did_change(&client, 2, &reversed, 1, "", &fault, &len) == LASPIDRU_REVERSED_RANGE && fault.change == 0 && !fault.at_end);
    CHECK(holds(&client, 1, "ab\ncd") && is_state(&client, LASPIDRU_PHASE_READY, 0, LASPIDRU_UTF8, 1));
    CHECK(did_change(&client, 7, both, 2, "XYQ", &fault, &len) == LASPIDRU_OK && holds(&client, 7, "Qab\nXYd"));
    CHECK(sends(&client, len, "{\"jsonrpc\":\"2.0\",\"method\":\"textDocument/didChange\",\"params\":{\"contentChanges\":["
                              "{\"range\":{\"end\":{\"character\":1,\"line\":1},\"start\":{\"character\":0,\"line\":1}},\"text\":\"XY\"},"
                              "{\"range\":{\"end\":{\"character\":0,\"line\":0},\"start\":{\"character\":0,\"line\":0}},\"text\":\"Q\"}],"
                              "\"textDocument\":{\"uri\":\"file:///a\",\"version\":7}}}"));
    CHECK(did_change(&client, 8, &whole, 1, "\xc3\xa9.", &fault, &len) == LASPIDRU_OK && holds(&client, 8, "\xc3\xa9."));
    CHECK(did_change(&client, 9, &inside, 1, "", &fault, &len) == LASPIDRU_INSIDE_CHARACTER && fault.change == 0 && !fault.at_end);
    CHECK(holds(&client, 8, "\xc3\xa9."));
    CHECK(laspidru_session_document_text(&client, bytes(uri_a), 9, 2, out, 3, &copied) == LASPIDRU_OK && copied == 1 && memcmp(out, ".--", 3) == 0);
    CHECK(laspidru_client_did_close(&client, bytes(uri_a), 9, &len) == LASPIDRU_OK);
    CHECK(sends(&client, len, "{\"jsonrpc\":\"2.0\",\"method\":\"textDocument/didClose\",\"params\":{\"textDocument\":{\"uri\":\"file:///a\"}}}"));
    CHECK(laspidru_session_document_state(&client, bytes(uri_a), 9, &opened) == LASPIDRU_NOT_OPEN && opened.version == 9);
    CHECK(is_state(&client, LASPIDRU_PHASE_READY, 0, LASPIDRU_UTF8, 0));
    laspidru_handle_free(&client);
}

/* Each reason for which a session can't continue. The documents stay. */
static void test_bad_servers(void) {
    struct {
        const char *body;
        laspidru_u32 reason;
    } rows[] = {
        {"{", LASPIDRU_NOT_AN_ANSWER},
        {"{\"jsonrpc\":\"2.0\",\"id\":1,\"error\":{\"code\":1,\"message\":\"\"}}", LASPIDRU_ERROR_ANSWER},
        {"{\"jsonrpc\":\"2.0\",\"id\":1,\"result\":{\"capabilities\":{}}}", LASPIDRU_NO_SYNC},
        {"{\"jsonrpc\":\"2.0\",\"id\":1,\"result\":{\"capabilities\":{\"textDocumentSync\":2,\"positionEncoding\":\"utf-32\"}}}",
         LASPIDRU_BAD_ENCODING},
    };
    laspidru_handle client = {0};
    laspidru_answer answer = {9, 9, 9, 9, 9};
    laspidru_size len = 9, i;
    for (i = 0; i < sizeof rows / sizeof rows[0]; i++) {
        CHECK(laspidru_client_new(&client, &client_settings) == LASPIDRU_OK && laspidru_client_start(&client, &len) == LASPIDRU_OK);
        CHECK(hand(&client, rows[i].body, &answer) == LASPIDRU_OK && is_kind(answer, LASPIDRU_BAD_SERVER, rows[i].reason, 0));
        CHECK(is_state(&client, LASPIDRU_PHASE_FAILED, rows[i].reason, 0, 0));
        CHECK(hand(&client, capabilities, &answer) == LASPIDRU_WRONG_PHASE);
        laspidru_handle_free(&client);
    }
    start_client(&client);
    CHECK(did_open(&client, uri_a, 1, "ab\ncd", &len) == LASPIDRU_OK);
    CHECK(hand(&client, capabilities, &answer) == LASPIDRU_OK && is_kind(answer, LASPIDRU_BAD_SERVER, LASPIDRU_NOT_AN_ANSWER, 0));
    CHECK(holds(&client, 1, "ab\ncd") && is_state(&client, LASPIDRU_PHASE_FAILED, LASPIDRU_NOT_AN_ANSWER, LASPIDRU_UTF8, 1));
    laspidru_handle_free(&client);
}

/* Hands the frame of a client to a server, by a framer, a few bytes at a time; the reply, if there is one, goes back. */
static void carry(laspidru_handle *client, laspidru_handle *framer, laspidru_handle *server, laspidru_size len, laspidru_u32 kind) {
    static unsigned char frame[8192], body[8192], reply[8192];
    laspidru_taken taken = {0, 0, 0, 0, 0};
    laspidru_answer answer = {9, 9, 9, 9, 9}, heard = {9, 9, 9, 9, 9};
    laspidru_size copied = 0, start, piece;
    CHECK(laspidru_session_frame(client, 0, frame, sizeof frame, &copied) == LASPIDRU_OK && copied == len);
    for (start = 0; start < len; start += taken.bytes) {
        piece = len - start < 7 ? len - start : 7;
        CHECK(laspidru_framer_feed(framer, frame + start, piece, &taken) == LASPIDRU_OK && taken.bytes == piece);
        CHECK(taken.is_whole == (start + piece == len));
    }
    CHECK(laspidru_framer_body(framer, 0, body, sizeof body, &copied) == LASPIDRU_OK && copied == taken.body_len);
    CHECK(laspidru_framer_next(framer) == LASPIDRU_OK);
    CHECK(laspidru_session_deliver(server, body, copied, &answer) == LASPIDRU_OK && answer.kind == kind);
    if (kind != LASPIDRU_REPLIED)
        return;
    CHECK(laspidru_session_frame(server, 0, reply, sizeof reply, &copied) == LASPIDRU_OK);
    CHECK(laspidru_framer_feed(framer, reply, copied, &taken) == LASPIDRU_OK && taken.bytes == copied && taken.is_whole);
    CHECK(laspidru_framer_body(framer, 0, body, sizeof body, &copied) == LASPIDRU_OK && laspidru_framer_next(framer) == LASPIDRU_OK);
    CHECK(laspidru_session_deliver(client, body, copied, &heard) == LASPIDRU_OK && heard.kind != LASPIDRU_BAD_SERVER);
}

/* Both ends agree. */
static void test_both_ends(void) {
    laspidru_handle client = {0}, framer = {0}, server = {0};
    laspidru_edit both[2] = {{{1, 0}, {1, 1}, 2, 0}, {{0, 0}, {0, 0}, 1, 0}};
    laspidru_fault fault = {9, 1};
    laspidru_state state = {9, 9, 9, 9};
    laspidru_size len = 0;
    CHECK(laspidru_client_new(&client, &client_settings) == LASPIDRU_OK && laspidru_framer_new(&framer, 4096) == LASPIDRU_OK);
    CHECK(laspidru_server_new(&server, &settings) == LASPIDRU_OK && laspidru_client_start(&client, &len) == LASPIDRU_OK);
    carry(&client, &framer, &server, len, LASPIDRU_REPLIED);
    CHECK(laspidru_session_state(&client, &state) == LASPIDRU_OK && state.encoding == LASPIDRU_UTF8 && state.phase == LASPIDRU_PHASE_READY);
    CHECK(did_open(&client, uri_a, 1, "ab\ncd", &len) == LASPIDRU_OK);
    carry(&client, &framer, &server, len, LASPIDRU_CHANGED);
    CHECK(did_change(&client, 2, both, 2, "XYQ", &fault, &len) == LASPIDRU_OK);
    carry(&client, &framer, &server, len, LASPIDRU_CHANGED);
    CHECK(holds(&client, 2, "Qab\nXYd") && holds(&server, 2, "Qab\nXYd"));
    CHECK(laspidru_client_shutdown(&client, &len) == LASPIDRU_OK);
    carry(&client, &framer, &server, len, LASPIDRU_REPLIED);
    CHECK(laspidru_client_exit(&client, &len) == LASPIDRU_OK);
    carry(&client, &framer, &server, len, LASPIDRU_EXITED);
    laspidru_handle_free(&client);
    laspidru_handle_free(&framer);
    laspidru_handle_free(&server);
}
