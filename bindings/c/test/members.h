/* The test of single members, each set and read by its name, with a value that no other has; and of versions and texts. test.c
   includes it. */

static int is_text(laspidru_u32 code, const char *wanted) {
    unsigned char out[120];
    laspidru_size copied = 999;
    return laspidru_code_text(code, 0, out, sizeof out, &copied) == LASPIDRU_OK && copied == strlen(wanted) && memcmp(out, wanted, copied) == 0;
}

/* Does the text of a code begin with its name and a colon? Python, Node and Lua take the names from there. */
static int is_named(laspidru_u32 code, const char *name) {
    unsigned char out[120];
    laspidru_size copied = 0, len = strlen(name);
    return laspidru_code_text(code, 0, out, sizeof out, &copied) == LASPIDRU_OK && copied > len && memcmp(out, name, len) == 0;
}

#define CHECK_NAME(code) CHECK(is_named(LASPIDRU_##code, #code ": "))

static void test_texts(void) {
    unsigned char out[120] = "-----";
    laspidru_size copied = 9, code;
    CHECK(laspidru_version() == LASPIDRU_VERSION_NUMBER && memcmp(LASPIDRU_VERSION, "0.1.0", 6) == 0);
    CHECK(is_text(LASPIDRU_OK, "OK: the call is done") && is_text(LASPIDRU_STALE_VERSION, "STALE_VERSION: the version is not greater than the current one"));
    CHECK(is_text(LASPIDRU_BAD_MAX_DOCS, "BAD_MAX_DOCS: max_docs is out of its range, 1 to 65,536 documents"));
    CHECK(is_text(LASPIDRU_NO_DOCUMENT, "NO_DOCUMENT: the message opens, changes and closes no document"));
    CHECK(laspidru_code_text(36, 0, out, 5, &copied) == LASPIDRU_OUT_OF_RANGE && copied == 9 && out[0] == '-');
    CHECK(laspidru_code_text(4294967295u, 0, out, 5, &copied) == LASPIDRU_OUT_OF_RANGE);
    CHECK(laspidru_code_text(LASPIDRU_EMPTY, 7, out, 3, &copied) == LASPIDRU_OK && copied == 3 && memcmp(out, "the--", 5) == 0);
    CHECK(laspidru_code_text(LASPIDRU_EMPTY, 27, out, 3, &copied) == LASPIDRU_OUT_OF_RANGE && copied == 3);
    for (code = 0; code < 36; code++)
        CHECK(laspidru_code_text((laspidru_u32)code, 0, out, 120, &copied) == LASPIDRU_OK && copied > 8 && copied < 120);
    /* Each code has its own row: no two are exchanged. */
    CHECK_NAME(OK); CHECK_NAME(NOT_UTF8); CHECK_NAME(OUT_OF_MEMORY); CHECK_NAME(IN_USE); CHECK_NAME(EMPTY);
    CHECK_NAME(TOO_LONG); CHECK_NAME(INSIDE_CHARACTER); CHECK_NAME(REVERSED_RANGE); CHECK_NAME(BAD_ENCODING);
    CHECK_NAME(BAD_LENGTH); CHECK_NAME(OTHER_KIND); CHECK_NAME(OUT_OF_RANGE); CHECK_NAME(BAD_MAX_BODY);
    CHECK_NAME(ENDED); CHECK_NAME(NOT_OPEN); CHECK_NAME(ALREADY_OPEN); CHECK_NAME(TOO_MANY_DOCUMENTS);
    CHECK_NAME(STALE_VERSION); CHECK_NAME(TOO_MANY_CHANGES); CHECK_NAME(INVALID_PARAMS); CHECK_NAME(CUT);
    CHECK_NAME(BAD_FRAME); CHECK_NAME(BODY_TOO_LONG); CHECK_NAME(BAD_LOG); CHECK_NAME(TOO_MANY_TURNS);
    CHECK_NAME(OVERLAP); CHECK_NAME(FAILED); CHECK_NAME(NO_MESSAGE); CHECK_NAME(WRONG_PHASE);
    CHECK_NAME(NOT_AN_ANSWER); CHECK_NAME(ERROR_ANSWER); CHECK_NAME(NO_SYNC); CHECK_NAME(BAD_MAX_TEXT);
    CHECK_NAME(BAD_MAX_DOCS); CHECK_NAME(BAD_MAX_CHANGES); CHECK_NAME(NO_DOCUMENT);
}

static int is_uri_of(const char *body, const char *uri) {
    unsigned char out[32];
    laspidru_size copied = 99;
    return laspidru_message_uri(bytes(body), strlen(body), 0, out, sizeof out, &copied) == LASPIDRU_OK && copied == strlen(uri) &&
           memcmp(out, uri, copied) == 0;
}

static void test_message_uri(void) {
    unsigned char out[4] = "---";
    laspidru_size copied = 9;
    CHECK(is_uri_of(open_a, uri_a) && is_uri_of(change_a, uri_a) && is_uri_of(close_a, uri_a));
    CHECK(laspidru_message_uri(bytes(open_a), strlen(open_a), 5, out, 3, &copied) == LASPIDRU_OK && copied == 3 && memcmp(out, "///", 3) == 0);
    CHECK(laspidru_message_uri(bytes(open_a), strlen(open_a), 10, out, 3, &copied) == LASPIDRU_OUT_OF_RANGE && copied == 3);
    CHECK(laspidru_message_uri(bytes(shutdown), strlen(shutdown), 0, out, 3, &copied) == LASPIDRU_NO_DOCUMENT && copied == 3);
    CHECK(laspidru_message_uri(bytes("\xff"), 1, 0, out, 3, &copied) == LASPIDRU_NO_DOCUMENT);
}

static void test_defaults(void) {
    laspidru_settings server = LASPIDRU_SETTINGS_DEFAULT;
    laspidru_client_settings client = LASPIDRU_CLIENT_SETTINGS_DEFAULT;
    laspidru_log_settings log = LASPIDRU_LOG_SETTINGS_DEFAULT;
    CHECK(server.max_body == 16777216 && server.max_text == 16777216 && server.max_docs == 1024 && server.max_changes == 65536);
    CHECK(server.encoding == LASPIDRU_UTF16 && !server.is_fixed && !server.whole_texts && !server.lenient);
    CHECK(client.max_body == 16777216 && client.max_text == 16777216 && client.max_docs == 1024 && client.max_changes == 65536);
    CHECK(!client.utf8 && !client.utf32 && !client.lenient);
    CHECK(log.max_body == 16777216 && log.max_text == 16777216 && log.max_docs == 1024 && log.max_changes == 65536);
    CHECK(log.encoding == LASPIDRU_UTF16 && log.at == 0 && !log.lenient && !log.squash && !log.documents && !log.texts && !log.bodies && !log.has_uri);
    CHECK(!log.brief && !log.all);
}

/* Whether a handle's frame has this text in it. */
static int sends_with(laspidru_handle *end, const char *text) {
    static unsigned char out[4096];
    laspidru_size copied = 0, at;
    if (laspidru_session_frame(end, 0, out, sizeof out, &copied) != LASPIDRU_OK)
        return 0;
    for (at = 0; at + strlen(text) <= copied; at++)
        if (memcmp(out + at, text, strlen(text)) == 0)
            return 1;
    return 0;
}

/* A server of these settings, after `initialize` without an offer, a document and a stale change. */
static laspidru_answer begin(laspidru_handle *server, const laspidru_settings *how) {
    static const char asks[] = "{\"jsonrpc\":\"2.0\",\"id\":1,\"method\":\"initialize\",\"params\":{\"capabilities\":{}}}";
    laspidru_answer answer = {9, 9, 9, 9, 9};
    CHECK(laspidru_server_new(server, how) == LASPIDRU_OK && hand(server, asks, &answer) == LASPIDRU_OK);
    return answer;
}

static void test_settings_of_servers(void) {
    laspidru_settings how = settings;
    laspidru_handle server = {0};
    laspidru_answer answer;
    begin(&server, &how);
    CHECK(is_state(&server, LASPIDRU_PHASE_READY, 0, LASPIDRU_UTF16, 0) && sends_with(&server, "\"change\":2"));
    CHECK(hand(&server, open_a, &answer) == LASPIDRU_OK && hand(&server, open_a, &answer) == LASPIDRU_OK);
    CHECK(answer.kind == LASPIDRU_REFUSED && answer.reason == LASPIDRU_ALREADY_OPEN && answer.status == 0 && answer.error == 0);
    laspidru_handle_free(&server);
    how.is_fixed = 1;
    begin(&server, &how);
    CHECK(is_state(&server, LASPIDRU_PHASE_READY, 0, LASPIDRU_UTF8, 0) && sends_with(&server, "\"change\":2"));
    laspidru_handle_free(&server);
    how = settings;
    how.whole_texts = 1;
    begin(&server, &how);
    CHECK(is_state(&server, LASPIDRU_PHASE_READY, 0, LASPIDRU_UTF16, 0) && sends_with(&server, "\"change\":1"));
    laspidru_handle_free(&server);
    how = settings;
    how.lenient = 1;
    begin(&server, &how);
    CHECK(hand(&server, open_a, &answer) == LASPIDRU_OK && hand(&server, open_a, &answer) == LASPIDRU_OK && answer.kind == LASPIDRU_CHANGED);
    CHECK(is_state(&server, LASPIDRU_PHASE_READY, 0, LASPIDRU_UTF16, 1));
    laspidru_handle_free(&server);
}

static void test_settings_of_clients(void) {
    laspidru_client_settings how = client_settings;
    laspidru_handle client = {0};
    laspidru_answer answer;
    laspidru_size len = 0;
    how.utf8 = 0;
    CHECK(laspidru_client_new(&client, &how) == LASPIDRU_OK && laspidru_client_start(&client, &len) == LASPIDRU_OK);
    CHECK(!sends_with(&client, "utf-8") && !sends_with(&client, "utf-32"));
    laspidru_handle_free(&client);
    how.utf8 = 1;
    CHECK(laspidru_client_new(&client, &how) == LASPIDRU_OK && laspidru_client_start(&client, &len) == LASPIDRU_OK);
    CHECK(sends_with(&client, "\"utf-8\",\"utf-16\"]") && !sends_with(&client, "utf-32"));
    CHECK(hand(&client, capabilities, &answer) == LASPIDRU_OK && did_open(&client, uri_a, 1, "a", &len) == LASPIDRU_OK);
    CHECK(did_open(&client, uri_a, 1, "b", &len) == LASPIDRU_ALREADY_OPEN);
    laspidru_handle_free(&client);
    how.utf8 = 0;
    how.utf32 = 1;
    CHECK(laspidru_client_new(&client, &how) == LASPIDRU_OK && laspidru_client_start(&client, &len) == LASPIDRU_OK);
    CHECK(!sends_with(&client, "utf-8") && sends_with(&client, "\"utf-16\",\"utf-32\"]"));
    laspidru_handle_free(&client);
    how = client_settings;
    how.lenient = 1;
    CHECK(laspidru_client_new(&client, &how) == LASPIDRU_OK && laspidru_client_start(&client, &len) == LASPIDRU_OK);
    CHECK(hand(&client, capabilities, &answer) == LASPIDRU_OK && did_open(&client, uri_a, 1, "a", &len) == LASPIDRU_OK);
    CHECK(did_open(&client, uri_a, 1, "b", &len) == LASPIDRU_OK && holds(&client, 1, "b"));
    laspidru_handle_free(&client);
    how.max_text = 1073741825;
    CHECK(laspidru_client_new(&client, &how) == LASPIDRU_BAD_MAX_TEXT);
    how.max_body = 4095;
    CHECK(laspidru_client_new(&client, &how) == LASPIDRU_BAD_MAX_BODY);
    how = client_settings;
    how.max_changes = 0;
    CHECK(laspidru_client_new(&client, &how) == LASPIDRU_BAD_MAX_CHANGES && !client.is_full);
}

/* What is written with each code: of each struct all members. */
static void test_members_of_results(void) {
    static const char *const session[] = {initialize, open_a, change_a, change_a, 0};
    laspidru_edit over[3] = {{.len = 1}, {.start = {0, 2}, .end = {1, 1}}, {.start = {0, 0}, .end = {1, 0}}};
    laspidru_edits_fault fault = {.edit = 77, .other = 78, .at_end = 1};
    laspidru_taken taken = {.bytes = 71, .body_len = 72, .offset = 73, .frame = 74, .is_whole = 1};
    laspidru_ending ending = {.status = 71, .frame = 72, .missing = 73, .messages = 74, .refused = 75, .offset = 76, .output_len = 77};
    laspidru_answer answer = {.kind = 71, .reason = 72, .status = 73, .error = 74, .reply_len = 75};
    laspidru_length length = {.bytes = 71, .lines = 72};
    laspidru_line line = {.start = 71, .end = 72};
    laspidru_opened opened = {.version = 71, .bytes = 72};
    laspidru_handle document = {0}, server = {0}, output = {0};
    CHECK(new_document(&document, "ab\ncd") == LASPIDRU_OK);
    CHECK(apply(&document, over, 3, "x", &fault) == LASPIDRU_OVERLAP && fault.edit == 2 && fault.other == 1 && !fault.at_end);
    CHECK(laspidru_document_size(&document, &length) == LASPIDRU_OK && length.bytes == 5 && length.lines == 2);
    CHECK(laspidru_document_line(&document, 1, &line) == LASPIDRU_OK && line.start == 3 && line.end == 5);
    laspidru_handle_free(&document);
    CHECK(laspidru_server_new(&server, &settings) == LASPIDRU_OK);
    CHECK(laspidru_session_feed(&server, bytes("Content-Length: 1\r\n\r\n{C"), 23, &taken, &answer) == LASPIDRU_OK);
    CHECK(taken.bytes == 22 && taken.body_len == 1 && taken.offset == 0 && taken.frame == 0 && taken.is_whole);
    CHECK(answer.kind == LASPIDRU_REPLIED && answer.reason == 0 && answer.status == 0 && answer.error == -32700 && answer.reply_len > 80);
    CHECK(laspidru_session_feed(&server, bytes("Content-Length: 4097\r\n\r\n"), 24, &taken, &answer) == LASPIDRU_BAD_FRAME);
    CHECK(taken.bytes == 0 && taken.body_len == 0 && taken.offset == 45 && taken.frame == 6 && !taken.is_whole);
    /* After a fault nothing is written but zeroes. */
    CHECK(laspidru_session_feed(&server, bytes("C"), 1, &taken, &answer) == LASPIDRU_FAILED);
    CHECK(taken.bytes == 0 && taken.body_len == 0 && taken.offset == 0 && taken.frame == 0 && !taken.is_whole);
    CHECK(hand(&server, initialize, &answer) == LASPIDRU_OK && hand(&server, open_a, &answer) == LASPIDRU_OK && hand(&server, change_a, &answer) == LASPIDRU_OK);
    CHECK(laspidru_session_document_state(&server, bytes(uri_a), 9, &opened) == LASPIDRU_OK && opened.version == 7 && opened.bytes == 6);
    CHECK(hand(&server, exits, &answer) == LASPIDRU_OK && answer.kind == LASPIDRU_EXITED && answer.reason == 0 && answer.status == 1);
    laspidru_handle_free(&server);
    CHECK(run_log(&output, LASPIDRU_CHECK, &log_settings, log_of(session), &ending) == LASPIDRU_OK);
    CHECK(ending.status == 1 && ending.frame == 0 && ending.missing == 0 && ending.messages == 4 && ending.refused == 1);
    CHECK(ending.offset == 0 && ending.output_len == 41);
    laspidru_handle_free(&output);
}
