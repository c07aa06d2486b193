/* The test of what edits mean on open documents. test.c includes it. */

static laspidru_u32 served_edits(laspidru_handle *server, const laspidru_edit *edits, laspidru_size count, const char *texts,
                                 laspidru_handle *batch, laspidru_edits_fault *fault) {
    return laspidru_session_document_batch_of_edits(server, bytes(uri_a), 9, LASPIDRU_UTF8, edits, count, bytes(texts), strlen(texts), batch, fault);
}

static laspidru_u32 served_message(laspidru_handle *server, laspidru_i32 version, const laspidru_edit *edits, laspidru_size count,
                                   const char *texts, laspidru_handle *output, laspidru_fault *fault, laspidru_size *len) {
    return laspidru_session_document_canonical_message(server, bytes(uri_a), 9, version, LASPIDRU_UTF8, edits, count, bytes(texts), strlen(texts),
                                             output, fault, len);
}

/* Makes a server with "ab\ncd" open, under version 1. */
static void start_server(laspidru_handle *server) {
    laspidru_answer answer = {9, 9, 9, 9, 9};
    laspidru_state state = {9, 9, 9, 9};
    CHECK(laspidru_session_state(server, &state) == LASPIDRU_EMPTY && state.encoding == 9);
    CHECK(laspidru_server_new(server, &settings) == LASPIDRU_OK);
    CHECK(hand(server, initialize, &answer) == LASPIDRU_OK && hand(server, open_a, &answer) == LASPIDRU_OK);
    CHECK(answer.kind == LASPIDRU_CHANGED && holds(server, 1, "ab\ncd"));
}

static void test_server_batch_of_edits(void) {
    laspidru_handle server = {0}, batch = {0};
    laspidru_edits_fault fault = {9, 9, 0};
    laspidru_edit two[2] = {{{0, 0}, {0, 0}, 1, 0}, {{1, 0}, {1, 1}, 1, 0}}, found = {{7, 7}, {7, 7}, 7, 1};
    laspidru_edit over[2] = {{{0, 0}, {0, 2}, 0, 0}, {{0, 1}, {1, 0}, 0, 0}}, reversed = {{0, 1}, {0, 0}, 0, 0};
    unsigned char out[4] = "---";
    laspidru_size len = 9, copied = 9;
    start_server(&server);
    CHECK(served_edits(&server, &reversed, 1, "", &batch, &fault) == LASPIDRU_REVERSED_RANGE && is_about(fault, 0, 0, 0));
    CHECK(served_edits(&server, over, 2, "", &batch, &fault) == LASPIDRU_OVERLAP && is_about(fault, 0, 1, 0) && !batch.is_full);
    CHECK(served_edits(&server, two, 2, "12", &batch, &fault) == LASPIDRU_OK && holds(&server, 1, "ab\ncd"));
    CHECK(laspidru_batch_len(&batch, &len) == LASPIDRU_OK && len == 2);
    CHECK(laspidru_batch_edit(&batch, 0, &found, out, 3, &copied) == LASPIDRU_OK && copied == 1 && out[0] == '2');
    CHECK(found.start.line == 1 && found.start.character == 0 && found.end.line == 1 && found.end.character == 1);
    CHECK(laspidru_batch_edit(&batch, 1, &found, out, 3, &copied) == LASPIDRU_OK && copied == 1 && out[0] == '1');
    CHECK(laspidru_batch_len(&batch, &len) == LASPIDRU_OK && len == 2);
    laspidru_handle_free(&batch);
    laspidru_handle_free(&server);
}

static void test_server_message(void) {
    laspidru_handle server = {0}, output = {0};
    laspidru_fault fault = {9, 1};
    laspidru_edit two[2] = {{{1, 0}, {1, 1}, 1, 0}, {{1, 1}, {1, 1}, 1, 0}}, reversed = {{0, 1}, {0, 0}, 0, 0};
    part wanted = {{0}, 0};
    laspidru_size len = 9, copied = 9;
    unsigned char out[512];
    start_server(&server);
    CHECK(served_message(&server, 1, two, 2, "XY", &output, &fault, &len) == LASPIDRU_STALE_VERSION && fault.change == 9);
    CHECK(served_message(&server, 7, &reversed, 1, "", &output, &fault, &len) == LASPIDRU_REVERSED_RANGE && fault.change == 0 && !fault.at_end);
    CHECK(!output.is_full && len == 9);
    /* Two changes in order, of which the second goes on where the first ended: one change. */
    CHECK(served_message(&server, 7, two, 2, "XY", &output, &fault, &len) == LASPIDRU_OK && holds(&server, 1, "ab\ncd"));
    add_frame(&wanted, "", canonical_a);
    CHECK(len == wanted.len && laspidru_output_copy(&output, 0, out, sizeof out, &copied) == LASPIDRU_OK);
    CHECK(copied == wanted.len && memcmp(out, wanted.bytes, copied) == 0);
    laspidru_handle_free(&server);
    laspidru_handle_free(&output);
}
