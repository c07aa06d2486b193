/* The test of positions and lines of open documents. test.c includes it. */

/* An end that has the sample open. */
static void locate_all(laspidru_handle *end) {
    laspidru_position place = {7, 7};
    laspidru_line range = {7, 7};
    laspidru_size offset = 7;
    CHECK(laspidru_session_document_offset(end, bytes(uri_a), 9, LASPIDRU_UTF16, (laspidru_position){1, 3}, &offset) == LASPIDRU_OK && offset == 8);
    CHECK(laspidru_session_document_offset(end, bytes(uri_a), 9, LASPIDRU_UTF16, (laspidru_position){1, 2}, &offset) == LASPIDRU_INSIDE_CHARACTER);
    CHECK(laspidru_session_document_position(end, bytes(uri_a), 9, LASPIDRU_UTF8, 8, &place) == LASPIDRU_OK && place.line == 1 && place.character == 5);
    CHECK(laspidru_session_document_line(end, bytes(uri_a), 9, 1, &range) == LASPIDRU_OK && range.start == 3 && range.end == 8);
    CHECK(laspidru_session_document_line(end, bytes("b"), 1, 1, &range) == LASPIDRU_NOT_OPEN && offset == 8);
}

static void test_positions_of_ends(void) {
    static const char open_sample[] = "{\"jsonrpc\":\"2.0\",\"method\":\"textDocument/didOpen\",\"params\":{\"textDocument\":"
                                      "{\"uri\":\"file:///a\",\"languageId\":\"c\",\"version\":1,\"text\":\"a\\r\\nb\xf0\x9f\x98\x80\"}}}";
    laspidru_handle client = {0}, server = {0};
    laspidru_answer answer = {9, 9, 9, 9, 9};
    laspidru_size len = 0;
    start_client(&client);
    CHECK(did_open(&client, uri_a, 1, sample, &len) == LASPIDRU_OK);
    CHECK(laspidru_server_new(&server, &settings) == LASPIDRU_OK && hand(&server, initialize, &answer) == LASPIDRU_OK);
    CHECK(hand(&server, open_sample, &answer) == LASPIDRU_OK && is_kind(answer, LASPIDRU_CHANGED, 0, 0));
    locate_all(&server);
    locate_all(&client);
    CHECK(holds(&server, 1, sample) && holds(&client, 1, sample));
    laspidru_handle_free(&client);
    laspidru_handle_free(&server);
}
