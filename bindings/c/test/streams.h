/* The test of ends that take their streams. test.c includes it. */

enum { STREAM_ROOM = 8192 };

/* The frames of some bodies, the last of which is 0. */
static laspidru_size stream_of(char *out, const char *const *bodies) {
    laspidru_size len = 0;
    for (; *bodies; bodies++)
        len += (laspidru_size)snprintf(out + len, STREAM_ROOM - len, "Content-Length: %zu\r\n\r\n%s", strlen(*bodies), *bodies);
    return len;
}

/* Whether the body that was taken last is this text, which is copied in two parts. */
static int copies(laspidru_handle *handle, const char *text) {
    static unsigned char out[STREAM_ROOM];
    laspidru_size first = 99, rest = 99, half = strlen(text) / 2;
    return laspidru_session_body(handle, 0, out, half, &first) == LASPIDRU_OK &&
           laspidru_session_body(handle, first, out + first, sizeof out - first, &rest) == LASPIDRU_OK &&
           first == half && first + rest == strlen(text) && memcmp(out, text, strlen(text)) == 0;
}

/* Takes a stream in pieces of at most `most` bytes. Each message is whole in its turn, with this body and this kind of answer. */
static void take_all(laspidru_handle *end, const char *const *bodies, const laspidru_u32 *kinds, laspidru_size most) {
    static char stream[STREAM_ROOM];
    laspidru_size len = stream_of(stream, bodies), at = 0, count = 0;
    laspidru_taken taken = {9, 9, 9, 9, 0};
    laspidru_answer answer = {9, 9, 9, 9, 9};
    while (at < len) {
        laspidru_size piece = len - at < most ? len - at : most;
        CHECK(laspidru_session_feed(end, bytes(stream) + at, piece, &taken, &answer) == LASPIDRU_OK && taken.bytes <= piece);
        at += taken.bytes;
        CHECK(taken.is_whole || taken.bytes == piece);
        CHECK(taken.offset == 0 && taken.frame == 0);
        if (!taken.is_whole)
            continue;
        CHECK(taken.body_len == strlen(bodies[count]) && copies(end, bodies[count]) && answer.kind == kinds[count]);
        count++;
    }
    CHECK(bodies[count] == 0);
}

static void test_server_take(void) {
    static const char asks[] = "{\"jsonrpc\":\"2.0\",\"id\":7,\"method\":\"textDocument/hover\",\"params\":{}}";
    static const char notes[] = "{\"jsonrpc\":\"2.0\",\"method\":\"initialized\",\"params\":{}}";
    static const char *const session[] = {initialize, notes, open_a, change_a, asks, shutdown, 0};
    static const laspidru_u32 kinds[] = {LASPIDRU_REPLIED, LASPIDRU_IGNORED, LASPIDRU_CHANGED, LASPIDRU_CHANGED, LASPIDRU_REPLIED, LASPIDRU_REPLIED};
    static const char *const last[] = {exits, 0};
    static const laspidru_u32 end[] = {LASPIDRU_EXITED};
    static const laspidru_size most[] = {1, 7, 64, 100000};
    laspidru_taken taken = {9, 9, 9, 9, 1};
    laspidru_answer answer = {9, 9, 9, 9, 9};
    unsigned char out[4] = "---";
    laspidru_size i, copied = 9;
    for (i = 0; i < 4; i++) {
        laspidru_handle server = {0};
        CHECK(laspidru_session_feed(&server, bytes("C"), 1, &taken, &answer) == LASPIDRU_EMPTY && taken.bytes == 9 && answer.kind == 9);
        CHECK(laspidru_session_body(&server, 0, out, 3, &copied) == LASPIDRU_EMPTY && copied == 9);
        CHECK(laspidru_server_new(&server, &settings) == LASPIDRU_OK);
        CHECK(laspidru_session_body(&server, 0, out, 3, &copied) == LASPIDRU_NO_MESSAGE && copied == 9);
        take_all(&server, session, kinds, most[i]);
        CHECK(holds(&server, 7, "ab\nXYd"));
        CHECK(laspidru_session_body(&server, 1, out, 3, &copied) == LASPIDRU_OK && copied == 3 && memcmp(out, "\"js", 3) == 0);
        CHECK(laspidru_session_body(&server, 1000, out, 3, &copied) == LASPIDRU_OUT_OF_RANGE && copied == 3);
        /* No byte follows: the body is released, and the answer stays as it is. */
        CHECK(laspidru_session_feed(&server, bytes(""), 0, &taken, &answer) == LASPIDRU_OK && taken.bytes == 0 && !taken.is_whole && answer.kind == 9);
        CHECK(laspidru_session_body(&server, 0, out, 3, &copied) == LASPIDRU_NO_MESSAGE);
        copied = 9;
        take_all(&server, last, end, most[i]);
        CHECK(laspidru_session_feed(&server, bytes("C"), 1, &taken, &answer) == LASPIDRU_ENDED && taken.bytes == 0 && answer.kind == 9);
        CHECK(copies(&server, exits));
        taken = (laspidru_taken){9, 9, 9, 9, 1};
        laspidru_handle_free(&server);
    }
}

/* Of several messages in one piece each is handled by its own call: a request comes between two changes. */
static void test_server_take_in_order(void) {
    static const char asks[] = "{\"jsonrpc\":\"2.0\",\"id\":7,\"method\":\"textDocument/hover\",\"params\":{}}";
    static const char *const session[] = {initialize, open_a, asks, change_a, asks, 0};
    static char stream[STREAM_ROOM];
    laspidru_size len = stream_of(stream, session), at = 0;
    laspidru_handle server = {0};
    laspidru_taken taken = {9, 9, 9, 9, 1};
    laspidru_answer answer = {9, 9, 9, 9, 9};
    int asked = 0;
    CHECK(laspidru_server_new(&server, &settings) == LASPIDRU_OK);
    for (; at < len; at += taken.bytes) {
        CHECK(laspidru_session_feed(&server, bytes(stream) + at, len - at, &taken, &answer) == LASPIDRU_OK && taken.is_whole);
        if (answer.error != -32601)
            continue;
        CHECK(asked == 0 ? holds(&server, 1, "ab\ncd") : holds(&server, 7, "ab\nXYd"));
        asked++;
    }
    CHECK(asked == 2);
    laspidru_handle_free(&server);
}

static void test_client_take(void) {
    static const char asks[] = "{\"jsonrpc\":\"2.0\",\"id\":7,\"method\":\"workspace/configuration\",\"params\":{}}";
    static const char notes[] = "{\"jsonrpc\":\"2.0\",\"method\":\"window/logMessage\",\"params\":{}}";
    static const char *const session[] = {capabilities, notes, asks, 0};
    static const laspidru_u32 kinds[] = {LASPIDRU_REPLIED, LASPIDRU_IGNORED, LASPIDRU_REPLIED};
    static const char *const bad[] = {"{", 0};
    static const laspidru_u32 end[] = {LASPIDRU_BAD_SERVER};
    static const laspidru_size most[] = {1, 7, 64, 100000};
    laspidru_taken taken = {9, 9, 9, 9, 1};
    laspidru_answer answer = {9, 9, 9, 9, 9};
    laspidru_size i, len = 0, copied = 9;
    unsigned char out[4] = "---";
    for (i = 0; i < 4; i++) {
        laspidru_handle client = {0};
        CHECK(laspidru_session_feed(&client, bytes("C"), 1, &taken, &answer) == LASPIDRU_EMPTY && taken.bytes == 9 && answer.kind == 9);
        CHECK(laspidru_session_body(&client, 0, out, 3, &copied) == LASPIDRU_EMPTY && copied == 9);
        CHECK(laspidru_client_new(&client, &client_settings) == LASPIDRU_OK);
        CHECK(laspidru_session_feed(&client, bytes("C"), 1, &taken, &answer) == LASPIDRU_WRONG_PHASE && taken.bytes == 9 && answer.kind == 9);
        CHECK(laspidru_session_body(&client, 0, out, 3, &copied) == LASPIDRU_NO_MESSAGE && copied == 9);
        CHECK(laspidru_client_start(&client, &len) == LASPIDRU_OK);
        take_all(&client, session, kinds, most[i]);
        CHECK(is_state(&client, LASPIDRU_PHASE_READY, 0, LASPIDRU_UTF8, 0));
        CHECK(laspidru_session_body(&client, 1000, out, 3, &copied) == LASPIDRU_OUT_OF_RANGE && copied == 9);
        take_all(&client, bad, end, most[i]);
        CHECK(is_state(&client, LASPIDRU_PHASE_FAILED, LASPIDRU_NOT_AN_ANSWER, LASPIDRU_UTF8, 0));
        CHECK(laspidru_session_feed(&client, bytes("C"), 1, &taken, &answer) == LASPIDRU_WRONG_PHASE && answer.kind == 9);
        laspidru_handle_free(&client);
    }
}
