/* The test in which each request for memory is refused in turn. test.c includes it. */

/* Makes a call again as long as memory is refused. What it leaves each time is checked, and then it succeeds. */
#define AGAIN(call, stayed)                                                                                             \
    do {                                                                                                                \
        laspidru_u32 code_;                                                                                             \
        while ((code_ = (call)) == LASPIDRU_OUT_OF_MEMORY) {                                                            \
            CHECK(stayed);                                                                                              \
            refusals++;                                                                                                 \
        }                                                                                                               \
        CHECK(code_ == LASPIDRU_OK);                                                                                    \
    } while (0)

/* One run with a request refused. Each call that is refused leaves what was, and the same call then succeeds. */
static int run_refused(void) {
    static const laspidru_edit edits[2] = {{{0, 1}, {0, 1}, 2, 0}, {{1, 0}, {1, 1}, 6, 0}};
    static const char texts[] = "\r\nlonger";
    laspidru_handle document = {0}, batch = {0};
    laspidru_fault fault = {0, 0};
    laspidru_edits_fault edits_fault = {0, 0, 0};
    int refusals = 0;
    AGAIN(new_document(&document, "ab\ncd"), !document.is_full);
    AGAIN(laspidru_document_canonical(&document, LASPIDRU_UTF16, edits, 2, bytes(texts), 8, &batch, &fault),
          !batch.is_full && has_text(&document, "ab\ncd"));
    AGAIN(laspidru_document_change(&document, LASPIDRU_UTF16, edits, 2, bytes(texts), 8, &fault), has_text(&document, "ab\ncd"));
    CHECK(has_text(&document, "a\r\nlonger\ncd"));
    laspidru_handle_free(&batch);
    AGAIN(laspidru_document_batch_of_edits(&document, LASPIDRU_UTF16, edits, 2, bytes(texts), 8, &batch, &edits_fault),
          !batch.is_full && has_text(&document, "a\r\nlonger\ncd"));
    AGAIN(apply(&document, edits, 2, texts, &edits_fault), has_text(&document, "a\r\nlonger\ncd"));
    CHECK(has_text(&document, "a\r\n\r\nlongeronger\ncd"));
    laspidru_handle_free(&batch);
    laspidru_handle_free(&document);
    CHECK(heap_blocks() == 0);
    return refusals;
}

/* A session with a request refused. Each call that is refused leaves what was, and the same call then succeeds. */
static int run_refused_server(void) {
    static const char *const bodies[] = {initialize, open_a, change_a, shutdown, exits};
    laspidru_handle server = {0};
    laspidru_answer answer = {9, 9, 9, 9, 9};
    laspidru_state state;
    laspidru_size i;
    int refusals = 0;
    AGAIN(laspidru_server_new(&server, &settings), !server.is_full);
    for (i = 0; i < sizeof bodies / sizeof bodies[0]; i++) {
        laspidru_answer before = answer;
        AGAIN(hand(&server, bodies[i], &answer),
              answer.kind == before.kind && answer.reply_len == before.reply_len && (i != 2 || holds(&server, 1, "ab\ncd")) &&
                  laspidru_session_state(&server, &state) == LASPIDRU_OK && state.documents == (i > 1));
        CHECK(answer.kind != LASPIDRU_REFUSED && answer.kind != LASPIDRU_DROPPED);
    }
    CHECK(holds(&server, 7, "ab\nXYd"));
    laspidru_handle_free(&server);
    CHECK(heap_blocks() == 0);
    return refusals;
}

static const laspidru_log_settings all_settings = {
    .max_body = 4096, .max_text = 64, .max_docs = 2, .max_changes = 4, .encoding = LASPIDRU_UTF8,
    .at = 4, .squash = 1, .documents = 1, .texts = 1, .bodies = 1, .has_uri = 1, .brief = 1, .all = 1};

/* The commands with a request refused. A call that is refused leaves what was, and the same call then succeeds. */
static int run_refused_logs(void) {
    static const char *const session[] = {initialize, open_a, change_a, change_b, 0};
    static part log;
    laspidru_handle output = {0};
    laspidru_ending ending = {9, 9, 9, 9, 9, 9, 9};
    laspidru_u32 command;
    int refusals = 0;
    log = log_of(session);
    for (command = LASPIDRU_CHECK; command <= LASPIDRU_CONVERT; command++) {
        laspidru_ending before = ending;
        AGAIN(run_log(&output, command, &all_settings, log, &ending),
              !output.is_full && ending.status == before.status && ending.output_len == before.output_len);
        CHECK(ending.status == 0 && ending.missing == 0);
        laspidru_handle_free(&output);
    }
    ending.status = 9;
    AGAIN(compare_log(&output, &all_settings, "/a", "ab\ncd", log, &ending), !output.is_full && ending.status == 9);
    CHECK(ending.status == 1 && ending.missing == 0);
    laspidru_handle_free(&output);
    CHECK(heap_blocks() == 0);
    return refusals;
}

/* A stream with a request refused. */
static int run_refused_framer(void) {
    static const char stream[] = "Content-Length: 5\r\n\r\nabcde";
    laspidru_handle framer = {0};
    laspidru_taken taken = {9, 9, 9, 9, 0};
    int refusals = 0;
    AGAIN(laspidru_framer_new(&framer, 4096), !framer.is_full);
    AGAIN(laspidru_framer_feed(&framer, bytes(stream), strlen(stream), &taken), taken.bytes == 9 && is_at_rest(&framer, 1));
    CHECK(is_taken(taken, strlen(stream), 1, 5) && is_body(&framer, "abcde"));
    laspidru_handle_free(&framer);
    CHECK(heap_blocks() == 0);
    return refusals;
}

/* A client's session with a request refused. Each call that is refused leaves what was, and the same call then succeeds. */
static int run_refused_client(void) {
    static const laspidru_edit edits[2] = {{{0, 1}, {0, 1}, 2, 0}, {{1, 0}, {1, 1}, 6, 0}};
    static const char answered[] = "{\"jsonrpc\":\"2.0\",\"id\":2,\"result\":null}";
    laspidru_handle client = {0};
    laspidru_answer answer = {9, 9, 9, 9, 9};
    laspidru_fault fault = {9, 1};
    laspidru_size len = 9;
    int refusals = 0;
#define AGAIN_IN(call, phase, documents)                                                                                \
    AGAIN(call, is_state(&client, (phase), 0, (phase) < LASPIDRU_PHASE_READY ? 0 : LASPIDRU_UTF8, (documents)) && len == 9);   \
    len = 9
    AGAIN(laspidru_client_new(&client, &client_settings), !client.is_full);
    AGAIN_IN(laspidru_client_start(&client, &len), LASPIDRU_PHASE_NEW, 0);
    AGAIN_IN(hand(&client, capabilities, &answer), LASPIDRU_PHASE_ASKED, 0);
    AGAIN_IN(did_open(&client, uri_a, 1, "ab\ncd", &len), LASPIDRU_PHASE_READY, 0);
    CHECK(holds(&client, 1, "ab\ncd"));
    AGAIN_IN(did_change(&client, 2, edits, 2, "\r\nlonger", &fault, &len), LASPIDRU_PHASE_READY, 1);
    CHECK(holds(&client, 2, "a\r\nlonger\ncd") && fault.change == 9);
    AGAIN_IN(laspidru_client_did_close(&client, bytes(uri_a), 9, &len), LASPIDRU_PHASE_READY, 1);
    AGAIN_IN(laspidru_client_shutdown(&client, &len), LASPIDRU_PHASE_READY, 0);
    AGAIN_IN(hand(&client, answered, &answer), LASPIDRU_PHASE_CLOSING, 0);
    AGAIN_IN(laspidru_client_exit(&client, &len), LASPIDRU_PHASE_CLOSED, 0);
#undef AGAIN_IN
    CHECK(is_state(&client, LASPIDRU_PHASE_DONE, 0, LASPIDRU_UTF8, 0));
    laspidru_handle_free(&client);
    CHECK(heap_blocks() == 0);
    return refusals;
}

/* Takes a message, by the same call again where memory is refused: what was taken isn't passed again. */
static int take_again(laspidru_handle *end, const char *const *bodies, laspidru_answer *answer) {
    static char stream[STREAM_ROOM];
    laspidru_size len = stream_of(stream, bodies), at = 0;
    laspidru_taken taken = {9, 9, 9, 9, 1};
    laspidru_u32 code;
    int refusals = 0;
    do {
        laspidru_answer before = *answer;
        code = laspidru_session_feed(end, bytes(stream) + at, len - at, &taken, answer);
        at += taken.bytes;
        CHECK(code == LASPIDRU_OK || code == LASPIDRU_OUT_OF_MEMORY);
        if (code == LASPIDRU_OUT_OF_MEMORY) {
            CHECK(answer->kind == before.kind && answer->reply_len == before.reply_len && (taken.bytes == 0 || (taken.is_whole && at == len)));
            refusals++;
        }
    } while (code == LASPIDRU_OUT_OF_MEMORY);
    CHECK(at == len && taken.is_whole);
    return refusals;
}

static int run_refused_take(void) {
    static const char *const bodies[] = {initialize, open_a, change_a, shutdown, exits};
    static const char *const from_server[] = {capabilities, 0};
    laspidru_handle server = {0}, client = {0};
    laspidru_answer answer = {9, 9, 9, 9, 9};
    laspidru_size i, len;
    int refusals = 0;
    AGAIN(laspidru_server_new(&server, &settings), !server.is_full);
    for (i = 0; i < sizeof bodies / sizeof bodies[0]; i++) {
        const char *const one[] = {bodies[i], 0};
        refusals += take_again(&server, one, &answer);
        CHECK(answer.kind != LASPIDRU_REFUSED && answer.kind != LASPIDRU_DROPPED && copies(&server, bodies[i]));
    }
    CHECK(holds(&server, 7, "ab\nXYd"));
    laspidru_handle_free(&server);
    AGAIN(laspidru_client_new(&client, &client_settings), !client.is_full);
    AGAIN(laspidru_client_start(&client, &len), client.is_full);
    refusals += take_again(&client, from_server, &answer);
    CHECK(is_state(&client, LASPIDRU_PHASE_READY, 0, LASPIDRU_UTF8, 0));
    laspidru_handle_free(&client);
    CHECK(heap_blocks() == 0);
    return refusals;
}

static int run_refused_served(void) {
    static const laspidru_edit edits[2] = {{{0, 1}, {0, 1}, 2, 0}, {{1, 0}, {1, 1}, 6, 0}};
    static const char texts[] = "\r\nlonger";
    laspidru_handle server = {0}, made = {0};
    laspidru_edits_fault edits_fault = {9, 9, 0};
    laspidru_fault fault = {9, 0};
    laspidru_answer answer = {9, 9, 9, 9, 9};
    laspidru_size len = 9;
    int refusals = 0;
    AGAIN(laspidru_server_new(&server, &settings), !server.is_full);
    AGAIN(hand(&server, initialize, &answer), answer.kind == 9);
    AGAIN(hand(&server, open_a, &answer), answer.kind == LASPIDRU_REPLIED);
    AGAIN(served_edits(&server, edits, 2, texts, &made, &edits_fault),
          !made.is_full && is_about(edits_fault, 9, 9, 0) && holds(&server, 1, "ab\ncd"));
    CHECK(made.is_full);
    laspidru_handle_free(&made);
    AGAIN(served_message(&server, 7, edits, 2, texts, &made, &fault, &len),
          !made.is_full && len == 9 && fault.change == 9 && holds(&server, 1, "ab\ncd"));
    CHECK(made.is_full && len != 9);
    laspidru_handle_free(&made);
    laspidru_handle_free(&server);
    CHECK(heap_blocks() == 0);
    return refusals;
}

static void test_refused(int (*run)(void)) {
    long number, requests;
    int met, all = 0;
    heap_refuse(0);
    CHECK(run() == 0);
    requests = heap_requests();
    for (number = 1; number <= requests; number++) {
        heap_refuse(number);
        met = run();
        CHECK(met <= 1);
        all += met;
    }
    /* A growth that is refused is asked for again with less room, so some calls succeed all the same. */
    CHECK(all > 0);
    printf("%ld requests, each refused in turn, of which %d calls report\n", requests, all);
    heap_refuse(0);
}
