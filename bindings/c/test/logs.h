/* The test of the commands on logs. test.c includes it. */

static const laspidru_log_settings log_settings = {.max_body = 4096, .max_text = 64, .max_docs = 2, .max_changes = 4, .encoding = LASPIDRU_UTF8};
static const char change_b[] = "{\"jsonrpc\":\"2.0\",\"method\":\"textDocument/didChange\",\"params\":{\"textDocument\":"
                               "{\"uri\":\"file:///a\",\"version\":8},\"contentChanges\":[{\"range\":{\"start\":"
                               "{\"line\":0,\"character\":0},\"end\":{\"line\":0,\"character\":0}},\"text\":\"!\"}]}}";
/* A message of no change, which has a note. */
#define EMPTY(version) \
    "{\"jsonrpc\":\"2.0\",\"method\":\"textDocument/didChange\",\"params\":{\"textDocument\":" \
    "{\"uri\":\"file:///a\",\"version\":" version "},\"contentChanges\":[]}}"
static const char open_b[] = "{\"jsonrpc\":\"2.0\",\"method\":\"textDocument/didOpen\",\"params\":{\"textDocument\":"
                             "{\"uri\":\"file:///b\",\"languageId\":\"c\",\"version\":1,\"text\":\"\"}}}";
static const char canonical_a[] = "{\"jsonrpc\":\"2.0\",\"method\":\"textDocument/didChange\",\"params\":{\"contentChanges\":["
                                  "{\"range\":{\"end\":{\"character\":1,\"line\":1},\"start\":{\"character\":0,\"line\":1}},"
                                  "\"text\":\"XY\"}],\"textDocument\":{\"uri\":\"file:///a\",\"version\":7}}}";
static const char canonical_b[] = "{\"jsonrpc\":\"2.0\",\"method\":\"textDocument/didChange\",\"params\":{\"contentChanges\":["
                                  "{\"range\":{\"end\":{\"character\":0,\"line\":0},\"start\":{\"character\":0,\"line\":0}},"
                                  "\"text\":\"!\"}],\"textDocument\":{\"uri\":\"file:///a\",\"version\":8}}}";
static const char canonical_both[] = "{\"jsonrpc\":\"2.0\",\"method\":\"textDocument/didChange\",\"params\":{\"contentChanges\":["
                                     "{\"range\":{\"end\":{\"character\":1,\"line\":1},\"start\":{\"character\":0,\"line\":1}},"
                                     "\"text\":\"XY\"},{\"range\":{\"end\":{\"character\":0,\"line\":0},\"start\":"
                                     "{\"character\":0,\"line\":0}},\"text\":\"!\"}],\"textDocument\":{\"uri\":\"file:///a\","
                                     "\"version\":8}}}";
static const char capabilities[] = "{\"id\":1,\"jsonrpc\":\"2.0\",\"result\":{\"capabilities\":{\"positionEncoding\":\"utf-8\","
                                   "\"textDocumentSync\":{\"change\":2,\"openClose\":true}}}}";

/* Bytes that are put together. */
typedef struct {
    unsigned char bytes[8192];
    laspidru_size len;
} part;

static void add(part *it, const char *text) {
    while (*text)
        it->bytes[it->len++] = (unsigned char)*text++;
}

static void add_number(part *it, laspidru_size number) {
    if (number > 9)
        add_number(it, number / 10);
    it->bytes[it->len++] = (unsigned char)('0' + number % 10);
}

static void add_frame(part *it, const char *mark, const char *body) {
    add(it, mark);
    add(it, "Content-Length: ");
    add_number(it, strlen(body));
    add(it, "\r\n\r\n");
    add(it, body);
}

static part log_of(const char *const *bodies) {
    part log = {{0}, 0};
    while (*bodies)
        add_frame(&log, "", *bodies++);
    return log;
}

static part text_part(const char *text) {
    part it = {{0}, 0};
    add(&it, text);
    return it;
}

static laspidru_u32 run_log(laspidru_handle *output, laspidru_u32 command, const laspidru_log_settings *how, part log, laspidru_ending *ending) {
    return laspidru_log_run(output, command, how, bytes(uri_a), how->has_uri ? 9 : 0, log.bytes, log.len, ending);
}

static laspidru_u32 compare_log(laspidru_handle *output, const laspidru_log_settings *how, const char *uri, const char *saved, part log,
                                laspidru_ending *ending) {
    return laspidru_log_compare(output, how, bytes(uri), strlen(uri), bytes(saved), strlen(saved), log.bytes, log.len, ending);
}

/* Whether a call has filled a handle with these bytes. Empties it. */
static int has_output(laspidru_handle *output, part wanted, laspidru_ending ending) {
    static unsigned char out[8192];
    laspidru_size copied = 99;
    int is_right = output->is_full && ending.output_len == wanted.len &&
                   laspidru_output_copy(output, 0, out, sizeof out, &copied) == LASPIDRU_OK && copied == wanted.len &&
                   memcmp(out, wanted.bytes, copied) == 0;
    laspidru_handle_free(output);
    return is_right;
}

/* Runs a command, and whether it returns this code and writes these bytes. */
static int writes(laspidru_u32 command, const laspidru_log_settings *how, part log, laspidru_u32 code, part wanted, laspidru_ending *ending) {
    laspidru_handle output = {0};
    return run_log(&output, command, how, log, ending) == code && has_output(&output, wanted, *ending);
}

/* Compares with a saved text, and whether it returns this code and writes these words. */
static int compares(const char *uri, const char *saved, part log, laspidru_u32 code, const char *wanted, laspidru_ending *ending) {
    laspidru_handle output = {0};
    return compare_log(&output, &log_settings, uri, saved, log, ending) == code && has_output(&output, text_part(wanted), *ending);
}

static int is_outcome(laspidru_ending it, laspidru_u32 status, laspidru_u64 messages, laspidru_u64 refused) {
    return it.status == status && it.messages == messages && it.refused == refused && it.frame == 0 && it.offset == 0 && it.missing == 0;
}

static int is_fault(laspidru_ending it, laspidru_u32 frame, laspidru_u64 offset) {
    return it.status == 0 && it.messages == 0 && it.refused == 0 && it.frame == frame && it.offset == offset && it.missing == 0;
}

static void test_logs(void) {
    static const char *const session[] = {initialize, open_a, change_a, change_b, 0};
    static const char *const stale[] = {initialize, open_a, change_a, change_a, 0};
    static const char *const normal[] = {initialize, open_a, canonical_a, canonical_b, 0};
    static const char *const squashed[] = {initialize, open_a, canonical_both, 0};
    part log = log_of(session), wanted = text_part("lsp-session-log 2\n");
    laspidru_log_settings squashing = log_settings, lenient = log_settings;
    laspidru_ending ending = {9, 9, 9, 9, 9, 9, 9};
    squashing.squash = lenient.lenient = 1;
    CHECK(writes(LASPIDRU_CHECK, &log_settings, log, LASPIDRU_OK, text_part("1 reply\n2 changed\n3 changed\n4 changed\n"), &ending));
    CHECK(is_outcome(ending, 0, 4, 0));
    CHECK(writes(LASPIDRU_CHECK, &log_settings, log_of(stale), LASPIDRU_OK,
                 text_part("1 reply\n2 changed\n3 changed\n4 refused S5\n"), &ending));
    CHECK(is_outcome(ending, 1, 4, 1));
    CHECK(writes(LASPIDRU_CHECK, &lenient, log_of(stale), LASPIDRU_OK,
                 text_part("1 reply\n2 changed\n3 changed\n4 changed\n"), &ending));
    CHECK(writes(LASPIDRU_REPLAY, &log_settings, log, LASPIDRU_OK,
                 text_part("{\"languageId\":\"c\",\"text\":\"!ab\\nXYd\",\"uri\":\"file:///a\",\"version\":8}\n"), &ending));
    CHECK(is_outcome(ending, 0, 4, 0));
    CHECK(writes(LASPIDRU_NORMALISE, &log_settings, log, LASPIDRU_OK, log_of(normal), &ending) && is_outcome(ending, 0, 4, 0));
    CHECK(writes(LASPIDRU_NORMALISE, &squashing, log, LASPIDRU_OK, log_of(squashed), &ending) && is_outcome(ending, 0, 4, 0));
    add_frame(&wanted, ">", initialize);
    add_frame(&wanted, "<", capabilities);
    add_frame(&wanted, ">", open_a);
    add_frame(&wanted, ">", change_a);
    add_frame(&wanted, ">", change_b);
    CHECK(writes(LASPIDRU_CONVERT, &log_settings, log, LASPIDRU_OK, wanted, &ending) && is_outcome(ending, 0, 4, 0));
    CHECK(writes(LASPIDRU_CHECK, &log_settings, text_part(""), LASPIDRU_OK, text_part(""), &ending) && is_outcome(ending, 0, 0, 0));
}

/* What single commands have beside the limits. */
static void test_log_options(void) {
    static const char save[] = "{\"jsonrpc\":\"2.0\",\"method\":\"a/b\"}";
    static const char *const session[] = {initialize, open_a, save, change_a, change_b, 0};
    static const char *const kept[] = {initialize, open_a, canonical_a, canonical_b, 0};
    static const char *const stale[] = {initialize, open_a, change_a, change_a, 0};
    part log = log_of(session), out = {{0}, 0};
    laspidru_log_settings part_of = log_settings, documents = log_settings, texts = log_settings, bodies = log_settings;
    laspidru_ending ending = {9, 9, 9, 9, 9, 9, 9};
    laspidru_handle output = {0};
    laspidru_size plain, with_texts, copied = 0;
    documents.documents = texts.texts = bodies.bodies = part_of.has_uri = 1;
    CHECK(writes(LASPIDRU_NORMALISE, &documents, log, LASPIDRU_OK, log_of(kept), &ending) && is_outcome(ending, 0, 4, 0));
    part_of.at = 4;
    CHECK(writes(LASPIDRU_REPLAY, &part_of, log, LASPIDRU_OK, text_part("ab\nXYd"), &ending) && is_outcome(ending, 0, 4, 0));
    part_of.at = 0;
    CHECK(writes(LASPIDRU_REPLAY, &part_of, log, LASPIDRU_OK, text_part("!ab\nXYd"), &ending) && is_outcome(ending, 0, 5, 0));
    part_of.has_uri = 0;
    part_of.at = 2;
    CHECK(writes(LASPIDRU_REPLAY, &part_of, log, LASPIDRU_OK,
                 text_part("{\"languageId\":\"c\",\"text\":\"ab\\ncd\",\"uri\":\"file:///a\",\"version\":1}\n"), &ending));
    part_of.at = 9;
    CHECK(writes(LASPIDRU_REPLAY, &part_of, log, LASPIDRU_OK, text_part(""), &ending) && ending.status == 1 && ending.missing == LASPIDRU_OUT_OF_RANGE);
    part_of.at = 0;
    part_of.has_uri = 1;
    CHECK(laspidru_log_run(&output, LASPIDRU_REPLAY, &part_of, bytes("b"), 1, log.bytes, log.len, &ending) == LASPIDRU_OK);
    CHECK(ending.status == 1 && ending.missing == LASPIDRU_NOT_OPEN && ending.output_len == 0);
    laspidru_handle_free(&output);
    /* A line for each record; with texts and bodies longer ones. */
    CHECK(run_log(&output, LASPIDRU_TRACE, &log_settings, log, &ending) == LASPIDRU_OK && is_outcome(ending, 0, 5, 0));
    plain = ending.output_len;
    CHECK(laspidru_output_copy(&output, 0, out.bytes, sizeof out.bytes, &copied) == LASPIDRU_OK && copied == plain && out.bytes[0] == '{');
    laspidru_handle_free(&output);
    CHECK(run_log(&output, LASPIDRU_TRACE, &texts, log, &ending) == LASPIDRU_OK && ending.output_len > plain);
    with_texts = ending.output_len;
    laspidru_handle_free(&output);
    CHECK(run_log(&output, LASPIDRU_TRACE, &bodies, log, &ending) == LASPIDRU_OK && ending.output_len > with_texts);
    laspidru_handle_free(&output);
    CHECK(run_log(&output, LASPIDRU_EXPLAIN, &log_settings, log_of(stale), &ending) == LASPIDRU_OK && is_outcome(ending, 1, 4, 1));
    CHECK(laspidru_output_copy(&output, 0, out.bytes, 40, &copied) == LASPIDRU_OK && memcmp(out.bytes, "1 reply\n2 changed\n", 18) == 0);
    CHECK(ending.output_len > 40);
    laspidru_handle_free(&output);
}

/* Whether the output of `explain` begins so. */
static int explains(const laspidru_log_settings *how, part log, const char *begins) {
    unsigned char out[256];
    laspidru_handle output = {0};
    laspidru_ending ending = {9, 9, 9, 9, 9, 9, 9};
    laspidru_size copied = 0;
    int is_right = run_log(&output, LASPIDRU_EXPLAIN, how, log, &ending) == LASPIDRU_OK && ending.status == 1 &&
                   laspidru_output_copy(&output, 0, out, strlen(begins), &copied) == LASPIDRU_OK &&
                   copied == strlen(begins) && memcmp(out, begins, copied) == 0;
    laspidru_handle_free(&output);
    return is_right;
}

#define NOTED(number) number " changed of \"file:///a\": it has no changes\n"

/* Which lines and notes `explain` has: a fourth note of a kind is a habit. */
static void test_log_listing(void) {
    static const char *const session[] = {initialize, open_a, EMPTY("7"), EMPTY("8"), EMPTY("9"), EMPTY("10"), EMPTY("11"), change_a, 0};
    laspidru_log_settings brief = log_settings, all = log_settings;
    brief.brief = all.all = 1;
    CHECK(explains(&log_settings, log_of(session), "1 reply\n2 changed\n" NOTED("3") NOTED("4") NOTED("5") "6 changed\n7 changed\n"));
    CHECK(explains(&all, log_of(session), "1 reply\n2 changed\n" NOTED("3") NOTED("4") NOTED("5") NOTED("6") "7 changed of "));
    CHECK(explains(&brief, log_of(session), NOTED("3") NOTED("4") NOTED("5") "8 refused S5 of "));
}

static void test_compare(void) {
    static const char *const session[] = {initialize, open_a, change_a, change_b, 0};
    static const char *const stale[] = {initialize, open_a, change_a, change_a, 0};
    static const char *const two[] = {initialize, open_a, open_b, 0};
    part log = log_of(session), cut = log;
    laspidru_ending ending = {9, 9, 9, 9, 9, 9, 9};
    CHECK(compares("/a", "!ab\nXYd", log, LASPIDRU_OK, "\"file:///a\" after message 4: the text is the file's\n", &ending));
    CHECK(is_outcome(ending, 0, 4, 0));
    CHECK(compares("", "!ab\r\nXYd", log, LASPIDRU_OK,
                   "\"file:///a\" after message 4: the text is the file's, but for\n  line ends, the first of them made by message 2\n", &ending));
    CHECK(is_outcome(ending, 1, 4, 0));
    CHECK(compares("file:///a", "!ab\nXY", log, LASPIDRU_OK,
                   "\"file:///a\" after message 4: the text is not the file's:\nline 2 (made by messages 2, 3): \"XYd\"\n"
                   "  the file, which differs from character 3 on, has: \"XY\"\n"
                   "For each line, a message named is wrong, a later one is missing or wrong, or an earlier mistake led it to the wrong line. Look at the lowest numbers after the opening first.\n", &ending));
    CHECK(is_outcome(ending, 1, 4, 0));
    CHECK(compares("a", "ab\nXYd", log_of(stale), LASPIDRU_OK, "\"file:///a\" after message 3: the text is the file's\n", &ending));
    CHECK(is_outcome(ending, 0, 4, 1));
    CHECK(compares("", "", log_of(two), LASPIDRU_OK,
                   "more than one document ends so; `--uri` names one:\n\"file:///a\"\n\"file:///b\"\n", &ending));
    CHECK(is_outcome(ending, 1, 3, 0));
    CHECK(compares("/b", "", log_of(two), LASPIDRU_OK, "\"file:///b\" after message 3: the text is the file's\n", &ending));
    CHECK(compares("b", "", log, LASPIDRU_OK, "", &ending) && ending.status == 1 && ending.missing == LASPIDRU_NOT_OPEN);
    add(&cut, "Content-Length: 5\r\n\r\nabcd");
    CHECK(compares("/a", "", cut, LASPIDRU_CUT, "", &ending) && is_fault(ending, 0, cut.len));
    cut = log;
    add(&cut, "Content-Length 2");
    CHECK(compares("/a", "", cut, LASPIDRU_BAD_FRAME, "", &ending) && is_fault(ending, 1, log.len + 14));
    cut = text_part("lsp-session-log 2\n?");
    CHECK(compares("/a", "", cut, LASPIDRU_BAD_LOG, "", &ending) && is_fault(ending, 0, 18));
}

/* Each refusal of a comparison comes before the next one, and writes nothing. */
static void test_compare_refused(void) {
    static const char *const session[] = {initialize, open_a, 0};
    laspidru_log_settings how = log_settings;
    laspidru_ending ending = {9, 9, 9, 9, 9, 9, 9};
    laspidru_handle output = {0};
    part log = log_of(session);
    how.encoding = 7;
    how.max_body = 4095;
    how.max_text = 1073741825;
    how.max_docs = how.max_changes = 0;
    CHECK(run_log(&output, LASPIDRU_CHECK, &log_settings, log, &ending) == LASPIDRU_OK);
    ending.output_len = 9;
    CHECK(compare_log(&output, &how, "\xff", "\xff", log, &ending) == LASPIDRU_IN_USE && output.is_full);
    laspidru_handle_free(&output);
    CHECK(compare_log(&output, &how, "\xff", "", log, &ending) == LASPIDRU_NOT_UTF8);
    CHECK(compare_log(&output, &how, "", "\xff", log, &ending) == LASPIDRU_NOT_UTF8);
    CHECK(compare_log(&output, &how, "", "", log, &ending) == LASPIDRU_BAD_ENCODING);
    how.encoding = LASPIDRU_UTF32;
    CHECK(compare_log(&output, &how, "", "", log, &ending) == LASPIDRU_BAD_MAX_BODY);
    how.max_body = 4096;
    CHECK(compare_log(&output, &how, "", "", log, &ending) == LASPIDRU_BAD_MAX_TEXT);
    how.max_text = 0;
    CHECK(compare_log(&output, &how, "", "", log, &ending) == LASPIDRU_BAD_MAX_DOCS);
    how.max_docs = 1;
    CHECK(compare_log(&output, &how, "", "", log, &ending) == LASPIDRU_BAD_MAX_CHANGES);
    CHECK(!output.is_full && ending.output_len == 9);
}

static void test_log_faults(void) {
    static const char *const session[] = {initialize, open_a, 0};
    static const char lines[] = "1 reply\n2 changed\n";
    laspidru_log_settings long_texts = log_settings;
    static char long_change[4097];
    part log = log_of(session), cut = log;
    laspidru_ending ending = {9, 9, 9, 9, 9, 9, 9};
    laspidru_size offset = log.len, at;
    long_texts.max_text = 8192;
    add(&cut, "Content-Length: 5\r\n\r\nabcd");
    CHECK(writes(LASPIDRU_CHECK, &log_settings, cut, LASPIDRU_CUT, text_part(lines), &ending) && is_fault(ending, 0, cut.len));
    CHECK(writes(LASPIDRU_REPLAY, &log_settings, cut, LASPIDRU_CUT, text_part(""), &ending) && is_fault(ending, 0, cut.len));
    CHECK(writes(LASPIDRU_NORMALISE, &log_settings, cut, LASPIDRU_CUT, log, &ending) && is_fault(ending, 0, cut.len));
    cut = log;
    add(&cut, "Content-Length 2");
    CHECK(writes(LASPIDRU_CHECK, &log_settings, cut, LASPIDRU_BAD_FRAME, text_part(lines), &ending) && is_fault(ending, 1, offset + 14));
    cut = log;
    add(&cut, "Content-Length: 4097\r\n\r\n");
    CHECK(writes(LASPIDRU_CHECK, &log_settings, cut, LASPIDRU_BAD_FRAME, text_part(lines), &ending) && ending.frame == 6);
    cut = text_part("lsp-session-log 2\n");
    CHECK(writes(LASPIDRU_CONVERT, &log_settings, cut, LASPIDRU_BAD_LOG, text_part(""), &ending) && is_fault(ending, 0, 0));
    CHECK(writes(LASPIDRU_NORMALISE, &log_settings, cut, LASPIDRU_OK, cut, &ending) && is_outcome(ending, 0, 0, 0));
    add(&cut, "?");
    CHECK(writes(LASPIDRU_CHECK, &log_settings, cut, LASPIDRU_BAD_LOG, text_part(""), &ending) && is_fault(ending, 0, 18));
    /* A whole text: with its range the canonical body is longer than 4,096 bytes. */
    cut = text_part("{\"jsonrpc\":\"2.0\",\"method\":\"textDocument/didChange\",\"params\":{\"textDocument\":"
                    "{\"uri\":\"file:///a\",\"version\":7},\"contentChanges\":[{\"text\":\"");
    while (cut.len < 4090)
        add(&cut, "x");
    add(&cut, "\"}]}}");
    for (at = 0; at < cut.len; at++)
        long_change[at] = (char)cut.bytes[at];
    cut = log;
    add_frame(&cut, "", long_change);
    CHECK(writes(LASPIDRU_NORMALISE, &long_texts, cut, LASPIDRU_BODY_TOO_LONG, log, &ending) && is_fault(ending, 0, offset));
}
