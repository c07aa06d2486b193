/* The test of documents and of canonical batches: each call once with its result, and each struct that a refusal writes. (Which call is refused
   by which code is proved.) test.c includes it. */

static void test_documents(void) {
    laspidru_handle document = {0};
    laspidru_position place = {5, 5};
    laspidru_line range = {77, 77};
    laspidru_length length = {7, 7};
    unsigned char out[5] = "----";
    laspidru_size copied = 9, offset = 77;
    CHECK(laspidru_document_size(&document, &length) == LASPIDRU_EMPTY && length.bytes == 7);
    CHECK(laspidru_document_new(&document, bytes("a\xff"), 2) == LASPIDRU_NOT_UTF8 && !document.is_full);
    CHECK(new_document(&document, sample) == LASPIDRU_OK && document.is_full);
    CHECK(new_document(&document, "x") == LASPIDRU_IN_USE && has_text(&document, sample));
    CHECK(laspidru_document_size(&document, &length) == LASPIDRU_OK && length.bytes == 8 && length.lines == 2);
    CHECK(laspidru_document_copy(&document, 9, out, 4, &copied) == LASPIDRU_OUT_OF_RANGE && copied == 9 && out[0] == '-');
    CHECK(laspidru_document_copy(&document, 1, out, 3, &copied) == LASPIDRU_OK && copied == 3 && memcmp(out, "\r\nb-", 4) == 0);
    CHECK(laspidru_document_line(&document, 1, &range) == LASPIDRU_OK && range.start == 3 && range.end == 8);
    CHECK(laspidru_document_offset(&document, LASPIDRU_UTF16, (laspidru_position){1, 3}, &offset) == LASPIDRU_OK && offset == 8);
    CHECK(laspidru_document_offset(&document, LASPIDRU_UTF16, (laspidru_position){1, 2}, &offset) == LASPIDRU_INSIDE_CHARACTER && offset == 8);
    CHECK(laspidru_document_position(&document, LASPIDRU_UTF8, 8, &place) == LASPIDRU_OK && place.line == 1 && place.character == 5);
    CHECK(laspidru_document_position(&document, LASPIDRU_UTF32, 8, &place) == LASPIDRU_OK && place.character == 2);
    laspidru_handle_free(&document);
    CHECK(!document.is_full);
    laspidru_handle_free(&document);
}

static void test_change(void) {
    laspidru_handle document = {0}, batch = {0};
    laspidru_fault fault = {9, 0};
    laspidru_edit both[2] = {{{1, 0}, {1, 1}, 2, 0}, {{0, 0}, {0, 0}, 1, 0}}, found = {{7, 7}, {7, 7}, 7, 1};
    laspidru_edit inside[2] = {{{0, 0}, {0, 0}, 1, 0}, {{1, 1}, {1, 2}, 0, 0}};
    laspidru_edit whole = {{4, 4}, {0, 0}, 3, 1};
    unsigned char out[9] = "--------";
    laspidru_size len = 9, copied = 9;
    CHECK(new_document(&document, sample) == LASPIDRU_OK);
    CHECK(laspidru_document_change(&document, LASPIDRU_UTF16, inside, 2, bytes("Z"), 1, &fault) == LASPIDRU_INSIDE_CHARACTER);
    CHECK(fault.change == 1 && fault.at_end && has_text(&document, sample));
    CHECK(laspidru_document_canonical(&document, LASPIDRU_UTF16, both, 2, bytes("XYQ"), 3, &batch, &fault) == LASPIDRU_OK);
    CHECK(has_text(&document, sample) && laspidru_batch_len(&batch, &len) == LASPIDRU_OK && len == 2);
    CHECK(laspidru_batch_edit(&batch, 2, &found, out, 8, &copied) == LASPIDRU_OUT_OF_RANGE && found.len == 7 && copied == 9);
    CHECK(laspidru_batch_edit(&batch, 0, &found, out, 8, &copied) == LASPIDRU_OK && found.len == 2 && !found.is_whole);
    CHECK(found.start.line == 1 && found.start.character == 0 && found.end.line == 1 && found.end.character == 1);
    CHECK(copied == 2 && memcmp(out, "XY------", 8) == 0);
    laspidru_handle_free(&batch);
    CHECK(laspidru_document_change(&document, LASPIDRU_UTF16, both, 2, bytes("XYQ"), 3, &fault) == LASPIDRU_OK);
    CHECK(has_text(&document, "Qa\r\nXY\xf0\x9f\x98\x80"));
    CHECK(laspidru_document_change(&document, LASPIDRU_UTF16, &whole, 1, bytes("new"), 3, &fault) == LASPIDRU_OK);
    CHECK(has_text(&document, "new"));
    laspidru_handle_free(&document);
}

static laspidru_u32 apply(laspidru_handle *document, const laspidru_edit *edits, laspidru_size count, const char *texts,
                          laspidru_edits_fault *fault) {
    return laspidru_document_apply_edits(document, LASPIDRU_UTF16, edits, count, bytes(texts), strlen(texts), fault);
}

static int is_about(laspidru_edits_fault fault, laspidru_size edit, laspidru_size other, int at_end) {
    return fault.edit == edit && fault.other == other && fault.at_end == at_end;
}

static void test_edits(void) {
    laspidru_handle document = {0}, batch = {0};
    laspidru_edits_fault fault = {9, 9, 0};
    /* In order as changes these would leave "12bc". */
    laspidru_edit two[2] = {{{0, 0}, {0, 0}, 1, 0}, {{0, 1}, {0, 2}, 1, 0}}, found = {{7, 7}, {7, 7}, 7, 1};
    laspidru_edit inside[2] = {{{0, 0}, {0, 0}, 1, 0}, {{0, 4}, {0, 5}, 0, 0}};
    unsigned char out[4] = "---";
    laspidru_size len = 9, copied = 9;
    CHECK(new_document(&document, "abc\xf0\x9f\x98\x80") == LASPIDRU_OK);
    CHECK(apply(&document, inside, 2, "Z", &fault) == LASPIDRU_INSIDE_CHARACTER && is_about(fault, 1, 0, 0));
    CHECK(laspidru_document_batch_of_edits(&document, LASPIDRU_UTF16, two, 2, bytes("12"), 2, &batch, &fault) == LASPIDRU_OK);
    CHECK(laspidru_batch_len(&batch, &len) == LASPIDRU_OK && len == 2);
    CHECK(laspidru_batch_edit(&batch, 0, &found, out, 3, &copied) == LASPIDRU_OK && copied == 1 && out[0] == '2' && found.start.character == 1);
    CHECK(apply(&document, two, 2, "12", &fault) == LASPIDRU_OK && has_text(&document, "1a2c\xf0\x9f\x98\x80"));
    laspidru_handle_free(&batch);
    laspidru_handle_free(&document);
}
