"""What laspidru.h declares, as tools/declared makes it."""
# declared:
NUMBERS = {"OK": 0, "NOT_UTF8": 1, "OUT_OF_MEMORY": 2, "IN_USE": 3, "EMPTY": 4, "TOO_LONG": 5, "INSIDE_CHARACTER": 6,
           "REVERSED_RANGE": 7, "BAD_ENCODING": 8, "BAD_LENGTH": 9, "OTHER_KIND": 10, "OUT_OF_RANGE": 11, "BAD_MAX_BODY": 12,
           "ENDED": 13, "NOT_OPEN": 14, "ALREADY_OPEN": 15, "TOO_MANY_DOCUMENTS": 16, "STALE_VERSION": 17, "TOO_MANY_CHANGES": 18,
           "INVALID_PARAMS": 19, "CUT": 20, "BAD_FRAME": 21, "BODY_TOO_LONG": 22, "BAD_LOG": 23, "TOO_MANY_TURNS": 24,
           "OVERLAP": 25, "FAILED": 26, "NO_MESSAGE": 27, "WRONG_PHASE": 28, "NOT_AN_ANSWER": 29, "ERROR_ANSWER": 30,
           "NO_SYNC": 31, "BAD_MAX_TEXT": 32, "BAD_MAX_DOCS": 33, "BAD_MAX_CHANGES": 34, "NO_DOCUMENT": 35, "REPLIED": 0,
           "CHANGED": 1, "DROPPED": 2, "IGNORED": 3, "REFUSED": 4, "EXITED": 5, "NOTED": 6, "BAD_SERVER": 7, "PHASE_NEW": 0,
           "PHASE_ASKED": 1, "PHASE_READY": 2, "PHASE_CLOSING": 3, "PHASE_CLOSED": 4, "PHASE_DONE": 5, "PHASE_FAILED": 6,
           "CHECK": 0, "EXPLAIN": 1, "TRACE": 2, "REPLAY": 3, "NORMALISE": 4, "CONVERT": 5, "UTF8": 8, "UTF16": 16, "UTF32": 32}
DECLARED = """
typedef struct { void *pointer; bool is_full; } laspidru_handle;
typedef struct { uint32_t line, character; } laspidru_position;
typedef struct { laspidru_position start, end; size_t len; bool is_whole; } laspidru_edit;
typedef struct { size_t change; bool at_end; } laspidru_fault;
typedef struct { size_t edit, other; bool at_end; } laspidru_edits_fault;
typedef struct { size_t start, end; } laspidru_line;
typedef struct { size_t bytes, lines; } laspidru_length;
typedef struct { size_t max_body, max_text, max_docs, max_changes; uint32_t encoding; bool is_fixed, whole_texts, lenient;
    } laspidru_settings;
typedef struct { uint32_t kind, reason, status; int32_t error; size_t reply_len; } laspidru_answer;
typedef struct { size_t bytes, body_len; uint64_t offset; uint32_t frame; bool is_whole; } laspidru_taken;
typedef struct { size_t max_body, max_text, max_docs, max_changes; bool utf8, utf32, lenient; } laspidru_client_settings;
typedef struct { uint32_t phase, reason, encoding; size_t documents; } laspidru_state;
typedef struct { int32_t version; size_t bytes; } laspidru_opened;
typedef struct { size_t max_body, max_text, max_docs, max_changes; uint64_t at; uint32_t encoding; bool lenient, squash,
    documents, texts, bodies, has_uri, brief, all; } laspidru_log_settings;
typedef struct { uint32_t status, frame, missing; uint64_t messages, refused, offset; size_t output_len; } laspidru_ending;
uint32_t laspidru_version(void);
uint32_t laspidru_code_text(uint32_t code, size_t start, unsigned char *out, size_t out_len, size_t *copied);
uint32_t laspidru_document_new(laspidru_handle *document, const unsigned char *text, size_t text_len);
void laspidru_handle_free(laspidru_handle *handle);
uint32_t laspidru_document_change(laspidru_handle *document, uint32_t encoding, const laspidru_edit *edits, size_t edits_len,
    const unsigned char *texts, size_t texts_len, laspidru_fault *fault);
uint32_t laspidru_document_size(laspidru_handle *document, laspidru_length *length);
uint32_t laspidru_document_line(laspidru_handle *document, uint32_t line, laspidru_line *range);
uint32_t laspidru_document_copy(laspidru_handle *document, size_t start, unsigned char *out, size_t out_len, size_t *copied);
uint32_t laspidru_document_offset(laspidru_handle *document, uint32_t encoding, laspidru_position position, size_t *offset);
uint32_t laspidru_document_position(laspidru_handle *document, uint32_t encoding, size_t offset, laspidru_position *position);
uint32_t laspidru_document_canonical(laspidru_handle *document, uint32_t encoding, const laspidru_edit *edits, size_t edits_len,
    const unsigned char *texts, size_t texts_len, laspidru_handle *batch, laspidru_fault *fault);
uint32_t laspidru_document_apply_edits(laspidru_handle *document, uint32_t encoding, const laspidru_edit *edits, size_t edits_len,
    const unsigned char *texts, size_t texts_len, laspidru_edits_fault *fault);
uint32_t laspidru_document_batch_of_edits(laspidru_handle *document, uint32_t encoding, const laspidru_edit *edits,
    size_t edits_len, const unsigned char *texts, size_t texts_len, laspidru_handle *batch, laspidru_edits_fault *fault);
uint32_t laspidru_batch_len(laspidru_handle *batch, size_t *len);
uint32_t laspidru_batch_edit(laspidru_handle *batch, size_t index, laspidru_edit *edit, unsigned char *out, size_t out_len,
    size_t *copied);
uint32_t laspidru_framer_new(laspidru_handle *framer, size_t max_body);
uint32_t laspidru_framer_feed(laspidru_handle *framer, const unsigned char *piece, size_t piece_len, laspidru_taken *taken);
uint32_t laspidru_framer_body(laspidru_handle *framer, size_t start, unsigned char *out, size_t out_len, size_t *copied);
uint32_t laspidru_framer_next(laspidru_handle *framer);
uint32_t laspidru_framer_at_rest(laspidru_handle *framer, bool *at_rest);
uint32_t laspidru_server_new(laspidru_handle *server, const laspidru_settings *settings);
uint32_t laspidru_client_new(laspidru_handle *client, const laspidru_client_settings *settings);
uint32_t laspidru_client_start(laspidru_handle *client, size_t *frame_len);
uint32_t laspidru_client_did_open(laspidru_handle *client, const unsigned char *uri, size_t uri_len,
    const unsigned char *language, size_t language_len, int32_t version, const unsigned char *text, size_t text_len,
    size_t *frame_len);
uint32_t laspidru_client_did_change(laspidru_handle *client, const unsigned char *uri, size_t uri_len, int32_t version,
    const laspidru_edit *edits, size_t edits_len, const unsigned char *texts, size_t texts_len, laspidru_fault *fault,
    size_t *frame_len);
uint32_t laspidru_client_did_close(laspidru_handle *client, const unsigned char *uri, size_t uri_len, size_t *frame_len);
uint32_t laspidru_client_shutdown(laspidru_handle *client, size_t *frame_len);
uint32_t laspidru_client_exit(laspidru_handle *client, size_t *frame_len);
uint32_t laspidru_session_feed(laspidru_handle *session, const unsigned char *piece, size_t piece_len, laspidru_taken *taken,
    laspidru_answer *answer);
uint32_t laspidru_session_body(laspidru_handle *session, size_t start, unsigned char *out, size_t out_len, size_t *copied);
uint32_t laspidru_session_deliver(laspidru_handle *session, const unsigned char *body, size_t body_len, laspidru_answer *answer);
uint32_t laspidru_session_frame(laspidru_handle *session, size_t start, unsigned char *out, size_t out_len, size_t *copied);
uint32_t laspidru_session_state(laspidru_handle *session, laspidru_state *state);
uint32_t laspidru_message_uri(const unsigned char *body, size_t body_len, size_t start, unsigned char *out, size_t out_len,
    size_t *copied);
uint32_t laspidru_session_document_state(laspidru_handle *session, const unsigned char *uri, size_t uri_len,
    laspidru_opened *document);
uint32_t laspidru_session_document_text(laspidru_handle *session, const unsigned char *uri, size_t uri_len, size_t start,
    unsigned char *out, size_t out_len, size_t *copied);
uint32_t laspidru_session_document_offset(laspidru_handle *session, const unsigned char *uri, size_t uri_len, uint32_t encoding,
    laspidru_position position, size_t *offset);
uint32_t laspidru_session_document_position(laspidru_handle *session, const unsigned char *uri, size_t uri_len, uint32_t encoding,
    size_t offset, laspidru_position *position);
uint32_t laspidru_session_document_line(laspidru_handle *session, const unsigned char *uri, size_t uri_len, uint32_t line,
    laspidru_line *range);
uint32_t laspidru_session_document_batch_of_edits(laspidru_handle *session, const unsigned char *uri, size_t uri_len,
    uint32_t encoding, const laspidru_edit *edits, size_t edits_len, const unsigned char *texts, size_t texts_len,
    laspidru_handle *batch, laspidru_edits_fault *fault);
uint32_t laspidru_session_document_canonical_message(laspidru_handle *session, const unsigned char *uri, size_t uri_len,
    int32_t version, uint32_t encoding, const laspidru_edit *edits, size_t edits_len, const unsigned char *texts,
    size_t texts_len, laspidru_handle *output, laspidru_fault *fault, size_t *frame_len);
uint32_t laspidru_log_run(laspidru_handle *output, uint32_t command, const laspidru_log_settings *settings,
    const unsigned char *uri, size_t uri_len, const unsigned char *log, size_t log_len, laspidru_ending *ending);
uint32_t laspidru_log_compare(laspidru_handle *output, const laspidru_log_settings *settings, const unsigned char *uri,
    size_t uri_len, const unsigned char *saved, size_t saved_len, const unsigned char *log, size_t log_len,
    laspidru_ending *ending);
uint32_t laspidru_output_copy(laspidru_handle *output, size_t start, unsigned char *out, size_t out_len, size_t *copied);
"""
# end of declared
