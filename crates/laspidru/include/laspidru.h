/* Copyright (c) 2026 The Laspidru authors. SPDX-License-Identifier: MIT OR Apache-2.0 */

/* Laspidru: texts that are kept as LSP 3.17 says, by a library that is proved. c.md has examples, CODES.md what the
   codes mean: both in share/doc/laspidru once installed (of Debian's package in share/doc/liblaspidru-dev). The end of
   this file has the codes of each function.

   Each function but laspidru_handle_free and laspidru_version tests the bytes, numbers and handles that it is passed, and
   returns a code. Pointers, lengths and bools are yours (CODES.md). Where the code isn't LASPIDRU_OK nothing has changed;
   only after the four faults of a log, 20 to 23, the output up to the fault is kept, after LASPIDRU_BAD_FRAME no more of a
   stream is taken, and laspidru_session_feed releases the message of before, and may have taken one that it couldn't handle
   yet.
   LASPIDRU_OUT_OF_MEMORY may come in place of LASPIDRU_OK, and of each code after it in the call's row.
   A handle of zeroes is empty. It is given to one call at a time, and never copied while it is full; it may be used
   by any thread. What a handle holds is freed by laspidru_handle_free. Pointers are never null, also where a length is 0. */
#ifndef LASPIDRU_H
#define LASPIDRU_H

#ifdef __cplusplus
extern "C" {
typedef bool laspidru_bool;
#else
typedef _Bool laspidru_bool;
#endif

typedef __SIZE_TYPE__ laspidru_size;
typedef __UINT32_TYPE__ laspidru_u32;
typedef __INT32_TYPE__ laspidru_i32;
typedef __UINT64_TYPE__ laspidru_u64;

/* The version of this header, as three numbers of two digits and as a text. */
#define LASPIDRU_VERSION_NUMBER 100
#define LASPIDRU_VERSION "0.1.0"

/* Codes. laspidru_code_text says what each means. */
enum {
    LASPIDRU_OK = 0,
    LASPIDRU_NOT_UTF8 = 1,
    LASPIDRU_OUT_OF_MEMORY = 2,
    LASPIDRU_IN_USE = 3,           /* the handle is not empty */
    LASPIDRU_EMPTY = 4,            /* the handle is empty */
    LASPIDRU_TOO_LONG = 5,         /* a text has more than 1,073,741,824 bytes or max_text, or a message to send more than max_body */
    LASPIDRU_INSIDE_CHARACTER = 6, /* a position or offset inside a character, or an offset between CR and LF or past the end */
    LASPIDRU_REVERSED_RANGE = 7,   /* a range starts after its end */
    LASPIDRU_BAD_ENCODING = 8,     /* not one of the encodings */
    LASPIDRU_BAD_LENGTH = 9,       /* the lengths of the edits exceed their texts */
    LASPIDRU_OTHER_KIND = 10,      /* the handle holds an object of another kind */
    LASPIDRU_OUT_OF_RANGE = 11,    /* no such line, offset, edit, record, command or code */
    LASPIDRU_BAD_MAX_BODY = 12,    /* max_body isn't 4,096 to 1,073,741,824 */
    LASPIDRU_ENDED = 13,           /* the session has ended */
    LASPIDRU_NOT_OPEN = 14,        /* no document of this URI is open */

    /* Of a client's calls; and as the reason of a refused notification, as are 5, 6, 7 and 14. */
    LASPIDRU_ALREADY_OPEN = 15,       /* a document of this URI is open already */
    LASPIDRU_TOO_MANY_DOCUMENTS = 16, /* as many documents are open as may be */
    LASPIDRU_STALE_VERSION = 17,      /* the version is not greater than the current one */
    LASPIDRU_TOO_MANY_CHANGES = 18,   /* too many changes, or too long ones */
    LASPIDRU_INVALID_PARAMS = 19,     /* only as a reason: the params are not those of the notification */

    /* Faults of a log, with their byte offset. The handle holds the output up to the fault. */
    LASPIDRU_CUT = 20,           /* the log ends inside a record */
    LASPIDRU_BAD_FRAME = 21,     /* the header of a frame is faulty: of a log, or of a stream that is taken */
    LASPIDRU_BODY_TOO_LONG = 22, /* the canonical message of a change has a longer body than max_body */
    LASPIDRU_BAD_LOG = 23,       /* what is there belongs in no log, or for LASPIDRU_CONVERT in none of version 1 */

    LASPIDRU_TOO_MANY_TURNS = 24, /* no call returns it: no log needs as many reads and writes */
    LASPIDRU_OVERLAP = 25,        /* two text edits overlap */
    LASPIDRU_FAILED = 26,         /* LASPIDRU_BAD_FRAME was returned of this stream before */
    LASPIDRU_NO_MESSAGE = 27,     /* no whole message is buffered */
    LASPIDRU_WRONG_PHASE = 28,    /* a client's call that isn't allowed in this phase */

    /* Only as the reason of LASPIDRU_BAD_SERVER, as is 8: an encoding that wasn't offered. */
    LASPIDRU_NOT_AN_ANSWER = 29,  /* no message, a response to no request of the client, or one that can't be read */
    LASPIDRU_ERROR_ANSWER = 30,   /* an error response to initialize or shutdown */
    LASPIDRU_NO_SYNC = 31,        /* the server doesn't want to be notified of documents, or of changes */

    LASPIDRU_BAD_MAX_TEXT = 32,    /* max_text is more than 1,073,741,824 */
    LASPIDRU_BAD_MAX_DOCS = 33,    /* max_docs isn't 1 to 65,536 */
    LASPIDRU_BAD_MAX_CHANGES = 34, /* max_changes isn't 1 to 1,048,576 */
    LASPIDRU_NO_DOCUMENT = 35      /* the message opens, changes and closes no document */
};

/* Kinds of a server's answer, and of a client's: REPLIED, IGNORED, NOTED or BAD_SERVER. */
enum {
    LASPIDRU_REPLIED = 0, /* there is a frame to send */
    LASPIDRU_CHANGED = 1, /* the open documents changed */
    LASPIDRU_DROPPED = 2, /* a notification before initialize or after shutdown */
    LASPIDRU_IGNORED = 3, /* a response, or a notification that is yours to handle */
    LASPIDRU_REFUSED = 4, /* a document notification that changed nothing */
    LASPIDRU_EXITED = 5,  /* the session ends, and the process is to end with a status */
    LASPIDRU_NOTED = 6,   /* the response to shutdown */
    LASPIDRU_BAD_SERVER = 7 /* the session can't continue; the documents stay */
};

/* Phases of a session. A server's are NEW, READY, CLOSED and DONE: New, Running, Down and Ended of docs/PROTOCOL.md. */
enum {
    LASPIDRU_PHASE_NEW = 0,     /* before initialize */
    LASPIDRU_PHASE_ASKED = 1,   /* initialize was sent */
    LASPIDRU_PHASE_READY = 2,   /* documents are opened, edited and closed */
    LASPIDRU_PHASE_CLOSING = 3, /* shutdown was sent */
    LASPIDRU_PHASE_CLOSED = 4,  /* shutdown was answered; only exit is left */
    LASPIDRU_PHASE_DONE = 5,    /* exit was sent, or came */
    LASPIDRU_PHASE_FAILED = 6   /* the server sent what no session can continue with */
};

/* Commands on logs, each as lspsync's of the same name. */
enum {
    LASPIDRU_CHECK = 0,     /* what a server answers to each record */
    LASPIDRU_EXPLAIN = 1,   /* the same, with reasons and what is suspicious: lspsync check --explain */
    LASPIDRU_TRACE = 2,     /* all that is known of each record, a line of JSON for each */
    LASPIDRU_REPLAY = 3,    /* the documents that are open at the end, a line of JSON for each; or one document's text */
    LASPIDRU_NORMALISE = 4, /* the log with each accepted change as its canonical message */
    LASPIDRU_CONVERT = 5    /* a log of version 1 in version 2, with the replies that a server gives */
};

/* Encodings: what a position's character counts. */
enum { LASPIDRU_UTF8 = 8, LASPIDRU_UTF16 = 16, LASPIDRU_UTF32 = 32 };

/* A handle: room for a document, a batch, a framer, a server, a client, or output: of a command on a log, or the frame of a
   canonical message. */
typedef struct laspidru_handle {
    void *pointer;
    laspidru_bool is_full;
} laspidru_handle;

/* A position: a line, counted from 0, and the units before it in that line. */
typedef struct laspidru_position {
    laspidru_u32 line;
    laspidru_u32 character;
} laspidru_position;

/* A change or a text edit: the next `len` bytes of the texts in place of a range, or of the whole text. */
typedef struct laspidru_edit {
    laspidru_position start;
    laspidru_position end;
    laspidru_size len;
    laspidru_bool is_whole;
} laspidru_edit;

/* Which change of a batch a fault is about, counted from 0, and whether it is about the end of its range. */
typedef struct laspidru_fault {
    laspidru_size change;
    laspidru_bool at_end;
} laspidru_fault;

/* Which text edit a fault is about, counted from 0, and whether it is about the end of its range.
   OVERLAP is about two: `other` starts before `edit` ends, and not before `edit` starts. */
typedef struct laspidru_edits_fault {
    laspidru_size edit;
    laspidru_size other; /* OVERLAP; else 0 */
    laspidru_bool at_end;
} laspidru_edits_fault;

/* Where a line starts and ends, in bytes. Its line end is not in it. */
typedef struct laspidru_line {
    laspidru_size start;
    laspidru_size end;
} laspidru_line;

/* How many bytes and how many lines a text has. */
typedef struct laspidru_length {
    laspidru_size bytes;
    laspidru_size lines;
} laspidru_length;

/* How a server is set up. `encoding` is the one that it prefers, and takes where the client offers it, else UTF-16; where
   `is_fixed`, the one that it takes whatever is offered. LSP 3.17 allows one that was offered, or UTF-16: fix another only for
   logs, or where you write the editor too. Where `whole_texts` it asks for whole texts, else for ranges. */
typedef struct laspidru_settings {
    laspidru_size max_body;    /* 4,096 to 1,073,741,824 bytes of a message of its stream; session_deliver takes any body */
    laspidru_size max_text;    /* up to 1,073,741,824 bytes */
    laspidru_size max_docs;    /* 1 to 65,536 */
    laspidru_size max_changes; /* 1 to 1,048,576 in a message */
    laspidru_u32 encoding;
    laspidru_bool is_fixed;
    laspidru_bool whole_texts;
    laspidru_bool lenient; /* whether a change of any version is taken, and an open document may be opened again */
} laspidru_settings;

/* The defaults, also those of lspsync: set the members that are to differ. */
#define LASPIDRU_SETTINGS_DEFAULT {16777216, 16777216, 1024, 65536, LASPIDRU_UTF16, 0, 0, 0}

/* What became of a message: a server's answer, or what a client did. A member that isn't of the kind is 0. */
typedef struct laspidru_answer {
    laspidru_u32 kind;       /* LASPIDRU_REPLIED .. LASPIDRU_EXITED; of a client REPLIED, IGNORED, NOTED or BAD_SERVER */
    laspidru_u32 reason;     /* REFUSED, BAD_SERVER: the code that says why */
    laspidru_u32 status;     /* EXITED: 0 after shutdown, else 1 */
    laspidru_i32 error;      /* REPLIED: the number of an error reply (LSP 3.17, ErrorCodes), 0 of a result */
    laspidru_size reply_len; /* REPLIED: how many bytes laspidru_session_frame copies */
} laspidru_answer;

/* What was taken of a piece of a stream, or where the stream is faulty. A member that isn't of the code is 0. */
typedef struct laspidru_taken {
    laspidru_size bytes;    /* how many bytes of the piece */
    laspidru_size body_len; /* how many bytes the body has, once the message is whole */
    laspidru_u64 offset;    /* BAD_FRAME: the byte offset in the stream on which the fault was decided */
    laspidru_u32 frame;     /* BAD_FRAME: 1 to 7, for F1 to F7 of docs/PROTOCOL.md */
    laspidru_bool is_whole; /* whether the message is whole */
} laspidru_taken;

/* How a client is set up. It offers UTF-16, and these, always in the order utf-8, utf-16, utf-32, which LSP reads as a preference. */
typedef struct laspidru_client_settings {
    laspidru_size max_body;    /* 4,096 to 1,073,741,824 bytes of a message: of one that it sends for a document, and of its stream */
    laspidru_size max_text;    /* up to 1,073,741,824 bytes */
    laspidru_size max_docs;    /* 1 to 65,536 */
    laspidru_size max_changes; /* 1 to 1,048,576 in a message */
    laspidru_bool utf8;
    laspidru_bool utf32;
    laspidru_bool lenient; /* as in laspidru_settings */
} laspidru_client_settings;

#define LASPIDRU_CLIENT_SETTINGS_DEFAULT {16777216, 16777216, 1024, 65536, 0, 0, 0}

/* The state of a session. */
typedef struct laspidru_state {
    laspidru_u32 phase;      /* LASPIDRU_PHASE_NEW .. LASPIDRU_PHASE_FAILED */
    laspidru_u32 reason;     /* PHASE_FAILED: the code that says why; else 0 */
    laspidru_u32 encoding;   /* the encoding of positions that was agreed on; 0 before */
    laspidru_size documents; /* how many are open */
} laspidru_state;

/* The version of an open document, and how many bytes its text has. */
typedef struct laspidru_opened {
    laspidru_i32 version;
    laspidru_size bytes;
} laspidru_opened;

/* How a log is read (docs/LOGS.md), and what of it is written. A command ignores the members of others. */
typedef struct laspidru_log_settings {
    laspidru_size max_body;    /* 4,096 to 1,073,741,824 bytes of a message */
    laspidru_size max_text;    /* up to 1,073,741,824 bytes */
    laspidru_size max_docs;    /* 1 to 65,536 */
    laspidru_size max_changes; /* 1 to 1,048,576 in a message */
    laspidru_u64 at;           /* REPLAY: the number of the last record that is read, from 1; 0 for all */
    laspidru_u32 encoding;     /* what positions count in a log of version 1; one of version 2 says its own */
    laspidru_bool lenient;     /* as in laspidru_settings */
    laspidru_bool squash;      /* NORMALISE: changes of one document that follow each other as one message */
    laspidru_bool documents;   /* NORMALISE: without the records that are neither about the session nor about a text */
    laspidru_bool texts;       /* TRACE: the document's text, where it was opened or changed */
    laspidru_bool bodies;      /* TRACE: each body */
    laspidru_bool has_uri;     /* REPLAY: the text of the document of `uri`, byte for byte; else `uri` is ignored */
    laspidru_bool brief;       /* EXPLAIN: only lines with a reason or notes */
    laspidru_bool all;         /* EXPLAIN: each note on its line, also where its kind comes often */
} laspidru_log_settings;

#define LASPIDRU_LOG_SETTINGS_DEFAULT {16777216, 16777216, 1024, 65536, 0, LASPIDRU_UTF16, 0, 0, 0, 0, 0, 0, 0, 0}

/* How a command on a log ended. A member that isn't of the code is 0. */
typedef struct laspidru_ending {
    laspidru_u32 status;     /* OK: 1 where something was refused or is missing, or texts differ; else 0 */
    laspidru_u32 frame;      /* BAD_FRAME: 1 to 7, for F1 to F7 of docs/PROTOCOL.md */
    laspidru_u32 missing;    /* OK: OUT_OF_RANGE where there is no record `at`, NOT_OPEN where `uri` was never open, else 0 */
    laspidru_u64 messages;   /* OK: how many messages were handled */
    laspidru_u64 refused;    /* OK: how many of them were refused */
    laspidru_u64 offset;     /* CUT, BAD_FRAME, BODY_TOO_LONG, BAD_LOG: a byte offset in the log */
    laspidru_size output_len; /* how many bytes laspidru_output_copy copies */
} laspidru_ending;

/* The version of the library: LASPIDRU_VERSION_NUMBER of its own header. */
laspidru_u32 laspidru_version(void);

/* Copies what a code means from `start` on, as many bytes as `out` holds, and says how many: its name, a colon, a blank and a
   sentence, as "EMPTY: the handle is empty". It has at most 120 bytes, and no byte 0 at its end. */
laspidru_u32 laspidru_code_text(laspidru_u32 code, laspidru_size start, unsigned char *out, laspidru_size out_len,
    laspidru_size *copied);

/* Makes a document in an empty handle, of a copy of the text. */
laspidru_u32 laspidru_document_new(laspidru_handle *document, const unsigned char *text, laspidru_size text_len);

/* Frees what a handle holds, and leaves it empty. */
void laspidru_handle_free(laspidru_handle *handle);

/* Makes the changes of a didChange, in order, or none of them. The texts of the edits follow each other in `texts`.
   With INSIDE_CHARACTER and REVERSED_RANGE `fault` says which change is faulty. */
laspidru_u32 laspidru_document_change(laspidru_handle *document, laspidru_u32 encoding,
    const laspidru_edit *edits, laspidru_size edits_len, const unsigned char *texts, laspidru_size texts_len,
    laspidru_fault *fault);

/* How many bytes and lines the text has. */
laspidru_u32 laspidru_document_size(laspidru_handle *document, laspidru_length *length);

/* Where a line, counted from 0, starts, and where it ends without its line end. */
laspidru_u32 laspidru_document_line(laspidru_handle *document, laspidru_u32 line, laspidru_line *range);

/* Copies the bytes of the text from `start` on, as many as `out` holds, and says how many. */
laspidru_u32 laspidru_document_copy(laspidru_handle *document, laspidru_size start,
    unsigned char *out, laspidru_size out_len, laspidru_size *copied);

/* The byte offset of a position. A line after the last is the end of the text; a character after the line's last is
   the end of the line. */
laspidru_u32 laspidru_document_offset(laspidru_handle *document, laspidru_u32 encoding, laspidru_position position,
    laspidru_size *offset);

/* The exact position of a byte offset. */
laspidru_u32 laspidru_document_position(laspidru_handle *document, laspidru_u32 encoding, laspidru_size offset,
    laspidru_position *position);

/* Puts the canonical batch of what a batch means on the text into the empty handle `batch`: one change for each
   changed gap, from the last to the first. The document stays as it is. */
laspidru_u32 laspidru_document_canonical(laspidru_handle *document, laspidru_u32 encoding,
    const laspidru_edit *edits, laspidru_size edits_len, const unsigned char *texts, laspidru_size texts_len,
    laspidru_handle *batch, laspidru_fault *fault);

/* Makes text edits, as a formatter returns them (LSP 3.17, TextEdit[]), or none of them. Unlike the
   changes of a didChange, all of them count in the text as it is. Texts that are put in at one place
   come in the order of the list. With INSIDE_CHARACTER, REVERSED_RANGE and OVERLAP `fault` says
   which edits are faulty. */
laspidru_u32 laspidru_document_apply_edits(laspidru_handle *document, laspidru_u32 encoding,
    const laspidru_edit *edits, laspidru_size edits_len, const unsigned char *texts, laspidru_size texts_len,
    laspidru_edits_fault *fault);

/* Puts the canonical batch of what text edits mean on the text into the empty handle `batch`: the
   changes of the didChange that reports them. The document stays as it is. */
laspidru_u32 laspidru_document_batch_of_edits(laspidru_handle *document, laspidru_u32 encoding,
    const laspidru_edit *edits, laspidru_size edits_len, const unsigned char *texts, laspidru_size texts_len,
    laspidru_handle *batch, laspidru_edits_fault *fault);

/* How many changes a batch has. */
laspidru_u32 laspidru_batch_len(laspidru_handle *batch, laspidru_size *len);

/* A change of a batch, counted from 0, with the length of its text; and as much of the text as `out` holds. */
laspidru_u32 laspidru_batch_edit(laspidru_handle *batch, laspidru_size index, laspidru_edit *edit,
    unsigned char *out, laspidru_size out_len, laspidru_size *copied);

/* ---- A framer takes a stream apart: feed, then body and next for each message, until all of the piece was taken.

   Makes a framer in an empty handle, at the start of a stream. A body may have 4,096 to 1,073,741,824 bytes. */
laspidru_u32 laspidru_framer_new(laspidru_handle *framer, laspidru_size max_body);

/* Takes bytes of the next piece of the stream: all of them, or those up to the end of one message. While a whole message is
   buffered it takes none. After LASPIDRU_BAD_FRAME no more is taken. */
laspidru_u32 laspidru_framer_feed(laspidru_handle *framer, const unsigned char *piece, laspidru_size piece_len,
    laspidru_taken *taken);

/* Copies the bytes of the whole message's body from `start` on, as many as `out` holds, and says how many. */
laspidru_u32 laspidru_framer_body(laspidru_handle *framer, laspidru_size start,
    unsigned char *out, laspidru_size out_len, laspidru_size *copied);

/* Releases the whole message, so that the next one is taken. Where none is whole it does nothing. */
laspidru_u32 laspidru_framer_next(laspidru_handle *framer);

/* Whether the stream may end here: no byte of a message is buffered, and there was no fault. */
laspidru_u32 laspidru_framer_at_rest(laspidru_handle *framer, laspidru_bool *at_rest);

/* ---- Ends of sessions: servers and clients.

   Makes a server in an empty handle, at the start of a session. */
laspidru_u32 laspidru_server_new(laspidru_handle *server, const laspidru_settings *settings);

/* Makes a client in an empty handle, at the start of a session. It keeps an editor's documents and says what to send: each of
   its calls that is done leaves a frame in it, which laspidru_session_frame copies, `frame_len` bytes. */
laspidru_u32 laspidru_client_new(laspidru_handle *client, const laspidru_client_settings *settings);

/* initialize, in phase NEW, which becomes ASKED. */
laspidru_u32 laspidru_client_start(laspidru_handle *client, laspidru_size *frame_len);

/* textDocument/didOpen, in phase READY. */
laspidru_u32 laspidru_client_did_open(laspidru_handle *client, const unsigned char *uri, laspidru_size uri_len,
    const unsigned char *language, laspidru_size language_len, laspidru_i32 version,
    const unsigned char *text, laspidru_size text_len, laspidru_size *frame_len);

/* One textDocument/didChange, in phase READY: the canonical batch of these changes, or where the server asked for it the
   whole text. Positions are in the encoding that was agreed on. The version must be greater than the current one,
   unless the limits are lenient. With INSIDE_CHARACTER and REVERSED_RANGE `fault` says which change is faulty. */
laspidru_u32 laspidru_client_did_change(laspidru_handle *client, const unsigned char *uri, laspidru_size uri_len,
    laspidru_i32 version, const laspidru_edit *edits, laspidru_size edits_len, const unsigned char *texts,
    laspidru_size texts_len, laspidru_fault *fault, laspidru_size *frame_len);

/* textDocument/didClose, in phase READY. */
laspidru_u32 laspidru_client_did_close(laspidru_handle *client, const unsigned char *uri, laspidru_size uri_len,
    laspidru_size *frame_len);

/* shutdown, in phase READY, which becomes CLOSING. */
laspidru_u32 laspidru_client_shutdown(laspidru_handle *client, laspidru_size *frame_len);

/* exit, in phase CLOSED, which becomes DONE. */
laspidru_u32 laspidru_client_exit(laspidru_handle *client, laspidru_size *frame_len);

/* ---- A session: either end of it, a server or a client.

   Takes bytes of the next piece of the other end's stream: all of them, or those up to the end of one message, which it
   handles. `taken` says how many. Once the message is whole, `answer` is what laspidru_session_deliver answers, and the body
   can be copied until the next call; before, it stays as it is. With LASPIDRU_FAILED and LASPIDRU_BAD_FRAME no byte was taken.
   With LASPIDRU_OUT_OF_MEMORY `taken->bytes` may be more than 0: a message is whole then, and the next call handles it first,
   also with a `piece_len` of 0. With LASPIDRU_EMPTY, LASPIDRU_OTHER_KIND, LASPIDRU_ENDED of a server and LASPIDRU_WRONG_PHASE
   of a client nothing is written; with each other code the message of before is released, and laspidru_session_body no longer
   copies it. */
laspidru_u32 laspidru_session_feed(laspidru_handle *session, const unsigned char *piece, laspidru_size piece_len,
    laspidru_taken *taken, laspidru_answer *answer);

/* Copies the bytes of the body that laspidru_session_feed took last from `start` on, as many as `out` holds, and says how
   many. To a server a message is yours whose answer is IGNORED, and so is a request whose reply has the error -32601. To a
   client a notification is, which is IGNORED, and so is a request, to which the frame is an error reply. */
laspidru_u32 laspidru_session_body(laspidru_handle *session, laspidru_size start,
    unsigned char *out, laspidru_size out_len, laspidru_size *copied);

/* Hands the body of a message to an end: the bytes after its header. It is for who takes the stream apart. A client listens
   from ASKED to CLOSED. REPLIED says that there is a frame to send, `reply_len` bytes: a server's reply; of a client
   initialized after the response to initialize, else an error reply to a request. After LASPIDRU_OUT_OF_MEMORY the same body
   can be handed in again. */
laspidru_u32 laspidru_session_deliver(laspidru_handle *session, const unsigned char *body, laspidru_size body_len,
    laspidru_answer *answer);

/* Copies the bytes of the frame to send from `start` on, as many as `out` holds, and says how many. It is whole, with its
   header, and stays until the next call or message that is done. Where that sent none it has no bytes. */
laspidru_u32 laspidru_session_frame(laspidru_handle *session, laspidru_size start,
    unsigned char *out, laspidru_size out_len, laspidru_size *copied);

/* The phase, the encoding, and how many documents are open. */
laspidru_u32 laspidru_session_state(laspidru_handle *session, laspidru_state *state);

/* Copies the URI of the document that a body opens, changes or closes: a client's notification. NO_DOCUMENT says that it does
   none of these. */
laspidru_u32 laspidru_message_uri(const unsigned char *body, laspidru_size body_len, laspidru_size start,
    unsigned char *out, laspidru_size out_len, laspidru_size *copied);

/* ---- A session's open documents. URIs are compared byte for byte.

   The version and the length of the open document of a URI. */
laspidru_u32 laspidru_session_document_state(laspidru_handle *session, const unsigned char *uri, laspidru_size uri_len,
    laspidru_opened *document);

/* Copies the bytes of an open document's text from `start` on, as many as `out` holds, and says how many. */
laspidru_u32 laspidru_session_document_text(laspidru_handle *session, const unsigned char *uri, laspidru_size uri_len,
    laspidru_size start, unsigned char *out, laspidru_size out_len, laspidru_size *copied);

/* The byte offset of a position in an open document, as laspidru_document_offset has it. So a request's position is resolved,
   as that of textDocument/hover: its `encoding` is that of laspidru_session_state. */
laspidru_u32 laspidru_session_document_offset(laspidru_handle *session, const unsigned char *uri, laspidru_size uri_len,
    laspidru_u32 encoding, laspidru_position position, laspidru_size *offset);

/* The exact position of a byte offset in an open document. */
laspidru_u32 laspidru_session_document_position(laspidru_handle *session, const unsigned char *uri, laspidru_size uri_len,
    laspidru_u32 encoding, laspidru_size offset, laspidru_position *position);

/* Where a line of an open document, counted from 0, starts, and where it ends without its line end. */
laspidru_u32 laspidru_session_document_line(laspidru_handle *session, const unsigned char *uri, laspidru_size uri_len,
    laspidru_u32 line, laspidru_line *range);

/* As laspidru_document_batch_of_edits, on an open document, for a formatter's or a code action's text edits. The document
   stays as it is until they are reported. */
laspidru_u32 laspidru_session_document_batch_of_edits(laspidru_handle *session, const unsigned char *uri, laspidru_size uri_len,
    laspidru_u32 encoding, const laspidru_edit *edits, laspidru_size edits_len, const unsigned char *texts,
    laspidru_size texts_len, laspidru_handle *batch, laspidru_edits_fault *fault);

/* Puts the one canonical didChange that means the same as these changes of an open document, under a version greater than
   its own (with lenient limits under any), into the empty handle `output`. laspidru_output_copy copies it: `frame_len`
   bytes, with its header. The document stays as it is. With INSIDE_CHARACTER and REVERSED_RANGE `fault` says which change
   is faulty. */
laspidru_u32 laspidru_session_document_canonical_message(laspidru_handle *session, const unsigned char *uri,
    laspidru_size uri_len, laspidru_i32 version, laspidru_u32 encoding, const laspidru_edit *edits, laspidru_size edits_len,
    const unsigned char *texts, laspidru_size texts_len, laspidru_handle *output, laspidru_fault *fault,
    laspidru_size *frame_len);

/* ---- Logs.

   Runs a command, LASPIDRU_CHECK to LASPIDRU_CONVERT, on the bytes of a log. Its output goes into the empty handle `output`.
   `uri` is that of the one document that REPLAY is to write, or how it ends; without `has_uri` it may have no bytes. */
laspidru_u32 laspidru_log_run(laspidru_handle *output, laspidru_u32 command, const laspidru_log_settings *settings,
    const unsigned char *uri, laspidru_size uri_len, const unsigned char *log, laspidru_size log_len,
    laspidru_ending *ending);

/* Whether the last text of a document of a log is `saved`, the text that its editor saved, and else which messages made each
   line that differs, and which about the document were refused: the output of lspsync compare. The document is the one whose
   URI ends as `uri`, or the only one where that has no bytes. Where two end so, the output names both; where none does,
   NOT_OPEN is `missing`. The status is 0 only for equal bytes, whatever was refused. Of the settings it takes the limits and
   the encoding. */
laspidru_u32 laspidru_log_compare(laspidru_handle *output, const laspidru_log_settings *settings,
    const unsigned char *uri, laspidru_size uri_len, const unsigned char *saved, laspidru_size saved_len,
    const unsigned char *log, laspidru_size log_len, laspidru_ending *ending);

/* Copies the bytes of the output from `start` on, as many as `out` holds, and says how many. */
laspidru_u32 laspidru_output_copy(laspidru_handle *output, laspidru_size start,
    unsigned char *out, laspidru_size out_len, laspidru_size *copied);

/* ---- Codes of each call.
   They come in this order. A call that needs a full handle first checks what it is passed: NOT_UTF8 of the URI;
   BAD_ENCODING; BAD_LENGTH or NOT_UTF8 of the first such edit; IN_USE of the handle that is to be filled. Then it checks
   the handle that is to be full: EMPTY, OTHER_KIND. Then come:

   batch_edit, code_text, document_copy, document_line, output_copy, session_frame: OUT_OF_RANGE
   client_did_change: WRONG_PHASE; OUT_OF_MEMORY, or NOT_OPEN, STALE_VERSION, TOO_MANY_CHANGES, INSIDE_CHARACTER,
      REVERSED_RANGE, TOO_LONG, also of a message that is too long
   client_did_close: WRONG_PHASE; OUT_OF_MEMORY, or NOT_OPEN, or TOO_LONG of the message
   client_did_open: WRONG_PHASE; OUT_OF_MEMORY, or ALREADY_OPEN, TOO_MANY_DOCUMENTS, TOO_LONG, also of a message that is
      too long
   client_exit, client_shutdown, client_start: WRONG_PHASE; OUT_OF_MEMORY
   client_new: IN_USE, BAD_MAX_BODY, BAD_MAX_TEXT, BAD_MAX_DOCS, BAD_MAX_CHANGES; OUT_OF_MEMORY
   document_apply_edits: those of document_batch_of_edits without IN_USE, and TOO_LONG where the text that would be left
      is too long
   document_batch_of_edits: TOO_LONG; OUT_OF_MEMORY, or the fault; that is INSIDE_CHARACTER or REVERSED_RANGE of the
      first such edit, else OVERLAP
   document_canonical: those of document_change, with IN_USE of batch before EMPTY
   document_change: TOO_LONG; OUT_OF_MEMORY, or INSIDE_CHARACTER, REVERSED_RANGE or TOO_LONG if there is no text after
      the batch
   document_new: IN_USE, TOO_LONG, NOT_UTF8; OUT_OF_MEMORY
   document_offset: INSIDE_CHARACTER
   document_position: INSIDE_CHARACTER, also for an offset between CR and LF or past the end
   framer_body, session_body: NO_MESSAGE, OUT_OF_RANGE
   framer_feed: FAILED; OUT_OF_MEMORY, or BAD_FRAME
   framer_new: IN_USE, BAD_MAX_BODY; OUT_OF_MEMORY
   log_compare: IN_USE; NOT_UTF8 of the URI or the saved text; BAD_ENCODING, BAD_MAX_BODY, BAD_MAX_TEXT, BAD_MAX_DOCS,
      BAD_MAX_CHANGES; OUT_OF_MEMORY, or the fault: CUT, BAD_FRAME, BAD_LOG
   log_run: IN_USE; OUT_OF_RANGE of the command; NOT_UTF8 of the URI; BAD_ENCODING, BAD_MAX_BODY, BAD_MAX_TEXT,
      BAD_MAX_DOCS, BAD_MAX_CHANGES; OUT_OF_MEMORY, or the fault: CUT, BAD_FRAME, BAD_LOG, of normalise also
      BODY_TOO_LONG
   message_uri: OUT_OF_MEMORY; NO_DOCUMENT of any other body, OUT_OF_RANGE
   server_new: IN_USE, BAD_ENCODING, BAD_MAX_BODY, BAD_MAX_TEXT, BAD_MAX_DOCS, BAD_MAX_CHANGES; OUT_OF_MEMORY
   session_deliver: ENDED of a server, WRONG_PHASE of a client; OUT_OF_MEMORY, after which the body may be passed again
   session_document_batch_of_edits: NOT_OPEN, TOO_LONG; OUT_OF_MEMORY, or the fault, as of document_batch_of_edits
   session_document_canonical_message: OUT_OF_MEMORY, or NOT_OPEN, STALE_VERSION, TOO_MANY_CHANGES, INSIDE_CHARACTER,
      REVERSED_RANGE, TOO_LONG, also of a message that is too long
   session_document_line, session_document_text: NOT_OPEN, OUT_OF_RANGE
   session_document_offset: NOT_OPEN, INSIDE_CHARACTER
   session_document_position: NOT_OPEN; INSIDE_CHARACTER, also for an offset between CR and LF or past the end
   session_document_state: NOT_OPEN
   session_feed: ENDED of a server, WRONG_PHASE of a client; FAILED; OUT_OF_MEMORY, or BAD_FRAME
*/

#ifdef __cplusplus
}
#endif
#endif
