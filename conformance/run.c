/* Answers the vectors by laspidru, for ask.py: a vector on each line of standard input, and a line of JSON for it.

   Copy this file, and replace `answer` by what asks your library. It reads JSON by Jansson (on Debian: libjansson-dev). In this folder:

       cc -I ../crates/laspidru/include run.c ../build/liblaspidru.a -ljansson -o run && ./ask.py ./run */
#include <jansson.h>
#include <stdint.h>
#include <stdio.h>
#include <stdlib.h>
#include <string.h>

#include "laspidru.h"

typedef const unsigned char *bytes;

static const char *const FAULTS[] = {"", "bad-header", "header-too-long", "missing-length", "repeated-header", "bad-length", "body-too-long", "bad-charset"};

/* Stands for a vector that can't be asked: a number of it doesn't fit into a position. */
static const laspidru_u32 NOT_ASKED = 1000;

/* The word for a refusal; NULL where a code is another error. */
static const char *refusal(laspidru_u32 code) {
    switch (code) {
    case LASPIDRU_INSIDE_CHARACTER: return "inside-character";
    case LASPIDRU_REVERSED_RANGE: return "reversed-range";
    case LASPIDRU_OVERLAP: return "overlap";
    case LASPIDRU_NOT_OPEN: return "not-open";
    case LASPIDRU_ALREADY_OPEN: return "already-open";
    case LASPIDRU_STALE_VERSION: return "stale-version";
    case LASPIDRU_INVALID_PARAMS: return "invalid-params";
    default: return NULL;
    }
}

static json_t *error(laspidru_u32 code) {
    return json_pack("{s:o}", "error", json_sprintf("code %u", code));
}

static laspidru_u32 encoding_of(const json_t *vector) {
    const char *name = json_string_value(json_object_get(vector, "encoding"));
    return name && !strcmp(name, "utf-8") ? LASPIDRU_UTF8 : name && !strcmp(name, "utf-32") ? LASPIDRU_UTF32 : LASPIDRU_UTF16;
}

static int read_position(const json_t *value, laspidru_position *position) {
    json_int_t line = json_integer_value(json_object_get(value, "line"));
    json_int_t character = json_integer_value(json_object_get(value, "character"));
    *position = (laspidru_position){(laspidru_u32)line, (laspidru_u32)character};
    return line >= 0 && line <= UINT32_MAX && character >= 0 && character <= UINT32_MAX;
}

/* Changes or text edits, as the library takes them. */
struct batch {
    laspidru_edit *edits;
    laspidru_size count, texts_len;
    unsigned char *texts;
};

static int read_batch(const json_t *list, const char *text_name, struct batch *batch) {
    size_t index, room = 1;
    const json_t *value;
    json_array_foreach(list, index, value) room += json_string_length(json_object_get(value, text_name));
    batch->edits = calloc(json_array_size(list) + 1, sizeof *batch->edits);
    batch->texts = malloc(room);
    int fits = batch->edits && batch->texts;
    json_array_foreach(list, index, value) {
        const json_t *range = json_object_get(value, "range"), *text = json_object_get(value, text_name);
        laspidru_edit *edit = &batch->edits[index];
        edit->is_whole = !json_is_object(range);
        edit->len = json_string_length(text);
        fits = fits && (edit->is_whole || (read_position(json_object_get(range, "start"), &edit->start)
                                           && read_position(json_object_get(range, "end"), &edit->end)));
        memcpy(batch->texts + batch->texts_len, json_string_value(text), edit->len);
        batch->texts_len += edit->len;
    }
    batch->count = json_array_size(list);
    return fits;
}

/* The text of a document, or NULL. */
static json_t *text_of(laspidru_handle *document) {
    laspidru_length length;
    laspidru_size copied;
    if (laspidru_document_size(document, &length) != LASPIDRU_OK) return NULL;
    unsigned char *out = malloc(length.bytes + 1);
    json_t *text = out && laspidru_document_copy(document, 0, out, length.bytes, &copied) == LASPIDRU_OK ? json_stringn((char *)out, copied) : NULL;
    free(out);
    return text;
}

static json_t *refused(laspidru_u32 code, const char *noun, laspidru_size index, laspidru_size other, int at_end) {
    if (refusal(code) == NULL) return code == NOT_ASKED ? json_null() : error(code);
    json_t *found = json_pack("{s:s, s:I}", "refused", refusal(code), noun, (json_int_t)index);
    if (code == LASPIDRU_INSIDE_CHARACTER) json_object_set_new(found, "end", json_string(at_end ? "end" : "start"));
    if (code == LASPIDRU_OVERLAP) json_object_set_new(found, "other", json_integer((json_int_t)other));
    return found;
}

static json_t *text_left(const json_t *vector) {
    const json_t *text = json_object_get(vector, "text"), *edits = json_object_get(vector, "edits");
    laspidru_handle document = {0};
    struct batch batch = {0};
    laspidru_fault fault = {0};
    laspidru_edits_fault edits_fault = {0};
    int fits = edits ? read_batch(edits, "newText", &batch) : read_batch(json_object_get(vector, "changes"), "text", &batch);
    laspidru_u32 code = laspidru_document_new(&document, (bytes)json_string_value(text), json_string_length(text));
    if (!fits) code = NOT_ASKED;
    if (code == LASPIDRU_OK)
        code = edits ? laspidru_document_apply_edits(&document, encoding_of(vector), batch.edits, batch.count, batch.texts, batch.texts_len, &edits_fault)
                     : laspidru_document_change(&document, encoding_of(vector), batch.edits, batch.count, batch.texts, batch.texts_len, &fault);
    json_t *found = code == LASPIDRU_OK ? json_pack("{s:o}", "text", text_of(&document))
        : edits ? refused(code, "edit", edits_fault.edit, edits_fault.other, edits_fault.at_end)
                : refused(code, "change", fault.change, 0, fault.at_end);
    laspidru_handle_free(&document);
    free(batch.edits);
    free(batch.texts);
    return found;
}

/* Hands a message to a server, and returns the word for what became of it. */
static json_t *handled(laspidru_handle *server, const char *method, const json_t *params) {
    json_t *message = json_pack("{s:s, s:s, s:O}", "jsonrpc", "2.0", "method", method, "params", params);
    if (!strcmp(method, "initialize")) json_object_set_new(message, "id", json_integer(1));
    char *body = json_dumps(message, JSON_COMPACT);
    laspidru_answer answer;
    laspidru_u32 code = laspidru_session_deliver(server, (bytes)body, strlen(body), &answer);
    free(body);
    json_decref(message);
    if (code != LASPIDRU_OK) return json_sprintf("code %u", code);
    const char *word = answer.kind == LASPIDRU_REFUSED ? refusal(answer.reason) : answer.kind == LASPIDRU_CHANGED ? "changed" : NULL;
    return word ? json_string(word) : json_sprintf("kind %u, reason %u", answer.kind, answer.reason);
}

/* The document of a URI, or NULL where none is open. */
static json_t *document_of(laspidru_handle *server, const char *uri) {
    laspidru_opened opened;
    laspidru_size copied;
    if (laspidru_session_document_state(server, (bytes)uri, strlen(uri), &opened) != LASPIDRU_OK) return NULL;
    unsigned char *out = malloc(opened.bytes + 1);
    json_t *found = NULL;
    if (out && laspidru_session_document_text(server, (bytes)uri, strlen(uri), 0, out, opened.bytes, &copied) == LASPIDRU_OK)
        found = json_pack("{s:s, s:i, s:o}", "uri", uri, "version", opened.version, "text", json_stringn((char *)out, copied));
    free(out);
    return found;
}

static json_t *session(const json_t *vector) {
    laspidru_settings settings = LASPIDRU_SETTINGS_DEFAULT;
    laspidru_handle server = {0};
    settings.encoding = encoding_of(vector);
    settings.is_fixed = 1;
    laspidru_u32 code = laspidru_server_new(&server, &settings);
    if (code != LASPIDRU_OK) return error(code);
    json_t *initialize = json_pack("{s:{}}", "capabilities"), *uris = json_object(), *answers = json_array(), *documents = json_array();
    json_decref(handled(&server, "initialize", initialize));
    json_decref(initialize);
    size_t index;
    const json_t *message;
    json_array_foreach(json_object_get(vector, "messages"), index, message) {
        const json_t *params = json_object_get(message, "params");
        json_array_append_new(answers, handled(&server, json_string_value(json_object_get(message, "method")), params));
        json_object_set_new(uris, json_string_value(json_object_get(json_object_get(params, "textDocument"), "uri")), json_null());
    }
    const char *uri;
    json_t *none;
    json_object_foreach(uris, uri, none) json_array_append_new(documents, document_of(&server, uri));
    json_decref(uris);
    laspidru_handle_free(&server);
    return json_pack("{s:o, s:o}", "answers", answers, "documents", documents);
}

/* The bytes of a text, each of whose characters, U+0000 to U+00FF, is one. They take the text's place. */
static size_t to_bytes(unsigned char *text, size_t len) {
    size_t count = 0;
    for (size_t at = 0; at < len; at++)
        if (text[at] < 0x80) text[count++] = text[at];
        else if (text[at] < 0xc0) text[count - 1] |= text[at] & 0x3f;
        else text[count++] = (unsigned char)(text[at] << 6);
    return count;
}

static json_t *text_of_bytes(bytes from, size_t len) {
    char *text = malloc(2 * len + 1);
    size_t count = 0;
    for (size_t at = 0; text && at < len; at++) {
        if (from[at] >= 0x80) text[count++] = (char)(0xc0 | from[at] >> 6);
        text[count++] = (char)(from[at] >= 0x80 ? 0x80 | (from[at] & 0x3f) : from[at]);
    }
    json_t *found = text ? json_stringn(text, count) : NULL;
    free(text);
    return found;
}

/* Takes a piece of a stream, and appends the bodies that end in it. */
static laspidru_u32 take(laspidru_handle *framer, bytes piece, size_t len, json_t *bodies, laspidru_taken *taken) {
    laspidru_size copied;
    for (size_t at = 0; at < len; at += taken->bytes) {
        laspidru_u32 code = laspidru_framer_feed(framer, piece + at, len - at, taken);
        if (code != LASPIDRU_OK) return code;
        if (!taken->is_whole) continue;
        unsigned char *body = malloc(taken->body_len + 1);
        if (body == NULL) return LASPIDRU_OUT_OF_MEMORY;
        code = laspidru_framer_body(framer, 0, body, taken->body_len, &copied);
        json_array_append_new(bodies, text_of_bytes(body, copied));
        free(body);
        if (code != LASPIDRU_OK || (code = laspidru_framer_next(framer)) != LASPIDRU_OK) return code;
    }
    return LASPIDRU_OK;
}

static json_t *stream(const json_t *pieces) {
    laspidru_handle framer = {0};
    laspidru_taken taken = {0};
    laspidru_u32 code = laspidru_framer_new(&framer, 16777216);
    json_t *bodies = json_array(), *fault = json_null();
    size_t index;
    const json_t *value;
    json_array_foreach(pieces, index, value) {
        if (code != LASPIDRU_OK) break;
        size_t len = json_string_length(value);
        unsigned char *piece = malloc(len + 1);
        if (piece == NULL) {
            code = LASPIDRU_OUT_OF_MEMORY;
            break;
        }
        memcpy(piece, json_string_value(value), len);
        code = take(&framer, piece, to_bytes(piece, len), bodies, &taken);
        free(piece);
    }
    laspidru_handle_free(&framer);
    if (code == LASPIDRU_BAD_FRAME) fault = json_pack("{s:s, s:I}", "why", FAULTS[taken.frame], "offset", (json_int_t)taken.offset);
    json_t *found = json_pack("{s:o, s:o}", "bodies", bodies, "fault", fault);
    if (code == LASPIDRU_OK || code == LASPIDRU_BAD_FRAME) return found;
    json_decref(found);
    return error(code);
}

static json_t *answer(const json_t *vector) {
    if (json_object_get(vector, "messages")) return session(vector);
    const json_t *pieces = json_object_get(vector, "pieces");
    return pieces ? stream(pieces) : text_left(vector);
}

int main(void) {
    char *line = NULL;
    size_t room = 0;
    while (getline(&line, &room, stdin) > 0) {
        json_t *vector = json_loads(line, JSON_ALLOW_NUL, NULL), *found = vector ? answer(vector) : NULL;
        if (found == NULL || json_dumpf(found, stdout, JSON_COMPACT | JSON_ENCODE_ANY) != 0) return 1;
        puts("");
        fflush(stdout);
        json_decref(found);
        json_decref(vector);
    }
    free(line);
    return 0;
}
