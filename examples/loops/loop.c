/* A language server over standard input, in C or C++, with Jansson for JSON. Hover shows the document as the server has it. */
#include <jansson.h>
#include <stdio.h>
#include <stdlib.h>
#include <string.h>
#include <unistd.h>

#include "laspidru.h"

enum { GOES_ON = -1, FAILED = 1 };

/* Prints what a code means. */
static void print_code(const char *what, laspidru_u32 code) {
    unsigned char text[120];
    laspidru_size len = 0;
    laspidru_code_text(code, 0, text, sizeof text, &len);
    fprintf(stderr, "%s: %.*s\n", what, (int)len, (const char *)text);
}

/* Sends a message, and releases it. */
static int send_message(json_t *message) {
    char *body = message ? json_dumps(message, JSON_COMPACT) : NULL;
    int is_sent = body && printf("Content-Length: %zu\r\n\r\n%s", strlen(body), body) > 0 && fflush(stdout) == 0;
    free(body);
    json_decref(message);
    return is_sent;
}

/* Both laspidru_session_body and laspidru_session_frame. */
typedef laspidru_u32 copier(laspidru_handle *, laspidru_size, unsigned char *, laspidru_size, laspidru_size *);

/* Returns all that is copied, with a 0 at its end, or NULL; the caller frees it. */
static char *copy(laspidru_handle *server, copier *part, laspidru_size len) {
    unsigned char *out = (unsigned char *)calloc(len + 1, 1);
    laspidru_size copied;
    if (out && part(server, 0, out, len, &copied) != LASPIDRU_OK) {
        free(out);
        out = NULL;
    }
    return (char *)out;
}

/* The result of a hover: the document's text, or null where it isn't open. */
static json_t *hover(laspidru_handle *server, const char *name) {
    const unsigned char *uri = (const unsigned char *)name;
    laspidru_opened opened;
    laspidru_size len = name ? strlen(name) : 0, copied;
    json_t *result = NULL;
    unsigned char *text;
    if (!name || laspidru_session_document_state(server, uri, len, &opened) != LASPIDRU_OK)
        return json_null();
    text = (unsigned char *)malloc(opened.bytes + 1);
    if (text && laspidru_session_document_text(server, uri, len, 0, text, opened.bytes, &copied) == LASPIDRU_OK)
        result = json_pack("{s:[o]}", "contents", json_stringn((const char *)text, copied));
    free(text);
    return result;
}

/* Our own reply, or NULL where laspidru's is sent. */
static json_t *own_reply(laspidru_handle *server, json_t *request, const char *frame) {
    const char *method = json_string_value(json_object_get(request, "method"));
    json_t *document = json_object_get(json_object_get(request, "params"), "textDocument"), *reply;
    if (method && strcmp(method, "textDocument/hover") == 0)
        return json_pack("{s:s, s:O, s:o}", "jsonrpc", "2.0", "id", json_object_get(request, "id"), "result",
                         hover(server, json_string_value(json_object_get(document, "uri"))));
    if (!method || strcmp(method, "initialize") != 0)
        return NULL;
    reply = json_loads(strstr(frame, "\r\n\r\n") + 4, 0, NULL);
    json_object_set_new(json_object_get(json_object_get(reply, "result"), "capabilities"), "hoverProvider", json_true());
    return reply;
}

/* Answers a request, or what can't be read. False where that failed. */
static int reply(laspidru_handle *server, const laspidru_taken *taken, const laspidru_answer *answer) {
    char *frame = copy(server, laspidru_session_frame, answer->reply_len), *body = copy(server, laspidru_session_body, taken->body_len);
    int is_ours = answer->error == 0 || answer->error == -32601, is_sent = 0;
    if (body && (answer->error == -32700 || answer->error == -32600)) /* a change may be lost with it */
        fprintf(stderr, "faulty: %d %.200s\n", (int)answer->error, body);
    if (frame && body) {
        json_t *request = is_ours ? json_loadb(body, taken->body_len, JSON_ALLOW_NUL, NULL) : NULL;
        json_t *own = own_reply(server, request, frame);
        is_sent = own ? send_message(own) : fwrite(frame, 1, answer->reply_len, stdout) == answer->reply_len && fflush(stdout) == 0;
        json_decref(request);
    }
    free(frame);
    free(body);
    return is_sent;
}

/* Says which document's message was refused, and why. */
static void print_refused(laspidru_handle *server, laspidru_size body_len, laspidru_u32 reason) {
    unsigned char uri[4096];
    laspidru_size len = 0;
    char *body = copy(server, laspidru_session_body, body_len);
    if (body)
        laspidru_message_uri((const unsigned char *)body, body_len, 0, uri, sizeof uri, &len);
    free(body);
    fprintf(stderr, "%.*s ", (int)len, (const char *)uri);
    print_code("refused", reason);
}

/* Handles all messages that end in a piece of the stream. Returns the status to end with, or that the session goes on. */
static int take(laspidru_handle *server, const unsigned char *piece, laspidru_size len) {
    laspidru_taken taken;
    laspidru_answer answer;
    laspidru_u32 code = LASPIDRU_OK;
    while (len > 0 && (code = laspidru_session_feed(server, piece, len, &taken, &answer)) == LASPIDRU_OK) {
        piece += taken.bytes;
        len -= taken.bytes;
        if (!taken.is_whole)
            continue;
        if (answer.kind == LASPIDRU_EXITED)
            return (int)answer.status;
        if (answer.kind == LASPIDRU_REFUSED) /* from now on the editor's text may differ */
            print_refused(server, taken.body_len, answer.reason);
        if (answer.kind == LASPIDRU_REPLIED && !reply(server, &taken, &answer))
            return FAILED;
    }
    if (code != LASPIDRU_OK)
        print_code("fault", code);
    return code == LASPIDRU_OK ? GOES_ON : FAILED;
}

int main(void) {
    laspidru_settings settings = LASPIDRU_SETTINGS_DEFAULT;
    laspidru_handle server = {0};
    unsigned char piece[65536];
    int status = laspidru_server_new(&server, &settings) == LASPIDRU_OK ? GOES_ON : FAILED;
    ssize_t len;
    while (status == GOES_ON && (len = read(STDIN_FILENO, piece, sizeof piece)) > 0)
        status = take(&server, piece, (laspidru_size)len);
    laspidru_handle_free(&server);
    return status == GOES_ON ? FAILED : status; /* the stream ended before `exit` */
}
