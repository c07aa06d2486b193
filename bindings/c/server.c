/* A server on standard input and output. It keeps the open documents, and says on standard error what becomes of them. */
#include <stdio.h>
#include <stdlib.h>
#include <unistd.h>

#include "laspidru.h"

enum { GOES_ON = -1, FAILED = 2 };

/* Writes the reply as it is to be sent. False where that failed. */
static int reply(laspidru_handle *server, laspidru_size len) {
    unsigned char part[4096];
    laspidru_size start, copied;
    for (start = 0; start < len; start += copied)
        if (laspidru_session_frame(server, start, part, sizeof part, &copied) != LASPIDRU_OK ||
            fwrite(part, 1, copied, stdout) != copied)
            return 0;
    return fflush(stdout) == 0;
}

/* Prints what a code means. */
static void print_text(const char *what, laspidru_u32 code) {
    unsigned char text[120];
    laspidru_size len = 0;
    laspidru_code_text(code, 0, text, sizeof text, &len);
    fprintf(stderr, "%s: %.*s\n", what, (int)len, (const char *)text);
}

/* Says which document's message was refused, and why. */
static void print_refused(laspidru_handle *server, laspidru_size body_len, laspidru_u32 reason) {
    unsigned char *body = (unsigned char *)malloc(body_len), uri[4096];
    laspidru_size copied = 0, len = 0;
    if (body && laspidru_session_body(server, 0, body, body_len, &copied) == LASPIDRU_OK)
        laspidru_message_uri(body, copied, 0, uri, sizeof uri, &len);
    free(body);
    fprintf(stderr, "%.*s ", (int)len, (const char *)uri);
    print_text("refused", reason);
}

/* What becomes of a message that was taken: the status to end with, or that the session goes on. */
static int answered(laspidru_handle *server, laspidru_size body_len, laspidru_answer answer) {
    laspidru_state state = {0};
    switch (answer.kind) {
    case LASPIDRU_REPLIED: /* with the error -32601 the request is yours: answer it instead */
        if (answer.error == -32700 || answer.error == -32600) /* a change may be lost with it */
            fprintf(stderr, "faulty: error %d\n", (int)answer.error);
        return reply(server, answer.reply_len) ? GOES_ON : FAILED;
    case LASPIDRU_CHANGED:
        laspidru_session_state(server, &state);
        fprintf(stderr, "changed: %zu open\n", (size_t)state.documents);
        return GOES_ON;
    case LASPIDRU_REFUSED:
        print_refused(server, body_len, answer.reason);
        return GOES_ON;
    case LASPIDRU_EXITED:
        return (int)answer.status;
    default: /* dropped, or yours */
        return GOES_ON;
    }
}

/* Takes all messages that end in a piece of the stream. */
static int take(laspidru_handle *server, const unsigned char *piece, laspidru_size len) {
    laspidru_taken taken;
    laspidru_answer answer;
    int status = GOES_ON;
    while (len > 0 && status == GOES_ON) {
        if (laspidru_session_feed(server, piece, len, &taken, &answer) != LASPIDRU_OK)
            return FAILED;
        piece += taken.bytes;
        len -= taken.bytes;
        if (taken.is_whole)
            status = answered(server, taken.body_len, answer);
    }
    return status;
}

int main(void) {
    laspidru_settings settings = LASPIDRU_SETTINGS_DEFAULT;
    laspidru_handle server = {0};
    unsigned char piece[4096];
    int status = laspidru_server_new(&server, &settings) == LASPIDRU_OK ? GOES_ON : FAILED;
    ssize_t len;
    while (status == GOES_ON && (len = read(STDIN_FILENO, piece, sizeof piece)) > 0)
        status = take(&server, piece, (laspidru_size)len);
    laspidru_handle_free(&server);
    return status == GOES_ON ? 1 : status; /* the stream ended before `exit` */
}
