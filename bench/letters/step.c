/* step LINES: what a keystroke's didChange costs a server through C, in nanoseconds of the processor, the least of many short rounds: by
   laspidru_session_feed from the frame's bytes, then by laspidru_session_deliver from the body. The text and the keystrokes are those of
   the row `write, and Server::handle` of `lsp_bench pairs`, which also writes each message. */
#include <stdio.h>
#include <stdlib.h>
#include <string.h>
#include <time.h>

#include "laspidru.h"

enum { COUNT = 200, ROUNDS = 60, ROOM = 512 };
typedef const unsigned char *bytes;

static const char line[] = "    let answer = question.map(|x| x+1);\\n";
static const char initialize[] = "{\"jsonrpc\":\"2.0\",\"id\":1,\"method\":\"initialize\",\"params\":{\"capabilities\":{}}}";
static char frames[COUNT][ROOM], *opening;
static size_t lens[COUNT], body_lens[COUNT];

static double now(void) {
    struct timespec at;
    clock_gettime(CLOCK_PROCESS_CPUTIME_ID, &at);
    return at.tv_sec * 1e9 + at.tv_nsec;
}

static void demand(int is_so) {
    if (!is_so) {
        fputs("a call is refused\n", stderr);
        exit(1);
    }
}

/* The messages of a session: didOpen's body, and the frames of the keystrokes. */
static void write_messages(size_t lines) {
    char body[ROOM];
    size_t i, at;
    opening = malloc(lines * (sizeof line - 1) + 256);
    at = (size_t)sprintf(opening, "{\"jsonrpc\":\"2.0\",\"method\":\"textDocument/didOpen\",\"params\":{\"textDocument\":"
                                  "{\"uri\":\"file:///home/user/project/src/main.rs\",\"languageId\":\"rust\",\"version\":0,\"text\":\"");
    for (i = 0; i < lines; i++, at += sizeof line - 1)
        memcpy(opening + at, line, sizeof line - 1);
    strcpy(opening + at, "\"}}}");
    for (i = 0; i < COUNT; i++) {
        unsigned place = (unsigned)((i / 2 * 7919 + lines / 2) % lines), is_put_in = i % 2 == 0;
        body_lens[i] = (size_t)sprintf(body, "{\"jsonrpc\":\"2.0\",\"method\":\"textDocument/didChange\",\"params\":{\"textDocument\":"
                                             "{\"uri\":\"file:///home/user/project/src/main.rs\",\"version\":%zu},\"contentChanges\":[{\"range\":{\"start\":"
                                             "{\"line\":%u,\"character\":8},\"end\":{\"line\":%u,\"character\":%u}},\"text\":\"%s\"}]}}",
                                       i + 1, place, place, is_put_in ? 8 : 9, is_put_in ? "x" : "");
        lens[i] = (size_t)sprintf(frames[i], "Content-Length: %zu\r\n\r\n%s", body_lens[i], body);
    }
}

static void begin(laspidru_handle *server) {
    laspidru_settings settings = LASPIDRU_SETTINGS_DEFAULT;
    laspidru_answer answer;
    demand(laspidru_server_new(server, &settings) == LASPIDRU_OK);
    demand(laspidru_session_deliver(server, (bytes)initialize, strlen(initialize), &answer) == LASPIDRU_OK);
    demand(laspidru_session_deliver(server, (bytes)opening, strlen(opening), &answer) == LASPIDRU_OK && answer.kind == LASPIDRU_CHANGED);
}

/* What a keystroke costs in one round. */
static double round_of(int from_bytes) {
    laspidru_handle server = {0};
    laspidru_answer answer;
    laspidru_taken taken;
    begin(&server);
    double start = now();
    for (size_t i = 0; i < COUNT; i++)
        if (from_bytes)
            demand(laspidru_session_feed(&server, (bytes)frames[i], lens[i], &taken, &answer) == LASPIDRU_OK && taken.is_whole &&
                   answer.kind == LASPIDRU_CHANGED);
        else
            demand(laspidru_session_deliver(&server, (bytes)frames[i] + lens[i] - body_lens[i], body_lens[i], &answer) == LASPIDRU_OK &&
                   answer.kind == LASPIDRU_CHANGED);
    double each = (now() - start) / COUNT;
    laspidru_handle_free(&server);
    return each;
}

int main(int argc, char **argv) {
    double least[2] = {1e18, 1e18};
    write_messages(argc > 1 ? strtoul(argv[1], NULL, 10) : 1000);
    for (int round = 0; round < 2 * ROUNDS; round++) {
        double each = round_of(round % 2);
        least[round % 2] = each < least[round % 2] ? each : least[round % 2];
    }
    printf("%.0f %.0f\n", least[1], least[0]);
    return 0;
}
