/* Both ends of sessions in C, as `bindings/sessions` asks for them. */
#include <stdio.h>
#include <stdlib.h>
#include <string.h>

#include "laspidru.h"

enum { ROOM = 1 << 14, MOST = 256 };
typedef const unsigned char *bytes;
struct queue { unsigned char *frames[MOST]; laspidru_size lens[MOST]; int first, count; };

static laspidru_handle client, server;
static struct queue to_server, to_client;
static const char *const URIS[] = {"file:///a", "file:///b", "file:///c"};

static void demand(laspidru_u32 code) {
    if (code == LASPIDRU_OK) return;
    fprintf(stderr, "an unexpected code: %u\n", code);
    exit(2);
}

/* Copies the frame to send, which has so many bytes, the first half and then the rest. */
static unsigned char *copied(laspidru_handle *handle, laspidru_size len) {
    unsigned char *out = malloc(len + 1);
    laspidru_size first, rest;
    demand(laspidru_session_frame(handle, 0, out, len / 2, &first));
    demand(laspidru_session_frame(handle, first, out + first, len - first, &rest));
    if (first + rest != len) demand(99);
    return out;
}

static void push(struct queue *queue, laspidru_handle *handle, laspidru_size len) {
    int at = (queue->first + queue->count++) % MOST;
    queue->frames[at] = copied(handle, len);
    queue->lens[at] = len;
}

/* An end takes the first frame that waits, in two pieces. False where none waits. */
static int take(struct queue *queue, laspidru_handle *end, laspidru_answer *answer) {
    if (queue->count == 0) return 0;
    unsigned char *frame = queue->frames[queue->first];
    laspidru_size all = queue->lens[queue->first], cut = all * 2 / 3;
    laspidru_taken taken;
    queue->first = (queue->first + 1) % MOST;
    queue->count--;
    demand(laspidru_session_feed(end, frame, cut, &taken, answer));
    if (taken.is_whole || taken.bytes != cut) demand(99);
    demand(laspidru_session_feed(end, frame + cut, all - cut, &taken, answer));
    if (!taken.is_whole || taken.bytes != all - cut) demand(99);
    free(frame);
    return 1;
}

static void serve(void) {
    laspidru_answer answer;
    if (!take(&to_server, &server, &answer)) { puts("nothing"); return; }
    if (answer.kind == LASPIDRU_REPLIED) push(&to_client, &server, answer.reply_len);
    printf("server %u %u %u %d\n", answer.kind, answer.reason, answer.status, answer.error);
}

static void hear(void) {
    laspidru_answer answer;
    if (!take(&to_client, &client, &answer)) { puts("nothing"); return; }
    if (answer.kind == LASPIDRU_REPLIED) push(&to_server, &client, answer.reply_len);
    printf("client %u %u\n", answer.kind, answer.reason);
}

static void called(laspidru_u32 code, laspidru_size len) {
    if (code != LASPIDRU_OK) { printf("refused %u\n", code); return; }
    push(&to_server, &client, len);
    puts("sent");
}

/* Undoes the escapes, up to the end of the line. */
static laspidru_size plain(const char *from, char *to) {
    char *start = to;
    for (; *from && *from != '\n'; from++, to++)
        *to = *from != '\\' ? *from : *++from == 'n' ? '\n' : *from == 'r' ? '\r' : '\\';
    return to - start;
}

static void edit(const char *uri, int version, int count) {
    static char line[ROOM], texts[MOST * ROOM];
    static laspidru_edit edits[MOST];
    laspidru_size texts_len = 0, len = 0;
    laspidru_fault fault;
    for (int i = 0; i < count; i++) {
        laspidru_edit *it = &edits[i];
        char word[8];
        int at;
        if (fgets(line, sizeof line, stdin) == NULL) demand(99);
        if (sscanf(line, "%7s %u %u %u %u%n", word, &it->start.line, &it->start.character, &it->end.line, &it->end.character, &at) != 5)
            demand(99);
        it->is_whole = *word == 'w';
        texts_len += it->len = plain(line + at + 1, texts + texts_len);
    }
    laspidru_u32 code = laspidru_client_did_change(&client, (bytes)uri, strlen(uri), version, edits, count, (bytes)texts, texts_len, &fault, &len);
    called(code, len);
}

static void print_document(const char *name, laspidru_handle *end, const char *uri) {
    static unsigned char out[ROOM];
    laspidru_opened opened;
    laspidru_size count;
    if (laspidru_session_document_state(end, (bytes)uri, strlen(uri), &opened) == LASPIDRU_NOT_OPEN) return;
    demand(laspidru_session_document_text(end, (bytes)uri, strlen(uri), 0, out, sizeof out, &count));
    if (count != opened.bytes) demand(99);
    printf("%s %s %d ", name, uri, opened.version);
    for (laspidru_size i = 0; i < count; i++)
        if (out[i] == '\\') printf("\\\\");
        else if (out[i] == '\n') printf("\\n");
        else if (out[i] == '\r') printf("\\r");
        else putchar(out[i]);
    putchar('\n');
}

static void end_session(void) {
    printf("waiting %d %d\n", to_server.count, to_client.count);
    for (int i = 0; i < 3; i++) {
        print_document("client", &client, URIS[i]);
        print_document("server", &server, URIS[i]);
    }
    laspidru_handle_free(&client);
    laspidru_handle_free(&server);
    for (; to_server.count; to_server.count--) free(to_server.frames[to_server.first++ % MOST]);
    for (; to_client.count; to_client.count--) free(to_client.frames[to_client.first++ % MOST]);
    to_server.first = to_client.first = 0;
}

static void begin(const char *line) {
    int utf8, utf32, preferred, full;
    laspidru_size text, docs, changes;
    if (sscanf(line, "session %d %d %d %d %zu %zu %zu", &utf8, &utf32, &preferred, &full, &text, &docs, &changes) != 7) demand(99);
    laspidru_settings settings = {.max_body = 16777216, .max_text = text, .max_docs = docs, .max_changes = changes, .encoding = preferred, .whole_texts = full};
    laspidru_client_settings offers = {.max_body = 16777216, .max_text = text, .max_docs = docs, .max_changes = changes, .utf8 = utf8, .utf32 = utf32};
    demand(laspidru_server_new(&server, &settings));
    demand(laspidru_client_new(&client, &offers));
}

static const struct {
    const char *line;
    laspidru_u32 (*call)(laspidru_handle *, laspidru_size *);
} LIFECYCLE[] = {{"start\n", laspidru_client_start}, {"shutdown\n", laspidru_client_shutdown}, {"exit\n", laspidru_client_exit}};

/* False where the line is no call of the lifecycle. */
static int lifecycle(const char *line) {
    laspidru_size len = 0;
    for (size_t i = 0; i < sizeof LIFECYCLE / sizeof *LIFECYCLE; i++) {
        if (strcmp(line, LIFECYCLE[i].line)) continue;
        laspidru_u32 code = LIFECYCLE[i].call(&client, &len);
        called(code, len);
        return 1;
    }
    return 0;
}

static void open_document(const char *uri, int version, const char *escaped) {
    static char text[ROOM];
    laspidru_size text_len = plain(escaped, text), len = 0;
    laspidru_u32 code = laspidru_client_did_open(&client, (bytes)uri, strlen(uri), (bytes)"c", 1, version, (bytes)text, text_len, &len);
    called(code, len);
}

static void close_document(const char *uri) {
    laspidru_size len = 0;
    laspidru_u32 code = laspidru_client_did_close(&client, (bytes)uri, strlen(uri), &len);
    called(code, len);
}

int main(void) {
    static char line[ROOM], uri[64];
    int version, count, at;
    while (fgets(line, sizeof line, stdin)) {
        if (!strncmp(line, "session ", 8)) begin(line);
        else if (lifecycle(line)) continue;
        else if (sscanf(line, "open %63s %d%n", uri, &version, &at) == 2) open_document(uri, version, line + at + 1);
        else if (sscanf(line, "close %63s", uri) == 1) close_document(uri);
        else if (sscanf(line, "edit %63s %d %d", uri, &version, &count) == 3) edit(uri, version, count);
        else if (!strcmp(line, "toServer\n")) serve();
        else if (!strcmp(line, "toClient\n")) hear();
        else if (!strcmp(line, "end\n")) end_session();
    }
    return 0;
}
