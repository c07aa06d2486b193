/* A module for Emacs: laspidru's client end of a session. Its functions take and return strings; laspidru-eglot.el says what they do. */
#include <stdlib.h>
#include <string.h>

#include <emacs-module.h>

#include "laspidru.h"

int plugin_is_GPL_compatible;

/* The bytes of a string of Lisp, of a text, or of a message. */
typedef struct bytes {
    unsigned char *at;
    size_t len;
} bytes;

typedef struct client {
    laspidru_handle handle;
    laspidru_u32 encoding;
} client;

static emacs_value refuse(emacs_env *env, laspidru_u32 code) {
    emacs_value data = env->make_integer(env, code);
    env->non_local_exit_signal(env, env->intern(env, "laspidru-refused"),
                               env->funcall(env, env->intern(env, "list"), 1, &data));
    return env->intern(env, "nil");
}

static void *allocated(emacs_env *env, size_t size) {
    void *at = malloc(size ? size : 1);
    if (!at)
        refuse(env, LASPIDRU_OUT_OF_MEMORY);
    return at;
}

/* Copies a string of Lisp, which has a NUL after its bytes. Where `at` is null an error is pending. */
static bytes bytes_of(emacs_env *env, emacs_value string) {
    ptrdiff_t size = 0;
    bytes copy = {0, 0};
    if (!env->copy_string_contents(env, string, 0, &size))
        return copy;
    copy.at = allocated(env, size);
    copy.len = size - 1;
    if (copy.at && !env->copy_string_contents(env, string, (char *)copy.at, &size)) {
        free(copy.at);
        copy.at = 0;
    }
    return copy;
}

static void close_client(void *pointer) {
    client *it = pointer;
    laspidru_handle_free(&it->handle);
    free(it);
}

/* The body of the message that the client left to be sent, or why it left none. */
static emacs_value body_of(emacs_env *env, client *it, laspidru_u32 code, laspidru_size frame_len) {
    if (code)
        return refuse(env, code);
    unsigned char *frame = allocated(env, frame_len);
    if (!frame)
        return refuse(env, LASPIDRU_OUT_OF_MEMORY);
    laspidru_size copied, start = 0;
    code = laspidru_session_frame(&it->handle, 0, frame, frame_len, &copied);
    while (!code && start + 4 <= copied && memcmp(frame + start, "\r\n\r\n", 4))
        start++;
    emacs_value body = code ? refuse(env, code) : env->make_string(env, (char *)frame + start + 4, copied - start - 4);
    free(frame);
    return body;
}

/* (laspidru-module-client RESPONSE UTF8 UTF32 MAX-TEXT MAX-BODY) */
static emacs_value make_client(emacs_env *env, ptrdiff_t count, emacs_value *given, void *data) {
    (void)count, (void)data;
    laspidru_client_settings settings = LASPIDRU_CLIENT_SETTINGS_DEFAULT;
    settings.utf8 = env->is_not_nil(env, given[1]);
    settings.utf32 = env->is_not_nil(env, given[2]);
    settings.max_text = env->extract_integer(env, given[3]);
    settings.max_body = env->extract_integer(env, given[4]);
    bytes response = bytes_of(env, given[0]);
    client *it = response.at ? allocated(env, sizeof *it) : 0;
    if (!it || env->non_local_exit_check(env)) {
        free(it);
        free(response.at);
        return given[0];
    }
    *it = (client){{0, 0}, 0};
    laspidru_size frame_len;
    laspidru_answer answer = {0, 0, 0, 0, 0};
    laspidru_state state = {0, 0, 0, 0};
    laspidru_u32 code = laspidru_client_new(&it->handle, &settings);
    if (!code)
        code = laspidru_client_start(&it->handle, &frame_len);
    if (!code)
        code = laspidru_session_deliver(&it->handle, response.at, response.len, &answer);
    if (!code)
        code = answer.kind == LASPIDRU_BAD_SERVER ? answer.reason : laspidru_session_state(&it->handle, &state);
    free(response.at);
    it->encoding = state.encoding;
    if (!code)
        return env->make_user_ptr(env, close_client, it);
    close_client(it);
    return refuse(env, code);
}

/* (laspidru-module-open CLIENT URI LANGUAGE VERSION TEXT) */
static emacs_value open_document(emacs_env *env, ptrdiff_t count, emacs_value *given, void *data) {
    (void)count, (void)data;
    client *it = env->get_user_ptr(env, given[0]);
    laspidru_i32 version = (laspidru_i32)env->extract_integer(env, given[3]);
    bytes uri = bytes_of(env, given[1]), language = bytes_of(env, given[2]), text = bytes_of(env, given[4]);
    emacs_value body = given[0];
    if (!env->non_local_exit_check(env)) {
        laspidru_size frame_len = 0;
        laspidru_u32 code = laspidru_client_did_open(&it->handle, uri.at, uri.len, language.at, language.len, version, text.at, text.len,
                                                 &frame_len);
        body = body_of(env, it, code, frame_len);
    }
    free(uri.at);
    free(language.at);
    free(text.at);
    return body;
}

/* The text of an open document. */
static bytes text_of(emacs_env *env, client *it, bytes uri) {
    laspidru_opened opened;
    bytes text = {0, 0};
    laspidru_u32 code = laspidru_session_document_state(&it->handle, uri.at, uri.len, &opened);
    if (code)
        refuse(env, code);
    else if ((text.at = allocated(env, opened.bytes)))
        laspidru_session_document_text(&it->handle, uri.at, uri.len, 0, text.at, opened.bytes, &text.len);
    return text;
}

/* Whether a position of the document is at this byte offset. */
static int is_border(client *it, bytes uri, size_t offset, laspidru_position *position) {
    return laspidru_session_document_position(&it->handle, uri.at, uri.len, it->encoding, offset, position) == LASPIDRU_OK;
}

/* One message for what differs between a document and a text, in the smallest range whose ends are positions. */
static laspidru_u32 edit(client *it, bytes uri, laspidru_i32 version, bytes old, bytes new, laspidru_size *frame_len) {
    size_t least = old.len < new.len ? old.len : new.len, head = 0, tail = 0;
    laspidru_edit change = {{0, 0}, {0, 0}, 0, 0};
    laspidru_fault fault;
    while (head < least && old.at[head] == new.at[head])
        head++;
    if (head == old.len && head == new.len)
        return laspidru_client_did_change(&it->handle, uri.at, uri.len, version, &change, 0, new.at, 0, &fault, frame_len);
    while (!is_border(it, uri, head, &change.start) && head > 0)
        head--;
    while (tail < least - head && old.at[old.len - tail - 1] == new.at[new.len - tail - 1])
        tail++;
    while (!is_border(it, uri, old.len - tail, &change.end) && tail > 0)
        tail--;
    change.len = new.len - head - tail;
    return laspidru_client_did_change(&it->handle, uri.at, uri.len, version, &change, 1, new.at + head, change.len, &fault, frame_len);
}

/* (laspidru-module-change CLIENT URI VERSION TEXT) */
static emacs_value change_document(emacs_env *env, ptrdiff_t count, emacs_value *given, void *data) {
    (void)count, (void)data;
    client *it = env->get_user_ptr(env, given[0]);
    laspidru_i32 version = (laspidru_i32)env->extract_integer(env, given[2]);
    bytes uri = bytes_of(env, given[1]), new = bytes_of(env, given[3]), old = {0, 0};
    emacs_value body = given[0];
    if (!env->non_local_exit_check(env))
        old = text_of(env, it, uri);
    if (!env->non_local_exit_check(env)) {
        laspidru_size frame_len = 0;
        laspidru_u32 code = edit(it, uri, version, old, new, &frame_len);
        body = body_of(env, it, code, frame_len);
    }
    free(uri.at);
    free(new.at);
    free(old.at);
    return body;
}

/* (laspidru-module-close CLIENT URI) */
static emacs_value close_document(emacs_env *env, ptrdiff_t count, emacs_value *given, void *data) {
    (void)count, (void)data;
    client *it = env->get_user_ptr(env, given[0]);
    bytes uri = bytes_of(env, given[1]);
    if (env->non_local_exit_check(env))
        return given[0];
    laspidru_size frame_len = 0;
    laspidru_u32 code = laspidru_client_did_close(&it->handle, uri.at, uri.len, &frame_len);
    free(uri.at);
    return body_of(env, it, code, frame_len);
}

static void define(emacs_env *env, const char *name, ptrdiff_t arity,
                   emacs_value (*call)(emacs_env *, ptrdiff_t, emacs_value *, void *)) {
    emacs_value given[] = {env->intern(env, name), env->make_function(env, arity, arity, call, "See laspidru-eglot.el.", 0)};
    env->funcall(env, env->intern(env, "defalias"), 2, given);
}

int emacs_module_init(struct emacs_runtime *runtime) {
    emacs_env *env = runtime->get_environment(runtime);
    emacs_value feature = env->intern(env, "laspidru-module");
    define(env, "laspidru-module-client", 5, make_client);
    define(env, "laspidru-module-open", 5, open_document);
    define(env, "laspidru-module-change", 4, change_document);
    define(env, "laspidru-module-close", 2, close_document);
    env->funcall(env, env->intern(env, "provide"), 1, &feature);
    return 0;
}
