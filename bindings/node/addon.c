/* The library for Node, by N-API: its functions, as module.js calls them. It is the only caller. A handle is an external, which the collector
   frees. Bytes are a typed array, or a place in the room that `bind` was passed. */
#include <node_api.h>
#include <stdlib.h>

#include "laspidru.h"

enum { MOST_ARGUMENTS = 13 };

/* An argument of the library. */
typedef struct {
    laspidru_u64 n;
    void *at;
    laspidru_position position;
} value;

/* A function of the library: its name, the kinds of its arguments, and what calls it. */
typedef struct {
    const char *name, *kinds;
    laspidru_u32 (*call)(const value *);
} function;

/* declared: by tools/declared */
#define EACH(CALL) \
    CALL(version, "") \
    CALL(code_text, "nnbnb", a[0].n, a[1].n, a[2].at, a[3].n, a[4].at) \
    CALL(document_new, "hbn", a[0].at, a[1].at, a[2].n) \
    CALL(document_change, "hnbnbnb", a[0].at, a[1].n, a[2].at, a[3].n, a[4].at, a[5].n, a[6].at) \
    CALL(document_size, "hb", a[0].at, a[1].at) \
    CALL(document_line, "hnb", a[0].at, a[1].n, a[2].at) \
    CALL(document_copy, "hnbnb", a[0].at, a[1].n, a[2].at, a[3].n, a[4].at) \
    CALL(document_offset, "hnxb", a[0].at, a[1].n, a[2].position, a[3].at) \
    CALL(document_position, "hnnb", a[0].at, a[1].n, a[2].n, a[3].at) \
    CALL(document_canonical, "hnbnbnhb", a[0].at, a[1].n, a[2].at, a[3].n, a[4].at, a[5].n, a[6].at, a[7].at) \
    CALL(document_apply_edits, "hnbnbnb", a[0].at, a[1].n, a[2].at, a[3].n, a[4].at, a[5].n, a[6].at) \
    CALL(document_batch_of_edits, "hnbnbnhb", a[0].at, a[1].n, a[2].at, a[3].n, a[4].at, a[5].n, a[6].at, a[7].at) \
    CALL(batch_len, "hb", a[0].at, a[1].at) \
    CALL(batch_edit, "hnbbnb", a[0].at, a[1].n, a[2].at, a[3].at, a[4].n, a[5].at) \
    CALL(framer_new, "hn", a[0].at, a[1].n) \
    CALL(framer_feed, "hbnb", a[0].at, a[1].at, a[2].n, a[3].at) \
    CALL(framer_body, "hnbnb", a[0].at, a[1].n, a[2].at, a[3].n, a[4].at) \
    CALL(framer_next, "h", a[0].at) \
    CALL(framer_at_rest, "hb", a[0].at, a[1].at) \
    CALL(server_new, "hb", a[0].at, a[1].at) \
    CALL(client_new, "hb", a[0].at, a[1].at) \
    CALL(client_start, "hb", a[0].at, a[1].at) \
    CALL(client_did_open, "hbnbnnbnb", a[0].at, a[1].at, a[2].n, a[3].at, a[4].n, a[5].n, a[6].at, a[7].n, a[8].at) \
    CALL(client_did_change, "hbnnbnbnbb", a[0].at, a[1].at, a[2].n, a[3].n, a[4].at, a[5].n, a[6].at, a[7].n, a[8].at, a[9].at) \
    CALL(client_did_close, "hbnb", a[0].at, a[1].at, a[2].n, a[3].at) \
    CALL(client_shutdown, "hb", a[0].at, a[1].at) \
    CALL(client_exit, "hb", a[0].at, a[1].at) \
    CALL(session_feed, "hbnbb", a[0].at, a[1].at, a[2].n, a[3].at, a[4].at) \
    CALL(session_body, "hnbnb", a[0].at, a[1].n, a[2].at, a[3].n, a[4].at) \
    CALL(session_deliver, "hbnb", a[0].at, a[1].at, a[2].n, a[3].at) \
    CALL(session_frame, "hnbnb", a[0].at, a[1].n, a[2].at, a[3].n, a[4].at) \
    CALL(session_state, "hb", a[0].at, a[1].at) \
    CALL(message_uri, "bnnbnb", a[0].at, a[1].n, a[2].n, a[3].at, a[4].n, a[5].at) \
    CALL(session_document_state, "hbnb", a[0].at, a[1].at, a[2].n, a[3].at) \
    CALL(session_document_text, "hbnnbnb", a[0].at, a[1].at, a[2].n, a[3].n, a[4].at, a[5].n, a[6].at) \
    CALL(session_document_offset, "hbnnxb", a[0].at, a[1].at, a[2].n, a[3].n, a[4].position, a[5].at) \
    CALL(session_document_position, "hbnnnb", a[0].at, a[1].at, a[2].n, a[3].n, a[4].n, a[5].at) \
    CALL(session_document_line, "hbnnb", a[0].at, a[1].at, a[2].n, a[3].n, a[4].at) \
    CALL(session_document_batch_of_edits, "hbnnbnbnhb", a[0].at, a[1].at, a[2].n, a[3].n, a[4].at, a[5].n, a[6].at, a[7].n, a[8].at, a[9].at) \
    CALL(session_document_canonical_message, "hbnnnbnbnhbb", a[0].at, a[1].at, a[2].n, a[3].n, a[4].n, a[5].at, a[6].n, a[7].at, a[8].n, a[9].at, a[10].at, a[11].at) \
    CALL(log_run, "hnbbnbnb", a[0].at, a[1].n, a[2].at, a[3].at, a[4].n, a[5].at, a[6].n, a[7].at) \
    CALL(log_compare, "hbbnbnbnb", a[0].at, a[1].at, a[2].at, a[3].n, a[4].at, a[5].n, a[6].at, a[7].n, a[8].at) \
    CALL(output_copy, "hnbnb", a[0].at, a[1].n, a[2].at, a[3].n, a[4].at) \

/* end of declared */

#define CALL(name, kinds, ...) \
    static laspidru_u32 call_##name(const value *a) { \
        (void)a; \
        return laspidru_##name(__VA_ARGS__); \
    }
EACH(CALL)

#define ROW(name, kinds, ...) {#name, kinds, call_##name},
static const function functions[] = {EACH(ROW)};

enum { COUNT = sizeof functions / sizeof *functions };

/* What one instance of the addon has: the room of its calls, and its functions with it. */
typedef struct instance instance;

typedef struct {
    const function *it;
    instance *of;
} bound;

struct instance {
    unsigned char *room;
    napi_ref array;
    bound functions[COUNT];
};

/* A handle, and how many bytes of its document the collector knows of. */
typedef struct {
    laspidru_handle handle;
    int64_t reported;
} held;

static napi_value refuse_arguments(napi_env env) {
    napi_throw_type_error(env, NULL, "an argument has another type");
    return NULL;
}

static napi_value run_out(napi_env env) {
    napi_throw_error(env, "OUT_OF_MEMORY", "out of memory");
    return NULL;
}

static void report_size(napi_env env, held *it, int64_t bytes) {
    int64_t all;
    if (bytes != it->reported && napi_adjust_external_memory(env, bytes - it->reported, &all) == napi_ok)
        it->reported = bytes;
}

static void free_held(napi_env env, void *data, void *hint) {
    held *it = data;
    (void)hint;
    laspidru_handle_free(&it->handle);
    report_size(env, it, 0);
    free(it);
}

/* handle(): an empty handle */
static napi_value new_handle(napi_env env, napi_callback_info info) {
    napi_value out = NULL;
    held *it = calloc(1, sizeof *it);
    (void)info;
    if (it != NULL && napi_create_external(env, it, free_held, NULL, &out) == napi_ok)
        return out;
    free(it);
    return run_out(env);
}

/* isFull(handle), drop(handle), report(handle, bytes): a handle alone, which isn't of the library's calls */
static held *held_of(napi_env env, napi_callback_info info, size_t count, napi_value *found) {
    void *it = NULL;
    return napi_get_cb_info(env, info, &count, found, NULL, NULL) == napi_ok && napi_get_value_external(env, found[0], &it) == napi_ok ? it : NULL;
}

static napi_value is_full(napi_env env, napi_callback_info info) {
    napi_value found[1], out = NULL;
    held *it = held_of(env, info, 1, found);
    return it != NULL && napi_get_boolean(env, it->handle.is_full, &out) == napi_ok ? out : refuse_arguments(env);
}

static napi_value drop(napi_env env, napi_callback_info info) {
    napi_value found[1];
    held *it = held_of(env, info, 1, found);
    if (it == NULL)
        return refuse_arguments(env);
    laspidru_handle_free(&it->handle);
    return NULL;
}

static napi_value report(napi_env env, napi_callback_info info) {
    napi_value found[2];
    int64_t bytes;
    held *it = held_of(env, info, 2, found);
    if (it == NULL || napi_get_value_int64(env, found[1], &bytes) != napi_ok)
        return refuse_arguments(env);
    report_size(env, it, bytes);
    return NULL;
}

/* The elements of a typed array. */
static int elements(napi_env env, napi_value array, void **found) {
    static unsigned char no_bytes[1];
    size_t count;
    if (napi_get_typedarray_info(env, array, NULL, &count, found, NULL, NULL) != napi_ok)
        return 0;
    if (count == 0)
        *found = no_bytes;
    return 1;
}

/* bind(array): the room of the calls */
static napi_value bind(napi_env env, napi_callback_info info) {
    napi_value found[1];
    size_t count = 1;
    void *of, *room;
    if (napi_get_cb_info(env, info, &count, found, NULL, &of) != napi_ok || !elements(env, found[0], &room))
        return refuse_arguments(env);
    instance *it = of;
    if (it->array != NULL || napi_create_reference(env, found[0], 1, &it->array) != napi_ok)
        return refuse_arguments(env);
    it->room = room;
    return NULL;
}

/* Reads an argument of a kind: a handle, bytes, or a number. Bytes may be null, for a string that the call copies. */
static int read_value(napi_env env, const instance *of, char kind, napi_value given, value *out) {
    uint32_t place;
    napi_valuetype type;
    if (kind == 'h')
        return napi_get_value_external(env, given, &out->at) == napi_ok; /* (the handle is the first member) */
    if (kind == 'n')
        return napi_get_value_int64(env, given, (int64_t *)&out->n) == napi_ok;
    out->at = NULL;
    if (napi_get_value_uint32(env, given, &place) != napi_ok)
        return elements(env, given, &out->at) || (napi_typeof(env, given, &type) == napi_ok && type == napi_null);
    out->at = of->room + place;
    return of->room != NULL;
}

/* The string that a call copies, or its code. After the bytes come their room, and how many were copied. */
static napi_value string_of(napi_env env, const function *it, value *values, value *copies) {
    napi_value out = NULL;
    copies->at = malloc(copies[1].n + 1);
    if (copies->at == NULL)
        return run_out(env);
    laspidru_u32 code = it->call(values);
    napi_status status = code == LASPIDRU_OK ? napi_create_string_utf8(env, copies->at, *(laspidru_size *)copies[2].at, &out)
                                             : napi_create_uint32(env, code, &out);
    free(copies->at);
    return status == napi_ok ? out : run_out(env);
}

/* A function of the library. */
static napi_value called(napi_env env, napi_callback_info info) {
    napi_value found[MOST_ARGUMENTS], out = NULL;
    value values[MOST_ARGUMENTS], *copies = NULL;
    size_t count = MOST_ARGUMENTS, i = 0;
    void *data;
    if (napi_get_cb_info(env, info, &count, found, NULL, &data) != napi_ok)
        return refuse_arguments(env);
    const bound *it = data;
    for (const char *kind = it->it->kinds; *kind != 0; kind++, i++) {
        value *to = &values[kind - it->it->kinds];
        if (*kind == 'x' ? napi_get_value_uint32(env, found[i], &to->position.line) != napi_ok ||
                               napi_get_value_uint32(env, found[++i], &to->position.character) != napi_ok
                         : !read_value(env, it->of, *kind, found[i], to))
            return refuse_arguments(env);
        if (*kind == 'b' && to->at == NULL)
            copies = to;
    }
    if (copies != NULL)
        return string_of(env, it->it, values, copies);
    return napi_create_uint32(env, it->it->call(values), &out) == napi_ok ? out : run_out(env);
}

static void free_instance(napi_env env, void *data, void *hint) {
    (void)env;
    (void)hint;
    free(data);
}

static int define(napi_env env, napi_value exports, const char *name, napi_callback callback, void *data) {
    const napi_property_descriptor it = {name, 0, callback, 0, 0, 0, napi_enumerable, data};
    return napi_define_properties(env, exports, 1, &it) == napi_ok;
}

NAPI_MODULE_INIT() {
    instance *it = calloc(1, sizeof *it);
    int is_made = it != NULL && napi_set_instance_data(env, it, free_instance, NULL) == napi_ok && define(env, exports, "bind", bind, it) &&
                  define(env, exports, "handle", new_handle, NULL) && define(env, exports, "isFull", is_full, NULL) &&
                  define(env, exports, "drop", drop, NULL) && define(env, exports, "report", report, NULL);
    for (size_t i = 0; is_made && i < COUNT; i++) {
        it->functions[i] = (bound){&functions[i], it};
        is_made = define(env, exports, functions[i].name, called, &it->functions[i]);
    }
    return is_made ? exports : run_out(env);
}
