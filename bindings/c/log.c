/* Prints what a server answers to each record of the log on standard input, as `lspsync check` does. */
#include <stdio.h>
#include <stdlib.h>

#include "laspidru.h"

/* Reads standard input to its end. Returns NULL where memory runs out. */
static unsigned char *read_all(size_t *len) {
    size_t room = 65536, got;
    unsigned char *bytes = malloc(room), *more;
    *len = 0;
    while (bytes && (got = fread(bytes + *len, 1, room - *len, stdin)) > 0) {
        *len += got;
        if (*len < room)
            continue;
        room *= 2;
        more = realloc(bytes, room);
        if (!more)
            free(bytes);
        bytes = more;
    }
    return bytes;
}

/* Writes a command's output, part by part. */
static void print_output(laspidru_handle *output) {
    unsigned char part[4096];
    laspidru_size start = 0, copied = 0;
    while (laspidru_output_copy(output, start, part, sizeof part, &copied) == LASPIDRU_OK && copied > 0) {
        fwrite(part, 1, copied, stdout);
        start += copied;
    }
}

int main(void) {
    laspidru_log_settings settings = LASPIDRU_LOG_SETTINGS_DEFAULT;
    laspidru_handle output = {0};
    laspidru_ending ending = {0};
    size_t len;
    unsigned char *log = read_all(&len);
    if (!log)
        return 4;
    laspidru_u32 code = laspidru_log_run(&output, LASPIDRU_CHECK, &settings, log, 0, log, len, &ending);
    print_output(&output);
    laspidru_handle_free(&output);
    free(log);
    if (code == LASPIDRU_OK)
        return (int)ending.status;
    fprintf(stderr, "code %u at %llu\n", (unsigned)code, (unsigned long long)ending.offset);
    return 5;
}
