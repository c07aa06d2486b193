/* Runs the library's commands on the logs of standard input, as ask.js does and check.py asks: each is three numbers (the command, the encoding,
   how long the log is) and the log. An answer is two numbers (the status, or FAULT; how long the output is) and the output. Numbers are
   uint32_t, little endian. */
#include <stdint.h>
#include <stdio.h>
#include <stdlib.h>
#include "laspidru.h"

enum { FAULT = 2 };
static const laspidru_u32 COMMANDS[] = {LASPIDRU_CHECK, LASPIDRU_REPLAY, LASPIDRU_NORMALISE, LASPIDRU_CONVERT};

static unsigned char *owned(size_t len) {
    unsigned char *at = malloc(len + 1);
    if (!at)
        exit(4);
    return at;
}

int main(void) {
    uint32_t asked[3];
    while (fread(asked, sizeof asked, 1, stdin) == 1) {
        unsigned char *log = owned(asked[2]);
        laspidru_log_settings settings = LASPIDRU_LOG_SETTINGS_DEFAULT;
        laspidru_handle output = {0};
        laspidru_ending ending = {0};
        laspidru_size copied = 0;
        settings.encoding = asked[1];
        if (fread(log, 1, asked[2], stdin) != asked[2])
            return 5;
        laspidru_u32 code = laspidru_log_run(&output, COMMANDS[asked[0]], &settings, log, 0, log, asked[2], &ending);
        unsigned char *text = owned((size_t)ending.output_len);
        if (laspidru_output_copy(&output, 0, text, ending.output_len, &copied) != LASPIDRU_OK || copied != ending.output_len)
            return 6;
        uint32_t answer[] = {code == LASPIDRU_OK ? ending.status : FAULT, (uint32_t)copied};
        fwrite(answer, sizeof answer, 1, stdout);
        fwrite(text, 1, (size_t)copied, stdout);
        laspidru_handle_free(&output);
        free(log), free(text);
    }
    return 0;
}
