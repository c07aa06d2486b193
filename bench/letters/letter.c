/* letter LINES: what one inserted letter costs through C, in nanoseconds of the processor: the least of many short rounds. */
#include <stdio.h>
#include <stdlib.h>
#include <string.h>
#include <time.h>

#include "laspidru.h"

static double now(void) {
    struct timespec at;
    clock_gettime(CLOCK_PROCESS_CPUTIME_ID, &at);
    return at.tv_sec * 1e9 + at.tv_nsec;
}

int main(int argc, char **argv) {
    static const char line[] = "    let answer = question.map(|x| x+1);\n";
    size_t lines = argc > 1 ? strtoul(argv[1], NULL, 10) : 1000, len = lines * (sizeof line - 1), count = 200, i;
    char *text = malloc(len + 1);
    double least = 1e18;
    for (i = 0; i < lines; i++)
        memcpy(text + i * (sizeof line - 1), line, sizeof line);
    for (int round = 0; round < 60; round++) {
        laspidru_handle document = {0};
        laspidru_fault fault;
        if (laspidru_document_new(&document, (unsigned char *)text, len) != LASPIDRU_OK)
            return 1;
        double start = now();
        for (i = 0; i < count; i++) {
            laspidru_position place = {(laspidru_u32)(i * 7919 % lines), 8};
            laspidru_edit edit = {place, place, 1, 0};
            if (laspidru_document_change(&document, LASPIDRU_UTF16, &edit, 1, (const unsigned char *)"x", 1, &fault) != LASPIDRU_OK)
                return 1;
        }
        double each = (now() - start) / count;
        least = each < least ? each : least;
        laspidru_handle_free(&document);
    }
    printf("%.0f\n", least);
    free(text);
    return 0;
}
