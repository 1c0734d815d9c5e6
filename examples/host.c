/* A host in C: reads a file, prints the report of its text.
 *
 *     host FILE [STORE_BYTES [OUTPUT_BYTES]]
 *
 * Status 0 where a report was printed, 1 where the output was too short or the file could not be read. */
#include "arcsyn.h"

#include <inttypes.h>
#include <stdio.h>
#include <stdlib.h>

/* One byte more than a text may have is enough to refuse it. */
enum { ENOUGH = 32769 };

static size_t size_of(const char *word) { return (size_t)strtoull(word, NULL, 10); }

int main(int argc, char **argv) {
    if (argc < 2) {
        fputs("usage: host FILE [STORE_BYTES [OUTPUT_BYTES]]\n", stderr);
        return 1;
    }
    size_t store_len = argc > 2 ? size_of(argv[2]) : 16384;
    size_t out_len = argc > 3 ? size_of(argv[3]) : 8192;
    FILE *file = fopen(argv[1], "rb");
    if (file == NULL) {
        perror(argv[1]);
        return 1;
    }
    uint8_t *text = malloc(ENOUGH);
    /* The bytes are given a value, as the call asks; with length 0 the pointers stay null. */
    uint8_t *store = store_len > 0 ? calloc(store_len, 1) : NULL;
    uint8_t *out = out_len > 0 ? calloc(out_len, 1) : NULL;
    int status = 1;
    if (text != NULL && (store != NULL || store_len == 0) && (out != NULL || out_len == 0)) {
        size_t text_len = fread(text, 1, ENOUGH, file);
        int64_t count = arcsyn_report(text_len > 0 ? text : NULL, text_len, store, store_len, out, out_len);
        if (count >= 0) {
            status = count == 0 || fwrite(out, 1, (size_t)count, stdout) == (size_t)count ? 0 : 1;
        } else {
            fprintf(stderr, "refused %" PRId64 "\n", -count);
        }
    }
    free(out);
    free(store);
    free(text);
    fclose(file);
    return status;
}
