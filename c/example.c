/* Recasts the document on standard input at the shape that is the only argument, and prints the bytes of what is written in hexadecimal. */
#include "tbson.h"

#include <stdio.h>
#include <stdlib.h>
#include <string.h>

/* Bytes on the heap. */
struct bytes {
    uint8_t *at;
    size_t len;
};

/* Makes a buffer of so many bytes, in place of the one before. */
static void make_buffer(struct bytes *buffer, size_t len)
{
    free(buffer->at);
    buffer->at = malloc(len != 0 ? len : 1);
    if (buffer->at == NULL) {
        fputs("out of memory\n", stderr);
        exit(1);
    }
    buffer->len = len;
}

/* Reads standard input to its end. */
static struct bytes read_input(void)
{
    struct bytes input = {NULL, 0};
    size_t capacity = 0;
    size_t got;

    do {
        if (input.len == capacity) {
            uint8_t *grown = realloc(input.at, capacity += 65536);
            if (grown == NULL) {
                fputs("out of memory\n", stderr);
                exit(1);
            }
            input.at = grown;
        }
        got = fread(input.at + input.len, 1, capacity - input.len, stdin);
        input.len += got;
    } while (got != 0);
    if (ferror(stdin)) {
        fputs("standard input failed\n", stderr);
        exit(1);
    }
    return input;
}

/* Prints why a call was refused. */
static void print_refusal(const tbson_report *report, const uint8_t *text)
{
    switch (report->status) {
    case TBSON_SHAPE_REFUSED:
        fprintf(stderr, "shape refused at %zu: ", report->place);
        break;
    case TBSON_READ_REFUSED:
        fputs("read refused: ", stderr);
        break;
    case TBSON_WRITE_REFUSED:
        fputs("write refused: ", stderr);
        break;
    case TBSON_NO_MEMORY:
        fputs("out of memory", stderr);
        break;
    default:
        fprintf(stderr, "status %u", (unsigned)report->status);
        break;
    }
    fwrite(text, 1, report->text_written, stderr);
    fputs(report->text_written < report->text_needed ? "...\n" : "\n", stderr);
}

int main(int argc, char **argv)
{
    struct bytes document, output = {NULL, 0};
    uint8_t text[256];
    const uint8_t *shape;
    tbson_report report;
    size_t i;

    if (argc != 2) {
        fputs("usage: example SHAPE < DOCUMENT\n", stderr);
        return 2;
    }
    if (tbson_version() < TBSON_VERSION) {
        fputs("the library is older than tbson.h\n", stderr);
        return 2;
    }
    shape = (const uint8_t *)argv[1];
    document = read_input();

    /* A first call with a buffer of the document's size; where that is too small, a second one with a buffer of the size that is needed. */
    make_buffer(&output, document.len);
    report = tbson_recast(shape, strlen(argv[1]), document.at, document.len, output.at, output.len, text, sizeof text);
    if (report.status == TBSON_BUFFER_TOO_SMALL) {
        make_buffer(&output, report.needed);
        report = tbson_recast(shape, strlen(argv[1]), document.at, document.len, output.at, output.len, text, sizeof text);
    }
    if (report.status == TBSON_DONE) {
        for (i = 0; i < report.written; i++) {
            printf("%02x%s", output.at[i], i + 1 < report.written ? " " : "\n");
        }
    } else {
        print_refusal(&report, text);
    }
    free(output.at);
    free(document.at);
    return report.status == TBSON_DONE ? 0 : 1;
}
