/*
 * Tests of the built library. The bytes that are expected come from the BSON format (bsonspec.org), and the texts from the pages of the
 * repository.
 */
#include "tbson.h"

#include <stdio.h>
#include <stdlib.h>
#include <string.h>

/* Stops at a condition that does not hold. */
#define CHECK(condition) check((condition), #condition, __LINE__)

static void check(int holds, const char *condition, int line)
{
    if (!holds) {
        fprintf(stderr, "test.c:%d: %s does not hold\n", line, condition);
        exit(1);
    }
}

/* A text as the two arguments that a slice is. */
#define TEXT(text) (const uint8_t *)(text), strlen(text)

/* An array of bytes as the two arguments that a slice is. */
#define BYTES(bytes) bytes, sizeof bytes

/* {n: 7}: an Int32 has the type 16 and four bytes. */
static const uint8_t seven[] = {12, 0, 0, 0, 16, 'n', 0, 7, 0, 0, 0, 0};

/* The same as an Int64, which has the type 18 and eight bytes. */
static const uint8_t wide_seven[] = {16, 0, 0, 0, 18, 'n', 0, 7, 0, 0, 0, 0, 0, 0, 0, 0};

/* {n: 7}, {}, {n: 7}. */
static const uint8_t file[] = {12, 0, 0, 0, 16, 'n', 0, 7, 0, 0, 0, 0, 5, 0, 0, 0, 0, 12, 0, 0, 0, 16, 'n', 0, 7, 0, 0, 0, 0};

/* Whether a buffer begins with bytes, and has the filling byte behind them to its end. */
static int holds(const uint8_t *buffer, size_t buffer_len, const uint8_t *bytes, size_t len)
{
    size_t i;

    if (memcmp(buffer, bytes, len) != 0) {
        return 0;
    }
    for (i = len; i < buffer_len; i++) {
        if (buffer[i] != 0xaa) {
            return 0;
        }
    }
    return 1;
}

/* Whether a report has these numbers. */
static int is(tbson_report a, uint32_t status, size_t place, size_t written, size_t needed, size_t text_written, size_t text_needed)
{
    return a.status == status && a.place == place && a.written == written && a.needed == needed && a.text_written == text_written &&
           a.text_needed == text_needed;
}

static void test_status_names(void)
{
    static const char *const names[] = {"TBSON_DONE", "TBSON_SOME_REFUSED", "TBSON_SHAPE_REFUSED", "TBSON_READ_REFUSED", "TBSON_WRITE_REFUSED",
                                        "TBSON_BROKEN", "TBSON_END", "TBSON_BUFFER_TOO_SMALL", "TBSON_NO_MEMORY", "TBSON_DIFFERENT",
                                        "TBSON_OLD_REFUSED", "TBSON_NEW_REFUSED"};
    uint32_t status;

    for (status = 0; status < sizeof names / sizeof *names; status++) {
        CHECK(strcmp(tbson_status_name(status), names[status]) == 0);
    }
    CHECK(strcmp(tbson_status_name(status), "unknown status") == 0);
    CHECK(strcmp(tbson_status_name(UINT32_MAX), "unknown status") == 0);
}

static void test_shapes(void)
{
    static const uint8_t broken_text[] = {'"', 'a', 0xc3, '"', '!'};
    uint8_t text[32];

    memset(text, 0xaa, sizeof text);
    CHECK(is(tbson_check_shape(TEXT("{name:string,age:i64}"), BYTES(text)), TBSON_DONE, 0, 0, 0, 0, 0));
    CHECK(holds(text, sizeof text, TEXT("")));
    /* No bytes at all begin every shape, and are none. */
    CHECK(is(tbson_check_shape(NULL, 0, BYTES(text)), TBSON_SHAPE_REFUSED, 0, 0, 0, 11, 11));
    CHECK(holds(text, sizeof text, TEXT("not a shape")));
    /* {age:i33 goes on as {age:i33!}, where i33 is a name, and {age:i33} does not go on. */
    CHECK(is(tbson_check_shape(TEXT("{age:i33}"), BYTES(text)), TBSON_SHAPE_REFUSED, 8, 0, 0, 11, 11));
    /* The struct that begins at the sixth byte repeats a name. */
    CHECK(is(tbson_check_shape(TEXT("(i32,{a:i32,a:bool})"), BYTES(text)), TBSON_SHAPE_REFUSED, 5, 0, 0, 13, 13));
    CHECK(holds(text, sizeof text, TEXT("repeated name")));
    /* As much of a text as fits. */
    memset(text, 0xaa, sizeof text);
    CHECK(is(tbson_check_shape(TEXT("i33"), text, 3), TBSON_SHAPE_REFUSED, 3, 0, 0, 3, 11));
    CHECK(holds(text, sizeof text, TEXT("not")));
    CHECK(is(tbson_check_shape(TEXT("i33"), NULL, 0), TBSON_SHAPE_REFUSED, 3, 0, 0, 0, 11));
    /* 0xc3 begins a character of two bytes, and '"' is not the second. */
    memset(text, 0xaa, sizeof text);
    CHECK(is(tbson_check_shape(BYTES(broken_text), BYTES(text)), TBSON_SHAPE_REFUSED, 2, 0, 0, 9, 9));
    CHECK(holds(text, sizeof text, TEXT("not UTF-8")));
}

static void test_differences(void)
{
    /* Each text with its zero byte; the last one is that of the string. */
    static const char said[] = ".\0{n:i64}\0{n:i32,m:bool}\0the new field m is no option, and the old struct lacks it\0"
                               "n\0i64\0i32\0the new type lacks numbers of the old one";
    uint8_t text[160];

    CHECK(is(tbson_differences(TEXT("{n:i32}"), TEXT("{n:i64,m:?bool}"), NULL, 0), TBSON_DONE, 0, 0, 0, 0, 0));
    memset(text, 0xaa, sizeof text);
    CHECK(is(tbson_differences(TEXT("{n:i64}"), TEXT("{n:i32,m:bool}"), BYTES(text)), TBSON_DIFFERENT, 0, 0, 0, sizeof said, sizeof said));
    CHECK(holds(text, sizeof text, (const uint8_t *)said, sizeof said));
    memset(text, 0xaa, sizeof text);
    CHECK(is(tbson_differences(TEXT("{n:i64}"), TEXT("{n:i32,m:bool}"), text, 9), TBSON_DIFFERENT, 0, 0, 0, 9, sizeof said));
    CHECK(holds(text, sizeof text, (const uint8_t *)said, 9));
    memset(text, 0xaa, sizeof text);
    CHECK(is(tbson_differences(TEXT("{n:i33}"), TEXT("{n:i32}"), BYTES(text)), TBSON_OLD_REFUSED, 6, 0, 0, 11, 11));
    CHECK(holds(text, sizeof text, TEXT("not a shape")));
    CHECK(is(tbson_differences(TEXT("{n:i32}"), TEXT("{n:i33}"), NULL, 0), TBSON_NEW_REFUSED, 6, 0, 0, 0, 11));
    memset(text, 0xaa, sizeof text);
    CHECK(is(tbson_differences(TEXT("{n:i32}"), TEXT("ignored"), BYTES(text)), TBSON_NEW_REFUSED, 0, 0, 0, 26, 26));
    CHECK(holds(text, sizeof text, TEXT("the new shape is not plain")));
}

static void test_recast(void)
{
    uint8_t output[20], text[64];

    memset(output, 0xaa, sizeof output);
    memset(text, 0xaa, sizeof text);
    CHECK(is(tbson_recast(TEXT("{n:u32}"), BYTES(seven), NULL, 0, BYTES(text)), TBSON_BUFFER_TOO_SMALL, 0, 0, 16, 0, 0));
    CHECK(is(tbson_recast(TEXT("{n:u32}"), BYTES(seven), output, 15, BYTES(text)), TBSON_BUFFER_TOO_SMALL, 0, 0, 16, 0, 0));
    CHECK(holds(output, sizeof output, TEXT("")));
    CHECK(is(tbson_recast(TEXT("{n:u32}"), BYTES(seven), output, 16, NULL, 0), TBSON_DONE, 0, 16, 16, 0, 0));
    CHECK(holds(output, sizeof output, BYTES(wide_seven)));
    CHECK(holds(text, sizeof text, TEXT("")));
    /* Without an output buffer a document is only checked. */
    CHECK(is(tbson_recast(TEXT("{n:u32}"), BYTES(seven), NULL, 0, NULL, 0), TBSON_BUFFER_TOO_SMALL, 0, 0, 16, 0, 0));
    /* What was written is written again. */
    memset(output, 0xaa, sizeof output);
    CHECK(is(tbson_recast(TEXT("{n:u32}"), BYTES(wide_seven), BYTES(output), BYTES(text)), TBSON_DONE, 0, 16, 16, 0, 0));
    CHECK(holds(output, sizeof output, BYTES(wide_seven)));
}

static void test_refused_recast(void)
{
    static const uint8_t ada[] = {19, 0, 0, 0, 2, 'n', 'a', 'm', 'e', 0, 4, 0, 0, 0, 'A', 'd', 'a', 0, 0};
    static const uint8_t unended[] = {5, 0, 0, 0, 1};
    uint8_t output[32], text[64];

    memset(output, 0xaa, sizeof output);
    memset(text, 0xaa, sizeof text);
    CHECK(is(tbson_recast(TEXT("{name:u8}"), BYTES(ada), BYTES(output), BYTES(text)), TBSON_READ_REFUSED, 0, 0, 0, 35, 35));
    CHECK(holds(text, sizeof text, TEXT("error at name: invalid type: String")));
    memset(text, 0xaa, sizeof text);
    CHECK(is(tbson_recast(TEXT("{name:u8}"), BYTES(ada), BYTES(output), text, 8), TBSON_READ_REFUSED, 0, 0, 0, 8, 35));
    CHECK(holds(text, sizeof text, TEXT("error at")));
    memset(text, 0xaa, sizeof text);
    CHECK(is(tbson_recast(TEXT("{}"), BYTES(unended), BYTES(output), BYTES(text)), TBSON_READ_REFUSED, 0, 0, 0, 23, 23));
    CHECK(holds(text, sizeof text, TEXT("document not terminated")));
    /* A map whose keys are char is read, but not written. */
    memset(text, 0xaa, sizeof text);
    CHECK(is(tbson_recast(TEXT("[char:i32]"), BYTES(seven), BYTES(output), BYTES(text)), TBSON_WRITE_REFUSED, 0, 0, 0, 40, 40));
    CHECK(holds(text, sizeof text, TEXT("error at .: invalid map key type: String")));
    memset(text, 0xaa, sizeof text);
    CHECK(is(tbson_recast(TEXT("{age:i33}"), BYTES(ada), BYTES(output), BYTES(text)), TBSON_SHAPE_REFUSED, 8, 0, 0, 11, 11));
    CHECK(holds(text, sizeof text, TEXT("not a shape")));
    CHECK(holds(output, sizeof output, TEXT("")));
}

static void test_next_document(void)
{
    static const size_t lengths[] = {12, 5, 12};
    tbson_document next;
    size_t place = 0, i = 0;

    while ((next = tbson_next_document(BYTES(file), place)).status == TBSON_DONE) {
        CHECK(i < 3 && next.length == lengths[i]);
        place += next.length;
        i++;
    }
    CHECK(i == 3 && place == sizeof file && next.status == TBSON_END && next.length == 0);
    next = tbson_next_document(BYTES(file), SIZE_MAX);
    CHECK(next.status == TBSON_END && next.length == 0);
    next = tbson_next_document(NULL, 0, 0);
    CHECK(next.status == TBSON_END && next.length == 0);
    /* One byte of the last document is not there. */
    next = tbson_next_document(file, sizeof file - 1, 17);
    CHECK(next.status == TBSON_BROKEN && next.length == 0);
    /* 16, 'n', 0, 7 announces more bytes than are there. */
    next = tbson_next_document(BYTES(file), 4);
    CHECK(next.status == TBSON_BROKEN && next.length == 0);
}

static void test_migrate(void)
{
    static const char line[] = "document 1: read refused: error at .: missing field n\n";
    uint8_t output[36], text[64], both[32];

    memcpy(both, wide_seven, 16);
    memcpy(both + 16, wide_seven, 16);
    memset(output, 0xaa, sizeof output);
    memset(text, 0xaa, sizeof text);
    CHECK(is(tbson_migrate(TEXT("{n:u32}"), BYTES(file), output, 31, BYTES(text)), TBSON_BUFFER_TOO_SMALL, 0, 0, 32, 54, 54));
    CHECK(holds(output, sizeof output, TEXT("")));
    CHECK(holds(text, sizeof text, TEXT(line)));
    memset(text, 0xaa, sizeof text);
    CHECK(is(tbson_migrate(TEXT("{n:u32}"), BYTES(file), output, 32, text, 10), TBSON_SOME_REFUSED, 0, 32, 32, 10, 54));
    CHECK(holds(output, sizeof output, BYTES(both)));
    CHECK(holds(text, sizeof text, TEXT("document 1")));
    memset(output, 0xaa, sizeof output);
    memset(text, 0xaa, sizeof text);
    CHECK(is(tbson_migrate(TEXT("{n:u32}"), file, 12, BYTES(output), BYTES(text)), TBSON_DONE, 0, 16, 16, 0, 0));
    CHECK(holds(output, sizeof output, BYTES(wide_seven)));
    /* Without an output buffer a file is only checked: where no document can be recast, the output is empty. */
    CHECK(is(tbson_migrate(TEXT("{n:u32}"), file, 12, NULL, 0, NULL, 0), TBSON_BUFFER_TOO_SMALL, 0, 0, 16, 0, 0));
    CHECK(is(tbson_migrate(TEXT("{n:u32}"), file + 12, 5, NULL, 0, NULL, 0), TBSON_SOME_REFUSED, 0, 0, 0, 0, 54));
    /* A file without documents. */
    CHECK(is(tbson_migrate(TEXT("{n:u32}"), NULL, 0, NULL, 0, NULL, 0), TBSON_DONE, 0, 0, 0, 0, 0));
    memset(output, 0xaa, sizeof output);
    CHECK(is(tbson_migrate(TEXT("{n:u32}"), file, 18, BYTES(output), BYTES(text)), TBSON_BROKEN, 17, 0, 0, 0, 0));
    CHECK(is(tbson_migrate(TEXT("{n:u33}"), BYTES(file), BYTES(output), BYTES(text)), TBSON_SHAPE_REFUSED, 6, 0, 0, 11, 11));
    CHECK(holds(output, sizeof output, TEXT("")));
}

static void test_migrate_and_list(void)
{
    static const char said[] = "error at .: missing field n";
    tbson_refusal refusals[2];
    tbson_migration_report a;
    uint8_t output[36], text[64];

    memset(output, 0xaa, sizeof output);
    memset(text, 0xaa, sizeof text);
    memset(refusals, 0xaa, sizeof refusals);
    a = tbson_migrate_and_list(TEXT("{n:u32}"), BYTES(file), BYTES(output), BYTES(text), refusals, 2);
    CHECK(is(a.report, TBSON_SOME_REFUSED, 0, 32, 32, 27, 27) && a.refusals_written == 1 && a.refusals_needed == 1);
    CHECK(holds(text, sizeof text, TEXT(said)));
    CHECK(refusals[0].index == 1 && refusals[0].offset == 12 && refusals[0].status == TBSON_READ_REFUSED);
    CHECK(refusals[0].text_start == 0 && refusals[0].text_length == 27 && refusals[0].cause_start == 12);
    CHECK(holds((const uint8_t *)&refusals[1], sizeof refusals[1], TEXT("")));
    a = tbson_migrate_and_list(TEXT("{n:u32}"), BYTES(file), NULL, 0, NULL, 0, NULL, 0);
    CHECK(is(a.report, TBSON_BUFFER_TOO_SMALL, 0, 0, 32, 0, 27) && a.refusals_written == 0 && a.refusals_needed == 1);
    /* Where nothing is refused, or all of the file, the array stays as it was. */
    memset(refusals, 0xaa, sizeof refusals);
    a = tbson_migrate_and_list(TEXT("{n:u32}"), file, 12, BYTES(output), BYTES(text), refusals, 2);
    CHECK(is(a.report, TBSON_DONE, 0, 16, 16, 0, 0) && a.refusals_written == 0 && a.refusals_needed == 0);
    a = tbson_migrate_and_list(TEXT("{n:u32}"), file, 18, BYTES(output), BYTES(text), refusals, 2);
    CHECK(is(a.report, TBSON_BROKEN, 17, 0, 0, 0, 0) && a.refusals_written == 0 && a.refusals_needed == 0);
    a = tbson_migrate_and_list(TEXT("{n:u33}"), BYTES(file), BYTES(output), BYTES(text), refusals, 2);
    CHECK(is(a.report, TBSON_SHAPE_REFUSED, 6, 0, 0, 11, 11) && a.refusals_written == 0 && a.refusals_needed == 0);
    CHECK(holds((const uint8_t *)refusals, sizeof refusals, TEXT("")));
}

/* A document that is refused in writing, one whose text has no path, and one that is recast. */
static void test_two_refusals(void)
{
    static const uint8_t both[] = {12, 0, 0, 0, 16, 'n', 0, 7, 0, 0, 0, 0, 5, 0, 0, 0, 1, 5, 0, 0, 0, 0};
    static const char said[] = "error at .: invalid map key type: Stringdocument not terminated";
    tbson_refusal refusals[2];
    tbson_migration_report a;
    uint8_t output[8], text[64];

    memset(output, 0xaa, sizeof output);
    memset(text, 0xaa, sizeof text);
    a = tbson_migrate_and_list(TEXT("[char:i32]"), BYTES(both), BYTES(output), BYTES(text), refusals, 2);
    CHECK(is(a.report, TBSON_SOME_REFUSED, 0, 5, 5, 63, 63) && a.refusals_written == 2 && a.refusals_needed == 2);
    CHECK(holds(output, sizeof output, both + 17, 5) && holds(text, sizeof text, TEXT(said)));
    CHECK(refusals[0].index == 0 && refusals[0].offset == 0 && refusals[0].status == TBSON_WRITE_REFUSED);
    CHECK(refusals[0].text_start == 0 && refusals[0].text_length == 40 && refusals[0].cause_start == 12);
    CHECK(refusals[1].index == 1 && refusals[1].offset == 12 && refusals[1].status == TBSON_READ_REFUSED);
    CHECK(refusals[1].text_start == 40 && refusals[1].text_length == 23 && refusals[1].cause_start == 0);
    /* An array and a text buffer that are too small get what fits. */
    memset(text, 0xaa, sizeof text);
    memset(refusals, 0xaa, sizeof refusals);
    a = tbson_migrate_and_list(TEXT("[char:i32]"), BYTES(both), BYTES(output), text, 10, refusals, 1);
    CHECK(is(a.report, TBSON_SOME_REFUSED, 0, 5, 5, 10, 63) && a.refusals_written == 1 && a.refusals_needed == 2);
    CHECK(holds(text, sizeof text, TEXT("error at .")) && refusals[0].text_length == 40);
    CHECK(holds((const uint8_t *)&refusals[1], sizeof refusals[1], TEXT("")));
}

/* malloc, realloc and free of the library, which the linker's --wrap leads here: the one that is counted down to fails. */
static size_t until_failure = 0;
static long blocks = 0;

void *__real_malloc(size_t size);
void *__real_realloc(void *block, size_t size);
void __real_free(void *block);
void *__wrap_malloc(size_t size);
void *__wrap_realloc(void *block, size_t size);
void __wrap_free(void *block);

static int fails(void)
{
    return until_failure != 0 && --until_failure == 0;
}

void *__wrap_malloc(size_t size)
{
    void *block = fails() ? NULL : __real_malloc(size);

    blocks += block != NULL;
    return block;
}

void *__wrap_realloc(void *block, size_t size)
{
    void *grown = fails() ? NULL : __real_realloc(block, size);

    blocks += block == NULL && grown != NULL;
    return grown;
}

void __wrap_free(void *block)
{
    blocks -= block != NULL;
    __real_free(block);
}

/* Each time that memory is taken fails in turn: both buffers stay as they were, and all memory is given back. */
static void test_no_memory(void)
{
    uint8_t output[36], text[64];
    tbson_report report;
    size_t n = 0;

    do {
        memset(output, 0xaa, sizeof output);
        memset(text, 0xaa, sizeof text);
        until_failure = ++n;
        report = tbson_migrate(TEXT("{n:u32}"), BYTES(file), BYTES(output), BYTES(text));
        until_failure = 0;
        CHECK(blocks == 0);
        if (report.status == TBSON_NO_MEMORY) {
            CHECK(is(report, TBSON_NO_MEMORY, 0, 0, 0, 0, 0));
            CHECK(holds(output, sizeof output, TEXT("")) && holds(text, sizeof text, TEXT("")));
        }
    } while (report.status == TBSON_NO_MEMORY);
    CHECK(n > 2 && is(report, TBSON_SOME_REFUSED, 0, 32, 32, 54, 54));
}

static void test_no_memory_for_a_list(void)
{
    uint8_t output[36], text[64];
    tbson_refusal refusals[1];
    tbson_migration_report a;
    size_t n = 0;

    do {
        memset(output, 0xaa, sizeof output);
        memset(text, 0xaa, sizeof text);
        memset(refusals, 0xaa, sizeof refusals);
        until_failure = ++n;
        a = tbson_migrate_and_list(TEXT("{n:u32}"), BYTES(file), BYTES(output), BYTES(text), refusals, 1);
        until_failure = 0;
        CHECK(blocks == 0);
        if (a.report.status == TBSON_NO_MEMORY) {
            CHECK(is(a.report, TBSON_NO_MEMORY, 0, 0, 0, 0, 0) && a.refusals_written == 0 && a.refusals_needed == 0);
            CHECK(holds(output, sizeof output, TEXT("")) && holds(text, sizeof text, TEXT("")));
            CHECK(holds((const uint8_t *)refusals, sizeof refusals, TEXT("")));
        }
    } while (a.report.status == TBSON_NO_MEMORY);
    CHECK(n > 2 && is(a.report, TBSON_SOME_REFUSED, 0, 32, 32, 27, 27) && a.refusals_written == 1);
}

int main(void)
{
    CHECK(tbson_version() == TBSON_VERSION);
    test_status_names();
    test_shapes();
    test_differences();
    test_recast();
    test_refused_recast();
    test_next_document();
    test_migrate();
    test_migrate_and_list();
    test_two_refusals();
    test_no_memory();
    test_no_memory_for_a_list();
    puts("test.c: all holds");
    return 0;
}
