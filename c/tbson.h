/*
 * tbson.h: typed BSON for C.
 *
 * Documents are read at a shape and written anew, and shapes are compared. A shape is a text such as {name:string,age:i64}, which says what type each
 * value has; docs/SHAPES.md of the repository has the whole notation.
 *
 * Buffers. No memory passes between the library and its caller. What a call returns besides its report is written to buffers of the caller:
 *
 * - The output buffer gets all of the output, or nothing. The bytes after the output stay as they were.
 * - The text buffer gets as many first bytes of the text as fit, and the bytes after them stay as they were. The text is UTF-8 with no zero
 *   byte at its end, except for that of tbson_differences; one that is cut may end inside a character. Names of fields are in it as they are, line
 *   breaks and zeros included.
 * - The array of tbson_migrate_and_list gets as many first records as fit, and the places after them stay as they were.
 *
 * Requirements for the caller. Each pointer with its length names so many bytes that may be read, and for a buffer written; `refusals` with its
 * length names so many records, aligned as the struct is. With the length 0 the pointer may be NULL. A buffer or an array overlaps no other
 * argument of its call, and takes at most PTRDIFF_MAX bytes.
 *
 * Threads. The library has no state. Calls may run at the same time, on threads of any kind, as long as none writes to what another one
 * reads or writes. Memory is taken by malloc and given back by free before the call returns, so a call may not run in a signal handler, nor
 * in a forked child of a process with threads. A call on a document that nests deep takes up to 1.1 MB of stack, as measured; give a thread
 * 2 MB.
 *
 * Checking only. A call without an output buffer, of the length 0, writes no output and says whether there would be one, and of how many bytes: see
 * tbson_recast and tbson_migrate.
 *
 * Names. All names that begin with tbson_ or TBSON_ are reserved for this library; later versions may add calls.
 */
#ifndef TBSON_H
#define TBSON_H

#include <stddef.h>
#include <stdint.h>

#ifdef __cplusplus
extern "C" {
#endif

/*
 * The version of this header. It rises by one where calls or statuses are added. What there is keeps its name, its number, its layout and its
 * meaning. A program may be linked with any library whose tbson_version() is at least the TBSON_VERSION that it was compiled with.
 */
#define TBSON_VERSION 1

/*
 * How a call ended. Each call lists the statuses that it may return. A later version may add statuses to the list, also for the calls of this
 * one: take a status that you do not know for a failure, after which nothing was written to the output buffer.
 */
enum tbson_status {
    /* All that was asked for was done. */
    TBSON_DONE = 0,
    /* Some documents of a file were refused, as the text tells; the others were recast. */
    TBSON_SOME_REFUSED = 1,
    /* The bytes of the shape are no shape: the place is where they are refused, and the text tells why. */
    TBSON_SHAPE_REFUSED = 2,
    /* The document is not read at the shape, as the text tells. */
    TBSON_READ_REFUSED = 3,
    /* What was read cannot be written, as the text tells. */
    TBSON_WRITE_REFUSED = 4,
    /* The file cannot be cut into documents: at the place none begins. */
    TBSON_BROKEN = 5,
    /* The file has no more documents. */
    TBSON_END = 6,
    /* The output takes more bytes than its buffer has: as many as are needed. */
    TBSON_BUFFER_TOO_SMALL = 7,
    /* Memory ran out. Any call but tbson_next_document and tbson_version may return it at any time. The buffers and the array
     * are as they were. */
    TBSON_NO_MEMORY = 8,
    /* The shapes are not compatible, as the text tells. */
    TBSON_DIFFERENT = 9,
    /* The bytes of the old of two shapes are no shape, or one that is not plain: the text tells why, and of bytes that are no shape the place where. */
    TBSON_OLD_REFUSED = 10,
    /* The same of the new shape. */
    TBSON_NEW_REFUSED = 11
};

/*
 * The name of a status, such as "TBSON_DONE"; "unknown status" for any other number. It is defined in this header, and is no call of the library.
 */
static inline const char *tbson_status_name(uint32_t status)
{
    switch (status) {
    case TBSON_DONE:
        return "TBSON_DONE";
    case TBSON_SOME_REFUSED:
        return "TBSON_SOME_REFUSED";
    case TBSON_SHAPE_REFUSED:
        return "TBSON_SHAPE_REFUSED";
    case TBSON_READ_REFUSED:
        return "TBSON_READ_REFUSED";
    case TBSON_WRITE_REFUSED:
        return "TBSON_WRITE_REFUSED";
    case TBSON_BROKEN:
        return "TBSON_BROKEN";
    case TBSON_END:
        return "TBSON_END";
    case TBSON_BUFFER_TOO_SMALL:
        return "TBSON_BUFFER_TOO_SMALL";
    case TBSON_NO_MEMORY:
        return "TBSON_NO_MEMORY";
    case TBSON_DIFFERENT:
        return "TBSON_DIFFERENT";
    case TBSON_OLD_REFUSED:
        return "TBSON_OLD_REFUSED";
    case TBSON_NEW_REFUSED:
        return "TBSON_NEW_REFUSED";
    default:
        return "unknown status";
    }
}

/* What a call returns. A number that is not spoken of at the status is 0. */
typedef struct tbson_report {
    /* One of enum tbson_status. */
    uint32_t status;
    /* At TBSON_SHAPE_REFUSED, TBSON_OLD_REFUSED and TBSON_NEW_REFUSED the place in that shape, at TBSON_BROKEN that in the file: a number of bytes from
     * the start. */
    size_t place;
    /* How many bytes were written to the output buffer: 0, or as many as are needed. */
    size_t written;
    /* How many bytes the whole output takes. */
    size_t needed;
    /* How many bytes were written to the text buffer: the smaller of its length and of text_needed. */
    size_t text_written;
    /* How many bytes the whole text takes. */
    size_t text_needed;
} tbson_report;

/* The version of the library that is linked: see TBSON_VERSION. */
uint32_t tbson_version(void);

/*
 * Checks whether the bytes are a shape.
 *
 * TBSON_DONE           They are.
 * TBSON_SHAPE_REFUSED  They are not. Of bytes that are no UTF-8 the place is the first that is no part of a character, and the text is
 *                      "not UTF-8". With the text "not a shape" the place is the length of the longest beginning that they share with some
 *                      shape. With any other text it is the first byte of the part of the shape that is refused, for example a struct or an
 *                      enum with a repeated name.
 * TBSON_NO_MEMORY
 */
tbson_report tbson_check_shape(const uint8_t *shape, size_t shape_len, uint8_t *text, size_t text_len);

/*
 * Tells why documents that are written at an old shape need not be read at a new one.
 *
 * TBSON_DONE         The shapes are compatible: each document that is written at the old one is read at the new one, if it is sound (it keeps the limits,
 *                    and no key in it begins with a dollar sign or is there twice in one document). This is the `yes` of the program bson_evolve.
 * TBSON_DIFFERENT    They are not: the table of docs/DEFINITIONS.md does not vouch for some pairs of parts, and documents may be read all the same. The
 *                    text tells all of these pairs, each by four texts with a zero byte behind each: the path to the parts, the notation of the old one,
 *                    that of the new one, and the reason, such as "a", "i64", "i32" and "the new type lacks numbers of the old one". The first path is
 *                    that of the `no at` of bson_evolve. It is "." for the shapes themselves: there the reason tells what does not pass, such as "the new
 *                    field b is no option, and the old struct lacks it". A pair of structs or enums has a difference for each such name, and their common
 *                    parts are compared all the same. A pair of equal parts is told once: where two fields go from i64 to i32, the first of them. No name
 *                    of a plain shape holds a zero byte, except that of a definition.
 * TBSON_OLD_REFUSED  The bytes of the old shape are no shape, as of tbson_check_shape by place and text; or both are shapes, and the old one is not
 *                    plain: then the place is 0, and the text is "the old shape is not plain". docs/bson_evolve.1 says which shapes are plain.
 * TBSON_NEW_REFUSED  The same of the new shape.
 * TBSON_NO_MEMORY
 */
tbson_report tbson_differences(const uint8_t *old_shape, size_t old_shape_len, const uint8_t *new_shape, size_t new_shape_len, uint8_t *text,
                               size_t text_len);

/*
 * Recasts one document: reads its bytes at the shape, and writes what was read as the bytes of a document.
 *
 * TBSON_DONE              The first `written` bytes of the output buffer are the new document. If the shape has no `^` and no `%`, a recast of these
 *                         bytes at the same shape gives the same bytes.
 * TBSON_BUFFER_TOO_SMALL  The output buffer is as it was. A call with a buffer of `needed` bytes gives the output.
 * TBSON_SHAPE_REFUSED     As of tbson_check_shape.
 * TBSON_READ_REFUSED      The text tells what is wrong and where, such as "error at name: invalid type: String". The path is `.` where the whole
 *                         document is refused.
 * TBSON_WRITE_REFUSED     The same: for example, the output would be too long or nest too deep.
 * TBSON_NO_MEMORY
 *
 * To check a document only, give NULL and 0 for the output buffer. An output has at least five bytes, so a document that can be recast gives
 * TBSON_BUFFER_TOO_SMALL, and `needed` is the length of its recast.
 */
tbson_report tbson_recast(const uint8_t *shape, size_t shape_len, const uint8_t *document, size_t document_len, uint8_t *output, size_t output_len,
                          uint8_t *text, size_t text_len);

/*
 * Recasts each document of a file, which has them one after another, as mongodump writes them.
 *
 * TBSON_DONE              Each document was recast. The first `written` bytes of the output buffer are the new documents, one after another.
 * TBSON_SOME_REFUSED      The same of all documents except those that the text lists: for each a line, such as
 *                         "document 1: read refused: error at name: invalid type: String\n", with its number in the file, counted from 0.
 * TBSON_BUFFER_TOO_SMALL  The output buffer is as it was. A call with a buffer of `needed` bytes gives the output. The text lists the refused documents.
 * TBSON_SHAPE_REFUSED     As of tbson_check_shape.
 * TBSON_BROKEN            At the place no document begins: the bytes that are left are fewer than four, or announce a length of less than five,
 *                         or of more bytes than are left. Nothing was written.
 * TBSON_NO_MEMORY
 *
 * To check a file only, give NULL and 0 for the output buffer: all documents can be recast where the text is empty (`text_needed` is 0) at TBSON_DONE or
 * TBSON_BUFFER_TOO_SMALL. Where none can be, and there is some, the output is empty and the status is TBSON_SOME_REFUSED.
 */
tbson_report tbson_migrate(const uint8_t *shape, size_t shape_len, const uint8_t *file, size_t file_len, uint8_t *output, size_t output_len,
                           uint8_t *text, size_t text_len);

/* A refused document of a file. */
typedef struct tbson_refusal {
    /* The number of the document in the file, counted from 0. */
    uint64_t index;
    /* Where the document begins: a number of bytes from the start of the file. */
    size_t offset;
    /* TBSON_READ_REFUSED or TBSON_WRITE_REFUSED. */
    uint32_t status;
    /* Where its text begins in the text of the call, and how many bytes it takes. */
    size_t text_start;
    size_t text_length;
    /*
     * Where in its text the cause begins. It is 0 where the text has no path; else the text is "error at PATH: CAUSE", and the path takes the bytes
     * from the offset 9 up to, but not with, the offset cause_start - 2.
     */
    size_t cause_start;
} tbson_refusal;

/* What tbson_migrate_and_list returns. */
typedef struct tbson_migration_report {
    /* As of tbson_migrate. */
    tbson_report report;
    /* How many records were written to the array: the smaller of its length and of refusals_needed. */
    size_t refusals_written;
    /* How many records there are in all: one for each refused document. */
    size_t refusals_needed;
} tbson_migration_report;

/*
 * Recasts each document of a file as tbson_migrate does, with the same statuses, and lists the refused documents in an array, in the order of the file.
 * The text has no lines: it is the texts of the refused documents one after another, each as tbson_recast gives it, and a record says where each is.
 * At TBSON_SHAPE_REFUSED it is as of tbson_check_shape.
 * Where the array has fewer places than there are refused documents, it gets the first records; the places after them stay as they were. At any
 * status but TBSON_SOME_REFUSED and TBSON_BUFFER_TOO_SMALL no document is listed.
 */
tbson_migration_report tbson_migrate_and_list(const uint8_t *shape, size_t shape_len, const uint8_t *file, size_t file_len, uint8_t *output,
                                              size_t output_len, uint8_t *text, size_t text_len, tbson_refusal *refusals, size_t refusals_len);

/* What is at a place of a file of documents. */
typedef struct tbson_document {
    /* One of enum tbson_status. */
    uint32_t status;
    /* How many bytes the document takes; 0 where there is none. */
    size_t length;
} tbson_document;

/*
 * Looks for the document that begins at a place of a file. The next one begins `length` bytes after that place. What is inside a document is not looked
 * at.
 *
 * TBSON_DONE    A document of `length` bytes, at least five.
 * TBSON_END     None: the file ends at the place, or before it.
 * TBSON_BROKEN  None, and the file does not end: as of tbson_migrate.
 */
tbson_document tbson_next_document(const uint8_t *file, size_t file_len, size_t place);

#ifdef __cplusplus
}
#endif

#endif
