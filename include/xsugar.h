/* xsugar: text and XML translated into each other by a stylesheet, from C.
 *
 * A sheet is read and checked once, by xsugar_sheet_open, and is then open: what it means is kept
 * behind the handle, and no later call reads or checks it again. Nothing else is kept between calls.
 * Calls may be made from several threads at once, as long as no two of them are handed the same
 * sheet or the same answer.
 *
 * Each call returns a status, one of the program's or XSUGAR_NOT_OPEN, and tells the rest by an
 * answer. At XSUGAR_DONE its bytes are the answer; at XSUGAR_MEMORY and XSUGAR_NOT_OPEN it is as it
 * was; else its bytes are the line that the program prints, `kind` says which outcome it was, and
 * `place` is the number in the line. The bytes of an answer are a block that is the caller's: free
 * it by xsugar_free once it was read, before the answer is handed to the next call. Where there are
 * no bytes there is no block, and nothing is freed.
 *
 * What is handed to a call is only read, and may be freed or changed after it. No pointer may be
 * null, not even one to no bytes. Memory is that of malloc, realloc and free; where it is refused a
 * call returns XSUGAR_MEMORY and has freed all that it had taken. Not to be called from a signal
 * handler.
 */
#ifndef XSUGAR_H
#define XSUGAR_H

#include <stdbool.h>
#include <stddef.h>
#include <stdint.h>

#ifdef __cplusplus
extern "C" {
#endif

/* What a call returns. */
enum {
    XSUGAR_DONE = 0,      /* the answer is there */
    XSUGAR_FOREIGN = 1,   /* the document is not of the sheet's language */
    XSUGAR_SHEET = 2,     /* the bytes are no well-formed sheet, or one too heavy to be checked */
    XSUGAR_SUSPECT = 3,   /* the sheet may be ambiguous */
    XSUGAR_NO_TEXT = 4,   /* the document is no UTF-8, or no XML */
    XSUGAR_USAGE = 5,     /* the words are no command (xsugar_run) */
    XSUGAR_DEVICE = 6,    /* a file cannot be read (xsugar_run) */
    XSUGAR_LONG = 7,      /* the document or the certificate is too long */
    XSUGAR_MEMORY = 8,    /* memory ran out; nothing was done */
    XSUGAR_CERTIFICATE = 9, /* the bytes are no certificate of the sheet (xsugar_run) */
    XSUGAR_SCRIPT = 10,   /* the bytes are no edit script */
    XSUGAR_OUTLINE = 11,  /* the bytes are no outline */
    XSUGAR_NOT_OPEN = 12  /* the sheet is not open; nothing was done */
};

/* The kind of an answer: how the call ended, more closely than by its status. */
enum {
    XSUGAR_KIND_DONE = 0,
    XSUGAR_KIND_FOREIGN = 1,      /* place: how many symbols begin some document of the language */
    XSUGAR_KIND_SHEET_LONG = 2,   /* more than 65,536 bytes */
    XSUGAR_KIND_SHEET_BAD = 3,    /* place: the byte of the first token that no sheet has there */
    XSUGAR_KIND_SHEET_ILL = 4,    /* place: the line at which a rule fails */
    XSUGAR_KIND_HEAVY = 5,        /* place: the weight of a production */
    XSUGAR_KIND_SUSPECT = 6,      /* place: the line of the production */
    XSUGAR_KIND_NOT_UTF8 = 7,     /* place: how many bytes are UTF-8 */
    XSUGAR_KIND_NOT_XML = 8,      /* place: how many characters legal pieces take up */
    XSUGAR_KIND_USAGE = 9,
    XSUGAR_KIND_SHEET_FAULT = 10,
    XSUGAR_KIND_READ_FAULT = 11,
    XSUGAR_KIND_WRITE_FAULT = 12,
    XSUGAR_KIND_NOTE_FAULT = 13,
    XSUGAR_KIND_DOC_LONG = 14,    /* more than 1,048,576 bytes */
    XSUGAR_KIND_SCRIPT_BAD = 15,  /* place: the line */
    XSUGAR_KIND_OUTLINE_BAD = 16, /* place: the line */
    XSUGAR_KIND_CERT_FAULT = 17,
    XSUGAR_KIND_CERT_LONG = 18,
    XSUGAR_KIND_CERT_BAD = 19     /* place: the line */
};

/* How the characters of a text are taken: as they are, or in a normal form of Unicode. */
enum { XSUGAR_AS_IS = 0, XSUGAR_NFC = 1, XSUGAR_NFD = 2 };

/* The sides of a sheet. */
enum { XSUGAR_TEXT = 0, XSUGAR_XML = 1 };

/* Bytes: where they begin, and how many there are. */
typedef struct {
    const uint8_t *at;
    size_t length;
} xsugar_bytes;

/* What a call tells. Begin with XSUGAR_ANSWER. */
typedef struct {
    xsugar_bytes bytes;
    uint64_t place;
    uint32_t kind;
} xsugar_answer;

#define XSUGAR_ANSWER {{(const uint8_t *)"", 0}, 0, XSUGAR_KIND_DONE}

/* A sheet, open or closed. Begin with XSUGAR_CLOSED, and pass it where it lies: what it holds is the
 * library's, and a copy of an open sheet is none. */
typedef struct {
    bool is_open;
    void *held;
} xsugar_sheet;

#define XSUGAR_CLOSED {false, 0}

/* Opens the sheet that the bytes spell, if it is accepted; what was open there is closed first. At
 * any other status than XSUGAR_DONE the sheet is closed. */
uint32_t xsugar_sheet_open(const uint8_t *bytes, size_t length, xsugar_sheet *sheet,
                           xsugar_answer *answer);

/* Opens a shipped sheet: that which the program names @leiden, or @leiden2. */
uint32_t xsugar_sheet_leiden(xsugar_sheet *sheet, xsugar_answer *answer);
uint32_t xsugar_sheet_leiden2(xsugar_sheet *sheet, xsugar_answer *answer);

/* Closes a sheet and frees what was kept of it; one that is closed stays so. */
void xsugar_sheet_close(xsugar_sheet *sheet);

/* Translates a text, taken in a form, to XML; and XML to a text. An open sheet is never refused. */
uint32_t xsugar_to_xml(xsugar_sheet *sheet, const uint8_t *text, size_t length, uint32_t form,
                       xsugar_answer *answer);
uint32_t xsugar_to_text(xsugar_sheet *sheet, const uint8_t *xml, size_t length,
                        xsugar_answer *answer);

/* Puts a document into its normal spelling. */
uint32_t xsugar_round_text(xsugar_sheet *sheet, const uint8_t *text, size_t length, uint32_t form,
                           xsugar_answer *answer);
uint32_t xsugar_round_xml(xsugar_sheet *sheet, const uint8_t *xml, size_t length,
                          xsugar_answer *answer);

/* Writes the outline of the tree of a document of a side; the form is that of a text. */
uint32_t xsugar_to_tree(xsugar_sheet *sheet, const uint8_t *document, size_t length, uint32_t side,
                        uint32_t form, xsugar_answer *answer);

/* Writes the document of a side that has the tree of an outline. */
uint32_t xsugar_from_tree(xsugar_sheet *sheet, const uint8_t *outline, size_t length, uint32_t side,
                          xsugar_answer *answer);

/* Plays an edit script over a text that begins empty, and writes its answers, a line for each of its
 * lines: docs/sessions.md says what these are. */
uint32_t xsugar_session(xsugar_sheet *sheet, const uint8_t *script, size_t length,
                        xsugar_answer *answer);

/* Runs a command as the program does. A word that names a sheet's file is `sheet`, and one that
 * names a certificate's is `certificate`; these have the bytes that are passed, and the document is
 * the input. The bytes of the answer are what the program would write, or its line of refusal. */
uint32_t xsugar_run(const xsugar_bytes *words, size_t count, const uint8_t *sheet,
                    size_t sheet_length, const uint8_t *certificate, size_t certificate_length,
                    const uint8_t *document, size_t document_length, xsugar_answer *answer);

/* Frees the bytes of an answer. */
void xsugar_free(const uint8_t *bytes);

#ifdef __cplusplus
}
#endif

#endif
