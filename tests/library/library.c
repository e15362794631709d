/* Calls each function of the library, and then once more with every allocation refused in turn. */
#include "xsugar.h"

#include <stdio.h>
#include <stdlib.h>
#include <string.h>

static int passed, failed;

static void check(int right, const char *what)
{
    if (right)
        passed++;
    else {
        failed++;
        printf("failed: %s\n", what);
    }
}

/* The linker's --wrap puts these in the place of malloc and realloc: the allocation of this number is refused. */
static long refused_at = -1, asked;

void *__real_malloc(size_t size);
void *__real_realloc(void *block, size_t size);
void *__wrap_malloc(size_t size) { return ++asked == refused_at ? NULL : __real_malloc(size); }
void *__wrap_realloc(void *block, size_t size)
{
    return ++asked == refused_at ? NULL : __real_realloc(block, size);
}

static const char *const PAIR = "xsugar-1\nstart s\nterminal d = /[0-9]/\nignorable w = / */ \"\"\n"
                                "s : \"(\" [d a] [w] \",\" [d b] \")\" = <p><y>[d b]</y><x>[d a]</x></p>\n";
static const char *const SUSPECT = "xsugar-1\nstart s\nterminal w = /[a-z]+/\ns : \"a\" = <s/>\n"
                                   "s : [w x] = <t>[w x]</t>\n";

static const uint8_t *bytes_of(const char *text) { return (const uint8_t *)text; }

static void let_go(xsugar_answer *answer)
{
    if (answer->bytes.length)
        xsugar_free(answer->bytes.at);
    *answer = (xsugar_answer)XSUGAR_ANSWER;
}

/* Whether the call ended so and told this; its bytes are freed. */
static int told(uint32_t status, xsugar_answer *answer, uint32_t wanted, uint32_t kind, uint64_t place,
                const char *bytes)
{
    int right = status == wanted && answer->kind == kind && answer->place == place
        && answer->bytes.length == strlen(bytes)
        && !memcmp(answer->bytes.at, bytes, answer->bytes.length);
    let_go(answer);
    return right;
}

static int gives(uint32_t status, xsugar_answer *answer, const char *bytes)
{
    return told(status, answer, XSUGAR_DONE, XSUGAR_KIND_DONE, 0, bytes);
}

#define TEXT(t) bytes_of(t), strlen(t)

static void opens(void)
{
    xsugar_sheet sheet = XSUGAR_CLOSED;
    xsugar_answer answer = XSUGAR_ANSWER;
    check(xsugar_to_xml(&sheet, TEXT("(3,7)"), XSUGAR_AS_IS, &answer) == XSUGAR_NOT_OPEN, "closed");
    check(gives(xsugar_sheet_open(TEXT(PAIR), &sheet, &answer), &answer, ""), "open");
    check(sheet.is_open, "is open");
    check(gives(xsugar_sheet_leiden(&sheet, &answer), &answer, ""), "@leiden");
    check(gives(xsugar_sheet_leiden2(&sheet, &answer), &answer, ""), "@leiden2");
    check(told(xsugar_sheet_open(TEXT("xsugar-1\nstart s\ns : \"a = <s/>\n"), &sheet, &answer), &answer,
               XSUGAR_SHEET, XSUGAR_KIND_SHEET_BAD, 21, "sheet: byte 21: not expected here\n"), "bad sheet");
    check(!sheet.is_open, "is closed");
    check(told(xsugar_sheet_open(TEXT("xsugar-1\nstart s\nt : = <s/>\n"), &sheet, &answer), &answer,
               XSUGAR_SHEET, XSUGAR_KIND_SHEET_ILL, 2, "sheet: line 2: start is not a nonterminal\n"), "ill sheet");
    check(told(xsugar_sheet_open(TEXT(SUSPECT), &sheet, &answer), &answer, XSUGAR_SUSPECT,
               XSUGAR_KIND_SUSPECT, 4, "suspect: text: s: lines 4 and 5 share \"a\"\n"), "suspect");
    xsugar_sheet_close(&sheet);
    xsugar_sheet_close(&sheet);
}

static void translates(void)
{
    xsugar_sheet sheet = XSUGAR_CLOSED;
    xsugar_answer answer = XSUGAR_ANSWER;
    const char *xml = "<p><y>7</y><x>3</x></p>\n", *outline = "0 tree 1\n1 a \"3\"\n1 b \"7\"\n";
    check(gives(xsugar_sheet_open(TEXT(PAIR), &sheet, &answer), &answer, ""), "open");
    check(gives(xsugar_to_xml(&sheet, TEXT("(3  ,7)"), XSUGAR_AS_IS, &answer), &answer, xml), "to XML");
    check(gives(xsugar_to_xml(&sheet, TEXT("(3,7)"), XSUGAR_NFC, &answer), &answer, xml), "to XML, NFC");
    check(gives(xsugar_to_text(&sheet, TEXT(xml), &answer), &answer, "(3,7)"), "to text");
    check(gives(xsugar_round_text(&sheet, TEXT("(3  ,7)"), XSUGAR_NFD, &answer), &answer, "(3,7)"), "round text");
    check(gives(xsugar_round_xml(&sheet, TEXT("<p><y>7</y><x>3</x></p>"), &answer), &answer, xml), "round XML");
    check(gives(xsugar_to_tree(&sheet, TEXT("(3,7)"), XSUGAR_TEXT, XSUGAR_AS_IS, &answer), &answer, outline),
          "outline of text");
    check(gives(xsugar_to_tree(&sheet, TEXT(xml), XSUGAR_XML, XSUGAR_AS_IS, &answer), &answer, outline),
          "outline of XML");
    check(gives(xsugar_from_tree(&sheet, TEXT(outline), XSUGAR_TEXT, &answer), &answer, "(3,7)"), "text of outline");
    check(gives(xsugar_from_tree(&sheet, TEXT(outline), XSUGAR_XML, &answer), &answer, xml), "XML of outline");
    check(told(xsugar_to_xml(&sheet, TEXT("(3,7]"), XSUGAR_AS_IS, &answer), &answer, XSUGAR_FOREIGN,
               XSUGAR_KIND_FOREIGN, 4, "input: foreign after 4 symbols\n"), "foreign");
    check(told(xsugar_to_text(&sheet, TEXT("<p>&nbsp;</p>"), &answer), &answer, XSUGAR_NO_TEXT,
               XSUGAR_KIND_NOT_XML, 3, "input: character 3: not XML\n"), "no XML");
    check(told(xsugar_to_xml(&sheet, TEXT("(\377"), XSUGAR_AS_IS, &answer), &answer, XSUGAR_NO_TEXT,
               XSUGAR_KIND_NOT_UTF8, 1, "input: byte 1: not UTF-8\n"), "no UTF-8");
    check(told(xsugar_from_tree(&sheet, TEXT("0 tree 1\n1 a \"3\"\n"), XSUGAR_TEXT, &answer), &answer,
               XSUGAR_OUTLINE, XSUGAR_KIND_OUTLINE_BAD, 3, "outline: line 3: not expected here\n"), "no outline");
    check(gives(xsugar_session(&sheet, TEXT("put 0 0 \"(3\"\nnext 2\n"), &answer), &answer,
                "ok 2\nnext \" \" \",\"\n"), "session");
    check(told(xsugar_session(&sheet, TEXT("put\n"), &answer), &answer, XSUGAR_SCRIPT, XSUGAR_KIND_SCRIPT_BAD, 1,
               "script: line 1: not expected here\n"), "no script");
    uint8_t *large = calloc(1, 1048577);
    check(told(xsugar_to_xml(&sheet, large, 1048577, XSUGAR_AS_IS, &answer), &answer, XSUGAR_LONG,
               XSUGAR_KIND_DOC_LONG, 0, "input: more than 1048576 bytes\n"), "too long");
    free(large);
    xsugar_sheet_close(&sheet);
}

static uint32_t ran(const char *first, const char *second, const char *document, xsugar_answer *answer)
{
    xsugar_bytes words[] = {{TEXT(first)}, {TEXT(second)}};
    return xsugar_run(words, 2, TEXT(PAIR), TEXT(""), TEXT(document), answer);
}

static void runs(void)
{
    xsugar_answer answer = XSUGAR_ANSWER;
    check(gives(ran("to-xml", "sheet", "(3,7)", &answer), &answer, "<p><y>7</y><x>3</x></p>\n"), "run");
    check(gives(ran("check", "sheet", "", &answer), &answer,
                "accepted: 1 terminals, 1 ignorables, 1 nonterminals, 1 productions\n"), "run check");
    check(told(ran("to-xml", "sheet", "(3", &answer), &answer, XSUGAR_FOREIGN, XSUGAR_KIND_FOREIGN, 2,
               "input: foreign after 2 symbols\n"), "run foreign");
    check(told(ran("check", "gone", "", &answer), &answer, XSUGAR_DEVICE, XSUGAR_KIND_SHEET_FAULT, 0,
               "sheet: cannot be read\n"), "run without a sheet");
    check(ran("\377", "sheet", "", &answer) == XSUGAR_USAGE, "no words");
    let_go(&answer);
    check(ran("to-xml", "to-xml sheet", "", &answer) == XSUGAR_DEVICE, "one word");
    let_go(&answer);
}

/* A whole life of a sheet; whether each call ended well or for want of memory. */
static int lives(void)
{
    xsugar_sheet sheet = XSUGAR_CLOSED;
    xsugar_answer answer = XSUGAR_ANSWER;
    uint32_t opened = xsugar_sheet_open(TEXT(PAIR), &sheet, &answer);
    let_go(&answer);
    if (opened == XSUGAR_MEMORY)
        return !sheet.is_open;
    uint32_t turned = xsugar_to_xml(&sheet, TEXT("(3,7)"), XSUGAR_NFC, &answer);
    let_go(&answer);
    uint32_t foreign = xsugar_to_text(&sheet, TEXT("<p/>"), &answer);
    let_go(&answer);
    uint32_t again = ran("to-xml", "sheet", "(3,7)", &answer);
    let_go(&answer);
    int right = opened == XSUGAR_DONE && sheet.is_open && (turned == XSUGAR_DONE || turned == XSUGAR_MEMORY)
        && (foreign == XSUGAR_FOREIGN || foreign == XSUGAR_MEMORY)
        && (again == XSUGAR_DONE || again == XSUGAR_MEMORY);
    xsugar_sheet_close(&sheet);
    return right;
}

static void refuses(void)
{
    asked = 0;
    check(lives(), "a life");
    long all = asked;
    check(all > 0, "allocations are seen");
    for (refused_at = 1; refused_at <= all; refused_at++) {
        asked = 0;
        if (!lives()) {
            check(0, "an allocation refused");
            printf("allocation %ld of %ld\n", refused_at, all);
        }
    }
    refused_at = -1;
    check(lives(), "a life afterwards");
    printf("%ld allocations refused in turn\n", all);
}

int main(void)
{
    opens();
    translates();
    runs();
    refuses();
    printf("%d passed, %d failed\n", passed, failed);
    return failed != 0;
}
