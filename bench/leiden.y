/* A parser of the shipped sheet's texts by GNU bison, for bench/compare: what a translation takes
   where it is written in C for one grammar, by the common tool that takes the grammar as it is. It
   reads a text from standard input, makes its tree in an arena, and then prints the tree's XML,
   byte for byte as `xsugar to-xml @leiden` does.

   The grammar is the text side of sheets/leiden.xsugar, production by production, with the
   terminals spelled out. It is not LALR(1): at a space the line goes on or ends, and at a letter
   the word goes on or an unclear letter begins, as the symbol after that tells. There bison's GLR
   parser forks. A token is a symbol; with the word `runs`, a run of letters or of digits is one
   token, and the scanner looks one symbol ahead to leave out an unclear letter.

   It promises less than xsugar. The sheet is fixed, and nothing checks that its grammar is
   unambiguous or that XML and text lead back to each other; XML is not translated back; no leaf of
   this sheet needs a reference in XML, so none is written; that it is right, comparison alone
   shows; a text that is foreign is refused without its place; and since bison's calls go as deep as
   a word is long, one of more than some 12,000 letters ends the program where its stack is 8 MB. */
%glr-parser
%expect 15
%expect-rr 3
%define api.value.type {struct pair}

%code requires {
#include <stdint.h>
/* A stretch of the input from `first` up to `last`, or a list of nodes from `first` to `last`. */
struct pair { uint32_t first, last; };
}

%code {
/* How many items bison's stack may have: it grows while there are two readings, as along a word. */
#define YYMAXDEPTH 100000000

#include <stdbool.h>
#include <stdio.h>
#include <stdlib.h>
#include <string.h>

enum kind { TEXT, BLOCK, LINE, START, BROKEN, UNCLEAR, LOST, LOST_SOME, ILLEGIBLE, ILLEGIBLE_SOME,
            SUPPLIED, OMITTED, SURPLUS, EXPANSION, EX };
/* A text is a stretch of the input; an element has a stretch for its attribute, and its children. */
struct node { enum kind kind; struct pair text; uint32_t child, next; };

static int yylex(void);
static void yyerror(const char *text) { fprintf(stderr, "input: %s\n", text); }

static void *grown(void *block, size_t bytes) {
  block = realloc(block, bytes);
  if (!block) exit(8);
  return block;
}

/* The arena; node 0 is none. */
static struct node *nodes;
static uint32_t root, used = 1, room;

static struct pair node(enum kind kind, struct pair text, struct pair children) {
  if (used >= room) nodes = grown(nodes, (room = room ? 2 * room : 4096) * sizeof *nodes);
  nodes[used] = (struct node){kind, text, children.first, 0};
  used++;
  return (struct pair){used - 1, used - 1};
}

static const struct pair none = {0, 0};
static struct pair across(struct pair left, struct pair right) { return (struct pair){left.first, right.last}; }
static struct pair text(struct pair it) { return node(TEXT, it, none); }
static struct pair element(enum kind kind, struct pair children) { return node(kind, none, children); }
static struct pair empty(enum kind kind, struct pair attribute) { return node(kind, attribute, none); }

/* The left list, at whose end the right one is put: bison runs actions where one reading is left. */
static struct pair joined(struct pair left, struct pair right) {
  nodes[left.last].next = right.first;
  return across(left, right);
}
}

/* Symbols: a to z, other letters, what else a word may begin with, combining marks, U+0323, digits,
   and tab and CR. A run of several symbols that begins with a letter is a PART, as it is no letter. */
%token LOWER LETTER PART MARK BELOW ZERO DIGIT BLANK

%%
document: '<' '=' ws lines ws '=' '>' ws { root = element(BLOCK, $lines).first; };

lines: line | lines nl line { $$ = joined($1, $3); };
line: k { $$ = element(LINE, $1); }
    | w { $$ = element(LINE, $1); }
    | u { $$ = element(LINE, $1); };

k: num '.' ' '     { $$ = empty(START, $1); }
 | num '.' '-' ' ' { $$ = empty(BROKEN, $1); }
 | k mark          { $$ = joined($1, $2); }
 | w mark          { $$ = joined($1, $2); }
 | g mark          { $$ = joined($1, $2); }
 | u mark          { $$ = joined($1, $2); };
w: k word { $$ = joined($1, text($2)); }
 | g word { $$ = joined($1, text($2)); }
 | u word { $$ = joined($1, text($2)); };
g: k sp { $$ = joined($1, text($2)); }
 | w sp { $$ = joined($1, text($2)); }
 | u sp { $$ = joined($1, text($2)); };
u: k run { $$ = joined($1, element(UNCLEAR, $2)); }
 | w run { $$ = joined($1, element(UNCLEAR, $2)); }
 | g run { $$ = joined($1, element(UNCLEAR, $2)); };

run: uc | run uc { $$ = joined($1, $2); };
uc: letter BELOW       { $$ = text($1); }
  | letter BELOW marks { $$ = joined(text($1), text($3)); };

mark: '[' '.' qty ']'                 { $$ = empty(LOST, $3); }
    | '[' '.' '?' ']'                 { $$ = empty(LOST_SOME, none); }
    | '.' qty                         { $$ = empty(ILLEGIBLE, $2); }
    | '.' '?'                         { $$ = empty(ILLEGIBLE_SOME, none); }
    | '[' plain ']'                   { $$ = element(SUPPLIED, text($2)); }
    | '<' plain '>'                   { $$ = element(OMITTED, text($2)); }
    | '{' plain '}'                   { $$ = element(SURPLUS, text($2)); }
    | '(' word '(' word ')' ')'       { $$ = element(EXPANSION, joined(text($2), element(EX, text($4)))); }
    | '(' '(' word ')' ')'            { $$ = element(EXPANSION, element(EX, text($3))); };

num: digits | digits LOWER { $$ = across($1, $2); };
digits: ZERO | DIGIT
      | digits ZERO { $$ = across($1, $2); } | digits DIGIT { $$ = across($1, $2); };
qty: DIGIT
   | qty ZERO { $$ = across($1, $2); } | qty DIGIT { $$ = across($1, $2); };
word: LOWER | LETTER | PART
    | word LOWER { $$ = across($1, $2); } | word LETTER { $$ = across($1, $2); }
    | word PART  { $$ = across($1, $2); } | word MARK   { $$ = across($1, $2); };
plain: LOWER | LETTER | PART | ' '
     | plain LOWER { $$ = across($1, $2); } | plain LETTER { $$ = across($1, $2); }
     | plain PART  { $$ = across($1, $2); } | plain MARK   { $$ = across($1, $2); }
     | plain ' '   { $$ = across($1, $2); };
letter: LOWER | LETTER;
marks: MARK | marks MARK { $$ = across($1, $2); };
sp: ' ' | sp ' ' { $$ = across($1, $2); };
ws: %empty { $$ = none; } | ws ' ' | ws BLANK | ws '\n';
nl: blanks '\n' ws;
blanks: %empty { $$ = none; } | blanks ' ' | blanks BLANK;
%%

/* The input, with a zero after it; where the next symbol begins; whether a run is one token. */
static unsigned char *input;
static uint32_t length, at;
static bool runs;

static void read_all(void) {
  uint32_t size = 1 << 16, count;
  for (input = grown(NULL, size + 1); (count = fread(input + length, 1, size - length, stdin)) > 0;) {
    length += count;
    if (length >> 30) exit(8);
    if (length == size) input = grown(input, (size *= 2) + 1);
  }
  input[length] = 0;
}

/* Reads the symbol at `place`, which is moved on: its code point, or -1 where UTF-8 has none. */
static int32_t symbol(uint32_t *place) {
  static const int32_t least[] = {0, 0x80, 0x800, 0x10000};
  int32_t code = input[(*place)++];
  if (code < 0x80) return code;
  int more = code >= 0xF0 ? 3 : code >= 0xE0 ? 2 : 1;
  if (code < 0xC2 || code > 0xF4) return -1;
  code &= 0x3F >> more;
  for (int left = more; left > 0; left--) {
    if ((input[*place] & 0xC0) != 0x80) return -1;
    code = code << 6 | (input[(*place)++] & 0x3F);
  }
  return code < least[more] || code > 0x10FFFF || (code >= 0xD800 && code < 0xE000) ? -1 : code;
}

/* The token of a symbol: its own for the marks of the sheet, or that of its class. */
static int token(int32_t code) {
  if (code >= 'a' && code <= 'z') return LOWER;
  if (code >= 'A' && code <= 'Z') return LETTER;
  if (code >= '1' && code <= '9') return DIGIT;
  if (code > 0 && code < 0x80) {
    if (strchr(" \n<=>.-[]?{}()", code)) return code;
    return code == '0' ? ZERO : strchr(",;:", code) ? PART : strchr("\t\r", code) ? BLANK : YYUNDEF;
  }
  if ((code >= 0x370 && code <= 0x3FF) || (code >= 0x1F00 && code <= 0x1FFF)) return LETTER;
  if (code == 0x323) return BELOW;
  if (code >= 0x300 && code <= 0x36F) return MARK;
  if (code >= 0xC0 && code <= 0xFF) return code == 0xD7 || code == 0xF7 ? YYUNDEF : LETTER;
  return code == 0xB7 || code == 0x2019 ? PART : YYUNDEF;
}

static bool is_digit(int kind) { return kind == ZERO || kind == DIGIT; }
static bool in_word(int kind) { return kind == LOWER || kind == LETTER || kind == PART || kind == MARK; }

/* Whether a run that begins with a token of kind `first` goes on with the symbol at `place`, which
   is moved on: a letter before U+0323, whose bytes are CC A3, is a token of its own. */
static bool goes_on(int first, uint32_t *place) {
  int more = token(symbol(place));
  if (is_digit(first)) return is_digit(more);
  if (first == MARK || more == MARK) return more == MARK;
  return in_word(more) && (more == PART || input[*place] != 0xCC || input[*place + 1] != 0xA3);
}

/* Moves on over the rest of a run that begins with a token of this kind; the token of the run. */
static int run_of(int kind) {
  uint32_t begin = at;
  for (uint32_t next = at; goes_on(kind, &next);) at = next;
  return at > begin && (kind == LOWER || kind == LETTER) ? PART : kind;
}

static int yylex(void) {
  if (at == length) return YYEOF;
  yylval.first = at;
  int kind = token(symbol(&at));
  if (runs && (is_digit(kind) || in_word(kind))) kind = run_of(kind);
  yylval.last = at;
  return kind;
}

static void put(const char *text) { while (*text) putchar_unlocked(*text++); }
static void put_text(struct pair it) { while (it.first < it.last) putchar_unlocked(input[it.first++]); }

/* What is written before a node, after its attribute or before its children, and after it. */
static const char *const shown[][3] = {
  [TEXT] = {"", "", ""},
  [BLOCK] = {"<ab>", "", "\n</ab>\n"},
  [LINE] = {"\n", "", ""},
  [START] = {"<lb n=\"", "\"/>", ""},
  [BROKEN] = {"<lb break=\"no\" n=\"", "\"/>", ""},
  [UNCLEAR] = {"<unclear>", "", "</unclear>"},
  [LOST] = {"<gap quantity=\"", "\" reason=\"lost\" unit=\"character\"/>", ""},
  [LOST_SOME] = {"<gap extent=\"unknown\" reason=\"lost\" unit=\"character\"/>", "", ""},
  [ILLEGIBLE] = {"<gap quantity=\"", "\" reason=\"illegible\" unit=\"character\"/>", ""},
  [ILLEGIBLE_SOME] = {"<gap extent=\"unknown\" reason=\"illegible\" unit=\"character\"/>", "", ""},
  [SUPPLIED] = {"<supplied reason=\"lost\">", "", "</supplied>"},
  [OMITTED] = {"<supplied reason=\"omitted\">", "", "</supplied>"},
  [SURPLUS] = {"<surplus>", "", "</surplus>"},
  [EXPANSION] = {"<expan>", "", "</expan>"},
  [EX] = {"<ex>", "", "</ex>"},
};

static void print(uint32_t at) {
  for (; at; at = nodes[at].next) {
    put(shown[nodes[at].kind][0]);
    put_text(nodes[at].text);
    put(shown[nodes[at].kind][1]);
    print(nodes[at].child);
    put(shown[nodes[at].kind][2]);
  }
}

int main(int count, char **words) {
  runs = count > 1 && strcmp(words[1], "runs") == 0;
  read_all();
  if (yyparse() != 0) return 1;
  print(root);
  return fflush(stdout) == 0 ? 0 : 2;
}
