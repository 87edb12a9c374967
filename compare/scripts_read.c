/* A second reader of SMT-LIB scripts, written from document 02, No. 4, and from the points that paragraph leaves open as they were decided, by one who had seen neither the tool,
 * its definitions and their studies, nor the reader before this one (but for its first twenty lines, its functions' names and its main). It is no part of what is proved. The words in
 * quotation marks are the paragraph's. `Decided` marks a point that it leaves open: there the tool took the same decision, and agreement shows the code alone.
 * The method is not the paragraph's own: all tokens are found first, and a term is read by one loop over a stack of open applications, without a call inside a call. A symbol or a
 * part is known by its number among its own kind until the script's end, for only then is it known how many symbols stand before the parts. */
#include "scripts_read.h"

#include <stdbool.h>
#include <stdio.h>
#include <string.h>

enum { LONGEST_SCRIPT = 60000, LONGEST_NAME = 32, DEEPEST = 32 };
enum { MOST_TAGS = 1000, MOST_RECORDS = 4000, MOST_PAIRS = 500, MOST_QUESTIONS = 1000, MOST_FIELDS = MOST_RECORDS + MOST_PAIRS + MOST_QUESTIONS };
enum { TOO_LONG = 1, OUTSIDE = 14, NAMES = 15, LIMITS = 16 };
enum { EQUATION = 0x01, APPLICATION = 0x02, DIFFERENT = 0x05, CHECK = 0x06, HEADER = 0x10, LAST = 0x7f };

/* NAME is a simple symbol; RESERVED is spelled like one, and is none; NUMBER is a run of the same bytes that begins with a digit; STRAY is one byte that begins none of these. */
enum kind { OPEN, CLOSE, NAME, RESERVED, NUMBER, STRAY, END };

struct token {
    enum kind kind;
    int from, size;
};
struct symbol {
    struct token name;
    int takes;
};
/* What a tag will be given to: the symbol or the compound part of that index. */
struct thing {
    bool part;
    int index;
};
struct part {
    struct thing left, right;
};
struct field {
    int kind, length; /* length in numbers */
    struct thing body[3];
};
/* An application whose closing parenthesis is still to come: its head's argument count, the arguments read, the curried part of all but the last wanted one, and that last one. */
struct application {
    int takes, has;
    struct thing so_far, last;
};

static unsigned char script[LONGEST_SCRIPT + 1];
static int length;
static struct token tokens[LONGEST_SCRIPT + 1];
static int next; /* the first token not yet read */

static struct token sort;
static struct symbol symbols[MOST_TAGS + 1];
static struct part parts[MOST_TAGS + 1];
static struct field fields[MOST_FIELDS + 1];
static int symbol_count, part_count, field_count, records, pairs, questions;

static int refusal, place;

/* "Of 14 to 16 the one at the first token at fault is given, place its first byte". Each token is looked at once, front to back, and the reading ends here. */
static bool refuse(int number, struct token at) {
    refusal = number;
    place = at.from;
    return false;
}

/* ---- tokens: "comments and white space as in the standard" ---- */

static bool is_white(int byte) { return byte == '\t' || byte == '\n' || byte == '\r' || byte == ' '; }

static bool is_digit(int byte) { return byte >= '0' && byte <= '9'; }

/* The standard's simple symbols: letters, digits and the seventeen characters. */
static bool is_symbol_byte(int byte) {
    bool letter = (byte >= 'a' && byte <= 'z') || (byte >= 'A' && byte <= 'Z');
    return letter || is_digit(byte) || (byte != 0 && strchr("~!@$%^&*_-+=<>.?/", byte) != NULL);
}

static bool is(struct token token, const char *text) {
    return (size_t)token.size == strlen(text) && memcmp(script + token.from, text, (size_t)token.size) == 0;
}

static bool is_one_of(struct token token, const char *const *texts) {
    for (; *texts != NULL; texts++) {
        if (is(token, *texts)) return true;
    }
    return false;
}

static bool same_bytes(struct token a, struct token b) {
    return a.size == b.size && memcmp(script + a.from, script + b.from, (size_t)a.size) == 0;
}

/* "Names are simple symbols": a reserved word of the standard, 2.6, is none, be it a general one or a command's name. */
static bool is_reserved(struct token token) {
    static const char *const words[] = {
        "!", "_", "as", "BINARY", "DECIMAL", "exists", "HEXADECIMAL", "forall", "let", "match", "NUMERAL", "par", "STRING",
        "assert", "check-sat", "check-sat-assuming", "declare-const", "declare-datatype", "declare-datatypes", "declare-fun", "declare-sort",
        "define-fun", "define-fun-rec", "define-funs-rec", "define-sort", "echo", "exit", "get-assertions", "get-assignment", "get-info",
        "get-model", "get-option", "get-proof", "get-unsat-assumptions", "get-unsat-core", "get-value", "pop", "push", "reset",
        "reset-assertions", "set-info", "set-logic", "set-option", NULL};
    return is_one_of(token, words);
}

/* The first byte from AT on that is neither white space nor in a comment. A comment goes to the end of its line or, decided, of the script. */
static int behind_blanks(int at) {
    bool comment = false;
    for (; at < length; at++) {
        int byte = script[at];
        if (comment) {
            comment = byte != '\n' && byte != '\r';
        } else if (byte == ';') {
            comment = true;
        } else if (!is_white(byte)) {
            break;
        }
    }
    return at;
}

/* Decided: a token is a parenthesis or a longest run of bytes of simple symbols; any other byte stands by itself. */
static struct token token_from(int from) {
    struct token token = {END, from, 0};
    if (from == length) return token;
    while (from + token.size < length && is_symbol_byte(script[from + token.size])) token.size++;
    if (token.size == 0) {
        token.size = 1;
        token.kind = script[from] == '(' ? OPEN : script[from] == ')' ? CLOSE : STRAY;
    } else if (is_digit(script[from])) {
        token.kind = NUMBER;
    } else {
        token.kind = is_reserved(token) ? RESERVED : NAME;
    }
    return token;
}

/* The last token is END, at "the script's length if it ends too soon". */
static void find_tokens(void) {
    int count = 0;
    int at = 0;
    do {
        tokens[count] = token_from(behind_blanks(at));
        at = tokens[count].from + tokens[count].size;
    } while (tokens[count++].kind != END);
}

/* The token that must stand here, read; 14 at any other. END is at fault the same way: "ended too soon". */
static bool read_kind(enum kind kind) {
    if (tokens[next].kind != kind) return refuse(OUTSIDE, tokens[next]);
    next++;
    return true;
}

static bool read_text(const char *text) {
    if (!is(tokens[next], text)) return refuse(OUTSIDE, tokens[next]);
    next++;
    return true;
}

/* ---- names: "Core's names counting as declared; sort and function names are kept apart" ---- */

static bool is_core_sort(struct token token) { return is(token, "Bool"); }

static bool is_core_function(struct token token) {
    static const char *const words[] = {"true", "false", "not", "=>", "and", "or", "xor", "=", "distinct", "ite", NULL};
    return is_one_of(token, words);
}

/* The index of a declared symbol, or -1. */
static int symbol_named(struct token name) {
    for (int i = 0; i < symbol_count; i++) {
        if (same_bytes(symbols[i].name, name)) return i;
    }
    return -1;
}

/* A name that is to be declared, DECLARED if there is one such already: "at one token in the order 14, 15, 16". */
static bool read_new_name(bool declared) {
    struct token name = tokens[next];
    if (name.kind != NAME) return refuse(OUTSIDE, name);
    if (declared) return refuse(NAMES, name);
    if (name.size > LONGEST_NAME) return refuse(LIMITS, name);
    next++;
    return true;
}

/* ---- job limits: "the token ending what passes them" ---- */

static bool within_limits(struct token ending) {
    bool above = symbol_count + part_count > MOST_TAGS || records > MOST_RECORDS || pairs > MOST_PAIRS || questions > MOST_QUESTIONS;
    return above ? refuse(LIMITS, ending) : true;
}

static void put_field(int kind, int numbers, struct thing a, struct thing b, struct thing c) {
    fields[field_count++] = (struct field){kind, numbers, {a, b, c}};
}

/* ---- terms ---- */

static bool same_thing(struct thing a, struct thing b) { return a.part == b.part && a.index == b.index; }

/* LEFT applied to RIGHT: "one for each distinct compound part of the curried terms, after its two halves"; "Its 02 stands where the part is first met". ENDING is its last token. */
static bool apply(struct thing left, struct thing right, struct token ending, struct thing *result) {
    *result = (struct thing){true, 0};
    for (; result->index < part_count; result->index++) {
        if (same_thing(parts[result->index].left, left) && same_thing(parts[result->index].right, right)) return true;
    }
    part_count++;
    records++;
    if (!within_limits(ending)) return false;
    parts[result->index] = (struct part){left, right};
    put_field(APPLICATION, 3, left, right, *result);
    return true;
}

/* Decided: a Core name is declared, but its terms are outside the subset. */
static bool is_term_name(struct token token) { return token.kind == NAME && !is_core_function(token); }

static bool can_begin_term(struct token token) { return token.kind == OPEN || is_term_name(token); }

/* The first token of a term, which is an argument of AROUND (NULL: a side of the equality) and stands at LEVEL. "Too many arguments: the first extra one"; "too few: the ... bare
 * name"; "depth: the term's first token"; "at one token in the order 14, 15, 16". */
static bool may_begin(struct token first, const struct application *around, int level) {
    if (!can_begin_term(first)) return refuse(OUTSIDE, first);
    if (around != NULL && around->has == around->takes) return refuse(NAMES, first);
    if (first.kind == NAME) {
        int symbol = symbol_named(first);
        if (symbol < 0 || symbols[symbol].takes > 0) return refuse(NAMES, first);
    }
    if (level > DEEPEST) return refuse(LIMITS, first);
    return true;
}

/* The name behind an opening parenthesis. */
static bool read_head(struct application *application) {
    struct token head = tokens[next];
    if (!is_term_name(head)) return refuse(OUTSIDE, head);
    int symbol = symbol_named(head);
    if (symbol < 0) return refuse(NAMES, head);
    next++;
    *application = (struct application){.takes = symbols[symbol].takes, .has = 0, .so_far = {false, symbol}, .last = {false, symbol}};
    return true;
}

/* The closing parenthesis ends the whole term. Decided: an empty list of arguments is outside the subset. "too few: the closing parenthesis". */
static bool close_application(const struct application *application, struct token ending, struct thing *term) {
    if (application->has == 0) return refuse(OUTSIDE, ending);
    if (application->has < application->takes) return refuse(NAMES, ending);
    return apply(application->so_far, application->last, ending, term);
}

/* One argument more, which ended at ENDING. Decided: a part that is no whole term ends with its last argument, the whole term at its closing parenthesis. */
static bool take_argument(struct application *application, struct thing argument, struct token ending) {
    application->has++;
    application->last = argument;
    if (application->has == application->takes) return true;
    return apply(application->so_far, argument, ending, &application->so_far);
}

/* "A term may be nested 32 deep, a constant 1: a term holds terms, and a list of arguments holds terms again." The sides of the equality stand at level 1, and with OPENED
 * applications open a term stands one level below the last of them. */
static bool read_term(struct thing *term) {
    struct application open[DEEPEST];
    int opened = 0;
    do {
        struct application *around = opened > 0 ? &open[opened - 1] : NULL;
        struct token token = tokens[next];
        if (around != NULL && token.kind == CLOSE) {
            if (!close_application(around, token, term)) return false;
            opened--;
        } else {
            if (!may_begin(token, around, opened + 1)) return false;
            if (token.kind == OPEN) {
                next++;
                if (!read_head(&open[opened++])) return false;
                continue;
            }
            *term = (struct thing){false, symbol_named(token)};
        }
        next++;
        if (opened > 0 && !take_argument(&open[opened - 1], *term, token)) return false;
    } while (opened > 0);
    return true;
}

/* ---- commands ---- */

/* "set-logic QF_UF" */
static bool read_set_logic(void) { return read_kind(OPEN) && read_text("set-logic") && read_text("QF_UF") && read_kind(CLOSE); }

/* "one declare-sort of arity 0" */
static bool read_declare_sort(void) {
    if (!read_kind(OPEN) || !read_text("declare-sort")) return false;
    sort = tokens[next];
    return read_new_name(is_core_sort(sort)) && read_text("0") && read_kind(CLOSE);
}

/* "declare-fun over it". Decided: Bool is declared and outside the subset; any other name is undeclared. */
static bool read_sort(void) {
    struct token name = tokens[next];
    if (name.kind != NAME || is_core_sort(name)) return refuse(OUTSIDE, name);
    if (!same_bytes(name, sort)) return refuse(NAMES, name);
    next++;
    return true;
}

static bool read_declare_fun(void) {
    struct symbol symbol = {tokens[next], 0};
    if (!read_new_name(is_core_function(symbol.name) || symbol_named(symbol.name) >= 0) || !read_kind(OPEN)) return false;
    for (; tokens[next].kind != CLOSE; symbol.takes++) {
        if (!read_sort()) return false;
    }
    next++;
    if (!read_sort() || !read_kind(CLOSE)) return false;
    symbols[symbol_count++] = symbol;
    return within_limits(tokens[next - 1]);
}

/* "an equality of two terms", from behind its opening parenthesis */
static bool read_equality(struct thing *left, struct thing *right) { return read_text("=") && read_term(left) && read_term(right) && read_kind(CLOSE); }

/* "assert of an equality of two terms or a negated one"; "the assertion's 01 or 05 follows" */
static bool read_assert(void) {
    struct thing left, right;
    if (!read_kind(OPEN)) return false;
    bool negated = is(tokens[next], "not");
    if (negated) {
        next++;
        if (!read_kind(OPEN)) return false;
    }
    if (!read_equality(&left, &right)) return false;
    if (negated && !read_kind(CLOSE)) return false;
    if (!read_kind(CLOSE)) return false;
    if (negated) {
        pairs++;
    } else {
        records++;
    }
    if (!within_limits(tokens[next - 1])) return false;
    put_field(negated ? DIFFERENT : EQUATION, 2, left, right, right);
    return true;
}

/* "check-sat becomes 06" */
static bool read_check_sat(void) {
    struct thing none = {false, 0};
    if (!read_kind(CLOSE)) return false;
    questions++;
    if (!within_limits(tokens[next - 1])) return false;
    put_field(CHECK, 0, none, none, none);
    return true;
}

/* "then in any order declare-fun ..., assert ... and check-sat, then exit, last". Decided: a command out of its place is at fault at its word. */
static bool read_commands(void) {
    for (;;) {
        if (!read_kind(OPEN)) return false;
        struct token word = tokens[next++];
        bool read;
        if (is(word, "exit")) return read_kind(CLOSE) && read_kind(END);
        if (is(word, "declare-fun")) {
            read = read_declare_fun();
        } else if (is(word, "assert")) {
            read = read_assert();
        } else if (is(word, "check-sat")) {
            read = read_check_sat();
        } else {
            return refuse(OUTSIDE, word);
        }
        if (!read) return false;
    }
}

/* ---- the job ---- */

static void write_number(int number) {
    putchar(number / 256);
    putchar(number % 256);
}

/* "one tag for each declared symbol in order, then one for each distinct compound part" */
static int tag_of(struct thing thing) { return thing.part ? symbol_count + thing.index : thing.index; }

static void write_field(const struct field *field) {
    putchar(field->kind);
    write_number(2 * field->length);
    for (int i = 0; i < field->length; i++) write_number(tag_of(field->body[i]));
}

/* "The header has length 2"; "A script that declares no symbol gets N = 1" */
static void write_job(void) {
    putchar(HEADER);
    write_number(2);
    write_number(symbol_count == 0 ? 1 : symbol_count + part_count);
    for (int i = 0; i < field_count; i++) write_field(&fields[i]);
    putchar(LAST);
    write_number(0);
}

/* "1 for a script above 60,000 bytes", at place 0 */
static bool read_all(void) {
    if (length > LONGEST_SCRIPT) {
        refusal = TOO_LONG;
        place = 0;
        return false;
    }
    find_tokens();
    return read_set_logic() && read_declare_sort() && read_commands();
}

int read_script(void) {
    length = (int)fread(script, 1, sizeof script, stdin);
    if (!read_all()) {
        fprintf(stderr, "R %d %d\n", refusal, place);
        return 1;
    }
    write_job();
    return 0;
}
