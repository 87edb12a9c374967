/* A maker of right and damaged SMT-LIB scripts, and the command line of the second reader (scripts_read.c), which knows nothing of it. A mistake in the reader or in the tool shows
 * as a difference. Maker and reader are no part of what is proved.
 *     scripts read < SCRIPT > JOB      the job's bytes; or the line `R number place` on standard error, and status 1
 *     scripts make SEED > SCRIPT       a random script; the same seed gives the same bytes. Two of three are damaged */
#include "scripts_read.h"

#include <stdio.h>
#include <stdlib.h>
#include <string.h>

enum { MOST = 60000 };

static unsigned long long state;

static int below(int n) {
    state = state * 6364136223846793005ULL + 1442695040888963407ULL;
    return (int)((state >> 33) % (unsigned long long)n);
}

static unsigned char out[4 * MOST];
static int length;

static void add(const char *s) {
    size_t n = strlen(s);
    if ((size_t)length + n < sizeof out) memcpy(out + length, s, n), length += (int)n;
}

static void gap(void) {
    static const char *const gaps[] = {" ", " ", " ", "\n", "\t", "\r\n", "  ", "; a (comment\n", ";)\r"};
    add(gaps[below(9)]);
}

static int takes[40], made;
static const char *const odd[] = {"+", "f~1", "@a", ".b", "x!y", "<=", "sat", "Int", "Bool", "U"};

static void name_of(int i) {
    char s[24];
    if (i < 10) add(odd[i]);
    else sprintf(s, "%s%d", i % 3 ? "c" : "Tag_", i), add(s);
}

static void some_term(int depth) {
    int i = below(made);
    for (int tries = 0; takes[i] > 0 && depth <= 0 && tries < 200; tries++) i = below(made);
    if (takes[i] == 0) {
        name_of(i);
        return;
    }
    add("(");
    name_of(i);
    for (int k = 0; k < takes[i]; k++) gap(), some_term(depth - 1);
    if (below(40) == 0) gap(), some_term(0);
    add(")");
}

static void some_claim(void) {
    int negated = below(3) == 0;
    add(negated ? "(assert (not (= " : "(assert (= ");
    some_term(below(4)), gap(), some_term(below(3));
    add(negated ? ")))" : "))");
}

static void damage(void) {
    static const char *const tokens[] = {"(", ")", "=", "not", "a", "U", "Bool", "assert", "exit", "0", "00", "let", "true", "()", "(f)", "\"", "|x|", ":k", "#b1", "\v", "check-sat", "declare-fun", "(exit)", ";"};
    if (length == 0) return;
    int at = below(length), n = 1 + below(6);
    switch (below(5)) {
    case 0: length = at; break;
    case 1: out[at] = (unsigned char)below(256); break;
    case 2:
        if (at + n < length) memmove(out + at, out + at + n, (size_t)(length - at - n)), length -= n;
        break;
    default: {
        const char *t = tokens[below((int)(sizeof tokens / sizeof *tokens))];
        size_t m = strlen(t);
        memmove(out + at + m, out + at, (size_t)(length - at));
        memcpy(out + at, t, m);
        length += (int)m;
    }
    }
}

static int make(unsigned long long seed) {
    state = seed * 2862933555777941757ULL + 3037000493ULL;
    below(2), below(2);
    int wide = below(12) == 0, commands = wide ? 400 + below(1600) : below(24);
    add("(set-logic QF_UF)"), gap(), add("(declare-sort U 0)");
    for (int i = 0; i < commands; i++) {
        gap();
        int what = below(8);
        if (made < 2 || (what == 0 && made < 36)) {
            if (made < 2 && below(20) == 0 && i > 0) add("(check-sat)");
            takes[made] = made == 0 ? 0 : below(4);
            add("(declare-fun "), name_of(made), add(" (");
            for (int k = 0; k < takes[made]; k++) add(k ? " U" : "U");
            add(") U)");
            made++;
        } else if (what == 1) add("(check-sat)");
        else some_claim();
    }
    gap(), add("(exit)");
    if (below(2)) gap();
    for (int k = below(3); k > 0; k--) damage();
    fwrite(out, 1, (size_t)length, stdout);
    return 0;
}

int main(int argc, char **argv) {
    if (argc == 2 && strcmp(argv[1], "read") == 0) return read_script();
    if (argc == 3 && strcmp(argv[1], "make") == 0) return make(strtoull(argv[2], NULL, 10));
    fprintf(stderr, "usage: scripts read < SCRIPT > JOB, scripts make SEED > SCRIPT\n");
    return 2;
}
