/* rup FILE.cnf STREAM: plain forward checker of engine streams.
   One line on standard output; ends with 20 for UNSAT, 10 for SAT, 0 for UNKNOWN, 1 for BAD, 32 for want of memory. */
#include "clauses.h"

static FILE *file;
static unsigned char buffer[1 << 16];
static size_t buffer_n, buffer_at;
static unsigned long long byte; /* the place of ch */
static int ch;


static void bad(const char *kind, unsigned long long at) { printf("BAD %s at byte %llu\n", kind, at); exit(1); }

static void step(void) {
    byte++;
    if (buffer_at == buffer_n) { buffer_n = fread(buffer, 1, sizeof buffer, file); buffer_at = 0; }
    ch = buffer_n ? buffer[buffer_at++] : -1;
}
static void open_text(const char *path) {
    file = fopen(path, "rb");
    if (!file) bad("file", 0);
    buffer_n = buffer_at = 0;
    step();
    byte = 0;
}
static int white(int c) { return c == ' ' || c == '\t' || c == '\r'; }
static int ends(int c) { return white(c) || c == '\n' || c < 0; }
static void blanks(void) { while (white(ch)) step(); }
static void skip_line(void) { while (ch >= 0 && ch != '\n') step(); }

static int word(uint32_t *l) { /* 1: a literal, 0: the word 0; at ch, which isn't white */
    int minus = ch == '-';
    uint64_t n = 0;
    if (minus) step();
    if (ch == '0' && !minus) step();
    else {
        if (ch < '1' || ch > '9') bad("BadLiteral", byte);
        for (; ch >= '0' && ch <= '9' && n <= vars; step()) n = 10 * n + ch - '0';
        if (n > vars) bad("BadLiteral", byte);
        *l = 2 * (n - 1) + minus;
    }
    if (!ends(ch)) bad("BadLiteral", byte);
    return n != 0;
}
static void put(uint32_t l) { /* into the line, once */
    if (stamp[l] != now) { stamp[l] = now; line[line_n++] = l; }
}
static void read_formula(const char *path) {
    unsigned clauses = 0, count = 0;
    uint32_t l;
    char head_line[64];
    size_t n = 0;
    open_text(path);
    while (ch == 'c') { skip_line(); step(); }
    for (; ch >= 0 && ch != '\n' && n < 63; step()) head_line[n++] = ch;
    head_line[n] = 0;
    if (sscanf(head_line, "p cnf %u %u", &vars, &clauses) != 2 || vars > 1u << 27) bad("Header", byte);
    value = calloc(2 * vars + 2, 1), stamp = calloc(2 * vars + 2, 4), watch = calloc(2 * vars + 2, sizeof *watch);
    line = room(NULL, 8 * (vars + 1ul)), trail = room(NULL, 4 * (vars + 1ul));
    if (!value || !stamp || !watch) { puts("MEMORY"); exit(32); }
    rebuild();
    for (now = 1;;) {
        while (ends(ch) && ch >= 0) step();
        if (ch < 0) break;
        if (ch == 'c') skip_line();
        else if (word(&l)) put(l);
        else { join(); line_n = 0; now++; count++; }
    }
    if (count != clauses || line_n) bad("Count", byte);
    settle();
    fclose(file);
}

static int satisfied(const char *path) { /* by the signs in value, the formula being well formed */
    uint32_t l;
    int good = 0;
    open_text(path);
    while (ch == 'c' || ch == 'p') { skip_line(); step(); }
    for (;;) {
        while (ends(ch) && ch >= 0) step();
        if (ch < 0) return 1;
        if (ch == 'c') skip_line();
        else if (word(&l)) good |= value[l] > 0;
        else if (good) good = 0;
        else return 0;
    }
}
static void status(void) {
    char rest[16];
    int n = 0, more = 0;
    for (; ch >= 0 && ch != '\n'; step()) {
        if (white(ch)) { more |= n > 0; continue; }
        if (more || n > 7) n = 8;
        else rest[n++] = ch;
    }
    if (n == 7 && !memcmp(rest, "UNKNOWN", 7)) { puts("UNKNOWN"); exit(0); }
}
static void totals(const char *answer) {
    printf("%s %llu added %llu deleted %llu kept\n", answer, added, deleted, kept);
}
int main(int argc, char **argv) {
    int values = 0;
    if (argc != 3) { puts("usage: rup FILE.cnf STREAM"); return 1; }
    read_formula(argv[1]);
    open_text(argv[2]);
    for (;; step()) {
        unsigned long long start, count = 0;
        uint32_t l;
        int kind, zero = 0;
        blanks();
        start = byte;
        kind = ch >= '0' && ch <= '9' ? '-' : ch;
        if (kind < 0) bad("EarlyEnd", byte);
        if (kind == '\n') continue;
        if (kind == 'c') { skip_line(); if (ch < 0) bad("EarlyEnd", byte); continue; }
        if (!strchr("svd-", kind) || (values && kind != 'v')) bad("BadLine", start);
        if (kind != '-') { step(); if (!ends(ch)) bad("BadLine", byte); }
        if (kind == 's') { status(); if (ch < 0) bad("EarlyEnd", byte); continue; }
        if (kind == 'v' && !values)
            for (values = 1, l = 0; l < 2 * vars; l++) value[l] = l & 1 ? 1 : -1;
        for (line_n = 0, now++, blanks(); ch >= 0 && ch != '\n' && !zero; blanks()) {
            zero = !word(&l);
            if (zero) break;
            if (kind == 'v') { value[l] = 1; value[l ^ 1] = -1; continue; }
            if (++count > vars) bad("LineTooLong", byte);
            put(l);
        }
        if (kind == 'v' && zero) {
            if (!satisfied(argv[1])) { puts("BAD NotSatisfying"); return 1; }
            totals("SAT");
            return 10;
        }
        if (!zero && ch < 0) bad("EarlyEnd", byte);
        if (kind == 'v') continue;
        if (!zero) bad("BadLine", byte);
        if (kind == '-') {
            if (!admitted()) bad("NotRup", start);
            added++;
            if (!line_n) { totals("UNSAT"); return 20; }
            join();
            settle();
        } else { deleted++; delete(); }
        blanks();
        if (ch >= 0 && ch != '\n') bad("BadLine", byte);
        if (ch < 0) bad("EarlyEnd", byte);
    }
}
