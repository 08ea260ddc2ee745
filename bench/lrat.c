/* lrat FILE.cnf STREAM: plain checker of hinted streams (LRAT in text, without RAT steps).
   One line on standard output; ends with 20 for UNSAT, 10 for SAT, 0 for UNKNOWN, 1 for BAD, 32 where memory runs out. */
#include <stdint.h>
#include <stdio.h>
#include <stdlib.h>
#include <string.h>

/* literal +v is 2v - 2, -v is 2v - 1; a clause is a place in the arena, its size first, 0 is none */
static uint32_t vars, *arena, *place, *hints, *line, *stamp, now;
static size_t arena_n = 1, arena_room, dead, place_room, hints_n, hints_room, line_n, line_room;
static uint64_t last_id;
static unsigned long long added, deleted, byte;
static FILE *file;
static unsigned char buffer[1 << 16];
static size_t buffer_n, buffer_at;
static int ch;

static void bad(const char *kind, unsigned long long at) { printf("BAD %s at byte %llu\n", kind, at); exit(1); }
static void *room(void *p, size_t n) {
    p = realloc(p, n);
    if (!p) { puts("MEMORY"); exit(32); }
    return p;
}
static void push(uint32_t **list, size_t *n, size_t *list_room, uint32_t x) {
    if (*n == *list_room) *list = room(*list, 4 * (*list_room = 2 * *n + 64));
    (*list)[(*n)++] = x;
}
static void step(void) {
    byte++;
    if (buffer_at == buffer_n) { buffer_n = fread(buffer, 1, sizeof buffer, file); buffer_at = 0; }
    ch = buffer_n ? buffer[buffer_at++] : -1;
}
static void open_text(const char *path) {
    file = fopen(path, "rb");
    if (!file) bad("file", 0);
    buffer_n = buffer_at = 0;
    step();
    byte = 0;
}
static int white(int c) { return c == ' ' || c == '\t' || c == '\r'; }
static int ends(int c) { return white(c) || c == '\n' || c < 0; }
static void blanks(void) { while (white(ch)) step(); }
static void skip_line(void) { while (ch >= 0 && ch != '\n') step(); }

static uint64_t number(uint64_t most) { /* at ch, which isn't white */
    uint64_t n = 0;
    if (ch < '0' || ch > '9') bad("BadLiteral", byte);
    for (; ch >= '0' && ch <= '9'; step())
        if ((n = 10 * n + ch - '0') > most) bad("BadLiteral", byte);
    if (!ends(ch)) bad("BadLiteral", byte);
    return n;
}
static int literal(uint32_t *l) { /* 1: a literal, 0: the word 0 */
    int minus = ch == '-';
    uint64_t n;
    if (minus) step();
    n = number(vars);
    if (!n && minus) bad("BadLiteral", byte);
    *l = 2 * (uint32_t) (n - 1) + minus;
    return n != 0;
}
static void collect(void) { /* drops the dead clauses, whose places are 0 */
    size_t to = 1, id;
    for (id = 1; id <= last_id; id++)
        if (place[id]) {
            uint32_t *c = arena + place[id], n = c[0] + 1;
            memmove(arena + to, c, 4ul * n); /* places rise with ids */
            place[id] = to;
            to += n;
        }
    arena_n = to;
    dead = 0;
}
static void keep(uint64_t id) { /* the clause in the line */
    size_t i;
    if (id >= place_room) {
        size_t more = 2 * id + 64;
        place = room(place, 4 * more);
        memset(place + place_room, 0, 4 * (more - place_room));
        place_room = more;
    }
    if (arena_n + line_n + 1 > UINT32_MAX) { puts("MEMORY"); exit(32); }
    place[id] = arena_n;
    last_id = id;
    push(&arena, &arena_n, &arena_room, line_n);
    for (i = 0; i < line_n; i++) push(&arena, &arena_n, &arena_room, line[i]);
}
static void drop(uint64_t id) {
    if (id > last_id || !place[id]) return;
    dead += arena[place[id]] + 1;
    place[id] = 0;
    deleted++;
    if (dead > 65536 && dead > arena_n / 2) collect();
}
static int admitted(unsigned long long start) { /* the clause in the line, by the hints */
    size_t i, h;
    if (!++now) { memset(stamp, 0, 8ul * vars); now = 1; }
    for (i = 0; i < line_n; i++) {
        if (stamp[line[i]] == now) return 1;
        stamp[line[i] ^ 1] = now;
    }
    for (h = 0; h < hints_n; h++) {
        uint32_t *c = arena + (hints[h] <= last_id ? place[hints[h]] : 0), n, left = 0, some = 0;
        if (c == arena) bad("BadHint", start);
        for (n = *c++; n && some < 2; n--, c++)
            if (stamp[*c ^ 1] != now && (!some || left != *c)) { left = *c; some++; }
        if (!some) return 1;
        if (some == 1) {
            if (stamp[left] == now) continue; /* true already */
            stamp[left] = now;
        }
    }
    return 0;
}
static void read_formula(const char *path) {
    unsigned clauses = 0;
    uint32_t l;
    char head_line[64];
    size_t n = 0;
    open_text(path);
    while (ch == 'c') { skip_line(); step(); }
    for (; ch >= 0 && ch != '\n' && n < 63; step()) head_line[n++] = ch;
    head_line[n] = 0;
    if (sscanf(head_line, "p cnf %u %u", &vars, &clauses) != 2 || vars > 1u << 27) bad("Header", byte);
    stamp = calloc(2 * vars + 2ul, 4);
    if (!stamp) { puts("MEMORY"); exit(32); }
    arena = room(NULL, 4 * (arena_room = 1024));
    for (;;) {
        while (ends(ch) && ch >= 0) step();
        if (ch < 0) break;
        if (ch == 'c') skip_line();
        else if (literal(&l)) push(&line, &line_n, &line_room, l);
        else { keep(last_id + 1); line_n = 0; }
    }
    if (last_id != clauses || line_n) bad("Count", byte);
    fclose(file);
}
static int satisfied(const char *path) { /* by the literals that are stamped, the formula being well formed */
    uint32_t l;
    int good = 0;
    open_text(path);
    while (ch == 'c' || ch == 'p') { skip_line(); step(); }
    for (;;) {
        while (ends(ch) && ch >= 0) step();
        if (ch < 0) return 1;
        if (ch == 'c') skip_line();
        else if (literal(&l)) good |= stamp[l] == now;
        else if (good) good = 0;
        else return 0;
    }
}
static void totals(const char *answer) { printf("%s %llu added %llu deleted\n", answer, added, deleted); }
static void values(const char *path) { /* of all lines v; those that aren't named are false */
    uint32_t l;
    char *named = calloc(vars + 1ul, 1);
    if (!named) { puts("MEMORY"); exit(32); }
    now++;
    for (;; step()) {
        blanks();
        if (ch < 0) bad("EarlyEnd", byte);
        if (ch == 'c' || ch == '\n') { skip_line(); continue; }
        if (ch != 'v') bad("BadLine", byte);
        for (step(), blanks(); ch >= 0 && ch != '\n'; blanks()) {
            if (literal(&l)) { stamp[l] = now; named[l / 2] = 1; continue; }
            for (l = 0; l < vars; l++) if (!named[l]) stamp[2 * l + 1] = now;
            if (!satisfied(path)) { puts("BAD NotSatisfying"); exit(1); }
            totals("SAT");
            exit(10);
        }
    }
}
static void status(void) {
    char rest[16];
    int n = 0, more = 0;
    for (step(); ch >= 0 && ch != '\n'; step()) {
        if (white(ch)) { more |= n > 0; continue; }
        if (more || n > 7) n = 8;
        else rest[n++] = ch;
    }
    if (n == 7 && !memcmp(rest, "UNKNOWN", 7)) { puts("UNKNOWN"); exit(0); }
}
int main(int argc, char **argv) {
    if (argc != 3) { puts("usage: lrat FILE.cnf STREAM"); return 1; }
    read_formula(argv[1]);
    open_text(argv[2]);
    for (;; step()) {
        unsigned long long start;
        uint64_t id, hint;
        uint32_t l;
        blanks();
        start = byte;
        if (ch < 0) bad("EarlyEnd", byte);
        if (ch == '\n') continue;
        if (ch == 'c') { skip_line(); continue; }
        if (ch == 's') { status(); continue; }
        if (ch == 'v') values(argv[1]);
        id = number(UINT32_MAX - 1);
        blanks();
        line_n = hints_n = 0;
        if (ch == 'd') {
            for (step(), blanks(); (hint = number(UINT32_MAX - 1)); blanks()) drop(hint);
        } else {
            for (; literal(&l); blanks()) push(&line, &line_n, &line_room, l);
            for (blanks(); (hint = number(UINT32_MAX - 1)); blanks()) push(&hints, &hints_n, &hints_room, hint);
            if (id <= last_id) bad("BadId", start);
            if (!admitted(start)) bad("NotHinted", start);
            added++;
            if (!line_n) { totals("UNSAT"); return 20; }
            keep(id);
        }
        blanks();
        if (ch >= 0 && ch != '\n') bad("BadLine", byte);
    }
}
