/* The present clauses, their closure under unit propagation, and DRUP's two steps (addition and deletion). */
#include <stdint.h>
#include <stdio.h>
#include <stdlib.h>
#include <string.h>

#define DEAD (1u << 31)
#define HEAD 2 /* words before a clause's literals: its size with the mark DEAD, the next in its hash chain */
typedef struct { uint32_t clause, other; } Watch;
typedef struct { Watch *at; uint32_t n, room; } Watches;

/* literal +v is 2v - 2, -v is 2v - 1; a clause is a place in the arena, 0 is none */
static uint32_t *arena, *hash, *trail, *line, *stamp, arena_n = 1, arena_room, dead_n, hash_n, live;
static uint32_t trail_n, root_n, head, line_n, now, vars;
static signed char *value;
static Watches *watch;
static int refuted; /* the closure of the present clauses is a conflict */
static unsigned long long added, deleted, kept;

static void *room(void *p, size_t n) {
    p = realloc(p, n);
    if (!p) { puts("MEMORY"); exit(32); }
    return p;
}

static void assign(uint32_t l) { value[l] = 1; value[l ^ 1] = -1; trail[trail_n++] = l; }
static void undo(void) {
    while (trail_n > root_n) { uint32_t l = trail[--trail_n]; value[l] = value[l ^ 1] = 0; }
    head = root_n;
}
static void look_at(uint32_t l, uint32_t clause, uint32_t other) {
    Watches *w = watch + l;
    if (w->n == w->room) w->at = room(w->at, (w->room = w->room ? 2 * w->room : 4) * sizeof(Watch));
    w->at[w->n++] = (Watch){clause, other};
}
static int propagate(void) { /* 0: a conflict */
    while (head < trail_n) {
        uint32_t f = trail[head++] ^ 1;
        Watches *w = watch + f;
        Watch *i = w->at, *j = i, *end = i + w->n;
        while (i < end) {
            Watch x = *i++;
            if (value[x.other] > 0) { *j++ = x; continue; }
            uint32_t *c = arena + x.clause, n = *c, *l = c + HEAD, k = 2;
            if (n & DEAD) continue;
            if (l[0] == f) { l[0] = l[1]; l[1] = f; }
            x.other = l[0];
            if (value[x.other] > 0) { *j++ = x; continue; }
            while (k < n && value[l[k]] < 0) k++;
            if (k < n) { l[1] = l[k]; l[k] = f; look_at(l[1], x.clause, x.other); continue; }
            *j++ = x;
            if (value[x.other] < 0) {
                while (i < end) *j++ = *i++;
                w->n = j - w->at;
                return 0;
            }
            assign(x.other);
        }
        w->n = j - w->at;
    }
    return 1;
}
static void settle(void) { /* the root's closure */
    if (!refuted && !propagate()) refuted = 1;
    root_n = head = trail_n;
}

static uint32_t place(const uint32_t *l, uint32_t n) { /* in any order of the literals */
    uint64_t h = n;
    for (uint32_t i = 0; i < n; i++) h += (l[i] + 1) * 0x9E3779B97F4A7C15u ^ (uint64_t)l[i] << 20;
    return (h ^ h >> 29) * 0xBF58476D1CE4E5B9u >> 32 & (hash_n - 1);
}
static void enter(uint32_t c) {
    uint32_t *at = hash + place(arena + c + HEAD, arena[c]);
    arena[c + 1] = *at;
    *at = c;
}
static void rebuild(void) { /* without the dead clauses, with a larger hash table */
    uint32_t *old = arena, old_n = arena_n;
    while (hash_n < 2 * live + 1024) hash_n = hash_n ? 2 * hash_n : 1024;
    hash = room(hash, hash_n * sizeof *hash);
    memset(hash, 0, hash_n * sizeof *hash);
    arena = room(NULL, (size_t)(arena_room = (arena_n - dead_n) * 2 + 4096) * sizeof *arena);
    arena_n = 1;
    for (uint32_t c = 1, n; c < old_n; c += HEAD + n) {
        n = old[c] & ~DEAD;
        if (old[c] & DEAD) continue;
        memcpy(arena + arena_n, old + c, (HEAD + n) * sizeof *arena);
        old[c + 1] = arena_n;
        enter(arena_n);
        arena_n += HEAD + n;
    }
    for (uint32_t l = 0; l < 2 * vars; l++) {
        uint32_t j = 0;
        for (uint32_t i = 0; i < watch[l].n; i++) {
            Watch x = watch[l].at[i];
            if (!(old[x.clause] & DEAD)) watch[l].at[j++] = (Watch){old[x.clause + 1], x.other};
        }
        watch[l].n = j;
    }
    free(old);
    dead_n = 0;
}
static void join(void) { /* the line is a clause from now on */
    uint32_t good = 0, c;
    for (uint32_t i = 0; i < line_n; i++)
        if (value[line[i]] >= 0) { uint32_t l = line[good]; line[good++] = line[i]; line[i] = l; }
    if (arena_n + HEAD + line_n > arena_room || live >= hash_n) rebuild();
    if (arena_n + HEAD + line_n > arena_room)
        arena = room(arena, (size_t)(arena_room = 2 * arena_n + HEAD + line_n) * sizeof *arena);
    arena[c = arena_n] = line_n;
    memcpy(arena + c + HEAD, line, line_n * sizeof *arena);
    arena_n += HEAD + line_n;
    live++;
    enter(c);
    if (good > 1) { look_at(line[0], c, line[1]); look_at(line[1], c, line[0]); }
    else if (!good) refuted = 1;
    else if (!value[line[0]]) assign(line[0]);
}
static int admitted(void) {
    int hit = refuted;
    for (uint32_t i = 0; i < line_n && !hit; i++)
        if (value[line[i]] > 0) hit = 1;
        else if (!value[line[i]]) assign(line[i] ^ 1);
    if (!hit) hit = !propagate();
    undo();
    return hit;
}
static void delete(void) {
    uint32_t *at = hash + place(line, line_n), c, falses = 0, trues = 0;
    for (; (c = *at); at = arena + c + 1) {
        uint32_t i = 0;
        if (arena[c] == line_n) while (i < line_n && stamp[arena[c + HEAD + i]] == now) i++;
        if (i == line_n && arena[c] == line_n) break;
    }
    for (uint32_t i = 0; i < line_n; i++) { falses += value[line[i]] < 0; trues += value[line[i]] > 0; }
    if (!c || refuted || (falses + 1 == line_n && trues == 1)) { kept++; return; }
    *at = arena[c + 1];
    arena[c] |= DEAD;
    dead_n += HEAD + line_n;
    live--;
    if (dead_n > arena_n / 2 && dead_n > 1 << 18) rebuild();
}
