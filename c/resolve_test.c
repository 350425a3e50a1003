/* resolve_test P L M SELF: tests gm_resolve on the program and the libraries of machresolve's tests: each answer, with room for each count of them, and
   with memory that is refused at each request; files that aren't used; and what is refused, with the number of its file. */
#include "goblin_mach.h"
#include <inttypes.h>
#include <stdio.h>
#include <stdlib.h>
#include <string.h>

#define DIE(...) (fprintf(stderr, __VA_ARGS__), fputc('\n', stderr), exit(1))

enum { ALL = 19, FILES = 8, ROOM = 32 };

/* files, one after the other in one buffer */
typedef struct { uint8_t *bytes; uint64_t len, count; gm_given_file files[FILES]; } given;

static uint64_t add_bytes(given *g, const void *bytes, uint64_t len) {
    uint8_t *grown = malloc(g->len + len);
    uint64_t at = g->len;
    if (g->len) memcpy(grown, g->bytes, g->len);
    if (len) memcpy(grown + at, bytes, len);
    free(g->bytes);
    g->bytes = grown;
    g->len += len;
    return at;
}
static void add(given *g, const void *bytes, uint64_t len, const char *path) {
    uint64_t offset = add_bytes(g, bytes, len), place = add_bytes(g, path, strlen(path));
    g->files[g->count++] = (gm_given_file){offset, len, place, strlen(path)};
}
static void add_file(given *g, const char *name) {
    static uint8_t bytes[1 << 16];
    const char *base = strrchr(name, '/');
    FILE *f = fopen(name, "rb");
    if (!f) DIE("%s can't be opened", name);
    add(g, bytes, fread(bytes, 1, sizeof bytes, f), base ? base + 1 : name);
    fclose(f);
}

/* memory that is refused at one request, and counted */
typedef struct { uint64_t asked, refused, held; } counted;
static void *take(void *self, size_t size) {
    counted *c = self;
    if (++c->asked == c->refused) return NULL;
    c->held++;
    return malloc(size);
}
static void give(void *self, void *block) { ((counted *)self)->held--; free(block); }

/* what a call writes; each byte is 0x5a before it */
typedef struct { gm_answer rows[ROOM]; gm_unused_file unused[FILES]; gm_resolution found; gm_error error; uint32_t code; } written;

static written resolve(const given *g, uint64_t cap, uint64_t unused_cap, const gm_memory *memory) {
    written w;
    memset(&w, 0x5a, sizeof w);
    w.code = gm_resolve(g->bytes, g->len, g->files, g->count, w.rows, cap, w.unused, unused_cap, &w.found, memory, &w.error);
    for (const uint8_t *p = (const uint8_t *)(w.rows + (w.code ? 0 : w.found.answers)); p < (const uint8_t *)(w.rows + ROOM); p++)
        if (*p != 0x5a) DIE("a row after the answers was written");
    for (const uint8_t *p = (const uint8_t *)(w.unused + (w.code ? 0 : w.found.unused)); p < (const uint8_t *)(w.unused + FILES); p++)
        if (*p != 0x5a) DIE("a row after the files that aren't used was written");
    if (w.code && (w.error.code != w.code || w.found.answers || w.found.unused || w.found.all_unused || w.found.more || w.found.is_settled))
        DIE("a refusal wrote more than its file");
    return w;
}

/* the answers for the bindings of P: place, file, address, whether it is absolute */
static const struct { uint32_t place; uint64_t file, address; uint32_t is_absolute; } wanted[ALL] = {
    {GM_PLACE_FOUND, 1, 0x1234, 0}, {GM_PLACE_FOUND, 1, 0x99, 1}, {GM_PLACE_FOUND, 1, 0x50, 0}, {GM_PLACE_FOUND, 2, 0x20, 0},
    {GM_PLACE_MISSING, 0, 0, 0}, {GM_PLACE_MISSING, 0, 0, 0}, {GM_PLACE_LEADS_BACK, 0, 0, 0}, {GM_PLACE_LEADS_BACK, 0, 0, 0},
    {GM_PLACE_FOUND, 2, 0x40, 0}, {GM_PLACE_NO_LIBRARY, 0, 0, 0}, {GM_PLACE_NO_LIBRARY, 0, 0, 0}, {GM_PLACE_NO_LIBRARY, 0, 0, 0},
    {GM_PLACE_NO_LIBRARY, 0, 0, 0}, {GM_PLACE_NO_LIBRARY, 0, 0, 0}, {GM_PLACE_FOUND, 3, 0x7, 0}, {GM_PLACE_NO_LIBRARY, 0, 0, 0},
    {GM_PLACE_FOUND, 0, 0x70, 0}, {GM_PLACE_FOUND, 1, 0x1234, 0}, {GM_PLACE_MISSING, 0, 0, 0}};

/* Tests the first answers against the list above, and against the bindings. */
static void are_answers(const given *g, const written *w, uint64_t count) {
    const gm_given_file *p = &g->files[0];
    gm_binding bindings[ROOM];
    gm_binding_cursor cursor = {0};
    gm_image image;
    uint64_t all;
    if (gm_open(g->bytes + p->offset, p->len, 0, GM_STRICT, NULL, &image, NULL)
        || gm_bindings(g->bytes + p->offset, p->len, &image, &cursor, bindings, ROOM, &all, NULL, NULL) || all != ALL) DIE("other bindings");
    uint32_t settled = 1;
    for (uint64_t i = 0; i < count; i++) {
        const gm_answer *a = &w->rows[i];
        const gm_binding *b = &bindings[i];
        if (a->place != wanted[i].place || a->file != wanted[i].file || a->address != wanted[i].address || a->is_absolute != wanted[i].is_absolute)
            DIE("answer %" PRIu64 ": %u, file %" PRIu64 ", 0x%" PRIx64, i, a->place, a->file, a->address);
        if (a->provider != b->provider || a->library != b->library || a->reserved) DIE("answer %" PRIu64 " has another provider", i);
        if (a->is_weak < b->is_weak || (a->is_weak != b->is_weak && a->place != GM_PLACE_NO_LIBRARY)) DIE("answer %" PRIu64 ": weak, or not", i);
        if (a->is_settled != (a->place == GM_PLACE_FOUND || (a->place != GM_PLACE_LEADS_BACK && a->is_weak))) DIE("answer %" PRIu64 ": settled, or not", i);
        settled &= a->is_settled;
    }
    if (w->found.answers != count || w->found.more != (count < ALL) || w->found.is_settled != settled || w->found.file) DIE("%" PRIu64 " answers", count);
}

static void check_answers(const given *g) {
    for (uint64_t cap = 0; cap <= ROOM; cap++) {
        written w = resolve(g, cap, FILES, NULL);
        if (w.code || w.found.unused || w.found.all_unused) DIE("%u with room for %" PRIu64, w.code, cap);
        are_answers(g, &w, cap < ALL ? cap : ALL);
    }
    written all = resolve(g, ROOM, FILES, NULL);
    for (uint64_t k = 1;; k++) {
        counted c = {0, k, 0};
        gm_memory m = {&c, take, give};
        written w = resolve(g, ROOM, FILES, &m);
        if (c.held) DIE("a block was kept");
        if (!w.code && (c.asked >= k || memcmp(all.rows, w.rows, sizeof w.rows))) DIE("memory changed the answers");
        if (!w.code) break;
        if (w.code != GM_NO_MEMORY || w.found.file) DIE("%u without memory", w.code);
    }
}

/* Tests that some files are refused with a code, and with the number of the file that is at fault. */
static void is_refused(given *g, uint32_t code, uint64_t file) {
    written w = resolve(g, ROOM, FILES, NULL);
    if (w.code != code || w.found.file != file) DIE("%u in file %" PRIu64 ", and not %u in %" PRIu64 ": %s", w.code, w.found.file, code, file, w.error.text);
}

/* Tests a copy of the files with one number of a file changed. */
static void changed(const given *g, uint64_t file, gm_given_file to, uint32_t code) {
    given copy = *g;
    copy.files[file] = to;
    is_refused(&copy, code, file);
}

static void check_refusals(const given *g) {
    gm_given_file l = g->files[1];
    given none = {0}, two = *g;
    is_refused(&none, GM_MALFORMED, 0);
    changed(g, 0, (gm_given_file){0, 3, 0, 0}, GM_SHORT);
    changed(g, 0, (gm_given_file){l.path, 4, 0, 0}, GM_BAD_MAGIC);
    changed(g, 1, (gm_given_file){g->len, 0, 0, 0}, GM_SHORT);
    changed(g, 2, (gm_given_file){l.offset, g->len, 0, 0}, GM_SHORT);
    changed(g, 3, (gm_given_file){UINT64_MAX, 1, 0, 0}, GM_SHORT);
    changed(g, 3, (gm_given_file){l.offset, UINT64_MAX, 0, 0}, GM_SHORT);
    changed(g, 1, (gm_given_file){l.offset, l.len, g->len - 1, 2}, GM_SHORT);
    changed(g, 2, (gm_given_file){l.offset, l.len, l.offset, 4}, GM_MALFORMED);
    two.files[1] = (gm_given_file){l.offset, 40, 0, 0};
    two.files[2] = (gm_given_file){l.offset, 41, 0, 0};
    is_refused(&two, GM_TOO_MANY, 1);
}

/* Tests files that aren't used: one is given twice, and one is for another cpu. */
static void check_unused(const given *g) {
    given all = *g;
    gm_given_file l = g->files[1];
    all.bytes = NULL;
    all.len = 0;
    add_bytes(&all, g->bytes, g->len);
    add(&all, g->bytes + l.offset, l.len, "again");
    add(&all, g->bytes + l.offset, l.len, "other");
    all.bytes[all.files[all.count - 1].offset + 4] ^= 1;
    for (uint64_t cap = 0; cap <= FILES; cap++) {
        written w = resolve(&all, ROOM, cap, NULL);
        if (w.code || w.found.all_unused != 2 || w.found.unused != (cap < 2 ? cap : 2)) DIE("%" PRIu64 " files aren't used", w.found.unused);
        if (cap > 0 && (w.unused[0].file != g->count || w.unused[0].why != GM_UNUSED_GIVEN_BEFORE || w.unused[0].cputype)) DIE("another file was given before");
        if (cap > 1 && (w.unused[1].file != g->count + 1 || w.unused[1].why != GM_UNUSED_NOTHING_FOR_CPU || !w.unused[1].cputype)) DIE("another cpu");
        are_answers(&all, &w, ALL);
    }
    free(all.bytes);
}

int main(int argc, char **argv) {
    given g = {0};
    if (argc != 5) return 2;
    for (int i = 1; i < argc; i++) add_file(&g, argv[i]);
    check_answers(&g);
    check_refusals(&g);
    check_unused(&g);
    free(g.bytes);
    puts("answers, files that aren't used, and refusals are right");
    return 0;
}
