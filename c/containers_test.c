/* containers_test check FILE..: tests archives and fat files of 32 and 64 bits, all prefixes of these files and some that are written here. It
   tests lists in batches, and look-ups against the lists. It reads written fat files back by the rules of the format alone.
   containers_test members|archive_symbols|entries FILE prints the lines of a list. */
#include "goblin_mach.h"
#include <inttypes.h>
#include <stdio.h>
#include <stdlib.h>
#include <string.h>

#define DIE(...) (fprintf(stderr, __VA_ARGS__), fputc('\n', stderr), exit(1))

typedef struct { const uint8_t *bytes; uint64_t len; } given;

static uint64_t tested, found, written;

/* ---- lists */

static void text(FILE *to, const given *g, uint64_t at, uint64_t len) {
    if (at > g->len || len > g->len - at) DIE("a text stands outside of the bytes");
    if (len) fwrite(g->bytes + at, 1, len, to);
}

#define LIST(name, row, call, ...) \
    static uint64_t rows_##name(const given *g, uint64_t first, void *out, uint64_t cap) { row *rows = out; return call; } \
    static void line_##name(FILE *to, const given *g, const void *at) { const row *r = at; (void)g; __VA_ARGS__; fputc('\n', to); }
#define OF g->bytes, g->len
LIST(members, gm_archive_member, gm_archive_members(OF, first, rows, cap),
     if (r->data > g->len || r->data_len > g->len - r->data) DIE("a member is out of the bytes");
     fprintf(to, "%" PRIu64 " %" PRIu64 " %" PRIu64 " %" PRId64 " %" PRId64 " %" PRId64 " %" PRId64 " %u %u ", r->header, r->data, r->data_len,
         (int64_t)r->date, (int64_t)r->uid,
             (int64_t)r->gid, (int64_t)r->mode, r->name_code, r->code);
     text(to, g, r->name, r->name_len))
LIST(symbols, gm_archive_symbol, gm_archive_symbols(OF, first, rows, cap),
     fprintf(to, "%" PRIu64 " %u ", r->member, r->code); text(to, g, r->name, r->name_len))
LIST(entries, gm_fat_entry64, gm_fat_entries64(OF, first, rows, cap),
     fprintf(to, "%x %x %" PRIu64 " %" PRIu64 " %u %u", r->cputype, r->cpusubtype, r->offset, r->size, r->align, r->code))

typedef struct {
    const char *name;
    uint64_t size;
    uint64_t (*rows)(const given *, uint64_t, void *, uint64_t);
    void (*line)(FILE *, const given *, const void *);
} list;
static const list lists[] = {{"members", sizeof(gm_archive_member), rows_members, line_members},
                             {"archive_symbols", sizeof(gm_archive_symbol), rows_symbols, line_symbols},
                             {"entries", sizeof(gm_fat_entry64), rows_entries, line_entries}};
enum { LISTS = sizeof lists / sizeof *lists, LIMIT = 400 };

/* Returns the lines of a list in batches of so many, at most LIMIT of them. They may have zero bytes. Each array has exactly the length that is passed. */
static char *lines(const list *l, const given *g, uint64_t batch, uint64_t *len) {
    char *all = NULL;
    uint64_t n = 0, k, room;
    FILE *to = open_memstream(&all, len);
    do {
        room = LIMIT - n < batch ? LIMIT - n : batch;
        uint8_t *out = malloc(room * l->size + !room);
        memset(out, 0xa5, room * l->size);
        k = l->rows(g, n, room ? (void *)out : NULL, room);
        if (k > room) DIE("%s: more rows than fit", l->name);
        for (uint64_t i = k * l->size; i < room * l->size; i++)
            if (out[i] != 0xa5) DIE("%s: the rest of the array was written", l->name);
        for (uint64_t i = 0; i < k; i++) l->line(to, g, out + i * l->size);
        free(out);
        n += k;
    } while (k == room && room);
    fclose(to);
    return all;
}

static void same_in_batches(const given *g) {
    for (uint64_t i = 0; i < LISTS; i++) {
        uint64_t len, some_len;
        char *all = lines(&lists[i], g, LIMIT, &len);
        for (uint64_t batch = 1; batch <= 7; batch += 3) {
            char *some = lines(&lists[i], g, batch, &some_len);
            if (len != some_len || memcmp(all, some, len)) DIE("%s in batches of %" PRIu64 ":\n%s\n%s", lists[i].name, batch, some, all);
            free(some);
        }
        free(all);
        tested++;
    }
}

/* ---- entries of 32 bits are those of gm_fat_entries */
static void same_entries(const given *g) {
    gm_fat_entry narrow[LIMIT];
    gm_fat_entry64 wide[LIMIT];
    uint64_t n = gm_fat_entries(OF, 0, narrow, LIMIT), m = gm_fat_entries64(OF, 0, wide, LIMIT);
    bool is_64 = g->len >= 4 && !memcmp(g->bytes, "\xca\xfe\xba\xbf", 4);
    if (is_64 ? n != 0 : n != m) DIE("%" PRIu64 " entries, and %" PRIu64, n, m);
    for (uint64_t i = 0; i < n; i++)
        if (narrow[i].cputype != wide[i].cputype || narrow[i].cpusubtype != wide[i].cpusubtype || narrow[i].offset != wide[i].offset
            || narrow[i].size != wide[i].size || narrow[i].align != wide[i].align || narrow[i].code != wide[i].code) DIE("entry %" PRIu64 " differs", i);
}

/* ---- look-ups in an archive */

static bool same_text(const given *g, uint64_t at, uint64_t len, uint64_t other, uint64_t other_len) {
    return len == other_len && !memcmp(g->bytes + at, g->bytes + other, len);
}

/* Checks that the first member of each name is found, by the list. */
static void found_by_name(const given *g, const gm_archive_member *m, uint64_t count) {
    gm_archive_member one, before;
    gm_error e;
    for (uint64_t i = 0; i < count && m[i].code == GM_OK; i++) {
        if (m[i].name_code) continue;
        uint64_t k = 0;
        while (m[k].name_code || !same_text(g, m[k].name, m[k].name_len, m[i].name, m[i].name_len)) k++;
        if (gm_archive_member_named(OF, (const char *)g->bytes + m[i].name, m[i].name_len, &one, &e) || memcmp(&one, m + k, sizeof one))
            DIE("member %" PRIu64 " isn't found by its name", i);
        found++;
    }
    memset(&before, 0x5a, sizeof before);
    one = before;
    uint32_t last = count && count < LIMIT ? m[count - 1].code : GM_OK;
    uint32_t code = gm_archive_member_named(OF, "no such member", 14, &one, &e);
    bool is_kept = code ? !memcmp(&one, &before, sizeof one) : !(one.header | one.data | one.name_len | one.code);
    if (count < LIMIT && (code != last || !is_kept))
        DIE("a name of no member: %u, and not %u", code, last);
}

/* Checks that the member of the first symbol of each name is found, by the list. */
static void found_by_symbol(const given *g, const gm_archive_symbol *s, uint64_t count) {
    static gm_archive_member m[LIMIT];
    gm_archive_member one;
    gm_error e;
    uint64_t members = gm_archive_members(OF, 0, m, LIMIT);
    for (uint64_t i = 0; i < count && s[i].code == GM_OK; i++) {
        uint64_t k = 0, n = 0;
        while (!same_text(g, s[k].name, s[k].name_len, s[i].name, s[i].name_len)) k++;
        uint32_t code = gm_archive_find(OF, (const char *)g->bytes + s[i].name, s[i].name_len, &one, &e);
        while (n < members && (m[n].code || m[n].header != s[k].member)) n++;
        if (n < members && code == GM_OK && memcmp(&one, m + n, sizeof one)) DIE("symbol %" PRIu64 " is of another member", i);
        if (code == GM_OK ? one.header != s[k].member : n < members && code != GM_MALFORMED) DIE("symbol %" PRIu64 ": %u", i, code);
        found++;
    }
    uint32_t last = count && count < LIMIT ? s[count - 1].code : GM_OK;
    uint32_t code = gm_archive_find(OF, "no such symbol", 14, &one, &e);
    if (count < LIMIT && (code != last || (!code && one.header))) DIE("a name of no symbol: %u, and not %u", code, last);
    if (gm_archive_find(OF, "\xff", 1, &one, NULL) != GM_MALFORMED) DIE("a name that is no text");
}

static void check_archive(const given *g) {
    static gm_archive_member m[LIMIT];
    static gm_archive_symbol s[LIMIT];
    gm_error e;
    uint32_t kind = 77, code = gm_archive_kind(OF, &kind, &e);
    uint64_t members = gm_archive_members(OF, 0, m, LIMIT), symbols = gm_archive_symbols(OF, 0, s, LIMIT);
    bool begins = g->len >= 8 && !memcmp(g->bytes, "!<arch>\n", 8), is_thin = g->len >= 8 && !memcmp(g->bytes, "!<thin>\n", 8);
    bool is_kind = begins ? kind == GM_ARCHIVE_GNU || kind == GM_ARCHIVE_BSD : kind == (is_thin ? GM_ARCHIVE_THIN : GM_ARCHIVE_NONE);
    if (code ? kind != 77 || code != e.code || !begins : !is_kind) DIE("kind %u, code %u", kind, code);
    if ((code || !begins) && (members != 1 || symbols != 1 || !m[0].code || m[0].code != s[0].code || (code && m[0].code != code)))
        DIE("members of no archive");
    for (uint64_t i = 0; i + 1 < members; i++)
        if (m[i].code || m[i].data + m[i].data_len > m[i + 1].header + (m[i + 1].code ? g->len : 0)) DIE("member %" PRIu64 " lies in the next one", i);
    found_by_name(g, m, members);
    found_by_symbol(g, s, symbols);
}

static void check(const uint8_t *bytes, uint64_t len) {
    given g = {bytes, len};
    same_in_batches(&g);
    same_entries(&g);
    check_archive(&g);
}

/* ---- written fat files */

typedef struct { uint64_t asked, refused, held; } counted;
static void *take(void *self, size_t size) {
    counted *c = self;
    if (++c->asked == c->refused) return NULL;
    c->held++;
    return malloc(size);
}
static void give(void *self, void *block) { ((counted *)self)->held--; free(block); }

static uint64_t big(const uint8_t *at, uint64_t width) {
    uint64_t n = 0;
    while (width--) n = n << 8 | *at++;
    return n;
}

/* Checks that these bytes are the fat file of the parts, byte for byte. */
static void is_file(const uint8_t *out, uint64_t needed, const uint8_t *bytes, const gm_fat_part *p, uint64_t count, bool is_64) {
    uint64_t width = is_64 ? 32 : 20, end = 8 + width * count;
    if (needed < end || big(out, 4) != (is_64 ? GM_FAT_MAGIC_64 : GM_FAT_MAGIC) || big(out + 4, 4) != count) DIE("the front of a file");
    for (uint64_t i = 0; i < count; i++) {
        const uint8_t *r = out + 8 + width * i;
        uint64_t place = is_64 ? big(r + 8, 8) : big(r + 8, 4), size = is_64 ? big(r + 16, 8) : big(r + 12, 4);
        if (big(r, 4) != p[i].cputype || big(r + 4, 4) != p[i].cpusubtype || big(r + (is_64 ? 24 : 16), 4) != p[i].align || size != p[i].len
            || (is_64 && big(r + 28, 4)))
            DIE("record %" PRIu64, i);
        uint64_t unit = (uint64_t)1 << p[i].align;
        if (place < end || place - end >= unit || place % unit || place > needed || size > needed - place) DIE("place %" PRIu64, i);
        while (end < place)
            if (out[end++]) DIE("no zero before entry %" PRIu64, i);
        if (memcmp(out + place, bytes + p[i].offset, p[i].len)) DIE("the bytes of entry %" PRIu64, i);
        end = place + size;
    }
    if (end != needed) DIE("%" PRIu64 " bytes behind the last entry", needed - end);
}

/* Writes parts with room of every size, and with memory that is refused at each request. */
static void writes(const uint8_t *bytes, uint64_t len, const gm_fat_part *p, uint64_t count, bool is_64, uint32_t wanted) {
    uint64_t needed = 99;
    gm_error e;
    uint32_t code = gm_write_fat(bytes, len, p, count, is_64, NULL, 0, &needed, NULL, &e);
    if (code != wanted || e.code != code || (code != GM_NO_SPACE && needed != 99)) DIE("%u, and not %u: %s", code, wanted, e.text);
    if (code != GM_NO_SPACE) return;
    uint64_t rooms[] = {needed - 1, needed, needed + 9};
    for (uint64_t r = 0; r < 3; r++) {
        uint8_t *out = malloc(rooms[r]);
        uint64_t again = 0;
        memset(out, 0xa5, rooms[r]);
        code = gm_write_fat(bytes, len, p, count, is_64, out, rooms[r], &again, NULL, NULL);
        if (code != (r ? GM_OK : GM_NO_SPACE) || again != needed) DIE("room %" PRIu64 " of %" PRIu64 ": %u", rooms[r], needed, code);
        if (r) is_file(out, needed, bytes, p, count, is_64);
        for (uint64_t i = r ? needed : 0; i < rooms[r]; i++)
            if (out[i] != 0xa5) DIE("byte %" PRIu64 " was written", i);
        free(out);
    }
    for (uint64_t k = 1;; k++) {
        counted c = {0, k, 0};
        gm_memory m = {&c, take, give};
        uint8_t *out = malloc(needed);
        memset(out, 0xa5, needed);
        uint64_t again = 98;
        code = gm_write_fat(bytes, len, p, count, is_64, out, needed, &again, &m, &e);
        if (c.held) DIE("a block was kept");
        if (code == GM_NO_MEMORY && (again != 98 || e.code != code)) DIE("a refusal wrote what is needed");
        for (uint64_t i = 0; code && i < needed; i++)
            if (out[i] != 0xa5) DIE("a refusal wrote byte %" PRIu64, i);
        if (!code) is_file(out, needed, bytes, p, count, is_64);
        given g = {out, needed};
        if (!code && needed < 4096) check(g.bytes, g.len);
        free(out);
        if (code != GM_NO_MEMORY) break;
        if (k > 9) DIE("%" PRIu64 " requests", k);
    }
    written++;
}

static void check_writes(void) {
    uint8_t bytes[100];
    for (uint64_t i = 0; i < sizeof bytes; i++) bytes[i] = (uint8_t)(i * 7 + 1);
    const struct { gm_fat_part parts[3]; uint64_t count; uint32_t code; } rows[] = {
        {{{0}}, 0, GM_NO_SPACE},
        {{{0, 100, 7, 3, 0, 0}}, 1, GM_NO_SPACE},
        {{{0, 0, 7, 3, 4, 9}}, 1, GM_NO_SPACE},
        {{{100, 0, 7, 3, 15, 0}}, 1, GM_NO_SPACE},
        {{{0, 50, 7, 3, 4, 0}, {40, 60, 12, 9, 2, 0}}, 2, GM_NO_SPACE},
        {{{50, 1, 0x1000007, 3, 12, 0}, {0, 100, 0x100000c, 0, 14, 0}, {3, 5, 0x100000c, 2, 0, 0}}, 3, GM_NO_SPACE},
        {{{0, 1, 7, 3, 16, 0}}, 1, GM_MALFORMED},
        {{{0, 1, 7, 3, UINT32_MAX, 0}}, 1, GM_MALFORMED},
        {{{0, 1, 7, 3, 0, 0}, {1, 1, 12, 3, 0, 0}, {2, 1, 7, 0x80000003, 0, 0}}, 3, GM_MALFORMED},
        {{{0, 101, 7, 3, 0, 0}}, 1, GM_SHORT},
        {{{101, 0, 7, 3, 0, 0}}, 1, GM_SHORT},
        {{{99, 2, 7, 3, 16, 0}}, 1, GM_SHORT},
        {{{UINT64_MAX, 1, 7, 3, 0, 0}}, 1, GM_SHORT},
        {{{1, UINT64_MAX, 7, 3, 0, 0}}, 1, GM_SHORT},
    };
    for (uint64_t n = 0; n < sizeof rows / sizeof *rows; n++)
        for (int is_64 = 0; is_64 < 2; is_64++) writes(bytes, sizeof bytes, rows[n].parts, rows[n].count, is_64 != 0, rows[n].code);
    uint64_t needed = 0;
    if (gm_write_fat(NULL, 0, NULL, 0, 0, NULL, 0, &needed, NULL, NULL) != GM_NO_SPACE || needed != 8) DIE("a file of no entry needs %" PRIu64, needed);
}

/* Checks a table of 64 bits whose header says so many records, with so many bytes of them. */
static void check_cut(void) {
    static const struct { uint32_t says; uint64_t there, told; bool cut; } rows[] = {
        {0, 0, 0, false}, {0, 90, 0, false}, {1, 32, 1, false}, {1, 31, 1, true}, {2, 64, 2, false}, {2, 96, 2, false}, {2, 63, 2, true}, {2, 33, 2, true},
        {2, 32, 2, true}, {2, 31, 1, true}, {2, 0, 1, true}, {UINT32_MAX, 80, 3, true}, {UINT32_MAX, 96, 4, true}, {UINT32_MAX, 0, 1, true}};
    for (uint64_t n = 0; n < sizeof rows / sizeof *rows; n++) {
        uint8_t *bytes = calloc(1, 8 + rows[n].there);
        uint32_t says = rows[n].says;
        memcpy(bytes, (uint8_t[]){0xca, 0xfe, 0xba, 0xbf, (uint8_t)(says >> 24), (uint8_t)(says >> 16), (uint8_t)(says >> 8), (uint8_t)says}, 8);
        gm_fat_entry64 e[8];
        uint64_t told = gm_fat_entries64(bytes, 8 + rows[n].there, 0, e, 8);
        if (told != rows[n].told || gm_fat_entries64(bytes, 8 + rows[n].there, told, e + 7, 1)) DIE("%" PRIu64 " entries of row %" PRIu64, told, n);
        for (uint64_t i = 0; i < told; i++)
            if ((e[i].code != GM_OK) != (rows[n].cut && i + 1 == told)) DIE("entry %" PRIu64 " of row %" PRIu64 ": code %u", i, n, e[i].code);
        free(bytes);
    }
}

/* Returns exactly the bytes of a file, so that a read past them is detected. */
static uint8_t *read_file(const char *name, uint64_t *len) {
    FILE *f = fopen(name, "rb");
    if (!f) DIE("%s can't be opened", name);
    fseek(f, 0, SEEK_END);
    *len = (uint64_t)ftell(f);
    rewind(f);
    uint8_t *bytes = malloc(*len + !*len);
    if (fread(bytes, 1, *len, f) != *len) DIE("%s can't be read", name);
    fclose(f);
    return bytes;
}

int main(int argc, char **argv) {
    if (argc < 3) DIE("usage: containers_test check FILE.., containers_test members|archive_symbols|entries FILE");
    bool is_check = !strcmp(argv[1], "check");
    if (is_check) {
        check(NULL, 0);
        check_cut();
        check_writes();
    }
    for (int i = 2; i < argc; i++) {
        uint64_t len;
        uint8_t *bytes = read_file(argv[i], &len);
        given g = {bytes, len};
        for (uint64_t n = 0; is_check && n <= len; n++) {
            uint8_t *prefix = malloc(n + !n);
            memcpy(prefix, bytes, n);
            check(prefix, n);
            free(prefix);
        }
        for (uint64_t k = 0; !is_check && k < LISTS; k++)
            if (!strcmp(argv[1], lists[k].name)) {
                char *all = lines(&lists[k], &g, 100, &len);
                fwrite(all, 1, len, stdout);
                free(all);
            }
        free(bytes);
    }
    if (is_check) printf("%" PRIu64 " lists agree, %" PRIu64 " members are found, %" PRIu64 " files are written\n", tested, found, written);
    return 0;
}
