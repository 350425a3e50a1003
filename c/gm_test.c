/* gm_test WHAT FILE prints the lines of a list, to compare them with the programs of this repository.
   gm_test names prints the rules and parts of layout, and the kinds of faults of signatures.
   gm_test check FILE.. tests each file and each of its prefixes. Batches of 1, 2, 7 and all give the same rows, and the rest of an array is
   unchanged. Memory may be refused at any request, an arena works without malloc, and NULL works for length 0.
   gm_test deep LEVELS visits a trie of so many levels in buffers that grow.
   gm_test constants FILE.. tests constants and names of the header against what the calls return for each file.
   gm_test damage COUNT FILE.. passes COUNT images of made-up numbers, by a fixed seed. */
#define _GNU_SOURCE
#include "goblin_mach.h"
#include <inttypes.h>
#include <stdio.h>
#include <stdlib.h>
#include <string.h>

typedef struct { const uint8_t *bytes; uint64_t len; gm_image image; gm_segment segment; gm_section section; } given;

#define DIE(...) (fprintf(stderr, __VA_ARGS__), fputc('\n', stderr), exit(1))

/* ---- the lists: how many rows a call wrote, and the line of a row */

static void text(FILE *to, const given *g, uint64_t at, uint64_t len) {
    if (at > g->len || len > g->len - at) DIE("a text stands outside of the bytes");
    fwrite(g->bytes + at, 1, len, to);
}

#define LIST(name, row, call, ...) \
    static uint64_t rows_##name(const given *g, uint64_t first, void *out, uint64_t cap) { (void)g; row *rows = out; return call; } \
    static void line_##name(FILE *to, const given *g, const void *at) { const row *r = at; (void)g; __VA_ARGS__; fputc('\n', to); }

#define OF g->bytes, g->len, &g->image
LIST(entries, gm_fat_entry, gm_fat_entries(g->bytes, g->len, first, rows, cap),
     fprintf(to, "%x %x %u %u %u %u", r->cputype, r->cpusubtype, r->offset, r->size, r->align, r->code))
LIST(commands, gm_command, gm_commands(OF, first, rows, cap), fprintf(to, "0x%" PRIx64 " %x size: %" PRIu64, r->offset, r->cmd, r->size))
LIST(segments, gm_segment, gm_segments(OF, first, rows, cap),
     fprintf(to, "%.16s %" PRIx64 " %" PRIx64 " %" PRIx64 " %" PRIx64 " %" PRIu64 " %" PRIu64 " %x %x %u %x", (const char *)r->name, r->vmaddr, r->vmsize,
         r->fileoff,
             r->filesize, r->command, r->data_len, r->maxprot, r->initprot, r->sections, r->flags))
LIST(sections, gm_section, gm_sections(OF, g->segment.command, g->segment.sections, first, rows, cap),
     fprintf(to, "%.16s %.16s %" PRIx64 " %" PRIx64 " %" PRIu64 " %u %u %u %u %x %u", (const char *)r->name, (const char *)r->segment, r->addr, r->size,
             r->data_len, r->offset, r->align, r->reloff, r->nreloc, r->flags, r->code))
LIST(relocations, gm_relocation, gm_relocations(OF, g->section.reloff, g->section.nreloc, first, rows, cap),
     fprintf(to, "%" PRId32 " %08x %u", r->address, r->info, r->code))
LIST(symbols, gm_symbol, gm_symbols(OF, first, rows, cap),
     fprintf(to, "%0*" PRIx64 " %x %" PRIu64 " %x %u ", g->image.is_64 ? 16 : 8, r->value, r->n_type, r->section, r->desc, r->code); text(to, g, r->name,
         r->name_len))
LIST(libraries, gm_library, gm_libraries(OF, first, rows, cap),
     fprintf(to, "%u %u %x %x %u ", r->kind, r->timestamp, r->current_version, r->compatibility_version, r->attributes); text(to, g, r->name, r->name_len))
/* memory that is refused at one request, and counted */

typedef struct { uint64_t asked, refused, held; } counted;
static void *take(void *self, size_t size) {
    counted *c = self;
    if (++c->asked == c->refused) return NULL;
    c->held++;
    return malloc(size);
}
static void give(void *self, void *block) { ((counted *)self)->held--; free(block); }

static uint64_t made_up(uint64_t len);
static void make_up(void *at, uint64_t size, uint64_t len);

static int of_damage;

/* the rows after a cursor, which is at the start for `first` 0, and then where the last call ended; for damage its numbers are made up */
#define BEHIND(name, row, place) \
    static uint64_t name(const given *g, uint64_t first, row *rows, uint64_t cap) { \
        static place at; \
        if (!first) memset(&at, 0, sizeof at); \
        if (of_damage) make_up(&at, sizeof at, g->len); \
        place before = at; \
        uint64_t count = UINT64_MAX; \
        gm_error e; \
        uint32_t code = gm_##name(OF, &at, rows, cap, &count, NULL, &e); \
        if (code && (count != UINT64_MAX || memcmp(&before, &at, sizeof at))) DIE("a refusal changed the count or the cursor"); \
        return code ? 0 : count; \
    } \
    static void name##_refused(const given *g) { \
        row rows[4], first[4]; \
        place at = {0}, begun = {0}; \
        uint64_t many = 0, count = UINT64_MAX; \
        gm_error e = {0}, f = {0}; \
        memset(first, 0xa5, sizeof first); \
        uint32_t code = gm_##name(OF, &begun, first, 4, &many, NULL, &e); \
        if (code != e.code) DIE("an error without its code"); \
        for (uint64_t k = 1;; k++) { \
            counted c = {0, k, 0}; \
            gm_memory m = {&c, take, give}; \
            place untouched = {0}; \
            memset(rows, 0xa5, sizeof rows); \
            uint32_t again = gm_##name(OF, &at, rows, 4, &count, &m, &f); \
            if (c.held) DIE("a block was kept"); \
            if (again && (count != UINT64_MAX || memcmp(&at, &untouched, sizeof at) || *(uint8_t *)rows != 0xa5)) DIE("a refusal left something"); \
            if (again != GM_NO_MEMORY) { \
                if (again != code || (!code && (count != many || memcmp(rows, first, sizeof rows)))) DIE("memory changed an answer"); \
                break; \
            } \
        } \
    }
BEHIND(fixups, gm_fixup, gm_fixup_cursor)
LIST(fixups, gm_fixup, fixups(g, first, rows, cap),
     fprintf(to, "%" PRIx64 " %" PRIx64 " %" PRIx64 " %u %u %u %d %u %u %u %u %u", r->address, r->offset, r->target, r->segment, r->kind, r->import,
             r->addend, r->is_signed, r->key, r->diversity, r->is_address_diverse, r->code))
/* (machdump's line of an import is the end of the line) */
static void dylib(FILE *to, const given *g, uint64_t ordinal) {
    gm_library l;
    if (!ordinal) fputs("self", to);
    else if (gm_libraries(OF, ordinal - 1, &l, 1)) text(to, g, l.name, l.name_len);
}
BEHIND(opcode_imports, gm_import, gm_bind_cursor)
LIST(opcode_imports, gm_import, opcode_imports(g, first, rows, cap),
     fprintf(to, "%u %" PRIu64 " %" PRIx64 " %" PRId64 " %" PRIx64 " %" PRIu64 " %u %u 0x%" PRIx64 " ", r->code, r->library, r->offset, r->addend,
             r->start_of_sequence_offset, r->size, r->is_weak, r->is_lazy, r->address);
     dylib(to, g, r->library); fputc(' ', to); text(to, g, r->name, r->name_len))
BEHIND(bindings, gm_binding, gm_binding_cursor)
LIST(bindings, gm_binding, bindings(g, first, rows, cap),
     fprintf(to, "%u %u %" PRIu64 " %" PRIx64 " %" PRId64 " %u %u 0x%" PRIx64 " ", r->code, r->provider, r->library, r->offset, r->addend, r->is_weak,
             r->is_lazy, r->address); text(to, g, r->name, r->name_len))
BEHIND(weak_binds, gm_weak_bind, gm_bind_cursor)
LIST(weak_binds, gm_weak_bind, weak_binds(g, first, rows, cap),
     fprintf(to, "%u %u %" PRIx64 " %" PRId64 " %u 0x%" PRIx64 " ", r->code, r->is_strong, r->offset, r->addend, r->is_weak, r->address);
     text(to, g, r->name, r->name_len))
BEHIND(rebases, gm_rebase, gm_rebase_cursor)
LIST(rebases, gm_rebase, rebases(g, first, rows, cap),
     fprintf(to, "%" PRIx64 " %" PRIx64 " %" PRIx64 " %u %u %u %u %u %u %u", r->address, r->offset, r->target, r->segment, r->kind, r->is_signed, r->key,
             r->diversity, r->is_address_diverse, r->code))
BEHIND(function_starts, gm_function_start, gm_start_cursor)
LIST(function_starts, gm_function_start, function_starts(g, first, rows, cap), fprintf(to, "%" PRIx64 " %u", r->address, r->code))
LIST(data_in_code, gm_data_in_code_entry, gm_data_in_code(OF, first, rows, cap), fprintf(to, "%x %u %u %u", r->offset, r->length, r->kind, r->code))
LIST(indirect_symbols, gm_indirect_symbol, gm_indirect_symbols(OF, first, rows, cap), fprintf(to, "%u %u %u", r->kind, r->symbol, r->code))
static uint64_t slots(const given *g, uint64_t first, gm_slot *rows, uint64_t cap) {
    uint64_t count = UINT64_MAX;
    gm_error e;
    uint32_t code = gm_slots(OF, first, rows, cap, &count, NULL, &e);
    if (code && (count != UINT64_MAX || code != e.code)) DIE("a refusal changed the count, or has another code");
    return code ? 0 : count;
}
LIST(slots, gm_slot, slots(g, first, rows, cap),
     fprintf(to, "%" PRIx64 " %" PRIu64 " %" PRIu64 " %u %u %u %u %u %u ", r->address, r->len, r->segment, r->section_index, r->kind, r->index, r->owner,
         r->symbol, r->code);
     text(to, g, r->name, r->name_len))
static uint64_t initializers(const given *g, uint64_t first, gm_initializer *rows, uint64_t cap) {
    uint64_t count = UINT64_MAX;
    gm_error e;
    uint32_t code = gm_initializers(OF, first, rows, cap, &count, NULL, &e);
    if (code && (count != UINT64_MAX || code != e.code)) DIE("a refusal changed the count, or has another code");
    return code ? 0 : count;
}
LIST(initializers, gm_initializer, initializers(g, first, rows, cap),
     fprintf(to, "%" PRIx64 " %" PRIx64 " %" PRIu64 " %u %u", r->slot, r->target, r->segment, r->section_index, r->code))
LIST(linker_options, gm_linker_option, gm_linker_options(OF, first, rows, cap),
     fprintf(to, "%" PRIx64 " %u ", r->command, r->code); text(to, g, r->text, r->text_len))
LIST(build_tools, gm_build_tool, gm_build_tools(OF, first, rows, cap), fprintf(to, "%" PRIx64 " %u %x %u", r->command, r->tool, r->version, r->code))
LIST(all_sections, gm_numbered_section, gm_all_sections(OF, first, rows, cap),
     fprintf(to, "%" PRIx64 " %" PRIu64 " %u %.16s %.16s %" PRIx64 " %" PRIx64 " %u", r->command, r->number, r->index, (const char *)r->section.name,
             (const char *)r->section.segment, r->section.addr, r->section.size, r->section.code))
LIST(build_versions, gm_build_version, gm_build_versions(OF, first, rows, cap),
     fprintf(to, "%" PRIx64 " %u %x %x", r->command, r->platform, r->minos, r->sdk))
LIST(dyld_environment, gm_command_text, gm_dyld_environment(OF, first, rows, cap),
     fprintf(to, "%" PRIx64 " %u ", r->command, r->code); text(to, g, r->text, r->text_len))
LIST(fileset_entries, gm_fileset_entry, gm_fileset_entries(OF, first, rows, cap),
     fprintf(to, "%" PRIx64 " %" PRIx64 " %u ", r->address, r->offset, r->code); text(to, g, r->name, r->name_len))
LIST(notes, gm_note, gm_notes(OF, first, rows, cap),
     if (r->size && (r->place > g->len || r->size > g->len - r->place)) DIE("a note stands outside of the bytes");
     fprintf(to, "%" PRIx64 " %" PRIu64 " %u ", r->command, r->size, r->code); text(to, g, r->owner, r->owner_len))
LIST(run_paths, gm_run_path, gm_run_paths(OF, first, rows, cap), text(to, g, r->path, r->path_len))
LIST(ids, gm_id, gm_ids(OF, first, rows, cap), text(to, g, r->name, r->name_len))

/* ---- the signature: one row, and its faults, in the words of machsign except those of errors */

static uint64_t signature(const given *g, uint64_t first, gm_signature *row, uint64_t cap) {
    gm_error e;
    gm_signature said, before;
    if (first || !cap) return 0;
    memset(&said, 0x5a, sizeof said);
    before = said;
    uint32_t code = gm_code_signature(OF, &said, NULL, &e);
    if (code && (code != e.code || memcmp(&before, &said, sizeof before))) DIE("a refusal changed the signature, or has another code");
    if (code || !said.is_signed) return 0;
    *row = said;
    return 1;
}
static uint64_t signature_faults(const given *g, uint64_t first, gm_signature_fault *rows, uint64_t cap) {
    uint64_t count = UINT64_MAX;
    gm_error e;
    uint32_t code = gm_signature_faults(OF, first, rows, cap, &count, NULL, &e);
    if (code && (count != UINT64_MAX || code != e.code)) DIE("a refusal changed the count, or has another code");
    return code ? 0 : count;
}
static void cdhash(FILE *to, const uint8_t *hash) {
    for (uint64_t i = 0; i < 20; i++) fprintf(to, "%02x", hash[i]);
}
LIST(signature, gm_signature, signature(g, first, rows, cap),
     if (r->entitlements > g->len || r->entitlements_len > g->len - r->entitlements) DIE("entitlements stand outside of the bytes");
     fprintf(to, "%x %x %u %u %" PRIx64 " %" PRIu64 " %u %u %u %" PRIu64 " ", r->version, r->flags, r->hash_type, r->page_size, r->limit, r->pages,
             r->identifier_code, r->team_code, r->entitlements_code, r->entitlements_len);
     cdhash(to, r->cdhash); fputc(' ', to); text(to, g, r->identifier, r->identifier_len); fputc(' ', to); text(to, g, r->team, r->team_len))
LIST(signature_faults, gm_signature_fault, signature_faults(g, first, rows, cap),
     fprintf(to, "%s %x %u %" PRIx64 " %" PRIx64 " %u", gm_signature_kind(r->kind), r->slot, r->index, r->found, r->limit, r->code))

/* ---- verdicts on how it is hardened */

static uint64_t security(const given *g, uint64_t first, gm_verdict *rows, uint64_t cap) {
    uint64_t count = UINT64_MAX;
    gm_error e;
    uint32_t code = gm_security(OF, first, rows, cap, &count, NULL, &e);
    if (code && (count != UINT64_MAX || code != e.code)) DIE("a refusal changed the count, or has another code");
    return code ? 0 : count;
}
LIST(security, gm_verdict, security(g, first, rows, cap),
     if (r->holds > 1 || (r->code && r->holds)) DIE("a verdict that holds and isn't known");
     fprintf(to, "%s %u %u", gm_verdict_name(r->verdict), r->holds, r->code))

/* ---- faults of layout, of an image and of a fat file's table: the lines of machaudit */

typedef uint32_t told(const given *g, uint64_t first, gm_layout_fault *out, uint64_t cap, uint64_t *count, const gm_memory *memory, gm_error *e);
static uint32_t told_of_image(const given *g, uint64_t first, gm_layout_fault *out, uint64_t cap, uint64_t *count, const gm_memory *memory, gm_error *e) {
    return gm_layout_faults(OF, first, out, cap, count, memory, e);
}
static uint32_t told_of_table(const given *g, uint64_t first, gm_layout_fault *out, uint64_t cap, uint64_t *count, const gm_memory *memory, gm_error *e) {
    return gm_container_faults(g->bytes, g->len, first, out, cap, count, memory, e);
}
static uint64_t faults(told *call, const given *g, uint64_t first, gm_layout_fault *rows, uint64_t cap) {
    uint64_t count = UINT64_MAX;
    gm_error e;
    uint32_t code = call(g, first, rows, cap, &count, NULL, &e);
    if (code && (count != UINT64_MAX || code != e.code)) DIE("a refusal changed the count, or has another code");
    return code ? 0 : count;
}
static void owner(FILE *to, uint32_t part, uint64_t index, uint64_t command) {
    fputs(gm_layout_part(part), to);
    if (index || part == GM_PART_SECTION || part == GM_PART_RELOCATIONS || part == GM_PART_SLICE || part == GM_PART_IMPORTS || part == GM_PART_SYMBOL_RANGES)
        fprintf(to, " %" PRIu64, index);
    fprintf(to, " at 0x%" PRIx64, command);
}
static void fault(FILE *to, const gm_layout_fault *r) {
    fprintf(to, "%s: ", gm_layout_rule(r->rule));
    owner(to, r->part, r->index, r->command);
    fprintf(to, ": 0x%" PRIx64 " against 0x%" PRIx64, r->found, r->limit);
    if (!r->other_part) return;
    fputs(" of ", to);
    owner(to, r->other_part, r->other_index, r->other_command);
}
LIST(layout, gm_layout_fault, faults(told_of_image, g, first, rows, cap), fault(to, r))
LIST(table, gm_layout_fault, faults(told_of_table, g, first, rows, cap), fault(to, r))

typedef struct {
    const char *name;
    uint64_t size;
    uint64_t (*rows)(const given *, uint64_t, void *, uint64_t);
    void (*line)(FILE *, const given *, const void *);
} list;
#define ONE(name, row) {#name, sizeof(row), rows_##name, line_##name}
static const list lists[] = {ONE(commands, gm_command), ONE(segments, gm_segment), ONE(symbols, gm_symbol), ONE(libraries, gm_library),
                             ONE(run_paths, gm_run_path), ONE(fixups, gm_fixup), ONE(opcode_imports, gm_import), ONE(bindings, gm_binding),
                             ONE(entries, gm_fat_entry), ONE(sections, gm_section), ONE(relocations, gm_relocation), ONE(layout, gm_layout_fault),
                              ONE(table, gm_layout_fault), ONE(ids, gm_id), ONE(weak_binds, gm_weak_bind), ONE(rebases, gm_rebase),
                             ONE(function_starts, gm_function_start),
                             ONE(data_in_code, gm_data_in_code_entry), ONE(indirect_symbols, gm_indirect_symbol), ONE(slots, gm_slot), ONE(initializers, gm_initializer),
                             ONE(linker_options, gm_linker_option), ONE(build_tools, gm_build_tool), ONE(notes, gm_note),
                             ONE(all_sections, gm_numbered_section), ONE(build_versions, gm_build_version), ONE(dyld_environment, gm_command_text),
                             ONE(fileset_entries, gm_fileset_entry),
                             ONE(signature, gm_signature), ONE(signature_faults, gm_signature_fault), ONE(security, gm_verdict)};
enum { LISTS = sizeof lists / sizeof *lists, LIMIT = 400 };

static const list *named(const char *name) {
    for (uint64_t i = 0; i < LISTS; i++)
        if (!strcmp(name, lists[i].name)) return &lists[i];
    return NULL;
}

/* Returns the lines of a list in batches of so many, at most LIMIT of them. Each array has exactly the length that is passed. */
static char *lines(const list *l, const given *g, uint64_t batch) {
    char *text_of = NULL;
    size_t len = 0;
    uint64_t n = 0, k, room;
    FILE *to = open_memstream(&text_of, &len);
    do {
        room = LIMIT - n < batch ? LIMIT - n : batch;
        uint8_t *out = malloc(room * l->size + !room);
        memset(out, 0xa5, room * l->size);
        k = l->rows(g, n, room ? out : NULL, room);
        if (k > room) DIE("%s: more rows than fit", l->name);
        for (uint64_t i = k * l->size; i < room * l->size; i++)
            if (out[i] != 0xa5) DIE("%s: the rest of the array was written", l->name);
        for (uint64_t i = 0; i < k; i++) l->line(to, g, out + i * l->size);
        free(out);
        n += k;
    } while (k == room && room);
    fclose(to);
    return text_of;
}

/* ---- memory of a call */

static uint64_t mallocs;
void *__real_malloc(size_t size);
void *__wrap_malloc(size_t size);
void *__wrap_malloc(size_t size) { mallocs++; return __real_malloc(size); }

/* an image without the bytes after its last number, which nothing writes */
#define IMAGE (offsetof(gm_image, is_64) + sizeof(uint32_t))

static uint32_t opens(given *g, uint32_t mode) {
    gm_error e = {0}, f = {0};
    gm_image other;
    memset(&other, 0x5a, sizeof other);
    gm_image before = other;
    uint32_t code = gm_open(g->bytes, g->len, 0, mode, NULL, &g->image, &e);
    if (code != e.code || e.text[123] || !e.text[0] != !code) DIE("an error without its code and its words");
    for (uint64_t k = 1;; k++) {
        counted c = {0, k, 0};
        gm_memory m = {&c, take, give};
        uint32_t again = gm_open(g->bytes, g->len, 0, mode, &m, &other, &f);
        if (c.held) DIE("a block was kept");
        if (again && memcmp(&other, &before, sizeof other)) DIE("a refusal changed the image");
        if (again != GM_NO_MEMORY) {
            if (again != code || (!code && memcmp(&other, &g->image, IMAGE))) DIE("memory changed an answer");
            break;
        }
    }
    static _Alignas(16) uint8_t room[1 << 16];
    gm_arena arena = {room, sizeof room, 0, 0};
    gm_memory m = gm_arena_memory(&arena);
    uint64_t before_call = mallocs;
    uint32_t again = gm_open(g->bytes, g->len, 0, mode, &m, &other, &f);
    if (mallocs != before_call || arena.blocks) DIE("an arena did not serve");
    if (again != code) DIE("an arena changed an answer");
    return code;
}

/* ---- tests */

static uint64_t tested, alike, others, brought, trees;

static void same_in_batches(const list *l, const given *g) {
    static const uint64_t batches[] = {1, 2, 7};
    char *all = lines(l, g, LIMIT);
    for (int i = 0; i < 3; i++) {
        char *some = lines(l, g, batches[i]);
        if (strcmp(all, some)) DIE("%s: batches of %" PRIu64 " differ", l->name, batches[i]);
        free(some);
    }
    free(all);
    tested++;
    l->rows(g, 0, NULL, 0);
}

static void check_parts(given *g) {
    gm_segment segments[16];
    gm_section sections[16];
    uint64_t n = gm_segments(OF, 0, segments, 16);
    for (uint64_t i = 0; i < n; i++) {
        g->segment = segments[i];
        same_in_batches(&lists[9], g);
        uint64_t m = gm_sections(OF, segments[i].command, segments[i].sections, 0, sections, 16);
        for (uint64_t k = 0; k < m; k++) {
            g->section = sections[k];
            same_in_batches(&lists[10], g);
        }
    }
}

/* Looks up a name, also with memory that is refused. Of file C machdump has the exports. */
static void finds(const given *g, const char *name, uint64_t name_len) {
    gm_export found, before;
    char library[8], target[8];
    gm_error e = {0}, f = {0};
    memset(&before, 0x5a, sizeof before);
    found = before;
    uint32_t code = gm_find_export(OF, name, name_len, &found, library, sizeof library, NULL, 0, NULL, &e);
    if (code != e.code || (code && memcmp(&found, &before, sizeof found))) DIE("a refusal changed the export");
    for (uint64_t k = 1;; k++) {
        counted c = {0, k, 0};
        gm_memory m = {&c, take, give};
        gm_export again = before;
        uint32_t code_again = gm_find_export(OF, name, name_len, &again, library, sizeof library, target, sizeof target, &m, &f);
        if (c.held) DIE("a block was kept");
        if (code_again != GM_NO_MEMORY) {
            if (code_again != code || memcmp(&again, &found, sizeof found)) DIE("memory changed an export");
            break;
        }
    }
    if (!code && found.kind > GM_STUB) DIE("an export of no kind");
    tested++;
}

/* Checks faults with memory that is refused at each request, and out of an arena. */
static void tells(told *call, const given *g) {
    enum { CAP = 8, USED = sizeof(gm_layout_fault) };
    static _Alignas(16) uint8_t room[1 << 20];
    gm_layout_fault all[CAP], again[CAP], before[CAP];
    uint64_t count = UINT64_MAX, count_again;
    gm_error e = {0}, f = {0};
    memset(before, 0x5a, sizeof before);
    memcpy(all, before, sizeof all);
    uint32_t code = call(g, 0, all, CAP, &count, NULL, &e);
    if (code) DIE("what opened has no layout: %s", e.text);
    for (uint64_t k = 1;; k++) {
        counted c = {0, k, 0};
        gm_memory m = {&c, take, give};
        count_again = UINT64_MAX;
        memcpy(again, before, sizeof again);
        uint32_t code_again = call(g, 0, again, CAP, &count_again, &m, &f);
        if (c.held) DIE("a block was kept");
        if (code_again && (count_again != UINT64_MAX || memcmp(again, before, sizeof again))) DIE("a refusal changed the faults");
        if (code_again == GM_NO_MEMORY) continue;
        if (code_again != code || count_again != count) DIE("memory changed the faults");
        for (uint64_t i = 0; i < CAP; i++)
            if (memcmp(again + i, all + i, USED)) DIE("memory changed a fault");
        break;
    }
    gm_arena arena = {room, sizeof room, 0, 0};
    gm_memory m = gm_arena_memory(&arena);
    uint64_t before_call = mallocs;
    if (call(g, 0, again, CAP, &count_again, &m, &f) != code || count_again != count) DIE("an arena changed the faults");
    if (mallocs != before_call || arena.blocks) DIE("an arena did not serve");
    tested++;
}

/* Checks the signature with memory that is refused at each request. It has faults exactly if the image isn't as it was signed. Whether the
   entitlements agree is said of each signature that can be read, and there are verdicts on each image. */
static void says(const given *g) {
    enum { VERDICTS = 20 };
    gm_signature_fault all[8], again[8];
    gm_verdict verdicts[VERDICTS], verdicts_again[VERDICTS];
    gm_signature said, said_again;
    gm_error e = {0}, f = {0};
    uint32_t is = 7, is_again, agree = 7, agree_again;
    uint64_t count = 0, found = 0;
    memset(&said, 0x5a, sizeof said);
    memset(all, 0x5a, sizeof all);
    memset(verdicts, 0x5a, sizeof verdicts);
    const uint32_t codes[] = {gm_code_signature(OF, &said, NULL, &e), gm_is_as_signed(OF, &is, NULL, &e), gm_signature_faults(OF, 0, all, 8, &count, NULL, &e),
                              gm_entitlements_agree(OF, &agree, NULL, &e), gm_security(OF, 0, verdicts, VERDICTS, &found, NULL, &e)};
    if (codes[4] || found != (g->image.is_64 ? 18 : 19)) DIE("an image without all verdicts");
    for (uint64_t k = 0; k < found; k++) {
        if (verdicts[k].verdict != k + (g->image.is_64 ? 2 : 1) || !gm_verdict_meaning(verdicts[k].verdict)) DIE("a verdict of another number");
        uint32_t verdict = verdicts[k].verdict;
        int is_of_blob = verdict == GM_VERDICT_CMS || verdict == GM_VERDICT_ENTITLEMENTS || verdict == GM_VERDICT_GET_TASK_ALLOW;
        if (verdicts[k].code && (verdict < GM_VERDICT_SIGNED || (!codes[0] && !is_of_blob))) DIE("a verdict that can't be read");
        if (verdict == GM_VERDICT_SIGNED && verdicts[k].holds != (!codes[0] && said.is_signed)) DIE("signed, and no signature; or not");
    }
    if (codes[1] != codes[2] || (codes[1] && (is != 7 || count))) DIE("a refusal changed what is said of a signature");
    if (codes[3] != codes[2] || (codes[3] ? agree != 7 : agree > GM_ENTITLEMENTS_UNREADABLE_DER)) DIE("no agreement of a signature that can be read");
    if (!codes[1] && (is > 1 || (is && count) || (!is && !count && said.is_signed))) DIE("as signed, and faults; or neither");
    if (!codes[0] && codes[1]) DIE("a directory of a signature that can't be read");
    for (uint64_t k = 1, refused = 1; refused; k++) {
        refused = 0;
        for (int call = 0; call < 5; call++) {
            counted c = {0, k, 0};
            gm_memory m = {&c, take, give};
            uint64_t count_again = 0;
            is_again = agree_again = 7;
            memset(&said_again, 0x5a, sizeof said_again);
            memset(again, 0x5a, sizeof again);
            memset(verdicts_again, 0x5a, sizeof verdicts_again);
            uint32_t code = call == 0 ? gm_code_signature(OF, &said_again, &m, &f)
                          : call == 1 ? gm_is_as_signed(OF, &is_again, &m, &f)
                          : call == 2 ? gm_signature_faults(OF, 0, again, 8, &count_again, &m, &f)
                          : call == 3 ? gm_entitlements_agree(OF, &agree_again, &m, &f)
                                      : gm_security(OF, 0, verdicts_again, VERDICTS, &count_again, &m, &f);
            if (c.held) DIE("a block was kept");
            if (code == GM_NO_MEMORY) {
                refused = 1;
                if (f.code != code || is_again != 7 || agree_again != 7 || count_again || *(uint8_t *)&said_again != 0x5a || *(uint8_t *)again != 0x5a
                    || *(uint8_t *)verdicts_again != 0x5a)
                    DIE("refused memory left something of a signature");
            } else if (code != codes[call] || (call == 0 && memcmp(&said, &said_again, sizeof said)) || (call == 1 && is != is_again)
                       || (call == 2 && (count != count_again || memcmp(all, again, sizeof all))) || (call == 3 && agree != agree_again)
                       || (call == 4 && (found != count_again || memcmp(verdicts, verdicts_again, sizeof verdicts))))
                DIE("memory changed what is said of a signature");
        }
    }
    tested++;
}

enum { FINDINGS = 8 };

/* Audits a file again, with room for `cap` rows. Returns the code. The audit is the same as before, or it is refused and changes nothing. */
static uint32_t audits_again(const given *g, uint64_t cap, const gm_finding *all, uint64_t count, uint32_t verdict, const gm_memory *m) {
    gm_finding again[FINDINGS];
    gm_error e = {0};
    uint64_t count_again = 7;
    uint32_t verdict_again = 7;
    memset(again, 0x5a, sizeof again);
    uint32_t code = gm_audit(g->bytes, g->len, UINT64_MAX, cap ? again : NULL, cap, &count_again, &verdict_again, m, &e);
    if (code ? code != GM_NO_MEMORY || e.code != code || count_again != 7 || verdict_again != 7 : count_again != count || verdict_again != verdict)
        DIE("another audit, or a refusal that changed something");
    const uint64_t written = code ? 0 : (cap < count ? cap : count) * sizeof *all;
    if (memcmp(all, again, written)) DIE("other findings");
    for (uint64_t i = written; i < sizeof again; i++)
        if (((uint8_t *)again)[i] != 0x5a) DIE("a row that was not to be written");
    return code;
}

/* Audits the file with room for each number of rows, and with memory that is refused at each request. */
static void audits(const given *g) {
    gm_finding all[FINDINGS];
    uint64_t count = 7;
    uint32_t verdict = 7;
    if (gm_audit(g->bytes, g->len, UINT64_MAX, all, FINDINGS, &count, &verdict, NULL, NULL)) DIE("an audit is refused");
    if (verdict > GM_FAULTY || (verdict == GM_SOUND) != (count == 0)) DIE("%" PRIu64 " findings, and verdict %u", count, verdict);
    for (uint64_t i = 0; i < FINDINGS && i < count; i++)
        if (!strcmp(gm_finding_kind(all[i].kind), "none") || (all[i].kind == GM_FINDING_LAYOUT) != (all[i].layout.rule != 0)
            || (all[i].kind == GM_FINDING_SIGNATURE) != (all[i].signature.kind != 0)) DIE("a finding without a kind, or without its fault");
    for (uint64_t cap = 0; cap <= FINDINGS; cap++)
        if (audits_again(g, cap, all, count, verdict, NULL)) DIE("an audit is refused");
    for (uint64_t k = 1, refused = 1; refused; k++) {
        counted c = {0, k, 0};
        gm_memory m = {&c, take, give};
        refused = audits_again(g, FINDINGS, all, count, verdict, &m);
        if (c.held) DIE("a block was kept");
    }
    tested++;
}

/* Checks that the layout of an image after other bytes is that of the image. */
static void lies_behind(const given *g) {
    const uint64_t front = 16;
    uint8_t *bytes = malloc(front + g->len);
    memset(bytes, 0x5a, front);
    memcpy(bytes + front, g->bytes, g->len);
    given behind = {.bytes = bytes, .len = front + g->len, .image = g->image};
    behind.image.offset = front;
    char *here = lines(named("layout"), g, LIMIT), *there = lines(named("layout"), &behind, LIMIT);
    if (strcmp(here, there)) DIE("the layout behind other bytes differs");
    free(here);
    free(there);
    free(bytes);
}

/* ---- exports */

/* Returns a buffer of a walk. It has exactly the length that is passed, so that a write past it is detected. */
static void *grown(void *held, uint64_t old, uint64_t size) {
    uint8_t *more = malloc(size + !size);
    if (!more) DIE("no memory");
    memset(more, 0xa5, size);
    if (old) memcpy(more, held, old);
    free(held);
    return more;
}
static gm_export_room room_of(uint64_t some, uint64_t cap) {
    gm_export_room r = {NULL, some, NULL, some, NULL, cap, NULL, some > 64 ? 16 * some : some};
    r.name = grown(NULL, 0, some);
    r.stack = grown(NULL, 0, some * sizeof *r.stack);
    r.out = grown(NULL, 0, cap * sizeof *r.out);
    r.names = grown(NULL, 0, r.names_cap);
    return r;
}
static void give_room(gm_export_room *r) { free(r->name); free(r->stack); free(r->out); free(r->names); }

/* Requests a batch; checks that what follows its rows and its names is unchanged. */
static uint32_t export_batch(const given *g, gm_export_walk *walk, const gm_export_room *r, gm_export_batch *b, const gm_memory *m) {
    gm_error e = {0};
    memset(r->out, 0xa5, r->cap * sizeof *r->out);
    memset(r->names, 0xa5, r->names_cap);
    uint32_t code = gm_exports(OF, walk, r, b, m, &e);
    if (code != e.code || (b->end == GM_REFUSED) != !!code) DIE("an end that is not that of the code");
    if (b->count > r->cap || b->names_len > r->names_cap) DIE("more exports than fit");
    for (uint64_t i = b->count * sizeof *r->out; i < r->cap * sizeof *r->out; i++)
        if (((uint8_t *)r->out)[i] != 0xa5) DIE("exports: the rest of the array was written");
    for (uint64_t i = b->names_len; i < r->names_cap; i++)
        if ((uint8_t)r->names[i] != 0xa5) DIE("exports: the rest of the names was written");
    return code;
}

/* Enlarges what is too short, never by a byte or a node more than needed. In this way each call counts. */
static void give_more(gm_export_room *r, const gm_export_batch *b) {
    uint64_t *cap = b->end == GM_NAME_SHORT ? &r->name_cap : b->end == GM_STACK_SHORT ? &r->stack_cap : &r->names_cap;
    if (b->needed <= *cap) DIE("no more is needed than there is");
    if (b->end == GM_NAME_SHORT) r->name = grown(r->name, *cap, b->needed);
    else if (b->end == GM_STACK_SHORT) r->stack = grown(r->stack, *cap * sizeof *r->stack, b->needed * sizeof *r->stack);
    else r->names = grown(r->names, 0, b->needed);
    *cap = b->needed;
}

/* Compares an export with the one that is found by its name. That is the first of the name, so later ones of the name may differ. */
static void same_as_found(const given *g, const gm_listed_export *x, const char *names) {
    gm_export found;
    gm_error e;
    static char library[1 << 12], target[1 << 12];
    if (gm_find_export(OF, names + x->name, x->name_len, &found, library, sizeof library, target, sizeof target, NULL, &e)) return;
    if (found.kind == GM_NO_EXPORT) DIE("an export that is not found");
    if (memcmp(&found, &x->what, sizeof found)) { others++; return; }
    alike++;
    if (found.kind != GM_REEXPORTED) return;
    if (found.target_len > g->len || x->target > g->len - found.target_len || memcmp(g->bytes + x->target, target, found.target_len)) DIE("another target");
    gm_library l;
    if (x->library && (gm_libraries(OF, x->library - 1, &l, 1) != 1 || l.name_len != found.library_len || memcmp(g->bytes + l.name, library, l.name_len)))
        DIE("another library");
    brought++;
}

/* Returns the lines of the exports in batches of so many, and how the walk ends. The buffers start with so many bytes and nodes. */
static char *export_lines(const given *g, uint64_t cap, uint64_t some, bool of_library) {
    char *text_of = NULL;
    uint64_t len = 0;
    FILE *to = open_memstream(&text_of, &len);
    gm_export_walk walk = {0};
    gm_export_room r = room_of(some, cap);
    gm_export_batch b;
    for (;;) {
        uint32_t code = export_batch(g, &walk, &r, &b, NULL);
        for (uint64_t i = 0, at = 0; i < b.count; at += r.out[i++].name_len) {
            const gm_listed_export *x = r.out + i;
            if (x->name != at || x->name_len > b.names_len - at || x->what.kind < GM_ADDRESS || x->what.kind > GM_STUB) DIE("a row of no name");
            if (of_library) {
                fprintf(to, "%" PRIu64 " ", x->what.kind == GM_REEXPORTED ? x->library : 0);
                text(to, g, x->what.target_len ? x->target : 0, x->what.target_len);
                fprintf(to, " %.*s\n", (int)x->name_len, r.names + x->name);
                same_as_found(g, x, r.names);
            } else fprintf(to, "0x%" PRIx64 " %.*s\n", x->what.kind == GM_ADDRESS ? x->what.offset : 0, (int)x->name_len, r.names + x->name);
        }
        if (code) {
            if (walk.code != code || export_batch(g, &walk, &r, &b, NULL) != code || b.count) DIE("a refused walk went on");
            fprintf(to, "refused: %u\n", code);
            break;
        }
        if (b.end == GM_END) {
            if (export_batch(g, &walk, &r, &b, NULL) || b.end != GM_END || b.count) DIE("a walk went on behind its end");
            break;
        }
        if (b.end != GM_MORE) give_more(&r, &b);
        else if (!b.count) DIE("a batch gave nothing");
    }
    give_room(&r);
    fclose(to);
    return text_of;
}

/* Checks whether the exports are a tree. If they are, a walk gives a list and no refusal. Memory is refused at each request in turn. */
static void exports_by_tree(const given *g, const char *lines) {
    gm_error e = {0};
    uint32_t code = gm_exports_are_a_tree(OF, NULL, &e);
    if (code != e.code) DIE("a tree of another code");
    if (!code && strstr(lines, "refused: ")) DIE("a tree of which a walk is refused");
    if (gm_exports_are_a_tree(OF, NULL, NULL) != code) DIE("a tree without an error");
    for (uint64_t k = 1;; k++) {
        counted c = {0, k, 0};
        gm_memory m = {&c, take, give};
        uint32_t scarce = gm_exports_are_a_tree(OF, &m, &e);
        if (c.held) DIE("a block was kept");
        if (scarce == code) break;
        if (scarce != GM_NO_MEMORY) DIE("a tree in little memory: %u", scarce);
    }
    trees += !code;
}

/* Checks a root with two branches to one node. A walk returns its export twice and ends, and the exports are no tree. */
static void check_shared(void) {
    const uint32_t header[] = {0xfeedfacf, 0x01000007, 3, 6, 1, 16, 0, 0, 0x80000033, 16, 48, 12};
    const uint8_t trie[12] = {0, 2, 'a', 0, 8, 'b', 0, 8, 2, 0, 7, 0};
    uint8_t bytes[60];
    memcpy(bytes, header, 48);
    memcpy(bytes + 48, trie, 12);
    given held = {.bytes = bytes, .len = 60}, *g = &held;
    gm_error e;
    if (gm_open(g->bytes, g->len, 0, GM_STRICT, NULL, &g->image, &e)) DIE("a shared node: %s", e.text);
    char *lines = export_lines(g, 10, 16, false);
    if (strcmp(lines, "0x7 a\n0x7 b\n")) DIE("a shared node: %s", lines);
    free(lines);
    if (gm_exports_are_a_tree(OF, NULL, &e) != GM_MALFORMED || e.code != GM_MALFORMED) DIE("a shared node is a tree");
    bytes[48 + 7] = 127;
    if (gm_exports_are_a_tree(OF, NULL, &e) != GM_OK) DIE("a trie without a shared node is no tree");
}

/* Refuses memory at each request in turn, in the middle of a walk. Also walks in buffers of length 0. */
static void exports_by_memory(const given *g) {
    gm_export_walk walk = {0}, zeros = {0};
    gm_export_room none = {0}, r = room_of(64, 2);
    gm_export_batch b;
    gm_error e;
    if (!gm_exports(OF, &zeros, &none, &b, NULL, &e) && (b.end != GM_NO_ROOM || b.needed != 1 || b.count)) DIE("rows without an array");
    export_batch(g, &walk, &r, &b, NULL);
    for (uint64_t k = 1; !walk.code; k++) {
        counted c = {0, k, 0};
        gm_memory m = {&c, take, give};
        gm_export_walk before = walk;
        char name[64];
        gm_open_node stack[64];
        memcpy(name, r.name, 64);
        memcpy(stack, r.stack, sizeof stack);
        uint32_t code = export_batch(g, &walk, &r, &b, &m);
        if (c.held) DIE("a block was kept");
        if (code != GM_NO_MEMORY) break;
        if (b.count || memcmp(&walk, &before, sizeof walk) || memcmp(name, r.name, 64) || memcmp(stack, r.stack, sizeof stack))
            DIE("a refusal changed the walk");
    }
    give_room(&r);
}

/* Visits a trie of so many levels. Each is an inner node with two branches: the first leads on, the second to an export. */
static void put_uleb3(uint8_t *at, uint64_t n) { at[0] = n | 0x80, at[1] = n >> 7 | 0x80, at[2] = n >> 14; }
static void check_deep(uint64_t levels) {
    enum { AT = 48, NODE = 12, LEAF = 4 };
    uint64_t size = levels * (NODE + LEAF) + LEAF;
    given held = {.len = AT + size}, *g = &held;
    uint8_t *bytes = calloc(1, AT + size), *trie = bytes + AT;
    const uint32_t header[] = {0xfeedfacf, 0x01000007, 3, 6, 1, 16, 0, 0, 0x80000033, 16, AT, (uint32_t)size};
    memcpy(bytes, header, sizeof header);
    for (uint64_t i = 0; i < levels; i++) {
        uint8_t *node = trie + i * (NODE + LEAF);
        node[1] = 2, node[2] = 'a', node[7] = 'b';
        put_uleb3(node + 4, (i + 1) * (NODE + LEAF));
        put_uleb3(node + 9, i * (NODE + LEAF) + NODE);
        memcpy(node + NODE, (uint8_t[]){2, 0, i & 127, 0}, LEAF);
    }
    memcpy(trie + levels * (NODE + LEAF), (uint8_t[]){2, 0, 7, 0}, LEAF);
    g->bytes = bytes;
    gm_error e;
    if (gm_open(g->bytes, g->len, 0, GM_STRICT, NULL, &g->image, &e)) DIE("a deep trie: %s", e.text);
    gm_export_walk walk = {0};
    gm_export_room r = room_of(0, 100);
    gm_export_batch b;
    uint64_t n = 0;
    do {
        if (gm_exports(OF, &walk, &r, &b, NULL, &e)) DIE("a deep trie: %s", e.text);
        for (uint64_t i = 0; i < b.count; i++, n++) {
            const gm_listed_export *x = r.out + i;
            bool last = n == 0; /* the deepest comes first, then the others from the bottom up */
            if (x->name_len != (last ? levels : levels - n + 1) || r.names[x->name + x->name_len - 1] != (last ? 'a' : 'b'))
                DIE("export %" PRIu64 " of a deep trie", n);
        }
        b.needed *= 2;
        if (b.end != GM_MORE && b.end != GM_END) give_more(&r, &b);
    } while (b.end != GM_END);
    if (n != levels + 1 || r.stack_cap < levels - 1) DIE("a deep trie of %" PRIu64 " exports and %" PRIu64 " nodes", n, r.stack_cap);
    printf("%" PRIu64 " levels in %" PRIu64 " bytes\n", levels, size);
    give_room(&r);
    free(bytes);
}

static void check_exports(const given *g) {
    char *all = export_lines(g, LIMIT, 4096, true);
    static const uint64_t batches[] = {1, 2, 7};
    for (int i = 0; i < 3; i++)
        for (uint64_t some = 0; some <= 64; some += 32) {
            char *part = export_lines(g, batches[i], some, true);
            if (strcmp(all, part)) DIE("exports: batches of %" PRIu64 " differ", batches[i]);
            free(part);
        }
    exports_by_memory(g);
    exports_by_tree(g, all);
    free(all);
    tested++;
}

/* Checks that the numbers of an image are those of its lists. */
static void counts(const given *g) {
    const struct { const char *list; uint64_t count; } rows[] = {{"commands", g->image.commands}, {"segments", g->image.segments}, {"symbols",
        g->image.symbols},
                                                               {"libraries", g->image.libraries}, {"run_paths", g->image.run_paths}};
    for (uint64_t i = 0; i < sizeof rows / sizeof *rows; i++) {
        const list *l = named(rows[i].list);
        _Alignas(16) uint8_t one[128];
        uint64_t n = rows[i].count;
        if (l->rows(g, n, one, 1) || (n && l->rows(g, n - 1, one, 1) != 1)) DIE("%s: not %" PRIu64, rows[i].list, n);
    }
}

/* Returns four bytes in the image's order. */
static uint32_t word_at(const given *g, const uint8_t *at) {
    uint32_t n = 0;
    for (int i = 0; i < 4; i++) n |= (uint32_t)at[g->image.is_little_endian ? i : 3 - i] << 8 * i;
    return n;
}

/* ---- the tables of commands, read here a second time, by the format alone */

/* Returns whether so many bytes are at a place. */
static bool stand(const given *g, uint64_t at, uint64_t size) { return at <= g->len && size <= g->len - at; }

/* Returns the last command of a number, or one of size 0. */
static gm_command last_command(const given *g, uint32_t cmd) {
    gm_command c, last = {0};
    for (uint64_t i = 0; gm_commands(OF, i, &c, 1); i++)
        if (c.cmd == cmd) last = c;
    return last;
}

/* Returns the address of the first segment that is named __TEXT. */
static uint64_t base_by_segments(const given *g) {
    gm_segment s;
    for (uint64_t i = 0; gm_segments(OF, i, &s, 1); i++)
        if (!strncmp((const char *)s.name, "__TEXT", 16)) return s.vmaddr;
    return 0;
}

static void starts_by_bytes(const given *g) {
    gm_command c = last_command(g, GM_LC_FUNCTION_STARTS);
    uint64_t at = c.size ? word_at(g, g->bytes + c.offset + 8) : 0, upto = c.size ? at + word_at(g, g->bytes + c.offset + 12) : 0;
    uint64_t address = base_by_segments(g);
    gm_start_cursor cursor = {0};
    gm_function_start r;
    uint64_t count;
    for (;;) {
        if (gm_function_starts(OF, &cursor, &r, 1, &count, NULL, NULL)) DIE("functions of an image that opened");
        if (!count) break;
        uint64_t number = 0, place = at;
        int shift = 0;
        for (; place < g->len && place < upto && g->bytes[place] & 128 && shift < 70; place++, shift += 7)
            number |= shift < 64 ? (uint64_t)(g->bytes[place] & 127) << shift : 0;
        bool is_cut = place >= g->len || place >= upto || shift > 63 || (shift == 63 && g->bytes[place] > 1);
        if (!is_cut) number |= (uint64_t)g->bytes[place] << shift;
        if (is_cut || address + number < address) {
            if (r.code == GM_OK || r.address) DIE("a function by a number that can't be read");
            if (gm_function_starts(OF, &cursor, &r, 1, &count, NULL, NULL) || count) DIE("functions behind a fault");
            return;
        }
        address += number;
        if (!number || r.code || r.address != address) DIE("a function at %" PRIx64 ", and not at %" PRIx64, r.address, address);
        at = place + 1;
    }
    if (at < upto && at < g->len && g->bytes[at]) DIE("functions that end too early");
}

/* ---- the rebases and the weak binds, opcode by opcode */

typedef struct {
    uint64_t at, upto, offset, name, name_len;
    int64_t addend;
    uint32_t segment, kind, flags;
    bool has_segment, has_name;
} opcodes;

/* Returns the opcodes whose offset and size are at a number of the command. */
static opcodes opcodes_of(const given *g, uint64_t number) {
    gm_command c = last_command(g, GM_LC_DYLD_INFO), only = last_command(g, GM_LC_DYLD_INFO_ONLY);
    if (only.offset > c.offset) c = only;
    opcodes o = {0};
    if (!c.size) return o;
    o.at = word_at(g, g->bytes + c.offset + number);
    o.upto = o.at + word_at(g, g->bytes + c.offset + number + 4);
    return o;
}

static bool has_byte(const given *g, const opcodes *o) { return o->at < g->len && o->at < o->upto; }

/* Reads a number of 7 bits a byte. Returns false if it is cut, or has more than 64 bits. */
static bool leb(const given *g, opcodes *o, bool is_signed, uint64_t *n) {
    *n = 0;
    for (int shift = 0;; shift += 7) {
        if (!has_byte(g, o)) return false;
        uint8_t byte = g->bytes[o->at++];
        if (shift == 63 && byte > 1 && !(is_signed && byte == 127)) return false;
        if (shift == 63 && is_signed && byte == 1) return false;
        *n |= (uint64_t)(byte & 127) << shift;
        if (byte < 128) {
            if (is_signed && byte & 64 && shift < 57) *n |= ~(uint64_t)0 << (shift + 7);
            return true;
        }
    }
}

/* Returns whether a segment was set and holds a whole pointer. All sums have 64 bits. */
static bool lies(const given *g, const opcodes *o, uint64_t p, gm_segment *s) {
    if (!o->has_segment || !o->kind || o->kind > 3 || gm_segments(OF, o->segment, s, 1) != 1) return false;
    return o->offset <= s->vmsize && p <= s->vmsize - o->offset && s->vmaddr + o->offset >= s->vmaddr;
}

/* Returns the number in so many bytes of a segment's memory: its data, and zeros after them. */
static uint64_t in_memory(const given *g, const gm_segment *s, uint64_t offset, uint64_t width) {
    uint64_t n = 0;
    for (uint64_t i = 0; i < width; i++) {
        uint64_t byte = offset + i < s->data_len ? g->bytes[s->fileoff + offset + i] : 0;
        n |= byte << 8 * (g->image.is_little_endian ? i : width - 1 - i);
    }
    return n;
}

static bool next_rebase(const given *g, gm_rebase_cursor *at, gm_rebase *r) {
    uint64_t count;
    if (gm_rebases(OF, at, r, 1, &count, NULL, NULL)) DIE("rebases of an image that opened");
    return count == 1;
}

/* Checks that the end follows, or a fault of this code (of any code for UINT32_MAX) and then the end. */
static void ends_rebases(const given *g, gm_rebase_cursor *at, uint32_t code) {
    gm_rebase r, none = {0};
    if (code) {
        if (!next_rebase(g, at, &r) || !r.code || (code != UINT32_MAX && r.code != code)) DIE("rebases that go on behind a fault");
        none.code = r.code;
        if (memcmp(&r, &none, sizeof r)) DIE("a fault of rebases with numbers");
    }
    if (next_rebase(g, at, &r)) DIE("too many rebases");
}

/* Returns whether there is a rebase with the current settings. If not, a fault follows. */
static bool is_rebased(const given *g, const opcodes *o, uint64_t p, gm_rebase_cursor *at) {
    gm_segment s;
    gm_rebase r;
    if (!lies(g, o, p, &s)) return false;
    gm_rebase wanted = {s.vmaddr + o->offset, o->offset, in_memory(g, &s, o->offset, o->kind == 1 ? p : 4), o->segment, o->kind, 0, 0, 0, 0, 0, 0};
    if (!next_rebase(g, at, &r) || memcmp(&r, &wanted, sizeof r)) DIE("another rebase than at %" PRIx64, wanted.address);
    return true;
}

/* Executes an opcode of rebases. Fills in how many come, and how far it advances after each. Returns false if it can't be read. */
static bool rebase_opcode(const given *g, opcodes *o, uint64_t p, uint64_t *count, uint64_t *stride) {
    uint64_t n = 0, skip = 0;
    if (!has_byte(g, o)) return false;
    uint8_t byte = g->bytes[o->at++], imm = byte & 15;
    *count = 0;
    switch (byte >> 4) {
    case 0: o->at = o->upto; return true;
    case 1: o->kind = imm; return true;
    case 2:
        if (!leb(g, o, false, &n)) return false;
        o->segment = imm, o->offset = n, o->has_segment = true;
        return true;
    case 3:
        if (!leb(g, o, false, &n)) return false;
        o->offset += n;
        return true;
    case 4: o->offset += imm * p; return true;
    case 5: *count = imm, *stride = p; return true;
    case 6: *stride = p; return leb(g, o, false, count);
    case 7: *count = 1; break;
    case 8:
        if (!leb(g, o, false, count)) return false;
        break;
    default: return false;
    }
    if (!leb(g, o, false, &skip)) return false;
    *stride = skip + p;
    return true;
}

static void rebases_by_bytes(const given *g) {
    opcodes o = opcodes_of(g, 8);
    gm_rebase_cursor at = {0};
    gm_fixup_cursor chains = {0};
    uint64_t p = g->image.is_64 ? 8 : 4, count, stride = 0;
    uint64_t told = 0, n;
    while (o.at < o.upto) {
        if (!rebase_opcode(g, &o, p, &count, &stride)) return ends_rebases(g, &at, UINT32_MAX);
        for (uint64_t k = 0; k < count; k++, o.offset += stride) {
            if (told++ == LIMIT) return;
            if (!is_rebased(g, &o, p, &at)) return ends_rebases(g, &at, GM_MALFORMED);
        }
    }
    gm_fixup f;
    gm_rebase r;
    while (!gm_fixups(OF, &chains, &f, 1, &n, NULL, NULL) && n && told++ < LIMIT) {
        if (f.code) return ends_rebases(g, &at, f.code);
        if (f.kind != GM_REBASE) continue;
        gm_rebase wanted = {f.address, f.offset, f.target, f.segment, GM_REBASE_POINTER, f.is_signed, f.key, f.diversity, f.is_address_diverse, 0, 0};
        if (!next_rebase(g, &at, &r) || memcmp(&r, &wanted, sizeof r)) DIE("another rebase of the chains than at %" PRIx64, f.address);
    }
    if (told < LIMIT) ends_rebases(g, &at, GM_OK);
}

static bool next_weak(const given *g, gm_bind_cursor *at, gm_weak_bind *w) {
    uint64_t count;
    if (gm_weak_binds(OF, at, w, 1, &count, NULL, NULL)) DIE("weak binds of an image that opened");
    return count == 1;
}

/* Checks that the end follows, or a fault and then the end. */
static void ends_weak(const given *g, gm_bind_cursor *at, bool is_fault) {
    gm_weak_bind w, none = {0};
    if (is_fault) {
        if (!next_weak(g, at, &w) || !w.code) DIE("weak binds that go on behind a fault");
        none.code = w.code;
        if (memcmp(&w, &none, sizeof w)) DIE("a fault of weak binds with numbers");
    }
    if (next_weak(g, at, &w)) DIE("too many weak binds");
}

/* Reads the name after an opcode, up to its zero byte. If the bytes may not be UTF-8, the library decides. */
static bool weak_name(const given *g, opcodes *o, uint32_t flags, gm_bind_cursor *at) {
    bool plain = true;
    uint64_t name = o->at;
    for (; has_byte(g, o) && g->bytes[o->at]; o->at++) plain = plain && g->bytes[o->at] < 128;
    if (!has_byte(g, o)) return false;
    gm_bind_cursor again = *at;
    gm_weak_bind w;
    if (!plain && next_weak(g, &again, &w) && w.code) return false;
    o->name = name, o->name_len = o->at++ - name, o->flags = flags, o->has_name = true;
    if (!(flags & 8)) return true;
    gm_weak_bind wanted = {0, 0, 0, o->name_len ? name : 0, o->name_len, 1, 0, 0, 0};
    if (!next_weak(g, at, &w) || memcmp(&w, &wanted, sizeof w)) DIE("another name than at %" PRIx64, name);
    return true;
}

static bool is_weakly_bound(const given *g, const opcodes *o, uint64_t p, gm_bind_cursor *at) {
    gm_segment s;
    gm_weak_bind w;
    if (!o->has_name || !lies(g, o, p, &s) || s.fileoff + o->offset < s.fileoff) return false;
    gm_weak_bind wanted = {s.vmaddr + o->offset, s.fileoff + o->offset, o->addend, o->name_len ? o->name : 0, o->name_len, 0, o->flags & 1, 0, 0};
    if (!next_weak(g, at, &w) || memcmp(&w, &wanted, sizeof w)) DIE("another weak bind than at %" PRIx64, wanted.address);
    return true;
}

/* Executes an opcode of weak binds. Returns false if it can't be read. */
static bool weak_opcode(const given *g, opcodes *o, uint64_t p, uint64_t *count, uint64_t *stride, gm_bind_cursor *at) {
    uint64_t n = 0;
    if (!has_byte(g, o)) return false;
    uint8_t byte = g->bytes[o->at++], imm = byte & 15;
    *count = 0;
    switch (byte >> 4) {
    case 0: o->at = o->upto; return true;
    case 4: return weak_name(g, o, imm, at);
    case 5: o->kind = imm; return true;
    case 6:
        if (!leb(g, o, true, &n)) return false;
        memcpy(&o->addend, &n, 8);
        return true;
    case 7:
        if (!leb(g, o, false, &n)) return false;
        o->segment = imm, o->offset = n, o->has_segment = true;
        return true;
    case 8:
        if (!leb(g, o, false, &n)) return false;
        o->offset += n;
        return true;
    case 9: *count = 1, *stride = p; return true;
    case 10: *count = 1; break;
    case 11: *count = 1, *stride = imm * p + p; return true;
    case 12:
        if (!leb(g, o, false, count)) return false;
        break;
    default: return false;
    }
    if (!leb(g, o, false, &n)) return false;
    *stride = n + p;
    return true;
}

static void weak_binds_by_bytes(const given *g) {
    opcodes o = opcodes_of(g, 24);
    gm_bind_cursor at = {0};
    uint64_t p = g->image.is_64 ? 8 : 4, count, stride = 0;
    uint64_t told = 0;
    while (o.at < o.upto) {
        if (told++ == LIMIT) return;
        if (!weak_opcode(g, &o, p, &count, &stride, &at)) return ends_weak(g, &at, true);
        for (uint64_t k = 0; k < count; k++, o.offset += stride) {
            if (told++ == LIMIT) return;
            if (!is_weakly_bound(g, &o, p, &at)) return ends_weak(g, &at, true);
        }
    }
    ends_weak(g, &at, false);
}

static void data_by_bytes(const given *g) {
    gm_command c = last_command(g, GM_LC_DATA_IN_CODE);
    uint64_t at = c.size ? word_at(g, g->bytes + c.offset + 8) : 0, n = c.size ? word_at(g, g->bytes + c.offset + 12) / 8 : 0;
    gm_data_in_code_entry r;
    for (uint64_t k = 0; k < n && k < LIMIT; k++) {
        if (gm_data_in_code(OF, k, &r, 1) != 1) DIE("too few data among code");
        if ((r.code == GM_OK) != stand(g, at + 8 * k, 8)) DIE("data among code that stand elsewhere");
        if ((k < gm_in_bounds(g->len, at, 8, n)) != (at + 8 * k < g->len)) DIE("data among code that begin elsewhere");
        if (r.code ? r.offset || r.length || r.kind : r.offset != word_at(g, g->bytes + at + 8 * k)) DIE("other data among code");
        const uint8_t *e = g->bytes + at + 8 * k + 4;
        uint32_t both = g->image.is_little_endian ? r.length | (uint32_t)r.kind << 16 : r.kind | (uint32_t)r.length << 16;
        if (!r.code && both != word_at(g, e)) DIE("data among code of another length or kind");
    }
    if (gm_data_in_code(OF, n, &r, 1)) DIE("too many data among code");
}

static void indirect_by_bytes(const given *g) {
    gm_command c = last_command(g, GM_LC_DYSYMTAB);
    uint64_t at = c.size ? word_at(g, g->bytes + c.offset + 56) : 0, n = c.size ? word_at(g, g->bytes + c.offset + 60) : 0;
    gm_indirect_symbol r;
    for (uint64_t k = 0; k < n && k < LIMIT; k++) {
        if (gm_indirect_symbols(OF, k, &r, 1) != 1) DIE("too few indirect symbols");
        if ((r.code == GM_OK) != stand(g, at + 4 * k, 4)) DIE("indirect symbols that stand elsewhere");
        if ((k < gm_in_bounds(g->len, at, 4, n)) != (at + 4 * k < g->len)) DIE("indirect symbols that begin elsewhere");
        uint32_t word = r.code ? 0 : word_at(g, g->bytes + at + 4 * k);
        uint32_t kind = word == 0x80000000 ? GM_INDIRECT_LOCAL : word == 0x40000000 ? GM_INDIRECT_ABSOLUTE
            : word == 0xc0000000 ? GM_INDIRECT_LOCAL_ABSOLUTE : GM_INDIRECT_SYMBOL;
        if (r.kind != kind || r.symbol != (kind == GM_INDIRECT_SYMBOL ? word : 0)) DIE("another indirect symbol");
    }
    if (gm_indirect_symbols(OF, n, &r, 1)) DIE("too many indirect symbols");
}

/* Checks options, tools and notes, command by command. Options and tools end with the first fault. */
static void lists_by_bytes(const given *g) {
    uint64_t options = 0, tools = 0, notes = 0;
    bool options_end = false, tools_end = false;
    gm_command c;
    for (uint64_t i = 0; gm_commands(OF, i, &c, 1); i++) {
        const uint8_t *at = g->bytes + c.offset;
        uint64_t end = c.offset + c.size < g->len ? c.offset + c.size : g->len;
        if (c.cmd == GM_LC_LINKER_OPTION) {
            uint64_t text = c.offset + 12;
            for (uint32_t k = 0; k < word_at(g, at + 8) && !options_end; k++) {
                gm_linker_option r;
                if (gm_linker_options(OF, options++, &r, 1) != 1) DIE("too few options");
                uint64_t size = text < end ? strnlen((const char *)g->bytes + text, end - text) : 0;
                options_end = r.code != GM_OK;
                if (!options_end && (text + size >= end || r.command != c.offset || r.text != text || r.text_len != size)) DIE("another option");
                if (options_end && (r.command || r.text || r.text_len)) DIE("an option that can't be read, and is told");
                text += size + 1;
            }
        }
        if (c.cmd == GM_LC_BUILD_VERSION)
            for (uint64_t k = 0; k < word_at(g, at + 20) && !tools_end; k++) {
                gm_build_tool r;
                if (gm_build_tools(OF, tools++, &r, 1) != 1) DIE("too few tools");
                tools_end = 24 + 8 * k + 8 > c.size || !stand(g, c.offset + 24 + 8 * k, 8);
                if (tools_end != (r.code != GM_OK)) DIE("a tool that lies elsewhere");
                if (!tools_end && (r.command != c.offset || r.tool != word_at(g, at + 24 + 8 * k) || r.version != word_at(g, at + 28 + 8 * k)))
                    DIE("another tool");
            }
        if (c.cmd == GM_LC_NOTE) {
            gm_note r;
            if (gm_notes(OF, notes++, &r, 1) != 1 || r.command != c.offset) DIE("too few notes");
            if (r.code == GM_OK && (r.owner != c.offset + 8 || r.owner_len != strnlen((const char *)at + 8, 16))) DIE("another owner of a note");
            if (r.code == GM_OK && r.size && !stand(g, r.place, r.size)) DIE("a note that lies elsewhere");
        }
    }
    gm_linker_option o;
    gm_build_tool t;
    gm_note n;
    if (gm_linker_options(OF, options, &o, 1) || gm_build_tools(OF, tools, &t, 1) || gm_notes(OF, notes, &n, 1)) DIE("too many options, tools or notes");
}

/* Checks a slot of a section, for entry k of the indirect symbols. Returns false if the section ends with it. */
static bool slot_by_bytes(const given *g, const gm_slot *r, uint64_t address, uint64_t len, uint64_t k, uint32_t kind) {
    gm_indirect_symbol entry;
    if (gm_indirect_symbols(OF, k, &entry, 1) != 1 || entry.code || address < len) {
        if (r->code == GM_OK || r->address || r->kind) DIE("a slot of no entry");
        return false;
    }
    gm_symbol symbol;
    bool named = entry.kind == GM_INDIRECT_SYMBOL;
    if (named && (gm_symbols(OF, entry.symbol, &symbol, 1) != 1 || symbol.code)) {
        if (r->code == GM_OK || r->address || r->kind) DIE("a slot of no symbol");
        return true;
    }
    if (r->code || r->address != address - len || r->len != len || r->kind != kind || r->index != k || r->owner != entry.kind) DIE("another slot");
    if (named ? r->symbol != entry.symbol || r->name != symbol.name || r->name_len != symbol.name_len : r->symbol || r->name || r->name_len)
        DIE("a slot of another symbol");
    return true;
}

static void slots_by_bytes(const given *g) {
    static gm_slot rows[LIMIT];
    uint64_t many = slots(g, 0, rows, LIMIT), n = 0, width = g->image.is_64 ? 80 : 68;
    bool has_table = last_command(g, GM_LC_DYSYMTAB).size;
    gm_segment segment;
    gm_section s;
    for (uint64_t i = 0; has_table && gm_segments(OF, i, &segment, 1); i++)
        for (uint64_t k = 0; n < many && gm_sections(OF, segment.command, segment.sections, k, &s, 1); k++) {
            const uint8_t *record = g->bytes + segment.command + (g->image.is_64 ? 72 : 56) + k * width;
            if (!stand(g, (uint64_t)(record - g->bytes), width)) { if (!rows[n++].code) DIE("a slot of no section"); continue; }
            uint32_t type = word_at(g, record + (g->image.is_64 ? 64 : 56)) & 0xff;
            uint32_t first = word_at(g, record + (g->image.is_64 ? 68 : 60)), stub = word_at(g, record + (g->image.is_64 ? 72 : 64));
            uint32_t kind = type == GM_S_NON_LAZY_SYMBOL_POINTERS ? GM_SLOT_POINTER : type == GM_S_LAZY_SYMBOL_POINTERS ? GM_SLOT_LAZY_POINTER
                : type == GM_S_SYMBOL_STUBS ? GM_SLOT_STUB : type == GM_S_LAZY_DYLIB_SYMBOL_POINTERS ? GM_SLOT_LAZY_LIBRARY_POINTER
                : type == GM_S_THREAD_LOCAL_VARIABLE_POINTERS ? GM_SLOT_THREAD_LOCAL_POINTER : GM_NO_SLOT;
            uint64_t len = kind == GM_SLOT_STUB ? stub : g->image.is_64 ? 8 : 4;
            uint64_t size = g->image.is_64 ? word_at(g, record + 40) | (uint64_t)word_at(g, record + 44) << 32 : word_at(g, record + 36);
            if (g->image.is_64 && s.code == GM_OK) size = s.size;
            if (!kind || !size) continue;
            if (!len) { if (rows[n++].code != GM_MALFORMED) DIE("a stub of no size"); continue; }
            uint64_t addr = s.code == GM_OK ? s.addr : 0;
            for (uint64_t j = 0; s.code == GM_OK && j < size / len && n < many; j++) {
                if (rows[n].code == GM_OK && (rows[n].segment != i || rows[n].section_index != k)) DIE("a slot of another section");
                if (!slot_by_bytes(g, &rows[n++], addr + (j + 1) * len, len, (uint64_t)first + j, kind)) break;
            }
            if (s.code != GM_OK) return; /* (the library's own tests cover the rows of sections that lie partly in the file) */
        }
    if (n != many) DIE("%" PRIu64 " slots, and not %" PRIu64, many, n);
    for (n = 0; n < many; n++) {
        gm_slot again;
        gm_found_section in;
        gm_error e;
        if (rows[n].code) continue;
        uint64_t within = rows[n].address + rows[n].len - 1;
        if (gm_section_at(OF, within, &in, NULL, &e) || !in.is_found) DIE("a slot in no section");
        if (in.segment != rows[n].segment || in.index != rows[n].section_index) continue;
        if (gm_slot_at(OF, within, &again, NULL, &e) || memcmp(&again, &rows[n], sizeof again)) DIE("another slot of an address");
    }
}

/* Checks sections by their number and by an address, also numbers out of range; and the providers of all symbols. */
static void finds_by_bytes(const given *g) {
    gm_segment segment;
    gm_section s;
    gm_symbol symbol;
    gm_found_section found;
    gm_provider p;
    gm_error e;
    uint64_t number = 1;
    for (uint64_t i = 0; gm_segments(OF, i, &segment, 1); i++)
        for (uint64_t k = 0; k < LIMIT && gm_sections(OF, segment.command, segment.sections, k, &s, 1); k++, number++) {
            uint32_t code = gm_section_of(OF, number, &found, NULL, &e);
            if (code ? code != e.code : !found.is_found || found.segment != i || found.index != k || found.number != number) DIE("section %" PRIu64, number);
            if (code || s.code) continue;
            if (memcmp(found.name, s.name, 16) || memcmp(found.segment_name, s.segment, 16) || found.addr != s.addr || found.size != s.size
                || found.offset != s.offset || found.align != s.align || found.reloff != s.reloff || found.nreloc != s.nreloc || found.flags != s.flags)
                DIE("section %" PRIu64 " has other numbers", number);
            if (!s.size || s.addr + s.size < s.addr) continue;
            if (gm_section_at(OF, s.addr, &found, NULL, &e) || !found.is_found || found.addr > s.addr || s.addr - found.addr >= found.size)
                DIE("section %" PRIu64 " isn't found by its address", number);
        }
    gm_found_section none;
    if (gm_section_of(OF, 0, &none, NULL, &e) || none.is_found) DIE("section 0");
    if (gm_section_of(OF, UINT64_MAX, &none, NULL, &e) || none.is_found) DIE("a section past the last");
    for (uint64_t i = 0; i < LIMIT && gm_symbols(OF, i, &symbol, 1); i++) {
        gm_symbol_provider(&g->image, &symbol, &p);
        uint32_t type = symbol.n_type & GM_N_TYPE, ordinal = symbol.desc >> 8;
        bool told = g->image.flags & GM_MH_TWOLEVEL && !(symbol.n_type & GM_N_STAB) && ((type == GM_N_UNDF && !symbol.value) || type == GM_N_PBUD);
        uint32_t by = ordinal == GM_SELF_LIBRARY_ORDINAL ? GM_OF_ITSELF : ordinal == GM_DYNAMIC_LOOKUP_ORDINAL ? GM_OF_ANY
            : ordinal == GM_EXECUTABLE_ORDINAL ? GM_OF_PROGRAM : GM_OF_LIBRARY;
        bool past = by == GM_OF_LIBRARY && ordinal > g->image.libraries;
        gm_provider wanted = {told && by == GM_OF_LIBRARY && !past ? ordinal : 0, told ? by : 0, told, told && past ? GM_MALFORMED : GM_OK, 0};
        if (memcmp(&p, &wanted, sizeof p)) DIE("symbol %" PRIu64 " is given by another", i);
    }
}

/* Reads the strings of some bytes, and compares them with those of the library. */
static void strings_by_bytes(const uint8_t *bytes, uint64_t len) {
    static gm_span rows[LIMIT];
    gm_span last;
    uint64_t count = gm_strings(bytes, len, 0, rows, LIMIT), place = 0;
    for (uint64_t k = 0; k < count; k++) {
        const uint8_t *zero = place < len ? memchr(bytes + place, 0, len - place) : NULL;
        uint64_t size = zero ? (uint64_t)(zero - (bytes + place)) : len - place;
        if (place >= len || rows[k].place != place || rows[k].len != size) DIE("another string %" PRIu64, k);
        place += size + 1;
    }
    if (count < LIMIT && place < len) DIE("strings are left out");
    if (count && (gm_strings(bytes, len, count - 1, &last, 1) != 1 || memcmp(&last, &rows[count - 1], sizeof last))) DIE("another last string");
    if (count < LIMIT && gm_strings(bytes, len, count, &last, 1)) DIE("a string after the last");
}

/* Compares the bytes of each section with those that its row gives, and reads its strings. */
static void contents_by_bytes(const given *g) {
    static gm_numbered_section rows[LIMIT];
    uint64_t n = gm_all_sections(OF, 0, rows, LIMIT);
    gm_error e;
    for (uint64_t i = 0; i < n && !rows[i].section.code; i++) {
        const gm_section *s = &rows[i].section;
        gm_span held = {7, 7};
        uint32_t code = gm_section_data(g->bytes, g->len, s->offset, s->size, s->flags, &held, &e);
        if (code ? s->data_len || held.place != 7 || held.len != 7 || code != e.code : held.len != s->data_len || (held.len && held.place != s->offset))
            DIE("other bytes of section %" PRIu64, i);
        if (!code) strings_by_bytes(g->bytes + held.place, held.len);
    }
}

static void check_tables(const given *g) {
    static const char *const names[] = {"weak_binds", "rebases", "function_starts", "data_in_code", "indirect_symbols", "slots", "initializers",
        "linker_options", "build_tools",
                                        "notes", "all_sections", "build_versions", "dyld_environment", "fileset_entries"};
    for (uint64_t i = 0; i < sizeof names / sizeof *names; i++) same_in_batches(named(names[i]), g);
    weak_binds_refused(g);
    rebases_refused(g);
    function_starts_refused(g);
    weak_binds_by_bytes(g);
    rebases_by_bytes(g);
    starts_by_bytes(g);
    data_by_bytes(g);
    indirect_by_bytes(g);
    lists_by_bytes(g);
    slots_by_bytes(g);
    finds_by_bytes(g);
    contents_by_bytes(g);
}

static void check(const uint8_t *bytes, uint64_t len) {
    given g = {.bytes = bytes, .len = len};
    same_in_batches(named("entries"), &g);
    same_in_batches(named("table"), &g);
    tells(told_of_table, &g);
    audits(&g);
    for (uint32_t mode = GM_STRICT; mode <= GM_LOSSY; mode++) {
        if (opens(&g, mode)) continue;
        char *all = lines(&lists[0], &g, LIMIT);
        uint64_t count = 0;
        for (char *c = all; *c; c++) count += *c == '\n';
        free(all);
        if (count != g.image.commands) DIE("%" PRIu64 " commands of %" PRIu64, count, g.image.commands);
        counts(&g);
        for (int i = 0; i < 8; i++) same_in_batches(&lists[i], &g);
        check_parts(&g);
        same_in_batches(named("layout"), &g);
        same_in_batches(named("ids"), &g);
        same_in_batches(named("signature"), &g);
        same_in_batches(named("signature_faults"), &g);
        same_in_batches(named("security"), &g);
        says(&g);
        check_tables(&g);
        check_exports(&g);
        fixups_refused(&g);
        opcode_imports_refused(&g);
        bindings_refused(&g);
        tells(told_of_image, &g);
        lies_behind(&g);
        finds(&g, NULL, 0);
        finds(&g, "a", 1);
        finds(&g, "\xff", 1);
    }
}

/* ---- constants and names: they match what the calls return for a file */

#if GM_MH_MAGIC_64 != 0xfeedfacf || GM_N_EXT != 1 || GM_EXPORT_SYMBOL_FLAGS_REEXPORT != 8 || GM_VERSION_NUMBER < 2000
#error "a constant that the preprocessor reads otherwise"
#endif

static uint64_t named_numbers;
static void has_name(const char *name, const char *of, uint32_t number) {
    if (!name) DIE("%s 0x%x has no name", of, number);
    named_numbers++;
}

/* Returns the kind of the library that a command loads, or -1. */
static int kind_of(uint32_t cmd) {
    switch (cmd) {
    case GM_LC_LOAD_DYLIB: return GM_REQUIRED;
    case GM_LC_LOAD_WEAK_DYLIB: return GM_WEAK;
    case GM_LC_REEXPORT_DYLIB: return GM_REEXPORT;
    case GM_LC_LOAD_UPWARD_DYLIB: return GM_UPWARD;
    case GM_LC_LAZY_LOAD_DYLIB: return GM_LAZY;
    default: return -1;
    }
}

/* Returns how the library of a command is used. A struct dylib_use_command says it by its four bytes at 24, and another command by its number. */
static uint32_t used_by(const given *g, const gm_command *c) {
    const uint8_t *at = g->bytes + c->offset;
    int may = (c->cmd == GM_LC_LOAD_DYLIB || c->cmd == GM_LC_LOAD_WEAK_DYLIB) && c->size >= 28;
    if (may && word_at(g, at + 8) == 28 && word_at(g, at + 12) == 0x1a741800) return word_at(g, at + 24) & 15;
    switch (c->cmd) {
    case GM_LC_LOAD_WEAK_DYLIB: return GM_USED_WEAK;
    case GM_LC_REEXPORT_DYLIB: return GM_USED_REEXPORT;
    case GM_LC_LOAD_UPWARD_DYLIB: return GM_USED_UPWARD;
    default: return 0;
    }
}

static void constants_of_commands(const given *g) {
    uint64_t segments = 0, libraries = 0, run_paths = 0;
    gm_command c;
    gm_library l;
    for (uint64_t i = 0; gm_commands(OF, i, &c, 1); i++) {
        has_name(gm_command_name(c.cmd), "command", c.cmd);
        segments += c.cmd == (g->image.is_64 ? GM_LC_SEGMENT_64 : GM_LC_SEGMENT);
        run_paths += c.cmd == GM_LC_RPATH;
        int kind = kind_of(c.cmd);
        if (kind >= 0 && (gm_libraries(OF, libraries++, &l, 1) != 1 || l.kind != (uint32_t)kind)) DIE("command %" PRIu64 " isn't of library %" PRIu64, i,
            libraries);
        if (kind >= 0 && l.attributes != used_by(g, &c)) DIE("library %" PRIu64 " is used in another way", libraries);
    }
    if (segments != g->image.segments || libraries != g->image.libraries || run_paths != g->image.run_paths) DIE("commands of other numbers than the lists");
}

static void constants_of_segments(const given *g) {
    const uint32_t rights = GM_VM_PROT_READ | GM_VM_PROT_WRITE | GM_VM_PROT_EXECUTE;
    gm_segment segment;
    gm_section section;
    gm_relocation relocation;
    for (uint64_t i = 0; gm_segments(OF, i, &segment, 1); i++) {
        if ((segment.maxprot | segment.initprot) & ~rights || segment.flags > (GM_SG_READ_ONLY << 1) - 1) DIE("segment %" PRIu64 " has bits of no name", i);
        for (uint64_t k = 0; gm_sections(OF, segment.command, segment.sections, k, &section, 1); k++) {
            uint32_t type = section.flags & GM_SECTION_TYPE;
            if (type > GM_S_INIT_FUNC_OFFSETS) DIE("section %" PRIu64 " has a type of no name", k);
            bool is_zeros = type == GM_S_ZEROFILL || type == GM_S_GB_ZEROFILL || type == GM_S_THREAD_LOCAL_ZEROFILL;
            if (is_zeros && section.data_len) DIE("zeros of section %" PRIu64 " in the file", k);
            for (uint64_t n = 0; gm_relocations(OF, section.reloff, section.nreloc, n, &relocation, 1); n++)
                has_name(gm_relocation_name(g->image.cputype, relocation.info >> 28), "relocation", relocation.info);
        }
    }
}

static void constants_of_symbols(const given *g) {
    gm_symbol s;
    for (uint64_t i = 0; gm_symbols(OF, i, &s, 1); i++) {
        if (s.n_type & GM_N_STAB) continue; /* (not all numbers of a debugger's entries have names) */
        has_name(gm_symbol_type_name(s.n_type), "symbol type", s.n_type);
        if ((s.n_type & GM_N_TYPE) == GM_N_SECT && s.section == GM_NO_SECT) DIE("symbol %" PRIu64 " of no section", i);
    }
}

static void constants_of_exports(const given *g) {
    gm_export_walk walk = {0};
    gm_export_room r = room_of(4096, LIMIT);
    gm_export_batch b;
    if (!export_batch(g, &walk, &r, &b, NULL) && b.end != GM_END) DIE("exports that don't fit");
    for (uint64_t i = 0; i < b.count; i++, named_numbers++) {
        const gm_export *x = &r.out[i].what;
        uint32_t kind = GM_ADDRESS;
        if (x->flags & GM_EXPORT_SYMBOL_FLAGS_REEXPORT) kind = GM_REEXPORTED;
        else if (x->flags & GM_EXPORT_SYMBOL_FLAGS_STUB_AND_RESOLVER) kind = GM_STUB;
        if (x->kind != kind) DIE("export %" PRIu64 " is of kind %u by its flags", i, kind);
    }
    give_room(&r);
}

static void check_constants(const uint8_t *bytes, uint64_t len) {
    given held = {.bytes = bytes, .len = len}, *g = &held;
    gm_error e;
    if (gm_open(bytes, len, 0, GM_STRICT, NULL, &g->image, &e)) DIE("%s", e.text);
    const gm_image *image = &g->image;
    if (image->magic != (image->is_64 ? GM_MH_MAGIC_64 : GM_MH_MAGIC)) DIE("magic 0x%x", image->magic);
    has_name(gm_cpu_name(image->cputype, image->cpusubtype), "cpu", image->cputype);
    has_name(gm_file_type_name(image->filetype), "file type", image->filetype);
    for (uint32_t flags = image->flags; flags; flags &= flags - 1) has_name(gm_header_flag_name(flags & ~(flags - 1)), "flag of", flags);
    constants_of_commands(g);
    constants_of_segments(g);
    constants_of_symbols(g);
    constants_of_exports(g);
}

/* Prints a line for each entry for a debugger: its type, and the type's name without N_, or the type again. */
static void print_debugger_entries(const given *g) {
    gm_symbol s;
    for (uint64_t i = 0; gm_symbols(OF, i, &s, 1); i++) {
        if (!(s.n_type & GM_N_STAB)) continue;
        const char *name = gm_symbol_type_name(s.n_type);
        if (name) printf("%02x %s\n", s.n_type, name + strlen("N_"));
        else printf("%02x %02x\n", s.n_type, s.n_type);
    }
}

/* Checks names of some numbers, that others have none, and the version. */
static void check_names(void) {
    const struct { const char *found, *wanted; } rows[] = {
        {gm_code_name(GM_OK), "ok"}, {gm_code_name(GM_NO_ROWS), "no rows"}, {gm_code_name(GM_NO_SPACE), "no space"},
        {gm_code_name(GM_NO_IMAGE), "no image for the cpu"}, {gm_code_name(GM_NO_IMAGE + 1), NULL},
        {gm_kind_name(gm_kind(NULL, 0)), "an empty file"}, {gm_kind_name(GM_KIND_FAT_64), "a fat file of 64 bits"}, {gm_kind_name(GM_KIND_UNKNOWN), NULL},
        {gm_kind_name(GM_KIND_TEXT), "a text file"}, {gm_kind_name(GM_KIND_TEXT + 1), NULL}, {gm_code_name(UINT32_MAX), NULL},
        {gm_verdict_name(GM_VERDICT_PIE), "pie"}, {gm_verdict_meaning(GM_VERDICT_PIE), "loaded at a random address"}, {gm_verdict_name(0), NULL},
        {gm_verdict_name(GM_VERDICT_GET_TASK_ALLOW + 1), NULL}, {gm_verdict_meaning(UINT32_MAX), NULL},
        {gm_cpu_name(GM_CPU_TYPE_ARM64, GM_CPU_SUBTYPE_ARM64E | UINT32_C(0x80000000)), "arm64e"}, {gm_cpu_name(GM_CPU_TYPE_ARM64, 1), NULL},
        {gm_cpu_name(GM_CPU_TYPE_X86_64, GM_CPU_SUBTYPE_X86_64_H), "x86_64h"}, {gm_cpu_name(GM_CPU_TYPE_ARM, GM_CPU_SUBTYPE_ARM_V7S), "armv7s"},
        {gm_cpu_name(GM_CPU_TYPE_POWERPC64, 0), "ppc64"}, {gm_cpu_name(GM_CPU_ARCH_ABI64, 0), NULL}, {gm_cpu_name(0, 0), NULL},
        {gm_file_type_name(GM_MH_EXECUTE), "EXECUTE"}, {gm_file_type_name(0), NULL}, {gm_file_type_name(GM_MH_GPU_DYLIB + 1), NULL},
        {gm_header_flag_name(GM_MH_PIE), "MH_PIE"}, {gm_header_flag_name(GM_MH_DYLIB_IN_CACHE), "MH_DYLIB_IN_CACHE"}, {gm_header_flag_name(3), NULL},
        {gm_command_name(GM_LC_MAIN), "LC_MAIN"}, {gm_command_name(GM_LC_REQ_DYLD), NULL}, {gm_command_name(GM_LC_MAIN ^ GM_LC_REQ_DYLD), NULL},
        {gm_command_name(GM_LC_ATOM_INFO), "LC_ATOM_INFO"}, {gm_command_name(GM_LC_TARGET_TRIPLE + 1), NULL},
        {gm_symbol_type_name(GM_N_SECT | GM_N_EXT), "N_SECT"}, {gm_symbol_type_name(GM_N_FUN), "N_FUN"}, {gm_symbol_type_name(GM_N_EXT), "N_UNDF"},
        {gm_symbol_type_name(4), NULL}, {gm_symbol_type_name(0x21), NULL},
        {gm_relocation_name(GM_CPU_TYPE_ARM64_32, GM_ARM64_RELOC_ADDEND), "ARM64_RELOC_ADDEND"},
        {gm_relocation_name(GM_CPU_TYPE_X86, GM_GENERIC_RELOC_VANILLA), "GENERIC_RELOC_VANILLA"},
        {gm_relocation_name(GM_CPU_TYPE_X86_64, 10), NULL}, {gm_relocation_name(GM_CPU_TYPE_POWERPC, 0), NULL},
        {gm_platform_name(GM_PLATFORM_MACOS), "MACOS"}, {gm_platform_name(0), NULL}, {gm_platform_name(GM_PLATFORM_VISIONOSSIMULATOR + 1), NULL}};
    for (uint64_t n = 0; n < sizeof rows / sizeof *rows; n++) {
        const char *found = rows[n].found ? rows[n].found : "(none)", *wanted = rows[n].wanted ? rows[n].wanted : "(none)";
        if (strcmp(found, wanted)) DIE("name %" PRIu64 " is '%s', and not '%s'", n, found, wanted);
    }
    char text[32];
    snprintf(text, sizeof text, "%d.%d.%d", GM_VERSION_MAJOR, GM_VERSION_MINOR, GM_VERSION_PATCH);
    if (strcmp(gm_version(), GM_VERSION_TEXT) || strcmp(text, GM_VERSION_TEXT)) DIE("versions %s, %s and %s", text, GM_VERSION_TEXT, gm_version());
    if (gm_version_number() != GM_VERSION_NUMBER || !GM_VERSION_FITS()) DIE("versions %u and %u", GM_VERSION_NUMBER, gm_version_number());
}

static uint64_t seed = 88172645463325252u;
static uint64_t chance(void) { seed ^= seed << 13; seed ^= seed >> 7; seed ^= seed << 17; return seed; }

/* Returns numbers of all kinds: small ones, ones near the length, ones near the last of 32 and 64 bits. */
static uint64_t made_up(uint64_t len) {
    switch (chance() % 6) {
    case 0: return chance() % 4;
    case 1: return chance() % 256;
    case 2: return len - chance() % 32;
    case 3: return UINT64_MAX - chance() % 64;
    case 4: return UINT32_MAX - chance() % 64;
    default: return chance();
    }
}

/* Puts made-up numbers in some places of a struct. */
static void make_up(void *at, uint64_t size, uint64_t len) {
    for (uint64_t k = 0; k + 4 <= size; k += 4) {
        uint64_t number = made_up(len);
        if (chance() % 3 == 0) memcpy((uint8_t *)at + k, &number, k % 8 || k + 8 > size ? 4 : 8);
    }
}

/* Walks with numbers that may each be made up, as those of the open nodes may be. */
static void damage_walk(const given *g) {
    gm_export_walk walk = {0};
    gm_export_room r = room_of(chance() % 40, chance() % 5);
    gm_export_batch b;
    if (chance() % 2) export_batch(g, &walk, &r, &b, NULL);
    uint64_t *numbers = (uint64_t *)&walk, *nodes = (uint64_t *)r.stack;
    for (uint64_t i = 0; i < 7; i++)
        if (chance() % 3 == 0) numbers[i] = made_up(g->len);
    for (uint64_t i = 0; i < r.stack_cap * 3; i++)
        if (chance() % 4 == 0) nodes[i] = made_up(g->len);
    walk.is_begun = chance() % 8 != 0;
    if (walk.visits_left > 1000) walk.visits_left = chance() % 1000;
    for (int i = 0; i < 3; i++) export_batch(g, &walk, &r, &b, NULL);
    give_room(&r);
}

static FILE *away;

static void damage(const uint8_t *bytes, uint64_t len) {
    given g = {.bytes = bytes, .len = len};
    gm_error e;
    if (chance() % 2) gm_open(bytes, len, 0, GM_LOSSY, NULL, &g.image, &e);
    make_up(&g.image, sizeof g.image, len);
    make_up(&g.segment, sizeof g.segment, len);
    make_up(&g.section, sizeof g.section, len);
    gm_export found;
    char library[4], target[4];
    gm_find_export(bytes, len, &g.image, "a", chance() % 2, &found, library, chance() % 5, target, chance() % 5, NULL, &e);
    damage_walk(&g);
    gm_slot slot;
    gm_found_section section;
    gm_provider provider;
    gm_symbol symbol = {0};
    make_up(&symbol, sizeof symbol, len);
    gm_slot_at(bytes, len, &g.image, made_up(len), &slot, NULL, &e);
    gm_section_at(bytes, len, &g.image, made_up(len), &section, NULL, &e);
    gm_section_of(bytes, len, &g.image, made_up(len), &section, NULL, &e);
    gm_symbol_provider(&g.image, &symbol, &provider);
    gm_found_symbol one;
    gm_found_function function;
    gm_image_uuid uuid;
    gm_encrypted_part part;
    gm_command_text path;
    uint64_t number;
    gm_symbol_at(bytes, len, &g.image, made_up(len), &one, NULL, &e);
    uint64_t order[8];
    for (uint64_t k = 0; k < 8; k++) order[k] = made_up(len);
    gm_symbol_in_map(bytes, len, &g.image, order, 8, made_up(len), &one, NULL, &e);
    gm_symbol_map(bytes, len, &g.image, order, chance() % 9, &number, NULL, &e);
    gm_symbol_named(bytes, len, &g.image, "_a", chance() % 3, &one, NULL, &e);
    gm_symbols_named(bytes, len, &g.image, "_a", chance() % 3, chance() % 2 ? 0 : made_up(len), &one, 1, &number, NULL, &e);
    gm_section_named(bytes, len, &g.image, "__TEXT", chance() % 7, "__text", chance() % 7, &section, NULL, &e);
    gm_function_at(bytes, len, &g.image, made_up(len), &function, NULL, &e);
    gm_segment_named(bytes, len, &g.image, "__TEXT", chance() % 7, &g.segment);
    gm_address_of_offset(bytes, len, &g.image, made_up(len), &number);
    gm_offset_of_address(bytes, len, &g.image, made_up(len), &number);
    gm_uuid(bytes, len, &g.image, &uuid);
    gm_source_version(bytes, len, &g.image, &number);
    gm_encryption(bytes, len, &g.image, &part);
    gm_dylinker(bytes, len, &g.image, &path);
    uint32_t agreement;
    gm_entitlements_agree(bytes, len, &g.image, &agreement, NULL, &e);
    gm_requirement_text(bytes, len, &g.image, chance() % 7, library, chance() % 5, &number, NULL, &e);
    gm_entitlement_item value;
    uint64_t texts_len;
    gm_entitlement_items(bytes, len, &g.image, chance() % 2, &value, chance() % 2, &number, library, chance() % 5, &texts_len, NULL, &e);
    for (uint64_t i = 0; i < LISTS; i++) {
        uint64_t first = chance() % 2 ? 0 : made_up(len), cap = chance() % 5;
        uint8_t *out = malloc(cap * lists[i].size + !cap);
        uint64_t k = lists[i].rows(&g, first, out, cap);
        if (k > cap) DIE("%s: more rows than fit", lists[i].name);
        for (uint64_t n = 0; n < k; n++) lists[i].line(away, &g, out + n * lists[i].size);
        free(out);
    }
}

/* Prints a line for an export of each of these names, as machdump shows it. */
static void print_exports(const given *g, const char *names) {
    for (const char *at = names; *at; at += strcspn(at, ",") + 1) {
        gm_export found;
        gm_error e;
        uint64_t n = strcspn(at, ",");
        if (gm_find_export(OF, at, n, &found, NULL, 0, NULL, 0, NULL, &e)) printf("refused: %s\n", e.text);
        else if (found.kind == GM_ADDRESS) printf("0x%" PRIx64 " %.*s\n", found.offset, (int)n, at);
        if (!at[n]) break;
    }
}

static void print_list(const list *l, const given *g) {
    char *all = lines(l, g, 100);
    fputs(all, stdout);
    free(all);
}

static void print(const char *what, const uint8_t *bytes, uint64_t len) {
    given g = {.bytes = bytes, .len = len};
    gm_error e;
    if (!strcmp(what, "constants")) { check_constants(bytes, len); return; }
    if (gm_open(bytes, len, 0, GM_STRICT, NULL, &g.image, &e)) { printf("refused: %s\n", e.text); return; }
    if (!strncmp(what, "find:", 5)) print_exports(&g, what + 5);
    if (!strcmp(what, "debugger")) print_debugger_entries(&g);
    if (!strcmp(what, "exports") || !strcmp(what, "reexports")) {
        char *all = export_lines(&g, 1000, 1 << 16, !strcmp(what, "reexports"));
        fputs(all, stdout);
        free(all);
    }
    const list *l = named(what);
    if (l) print_list(l, &g);
}

/* Returns exactly the bytes of a file, so that a read past them is detected. */
static uint8_t *read_file(const char *name, uint64_t *len) {
    FILE *f = fopen(name, "rb");
    if (!f) DIE("%s can't be opened", name);
    fseek(f, 0, SEEK_END);
    *len = (uint64_t)ftell(f);
    rewind(f);
    uint8_t *bytes = malloc(*len + !*len);
    if (fread(bytes, 1, *len, f) != *len) DIE("%s can't be read", name);
    fclose(f);
    return bytes;
}

/* Prints each rule, each part and each kind with its number and its plain name. */
static int print_names(void) {
    for (uint32_t n = 1; strcmp(gm_layout_rule(n), "none"); n++) printf("Rule %u %s\n", n, gm_layout_rule(n));
    for (uint32_t n = 1; strcmp(gm_layout_part(n), "none"); n++) printf("Part %u %s\n", n, gm_layout_part(n));
    for (uint32_t n = 1; strcmp(gm_signature_kind(n), "none"); n++) printf("Kind %u %s\n", n, gm_signature_kind(n));
    if (strcmp(gm_signature_kind(GM_SIGNATURE_NONE), "none") || strcmp(gm_signature_kind(UINT32_MAX), "none")) DIE("a number that is none has a name");
    if (strcmp(gm_finding_kind(GM_FINDING_NONE), "none") || strcmp(gm_finding_kind(UINT32_MAX), "none") || strcmp(gm_finding_list(GM_LIST_NONE), "none")
        || strcmp(gm_finding_list(UINT32_MAX), "none")) DIE("a number that is none has a name");
    if (strcmp(gm_layout_rule(GM_LAYOUT_NONE), "none") || strcmp(gm_layout_rule(UINT32_MAX), "none") || strcmp(gm_layout_part(GM_PART_NONE), "none")
        || strcmp(gm_layout_part(UINT32_MAX), "none")) DIE("a number that is none has a name");
    return 0;
}

static void has_words(const gm_error *e, const char *text) {
    if (strcmp(e->text, text)) DIE("'%s', and not '%s'", e->text, text);
}

/* Checks the texts of errors of the bytes. */
static void check_words(void) {
    static const struct { uint8_t bytes[31]; uint32_t code; const char *text; } rows[] = {
        {{0xcf, 0xfa, 0xed, 0xfe}, GM_MALFORMED, "malformed: the file ends in its header"},
        {{0, 0, 0xca, 0xfe}, GM_BAD_MAGIC, "bad magic 0xcafe"},
    };
    for (uint64_t n = 0; n < sizeof rows / sizeof *rows; n++) {
        gm_image image;
        gm_error e;
        memset(&e, 1, sizeof e);
        uint32_t code = gm_open(rows[n].bytes, sizeof rows[n].bytes, 0, GM_STRICT, NULL, &image, &e);
        if (code != rows[n].code || code != e.code) DIE("code %u, and not %u", code, rows[n].code);
        has_words(&e, rows[n].text);
    }
}

/* Checks the words of refusals that are no errors of the bytes. Those of an array of no rows are checked where it is refused. */
static void check_refusals(const given *g) {
    gm_error e;
    gm_fat_entry64 entry;
    if (gm_image_for(g->bytes, g->len, 0, 0, &entry, &e) != GM_NO_IMAGE) DIE("an image for another cpu");
    has_words(&e, "the file has no image for this cpu");
    uint64_t needed;
    if (gm_write_fat(NULL, 0, NULL, 0, 0, NULL, 0, &needed, NULL, &e) != GM_NO_SPACE) DIE("a file without room");
    has_words(&e, "there is too little room for the file");
    const uint8_t cut[8] = {0xca, 0xfe, 0xba, 0xbe, 0, 0, 0, 1};
    if (gm_image_for(cut, sizeof cut, 0, GM_CPU_SUBTYPE_ANY, &entry, &e) != GM_SHORT) DIE("an entry without a record");
    has_words(&e, "the file ends in the record of entry 0");
    gm_export_walk refused = {.code = GM_MALFORMED};
    gm_export_room room = {0};
    gm_export_batch batch;
    if (gm_exports(g->bytes, g->len, &g->image, &refused, &room, &batch, NULL, &e) != GM_MALFORMED) DIE("a walk that was refused before");
    has_words(&e, "it was refused before");
}

/* Checks a fat file whose header says so many records, with so many bytes of them. So many entries must be reported, and the last may be cut. */
static void check_cut(void) {
    static const struct { uint32_t says; uint64_t there, told; bool cut; } rows[] = {
        {0, 0, 0, false}, {0, 60, 0, false}, {1, 20, 1, false}, {1, 19, 1, true}, {2, 40, 2, false}, {2, 60, 2, false}, {2, 39, 2, true}, {2, 21, 2, true},
        {2, 20, 2, true}, {2, 19, 1, true}, {2, 0, 1, true}, {UINT32_MAX, 56, 3, true}, {UINT32_MAX, 60, 4, true}, {UINT32_MAX, 0, 1, true}};
    for (uint64_t n = 0; n < sizeof rows / sizeof *rows; n++) {
        uint8_t *bytes = calloc(1, 8 + rows[n].there);
        uint32_t says = rows[n].says;
        memcpy(bytes, (uint8_t[]){0xca, 0xfe, 0xba, 0xbe, says >> 24, says >> 16, says >> 8, says}, 8);
        gm_fat_entry e[8];
        uint64_t told = gm_fat_entries(bytes, 8 + rows[n].there, 0, e, 8);
        if (told != rows[n].told || gm_fat_entries(bytes, 8 + rows[n].there, told, e + 7, 1)) DIE("%" PRIu64 " entries of row %" PRIu64, told, n);
        for (uint64_t i = 0; i < told; i++)
            if ((e[i].code != GM_OK) != (rows[n].cut && i + 1 == told)) DIE("entry %" PRIu64 " of row %" PRIu64 ": code %u", i, n, e[i].code);
        free(bytes);
    }
}

/* Returns an image with one symbol table of these records and names. */
static uint8_t *image_of_symbols(const uint8_t *rest, uint64_t len, uint32_t nsyms, uint64_t *whole) {
    enum { AT = 56 };
    const uint32_t front[] = {0xfeedfacf, 0x01000007, 3, 6, 1, 24, 0, 0, 2, 24, AT, nsyms, AT + 16 * nsyms, (uint32_t)len - 16 * nsyms};
    uint8_t *bytes = malloc(AT + len);
    memcpy(bytes, front, AT);
    memcpy(bytes + AT, rest, len);
    *whole = AT + len;
    return bytes;
}

/* Checks the answer for a symbol whose name isn't text, or is past the end. */
static void check_symbols(void) {
    static const struct { uint8_t strx, code; uint64_t at, len; } rows[] = {
        {1, GM_OK, 1, 2}, {4, GM_SHORT, 4, 3}, {6, GM_SHORT, 6, 1}, {8, GM_OK, 8, 1}, {9, GM_SHORT, 0, 0}};
    enum { SYMBOLS = sizeof rows / sizeof *rows, NAMES = 56 + 16 * SYMBOLS };
    static const uint8_t names[] = {0, '_', 'a', 0, 'b', 'c', 0xff, 0, 'd'};
    uint8_t rest[16 * SYMBOLS + sizeof names] = {0};
    for (uint64_t k = 0; k < SYMBOLS; k++) memcpy(rest + 16 * k, (uint8_t[]){rows[k].strx, 0, 0, 0, 0xf, 7, 0x34, 0x12, k, 0, 0, 0, 0, 0, 0, 0x80}, 16);
    memcpy(rest + sizeof rest - sizeof names, names, sizeof names);
    given g = {0};
    uint8_t *bytes = image_of_symbols(rest, sizeof rest, SYMBOLS, &g.len);
    g.bytes = bytes;
    if (gm_open(g.bytes, g.len, 0, GM_STRICT, NULL, &g.image, NULL)) DIE("symbols that don't open");
    gm_symbol s[SYMBOLS];
    if (gm_symbols(g.bytes, g.len, &g.image, 0, s, SYMBOLS) != SYMBOLS) DIE("symbols are missing");
    for (uint64_t k = 0; k < SYMBOLS; k++) {
        if (s[k].value != (UINT64_C(0x80) << 56 | k) || s[k].section != 7 || s[k].n_type != 0xf
            || s[k].desc != 0x1234) DIE("symbol %" PRIu64 " lost its record", k);
        uint64_t at = rows[k].at ? NAMES + rows[k].at : 0;
        if (s[k].code != rows[k].code || s[k].name != at || s[k].name_len != rows[k].len)
            DIE("symbol %" PRIu64 ": code %u, name %" PRIu64 " %" PRIu64, k, s[k].code, s[k].name, s[k].name_len);
    }
    free(bytes);
}

/* Checks the verdicts on an image without commands: those that its header says, by the bits of flags and by the cpu. */
static void check_security(void) {
    static const struct { uint32_t magic, cputype, cpusubtype, flags, holds; } rows[] = {
        {0xfeedface, 7, 3, 0, 0}, {0xfeedface, 7, 3, GM_MH_NO_HEAP_EXECUTION, GM_VERDICT_NO_HEAP_EXECUTION}, {0xfeedfacf, 7, 3, GM_MH_NO_HEAP_EXECUTION, 0},
        {0xfeedfacf, 7, 3, GM_MH_PIE, GM_VERDICT_PIE}, {0xfeedface, 7, 3, GM_MH_ALLOW_STACK_EXECUTION, GM_VERDICT_STACK_EXECUTION},
        {0xfeedfacf, GM_CPU_TYPE_ARM64, UINT32_C(0x80000002), 0, GM_VERDICT_POINTER_AUTHENTICATION}, {0xfeedfacf, GM_CPU_TYPE_ARM64, 0, 0, 0}};
    for (uint64_t n = 0; n < sizeof rows / sizeof *rows; n++) {
        const uint32_t header[] = {rows[n].magic, rows[n].cputype, rows[n].cpusubtype, 2, 0, 0, rows[n].flags, 0};
        uint8_t bytes[sizeof header];
        given g = {.bytes = bytes, .len = sizeof bytes};
        gm_verdict found[20];
        uint64_t count = 7;
        memcpy(bytes, header, sizeof bytes);
        if (gm_open(bytes, sizeof bytes, 0, GM_STRICT, NULL, &g.image, NULL)) DIE("a header that doesn't open");
        says(&g);
        if (gm_security(bytes, sizeof bytes, &g.image, 0, NULL, 0, &count, NULL, NULL) != GM_NO_ROWS || count != 7) DIE("verdicts without room");
        if (gm_security(bytes, sizeof bytes, &g.image, 0, found, 20, &count, NULL, NULL)) DIE("no verdicts");
        for (uint64_t k = 0; k < count; k++)
            if (found[k].code || found[k].holds != (found[k].verdict == rows[n].holds || found[k].verdict == GM_VERDICT_STRIPPED))
                DIE("verdict %s of row %" PRIu64 ": %u", gm_verdict_name(found[k].verdict), n, found[k].holds);
    }
}

typedef struct { uint32_t slot, magic; const char *at; uint64_t len; } given_blob;
static void put_big(uint8_t *to, uint64_t number) {
    memcpy(to, (uint8_t[]){number >> 24 & 255, number >> 16 & 255, number >> 8 & 255, number & 255}, 4);
}

/* Returns an image whose signature has these blobs, each with a content. It leaves out those whose content is NULL. */
static uint8_t *image_of_blobs(const given_blob *blobs, uint64_t count, uint64_t *whole) {
    enum { FRONT = 48 };
    const uint32_t front[] = {0xfeedfacf, 0x0100000c, 0, 2, 1, 16, 0, 0, 0x1d, 16, FRONT, 0};
    uint64_t held = 0, contents = 0;
    for (uint64_t i = 0; i < count; i++)
        if (blobs[i].at) held++, contents += 8 + blobs[i].len;
    uint64_t at = 12 + 8 * held, size = at + contents, k = 0;
    uint8_t *bytes = calloc(1, FRONT + size), *made = bytes + FRONT;
    memcpy(bytes, front, FRONT);
    memcpy(bytes + 44, (uint8_t[]){size & 255, size >> 8 & 255}, 2);
    put_big(made, 0xfade0cc0);
    put_big(made + 4, size);
    put_big(made + 8, held);
    for (uint64_t i = 0; i < count; i++) {
        if (!blobs[i].at) continue;
        put_big(made + 12 + 8 * k, blobs[i].slot);
        put_big(made + 16 + 8 * k++, at);
        put_big(made + at, blobs[i].magic);
        put_big(made + at + 4, 8 + blobs[i].len);
        memcpy(made + at + 8, blobs[i].at, blobs[i].len);
        at += 8 + blobs[i].len;
    }
    *whole = FRONT + size;
    return bytes;
}

/* The same of entitlements in XML and in DER. */
static uint8_t *image_of_entitlements(const char *xml, const char *der, uint64_t der_len, uint64_t *whole) {
    return image_of_blobs((const given_blob[]){{5, 0xfade7171, xml, xml ? strlen(xml) : 0}, {7, 0xfade7172, der, der_len}}, 2, whole);
}

/* Requests a text of a requirement in exactly so many bytes, and compares it, its length and what a refusal leaves unchanged. */
static void requirement_is(const given *g, uint32_t type, uint32_t code, const char *text) {
    uint64_t length = strlen(text);
    for (uint64_t cap = 0; cap <= length + 1; cap++) {
        char *out = malloc(cap + !cap);
        uint64_t needed = 7777;
        gm_error e = {0};
        memset(out, 0x5a, cap);
        uint32_t found = gm_requirement_text(OF, type, cap ? out : NULL, cap, &needed, NULL, &e);
        if (found != (code || cap >= length ? code : GM_NO_SPACE) || found != e.code) DIE("a requirement of type %u: code %u", type, found);
        if (needed != (code ? 7777 : length)) DIE("a requirement of type %u needs %" PRIu64, type, needed);
        if (found == GM_NO_SPACE) has_words(&e, "there is too little room for the text");
        uint64_t put = found ? 0 : length;
        if (memcmp(out, text, put)) DIE("a requirement of type %u: another text", type);
        for (uint64_t i = put; i < cap; i++)
            if (out[i] != 0x5a) DIE("a byte after the text was written");
        free(out);
    }
}

/* Checks texts of requirements: one that is simple, one that isn't, one that can't be read, and those that aren't there. */
static void check_requirements(void) {
    static const char index[] = "\0\0\0\3\0\0\0\3\0\0\0\x24\0\0\0\4\0\0\0\x3c\0\0\0\5\x7f\0\0\0"
                                "\xfa\xde\x0c\0\0\0\0\x18\0\0\0\1\0\0\0\2\0\0\0\2id\0\0"
                                "\xfa\xde\x0c\0\0\0\0\x10\0\0\0\2\0\0\0\0";
    given g = {0};
    uint8_t *bytes = image_of_blobs((const given_blob[]){{2, 0xfade0c01, index, sizeof index - 1}}, 1, &g.len);
    g.bytes = bytes;
    if (gm_open(bytes, g.len, 0, GM_STRICT, NULL, &g.image, NULL)) DIE("requirements that don't open");
    requirement_is(&g, GM_REQUIREMENT_DESIGNATED, GM_OK, "identifier \"id\"");
    requirement_is(&g, GM_REQUIREMENT_LIBRARY, GM_OK, "not simple: fade0c00000000100000000200000000");
    requirement_is(&g, GM_REQUIREMENT_HOST, GM_OK, "");
    requirement_is(&g, GM_REQUIREMENT_PLUGIN, GM_SHORT, "");
    requirement_is(&g, 0, GM_MALFORMED, "");
    requirement_is(&g, 6, GM_MALFORMED, "");
    for (uint64_t k = 1;; k++) {
        counted c = {0, k, 0};
        gm_memory m = {&c, take, give};
        char out[64] = {0};
        uint64_t needed = 7;
        uint32_t code = gm_requirement_text(bytes, g.len, &g.image, GM_REQUIREMENT_LIBRARY, out, sizeof out, &needed, &m, NULL);
        if (c.held) DIE("a block was kept");
        if (code == GM_NO_MEMORY && (needed != 7 || *out)) DIE("refused memory left something of a text");
        if (code == GM_NO_MEMORY) continue;
        if (code || needed != 44 || memcmp(out, "not simple: fade", 16)) DIE("memory changed a text");
        if (k < 3) DIE("a text without memory");
        break;
    }
    bytes[48 + 20] = 0;
    requirement_is(&g, GM_REQUIREMENT_HOST, GM_MALFORMED, "");
    bytes[48] = 0;
    requirement_is(&g, GM_REQUIREMENT_HOST, GM_BAD_MAGIC, "");
    free(bytes);
    bytes = image_of_entitlements(NULL, NULL, 0, &g.len);
    g.bytes = bytes;
    if (gm_open(bytes, g.len, 0, GM_STRICT, NULL, &g.image, NULL)) DIE("no requirements that don't open");
    requirement_is(&g, GM_REQUIREMENT_DESIGNATED, GM_OK, "");
    free(bytes);
}

/* Requests the values of entitlements in arrays of each length, and compares them with lines, one a row: depth, kind, key, text and number. */
static void values_are(const given *g, uint32_t is_der, uint32_t code, const char *lines) {
    enum { MOST = 32, ROOM = 256 };
    gm_entitlement_item all[MOST], some[MOST];
    char texts[ROOM], some_texts[ROOM], found[2048];
    uint64_t count = 7777, len = 7777, at = 0;
    gm_error e = {0};
    memset(all, 0x5a, sizeof all);
    memset(texts, 0x5a, sizeof texts);
    uint32_t answer = gm_entitlement_items(OF, is_der, all, MOST, &count, texts, ROOM, &len, NULL, &e);
    if (answer != code || e.code != code) DIE("values of entitlements: code %u", answer);
    if (code && (count != 7777 || len != 7777 || *(uint8_t *)all != 0x5a || *texts != 0x5a)) DIE("a refusal changed values of entitlements");
    if (code) return;
    if (count > MOST || len > ROOM) DIE("too many values");
    for (uint64_t i = 0; i < count; i++) {
        const gm_entitlement_item *it = all + i;
        if (it->key > len || it->key_len > len - it->key || it->text > len || it->text_len > len - it->text) DIE("a text out of the texts");
        at += (uint64_t)snprintf(found + at, sizeof found - at, "%u %u %.*s=%.*s %" PRId64 "\n", it->depth, it->kind, (int)it->key_len, texts + it->key,
                                 (int)it->text_len, texts + it->text, (int64_t)it->number);
    }
    if (strlen(lines) != at || memcmp(lines, found, at)) DIE("other values: %.*s", (int)at, found);
    for (uint64_t cap = 0; cap <= count + 1; cap++) {
        for (uint64_t room = 0; room <= len + 1; room += cap == count ? 1 : len + 1) {
            uint64_t some_count = 7, some_len = 7, rows = cap < count ? cap : count, bytes = room < len ? room : len;
            memset(some, 0x5a, sizeof some);
            memset(some_texts, 0x5a, sizeof some_texts);
            if (gm_entitlement_items(OF, is_der, cap ? some : NULL, cap, &some_count, room ? some_texts : NULL, room, &some_len, NULL, &e))
                DIE("fewer values were refused");
            if (some_count != count || some_len != len || memcmp(some, all, rows * sizeof *all) || memcmp(some_texts, texts, bytes)) DIE("other values in less room");
            if (((uint8_t *)(some + rows))[0] != 0x5a || some_texts[bytes] != 0x5a) DIE("values after the room");
        }
    }
    for (uint64_t k = 1;; k++) {
        counted c = {0, k, 0};
        gm_memory m = {&c, take, give};
        uint64_t some_count = 7, some_len = 7;
        uint32_t with = gm_entitlement_items(OF, is_der, some, MOST, &some_count, some_texts, ROOM, &some_len, &m, NULL);
        if (c.held) DIE("a block was kept");
        if (with == GM_NO_MEMORY && (some_count != 7 || some_len != 7)) DIE("refused memory left something of values");
        if (with == GM_NO_MEMORY) continue;
        if (with || some_count != count || some_len != len) DIE("memory changed values");
        break;
    }
}

/* Checks the values of entitlements: of each kind, in both notations, of none, and of those that can't be read. */
static void check_values(void) {
    static const char xml[] = "<plist version=\"1.0\"><dict><key>a&amp;b</key><string>&lt;&#x7a;</string><key></key><array><true/><integer>-5</integer>"
                              "<dict/><dict><key>k</key><date>2024-02-29T23:59:59Z</date></dict><string/></array><key>n</key>"
                              "<integer>18446744073709551615</integer><key>r</key><real>1.5</real><key>f</key><false/></dict></plist>";
    static const char der[] = "\x70\x1e\x02\x01\x01\xb0\x19\x30\x0b\x0c\x01" "a" "\x30\x06\x02\x01\xff\x01\x01\x00\x30\x0a\x0c\x02" "bc" "\x0c\x04" "d&\x80" "f";
    given g = {0};
    uint8_t *bytes = image_of_entitlements(xml, der, sizeof der - 1, &g.len);
    g.bytes = bytes;
    if (gm_open(bytes, g.len, 0, GM_STRICT, NULL, &g.image, NULL)) DIE("values that don't open");
    values_are(&g, 0, GM_OK, "0 8 = 0\n1 5 a&b=<z 0\n1 7 = 0\n2 1 = 1\n2 3 = -5\n2 8 = 0\n2 8 = 0\n3 4 k= 20240229235959\n2 5 = 0\n1 2 n= -1\n1 6 r= 0\n"
                             "1 1 f= 0\n");
    values_are(&g, 7, GM_OK, "0 8 = 0\n1 7 a= 0\n2 3 = -1\n2 1 = 0\n1 5 bc=d&\x80" "f 0\n");
    memset(bytes + 48 + 12 + 4, 0x7f, 4);
    values_are(&g, 0, GM_SHORT, "");
    bytes[48] = 0;
    values_are(&g, 1, GM_BAD_MAGIC, "");
    free(bytes);
    for (uint64_t k = 0; k < 4; k++) {
        static const struct { const char *xml, *der; uint64_t der_len; uint32_t code[2]; } rows[] = {
            {NULL, NULL, 0, {GM_OK, GM_OK}}, {"<plist", NULL, 0, {GM_MALFORMED, GM_OK}}, {NULL, der, sizeof der - 2, {GM_OK, GM_MALFORMED}},
            {"", "", 0, {GM_MALFORMED, GM_MALFORMED}}};
        bytes = image_of_entitlements(rows[k].xml, rows[k].der, rows[k].der_len, &g.len);
        g.bytes = bytes;
        if (gm_open(bytes, g.len, 0, GM_STRICT, NULL, &g.image, NULL)) DIE("no values that don't open");
        for (uint32_t is_der = 0; is_der < 2; is_der++) values_are(&g, is_der, rows[k].code[is_der], "");
        free(bytes);
    }
    bytes = image_of_symbols((const uint8_t[17]){0}, 17, 1, &g.len);
    g.bytes = bytes;
    if (gm_open(bytes, g.len, 0, GM_STRICT, NULL, &g.image, NULL)) DIE("no signature that doesn't open");
    values_are(&g, 0, GM_OK, "");
    free(bytes);
}

/* Checks whether entitlements agree: for each of the numbers, for blobs that can't be read, and for a signature that can't. */
static void check_entitlements(void) {
    static const char a[] = "<plist version=\"1.0\"><dict><key>a</key><true/></dict></plist>";
    static const char b[] = "<plist version=\"1.0\"><dict><key>b</key><true/></dict></plist>";
    static const char der[] = "\x70\x0d\x02\x01\x01\xb0\x08\x30\x06\x0c\x01" "a" "\x01\x01\xff";
    static const struct { const char *xml, *der; uint64_t der_len; int damage; uint32_t want; } rows[] = {
        {NULL, NULL, 0, 0, GM_ENTITLEMENTS_NONE}, {a, der, 15, 0, GM_ENTITLEMENTS_AGREE}, {b, der, 15, 0, GM_ENTITLEMENTS_DIFFER},
        {a, NULL, 0, 0, GM_ENTITLEMENTS_ONLY_XML}, {"<plist", NULL, 0, 0, GM_ENTITLEMENTS_ONLY_XML}, {NULL, der, 15, 0, GM_ENTITLEMENTS_ONLY_DER},
        {"<plist", der, 15, 0, GM_ENTITLEMENTS_UNREADABLE_XML}, {"", "", 0, 0, GM_ENTITLEMENTS_UNREADABLE_XML},
        {a, der, 14, 0, GM_ENTITLEMENTS_UNREADABLE_DER}, {a, "", 0, 0, GM_ENTITLEMENTS_UNREADABLE_DER},
        {a, der, 15, 1, GM_ENTITLEMENTS_UNREADABLE_XML}, {a, der, 15, 2, GM_ENTITLEMENTS_UNREADABLE_DER},
        {a, der, 15, 3, GM_ENTITLEMENTS_UNREADABLE_XML}, {a, NULL, 0, 1, GM_ENTITLEMENTS_UNREADABLE_XML},
        {NULL, der, 15, 1, GM_ENTITLEMENTS_UNREADABLE_DER}};
    for (uint64_t n = 0; n < sizeof rows / sizeof *rows; n++) {
        given g = {0};
        uint8_t *bytes = image_of_entitlements(rows[n].xml, rows[n].der, rows[n].der_len, &g.len);
        uint32_t agreement = 7;
        gm_error e = {0};
        g.bytes = bytes;
        for (int k = 0; k < 2; k++)
            if (rows[n].damage >> k & 1) memset(bytes + 48 + 12 + 8 * k + 4, 0x7f, 4);
        if (gm_open(g.bytes, g.len, 0, GM_STRICT, NULL, &g.image, NULL)) DIE("entitlements that don't open");
        if (gm_entitlements_agree(g.bytes, g.len, &g.image, &agreement, NULL, &e) || agreement != rows[n].want || e.code)
            DIE("entitlements of row %" PRIu64 ": %u, and not %u", n, agreement, rows[n].want);
        says(&g);
        bytes[48] = 0;
        agreement = 7;
        if (gm_entitlements_agree(g.bytes, g.len, &g.image, &agreement, NULL, &e) != GM_BAD_MAGIC || agreement != 7 || e.code != GM_BAD_MAGIC)
            DIE("entitlements of a signature that can't be read");
        says(&g);
        free(bytes);
    }
    given g = {0};
    uint8_t *bytes = image_of_symbols((const uint8_t[17]){0}, 17, 1, &g.len);
    uint32_t agreement = 7;
    g.bytes = bytes;
    if (gm_open(g.bytes, g.len, 0, GM_STRICT, NULL, &g.image, NULL) || gm_entitlements_agree(g.bytes, g.len, &g.image, &agreement, NULL, NULL)
        || agreement != GM_ENTITLEMENTS_NONE) DIE("entitlements without a signature");
    free(bytes);
}

/* memory whose functions call the library themselves, out of malloc, of themselves, or of an arena */
typedef struct { const uint8_t *bytes; uint64_t len, depth, calls; } calling;
static void call_within(calling *c);
static void *take_calling(void *self, size_t size) { call_within(self); return malloc(size); }
static void give_calling(void *self, void *block) { call_within(self); free(block); }
static void call_within(calling *c) {
    static _Alignas(16) uint8_t room[1 << 16];
    gm_arena arena = {room, sizeof room, 0, 0};
    gm_memory of_arena = gm_arena_memory(&arena), itself = {c, take_calling, give_calling};
    const gm_memory *const with[] = {NULL, &of_arena, c->depth < 2 ? &itself : NULL};
    gm_image image;
    c->depth++;
    for (uint64_t i = 0; i < 3; i++)
        if (gm_open(c->bytes, c->len, 0, GM_STRICT, with[i], &image, NULL)) DIE("a call within a call was refused");
    c->depth--;
    c->calls += 3;
    if (arena.blocks) DIE("a call within a call kept a block");
}
static void check_within(const given *g) {
    calling c = {g->bytes, g->len, 0, 0};
    gm_memory m = {&c, take_calling, give_calling};
    gm_image image;
    uint64_t before_call = mallocs;
    if (gm_open(g->bytes, g->len, 0, GM_STRICT, &m, &image, NULL) || memcmp(&image, &g->image, IMAGE)) DIE("calls within a call changed it");
    if (!c.calls || mallocs == before_call) DIE("nothing was called within a call");
}

/* Checks wrong arguments of a caller, and what a caller may leave out. */
static void check_edges(void) {
    given g = {0};
    uint8_t *bytes = image_of_symbols((const uint8_t[17]){0}, 17, 1, &g.len);
    g.bytes = bytes;
    gm_error e;
    for (uint32_t mode = 0; mode < 4; mode++)
        if (gm_open(g.bytes, g.len, 0, mode == 3 ? UINT32_MAX : mode, NULL, &g.image, &e) != (mode <= GM_LOSSY ? GM_OK : GM_MALFORMED)) DIE("mode %u", mode);
    if (gm_open(g.bytes, 31, 0, GM_STRICT, NULL, &g.image, NULL) != GM_MALFORMED) DIE("a refusal that nobody reads");
    if (gm_in_bounds(9, 1, 4, UINT32_MAX) != 2 || gm_in_bounds(10, 1, 4, 2) != 2 || gm_in_bounds(8, 8, 4, 1) || gm_in_bounds(8, 0, 0,
        1)) DIE("records that begin there");
    gm_fixup_cursor f = {0};
    gm_bind_cursor i = {0};
    gm_binding_cursor b = {0};
    gm_bind_cursor w = {0};
    gm_rebase_cursor r = {0};
    gm_start_cursor s = {0};
    uint64_t count = 5;
    const uint32_t codes[] = {gm_fixups(g.bytes, g.len, &g.image, &f, NULL, 0, &count, NULL, &e),
                              gm_opcode_imports(g.bytes, g.len, &g.image, &i, NULL, 0, &count, NULL, &e),
                              gm_bindings(g.bytes, g.len, &g.image, &b, NULL, 0, &count, NULL, NULL),
                              gm_weak_binds(g.bytes, g.len, &g.image, &w, NULL, 0, &count, NULL, NULL),
                              gm_rebases(g.bytes, g.len, &g.image, &r, NULL, 0, &count, NULL, NULL),
                              gm_function_starts(g.bytes, g.len, &g.image, &s, NULL, 0, &count, NULL, NULL),
                              gm_slots(g.bytes, g.len, &g.image, 0, NULL, 0, &count, NULL, NULL),
                              gm_initializers(g.bytes, g.len, &g.image, 0, NULL, 0, &count, NULL, NULL),
                              gm_layout_faults(g.bytes, g.len, &g.image, 0, NULL, 0, &count, NULL, &e),
                              gm_signature_faults(g.bytes, g.len, &g.image, 0, NULL, 0, &count, NULL, &e),
                              gm_container_faults(g.bytes, g.len, 0, NULL, 0, &count, NULL, NULL)};
    for (uint64_t n = 0; n < sizeof codes / sizeof *codes; n++)
        if (codes[n] != GM_NO_ROWS || count != 5) DIE("call %" PRIu64 " with an array of no rows: %u", n, codes[n]);
    has_words(&e, "the array has room for no row");
    gm_export_walk walk = {0};
    gm_export_room room = {NULL, 0, NULL, 0, NULL, 0, NULL, 0};
    gm_export_batch batch;
    if (gm_exports(g.bytes, g.len, &g.image, &walk, &room, &batch, NULL, NULL) || batch.end != GM_NO_ROOM || batch.needed != 1)
        DIE("exports with an array of no rows");
    gm_listed_export row;
    char name[9];
    room = (gm_export_room){name, sizeof name, NULL, 0, &row, 1, NULL, 0};
    if (gm_exports(g.bytes, g.len, &g.image, &walk, &room, &batch, NULL, NULL) || batch.end != GM_NO_ROOM || batch.needed != 9)
        DIE("exports with no room for a name");
    if (gm_open(g.bytes, g.len, 0, GM_STRICT, NULL, &g.image, NULL)) DIE("an image that opened");
    check_refusals(&g);
    check_within(&g);
    free(bytes);
}

int main(int argc, char **argv) {
    check_names();
    if (argc == 2 && !strcmp(argv[1], "names")) return print_names();
    if (argc < 3) DIE("usage: gm_test names, gm_test WHAT FILE, gm_test check|constants FILE.., gm_test damage COUNT FILE.., gm_test deep LEVELS");
    of_damage = !strcmp(argv[1], "damage");
    away = fopen("/dev/null", "w");
    if (!away) DIE("/dev/null can't be opened");
    if (!strcmp(argv[1], "deep")) return check_deep((uint64_t)strtol(argv[2], NULL, 10)), 0;
    check_words();
    check_cut();
    check_symbols();
    check_edges();
    check_entitlements();
    check_values();
    check_security();
    check_requirements();
    check_shared();
    check(NULL, 0);
    for (int i = 2 + of_damage; i < argc; i++) {
        uint64_t len;
        uint8_t *bytes = read_file(argv[i], &len);
        if (of_damage) {
            for (long k = strtol(argv[2], NULL, 10); k > 0; k--) damage(bytes, len);
        } else if (!strcmp(argv[1], "check")) {
            for (uint64_t n = 0; n <= len; n++) {
                uint8_t *prefix = malloc(n + !n);
                memcpy(prefix, bytes, n);
                check(prefix, n);
                free(prefix);
            }
        } else {
            gm_fat_entry entries[8];
            uint64_t n = gm_fat_entries(bytes, len, 0, entries, 8);
            if (!n) print(argv[1], bytes, len);
            if (!strcmp(argv[1], "layout")) print_list(named("table"), &(given){.bytes = bytes, .len = len});
            for (uint64_t k = 0; k < n; k++) {
                printf("arch %" PRIu64 "\n", k);
                const gm_fat_entry *e = entries + k;
                if (e->size >= 8 && !memcmp(bytes + e->offset, "!<arch>\n", 8)) puts("archive");
                else print(argv[1], bytes + e->offset, e->size);
            }
        }
        free(bytes);
    }
    fclose(away);
    if (!strcmp(argv[1], "constants")) printf("%" PRIu64 " numbers have the names that they are to have\n", named_numbers);
    if (!strcmp(argv[1], "check"))
        printf("%" PRIu64 " lists agree, %" PRIu64 " of trees; %" PRIu64 " exports as they are found, %" PRIu64 " of them brought, and %" PRIu64 " others of a name\n", tested, trees, alike, brought,
               others);
    return 0;
}
