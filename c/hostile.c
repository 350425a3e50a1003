/* hostile CALL FILE repeats a call of the library on a file as long as its list goes on. It ends after CALLS times, or once SECONDS are over. It prints
   how many rows the call returned. Its caller limits time and memory. The status is 0, or 1 if the image is refused.
   hostile all FILE.. makes all calls on each of these files, each up to FEW_CALLS times, and prints nothing. The status is 0. */
#define _GNU_SOURCE
#include "goblin_mach.h"
#include <inttypes.h>
#include <stdio.h>
#include <stdlib.h>
#include <string.h>
#include <time.h>

enum { ROWS = 1000, CALLS = 1000, FEW_CALLS = 10, SECONDS = 2 };

typedef struct { const uint8_t *bytes; uint64_t len; gm_image image; } given;

static uint64_t calls, most_calls = CALLS;
static time_t begun;

/* Returns whether to make another call. */
static int goes_on(void) { return calls++ < most_calls && time(NULL) - begun <= SECONDS; }

/* the rows of a list that is called by number */
#define NUMBERED(name, row, call) \
    static uint64_t name(const given *g) { \
        static row rows[ROWS]; \
        uint64_t first = 0, n; \
        while (goes_on() && (n = call) != 0) first += n; \
        return first; \
    }
#define OF g->bytes, g->len, &g->image
NUMBERED(entries, gm_fat_entry, gm_fat_entries(g->bytes, g->len, first, rows, ROWS))
NUMBERED(entries64, gm_fat_entry64, gm_fat_entries64(g->bytes, g->len, first, rows, ROWS))
NUMBERED(members, gm_archive_member, gm_archive_members(g->bytes, g->len, first, rows, ROWS))
NUMBERED(archive_symbols, gm_archive_symbol, gm_archive_symbols(g->bytes, g->len, first, rows, ROWS))
NUMBERED(commands, gm_command, gm_commands(OF, first, rows, ROWS))
NUMBERED(segments, gm_segment, gm_segments(OF, first, rows, ROWS))
NUMBERED(symbols, gm_symbol, gm_symbols(OF, first, rows, ROWS))
NUMBERED(libraries, gm_library, gm_libraries(OF, first, rows, ROWS))
NUMBERED(run_paths, gm_run_path, gm_run_paths(OF, first, rows, ROWS))
NUMBERED(ids, gm_id, gm_ids(OF, first, rows, ROWS))
NUMBERED(data_in_code, gm_data_in_code_entry, gm_data_in_code(OF, first, rows, ROWS))
NUMBERED(indirect_symbols, gm_indirect_symbol, gm_indirect_symbols(OF, first, rows, ROWS))
NUMBERED(linker_options, gm_linker_option, gm_linker_options(OF, first, rows, ROWS))
NUMBERED(build_tools, gm_build_tool, gm_build_tools(OF, first, rows, ROWS))
NUMBERED(notes, gm_note, gm_notes(OF, first, rows, ROWS))
NUMBERED(all_sections, gm_numbered_section, gm_all_sections(OF, first, rows, ROWS))
NUMBERED(build_versions, gm_build_version, gm_build_versions(OF, first, rows, ROWS))
NUMBERED(dyld_environment, gm_command_text, gm_dyld_environment(OF, first, rows, ROWS))
NUMBERED(fileset_entries, gm_fileset_entry, gm_fileset_entries(OF, first, rows, ROWS))

/* Counts the fields of all commands. */
static uint64_t command_fields(const given *g) {
    static gm_command of[ROWS];
    gm_command_field rows[GM_COMMAND_FIELDS];
    uint64_t found = 0, n;
    for (uint64_t first = 0; goes_on() && (n = gm_commands(OF, first, of, ROWS)) != 0; first += n)
        for (uint64_t i = 0; i < n; i++) found += gm_command_fields(OF, &of[i], 0, rows, GM_COMMAND_FIELDS);
    return found;
}

/* Counts what single commands say. */
static uint64_t said(const given *g) {
    gm_image_uuid uuid;
    gm_encrypted_part part;
    gm_command_text path;
    uint64_t version, found = 0;
    while (goes_on()) found += gm_uuid(OF, &uuid) + gm_source_version(OF, &version) + gm_encryption(OF, &part) + gm_dylinker(OF, &path);
    return found;
}

/* Counts the sections of all segments, or the relocations of all sections. */
static uint64_t inner(const given *g, int relocations) {
    static gm_segment segments[ROWS];
    static gm_section sections[ROWS];
    static gm_relocation rows[ROWS];
    uint64_t found = 0, n, m, k;
    for (uint64_t first = 0; goes_on() && (n = gm_segments(OF, first, segments, ROWS)) != 0; first += n)
        for (uint64_t i = 0; i < n; i++)
            for (uint64_t next = 0; goes_on() && (m = gm_sections(OF, segments[i].command, segments[i].sections, next, sections, ROWS)) != 0; next += m) {
                found += relocations ? 0 : m;
                for (uint64_t j = 0; relocations && j < m; j++)
                    for (uint64_t at = 0; goes_on() && (k = gm_relocations(OF, sections[j].reloff, sections[j].nreloc, at, rows, ROWS)) != 0; at += k)
                        found += k;
            }
    return found;
}
static uint64_t sections(const given *g) { return inner(g, 0); }
static uint64_t relocations(const given *g) { return inner(g, 1); }

/* the rows of a list that is called with a cursor */
#define BEHIND(name, row, place) \
    static uint64_t name(const given *g) { \
        static row rows[ROWS]; \
        place at = {0}; \
        uint64_t found = 0, n; \
        gm_error e; \
        while (goes_on() && !gm_##name(OF, &at, rows, ROWS, &n, NULL, &e)) { \
            found += n; \
            if (n < ROWS) break; \
        } \
        return found; \
    }
BEHIND(fixups, gm_fixup, gm_fixup_cursor)
BEHIND(opcode_imports, gm_import, gm_bind_cursor)
BEHIND(bindings, gm_binding, gm_binding_cursor)
BEHIND(weak_binds, gm_weak_bind, gm_bind_cursor)
BEHIND(rebases, gm_rebase, gm_rebase_cursor)
BEHIND(function_starts, gm_function_start, gm_start_cursor)

static uint64_t layout(const given *g) {
    static gm_layout_fault rows[ROWS];
    uint64_t found = 0, n;
    gm_error e;
    while (goes_on() && !gm_layout_faults(OF, found, rows, ROWS, &n, NULL, &e) && n) found += n;
    return found;
}
static uint64_t slots(const given *g) {
    static gm_slot rows[ROWS];
    uint64_t found = 0, n;
    gm_error e;
    while (goes_on() && !gm_slots(OF, found, rows, ROWS, &n, NULL, &e) && n) found += n;
    return found;
}

static uint64_t initializers(const given *g) {
    static gm_initializer rows[ROWS];
    uint64_t found = 0, n;
    gm_error e;
    while (goes_on() && !gm_initializers(OF, found, rows, ROWS, &n, NULL, &e) && n) found += n;
    return found;
}

/* Reads the strings of all bytes, in batches that go on after the last string. */
static uint64_t strings(const given *g) {
    static gm_span rows[ROWS];
    uint64_t found = 0, from = 0, n;
    while (goes_on() && from < g->len && (n = gm_strings(g->bytes + from, g->len - from, 0, rows, ROWS)) != 0) {
        found += n;
        from += rows[n - 1].place + rows[n - 1].len + 1;
    }
    return found;
}

static uint64_t signature_faults(const given *g) {
    static gm_signature_fault rows[ROWS];
    uint64_t found = 0, n;
    gm_error e;
    while (goes_on() && !gm_signature_faults(OF, found, rows, ROWS, &n, NULL, &e) && n) found += n;
    return found;
}
static uint64_t requirements(const given *g) {
    static char text[1 << 22];
    uint64_t found = 0, needed;
    gm_error e;
    for (uint32_t type = GM_REQUIREMENT_HOST; goes_on() && type <= GM_REQUIREMENT_PLUGIN; type++)
        found += !gm_requirement_text(OF, type, text, sizeof text, &needed, NULL, &e) && needed;
    return found;
}
static uint64_t security(const given *g) {
    static gm_verdict rows[ROWS];
    uint64_t found = 0, n;
    gm_error e;
    while (goes_on() && !gm_security(OF, found, rows, ROWS, &n, NULL, &e) && n) found += n;
    return found;
}
static uint64_t entitlements(const given *g) {
    static gm_entitlement_item rows[ROWS];
    static char texts[1 << 18];
    uint64_t found = 0, n, len;
    gm_error e;
    for (uint32_t is_der = 0; goes_on() && is_der < 2; is_der++)
        found += !gm_entitlement_items(OF, is_der, rows, ROWS, &n, texts, sizeof texts, &len, NULL, &e) ? n : 0;
    return found;
}
static uint64_t signature(const given *g) {
    gm_signature said;
    uint32_t is = 0;
    gm_error e;
    return (!gm_code_signature(OF, &said, NULL, &e) && said.is_signed) + (!gm_is_as_signed(OF, &is, NULL, &e) && is)
        + (!gm_entitlements_agree(OF, &is, NULL, &e) && is);
}

/* Looks up by an address or a number: addresses in some order, and numbers up to as many. */
static uint64_t slot_at(const given *g) {
    gm_slot slot;
    gm_found_section section;
    gm_error e;
    uint64_t found = 0;
    for (uint64_t k = 0; goes_on(); k++) {
        uint64_t address = k < 64 ? (uint64_t)1 << k : 8 * (uint64_t)k;
        found += !gm_slot_at(OF, address, &slot, NULL, &e) && slot.kind != GM_NO_SLOT;
        found += !gm_section_at(OF, address, &section, NULL, &e) && section.is_found;
        found += !gm_section_of(OF, k, &section, NULL, &e) && section.is_found;
    }
    return found;
}
/* Looks up parts and symbols, by names of some lengths, addresses and offsets. */
static uint64_t parts_at(const given *g) {
    static char name[1 << 20];
    static uint64_t order[1 << 20];
    gm_segment segment;
    gm_found_section section;
    gm_found_symbol symbol;
    gm_found_function function;
    gm_error e;
    uint64_t found = 0, number, mapped = 0;
    memset(name, 'a', sizeof name);
    found += !gm_symbol_map(OF, order, 1 << 20, &mapped, NULL, &e) && mapped;
    if (mapped > 1 << 20) mapped = 1 << 20;
    for (uint64_t k = 0; goes_on(); k++) {
        uint64_t address = k < 64 ? (uint64_t)1 << k : 8 * k, len = k < 20 ? (uint64_t)1 << k : 1;
        found += !gm_symbol_at(OF, address, &symbol, NULL, &e) && symbol.is_found;
        found += !gm_symbol_in_map(OF, order, mapped, address, &symbol, NULL, &e) && symbol.is_found;
        found += !gm_function_at(OF, address, &function, NULL, &e) && function.is_found;
        found += !gm_symbol_named(OF, name, len, &symbol, NULL, &e) && symbol.is_found;
        found += !gm_symbols_named(OF, name, len, 0, &symbol, 1, &number, NULL, &e) && number;
        found += !gm_section_named(OF, name, len, name, len, &section, NULL, &e) && section.is_found;
        found += gm_segment_named(OF, name, len, &segment);
        found += gm_address_of_offset(OF, address, &number) + gm_offset_of_address(OF, address, &number);
    }
    return found;
}
static uint64_t container(const given *g) {
    static gm_layout_fault rows[ROWS];
    uint64_t found = 0, n;
    gm_error e;
    while (goes_on() && !gm_container_faults(g->bytes, g->len, found, rows, ROWS, &n, NULL, &e) && n) found += n;
    return found;
}

static uint64_t exports(const given *g) {
    static gm_listed_export rows[ROWS];
    static gm_open_node stack[1 << 16];
    static char name[1 << 16], names[1 << 20];
    gm_export_walk walk = {0};
    gm_export_room room = {name, sizeof name, stack, sizeof stack / sizeof *stack, rows, ROWS, names, sizeof names};
    gm_export_batch batch;
    uint64_t found = 0;
    gm_error e;
    while (goes_on() && !gm_exports(OF, &walk, &room, &batch, NULL, &e)) {
        found += batch.count;
        if (batch.end != GM_MORE) break;
    }
    return found;
}

static int count_export(void *user, const gm_listed_export *item, const char *name) {
    (void)item;
    (void)name;
    ++*(uint64_t *)user;
    return !goes_on();
}
static uint64_t exports_each(const given *g) {
    uint64_t found = 0;
    gm_error e;
    gm_exports_each(OF, count_export, &found, NULL, &e);
    return found;
}

static uint64_t tree(const given *g) {
    gm_error e;
    return !gm_exports_are_a_tree(OF, NULL, &e);
}

static uint64_t find(const given *g) {
    static char name[1 << 20], library[64], target[64];
    gm_export one;
    gm_error e;
    uint64_t found = 0;
    memset(name, 'a', sizeof name);
    for (uint64_t length = 0; goes_on() && length < sizeof name; length = 2 * length + 1)
        found += !gm_find_export(OF, name, length, &one, library, sizeof library, target, sizeof target, NULL, &e) && one.kind != GM_NO_EXPORT;
    return found;
}

static uint64_t open_all(const given *g) {
    static gm_fat_entry rows[ROWS];
    uint64_t n, found = 0;
    gm_image image;
    gm_error e;
    for (uint64_t first = 0; goes_on() && (n = gm_fat_entries(g->bytes, g->len, first, rows, ROWS)) != 0; first += n)
        for (uint64_t i = 0; goes_on() && i < n; i++)
            found += rows[i].offset <= g->len && !gm_open(g->bytes, g->len, rows[i].offset, i & 1 ? GM_LOSSY : GM_STRICT, NULL, &image, &e);
    return found + !gm_open(g->bytes, g->len, 0, GM_LOSSY, NULL, &image, &e);
}

/* Looks up in an archive, by names of some lengths. */
static uint64_t archive_find(const given *g) {
    static char name[1 << 20];
    gm_archive_member one;
    gm_error e;
    uint64_t found = 0;
    memset(name, 'a', sizeof name);
    for (uint64_t length = 0; goes_on() && length < sizeof name; length = 2 * length + 1) {
        found += !gm_archive_find(g->bytes, g->len, name, length, &one, &e) && one.header;
        found += !gm_archive_member_named(g->bytes, g->len, name, length, &one, &e) && one.header;
    }
    return found;
}

/* Looks up the image for each of many cpus, and what the bytes are. */
static uint64_t image_for(const given *g) {
    gm_fat_entry64 one;
    gm_error e;
    uint64_t found = 0;
    for (uint32_t k = 0; goes_on(); k++) found += !gm_image_for(g->bytes, g->len, k, GM_CPU_SUBTYPE_ANY, &one, &e) + gm_kind(g->bytes, g->len);
    return found;
}

/* Writes fat files of the entries that are there: of none, of the first, and on to all. */
static uint64_t write_fat(const given *g) {
    static gm_fat_entry64 rows[ROWS];
    static gm_fat_part parts[ROWS];
    static uint8_t out[1 << 22];
    uint64_t n = gm_fat_entries64(g->bytes, g->len, 0, rows, ROWS), needed = 0, found = 0;
    gm_error e;
    for (uint64_t i = 0; i < n; i++) parts[i] = (gm_fat_part){rows[i].offset, rows[i].size, rows[i].cputype, rows[i].cpusubtype, rows[i].align, 0};
    for (uint64_t k = 0; goes_on() && k <= n; k++) found += !gm_write_fat(g->bytes, g->len, parts, k, k & 1, out, sizeof out, &needed, NULL, &e);
    return found;
}

/* Resolves the file with itself, as all the libraries that one call takes here: under its own name, and under other paths. */
static uint64_t resolve(const given *g) {
    static gm_answer rows[ROWS];
    gm_given_file files[4] = {{0, g->len, 0, 0}};
    gm_unused_file unused[4];
    gm_resolution r = {0};
    uint64_t found = 0;
    gm_error e;
    for (uint64_t k = 1; k < 4; k++) files[k] = (gm_given_file){0, g->len, 0, g->len < k ? g->len : k};
    for (uint64_t count = 1; goes_on() && count <= 4; count++)
        if (!gm_resolve(g->bytes, g->len, files, count, rows, ROWS, unused, 4, &r, NULL, &e)) found += r.answers + r.unused;
    return found;
}

/* Audits the file, each list to its end. */
static uint64_t audit(const given *g) {
    static gm_finding rows[ROWS];
    uint64_t found = 0;
    uint32_t verdict;
    gm_error e;
    return gm_audit(g->bytes, g->len, UINT64_MAX, rows, ROWS, &found, &verdict, NULL, &e) ? 0 : found;
}

#define CALL(name) {#name, name}
static const struct { const char *name; uint64_t (*call)(const given *); } all[] = {
    CALL(entries), CALL(container), CALL(open_all), CALL(entries64), CALL(members), CALL(archive_symbols), CALL(archive_find), CALL(write_fat), CALL(image_for),
    CALL(resolve), CALL(commands), CALL(command_fields), CALL(segments), CALL(sections), CALL(relocations), CALL(symbols), CALL(libraries),
    CALL(run_paths), CALL(ids), CALL(data_in_code), CALL(indirect_symbols), CALL(linker_options), CALL(build_tools), CALL(notes), CALL(find), CALL(exports),
    CALL(tree), CALL(fixups), CALL(opcode_imports), CALL(bindings), CALL(weak_binds), CALL(rebases), CALL(function_starts), CALL(slots), CALL(slot_at),
    CALL(initializers), CALL(strings),
    CALL(layout), CALL(entitlements), CALL(signature), CALL(signature_faults), CALL(security), CALL(requirements), CALL(all_sections),
    CALL(build_versions), CALL(dyld_environment), CALL(fileset_entries), CALL(said), CALL(parts_at), CALL(exports_each), CALL(audit)};

/* Reads the bytes of a file, at most 4 MB of them. Returns whether it can be read. */
static int read_file(const char *name, given *g) {
    static uint8_t bytes[1 << 22];
    FILE *file = fopen(name, "rb");
    if (!file) return 0;
    *g = (given){bytes, fread(bytes, 1, sizeof bytes, file), {0}};
    fclose(file);
    return 1;
}

/* Makes call k on a file. Returns whether the image opens, if the call is one on images. */
static int make(uint64_t k, given *g, uint64_t *found, gm_error *e) {
    int refused = k >= 10 && gm_open(g->bytes, g->len, 0, GM_STRICT, NULL, &g->image, e) && gm_open(g->bytes, g->len, 0, GM_LOSSY, NULL, &g->image, e);
    calls = 0;
    begun = time(NULL);
    if (!refused) *found = all[k].call(g);
    return !refused;
}

static int make_all(int count, char **files) {
    enum { KINDS = sizeof all / sizeof *all };
    uint64_t found;
    given g;
    gm_error e;
    most_calls = FEW_CALLS;
    for (int i = 0; i < count; i++)
        for (uint64_t k = 0; read_file(files[i], &g) && k < KINDS; k++) make(k, &g, &found, &e);
    return 0;
}

int main(int count, char **words) {
    given g;
    gm_error e;
    uint64_t found;
    if (count >= 2 && !strcmp(words[1], "all")) return make_all(count - 2, words + 2);
    for (uint64_t k = 0; count < 3 && k < sizeof all / sizeof *all; k++) puts(all[k].name);
    if (count < 3) return 0;
    if (count > 3 || !read_file(words[2], &g)) return 2;
    for (uint64_t k = 0; k < sizeof all / sizeof *all; k++) {
        if (strcmp(words[1], all[k].name)) continue;
        if (!make(k, &g, &found, &e)) return printf("%s\n", e.text), 1;
        return printf("%" PRIu64 "\n", found), 0;
    }
    return 2;
}
