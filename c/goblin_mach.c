/* The C side of goblin_mach, kept small: NULL for length 0, the caller's memory, and names of numbers. Nothing proves this file; docs/PROVED.md
   says what is trusted in it. All other code of the library is Rattle, and proved. */
#include "goblin_mach.h"
#include <stdlib.h>
#include <string.h>

/* ---- memory: the library's blocks come from the allocator of the innermost call that runs in this thread, or from malloc */

typedef struct { bool some; void *at; } tried;

static _Thread_local const gm_memory *memory_of_call;
static max_align_t nothing; /* used instead of NULL */

static void *take(const gm_memory *m, size_t size) { return m ? m->take(m->self, size) : malloc(size); }
static void give(const gm_memory *m, void *block) { if (m) m->give(m->self, block); else free(block); }

static tried try_block(void *block) { return (tried){block != NULL, block ? block : &nothing}; }

tried rattle_alloc(size_t size, size_t align) { return try_block(take(memory_of_call, size ? size : align)); }

void rattle_dealloc(void *block) { give(memory_of_call, block); }

tried rattle_realloc(void *block, size_t kept, size_t size, size_t align) {
    if (!memory_of_call) return try_block(realloc(block, size ? size : align));
    tried grown = rattle_alloc(size, align);
    if (!grown.some) return grown;
    memcpy(grown.at, block, kept < size ? kept : size);
    rattle_dealloc(block);
    return grown;
}

/* ---- an arena: blocks one after the other; none is taken back alone, but all together once no block is in use */

static void *arena_take(void *self, size_t size) {
    gm_arena *a = self;
    uint64_t from = (a->used + 15) & ~UINT64_C(15);
    if (from > a->size || size > a->size - from) return NULL;
    a->used = from + size;
    a->blocks++;
    return a->bytes + from;
}

static void arena_give(void *self, void *block) {
    gm_arena *a = self;
    (void)block;
    if (--a->blocks == 0) a->used = 0;
}

gm_memory gm_arena_memory(gm_arena *arena) { return (gm_memory){arena, arena_take, arena_give}; }

/* ---- the calls: what Rattle exports takes no NULL */

#define AT(p) ((p) ? (p) : (void *)&nothing)
#define BYTES ((bytes) ? (bytes) : (const uint8_t *)&nothing)
#define TOLD ((error) ? (error) : &unread)

/* Installs a call's allocator while the call runs, and then restores the one of the call around it, whose `take` or `give` made this call. */
#define WITH_MEMORY(call) { \
    const gm_memory *around = memory_of_call; \
    gm_error unread; \
    memory_of_call = memory; \
    uint32_t code = call; \
    memory_of_call = around; \
    return code; \
}

/* The version is the header's, if the library has the interface that this file calls. */
uint32_t gmr_version(void);
const char *gm_version(void) { return GM_VERSION_TEXT; }
uint32_t gm_version_number(void) { return gmr_version() == 1 ? GM_VERSION_NUMBER : 0; }

uint32_t gmr_open(const uint8_t *, uint64_t, uint64_t, uint32_t, gm_image *, gm_error *);
uint32_t gm_open(const uint8_t *bytes, uint64_t len, uint64_t offset, uint32_t mode, const gm_memory *memory, gm_image *image, gm_error *error)
    WITH_MEMORY(gmr_open(BYTES, len, offset, mode, image, TOLD))

uint64_t gmr_fat_entries(const uint8_t *, uint64_t, uint64_t, gm_fat_entry *, uint64_t);
uint64_t gm_fat_entries(const uint8_t *bytes, uint64_t len, uint64_t first, gm_fat_entry *out, uint64_t cap) {
    return gmr_fat_entries(BYTES, len, first, AT(out), cap);
}

uint64_t gmr_fat_entries64(const uint8_t *, uint64_t, uint64_t, gm_fat_entry64 *, uint64_t);
uint64_t gm_fat_entries64(const uint8_t *bytes, uint64_t len, uint64_t first, gm_fat_entry64 *out, uint64_t cap) {
    return gmr_fat_entries64(BYTES, len, first, AT(out), cap);
}

uint32_t gmr_kind(const uint8_t *, uint64_t);
uint32_t gm_kind(const uint8_t *bytes, uint64_t len) { return gmr_kind(BYTES, len); }

uint32_t gmr_image_for(const uint8_t *, uint64_t, uint32_t, uint32_t, gm_fat_entry64 *, gm_error *);
uint32_t gm_image_for(const uint8_t *bytes, uint64_t len, uint32_t cputype, uint32_t cpusubtype, gm_fat_entry64 *found, gm_error *error) {
    gm_error unread;
    return gmr_image_for(BYTES, len, cputype, cpusubtype, found, TOLD);
}

uint32_t gmr_write_fat(const uint8_t *, uint64_t, const gm_fat_part *, uint64_t, uint32_t, uint8_t *, uint64_t, uint64_t *, gm_error *);
uint32_t gm_write_fat(const uint8_t *bytes, uint64_t len, const gm_fat_part *parts, uint64_t count, uint32_t is_64, uint8_t *out, uint64_t cap,
                      uint64_t *needed, const gm_memory *memory, gm_error *error)
    WITH_MEMORY(gmr_write_fat(BYTES, len, AT((gm_fat_part *)parts), count, is_64, AT(out), cap, needed, TOLD))

uint64_t gmr_archive_members(const uint8_t *, uint64_t, uint64_t, gm_archive_member *, uint64_t);
uint64_t gm_archive_members(const uint8_t *bytes, uint64_t len, uint64_t first, gm_archive_member *out, uint64_t cap) {
    return gmr_archive_members(BYTES, len, first, AT(out), cap);
}

uint64_t gmr_archive_symbols(const uint8_t *, uint64_t, uint64_t, gm_archive_symbol *, uint64_t);
uint64_t gm_archive_symbols(const uint8_t *bytes, uint64_t len, uint64_t first, gm_archive_symbol *out, uint64_t cap) {
    return gmr_archive_symbols(BYTES, len, first, AT(out), cap);
}

uint32_t gmr_archive_kind(const uint8_t *, uint64_t, uint32_t *, gm_error *);
uint32_t gm_archive_kind(const uint8_t *bytes, uint64_t len, uint32_t *kind, gm_error *error) {
    gm_error unread;
    return gmr_archive_kind(BYTES, len, kind, TOLD);
}

uint32_t gmr_archive_find(const uint8_t *, uint64_t, const char *, uint64_t, gm_archive_member *, gm_error *);
uint32_t gm_archive_find(const uint8_t *bytes, uint64_t len, const char *symbol, uint64_t symbol_len, gm_archive_member *member, gm_error *error) {
    gm_error unread;
    return gmr_archive_find(BYTES, len, AT((char *)symbol), symbol_len, member, TOLD);
}

uint32_t gmr_archive_member_named(const uint8_t *, uint64_t, const char *, uint64_t, gm_archive_member *, gm_error *);
uint32_t gm_archive_member_named(const uint8_t *bytes, uint64_t len, const char *name, uint64_t name_len, gm_archive_member *member, gm_error *error) {
    gm_error unread;
    return gmr_archive_member_named(BYTES, len, AT((char *)name), name_len, member, TOLD);
}

/* the rows of an image from an index on */
#define ROWS(name, row) \
    uint64_t gmr_##name(const uint8_t *, uint64_t, const gm_image *, uint64_t, row *, uint64_t); \
    uint64_t gm_##name(const uint8_t *bytes, uint64_t len, const gm_image *image, uint64_t first, row *out, uint64_t cap) { \
        return gmr_##name(BYTES, len, image, first, AT(out), cap); \
    }
ROWS(commands, gm_command)
ROWS(segments, gm_segment)
ROWS(symbols, gm_symbol)
ROWS(libraries, gm_library)
ROWS(run_paths, gm_run_path)
ROWS(ids, gm_id)
ROWS(data_in_code, gm_data_in_code_entry)
ROWS(indirect_symbols, gm_indirect_symbol)
ROWS(linker_options, gm_linker_option)
ROWS(build_tools, gm_build_tool)
ROWS(notes, gm_note)
ROWS(all_sections, gm_numbered_section)
ROWS(build_versions, gm_build_version)
ROWS(dyld_environment, gm_command_text)
ROWS(fileset_entries, gm_fileset_entry)

/* what one command of an image says, if one does */
#define FOUND(name, row) \
    uint32_t gmr_##name(const uint8_t *, uint64_t, const gm_image *, row *); \
    bool gm_##name(const uint8_t *bytes, uint64_t len, const gm_image *image, row *found) { return gmr_##name(BYTES, len, image, found) != 0; }
FOUND(uuid, gm_image_uuid)
FOUND(source_version, uint64_t)
FOUND(encryption, gm_encrypted_part)
FOUND(dylinker, gm_command_text)

uint32_t gmr_segment_named(const uint8_t *, uint64_t, const gm_image *, const char *, uint64_t, gm_segment *);
bool gm_segment_named(const uint8_t *bytes, uint64_t len, const gm_image *image, const char *name, uint64_t name_len, gm_segment *found) {
    return gmr_segment_named(BYTES, len, image, AT((char *)name), name_len, found) != 0;
}

uint32_t gmr_address_of_offset(const uint8_t *, uint64_t, const gm_image *, uint64_t, uint64_t *);
bool gm_address_of_offset(const uint8_t *bytes, uint64_t len, const gm_image *image, uint64_t offset, uint64_t *found) {
    return gmr_address_of_offset(BYTES, len, image, offset, found) != 0;
}

uint32_t gmr_offset_of_address(const uint8_t *, uint64_t, const gm_image *, uint64_t, uint64_t *);
bool gm_offset_of_address(const uint8_t *bytes, uint64_t len, const gm_image *image, uint64_t address, uint64_t *found) {
    return gmr_offset_of_address(BYTES, len, image, address, found) != 0;
}

uint64_t gmr_sections(const uint8_t *, uint64_t, const gm_image *, uint64_t, uint32_t, uint64_t, gm_section *, uint64_t);
uint64_t gm_sections(const uint8_t *bytes, uint64_t len, const gm_image *image, uint64_t command, uint32_t sections, uint64_t first, gm_section *out,
                     uint64_t cap) {
    return gmr_sections(BYTES, len, image, command, sections, first, AT(out), cap);
}

uint64_t gmr_command_fields(const uint8_t *, uint64_t, const gm_image *, const gm_command *, uint64_t, gm_command_field *, uint64_t);
uint64_t gm_command_fields(const uint8_t *bytes, uint64_t len, const gm_image *image, const gm_command *command, uint64_t first, gm_command_field *out,
                           uint64_t cap) {
    return gmr_command_fields(BYTES, len, image, command, first, AT(out), cap);
}

uint32_t gmr_section_data(const uint8_t *, uint64_t, uint32_t, uint64_t, uint32_t, gm_span *, gm_error *);
uint32_t gm_section_data(const uint8_t *bytes, uint64_t len, uint32_t offset, uint64_t size, uint32_t flags, gm_span *found, gm_error *error) {
    gm_error unread;
    return gmr_section_data(BYTES, len, offset, size, flags, found, TOLD);
}

uint64_t gmr_strings(const uint8_t *, uint64_t, uint64_t, gm_span *, uint64_t);
uint64_t gm_strings(const uint8_t *bytes, uint64_t len, uint64_t first, gm_span *out, uint64_t cap) {
    return gmr_strings(BYTES, len, first, AT(out), cap);
}

uint64_t gmr_relocations(const uint8_t *, uint64_t, const gm_image *, uint32_t, uint32_t, uint64_t, gm_relocation *, uint64_t);
uint64_t gm_relocations(const uint8_t *bytes, uint64_t len, const gm_image *image, uint32_t reloff, uint32_t nreloc, uint64_t first, gm_relocation *out,
                        uint64_t cap) {
    return gmr_relocations(BYTES, len, image, reloff, nreloc, first, AT(out), cap);
}

/* the items of an image after a cursor, or from an index on */
#define BEHIND(name, row, place) \
    uint32_t gmr_##name(const uint8_t *, uint64_t, const gm_image *, place, row *, uint64_t, uint64_t *, gm_error *); \
    uint32_t gm_##name(const uint8_t *bytes, uint64_t len, const gm_image *image, place from, row *out, uint64_t cap, uint64_t *count, \
                       const gm_memory *memory, gm_error *error) \
        WITH_MEMORY(gmr_##name(BYTES, len, image, from, AT(out), cap, count, TOLD))
BEHIND(fixups, gm_fixup, gm_fixup_cursor *)
BEHIND(opcode_imports, gm_import, gm_bind_cursor *)
BEHIND(bindings, gm_binding, gm_binding_cursor *)
BEHIND(weak_binds, gm_weak_bind, gm_bind_cursor *)
BEHIND(rebases, gm_rebase, gm_rebase_cursor *)
BEHIND(function_starts, gm_function_start, gm_start_cursor *)
BEHIND(layout_faults, gm_layout_fault, uint64_t)
BEHIND(slots, gm_slot, uint64_t)
BEHIND(initializers, gm_initializer, uint64_t)
BEHIND(signature_faults, gm_signature_fault, uint64_t)
BEHIND(security, gm_verdict, uint64_t)

/* what is looked up in an image by a number */
#define SOUGHT(name, number, row) \
    uint32_t gmr_##name(const uint8_t *, uint64_t, const gm_image *, number, row *, gm_error *); \
    uint32_t gm_##name(const uint8_t *bytes, uint64_t len, const gm_image *image, number by, row *found, const gm_memory *memory, gm_error *error) \
        WITH_MEMORY(gmr_##name(BYTES, len, image, by, found, TOLD))
SOUGHT(slot_at, uint64_t, gm_slot)
SOUGHT(section_at, uint64_t, gm_found_section)
SOUGHT(section_of, uint64_t, gm_found_section)
SOUGHT(symbol_at, uint64_t, gm_found_symbol)
SOUGHT(function_at, uint64_t, gm_found_function)

uint32_t gmr_symbol_named(const uint8_t *, uint64_t, const gm_image *, const char *, uint64_t, gm_found_symbol *, gm_error *);
uint32_t gm_symbol_named(const uint8_t *bytes, uint64_t len, const gm_image *image, const char *name, uint64_t name_len, gm_found_symbol *symbol,
                         const gm_memory *memory, gm_error *error)
    WITH_MEMORY(gmr_symbol_named(BYTES, len, image, AT((char *)name), name_len, symbol, TOLD))

uint32_t gmr_symbol_map(const uint8_t *, uint64_t, const gm_image *, uint64_t *, uint64_t, uint64_t *, gm_error *);
uint32_t gm_symbol_map(const uint8_t *bytes, uint64_t len, const gm_image *image, uint64_t *order, uint64_t cap, uint64_t *count, const gm_memory *memory,
                       gm_error *error)
    WITH_MEMORY(gmr_symbol_map(BYTES, len, image, AT(order), cap, count, TOLD))

uint32_t gmr_symbol_in_map(const uint8_t *, uint64_t, const gm_image *, const uint64_t *, uint64_t, uint64_t, gm_found_symbol *, gm_error *);
uint32_t gm_symbol_in_map(const uint8_t *bytes, uint64_t len, const gm_image *image, const uint64_t *order, uint64_t count, uint64_t address,
                          gm_found_symbol *symbol, const gm_memory *memory, gm_error *error)
    WITH_MEMORY(gmr_symbol_in_map(BYTES, len, image, AT((uint64_t *)order), count, address, symbol, TOLD))

uint32_t gmr_symbols_named(const uint8_t *, uint64_t, const gm_image *, const char *, uint64_t, uint64_t, gm_found_symbol *, uint64_t, uint64_t *, gm_error *);
uint32_t gm_symbols_named(const uint8_t *bytes, uint64_t len, const gm_image *image, const char *name, uint64_t name_len, uint64_t first,
                          gm_found_symbol *out, uint64_t cap, uint64_t *count, const gm_memory *memory, gm_error *error)
    WITH_MEMORY(gmr_symbols_named(BYTES, len, image, AT((char *)name), name_len, first, AT(out), cap, count, TOLD))

uint32_t gmr_section_named(const uint8_t *, uint64_t, const gm_image *, const char *, uint64_t, const char *, uint64_t, gm_found_section *, gm_error *);
uint32_t gm_section_named(const uint8_t *bytes, uint64_t len, const gm_image *image, const char *segment, uint64_t segment_len, const char *name,
                          uint64_t name_len, gm_found_section *section, const gm_memory *memory, gm_error *error)
    WITH_MEMORY(gmr_section_named(BYTES, len, image, AT((char *)segment), segment_len, AT((char *)name), name_len, section, TOLD))

/* the calls about an image's signature */
#define SAID(name, row) \
    uint32_t gmr_##name(const uint8_t *, uint64_t, const gm_image *, row *, gm_error *); \
    uint32_t gm_##name(const uint8_t *bytes, uint64_t len, const gm_image *image, row *said, const gm_memory *memory, gm_error *error) \
        WITH_MEMORY(gmr_##name(BYTES, len, image, said, TOLD))
SAID(code_signature, gm_signature)
SAID(is_as_signed, uint32_t)
SAID(entitlements_agree, uint32_t)

uint32_t gmr_entitlement_items(const uint8_t *, uint64_t, const gm_image *, uint32_t, gm_entitlement_item *, uint64_t, uint64_t *, char *, uint64_t,
                               uint64_t *, gm_error *);
uint32_t gm_entitlement_items(const uint8_t *bytes, uint64_t len, const gm_image *image, uint32_t is_der, gm_entitlement_item *out, uint64_t cap,
                              uint64_t *count, char *texts, uint64_t texts_cap, uint64_t *texts_len, const gm_memory *memory, gm_error *error)
    WITH_MEMORY(gmr_entitlement_items(BYTES, len, image, is_der, AT(out), cap, count, AT(texts), texts_cap, texts_len, TOLD))

uint32_t gmr_requirement_text(const uint8_t *, uint64_t, const gm_image *, uint32_t, char *, uint64_t, uint64_t *, gm_error *);
uint32_t gm_requirement_text(const uint8_t *bytes, uint64_t len, const gm_image *image, uint32_t type, char *out, uint64_t cap, uint64_t *needed,
                             const gm_memory *memory, gm_error *error)
    WITH_MEMORY(gmr_requirement_text(BYTES, len, image, type, AT(out), cap, needed, TOLD))

uint32_t gmr_audit(const uint8_t *, uint64_t, uint64_t, gm_finding *, uint64_t, uint64_t *, uint32_t *, gm_error *);
uint32_t gm_audit(const uint8_t *bytes, uint64_t len, uint64_t limit, gm_finding *out, uint64_t cap, uint64_t *count, uint32_t *verdict,
                  const gm_memory *memory, gm_error *error)
    WITH_MEMORY(gmr_audit(BYTES, len, limit, AT(out), cap, count, verdict, TOLD))

uint32_t gmr_resolve(const uint8_t *, uint64_t, const gm_given_file *, uint64_t, gm_answer *, uint64_t, gm_unused_file *, uint64_t, gm_resolution *, gm_error *);
uint32_t gm_resolve(const uint8_t *bytes, uint64_t len, const gm_given_file *files, uint64_t count, gm_answer *out, uint64_t cap, gm_unused_file *unused,
                    uint64_t unused_cap, gm_resolution *found, const gm_memory *memory, gm_error *error)
    WITH_MEMORY(gmr_resolve(BYTES, len, AT((gm_given_file *)files), count, AT(out), cap, AT(unused), unused_cap, found, TOLD))

void gmr_symbol_provider(const gm_image *, const gm_symbol *, gm_provider *);
void gm_symbol_provider(const gm_image *image, const gm_symbol *symbol, gm_provider *found) { gmr_symbol_provider(image, symbol, found); }

uint32_t gmr_find_export(const uint8_t *, uint64_t, const gm_image *, const char *, uint64_t, gm_export *, char *, uint64_t, char *, uint64_t, gm_error *);
uint32_t gm_find_export(const uint8_t *bytes, uint64_t len, const gm_image *image, const char *name, uint64_t name_len, gm_export *found,
                        char *library, uint64_t library_cap, char *target, uint64_t target_cap, const gm_memory *memory, gm_error *error)
    WITH_MEMORY(gmr_find_export(BYTES, len, image, AT((char *)name), name_len, found, AT(library), library_cap, AT(target), target_cap, TOLD))

uint32_t gmr_exports(const uint8_t *, uint64_t, const gm_image *, gm_export_walk *, char *, uint64_t, gm_open_node *, uint64_t, gm_listed_export *, uint64_t,
                     char *, uint64_t, gm_export_batch *, gm_error *);
uint32_t gm_exports(const uint8_t *bytes, uint64_t len, const gm_image *image, gm_export_walk *walk, const gm_export_room *room,
                    gm_export_batch *batch, const gm_memory *memory, gm_error *error)
    WITH_MEMORY(gmr_exports(BYTES, len, image, walk, AT(room->name), room->name_cap, AT(room->stack), room->stack_cap, AT(room->out), room->cap,
                            AT(room->names), room->names_cap, batch, TOLD))

/* an array that grows */
typedef struct { void *at; uint64_t size; } growing;

/* Makes an array twice as long as it is, or `needed` bytes long if that is longer by more than a byte. The old contents are at its start. */
static bool grow(const gm_memory *m, growing *array, uint64_t needed) {
    uint64_t size = array->size < needed / 2 ? needed : 2 * array->size;
    void *at = size < PTRDIFF_MAX ? take(m, (size_t)size) : NULL;
    if (!at) return false;
    if (array->at) {
        memcpy(at, array->at, (size_t)array->size);
        give(m, array->at);
    }
    *array = (growing){at, size};
    return true;
}

/* Calls `each` for the rows of a batch; returns whether it took them all. While it runs there is a zero byte after the name. There is room for one
   after the last name. */
static bool all_taken(const gm_listed_export *rows, uint64_t count, char *names, gm_export_call each, void *user) {
    for (uint64_t i = 0; i < count; i++) {
        char *name = names + rows[i].name, *end = name + rows[i].name_len, after = *end;
        *end = 0;
        int answer = each(user, &rows[i], name);
        *end = after;
        if (answer) return false;
    }
    return true;
}

uint32_t gm_exports_each(const uint8_t *bytes, uint64_t len, const gm_image *image, gm_export_call each, void *user, const gm_memory *memory,
                         gm_error *error) {
    growing name = {0}, stack = {0}, names = {0};
    gm_listed_export rows[32];
    gm_export_walk walk = {0};
    gm_export_batch batch = {0};
    uint32_t code = GM_OK;
    bool has_room = grow(memory, &name, 256) && grow(memory, &stack, 32 * sizeof(gm_open_node)) && grow(memory, &names, 4096);
    while (has_room && code == GM_OK && batch.end != GM_END) {
        gm_export_room room = {name.at, name.size, stack.at, stack.size / sizeof(gm_open_node), rows, 32, names.at, names.size - 1};
        code = gm_exports(bytes, len, image, &walk, &room, &batch, memory, error);
        if (!all_taken(rows, batch.count, names.at, each, user)) {
            code = GM_OK;
            break;
        }
        if (batch.end == GM_NAME_SHORT) has_room = grow(memory, &name, batch.needed) && grow(memory, &names, 2 * batch.needed + 1);
        if (batch.end == GM_NO_ROOM) has_room = grow(memory, &names, batch.needed + 1);
        if (batch.end == GM_STACK_SHORT) has_room = grow(memory, &stack, batch.needed * sizeof(gm_open_node));
    }
    if (!has_room) {
        code = GM_NO_MEMORY;
        if (error) *error = (gm_error){GM_NO_MEMORY, "out of memory"};
    }
    if (name.at) give(memory, name.at);
    if (stack.at) give(memory, stack.at);
    if (names.at) give(memory, names.at);
    return code;
}

uint32_t gmr_exports_are_a_tree(const uint8_t *, uint64_t, const gm_image *, gm_error *);
uint32_t gm_exports_are_a_tree(const uint8_t *bytes, uint64_t len, const gm_image *image, const gm_memory *memory, gm_error *error)
    WITH_MEMORY(gmr_exports_are_a_tree(BYTES, len, image, TOLD))

uint32_t gmr_container_faults(const uint8_t *, uint64_t, uint64_t, gm_layout_fault *, uint64_t, uint64_t *, gm_error *);
uint32_t gm_container_faults(const uint8_t *bytes, uint64_t len, uint64_t first, gm_layout_fault *out, uint64_t cap, uint64_t *count,
                             const gm_memory *memory, gm_error *error)
    WITH_MEMORY(gmr_container_faults(BYTES, len, first, AT(out), cap, count, TOLD))

/* ---- texts */

static bool is_within(uint8_t byte, int low, int high) { return byte >= low && byte <= high; }

/* Returns how many bytes the first character of UTF-8 has (Unicode, table 3-7), or 0 if there is none. */
static uint64_t char_len(const uint8_t *s, uint64_t left) {
    if (s[0] < 0x80) return 1;
    uint64_t len = is_within(s[0], 0xc2, 0xdf) ? 2 : is_within(s[0], 0xe0, 0xef) ? 3 : is_within(s[0], 0xf0, 0xf4) ? 4 : 0;
    if (len == 0 || len > left) return 0;
    int low = s[0] == 0xe0 ? 0xa0 : s[0] == 0xf0 ? 0x90 : 0x80, high = s[0] == 0xed ? 0x9f : s[0] == 0xf4 ? 0x8f : 0xbf;
    if (!is_within(s[1], low, high)) return 0;
    for (uint64_t i = 2; i < len; i++)
        if (!is_within(s[i], 0x80, 0xbf)) return 0;
    return len;
}

/* Returns the number of the first character of UTF-8, which has `len` bytes. */
static uint32_t char_at(const uint8_t *s, uint64_t len) {
    uint32_t number = len == 1 ? s[0] : s[0] & (0x7fu >> len);
    for (uint64_t i = 1; i < len; i++) number = number << 6 | (s[i] & 0x3f);
    return number;
}

/* Returns whether a character shows nothing itself: one of the general categories Cc, Zl and Zp of the Unicode Character Database, or one that is
   ignorable by default (Default_Ignorable_Code_Point) and of the category Cf. The programs escape the same ones. */
static bool is_hidden(uint32_t number) {
    static const uint32_t ranges[][2] = {
        {0x0, 0x1f}, {0x7f, 0x9f}, {0xad, 0xad}, {0x61c, 0x61c}, {0x180e, 0x180e}, {0x200b, 0x200f}, {0x2028, 0x202e}, {0x2060, 0x206f},
        {0xfeff, 0xfeff}, {0xfff9, 0xfffb}, {0xe0001, 0xe0001}, {0xe0020, 0xe007f},
    };
    for (size_t i = 0; i < sizeof ranges / sizeof *ranges; i++)
        if (ranges[i][0] <= number && number <= ranges[i][1]) return true;
    return false;
}

/* Writes a byte as an escape. */
static void escape(char *out, uint8_t byte) {
    static const char digits[] = "0123456789abcdef";
    out[0] = '\\';
    out[1] = 'x';
    out[2] = digits[byte >> 4];
    out[3] = digits[byte & 15];
}

uint64_t gm_text(char *out, uint64_t cap, const void *name, uint64_t name_len) {
    const uint8_t *s = name;
    uint64_t needed = 1, written = 0;
    while (name_len && s[name_len - 1] == 0) name_len--;
    for (uint64_t at = 0, len; at < name_len; at += len) {
        char put[16];
        uint64_t size = 0, shown = char_len(s + at, name_len - at);
        len = shown ? shown : 1;
        if (s[at] == '\\') put[size++] = '\\', put[size++] = '\\';
        else if (shown && !is_hidden(char_at(s + at, len))) memcpy(put, s + at, (size_t)(size = len));
        else
            for (uint64_t i = 0; i < len; i++, size += 4) escape(put + size, s[at + i]);
        if (needed + size <= cap && written + 1 == needed) {
            memcpy(out + written, put, (size_t)size);
            written += size;
        }
        needed += size;
    }
    if (cap) out[written] = 0;
    return needed;
}

/* ---- names */

#include "names.h"

#define WORDS(name, words) words,
static const char *const rules[] = {"none", GM_LAYOUT_RULES(WORDS)}, *const parts[] = {"none", GM_LAYOUT_PARTS(WORDS)};
const char *gm_layout_rule(uint32_t rule) { return rules[rule < sizeof rules / sizeof *rules ? rule : 0]; }
const char *gm_layout_part(uint32_t part) { return parts[part < sizeof parts / sizeof *parts ? part : 0]; }

static const char *const kinds[] = {"none", GM_SIGNATURE_KINDS(WORDS)};
const char *gm_signature_kind(uint32_t kind) { return kinds[kind < sizeof kinds / sizeof *kinds ? kind : 0]; }

static const char *const findings[] = {"none", GM_FINDING_KINDS(WORDS)}, *const found_lists[] = {"none", GM_FINDING_LISTS(WORDS)};
const char *gm_finding_kind(uint32_t kind) { return findings[kind < sizeof findings / sizeof *findings ? kind : 0]; }
const char *gm_finding_list(uint32_t list) { return found_lists[list < sizeof found_lists / sizeof *found_lists ? list : 0]; }

const char *gm_code_name(uint32_t code) {
    static const char *const names[] = {"ok", "malformed", "bad magic", "out of the bytes, or no text", "too many", "out of memory", "no rows", "no space",
        "no image for the cpu"};
    return code < sizeof names / sizeof *names ? names[code] : NULL;
}

const char *gm_symbol_type_name(uint8_t n_type) {
    return n_type & GM_N_STAB ? debugger_entry_name(n_type) : symbol_type_name(n_type & GM_N_TYPE);
}

const char *gm_relocation_name(uint32_t cputype, uint32_t type) {
    switch (cputype) {
    case GM_CPU_TYPE_ARM64: case GM_CPU_TYPE_ARM64_32: return arm64_name(type);
    case GM_CPU_TYPE_X86_64: return x86_64_name(type);
    case GM_CPU_TYPE_ARM: return arm_name(type);
    case GM_CPU_TYPE_X86: return x86_name(type);
    default: return NULL;
    }
}
