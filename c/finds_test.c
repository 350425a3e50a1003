/* finds_test FILE.. tests what is looked up in images, and what single commands say, on each file and on some of its prefixes. It compares with the
   lists of segments, sections, symbols and starts, and with the bytes of commands. Before that it tests kinds, images for a cpu, and texts. */
#include "goblin_mach.h"
#include <inttypes.h>
#include <stdio.h>
#include <stdlib.h>
#include <string.h>

#define DIE(...) (fprintf(stderr, __VA_ARGS__), fputc('\n', stderr), exit(1))
#define OF g->bytes, g->len, &g->image

enum { MANY = 4096, LOOKED = 200 };
typedef struct { const uint8_t *bytes; uint64_t len; gm_image image; } given;

static uint64_t found_symbols, found_functions, said;
static uint64_t order[MANY], mapped; /* the map of the symbols of the image */

/* memory that is refused at one request, and counted */
typedef struct { uint64_t asked, refused, held; } counted;
static void *take(void *self, size_t size) {
    counted *c = self;
    if (++c->asked == c->refused) return NULL;
    c->held++;
    return malloc(size);
}
static void give(void *self, void *block) { ((counted *)self)->held--; free(block); }

static uint64_t name_len(const uint8_t name[16]) {
    uint64_t len = 0;
    while (len < 16 && name[len]) len++;
    return len;
}

/* ---- symbols and functions: the nearest of all, in the section that holds the address */

static void symbol_at(const given *g, const gm_symbol *symbols, uint64_t count, uint64_t address) {
    gm_found_section in, of;
    gm_found_symbol found, none = {0};
    gm_error e = {0};
    uint64_t best = UINT64_MAX;
    if (gm_section_at(OF, address, &in, NULL, &e)) DIE("no section: %s", e.text);
    for (uint64_t i = 0; in.is_found && i < count; i++) {
        const gm_symbol *s = &symbols[i];
        if (s->code || s->n_type & GM_N_STAB || (s->n_type & GM_N_TYPE) != GM_N_SECT || s->value > address) continue;
        if (gm_section_of(OF, s->section, &of, NULL, &e) || !of.is_found || of.number != in.number) continue;
        if (best == UINT64_MAX || s->value >= symbols[best].value) best = i;
    }
    memset(&found, 0x5a, sizeof found);
    if (gm_symbol_at(OF, address, &found, NULL, &e)) DIE("no symbol: %s", e.text);
    if (best == UINT64_MAX ? memcmp(&found, &none, sizeof found) != 0
                           : !found.is_found || found.index != best || found.symbol.value != symbols[best].value || found.symbol.name != symbols[best].name
            || found.distance != address - symbols[best].value)
        DIE("another symbol at %" PRIx64, address);
    memset(&none, 0x5a, sizeof none);
    if (gm_symbol_in_map(OF, order, mapped, address, &none, NULL, &e) || memcmp(&found, &none, sizeof found))
        DIE("another symbol of the map at %" PRIx64, address);
    found_symbols += found.is_found;
}

/* Checks the map of the symbols, and what is said of arrays that are too short, of numbers that are no map, and of memory that is refused. */
static void symbol_map(const given *g, const gm_symbol *symbols, uint64_t count) {
    uint64_t defined = 0, again = 7, few[MANY];
    gm_found_symbol found;
    gm_error e;
    if (gm_symbol_map(OF, order, MANY, &mapped, NULL, &e) || mapped > count) DIE("no map: %s", e.text);
    for (uint64_t i = 0; i < count; i++)
        if (!symbols[i].code && (symbols[i].n_type & (GM_N_STAB | GM_N_TYPE)) == GM_N_SECT) few[defined++] = i;
    if (mapped != defined) DIE("a map of %" PRIu64 " symbols, and not of %" PRIu64, mapped, defined);
    for (uint64_t i = 1; i < mapped; i++) {
        const gm_symbol *a = &symbols[order[i - 1]], *b = &symbols[order[i]];
        if (a->section > b->section || (a->section == b->section && (a->value > b->value || (a->value == b->value && order[i - 1] >= order[i]))))
            DIE("symbol %" PRIu64 " of the map", i);
    }
    if (gm_symbol_map(OF, NULL, 0, &again, NULL, &e) || again != defined) DIE("a map without an array");
    for (uint64_t cap = mapped > 2 ? mapped - 2 : 0; cap < mapped; cap++) {
        uint64_t out[MANY];
        out[cap] = 7;
        if (gm_symbol_map(OF, out, cap, &again, NULL, &e) || again != defined || memcmp(out, few, cap * sizeof *few) || out[cap] != 7)
            DIE("a map that is cut");
    }
    few[0] = UINT64_MAX;
    for (uint64_t i = 1; i < 8; i++) few[i] = i * UINT64_C(0x123456789abcdef) % (2 * count + 1);
    for (uint64_t i = 0; i < count && i < LOOKED; i++)
        if (gm_symbol_in_map(OF, few, 8, symbols[i].value, &found, NULL, &e) || (found.is_found ? found.index >= count : found.index)) DIE("a symbol of no map");
    for (uint64_t k = 1, refused = 1; refused; k++) {
        counted c = {0, k, 0}, d = {0, k, 0};
        gm_memory m = {&c, take, give}, n = {&d, take, give};
        again = 7;
        memset(&found, 0x5a, sizeof found);
        refused = gm_symbol_map(OF, few, 1, &again, &m, &e) == GM_NO_MEMORY;
        if (refused != (gm_symbol_in_map(OF, order, mapped, 1, &found, &n, &e) == GM_NO_MEMORY) || c.held || d.held) DIE("a block was kept");
        if (refused && (again != 7 || found.is_found != 0x5a5a5a5a)) DIE("a refusal wrote something of a map");
    }
}

static void function_at(const given *g, const gm_function_start *starts, uint64_t count, uint64_t address) {
    gm_found_section in;
    gm_found_function found, wanted = {0};
    gm_error e;
    if (gm_section_at(OF, address, &in, NULL, &e)) DIE("no section: %s", e.text);
    for (uint64_t i = 0; in.is_found && i < count && !starts[i].code; i++)
        if (starts[i].address >= in.addr && starts[i].address <= address) wanted = (gm_found_function){starts[i].address, in.addr + in.size, 1, 0};
    for (uint64_t i = 0; wanted.is_found && i < count && !starts[i].code; i++)
        if (starts[i].address > address && starts[i].address < wanted.end) wanted.end = starts[i].address;
    if (gm_function_at(OF, address, &found, NULL, &e)) DIE("no function: %s", e.text);
    if (memcmp(&found, &wanted, sizeof found)) DIE("another function at %" PRIx64, address);
    found_functions += found.is_found;
}

/* Checks all symbols that have the name of one, in batches of two. */
static void all_named(const given *g, const gm_symbol *symbols, uint64_t count, const gm_symbol *one) {
    gm_found_symbol rows[2];
    gm_error e;
    uint64_t first = 0, written = 0, at = 0;
    for (uint64_t i = 0; i < count; i++) {
        if (symbols[i].code || symbols[i].name_len != one->name_len || memcmp(g->bytes + symbols[i].name, g->bytes + one->name, one->name_len)) continue;
        if (at == written) {
            memset(rows, 0x5a, sizeof rows);
            if (gm_symbols_named(OF, (const char *)g->bytes + one->name, one->name_len, first, rows, 2, &written, NULL, &e)) DIE("no symbols: %s", e.text);
            first += written;
            at = 0;
        }
        const gm_found_symbol wanted = {symbols[i], i, 0, 1, 0};
        if (at >= written || memcmp(&rows[at++], &wanted, sizeof wanted)) DIE("symbol %" PRIu64 " of a name", i);
    }
    if (at != written || gm_symbols_named(OF, (const char *)g->bytes + one->name, one->name_len, first, rows, 2, &written, NULL, &e) || written) DIE(
        "a symbol too many");
}

static void symbols_named(const given *g, const gm_symbol *symbols, uint64_t count) {
    for (uint64_t i = 0; i < count && i < LOOKED; i++)
        if (!symbols[i].code) all_named(g, symbols, count, &symbols[i]);
    for (uint64_t i = 0; i < count && i < LOOKED; i++) {
        if (symbols[i].code || symbols[i].n_type & GM_N_STAB) continue;
        const char *name = (const char *)g->bytes + symbols[i].name;
        uint64_t len = symbols[i].name_len, first = 0;
        while (symbols[first].code || symbols[first].n_type & GM_N_STAB || symbols[first].name_len != len ||
               memcmp(g->bytes + symbols[first].name, name, len))
            first++;
        gm_found_symbol found;
        if (gm_symbol_named(OF, name, len, &found, NULL, NULL) || !found.is_found || found.index != first || found.distance) DIE("another symbol %.*s",
            (int)len, name);
    }
    gm_found_symbol found;
    gm_error e;
    static const gm_found_symbol none;
    memset(&found, 0x5a, sizeof found);
    if (gm_symbol_named(OF, "there is no such name", 21, &found, NULL, &e) || memcmp(&found, &none, sizeof found)) DIE("a symbol of no name");
    memset(&found, 0x5a, sizeof found);
    if (gm_symbol_at(OF, UINT64_MAX, &found, NULL, &e) || found.symbol.reserved || found.reserved) DIE("a reserved byte of a symbol");
    if (gm_symbol_named(OF, "\xff", 1, &found, NULL, &e) != GM_MALFORMED || e.code != GM_MALFORMED) DIE("a name that is no text");
    uint64_t written = 7;
    if (gm_symbols_named(OF, "\xff", 1, 0, &found, 1, &written, NULL, &e) != GM_MALFORMED || written != 7) DIE("symbols of no text");
    if (gm_symbols_named(OF, "a", 1, 0, NULL, 0, &written, NULL, &e) != GM_NO_ROWS || written != 7) DIE("an array of no rows");
    if (gm_symbols_named(OF, "there is no such name", 21, 0, &found, 1, &written, NULL, &e) || written) DIE("symbols of no name");
    for (uint64_t k = 1;; k++) {
        counted c = {0, k, 0};
        gm_memory m = {&c, take, give};
        memset(&found, 0x5a, sizeof found);
        uint32_t code = gm_symbol_at(OF, 1, &found, &m, &e);
        if (c.held) DIE("a block was kept");
        if (code != GM_NO_MEMORY) break;
        if (found.is_found != 0x5a5a5a5a) DIE("a refusal wrote a symbol");
    }
}

/* ---- sections and segments */

static void parts(const given *g, const gm_symbol *symbols, uint64_t symbol_count, const gm_function_start *starts, uint64_t start_count) {
    static gm_segment segments[MANY];
    static gm_numbered_section all[MANY];
    uint64_t count = gm_segments(OF, 0, segments, MANY), n = 0, known = gm_all_sections(OF, 0, all, MANY);
    uint64_t base = 0;
    bool ended = false, has_base = false;
    for (uint64_t i = 0; i < count; i++) {
        gm_segment named = {0};
        const char *name = (const char *)segments[i].name;
        if (!has_base && !memcmp(name, "__TEXT\0", 7)) has_base = true, base = segments[i].vmaddr;
        uint64_t len = name_len(segments[i].name), first = 0, number, from = segments[i].fileoff, to = segments[i].vmaddr;
        while (name_len(segments[first].name) != len || memcmp(segments[first].name, name, len)) first++;
        if (!gm_segment_named(OF, name, len, &named) || memcmp(&named, &segments[first], sizeof named)) DIE("another segment %.16s", name);
        uint64_t mapped = segments[i].filesize < segments[i].vmsize ? segments[i].filesize : segments[i].vmsize;
        for (uint64_t k = 0, steps = mapped < 8 ? mapped : 8; k < steps; k++) {
            uint64_t far = k < 4 ? k : mapped - 1 - (k - 4);
            uint64_t j = 0;
            while (from + far < segments[j].fileoff
                || from + far - segments[j].fileoff >= (segments[j].filesize < segments[j].vmsize ? segments[j].filesize : segments[j].vmsize)) j++;
            bool is = gm_address_of_offset(OF, from + far, &number);
            if (from + far < from) continue;
            uint64_t wanted = segments[j].vmaddr + (from + far - segments[j].fileoff);
            if (is ? number != wanted : wanted >= segments[j].vmaddr) DIE("another address of %" PRIx64, from + far);
            if (to + far < to) continue;
            is = gm_offset_of_address(OF, to + far, &number);
            for (j = 0; to + far < segments[j].vmaddr
                || to + far - segments[j].vmaddr >= (segments[j].filesize < segments[j].vmsize ? segments[j].filesize : segments[j].vmsize);) j++;
            wanted = segments[j].fileoff + (to + far - segments[j].vmaddr);
            if (is ? number != wanted : wanted >= segments[j].fileoff) DIE("another offset of %" PRIx64, to + far);
        }
        gm_section s;
        for (uint64_t k = 0; !ended && gm_sections(OF, segments[i].command, segments[i].sections, k, &s, 1); k++, n++) {
            if (n == MANY) return;
            ended = s.code != GM_OK;
            if (n >= known || memcmp(&all[n].section, &s, sizeof s)) DIE("another section %" PRIu64 " of all", n);
            if (!ended && (all[n].command != segments[i].command || all[n].index != k)) DIE("section %" PRIu64 " of another segment", n);
            if (all[n].number != n + 1 || all[n].reserved) DIE("section %" PRIu64 " of another number", n);
            if (ended) break;
            gm_found_section found;
            gm_error e;
            if (gm_section_named(OF, (const char *)s.segment, name_len(s.segment), (const char *)s.name, name_len(s.name), &found, NULL, &e)) {
                if (e.code != GM_MALFORMED) DIE("no section of a name");
            } else if (!found.is_found || memcmp(found.name, s.name, name_len(s.name)) || memcmp(found.segment_name, s.segment, name_len(s.segment)))
                DIE("another section %.16s", (const char *)s.name);
            for (uint64_t at = 0; at < s.size && at < 3; at++) {
                uint64_t address = at == 2 ? s.addr + s.size - 1 : s.addr + at;
                symbol_at(g, symbols, symbol_count, address);
                function_at(g, starts, start_count, address);
            }
        }
        if (ended) n++;
        if (ended) break;
    }
    if (n + (uint64_t)ended < known) DIE("too many sections of all");
    if (!ended && count < MANY && g->image.base != base) DIE("the base is %" PRIx64, g->image.base);
}

/* ---- what single commands say, by their bytes */

static uint32_t word(const given *g, uint64_t at) {
    const uint8_t *b = g->bytes + at;
    return g->image.is_little_endian ? b[0] | b[1] << 8 | b[2] << 16 | (uint32_t)b[3] << 24 : b[3] | b[2] << 8 | b[1] << 16 | (uint32_t)b[0] << 24;
}
static uint64_t wide(const given *g, uint64_t at) {
    uint64_t a = word(g, at), b = word(g, at + 4);
    return g->image.is_little_endian ? b << 32 | a : a << 32 | b;
}

static bool is_text(const given *g, uint64_t at, uint64_t place, uint64_t len, uint32_t code) {
    return code ? !place && !len : place == at && place + len < g->len && !g->bytes[place + len];
}

static uint64_t len_before_zero(const uint8_t *at, uint64_t limit) {
    uint64_t len = 0;
    while (len < limit && at[len]) len++;
    return len;
}

/* Checks a field of a command by the bytes. It is at a place in the command. */
static void field(const given *g, const gm_command *c, const gm_command_field *r, uint64_t at) {
    if (at + r->width > c->size || !r->name[0] || r->name[23] || r->kind > GM_FIELD_UUID || r->reserved) DIE("a field past its command, or without a name");
    bool is_text = r->kind == GM_FIELD_TEXT, is_uuid = r->kind == GM_FIELD_UUID, is_name = r->kind == GM_FIELD_NAME;
    uint64_t number = r->width == 8 ? wide(g, c->offset + at) : r->width == 4 ? word(g, c->offset + at) : 0;
    if (r->number != number || (r->width == 16) != (is_uuid || is_name) || (is_text && r->width != 4)) DIE("the field %s is another number", r->name);
    bool has_bytes = is_uuid || is_name || (is_text && number < c->size);
    uint64_t place = has_bytes ? c->offset + (is_text ? number : at) : 0, limit = !has_bytes ? 0 : is_text ? c->size - number : 16;
    uint64_t len = is_uuid ? limit : len_before_zero(g->bytes + place, limit);
    if (r->has_bytes != has_bytes || r->place != place || r->len != len) DIE("the field %s has other bytes", r->name);
}

/* Checks the fields of a command: they lie one after the other after cmd and cmdsize. */
static void fields(const given *g, const gm_command *c) {
    static const char *const names[] = {"symoff", "nsyms", "stroff", "strsize"};
    gm_command_field rows[GM_COMMAND_FIELDS + 1], one;
    memset(rows, 0x5a, sizeof rows);
    uint64_t n = gm_command_fields(OF, c, 0, rows, GM_COMMAND_FIELDS + 1), at = 8;
    if (n > GM_COMMAND_FIELDS || rows[n].name[0] != 0x5a || rows[n].reserved != 0x5a5a5a5a) DIE("a field too many");
    for (uint64_t k = 0; k < n; at += rows[k++].width, said++) {
        field(g, c, &rows[k], at);
        if (gm_command_fields(OF, c, k, &one, 1) != 1 || memcmp(&one, &rows[k], sizeof one)) DIE("another field by its index");
        if (c->cmd == GM_LC_SYMTAB && strcmp(rows[k].name, names[k])) DIE("the field %s of symbols", rows[k].name);
    }
    if (gm_command_fields(OF, c, n, &one, 1) || gm_command_fields(OF, c, 0, NULL, 0)) DIE("fields without end or room");
}

static void commands_say(const given *g) {
    bool x86 = g->image.cputype == GM_CPU_TYPE_X86 || g->image.cputype == GM_CPU_TYPE_X86_64;
    bool has_uuid = false, has_version = false, has_part = false, has_linker = false;
    uint64_t versions = 0, settings = 0, entries = 0, version, n;
    gm_command c;
    gm_image_uuid uuid;
    gm_encrypted_part part;
    gm_command_text text;
    for (uint64_t i = 0; gm_commands(OF, i, &c, 1); i++) {
        fields(g, &c);
        uint64_t at = c.offset;
        uint32_t platform = 0, minos = at + 8;
        switch (c.cmd) {
        case GM_LC_UUID:
            if (!has_uuid && (!gm_uuid(OF, &uuid) || memcmp(uuid.bytes, g->bytes + at + 8, 16))) DIE("another uuid");
            has_uuid = true;
            break;
        case GM_LC_SOURCE_VERSION:
            if (!has_version && (!gm_source_version(OF, &version) || version != wide(g, at + 8))) DIE("another version of the source");
            has_version = true;
            break;
        case GM_LC_ENCRYPTION_INFO: case GM_LC_ENCRYPTION_INFO_64:
            if (!has_part && (!gm_encryption(OF, &part) || part.offset != word(g, at + 8) || part.size != word(g, at + 12) || part.id != word(g, at + 16)))
                DIE("another encrypted part");
            has_part = true;
            break;
        case GM_LC_LOAD_DYLINKER:
            if (!has_linker && (!gm_dylinker(OF, &text) || text.command != at || !is_text(g, at + word(g, at + 8), text.text, text.text_len, text.code)))
                DIE("another dynamic linker");
            has_linker = true;
            break;
        case GM_LC_DYLD_ENVIRONMENT:
            if (gm_dyld_environment(OF, settings++, &text, 1) != 1 || text.command != at || !is_text(g, at + word(g, at + 8), text.text, text.text_len,
                text.code))
                DIE("another variable");
            break;
        case GM_LC_FILESET_ENTRY: {
            gm_fileset_entry entry;
            if (gm_fileset_entries(OF, entries++, &entry, 1) != 1 || entry.address != wide(g, at + 8) || entry.offset != wide(g, at + 16)
                || !is_text(g, at + word(g, at + 24), entry.name, entry.name_len, entry.code))
                DIE("another entry of a file set");
            break;
        }
        case GM_LC_BUILD_VERSION: platform = word(g, at + 8), minos = (uint32_t)at + 12; break;
        case GM_LC_VERSION_MIN_MACOSX: platform = GM_PLATFORM_MACOS; break;
        case GM_LC_VERSION_MIN_IPHONEOS: platform = x86 ? GM_PLATFORM_IOSSIMULATOR : GM_PLATFORM_IOS; break;
        case GM_LC_VERSION_MIN_TVOS: platform = x86 ? GM_PLATFORM_TVOSSIMULATOR : GM_PLATFORM_TVOS; break;
        case GM_LC_VERSION_MIN_WATCHOS: platform = x86 ? GM_PLATFORM_WATCHOSSIMULATOR : GM_PLATFORM_WATCHOS; break;
        }
        gm_build_version v;
        if (platform && (gm_build_versions(OF, versions++, &v, 1) != 1 || v.command != at || v.platform != platform || v.minos != word(g, minos)
                         || v.sdk != word(g, (uint64_t)minos + 4) || v.reserved))
            DIE("another platform");
    }
    gm_build_version v;
    gm_fileset_entry entry;
    n = gm_build_versions(OF, versions, &v, 1) + gm_dyld_environment(OF, settings, &text, 1) + gm_fileset_entries(OF, entries, &entry, 1);
    memset(&uuid, 0x5a, sizeof uuid);
    if (n || (!has_uuid && (gm_uuid(OF, &uuid) || uuid.bytes[15] != 0x5a)) || (!has_version && gm_source_version(OF, &version))
        || (!has_part && gm_encryption(OF, &part)) || (!has_linker && gm_dylinker(OF, &text)))
        DIE("what no command says");
    said += has_uuid + has_version + has_part + has_linker + versions + settings + entries;
}

/* ---- exports by a callback: those of the walk, until the callback says stop, and with memory that is refused */

typedef struct { const given *g; uint64_t count, stop; } visits;
static int visit(void *user, const gm_listed_export *item, const char *name) {
    visits *v = user;
    gm_export one;
    const gm_export *e = &item->what;
    uint64_t from = (e->flags & GM_EXPORT_SYMBOL_FLAGS_KIND_MASK) == GM_EXPORT_SYMBOL_FLAGS_KIND_ABSOLUTE && e->kind == GM_ADDRESS ? 0 : v->g->image.base;
    if (strlen(name) != item->name_len) DIE("a name without its zero byte");
    if (e->kind == GM_REEXPORTED ? e->address || e->offset || e->resolver : e->address != from + e->offset) DIE("export %s is at another address", name);
    if (e->kind != GM_STUB && e->resolver) DIE("export %s has a resolver", name);
    if (v->count < 20 && !gm_find_export(v->g->bytes, v->g->len, &v->g->image, name, item->name_len, &one, NULL, 0, NULL, 0, NULL, NULL)
        && gm_exports_are_a_tree(v->g->bytes, v->g->len, &v->g->image, NULL, NULL) == GM_OK
        && (one.kind != item->what.kind || one.address != item->what.address))
        DIE("export %s is another", name);
    return ++v->count == v->stop;
}

static uint64_t walked(const given *g, uint32_t *code) {
    static gm_listed_export rows[7];
    static gm_open_node stack[1 << 12];
    static char name[1 << 14], names[1 << 16];
    gm_export_walk walk = {0};
    gm_export_room room = {name, sizeof name, stack, sizeof stack / sizeof *stack, rows, 7, names, sizeof names};
    gm_export_batch batch;
    uint64_t count = 0;
    do {
        *code = gm_exports(OF, &walk, &room, &batch, NULL, NULL);
        count += batch.count;
    } while (!*code && batch.end == GM_MORE);
    return count;
}

static void exports(const given *g) {
    uint32_t code, again;
    uint64_t count = walked(g, &code);
    visits v = {g, 0, 0};
    gm_error e;
    again = gm_exports_each(OF, visit, &v, NULL, &e);
    if (again != code || v.count != count) DIE("%" PRIu64 " exports by a callback, and not %" PRIu64, v.count, count);
    v = (visits){g, 0, 1};
    if (count && (gm_exports_each(OF, visit, &v, NULL, &e) || v.count != 1)) DIE("a callback that isn't the last");
    for (uint64_t k = 1; k < 40; k++) {
        counted c = {0, k, 0};
        gm_memory m = {&c, take, give};
        v = (visits){g, 0, 0};
        again = gm_exports_each(OF, visit, &v, &m, &e);
        if (c.held) DIE("a block was kept");
        if (again != GM_NO_MEMORY && (again != code || v.count != count)) DIE("memory changed the exports");
        if (c.asked < k) break;
    }
}

static void check(const uint8_t *bytes, uint64_t len) {
    static gm_symbol symbols[MANY];
    static gm_function_start starts[MANY];
    given held = {bytes, len, {0}}, *g = &held;
    gm_error e;
    for (uint32_t mode = GM_STRICT; mode <= GM_LOSSY; mode++) {
        if (gm_open(bytes, len, 0, mode, NULL, &g->image, &e)) continue;
        gm_start_cursor at = {0};
        uint64_t start_count = 0, symbol_count = gm_symbols(OF, 0, symbols, MANY);
        if (gm_function_starts(OF, &at, starts, MANY, &start_count, NULL, &e)) DIE("no starts: %s", e.text);
        commands_say(g);
        symbols_named(g, symbols, symbol_count);
        symbol_map(g, symbols, symbol_count);
        parts(g, symbols, symbol_count, starts, start_count);
        exports(g);
    }
}

/* ---- kinds, images for a cpu, texts */

static void check_kinds(void) {
#define STARTS(bytes, kind) {(const uint8_t *)bytes, sizeof bytes - 1, kind}
    static const struct { const uint8_t *bytes; uint64_t len; uint32_t kind; } rows[] = {
        STARTS("", GM_KIND_EMPTY), STARTS("\xfe\xed\xfa\xce", GM_KIND_IMAGE), STARTS("\xcf\xfa\xed\xfe", GM_KIND_IMAGE), STARTS("\xcf\xfa\xed",
            GM_KIND_UNKNOWN),
        STARTS("\xca\xfe\xba\xbe\0\0\0\x02", GM_KIND_FAT), STARTS("\xca\xfe\xba\xbe\0\0\0\x1e", GM_KIND_FAT), STARTS("\xca\xfe\xba\xbe\0\0\0\x1f",
            GM_KIND_JAVA_CLASS),
        STARTS("\xca\xfe\xba\xbe", GM_KIND_FAT), STARTS("\xca\xfe\xba\xbf", GM_KIND_FAT_64), STARTS("!<arch>\n", GM_KIND_ARCHIVE), STARTS("!<thin>\n",
            GM_KIND_ARCHIVE),
        STARTS("!<arch>", GM_KIND_TEXT), STARTS("\x7f" "ELF", GM_KIND_ELF), STARTS("MZ", GM_KIND_PE), STARTS("BC\xc0\xde", GM_KIND_BITCODE),
        STARTS("\xde\xc0\x17\x0b", GM_KIND_BITCODE), STARTS("text", GM_KIND_TEXT), STARTS("te\x01", GM_KIND_UNKNOWN)};
    for (uint64_t i = 0; i < sizeof rows / sizeof *rows; i++)
        if (gm_kind(rows[i].bytes, rows[i].len) != rows[i].kind) DIE("kind %" PRIu64 " is %u", i, gm_kind(rows[i].bytes, rows[i].len));
}

static void put(uint8_t *at, uint64_t number, int bytes) {
    for (int i = 0; i < bytes; i++) at[i] = (uint8_t)(number >> 8 * (bytes - 1 - i));
}

/* Checks a fat file of four entries, of 32 or 64 bits: arm64e with a capability, arm64 twice, and x86-64 that isn't in the file. */
static void check_images(bool is_64) {
    static const struct { uint64_t cputype, cpusubtype, offset, size; } entries[] = {
        {GM_CPU_TYPE_ARM64, 0x80000002, 200, 10}, {GM_CPU_TYPE_ARM64, 0, 210, 90}, {GM_CPU_TYPE_ARM64, 0, 250, 1}, {GM_CPU_TYPE_X86_64, 3, 290, 11}};
    static const struct { uint32_t cputype, cpusubtype, code; uint64_t offset; } asked[] = {
        {GM_CPU_TYPE_ARM64, GM_CPU_SUBTYPE_ARM64E, GM_OK, 200}, {GM_CPU_TYPE_ARM64, 0x01000002, GM_OK, 200}, {GM_CPU_TYPE_ARM64, 0, GM_OK, 210},
        {GM_CPU_TYPE_ARM64, GM_CPU_SUBTYPE_ANY, GM_OK, 200}, {GM_CPU_TYPE_ARM64, 1, GM_NO_IMAGE, 0}, {GM_CPU_TYPE_X86_64, 3, GM_SHORT, 0},
        {GM_CPU_TYPE_X86_64, GM_CPU_SUBTYPE_ANY, GM_SHORT, 0}, {GM_CPU_TYPE_ARM, GM_CPU_SUBTYPE_ANY, GM_NO_IMAGE, 0}};
    uint8_t bytes[300] = {0xca, 0xfe, 0xba, is_64 ? 0xbf : 0xbe, 0, 0, 0, 4};
    for (int i = 0; i < 4; i++) {
        uint8_t *at = bytes + 8 + i * (is_64 ? 32 : 20);
        int width = is_64 ? 8 : 4;
        put(at, entries[i].cputype, 4);
        put(at + 4, entries[i].cpusubtype, 4);
        put(at + 8, entries[i].offset, width);
        put(at + 8 + width, entries[i].size, width);
    }
    for (uint64_t i = 0; i < sizeof asked / sizeof *asked; i++) {
        gm_fat_entry64 one = {7, 7, 7, 7, 7, 7};
        gm_error e = {0};
        uint32_t code = gm_image_for(bytes, sizeof bytes, asked[i].cputype, asked[i].cpusubtype, &one, &e);
        if (code != asked[i].code || e.code != code || (code ? one.offset != 7 : one.offset != asked[i].offset)) DIE("image %" PRIu64 ": code %u", i, code);
    }
    gm_fat_entry64 cut;
    gm_error why;
    if (gm_image_for(bytes, sizeof bytes, GM_CPU_TYPE_X86_64, 3, &cut, &why) != GM_SHORT
        || strcmp(why.text, "entry 3 is out of the file: it ends at 0x12d, the file at 0x12c")) DIE("the words %s", why.text);
    if (is_64) {
        uint8_t far[40];
        memcpy(far, bytes, sizeof far);
        put(far + 4, 1, 4);
        put(far + 16, UINT64_MAX, 8);
        if (gm_image_for(far, sizeof far, GM_CPU_TYPE_ARM64, GM_CPU_SUBTYPE_ANY, &cut, &why) != GM_SHORT
            || strcmp(why.text, "entry 0 is out of the file: it ends at 0xffffffffffffffff, the file at 0x28")) DIE("the words %s", why.text);
    }
    gm_fat_entry64 rows[5];
    gm_fat_entry narrow[5];
    if (gm_fat_entries64(bytes, sizeof bytes, 0, rows, 5) != 4 || rows[2].code || rows[3].code != GM_SHORT
        || rows[3].size != 11) DIE("an entry that isn't in the file");
    if (!is_64 && (gm_fat_entries(bytes, sizeof bytes, 0, narrow, 5) != 4 || narrow[2].code || narrow[3].code != GM_SHORT
        || narrow[3].size != 11)) DIE("another entry");
    static const uint8_t thin[12] = {0xce, 0xfa, 0xed, 0xfe, 12, 0, 0, 0, 9, 0, 0, 0};
    gm_fat_entry64 one;
    if (gm_image_for(thin, 12, GM_CPU_TYPE_ARM, GM_CPU_SUBTYPE_ARM_V7, &one, NULL) || one.offset || one.size != 12) DIE("a thin file");
    if (gm_image_for(thin, 12, GM_CPU_TYPE_ARM, GM_CPU_SUBTYPE_ARM_V7S, &one, NULL) != GM_NO_IMAGE) DIE("a thin file for another cpu");
    if (gm_image_for(thin, 11, GM_CPU_TYPE_ARM, GM_CPU_SUBTYPE_ANY, &one, NULL) != GM_NO_IMAGE) DIE("a thin file without a cpu");
    if (gm_image_for(NULL, 0, GM_CPU_TYPE_ARM, GM_CPU_SUBTYPE_ANY, &one, NULL) != GM_NO_IMAGE) DIE("no file");
}

static void check_texts(void) {
    static const struct { const char *name; uint64_t len; const char *text; } rows[] = {
        {"", 0, ""}, {"_main", 5, "_main"}, {"__TEXT\0\0\0\0\0\0\0\0\0\0", 16, "__TEXT"}, {"a\0b", 3, "a\\x00b"}, {"a\\b", 3, "a\\\\b"}, {"\x1b[2J\n", 5,
            "\\x1b[2J\\x0a"},
        {"\x7f", 1, "\\x7f"}, {"\xc3\xa4", 2, "\xc3\xa4"}, {"\xc2\x85", 2, "\\xc2\\x85"}, {"\xe2\x80\xae", 3, "\\xe2\\x80\\xae"}, {"\xe2\x80\xa6", 3,
            "\xe2\x80\xa6"},
        {"\xe2\x81\xa9x", 4, "\\xe2\\x81\\xa9x"}, {"\xff", 1, "\\xff"}, {"\xc2\xac", 2, "\xc2\xac"}, {"\xc2\xad", 2, "\\xc2\\xad"},
        {"\xd8\x9c", 2, "\\xd8\\x9c"}, {"\xd8\x9d", 2, "\xd8\x9d"}, {"\xe1\xa0\x8e", 3, "\\xe1\\xa0\\x8e"}, {"\xe2\x80\x8a", 3, "\xe2\x80\x8a"},
        {"\xe2\x80\x8b", 3, "\\xe2\\x80\\x8b"}, {"\xe2\x80\x90", 3, "\xe2\x80\x90"}, {"\xe2\x81\xa0", 3, "\\xe2\\x81\\xa0"},
        {"\xe2\x81\xaf", 3, "\\xe2\\x81\\xaf"}, {"\xe2\x81\xb0", 3, "\xe2\x81\xb0"}, {"\xef\xbb\xbf", 3, "\\xef\\xbb\\xbf"},
        {"\xef\xbf\xb9", 3, "\\xef\\xbf\\xb9"}, {"\xef\xbf\xbc", 3, "\xef\xbf\xbc"}, {"\xf3\xa0\x80\x81", 4, "\\xf3\\xa0\\x80\\x81"},
        {"\xf3\xa0\x80\xa0", 4, "\\xf3\\xa0\\x80\\xa0"}, {"\xf3\xa0\x81\xbf", 4, "\\xf3\\xa0\\x81\\xbf"}, {"\xf3\xa0\x82\x80", 4, "\xf3\xa0\x82\x80"},
        {"\xc3", 1, "\\xc3"}, {"\xed\xa0\x80", 3, "\\xed\\xa0\\x80"}, {"\xf0\x9f\x98\x80", 4, "\xf0\x9f\x98\x80"},
        {"\xf4\x90\x80\x80", 4, "\\xf4\\x90\\x80\\x80"}, {"\xe0\x9f\xbf", 3, "\\xe0\\x9f\\xbf"}, {"\xc0\x80", 2, "\\xc0\\x80"}};
    for (uint64_t i = 0; i < sizeof rows / sizeof *rows; i++)
        for (uint64_t cap = 0; cap < 24; cap++) {
            char out[24];
            memset(out, 'z', sizeof out);
            uint64_t needed = gm_text(cap ? out : NULL, cap, rows[i].name, rows[i].len), len = strlen(rows[i].text);
            if (needed != len + 1) DIE("text %" PRIu64 " needs %" PRIu64, i, needed);
            if (!cap) continue;
            if (strlen(out) >= cap || strncmp(out, rows[i].text, strlen(out)) || (cap > len && strcmp(out, rows[i].text))) DIE("text %" PRIu64 " is %s", i,
                out);
            if (cap < 24 && out[cap] != 'z') DIE("a byte past the text");
        }
}

int main(int argc, char **argv) {
    check_kinds();
    check_images(false);
    check_images(true);
    check_texts();
    for (int i = 1; i < argc; i++) {
        FILE *file = fopen(argv[i], "rb");
        if (!file || fseek(file, 0, SEEK_END)) DIE("%s can't be opened", argv[i]);
        uint64_t len = (uint64_t)ftell(file), step = len / 64 + 1;
        uint8_t *bytes = malloc(len + 1);
        rewind(file);
        if (fread(bytes, 1, len, file) != len) DIE("%s can't be read", argv[i]);
        fclose(file);
        for (uint64_t n = len % step; n <= len; n += step) {
            uint8_t *prefix = malloc(n + !n);
            memcpy(prefix, bytes, n);
            check(prefix, n);
            free(prefix);
        }
        free(bytes);
    }
    printf("%" PRIu64 " symbols and %" PRIu64 " functions at addresses, %" PRIu64 " things that commands say\n", found_symbols, found_functions, said);
    return 0;
}
