/* The lists of the C library, each with the line of a row. */
#ifndef LISTS_H
#define LISTS_H
#include "vectors.h"
#include <goblin_mach.h>
#include <inttypes.h>

#define ROWS 7 /* of an array: few, so that a list takes several calls */
#define NO_CODE SIZE_MAX

/* ---- what is asked, and parts of lines */

typedef struct {
    answer to;
    const images *named; /* of the file of vectors */
    const uint8_t *bytes; /* the file */
    size_t len;
    gm_image image;
    size_t segment_number, section_number; /* whose list is visited */
    gm_segment segment;
    gm_section section;
    gm_span held; /* those whose strings are visited */
} asked;

#define PUT(...) put(&a->to.line, __VA_ARGS__)

static void end_line(asked *a) { end_answer_line(&a->to); }

static void say(asked *a, const char *words) {
    PUT("%s", words);
    end_line(a);
}

static const char *error_of(uint32_t code) {
    static const char *const names[] = {"none", "malformed", "bad-magic", "short", "too-short"};
    return code < sizeof names / sizeof *names ? names[code] : gm_code_name(code);
}

static void say_error(asked *a, uint32_t code) {
    PUT("error %s", error_of(code));
    end_line(a);
}

/* Says why a call was refused; if it wasn't, says these words. */
static void say_or_error(asked *a, uint32_t code, const char *none) {
    if (code) say_error(a, code);
    else say(a, none);
}

/* Puts a name in quotes. */
static void put_name(asked *a, const void *name, size_t len) {
    const uint8_t *bytes = name;
    PUT("\"");
    for (size_t i = 0; i < len; i++) PUT(bytes[i] < 0x20 || bytes[i] > 0x7e || strchr("\"\\", bytes[i]) ? "\\x%02x" : "%c", bytes[i]);
    PUT("\"");
}

/* Puts a name of 16 bytes, which ends at its first zero. */
static void put_name16(asked *a, const uint8_t name[16]) {
    const uint8_t *end = memchr(name, 0, 16);
    put_name(a, name, end ? (size_t)(end - name) : 16);
}

static void put_pairs(asked *a, const uint8_t *bytes, size_t len) {
    for (size_t i = 0; i < len; i++) PUT("%02x", bytes[i]);
}

/* Puts words of the header with hyphens. */
static void put_hyphens(asked *a, const char *words) {
    for (; *words; words++) PUT("%c", *words == ' ' ? '-' : *words);
}

/* Puts a name that lies in the file. */
static void put_text(asked *a, size_t at, size_t len) {
    if (at > a->len || len > a->len - at) differ(&a->to, "a text in the file", "a text outside of it");
    else put_name(a, len ? a->bytes + at : NULL, len);
}

/* Returns the name of a library by its ordinal, or NULL. Ordinal 0 is the image itself; without a name of its own, it is called self. */
static const void *library_name(const asked *a, uint64_t ordinal, size_t *len) {
    gm_library library;
    gm_id id;
    const void *found = ordinal ? NULL : "self";
    *len = ordinal ? 0 : 4;
    if (ordinal && gm_libraries(a->bytes, a->len, &a->image, (size_t)ordinal - 1, &library, 1)) {
        found = a->bytes + library.name;
        *len = library.name_len;
    }
    for (size_t k = 0; !ordinal && gm_ids(a->bytes, a->len, &a->image, k, &id, 1); k++) {
        found = a->bytes + id.name;
        *len = id.name_len;
    }
    return found;
}

static void put_library(asked *a, uint64_t ordinal) {
    size_t len;
    const void *name = library_name(a, ordinal, &len);
    if (name) put_name(a, name, len);
    else PUT("(no library)");
}

static void put_provider(asked *a, uint32_t provider, uint64_t library) {
    static const char *const others[] = {"", "itself", "main-executable", "flat", "weak-look-up"};
    if (provider != GM_OF_LIBRARY) {
        PUT("%s", provider <= GM_OF_ANY_WEAK ? others[provider] : "(no provider)");
        return;
    }
    PUT("%" PRIu64 " ", library);
    put_library(a, library);
}

static void put_place(asked *a, uint64_t address, uint64_t offset, int64_t addend) {
    PUT(" at 0x%" PRIx64 " 0x%" PRIx64 " addend %" PRId64, address, offset, addend);
}

static void put_flags(asked *a, uint32_t is_weak, uint32_t is_lazy) { PUT("%s%s", is_weak ? " weak" : "", is_lazy ? " lazy" : ""); }

static void put_signed(asked *a, uint32_t is_signed, uint32_t key, uint32_t diversity, uint32_t by_address) {
    if (is_signed) PUT(" key %u diversity %u%s", key, diversity, by_address ? " by-address" : "");
}

static void put_number(asked *a, const char *word, uint64_t number) {
    if (number == GM_NO_NUMBER) PUT(" %s none", word);
    else PUT(" %s %" PRIu64, word, number);
}

/* ---- lists: a call that writes the rows after a place, and the line of a row */

typedef union {
    size_t first;
    gm_start_cursor starts;
    gm_fixup_cursor fixups;
    gm_bind_cursor binds;
    gm_binding_cursor bindings;
    gm_rebase_cursor rebases;
} place;
typedef uint32_t rows_call(asked *a, place *at, void *out, size_t *count);
typedef void row_line(asked *a, const void *row, size_t number);
typedef struct {
    const char *call;
    rows_call *rows;
    row_line *line;
    size_t size, code; /* of a row, and the place of its code in it */
} list;

#define FILE_OF a->bytes, a->len
#define IMAGE_OF a->bytes, a->len, &a->image

/* lists by number: those that can't be refused, and those that can */
#define BY_NUMBER(name, row, ...) \
    static uint32_t name##_rows(asked *a, place *at, void *out, size_t *count) { \
        row *rows = out; \
        *count = gm_##name(__VA_ARGS__, at->first, rows, ROWS); \
        at->first += *count; \
        return GM_OK; \
    }
#define BY_NUMBER_OR_REFUSED(name, row, ...) \
    static uint32_t name##_rows(asked *a, place *at, void *out, size_t *count) { \
        row *rows = out; \
        uint32_t code = gm_##name(__VA_ARGS__, at->first, rows, ROWS, count, NULL, NULL); \
        at->first += code ? 0 : *count; \
        return code; \
    }
#define BY_CURSOR(name, row, cursor) \
    static uint32_t name##_rows(asked *a, place *at, void *out, size_t *count) { \
        row *rows = out; \
        return gm_##name(IMAGE_OF, &at->cursor, rows, ROWS, count, NULL, NULL); \
    }
#define LINE(name, row, ...) \
    static void name##_line(asked *a, const void *at, size_t number) { \
        const row *r = at; \
        (void)number; \
        __VA_ARGS__; \
        end_line(a); \
    }

#define CODE_OF(row) offsetof(row, code)
#define LIST(call, name, row, code) {call, name##_rows, name##_line, sizeof(row), code}

static void each_row(asked *a, const list *l);

BY_NUMBER(commands, gm_command, IMAGE_OF)
LINE(commands, gm_command, PUT("command 0x%" PRIx32 " at 0x%zx size %zu", r->cmd, r->offset, r->size))

BY_NUMBER(segments, gm_segment, IMAGE_OF)
LINE(segments, gm_segment,
     PUT("segment ");
     put_name16(a, r->name);
     PUT(" at 0x%" PRIx64 " size 0x%" PRIx64 " file 0x%" PRIx64 " 0x%" PRIx64 " data %zu", r->vmaddr, r->vmsize, r->fileoff, r->filesize, r->data_len);
     PUT(" protection 0x%" PRIx32 " 0x%" PRIx32 " sections %" PRIu32 " flags 0x%" PRIx32, r->initprot, r->maxprot, r->sections, r->flags))

BY_NUMBER(sections, gm_section, IMAGE_OF, a->segment.command, a->segment.sections)
LINE(sections, gm_section,
     PUT("section %zu ", a->segment_number);
     put_name16(a, r->name);
     PUT(" of ");
     put_name16(a, r->segment);
     PUT(" at 0x%" PRIx64 " size 0x%" PRIx64 " offset 0x%" PRIx32 " data %zu", r->addr, r->size, r->offset, r->data_len);
     PUT(" align %" PRIu32 " relocations %" PRIu32 " at 0x%" PRIx32 " flags 0x%" PRIx32, r->align, r->nreloc, r->reloff, r->flags))

BY_NUMBER(relocations, gm_relocation, IMAGE_OF, a->section.reloff, a->section.nreloc)
LINE(relocations, gm_relocation,
     PUT("relocation %zu %zu address 0x%" PRIx32 " info 0x%" PRIx32, a->segment_number, a->section_number, (uint32_t)r->address, r->info))

/* lists in lists: each segment visits its sections, and each section its relocations */
static const list list_of_sections = {"", sections_rows, sections_line, sizeof(gm_section), CODE_OF(gm_section)};
static const list list_of_relocations = {"", relocations_rows, relocations_line, sizeof(gm_relocation), CODE_OF(gm_relocation)};

static void of_section(asked *a, const void *row, size_t number) {
    memcpy(&a->section, row, sizeof a->section);
    a->section_number = number;
    each_row(a, &list_of_relocations);
}

static const list list_of_relocated = {"", sections_rows, of_section, sizeof(gm_section), CODE_OF(gm_section)};

static void of_segment(asked *a, const void *row, size_t number, const list *inner) {
    memcpy(&a->segment, row, sizeof a->segment);
    a->segment_number = number;
    each_row(a, inner);
}

static void sections_of_line(asked *a, const void *row, size_t number) { of_segment(a, row, number, &list_of_sections); }
static void relocations_of_line(asked *a, const void *row, size_t number) { of_segment(a, row, number, &list_of_relocated); }

BY_NUMBER(symbols, gm_symbol, IMAGE_OF)
LINE(symbols, gm_symbol,
     PUT("symbol ");
     put_text(a, r->name, r->name_len);
     PUT(" value 0x%" PRIx64 " type 0x%x section %zu description 0x%x", r->value, r->n_type, r->section, r->desc))

static void providers_line(asked *a, const void *row, size_t number) {
    gm_provider found;
    (void)number;
    gm_symbol_provider(&a->image, row, &found);
    if (found.code) {
        say_error(a, found.code);
        return;
    }
    PUT(found.is_reported ? "provider " : "none");
    if (found.is_reported) put_provider(a, found.provider, found.library);
    end_line(a);
}

static const char *const kinds_of_libraries[] = {"required", "weak", "reexport", "upward", "lazy"};
BY_NUMBER(libraries, gm_library, IMAGE_OF)
LINE(libraries, gm_library,
     PUT("library %zu ", number + 1);
     put_text(a, r->name, r->name_len);
     PUT(" %s timestamp %" PRIu32, r->kind <= GM_LAZY ? kinds_of_libraries[r->kind] : "(no kind)", r->timestamp);
     PUT(" current 0x%" PRIx32 " compatible 0x%" PRIx32, r->current_version, r->compatibility_version);
     PUT("%s%s", r->attributes & GM_USED_WEAK ? " used-weak" : "", r->attributes & GM_USED_REEXPORT ? " used-reexport" : "");
     PUT("%s%s", r->attributes & GM_USED_UPWARD ? " used-upward" : "", r->attributes & GM_USED_DELAYED ? " used-delayed" : ""))

BY_NUMBER(run_paths, gm_run_path, IMAGE_OF)
LINE(run_paths, gm_run_path, PUT("path "); put_text(a, r->path, r->path_len))
BY_NUMBER(ids, gm_id, IMAGE_OF)
LINE(ids, gm_id, PUT("id "); put_text(a, r->name, r->name_len))
BY_CURSOR(function_starts, gm_function_start, starts)
LINE(function_starts, gm_function_start, PUT("start 0x%" PRIx64, r->address))
BY_NUMBER(data_in_code, gm_data_in_code_entry, IMAGE_OF)
LINE(data_in_code, gm_data_in_code_entry, PUT("data 0x%" PRIx32 " length %u kind %u", r->offset, r->length, r->kind))

static const char *const owners[] = {"", "local", "absolute", "local-absolute"};
BY_NUMBER(indirect_symbols, gm_indirect_symbol, IMAGE_OF)
LINE(indirect_symbols, gm_indirect_symbol,
     if (r->kind == GM_INDIRECT_SYMBOL) PUT("indirect %" PRIu32, r->symbol);
     else PUT("indirect %s", r->kind <= GM_INDIRECT_LOCAL_ABSOLUTE ? owners[r->kind] : "(no kind)"))

BY_NUMBER(linker_options, gm_linker_option, IMAGE_OF)
LINE(linker_options, gm_linker_option, PUT("option "); put_text(a, r->text, r->text_len); PUT(" of 0x%zx", r->command))
BY_NUMBER(build_tools, gm_build_tool, IMAGE_OF)
LINE(build_tools, gm_build_tool, PUT("tool %" PRIu32 " version 0x%" PRIx32 " of 0x%zx", r->tool, r->version, r->command))
BY_NUMBER(notes, gm_note, IMAGE_OF)
LINE(notes, gm_note,
     PUT("note ");
     put_text(a, r->owner, r->owner_len);
     if (r->size) PUT(" at 0x%" PRIx64, r->place);
     PUT(" size %zu of 0x%zx", r->size, r->command))

static const char *const kinds_of_slots[] = {"(no slot)", "pointer", "lazy-pointer", "stub", "lazy-library-pointer", "thread-local-pointer"};
BY_NUMBER_OR_REFUSED(slots, gm_slot, IMAGE_OF)
LINE(slots, gm_slot,
     PUT("slot %s at 0x%" PRIx64 " size %" PRIu64, r->kind <= GM_SLOT_THREAD_LOCAL_POINTER ? kinds_of_slots[r->kind] : "(no kind)", r->address, r->len);
     PUT(" segment %zu section %" PRIu32 " index %" PRIu32 " of ", r->segment, r->section_index, r->index);
     if (r->owner != GM_INDIRECT_SYMBOL) PUT("%s", r->owner <= GM_INDIRECT_LOCAL_ABSOLUTE ? owners[r->owner] : "(no kind)");
     else PUT("%" PRIu32 " ", r->symbol), put_text(a, r->name, r->name_len))

BY_NUMBER_OR_REFUSED(initializers, gm_initializer, IMAGE_OF)
LINE(initializers, gm_initializer,
     PUT("initializer at 0x%" PRIx64 " target 0x%" PRIx64 " segment %zu section %" PRIu32, r->slot, r->target, r->segment, r->section_index))

BY_NUMBER(strings, gm_span, a->bytes + a->held.place, a->held.len)
LINE(strings, gm_span, PUT("string 0x%zx ", r->place); put_text(a, a->held.place + r->place, r->len))

BY_CURSOR(opcode_imports, gm_import, binds)
LINE(opcode_imports, gm_import,
     PUT("import ");
     put_text(a, r->name, r->name_len);
     PUT(" of ");
     put_library(a, r->library);
     PUT(" at 0x%" PRIx64 " 0x%" PRIx64 " size %zu addend %" PRId64, r->address, r->offset, r->size, r->addend);
     PUT(" start %" PRIu64, r->start_of_sequence_offset);
     put_flags(a, r->is_weak, r->is_lazy))

BY_CURSOR(bindings, gm_binding, bindings)
LINE(bindings, gm_binding,
     PUT("binding ");
     put_text(a, r->name, r->name_len);
     PUT(" of ");
     put_provider(a, r->provider, r->library);
     put_place(a, r->address, r->offset, r->addend);
     put_flags(a, r->is_weak, r->is_lazy))

BY_CURSOR(weak_binds, gm_weak_bind, binds)
LINE(weak_binds, gm_weak_bind,
     PUT(r->is_strong ? "strong " : "binding ");
     put_text(a, r->name, r->name_len);
     if (!r->is_strong) PUT(" of weak-look-up"), put_place(a, r->address, r->offset, r->addend), put_flags(a, r->is_weak, 0))

static const char *const kinds_of_rebases[] = {"(no kind)", "pointer", "absolute32", "relative32"};
BY_CURSOR(rebases, gm_rebase, rebases)
LINE(rebases, gm_rebase,
     PUT("rebase %s at 0x%" PRIx64, r->kind <= GM_REBASE_TEXT_RELATIVE ? kinds_of_rebases[r->kind] : "(no kind)", r->address);
     PUT(" segment %" PRIu32 " offset 0x%" PRIx64 " target 0x%" PRIx64, r->segment, r->offset, r->target);
     put_signed(a, r->is_signed, r->key, r->diversity, r->is_address_diverse))

BY_CURSOR(fixups, gm_fixup, fixups)
LINE(fixups, gm_fixup,
     if (r->kind == GM_BIND) PUT("bind %" PRIu32 " addend %" PRId32, r->import, r->addend);
     else PUT("%s 0x%" PRIx64, r->kind == GM_REBASE ? "rebase" : "value", r->target);
     PUT(" at 0x%" PRIx64 " segment %" PRIu32 " offset 0x%" PRIx64, r->address, r->segment, r->offset);
     put_signed(a, r->is_signed, r->key, r->diversity, r->is_address_diverse))

/* Writes the entries by the call for both widths. The call for 32 bits must give the same, if they have 32 bits. */
static uint32_t entries_rows(asked *a, place *at, void *out, size_t *count) {
    gm_fat_entry64 *rows = out;
    gm_fat_entry same[ROWS];
    size_t narrow = gm_fat_entries(FILE_OF, at->first, same, ROWS);
    *count = gm_fat_entries64(FILE_OF, at->first, rows, ROWS);
    for (size_t i = 0; i < narrow; i++)
        if (narrow != *count || same[i].cputype != rows[i].cputype || same[i].cpusubtype != rows[i].cpusubtype || same[i].offset != rows[i].offset ||
            same[i].size != rows[i].size || same[i].align != rows[i].align || same[i].code != rows[i].code)
            differ(&a->to, "(the same entries by both calls)", "others");
    for (size_t i = 0; i < *count; i++)
        if (rows[i].cputype || rows[i].offset || rows[i].size) rows[i].code = GM_OK; /* (a record that is read, wherever the entry's bytes are) */
    at->first += *count;
    return GM_OK;
}
LINE(entries, gm_fat_entry64,
     PUT("entry cpu 0x%" PRIx32 " 0x%" PRIx32 " at 0x%" PRIx64, r->cputype, r->cpusubtype, r->offset);
     PUT(" size %" PRIu64 " align %" PRIu32, r->size, r->align))

BY_NUMBER(archive_members, gm_archive_member, FILE_OF)
LINE(archive_members, gm_archive_member,
     PUT("member ");
     if (r->name_code) PUT("(%s)", error_of(r->name_code));
     else put_text(a, r->name, r->name_len);
     PUT(" header 0x%zx at 0x%zx size %zu", r->header, r->data, r->data_len);
     put_number(a, "date", r->date);
     put_number(a, "owner", r->uid);
     put_number(a, "group", r->gid);
     put_number(a, "mode", r->mode))

BY_NUMBER(archive_symbols, gm_archive_symbol, FILE_OF)
LINE(archive_symbols, gm_archive_symbol,
     PUT("symbol ");
     put_text(a, r->name, r->name_len);
     PUT(" member 0x%" PRIx64, r->member))

static void put_owner(asked *a, uint32_t part, uint64_t command, uint64_t index) {
    put_hyphens(a, gm_layout_part(part));
    PUT(" 0x%" PRIx64 " %" PRIu64, command, index);
}
BY_NUMBER_OR_REFUSED(layout_faults, gm_layout_fault, IMAGE_OF)
BY_NUMBER_OR_REFUSED(container_faults, gm_layout_fault, FILE_OF)
static void put_layout_fault(asked *a, const gm_layout_fault *r) {
    put_hyphens(a, gm_layout_rule(r->rule));
    PUT(" of ");
    put_owner(a, r->part, r->command, r->index);
    PUT(" found 0x%" PRIx64 " limit 0x%" PRIx64, r->found, r->limit);
    if (r->other_part) PUT(" other "), put_owner(a, r->other_part, r->other_command, r->other_index);
}
LINE(layout_faults, gm_layout_fault, PUT("fault "); put_layout_fault(a, r))

BY_NUMBER_OR_REFUSED(signature_faults, gm_signature_fault, IMAGE_OF)
static void put_signature_fault(asked *a, const gm_signature_fault *r) {
    PUT("%s slot 0x%" PRIx32 " index %" PRIu32, gm_signature_kind(r->kind), r->slot, r->index);
    PUT(" found 0x%" PRIx64 " limit 0x%" PRIx64, r->found, r->limit);
    if (r->code) PUT(" error %s", error_of(r->code));
}
LINE(signature_faults, gm_signature_fault, PUT("fault "); put_signature_fault(a, r))

static const list lists_of_images[] = {
    LIST("commands", commands, gm_command, NO_CODE),
    LIST("segments", segments, gm_segment, NO_CODE),
    {"sections", segments_rows, sections_of_line, sizeof(gm_segment), NO_CODE},
    {"relocations", segments_rows, relocations_of_line, sizeof(gm_segment), NO_CODE},
    LIST("symbols", symbols, gm_symbol, CODE_OF(gm_symbol)),
    {"providers", symbols_rows, providers_line, sizeof(gm_symbol), CODE_OF(gm_symbol)},
    LIST("libraries", libraries, gm_library, NO_CODE),
    LIST("run-paths", run_paths, gm_run_path, NO_CODE),
    LIST("ids", ids, gm_id, NO_CODE),
    LIST("function-starts", function_starts, gm_function_start, CODE_OF(gm_function_start)),
    LIST("data-in-code", data_in_code, gm_data_in_code_entry, CODE_OF(gm_data_in_code_entry)),
    LIST("indirect-symbols", indirect_symbols, gm_indirect_symbol, CODE_OF(gm_indirect_symbol)),
    LIST("linker-options", linker_options, gm_linker_option, CODE_OF(gm_linker_option)),
    LIST("build-tools", build_tools, gm_build_tool, CODE_OF(gm_build_tool)),
    LIST("notes", notes, gm_note, CODE_OF(gm_note)),
    LIST("slots", slots, gm_slot, CODE_OF(gm_slot)),
    LIST("initializers", initializers, gm_initializer, CODE_OF(gm_initializer)),
    LIST("iter-imports", opcode_imports, gm_import, CODE_OF(gm_import)),
    LIST("bindings", bindings, gm_binding, CODE_OF(gm_binding)),
    LIST("weak-binds", weak_binds, gm_weak_bind, CODE_OF(gm_weak_bind)),
    LIST("rebases", rebases, gm_rebase, CODE_OF(gm_rebase)),
    LIST("fixups", fixups, gm_fixup, CODE_OF(gm_fixup)),
    LIST("layout", layout_faults, gm_layout_fault, NO_CODE),
    LIST("signature-faults", signature_faults, gm_signature_fault, NO_CODE),
};
static const list list_of_strings = LIST("", strings, gm_span, NO_CODE);
static const list lists_of_files[] = {
    LIST("entries", entries, gm_fat_entry64, CODE_OF(gm_fat_entry64)),
    LIST("members", archive_members, gm_archive_member, CODE_OF(gm_archive_member)),
    LIST("archive-symbols", archive_symbols, gm_archive_symbol, CODE_OF(gm_archive_symbol)),
    {"container", container_faults_rows, layout_faults_line, sizeof(gm_layout_fault), NO_CODE},
};

static uint32_t code_of(const list *l, const void *row) {
    uint32_t code = GM_OK;
    if (l->code != NO_CODE) memcpy(&code, (const uint8_t *)row + l->code, sizeof code);
    return code;
}

/* Says each row of a list, and calls once more after the end. */
static void each_row(asked *a, const list *l) {
    uint8_t *rows = longer(NULL, ROWS * l->size);
    size_t count = ROWS, number = 0;
    uint32_t code = GM_OK;
    place at;
    memset(&at, 0, sizeof at);
    while (!code && count == ROWS && !a->to.differs) {
        code = l->rows(a, &at, rows, &count);
        for (size_t i = 0; !code && i < count && !a->to.differs; i++, number++) {
            const uint8_t *row = rows + i * l->size;
            uint32_t fault = code_of(l, row);
            if (fault) say_error(a, fault);
            else l->line(a, row, number);
        }
    }
    if (code) say_error(a, code);
    else if (!a->to.differs && (l->rows(a, &at, rows, &count) || count)) differ(&a->to, "(no more rows)", "a row after the end");
    free(rows);
}

/* Says the end of a list, if no error has ended it. */
static void say_end(asked *a) {
    if (!a->to.is_error) say(a, "end");
}

static void answer_list(asked *a, const list *l) {
    each_row(a, l);
    say_end(a);
}
#endif
