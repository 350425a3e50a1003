/* drive FILE.. answers the vectors of the files by the C library, and compares. README.md says what vectors are. For each vector it prints the first line
   of the answer that differs. Then it prints how many vectors are as expected, and which calls were left out since C has none. The status is 1 if a
   vector differs, and 2 if a file can't be read as vectors. */
#include "audited.h"
#include "resolved.h"
#include "signed.h"

/* ---- answers that are no lists */

static void answer_header(asked *a) {
    const gm_image *i = &a->image;
    PUT("header 0x%" PRIx32 " cpu 0x%" PRIx32 " 0x%" PRIx32 " type %" PRIu32, i->magic, i->cputype, i->cpusubtype, i->filetype);
    PUT(" flags 0x%" PRIx32 " %s %s", i->flags, i->is_64 ? "64" : "32", i->is_little_endian ? "little" : "big");
    end_line(a);
    PUT("holds commands %zu segments %zu libraries %zu run-paths %zu symbols %zu", i->commands, i->segments, i->libraries, i->run_paths, i->symbols);
    PUT(" entry 0x%" PRIx64 "%s", i->entry, i->is_old_style_entry ? " thread" : "");
    end_line(a);
    say(a, "end");
}

/* Says all imports, or only why one can't be read. */
static void answer_imports(asked *a) {
    static const list imports = LIST("imports", opcode_imports, gm_import, CODE_OF(gm_import));
    gm_import rows[ROWS];
    size_t count = ROWS;
    uint32_t code = GM_OK;
    place at;
    memset(&at, 0, sizeof at);
    while (!code && count == ROWS) {
        code = opcode_imports_rows(a, &at, rows, &count);
        if (!code && count) code = rows[count - 1].code;
    }
    if (code) say_error(a, code);
    else answer_list(a, &imports);
}

static void put_export(asked *a, const void *name, size_t len, const gm_export *what, const void *library, const void *target) {
    PUT("export ");
    put_name(a, name, len);
    if (what->kind == GM_ADDRESS) PUT(" at 0x%" PRIx64, what->offset);
    else if (what->kind == GM_STUB) PUT(" stub 0x%" PRIx64 " resolver 0x%" PRIx64, what->offset, what->resolver - a->image.base);
    else {
        PUT(" of ");
        put_name(a, library, what->library_len);
        if (what->target_len) PUT(" as "), put_name(a, target, what->target_len);
    }
    PUT(" flags 0x%" PRIx64, what->flags);
    end_line(a);
}

static void say_listed_export(asked *a, const gm_listed_export *row, const char *names) {
    size_t len;
    const void *library = library_name(a, row->library, &len);
    if (row->what.kind == GM_REEXPORTED && len != row->what.library_len) differ(&a->to, "the library of an ordinal", "another name");
    else put_export(a, row->name_len ? names + row->name : NULL, row->name_len, &row->what, library, row->target ? a->bytes + row->target : NULL);
}

/* Makes room for what a batch needs. */
static void make_room(gm_export_room *room, const gm_export_batch *batch) {
    size_t more = batch->needed + batch->needed / 4;
    if (batch->end == GM_NAME_SHORT) room->name = longer(room->name, room->name_cap = more);
    else if (batch->end == GM_STACK_SHORT) room->stack = longer(room->stack, (room->stack_cap = more) * sizeof *room->stack);
    else if (batch->end == GM_NO_ROOM) room->names = longer(room->names, room->names_cap = more);
}

/* Returns whether the answer ends here with the fault of a node that is met again. A walk doesn't report it, and gives the exports of the node once
   more. */
static bool ends_at_shared_node(asked *a, uint32_t fault) {
    const char *next = next_line(&a->to);
    return fault == GM_MALFORMED && next && !strncmp(next, "error ", 6);
}

/* Says the exports of a walk up to its end. It ends earlier at the fault of a trie that is no tree, if the answer has that fault there. Returns the code
   of either. */
static uint32_t say_walk(asked *a, gm_export_walk *walk, gm_export_room *room, uint32_t fault) {
    gm_export_batch batch = {0, 0, 0, GM_MORE, 0};
    uint32_t code = GM_OK;
    while (!a->to.differs && batch.end != GM_END && batch.end != GM_REFUSED) {
        code = gm_exports(IMAGE_OF, walk, room, &batch, NULL, NULL);
        for (size_t i = 0; i < batch.count && !a->to.differs; i++) {
            if (ends_at_shared_node(a, fault)) return fault;
            say_listed_export(a, &room->out[i], room->names);
        }
        make_room(room, &batch);
    }
    uint32_t end = batch.end;
    if (!a->to.differs && (gm_exports(IMAGE_OF, walk, room, &batch, NULL, NULL) != code || batch.count || batch.end != end))
        differ(&a->to, "(the same end of the walk)", "another one");
    return !code && ends_at_shared_node(a, fault) ? fault : code;
}

static void answer_walk(asked *a) {
    gm_listed_export rows[ROWS];
    gm_export_walk walk;
    gm_export_room room = {NULL, 0, NULL, 0, rows, ROWS, NULL, 0};
    memset(&walk, 0, sizeof walk);
    uint32_t code = say_walk(a, &walk, &room, gm_exports_are_a_tree(IMAGE_OF, NULL, NULL));
    say_or_error(a, code, "end");
    free(room.name);
    free(room.stack);
    free(room.names);
}

/* Says all exports, or only the fault of the trie. */
static void answer_exports(asked *a) {
    uint32_t code = gm_exports_are_a_tree(IMAGE_OF, NULL, NULL);
    if (code) say_error(a, code);
    else answer_walk(a);
}

static buffer needed_name(const block *b) {
    const char *name = needed(b, "name");
    return name_of(b, name, strlen(name));
}

static void answer_find(asked *a) {
    buffer name = needed_name(a->to.b);
    gm_export found;
    uint32_t code = gm_find_export(IMAGE_OF, (const char *)name.at, name.len, &found, NULL, 0, NULL, 0, NULL, NULL);
    if (code || found.kind == GM_NO_EXPORT) say_or_error(a, code, "none");
    else {
        gm_export again;
        char *library = longer(NULL, found.library_len), *target = longer(NULL, found.target_len);
        code = gm_find_export(IMAGE_OF, (const char *)name.at, name.len, &again, library, found.library_len, target, found.target_len, NULL, NULL);
        if (code || memcmp(&found, &again, sizeof found)) differ(&a->to, "(the same export)", "another one");
        else put_export(a, name.at, name.len, &found, library, target);
        free(library);
        free(target);
    }
    free(name.at);
}

static void answer_slot_at(asked *a) {
    gm_slot slot;
    uint32_t code = gm_slot_at(IMAGE_OF, number_of(a->to.b, "address", 0), &slot, NULL, NULL);
    if (code || slot.kind == GM_NO_SLOT) say_or_error(a, code, "none");
    else slots_line(a, &slot, 0);
}

static void say_section(asked *a, uint32_t code, const gm_found_section *found) {
    if (code || !found->is_found) {
        say_or_error(a, code, "none");
        return;
    }
    PUT("found ");
    put_name16(a, found->name);
    PUT(" of ");
    put_name16(a, found->segment_name);
    PUT(" segment %zu section %" PRIu32 " at 0x%" PRIx64 " size 0x%" PRIx64, found->segment, found->index, found->addr, found->size);
    PUT(" offset 0x%" PRIx32 " align %" PRIu32 " relocations %" PRIu32 " at 0x%" PRIx32, found->offset, found->align, found->nreloc, found->reloff);
    PUT(" flags 0x%" PRIx32 " reserved 0x%" PRIx32 " 0x%" PRIx32, found->flags, found->reserved1, found->reserved2);
    end_line(a);
}

static void answer_section_at(asked *a) {
    gm_found_section found;
    uint32_t code = gm_section_at(IMAGE_OF, number_of(a->to.b, "address", 0), &found, NULL, NULL);
    say_section(a, code, &found);
}

static void answer_section_of(asked *a) {
    gm_found_section found;
    uint32_t code = gm_section_of(IMAGE_OF, (size_t)number_of(a->to.b, "number", 0), &found, NULL, NULL);
    say_section(a, code, &found);
}

static void answer_strings(asked *a) {
    gm_found_section found;
    uint32_t code = gm_section_of(IMAGE_OF, (size_t)number_of(a->to.b, "number", 0), &found, NULL, NULL);
    if (!code && found.is_found) code = gm_section_data(FILE_OF, found.offset, found.size, found.flags, &a->held, NULL);
    if (code || !found.is_found) say_or_error(a, code, "none");
    else each_row(a, &list_of_strings);
    say_end(a);
}

static void answer_archive_kind(asked *a) {
    static const char *const kinds[] = {"none", "gnu", "bsd", "thin"};
    uint32_t kind = 0, code = gm_archive_kind(FILE_OF, &kind, NULL);
    say_or_error(a, code, kind <= GM_ARCHIVE_THIN ? kinds[kind] : "(no kind)");
}

typedef uint32_t look_up(const uint8_t *bytes, size_t len, const char *name, size_t name_len, gm_archive_member *member, gm_error *error);

static void say_member(asked *a, look_up *look_up_name) {
    buffer name = needed_name(a->to.b);
    gm_archive_member member;
    uint32_t code = look_up_name(FILE_OF, (const char *)name.at, name.len, &member, NULL);
    if (code || !member.header) say_or_error(a, code, "none");
    else archive_members_line(a, &member, 0);
    free(name.at);
}

static void answer_archive_find(asked *a) { say_member(a, gm_archive_find); }
static void answer_member_named(asked *a) { say_member(a, gm_archive_member_named); }

static gm_fat_part part_of(const char *text) {
    gm_fat_part part = {0, 0, 0, 0, 0, 0};
    part.offset = (size_t)number(&text);
    part.len = (size_t)number(&text);
    part.cputype = (uint32_t)number(&text);
    part.cpusubtype = (uint32_t)number(&text);
    part.align = (uint32_t)number(&text);
    return part;
}

static void say_bytes(asked *a, const uint8_t *bytes, size_t len) {
    static const uint8_t zeros[16];
    PUT("size %zu", len);
    end_line(a);
    for (size_t at = 0; at < len; at += 16) {
        size_t count = len - at < 16 ? len - at : 16;
        if (!memcmp(bytes + at, zeros, count)) continue;
        PUT("0x%zx: ", at);
        put_pairs(a, bytes + at, count);
        end_line(a);
    }
    say(a, "end");
}

static void answer_write_fat(asked *a) {
    size_t count = 0, size = 0;
    gm_fat_part *parts = longer(NULL, count_of(a->to.b, "part") * sizeof *parts);
    for (const field *f = NULL; (f = next_of(a->to.b, "part", f)) != NULL;) parts[count++] = part_of(f->value);
    uint32_t is_64 = number_of(a->to.b, "number", 32) == 64;
    uint32_t code = gm_write_fat(FILE_OF, parts, count, is_64, NULL, 0, &size, NULL, NULL);
    uint8_t *out = code == GM_NO_SPACE ? longer(NULL, size) : NULL;
    if (out) code = gm_write_fat(FILE_OF, parts, count, is_64, out, size, &size, NULL, NULL);
    if (code) say_error(a, code);
    else say_bytes(a, out, size);
    free(out);
    free(parts);
}

/* ---- names of numbers: one number, or two */

static const char *name_of_command(uint32_t number, uint32_t second) { (void)second; return gm_command_name(number); }
static const char *name_of_file_type(uint32_t number, uint32_t second) { (void)second; return gm_file_type_name(number); }
static const char *name_of_flag(uint32_t number, uint32_t second) { (void)second; return gm_header_flag_name(number); }
static const char *name_of_platform(uint32_t number, uint32_t second) { (void)second; return gm_platform_name(number); }
static const char *name_of_symbol_type(uint32_t number, uint32_t second) { (void)second; return gm_symbol_type_name((uint8_t)number); }

static const struct { const char *call; const char *(*name)(uint32_t, uint32_t); int numbers; } names[] = {
    {"command-names", name_of_command, 1}, {"file-type-names", name_of_file_type, 1}, {"header-flag-names", name_of_flag, 1},
    {"platform-names", name_of_platform, 1}, {"symbol-type-names", name_of_symbol_type, 1}, {"cpu-names", gm_cpu_name, 2},
    {"relocation-names", gm_relocation_name, 2},
};

static void answer_names(asked *a, size_t k) {
    for (const field *f = NULL; (f = next_of(a->to.b, "number", f)) != NULL;) {
        const char *text = f->value, *name;
        uint32_t of[2] = {(uint32_t)number(&text), 0};
        if (names[k].numbers == 2) of[1] = (uint32_t)number(&text);
        name = names[k].name(of[0], of[1]);
        PUT("0x%" PRIx32 " ", of[0]);
        if (names[k].numbers == 2) PUT("0x%" PRIx32 " ", of[1]);
        say(a, name ? name : "none");
    }
    say(a, "end");
}

/* ---- the vectors */

typedef void answer_call(asked *a);
static const struct { const char *call; answer_call *answer; bool is_of_image; } answers[] = {
    {"header", answer_header, true}, {"exports", answer_exports, true}, {"walk", answer_walk, true}, {"find", answer_find, true},
    {"imports", answer_imports, true}, {"slot-at", answer_slot_at, true}, {"section-at", answer_section_at, true},
    {"section-of", answer_section_of, true}, {"strings", answer_strings, true}, {"signature", answer_signature, true}, {"as-signed", answer_as_signed, true},
    {"requirement", answer_requirement, true}, {"entitlements", answer_entitlements, true}, {"security", answer_security, true},
    {"archive-kind", answer_archive_kind, false}, {"archive-find", answer_archive_find, false}, {"member-named", answer_member_named, false},
    {"write-fat", answer_write_fat, false}, {"resolve", answer_resolve, false}, {"audit", answer_audit, false},
};

/* the calls that C doesn't have, and how many vectors of each there are */
static struct { const char *call; size_t count; } left_out[] = {{"mach", 0}, {"input", 0}, {"images", 0}};

#define COUNT(table) (sizeof table / sizeof *table)

/* Opens the image. If it can't be opened, the error is the answer. */
static bool opens(asked *a) {
    const char *mode = value_of(a->to.b, "mode");
    uint32_t how = mode && !strcmp(mode, "lossy") ? GM_LOSSY : GM_STRICT;
    uint32_t code = gm_open(FILE_OF, (size_t)number_of(a->to.b, "offset", 0), how, NULL, &a->image, NULL);
    if (code) say_error(a, code);
    return !code;
}

static const list *find_list(const list *all, size_t count, const char *call) {
    for (size_t k = 0; k < count; k++)
        if (!strcmp(all[k].call, call)) return &all[k];
    return NULL;
}

/* Answers a call that is a list. Returns whether the call is one. */
static bool answers_list(asked *a, const char *call) {
    const list *of_image = find_list(lists_of_images, COUNT(lists_of_images), call), *of_file = find_list(lists_of_files, COUNT(lists_of_files), call);
    if (of_file) answer_list(a, of_file);
    if (of_image && opens(a)) answer_list(a, of_image);
    return of_image || of_file;
}

/* Answers a call. Returns whether C has it. */
static bool answers_call(asked *a, const char *call) {
    if (answers_list(a, call)) return true;
    for (size_t k = 0; k < COUNT(answers); k++)
        if (!strcmp(answers[k].call, call)) {
            if (!answers[k].is_of_image || opens(a)) answers[k].answer(a);
            return true;
        }
    for (size_t k = 0; k < COUNT(names); k++)
        if (!strcmp(names[k].call, call)) {
            answer_names(a, k);
            return true;
        }
    size_t k = 0;
    while (k < COUNT(left_out) && strcmp(left_out[k].call, call)) k++;
    if (k == COUNT(left_out)) die("vector %s: there is no call %s", a->to.b->all[0].value, call);
    left_out[k].count++;
    return false;
}

typedef struct { size_t vectors, expected, left_out; } totals;

static void try_vector(totals *all, const char *path, const block *b, const images *named) {
    buffer file = file_of(b, named);
    asked a;
    memset(&a, 0, sizeof a);
    a.to = answer_to(b, path);
    a.named = named;
    a.bytes = file.at;
    a.len = file.len;
    all->vectors++;
    if (!answers_call(&a, needed(b, "call"))) all->left_out++;
    else if (end_answer(&a.to)) all->expected++;
    free(file.at);
}

static void try_file(totals *all, const char *path) {
    buffer text = {NULL, 0, 0};
    images named = {NULL, 0};
    block b = {NULL, 0, 0, 0};
    append_file(&text, path);
    reader from = {(char *)text.at, 1};
    for (read_block(&b, &from); b.count; read_block(&b, &from)) {
        const field *head = b.all;
        if (!strcmp(head->key, "vector")) try_vector(all, path, &b, &named);
        else if (!strcmp(head->key, "image")) {
            named.all = longer(named.all, (named.count + 1) * sizeof *named.all);
            named.all[named.count].name = head->value;
            named.all[named.count++].bytes = file_of(&b, &named);
        } else die("%s: a block of %s", path, head->key);
    }
    free_images(&named);
    free(b.all);
    free(text.at);
}

static void print_left_out(size_t count) {
    printf(", %zu left out:", count);
    const char *between = " ";
    for (size_t k = 0; k < COUNT(left_out); k++)
        if (left_out[k].count) {
            printf("%s%s", between, left_out[k].call);
            between = ", ";
        }
}

int main(int argc, char **argv) {
    totals all = {0, 0, 0};
    if (argc < 2) die("usage: drive FILE..");
    for (int k = 1; k < argc; k++) try_file(&all, argv[k]);
    printf("%zu vectors, %zu as expected", all.vectors, all.expected);
    if (all.left_out) print_left_out(all.left_out);
    puts("");
    return all.vectors != all.expected + all.left_out;
}
