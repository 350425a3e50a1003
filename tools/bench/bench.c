/* bench FILE.. times the calls of the C library on a file, each for about half a second. It shows what an export, an import, a symbol .. of it costs.
   bench --hostile FOLDER times them on files that are costly to read, written by shapes.py, and reports where the time per byte grows with size.
   docs/SPEED.md says how it is built and called, and has the results.

   A file is an image, a fat file or an archive. Of a fat file or an archive a run of a call visits all images that open. Two lists of the Rattle crate
   have no call of their own in C, and no line here: iter_imports (gm_opcode_imports only gives batches) and link_view (it is gm_exports and gm_opcode_imports of each
   image). */
#define _POSIX_C_SOURCE 200809L
#include "goblin_mach.h"
#include <dirent.h>
#include <errno.h>
#include <inttypes.h>
#include <stdio.h>
#include <stdlib.h>
#include <string.h>
#include <time.h>

enum { FINE, FAULT, STOPPED }; /* exit statuses */
enum { LEAST_RUNS = 2, MOST_RUNS = 100000, MOST_SIZES = 8, MOST_BATCH = 1 << 20, MOST_MS = 60000, MOST_NAME = 64, MOST_SOUGHT = 100 };
#define MOST_BYTES (UINT64_C(1) << 32)
#define NANOS_OF_MS UINT64_C(1000000)
#define LONGEST (10000 * NANOS_OF_MS) /* a call is not made on a larger file if it may take longer */
#define NOT_RUN UINT64_MAX
#define NOT_GIVEN UINT64_MAX

static const char USAGE[] = "usage: bench [--limit N] [--batch N] [--ms N] FILE..\n"
                            "       bench --hostile FOLDER [--limit N] [--batch N] [--ms N] [--size N]..\n"
                            "       bench -h | --help | --version\n";

typedef struct {
    uint64_t limit, batch, ms; /* items of a run, rows of a call, and milliseconds of a call */
    const char *folder;        /* of shapes, or NULL */
    uint64_t sizes[MOST_SIZES];
    size_t size_count, file_count;
    char **files;
} settings;

static uint64_t given_or(uint64_t given, uint64_t otherwise) { return given == NOT_GIVEN ? otherwise : given; }

/* ---- failures and memory */

static _Noreturn void stop(const char *what, const char *why) {
    fprintf(stderr, "bench: %s%s%s\n", what, why ? ": " : "", why ? why : "");
    exit(STOPPED);
}

/* Grows a block, or ends the program. */
static void *resized(void *block, size_t count, size_t each) {
    void *made = count <= SIZE_MAX / each ? realloc(block, count * each) : NULL;
    if (!made) stop("out of memory", NULL);
    return made;
}

/* Makes room for `wanted` items, and for more if there was too little. */
static void *with_room(void *block, size_t *cap, size_t wanted, size_t each) {
    if (wanted <= *cap) return block;
    *cap = wanted <= SIZE_MAX / 2 ? 2 * wanted : wanted;
    return resized(block, *cap, each);
}

static uint64_t now(void) {
    struct timespec t;
    if (clock_gettime(CLOCK_MONOTONIC, &t)) stop("cannot read the clock", NULL);
    return (uint64_t)t.tv_sec * 1000000000 + (uint64_t)t.tv_nsec;
}

/* ---- a file whose calls are timed */

typedef struct { const uint8_t *bytes; size_t len, first_name, names; gm_image image; } opened;
typedef struct { size_t at, len; } name_place;
typedef union {
    gm_fat_entry64 entry; gm_archive_member member; gm_command command; gm_segment segment; gm_library library; gm_symbol symbol;
    gm_relocation relocation; gm_listed_export listed; gm_import import; gm_binding binding; gm_fixup fixup;
} any_row;

typedef struct {
    uint8_t *bytes;
    size_t len, limit, batch;
    enum { IMAGE, FAT, ARCHIVE } kind;
    opened *images;
    size_t count, image_cap;
    /* names that are looked up: each image has some of them */
    char *texts;
    name_place *names;
    size_t texts_len, texts_cap, name_count, name_cap;
    /* the buffers of calls */
    void *rows;
    gm_export_room room;
    gm_error error;
} subject;

/* what a run did: its number of items, and a sum over their contents, which keeps a run from skipping work */
typedef struct { uint64_t items, sum; size_t left; bool more; uint32_t code; } work;

static void release(subject *s) {
    void *blocks[] = {s->bytes, s->images, s->texts, s->names, s->rows, s->room.name, s->room.stack, s->room.names};
    for (size_t i = 0; i < sizeof blocks / sizeof *blocks; i++) free(blocks[i]);
}

/* Returns how many rows a call may write. It is one if no item is left, which shows whether there are more. */
static size_t cap_of(const subject *s, const work *w) {
    size_t cap = w->left < s->batch ? w->left : s->batch;
    return cap ? cap : 1;
}

/* Counts rows as visited; returns whether the limit allows them. If not, there are more items than the limit. */
static bool takes(work *w, size_t rows) {
    w->more |= rows > w->left;
    w->left -= w->more ? 0 : rows;
    return !w->more;
}

static void add(work *w, uint64_t sum) {
    w->items++;
    w->sum += sum;
}

/* Keeps the fault of a row. */
static uint32_t refused(subject *s, uint32_t code) {
    s->error.code = code;
    snprintf(s->error.text, sizeof s->error.text, "%s", gm_code_name(code) ? gm_code_name(code) : "unknown");
    return code;
}

/* ---- the calls on an image */

#define OF o->bytes, o->len, &o->image

/* the rows of a list that is called by number; rows that can't be read are skipped */
#define NUMBERED(list, row, is_read, sum) \
    static uint32_t list(subject *s, const opened *o, work *w) { \
        row *rows = s->rows; \
        for (size_t first = 0, n; (n = gm_##list(OF, first, rows, cap_of(s, w))) != 0 && takes(w, n); first += n) \
            for (size_t i = 0; i < n; i++) \
                if (is_read) add(w, sum); \
        return GM_OK; \
    }
NUMBERED(commands, gm_command, true, rows[i].size)
NUMBERED(segments, gm_segment, true, rows[i].vmsize)
NUMBERED(libraries, gm_library, true, rows[i].name_len)
NUMBERED(symbols, gm_symbol, rows[i].code == GM_OK, rows[i].value + rows[i].name_len)

/* the rows of a list that is called with a cursor, up to a row that can't be read */
#define BEHIND(list, row, place, sum) \
    static uint32_t list(subject *s, const opened *o, work *w) { \
        row *rows = s->rows; \
        place at = {0}; \
        size_t cap, n = 0; \
        do { \
            cap = cap_of(s, w); \
            uint32_t code = gm_##list(OF, &at, rows, cap, &n, NULL, &s->error); \
            if (code) return code; \
            if (n && !takes(w, n)) return GM_OK; \
            for (size_t i = 0; i < n; i++) { \
                if (rows[i].code) return refused(s, rows[i].code); \
                add(w, sum); \
            } \
        } while (n == cap); \
        return GM_OK; \
    }
BEHIND(opcode_imports, gm_import, gm_bind_cursor, rows[i].address + rows[i].name_len)
BEHIND(bindings, gm_binding, gm_binding_cursor, rows[i].address + rows[i].name_len)
BEHIND(fixups, gm_fixup, gm_fixup_cursor, rows[i].address + (rows[i].kind == GM_BIND ? rows[i].import : rows[i].target))

/* Visits the relocations of a section; returns whether more may be visited. */
static bool section_relocations(subject *s, const opened *o, const gm_section *section, work *w) {
    gm_relocation *rows = s->rows;
    for (size_t first = 0, n; (n = gm_relocations(OF, section->reloff, section->nreloc, first, rows, cap_of(s, w))) != 0; first += n) {
        if (!takes(w, n)) return false;
        for (size_t i = 0; i < n; i++)
            if (rows[i].code == GM_OK) add(w, rows[i].info);
    }
    return true;
}

static bool segment_relocations(subject *s, const opened *o, const gm_segment *segment, work *w) {
    gm_section sections[256];
    for (size_t first = 0, n; (n = gm_sections(OF, segment->command, segment->sections, first, sections, 256)) != 0; first += n)
        for (size_t i = 0; i < n; i++)
            if (sections[i].code == GM_OK && !section_relocations(s, o, &sections[i], w)) return false;
    return true;
}

static uint32_t relocations(subject *s, const opened *o, work *w) {
    gm_segment segments[256];
    for (size_t first = 0, n; (n = gm_segments(OF, first, segments, 256)) != 0; first += n)
        for (size_t i = 0; i < n; i++)
            if (!segment_relocations(s, o, &segments[i], w)) return GM_OK;
    return GM_OK;
}

/* Makes the room that a batch of exports needs. */
static void make_room(gm_export_room *room, const gm_export_batch *batch) {
    if (batch->end == GM_NAME_SHORT) room->name = with_room(room->name, &room->name_cap, batch->needed, 1);
    if (batch->end == GM_STACK_SHORT) room->stack = with_room(room->stack, &room->stack_cap, batch->needed, sizeof *room->stack);
    if (room->names_cap < room->name_cap) room->names = with_room(room->names, &room->names_cap, 4 * room->name_cap, 1);
}

static void keep_name(subject *s, const char *text, size_t len) {
    s->texts = with_room(s->texts, &s->texts_cap, s->texts_len + len, 1);
    s->names = with_room(s->names, &s->name_cap, s->name_count + 1, sizeof *s->names);
    memcpy(s->texts + s->texts_len, text, len);
    s->names[s->name_count++] = (name_place){s->texts_len, len};
    s->texts_len += len;
}

/* Visits the exports of an image, and keeps their names if requested. */
static uint32_t walk(subject *s, const opened *o, work *w, bool keeps) {
    gm_listed_export *rows = s->rows;
    gm_export_walk at = {0};
    gm_export_batch batch = {0};
    s->room.out = rows;
    do {
        s->room.cap = cap_of(s, w);
        uint32_t code = gm_exports(OF, &at, &s->room, &batch, NULL, &s->error);
        if (code) return code;
        if (batch.count && !takes(w, batch.count)) return GM_OK;
        for (size_t i = 0; i < batch.count; i++) {
            add(w, rows[i].what.address + rows[i].name_len);
            if (keeps) keep_name(s, s->room.names + rows[i].name, rows[i].name_len);
        }
        make_room(&s->room, &batch);
    } while (batch.end != GM_END);
    return GM_OK;
}
static uint32_t exports(subject *s, const opened *o, work *w) { return walk(s, o, w, false); }

/* Looks up the names of an image. */
static uint32_t find_export(subject *s, const opened *o, work *w) {
    char library[256], target[256];
    for (size_t i = 0; i < o->names; i++) {
        const name_place *name = &s->names[o->first_name + i];
        gm_export found;
        uint32_t code =
            gm_find_export(OF, s->texts + name->at, name->len, &found, library, sizeof library, target, sizeof target, NULL, &s->error);
        if (code) return code;
        if (found.kind != GM_NO_EXPORT) add(w, found.address + name->len);
    }
    return GM_OK;
}

/* Adds one item: whether all exports can be read, and no two paths of the trie meet. Paths that meet are no refusal here. */
static uint32_t tree(subject *s, const opened *o, work *w) {
    uint32_t code = gm_exports_are_a_tree(OF, NULL, &s->error);
    add(w, code);
    return code == GM_NO_MEMORY ? code : GM_OK;
}

/* Adds one item for all rules of the layout. */
static uint32_t layout(subject *s, const opened *o, work *w) {
    gm_layout_fault fault;
    size_t n = 0;
    uint32_t code = gm_layout_faults(OF, 0, &fault, 1, &n, NULL, &s->error);
    add(w, n ? fault.rule : 0);
    return code;
}

/* ---- a file and its images */

/* Opens the bytes as an image, if they are one. Refused memory is a fault, and so is any refusal if they `must` be an image. */
static uint32_t add_image(subject *s, const uint8_t *bytes, size_t len, bool must) {
    opened o = {.bytes = bytes, .len = len};
    uint32_t code = gm_open(bytes, len, 0, GM_STRICT, NULL, &o.image, &s->error);
    if (code) return must || code == GM_NO_MEMORY ? code : GM_OK;
    s->images = with_room(s->images, &s->image_cap, s->count + 1, sizeof *s->images);
    s->images[s->count++] = o;
    return GM_OK;
}

/* Visits the entries of a fat file, and opens them if requested. */
static uint32_t entries(subject *s, work *w, bool opens) {
    gm_fat_entry64 *rows = s->rows;
    for (size_t first = 0, n; (n = gm_fat_entries64(s->bytes, s->len, first, rows, s->batch)) != 0; first += n)
        for (size_t i = 0; i < n; i++) {
            add(w, rows[i].offset + rows[i].size);
            if (rows[i].code) return refused(s, rows[i].code);
            if (!opens || rows[i].offset > s->len || rows[i].size > s->len - rows[i].offset) continue;
            uint32_t code = add_image(s, s->bytes + rows[i].offset, (size_t)rows[i].size, false);
            if (code) return code;
        }
    return GM_OK;
}

/* Visits the members of an archive, whose data are in the bytes, and opens them if requested. */
static uint32_t members(subject *s, work *w, bool opens) {
    gm_archive_member *rows = s->rows;
    for (size_t first = 0, n; (n = gm_archive_members(s->bytes, s->len, first, rows, s->batch)) != 0; first += n)
        for (size_t i = 0; i < n; i++) {
            add(w, rows[i].header);
            if (rows[i].code) return refused(s, rows[i].code);
            uint32_t code = opens ? add_image(s, s->bytes + rows[i].data, rows[i].data_len, false) : GM_OK;
            if (code) return code;
        }
    return GM_OK;
}

/* Reads the whole file. Its items are the load commands, the entries or the members. */
static uint32_t parse(subject *s, work *w) {
    if (s->kind == FAT) return entries(s, w, false);
    if (s->kind == ARCHIVE) return members(s, w, false);
    gm_image image;
    uint32_t code = gm_open(s->bytes, s->len, 0, GM_STRICT, NULL, &image, &s->error);
    w->items = code ? 0 : image.commands;
    return code;
}

/* Opens the images of a file. From then on the subject owns its bytes. */
static uint32_t open_subject(subject *s, const settings *set, uint8_t *bytes, size_t len, uint64_t limit) {
    *s = (subject){.bytes = bytes, .len = len, .limit = (size_t)limit};
    s->batch = (size_t)given_or(set->batch, set->folder ? MOST_BATCH : 1000);
    s->rows = resized(NULL, s->batch, sizeof(any_row));
    s->room.name = with_room(NULL, &s->room.name_cap, 4096, 1);
    s->room.names = with_room(NULL, &s->room.names_cap, 4096 + 64 * s->batch, 1);
    work w = {.left = s->limit};
    uint32_t kind = GM_ARCHIVE_NONE;
    if (gm_fat_entries64(bytes, len, 0, s->rows, 1)) {
        s->kind = FAT;
        return entries(s, &w, true);
    }
    if (!gm_archive_kind(bytes, len, &kind, NULL) && kind != GM_ARCHIVE_NONE) {
        s->kind = ARCHIVE;
        return kind == GM_ARCHIVE_THIN ? GM_OK : members(s, &w, true);
    }
    return add_image(s, bytes, len, true);
}

/* ---- runs */

static const struct {
    const char *name;
    uint32_t (*of_file)(subject *, work *);
    uint32_t (*of_image)(subject *, const opened *, work *);
} CALLS[] = {
    {"parse", parse, NULL},          {"exports", NULL, exports},   {"find_export", NULL, find_export}, {"imports", NULL, opcode_imports},
    {"bindings", NULL, bindings},    {"fixups", NULL, fixups},     {"symbols", NULL, symbols},         {"relocations", NULL, relocations},
    {"commands", NULL, commands},    {"segments", NULL, segments}, {"libraries", NULL, libraries},     {"tree", NULL, tree},
    {"layout", NULL, layout},
};
enum { CALL_COUNT = sizeof CALLS / sizeof *CALLS };

static work run(subject *s, size_t call) {
    work w = {.left = s->limit};
    if (CALLS[call].of_file) w.code = CALLS[call].of_file(s, &w);
    else
        for (size_t i = 0; i < s->count && !w.code && !w.more; i++) w.code = CALLS[call].of_image(s, &s->images[i], &w);
    return w;
}

static bool is_same(const work *a, const work *b) { return a->items == b->items && a->sum == b->sum && a->more == b->more && a->code == b->code; }

/* Runs a call until so many milliseconds are over. Fills in the times in order; returns their number. Each run does what the first one did, which may
   have had to make room for names; therefore there are at least two. */
static size_t timed(subject *s, size_t call, uint64_t ms, uint64_t *times, work *first) {
    uint64_t start = now(), before, after;
    size_t count = 0;
    do {
        before = now();
        work w = run(s, call);
        after = now();
        if (!count) *first = w;
        if (!is_same(&w, first)) stop(CALLS[call].name, "two runs differ");
        times[count++] = after - before;
    } while (count < LEAST_RUNS || (count < MOST_RUNS && after - start < ms * NANOS_OF_MS));
    return count;
}

static uint64_t times_of_runs[MOST_RUNS];

static int by_size(const void *a, const void *b) {
    uint64_t x = *(const uint64_t *)a, y = *(const uint64_t *)b;
    return (x > y) - (x < y);
}

/* ---- the lines of a file */

/* Reads a file, at most MOST_BYTES of it; `-` is standard input. Returns NULL if it can't be read, after a line with the reason. */
static uint8_t *read_file(const char *name, size_t *len) {
    FILE *file = strcmp(name, "-") ? fopen(name, "rb") : stdin;
    uint8_t *bytes = NULL;
    size_t cap = 0, n = 1;
    *len = 0;
    while (file && n && *len <= MOST_BYTES) {
        bytes = with_room(bytes, &cap, *len + (1 << 16), 1);
        n = fread(bytes + *len, 1, cap - *len, file);
        *len += n;
    }
    bool is_read = file && !ferror(file) && *len <= MOST_BYTES;
    if (!is_read) fprintf(stderr, "bench: %s: %s\n", name, *len > MOST_BYTES ? "more than 4 GB" : strerror(errno));
    if (file && file != stdin) fclose(file);
    if (is_read) return bytes;
    free(bytes);
    return NULL;
}

static void write_line(const subject *s, size_t call, const work *w, const uint64_t *times, size_t count) {
    if (!w->items) {
        if (w->more) printf("%-12s more than %zu items\n", CALLS[call].name, s->limit);
        else printf("%-12s nothing in this file\n", CALLS[call].name);
        return;
    }
    double items = (double)w->items, least = (double)times[0], median = (double)times[count / 2];
    printf("%-12s %9" PRIu64 " items %9.1f ns least %9.1f ns median %7.0f MB/s\n", CALLS[call].name, w->items, least / items, median / items,
           (double)s->len * 1000 / (least > 0 ? least : 1));
}

/* Keeps the names of the first exports, which are looked up. They are few, as each look-up opens the image again. */
static uint32_t keep_names(subject *s) {
    work w = {.left = s->limit < MOST_SOUGHT ? s->limit : MOST_SOUGHT};
    uint32_t code = GM_OK;
    for (size_t i = 0; i < s->count && !code && !w.more; i++) {
        s->images[i].first_name = s->name_count;
        code = walk(s, &s->images[i], &w, true);
        s->images[i].names = s->name_count - s->images[i].first_name;
    }
    return code;
}

/* Writes the line of each call; returns whether one has more items than the limit. */
static uint32_t write_lines(subject *s, uint64_t ms, bool *more) {
    for (size_t call = 0; call < CALL_COUNT; call++) {
        work w = run(s, call);
        size_t count = w.items && !w.code ? timed(s, call, ms, times_of_runs, &w) : 0;
        if (w.code) return w.code;
        qsort(times_of_runs, count, sizeof *times_of_runs, by_size);
        write_line(s, call, &w, times_of_runs, count);
        fflush(stdout);
        *more |= w.more;
    }
    return GM_OK;
}

static int time_file(const settings *set, const char *name) {
    size_t len;
    uint8_t *bytes = read_file(name, &len);
    if (!bytes) return STOPPED;
    subject s;
    bool more = false;
    uint32_t code = open_subject(&s, set, bytes, len, given_or(set->limit, 10000000));
    if (!code) code = keep_names(&s);
    if (!code) code = write_lines(&s, given_or(set->ms, 500), &more);
    if (code) fprintf(stderr, "bench: %s: %s\n", name, s.error.text);
    else if (more) printf("limit: %zu items of a call, and there are more\n", s.limit);
    release(&s);
    return code || more ? FAULT : FINE;
}

/* ---- the growth of the time per byte */

/* the calls on a shape: hundredths of a nanosecond per byte at each size, and the time at the last size */
typedef struct { uint64_t cells[CALL_COUNT][MOST_SIZES], last[CALL_COUNT], last_open; } shape_rows;

/* Returns whether a call may take too long at a size so many times as large. It took `time` before, and may take time that grows with the square of
   the size. */
static bool is_over(uint64_t time, double times) { return time == NOT_RUN || (double)time * times * times > (double)LONGEST; }

/* Returns the least time of some runs of a call. A run may end with a fault. */
static uint64_t least_run(subject *s, size_t call, uint64_t ms) {
    work first;
    size_t count = timed(s, call, ms, times_of_runs, &first);
    if (first.code == GM_NO_MEMORY) stop(CALLS[call].name, "out of memory");
    uint64_t least = times_of_runs[0];
    for (size_t i = 1; i < count; i++) least = times_of_runs[i] < least ? times_of_runs[i] : least;
    return least;
}

/* Selects one name to look up in each image. It is as long as that of the deep trie. */
static void seek_long_name(subject *s) {
    char *text = resized(NULL, s->len / 8 + 1, 1);
    memset(text, 'a', s->len / 8);
    keep_name(s, text, s->len / 8);
    for (size_t i = 0; i < s->count; i++) s->images[i].names = 1;
    free(text);
}

/* Fills the cells of a size. */
static void measure(const settings *set, const char *file, size_t at, double times, shape_rows *rows) {
    size_t len;
    uint8_t *bytes = read_file(file, &len);
    if (!bytes) exit(STOPPED);
    subject s;
    uint64_t start = now();
    uint32_t code = open_subject(&s, set, bytes, len, given_or(set->limit, len));
    rows->last_open = now() - start;
    if (code) stop(file, s.error.text);
    seek_long_name(&s);
    for (size_t call = 0; call < CALL_COUNT; call++) {
        uint64_t time = is_over(rows->last[call], times) ? NOT_RUN : least_run(&s, call, given_or(set->ms, 30));
        rows->last[call] = time;
        rows->cells[call][at] = time == NOT_RUN ? NOT_RUN : time * 100 / (len ? len : 1);
    }
    release(&s);
}

/* Returns whether the last cell is more than one and a half times the one before, and at least a tenth of a nanosecond. A last cell that wasn't run
   counts as grown. */
static bool grows(const uint64_t *cells, size_t count) {
    if (count < 2 || cells[count - 1] == NOT_RUN) return count > 1;
    uint64_t before = cells[count - 2], after = cells[count - 1];
    return before != NOT_RUN && after >= 10 && after * 2 > before * 3;
}

/* Writes the line of each call on a shape; returns how many grow. */
static size_t write_rows(const char *shape, const shape_rows *rows, size_t sizes) {
    size_t grown = 0;
    for (size_t call = 0; call < CALL_COUNT; call++) {
        const uint64_t *cells = rows->cells[call];
        printf("%-14s %-12s", shape, CALLS[call].name);
        for (size_t i = 0; i < sizes; i++) {
            if (cells[i] == NOT_RUN) printf("%12s", "-");
            else printf("%9" PRIu64 ".%02" PRIu64, cells[i] / 100, cells[i] % 100);
        }
        printf("%s\n", grows(cells, sizes) ? " grows" : "");
        grown += grows(cells, sizes);
    }
    fflush(stdout);
    return grown;
}

/* Times the calls on a shape at each size; returns how many lines grow. */
static size_t time_shape(const settings *set, const char *shape) {
    shape_rows rows = {0};
    for (size_t i = 0; i < set->size_count; i++) {
        double times = i ? (double)set->sizes[i] / (double)set->sizes[i - 1] : 1;
        char file[4096];
        int wrote = snprintf(file, sizeof file, "%s/%s.%" PRIu64, set->folder, shape, set->sizes[i]);
        if (wrote < 0 || (size_t)wrote >= sizeof file) stop(set->folder, "too long a name");
        if (!is_over(rows.last_open, times)) {
            measure(set, file, i, times, &rows);
            continue;
        }
        rows.last_open = NOT_RUN;
        for (size_t call = 0; call < CALL_COUNT; call++) rows.cells[call][i] = rows.last[call] = NOT_RUN;
    }
    return write_rows(shape, &rows, set->size_count);
}

/* Returns whether a file is one of this size, SHAPE.SIZE; if so, writes the name of the shape. */
static bool is_shape(const char *file, uint64_t size, char *shape) {
    char end[MOST_NAME];
    size_t cut = (size_t)snprintf(end, sizeof end, ".%" PRIu64, size), len = strlen(file);
    if (len <= cut || len - cut >= MOST_NAME || strcmp(file + len - cut, end)) return false;
    memcpy(shape, file, len - cut);
    shape[len - cut] = 0;
    return true;
}

static int time_shapes(const settings *set) {
    struct dirent **files;
    int count = scandir(set->folder, &files, NULL, alphasort);
    if (count < 0) stop(set->folder, strerror(errno));
    printf("%-14s %-12s", "ns a byte", "");
    for (size_t i = 0; i < set->size_count; i++) printf("%12" PRIu64, set->sizes[i]);
    printf("\n");
    size_t shapes = 0, grown = 0;
    char shape[MOST_NAME];
    for (int i = 0; i < count; i++) {
        if (is_shape(files[i]->d_name, set->sizes[0], shape)) {
            shapes++;
            grown += time_shape(set, shape);
        }
        free(files[i]);
    }
    free(files);
    if (!shapes) stop(set->folder, "no file of the first size, as shapes.py --all writes them");
    if (grown) printf("grows: %zu lines by more than a half\n", grown);
    return grown ? FAULT : FINE;
}

/* ---- arguments */

static _Noreturn void misused(const char *what, const char *word) {
    fprintf(stderr, "bench: %s '%s'\n%s", what, word, USAGE);
    exit(STOPPED);
}

/* Returns the number after an option. */
static uint64_t number(char **words, int *at, int count, uint64_t least, uint64_t most) {
    const char *option = words[*at], *word = ++*at < count ? words[*at] : "";
    char *end;
    errno = 0;
    uint64_t value = strtoull(word, &end, 10);
    if (*word < '0' || *word > '9' || *end || errno || value < least || value > most) misused("no such number behind", option);
    return value;
}

/* Takes an option; returns whether it is one. */
static bool take_option(settings *set, char **words, int *at, int count) {
    const char *word = words[*at];
    if (!strcmp(word, "--limit")) set->limit = number(words, at, count, 0, SIZE_MAX / 2);
    else if (!strcmp(word, "--batch")) set->batch = number(words, at, count, 1, MOST_BATCH);
    else if (!strcmp(word, "--ms")) set->ms = number(words, at, count, 0, MOST_MS);
    else if (!strcmp(word, "--size") && set->size_count < MOST_SIZES) set->sizes[set->size_count++] = number(words, at, count, 1, MOST_BYTES);
    else if (!strcmp(word, "--hostile") && *at + 1 < count) set->folder = words[++*at];
    else return false;
    return true;
}

static settings understood(int count, char **words) {
    static const uint64_t sizes[] = {100000, 1000000, 10000000};
    settings set = {.limit = NOT_GIVEN, .batch = NOT_GIVEN, .ms = NOT_GIVEN, .files = words};
    bool is_plain = false;
    for (int at = 1; at < count; at++) {
        char *word = words[at];
        if (!is_plain && !strcmp(word, "--")) is_plain = true;
        else if (is_plain || word[0] != '-' || !word[1]) set.files[set.file_count++] = word;
        else if (!take_option(&set, words, &at, count)) misused("unknown option, or nothing behind", word);
    }
    if (set.folder && set.file_count) misused("no file goes with --hostile", set.files[0]);
    if (!set.folder && set.size_count) misused("no --hostile stands beside", "--size");
    if (!set.folder && !set.file_count) misused("no file is given", "");
    if (!set.size_count) {
        memcpy(set.sizes, sizes, sizeof sizes);
        set.size_count = sizeof sizes / sizeof *sizes;
    }
    return set;
}

/* Times what the arguments name, except for those that must be alone. */
static int timed_by(const settings *set) {
    if (set->folder) return time_shapes(set);
    int worst = FINE;
    for (size_t i = 0; i < set->file_count; i++) {
        if (set->file_count > 1) printf("%s%s:\n", i ? "\n" : "", set->files[i]);
        int status = time_file(set, set->files[i]);
        worst = status > worst ? status : worst;
    }
    return worst;
}

int main(int count, char **words) {
    if (!GM_VERSION_FITS()) stop("the library is of another version", gm_version());
    int status = FINE;
    if (count == 2 && (!strcmp(words[1], "-h") || !strcmp(words[1], "--help"))) fputs(USAGE, stdout);
    else if (count == 2 && !strcmp(words[1], "--version")) printf("bench %s\n", gm_version());
    else {
        settings set = understood(count, words);
        status = timed_by(&set);
    }
    if (fflush(stdout) || ferror(stdout)) stop("cannot write", NULL);
    return status;
}
