/* Reads files of vectors, and compares answers with those that are wanted. README.md says what vectors are. A file that can't be read as vectors
   ends the program with status 2. */
#ifndef VECTORS_H
#define VECTORS_H
#include <stdarg.h>
#include <stdbool.h>
#include <stdint.h>
#include <stdio.h>
#include <stdlib.h>
#include <string.h>

#ifdef __GNUC__
#define LIKE_PRINTF(form, first) __attribute__((format(printf, form, first)))
#else
#define LIKE_PRINTF(form, first)
#endif

/* ---- buffers that grow */

typedef struct { uint8_t *at; size_t len, cap; } buffer;

/* Ends the program. */
LIKE_PRINTF(1, 2) static void die(const char *form, ...) {
    va_list values;
    va_start(values, form);
    fputs("vectors: ", stderr);
    vfprintf(stderr, form, values);
    fputc('\n', stderr);
    va_end(values);
    exit(2);
}

/* Makes a block longer. A block of no bytes is NULL. */
static void *longer(void *block, size_t size) {
    if (!size) {
        free(block);
        return NULL;
    }
    void *made = realloc(block, size);
    if (!made) die("out of memory");
    return made;
}

static void append(buffer *to, const void *from, size_t len) {
    if (len > to->cap - to->len) to->at = longer(to->at, to->cap = 2 * (to->len + len) + 64);
    if (len) memcpy(to->at + to->len, from, len);
    to->len += len;
}

LIKE_PRINTF(2, 3) static void put(buffer *to, const char *form, ...) {
    char text[512];
    va_list values;
    va_start(values, form);
    int len = vsnprintf(text, sizeof text, form, values);
    va_end(values);
    if (len < 0 || (size_t)len >= sizeof text) die("a part of a line is too long");
    append(to, text, (size_t)len);
}

/* ---- files of vectors: blocks of fields */

typedef struct { const char *key, *value; } field;
typedef struct { field *all; size_t count, cap, line; } block; /* line: of the first field, from 1 */
typedef struct { const char *name; buffer bytes; } named;
typedef struct { named *all; size_t count; } images;

/* Returns the next field of a key after a field, or the first one after NULL. Returns NULL if there is none. */
static const field *next_of(const block *b, const char *key, const field *after) {
    for (const field *f = after ? after + 1 : b->all; f < b->all + b->count; f++)
        if (!strcmp(f->key, key)) return f;
    return NULL;
}

static const char *value_of(const block *b, const char *key) {
    const field *found = next_of(b, key, NULL);
    return found ? found->value : NULL;
}

static const char *needed(const block *b, const char *key) {
    const char *value = value_of(b, key);
    if (!value) die("%s %s has no %s", b->all[0].key, b->all[0].value, key);
    return value;
}

/* Reads a number, decimal or hexadecimal after 0x, and moves past it and the blanks after it. */
static uint64_t number(const char **text) {
    char *end;
    uint64_t value = strtoull(*text, &end, strncmp(*text, "0x", 2) ? 10 : 16);
    if (end == *text) die("no number: %s", *text);
    *text = end + strspn(end, " ");
    return value;
}

static uint64_t number_of(const block *b, const char *key, uint64_t otherwise) {
    const char *value = value_of(b, key);
    return value ? number(&value) : otherwise;
}

static int digit(char c) {
    static const char digits[] = "0123456789abcdef";
    const char *found = c ? strchr(digits, c) : NULL;
    return found ? (int)(found - digits) : -1;
}

/* Reads two hexadecimal digits, or dies. */
static uint8_t pair(const char *text) {
    int high = digit(text[0]), low = high < 0 ? -1 : digit(text[1]);
    if (low < 0) die("no pair of digits: %.20s", text);
    return (uint8_t)(16 * high + low);
}

/* Appends the bytes of words: pairs of digits, and perhaps an asterisk and how many times they come. */
static void append_words(buffer *to, const char *words) {
    for (words += strspn(words, " "); *words; words += strspn(words, " ")) {
        size_t from = to->len, len;
        for (; *words && !strchr(" *", *words); words += 2) append(to, (const uint8_t[]){pair(words)}, 1);
        len = to->len - from;
        if (*words != '*') continue;
        words++;
        uint64_t times = number(&words);
        for (to->len = times ? to->len : from; times > 1; times--) {
            buffer one = {NULL, 0, 0};
            append(&one, to->at + from, len);
            append(to, one.at, len);
            free(one.at);
        }
    }
}

/* Replaces bytes at an offset. */
static void change(buffer *of, const char *value) {
    buffer bytes = {NULL, 0, 0};
    uint64_t at = number(&value);
    append_words(&bytes, value);
    if (at > of->len || bytes.len > of->len - at) die("a change past the end: %s", value);
    if (bytes.len) memcpy(of->at + at, bytes.at, bytes.len);
    free(bytes.at);
}

/* Returns the bytes of a name of so many characters. It is written as in answers, without the quotes. */
static buffer name_of(const block *b, const char *text, size_t len) {
    buffer name = {NULL, 0, 0};
    for (const char *c = text; c < text + len; c++) {
        uint8_t byte = (uint8_t)*c;
        if (byte == '\\') {
            if (c[1] != 'x') die("%s: a backslash in a name", b->all[0].value);
            byte = pair(c + 2);
            c += 3;
        }
        append(&name, &byte, 1);
    }
    return name;
}

/* Returns the bytes of an image by its name. */
static const buffer *image_named(const block *b, const images *named, const char *name) {
    size_t k = 0;
    while (k < named->count && strcmp(named->all[k].name, name)) k++;
    if (k == named->count) die("vector %s: no image %s", b->all[0].value, name);
    return &named->all[k].bytes;
}

/* Returns the file of a block, in a block of memory with no byte more. */
static buffer file_of(const block *b, const images *named) {
    buffer file = {NULL, 0, 0};
    const char *image = strcmp(b->all[0].key, "vector") ? NULL : value_of(b, "image");
    const buffer *begins = image ? image_named(b, named, image) : NULL;
    if (begins) append(&file, begins->at, begins->len);
    uint64_t kept = number_of(b, "cut", file.len);
    if (kept > file.len) die("%s: a cut past the end", b->all[0].value);
    file.len = (size_t)kept;
    for (const field *f = NULL; (f = next_of(b, "change", f)) != NULL;) change(&file, f->value);
    for (const field *f = NULL; (f = next_of(b, "bytes", f)) != NULL;) append_words(&file, f->value);
    file.at = longer(file.at, file.cap = file.len);
    return file;
}

/* Appends a file and a zero byte, which ends its last line. */
static void append_file(buffer *to, const char *path) {
    FILE *file = fopen(path, "rb");
    uint8_t part[4096];
    size_t len = 0;
    while (file && (len = fread(part, 1, sizeof part, file)) != 0) append(to, part, len);
    if (!file || ferror(file)) die("%s can't be read", path);
    fclose(file);
    append(to, "", 1);
}

/* Splits a line into a field of a block. */
static void add_field(block *b, char *line) {
    char *blank = strchr(line, ' ');
    if (b->count == b->cap) b->all = longer(b->all, (b->cap = 2 * b->cap + 16) * sizeof *b->all);
    if (blank) *blank = 0;
    b->all[b->count++] = (field){line, blank ? blank + 1 : ""};
}

typedef struct { char *at; size_t line; } reader;

/* Reads the next block; its count is 0 at the end of the text. */
static void read_block(block *b, reader *from) {
    b->count = 0;
    for (; *from->at && !(b->count && *from->at == '\n'); from->line++) {
        char *line = from->at, *end = line + strcspn(line, "\n");
        from->at = *end ? end + 1 : end;
        *end = 0;
        if (!*line || *line == '#') continue;
        if (!b->count) b->line = from->line;
        add_field(b, line);
    }
}

static void free_images(images *all) {
    for (size_t k = 0; k < all->count; k++) free(all->all[k].bytes.at);
    free(all->all);
}

/* ---- answers: lines, each compared as it ends */

typedef struct {
    const block *b; /* the vector, in the file of this name */
    const char *path, *key; /* key: of the lines that are wanted next */
    const field *next;
    size_t wanted_lines, last_lines, lines; /* lines: so far */
    buffer line, wanted;
    bool differs;
    bool is_error; /* whether the last line is an error, and no end follows it */
} answer;

static size_t count_of(const block *b, const char *key) {
    size_t count = 0;
    for (const field *f = NULL; (f = next_of(b, key, f)) != NULL;) count++;
    return count;
}

/* Goes on with the wanted lines of a key. */
static void want_lines(answer *a, const char *key) {
    a->key = key;
    a->next = next_of(a->b, key, NULL);
}

/* Begins the answer to a vector. */
static answer answer_to(const block *b, const char *path) {
    bool is_counted = value_of(b, "count") != NULL;
    answer a;
    memset(&a, 0, sizeof a);
    a.b = b;
    a.path = path;
    a.wanted_lines = (size_t)number_of(b, "count", count_of(b, "want"));
    a.last_lines = is_counted ? count_of(b, "last") : 0;
    want_lines(&a, is_counted ? "first" : "want");
    return a;
}

/* Returns the line that is wanted next, or NULL if any line fits. */
static const char *next_line(answer *a) {
    if (a->last_lines && a->lines + a->last_lines == a->wanted_lines && strcmp(a->key, "last")) want_lines(a, "last");
    return a->next ? a->next->value : NULL;
}

/* Returns that line, and moves past it. */
static const char *take_line(answer *a) {
    const char *line = next_line(a);
    if (line) a->next = next_of(a->b, a->key, a->next);
    return line;
}

/* Returns how long an error's words are, and writes C's name for the error. Returns 0 if a text doesn't begin with such words. */
static size_t error_words(const char *text, const char **called) {
    static const char *const words[][2] = {{"malformed", "malformed"}, {"bad-magic", "bad-magic"}, {"bad-offset", "short"}, {"too-big", "short"},
                                           {"bad-input", "short"}, {"too-short", "too-short"}};
    for (size_t k = 0; k < sizeof words / sizeof *words; k++)
        if (!strncmp(text, words[k][0], strlen(words[k][0]))) {
            *called = words[k][1];
            return strcspn(text, ")");
        }
    return 0;
}

/* Returns how long names in brackets are, with the blank before them, or 0 if a text doesn't begin with them. C doesn't give these names. */
static size_t names_in_brackets(const char *text) {
    const char *end = strncmp(text, " (\"", 3) ? NULL : strstr(text + 3, "\")");
    return end ? (size_t)(end + 2 - text) : 0;
}

/* Puts a wanted line, without names in brackets, and with C's names for errors: after the word error, and in brackets instead of a name. */
static void put_wanted(buffer *to, const char *line) {
    bool in_quotes = false;
    const char *called;
    for (const char *c = line; *c; c++) {
        c += in_quotes ? 0 : names_in_brackets(c);
        if (!*c) return;
        bool is_before = !in_quotes && (*c == '(' || (*c == ' ' && c - line >= 5 && !strncmp(c - 5, "error", 5)));
        size_t skipped = is_before ? error_words(c + 1, &called) : 0;
        in_quotes ^= *c == '"';
        put(to, "%c", *c);
        if (skipped) put(to, "%s", called);
        c += skipped;
    }
}

/* Prints the first difference of an answer. */
static void differ(answer *a, const char *want, const char *got) {
    if (!a->differs) printf("%s:%zu: %s: line %zu\n  want %s\n  got  %s\n", a->path, a->b->line, a->b->all[0].value, a->lines + 1, want, got);
    a->differs = true;
}

/* Ends the line of an answer, and compares it. */
static void end_answer_line(answer *a) {
    append(&a->line, "", 1);
    const char *got = (const char *)a->line.at, *want = take_line(a);
    if (a->lines >= a->wanted_lines) differ(a, "no line", got);
    if (want) put_wanted(&a->wanted, want);
    append(&a->wanted, "", 1);
    if (want && strcmp((const char *)a->wanted.at, got)) differ(a, (const char *)a->wanted.at, got);
    a->is_error = !strncmp(got, "error ", 6);
    a->line.len = a->wanted.len = 0;
    a->lines++;
}

/* Ends an answer. Returns whether it is as wanted. */
static bool end_answer(answer *a) {
    const char *want = next_line(a);
    if (a->lines < a->wanted_lines) differ(a, want ? want : "(any line)", "no line");
    free(a->line.at);
    free(a->wanted.at);
    return !a->differs;
}
#endif
