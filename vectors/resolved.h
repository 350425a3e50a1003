/* Where the bound names of a program are found. */
#ifndef RESOLVED_H
#define RESOLVED_H
#include "lists.h"

/* the files, one after the other, each with its path after it */
typedef struct { buffer bytes; gm_given_file *all; size_t count; } given;

static void give(given *to, const uint8_t *bytes, size_t len, const buffer *path) {
    to->all = longer(to->all, (to->count + 1) * sizeof *to->all);
    to->all[to->count++] = (gm_given_file){to->bytes.len, len, to->bytes.len + len, path->len};
    append(&to->bytes, bytes, len);
    append(&to->bytes, path->at, path->len);
}

/* Returns the program and its libraries. Without a name the program's path is empty. */
static given given_files(const asked *a) {
    given to = {{NULL, 0, 0}, NULL, 0};
    const char *name = value_of(a->to.b, "name");
    if (!name) name = "";
    buffer path = name_of(a->to.b, name, strlen(name));
    give(&to, a->bytes, a->len, &path);
    free(path.at);
    for (const field *f = NULL; (f = next_of(a->to.b, "library", f)) != NULL;) {
        const char *blank = strchr(f->value, ' ');
        const buffer *image = image_named(a->to.b, a->named, blank ? blank + 1 : "");
        path = name_of(a->to.b, f->value, strcspn(f->value, " "));
        give(&to, image->at, image->len, &path);
        free(path.at);
    }
    return to;
}

static void say_answer(asked *a, const gm_answer *r, const gm_binding *bind) {
    static const char *const places[] = {"found", "leads-back", "no-library", "missing", "not-given", "not-found", "no-main"};
    PUT("answer ");
    put_text(a, bind->name, bind->name_len);
    PUT(" of ");
    put_provider(a, r->provider, r->library);
    PUT(" %s", r->place <= GM_PLACE_NO_MAIN ? places[r->place] : "(no place)");
    if (r->place == GM_PLACE_FOUND) PUT(" in %" PRIu64 " %s 0x%" PRIx64, r->file, r->is_absolute ? "absolute" : "at", r->address);
    PUT("%s%s", r->is_weak ? " weak" : "", r->is_settled ? "" : " open");
    end_line(a);
}

static void say_unused(asked *a, const gm_unused_file *r) {
    PUT("unused %" PRIu64, r->file);
    if (r->why == GM_UNUSED_GIVEN_BEFORE) PUT(" given-before");
    else PUT(" nothing-for 0x%" PRIx32, r->cputype);
    end_line(a);
}

/* Says each answer, with the name of the binding that has its number. */
static void say_answers(asked *a, const gm_answer *rows, const gm_resolution *found) {
    gm_binding *binds = longer(NULL, (size_t)found->answers * sizeof *binds);
    gm_binding_cursor at;
    size_t count = 0;
    uint32_t is_settled = 1;
    memset(&at, 0, sizeof at);
    if (gm_open(FILE_OF, 0, GM_STRICT, NULL, &a->image, NULL)) differ(&a->to, "a program that opens", "an error");
    else if (binds && gm_bindings(IMAGE_OF, &at, binds, found->answers, &count, NULL, NULL)) differ(&a->to, "the bindings", "an error");
    else if (count != found->answers) differ(&a->to, "a binding for each answer", "fewer");
    for (size_t k = 0; k < count && !a->to.differs; k++) {
        say_answer(a, &rows[k], &binds[k]);
        is_settled &= rows[k].is_settled;
    }
    if (is_settled != found->is_settled) differ(&a->to, "(whether all are settled)", "another word");
    free(binds);
}

static void answer_resolve(asked *a) {
    given files = given_files(a);
    size_t cap = (size_t)number_of(a->to.b, "number", a->len);
    gm_answer *rows = longer(NULL, cap * sizeof *rows);
    gm_unused_file *unused = longer(NULL, files.count * sizeof *unused);
    gm_resolution found;
    uint32_t code = gm_resolve(files.bytes.at, files.bytes.len, files.all, files.count, rows, cap, unused, files.count, &found, NULL, NULL);
    if (code) {
        PUT("refused %" PRIu64, found.file);
        end_line(a);
        say_error(a, code);
    } else {
        say_answers(a, rows, &found);
        if (found.more) say(a, "limited");
        for (size_t k = 0; k < found.unused && !a->to.differs; k++) say_unused(a, &unused[k]);
        say(a, "end");
    }
    free(unused);
    free(rows);
    free(files.all);
    free(files.bytes.at);
}
#endif
