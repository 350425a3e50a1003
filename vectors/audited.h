/* Whether a file is sound, and what is found in it. */
#ifndef AUDITED_H
#define AUDITED_H
#include "signed.h"

/* Puts the numbers of an item: of its segment and its section, if it is in one, and its own. */
static void put_item(asked *a, const gm_finding *r) {
    if (r->list <= GM_LIST_RELOCATIONS) PUT(" %" PRIu64, r->segment);
    if (r->list == GM_LIST_RELOCATIONS) PUT(" %" PRIu64, r->section);
    PUT(" %" PRIu64, r->index);
}

static void say_finding(asked *a, const gm_finding *r) {
    PUT("finding");
    if (r->entry != GM_NO_NUMBER) PUT(" entry %" PRIu64, r->entry);
    if (r->member != GM_NO_NUMBER) PUT(" member %" PRIu64, r->member);
    PUT(" ");
    put_hyphens(a, gm_finding_kind(r->kind));
    if (r->list) PUT(" %s", gm_finding_list(r->list));
    if (r->kind == GM_FINDING_ITEM) put_item(a, r);
    if (r->count) PUT(" %" PRIu64, r->count);
    if (r->kind == GM_FINDING_SIGNATURE) PUT(" "), put_signature_fault(a, &r->signature);
    if (r->kind == GM_FINDING_LAYOUT) PUT(" "), put_layout_fault(a, &r->layout);
    if (r->error.code) PUT(" error %s", error_of(r->error.code));
    end_line(a);
}

static void answer_audit(asked *a) {
    static const char *const verdicts[] = {"sound", "unended", "faulty"};
    uint64_t limit = number_of(a->to.b, "number", UINT64_MAX), count = 0;
    uint32_t verdict = 0, code = gm_audit(FILE_OF, limit, NULL, 0, &count, &verdict, NULL, NULL);
    gm_finding *rows = longer(NULL, (size_t)count * sizeof *rows);
    uint64_t again = count;
    if (!code) code = gm_audit(FILE_OF, limit, rows, count, &again, &verdict, NULL, NULL);
    if (!code && again != count) differ(&a->to, "(as much the second time)", "another count");
    for (uint64_t k = 0; !code && k < count && !a->to.differs; k++) say_finding(a, &rows[k]);
    if (!code) PUT("verdict %s", verdict <= GM_FAULTY ? verdicts[verdict] : "(no verdict)");
    if (!code) end_line(a);
    say_or_error(a, code, "end");
    free(rows);
}
#endif
