/* Code signatures: what they say, and how an image is hardened. */
#ifndef SIGNED_H
#define SIGNED_H
#include "lists.h"

/* Puts why a text of the signature isn't there: an error, or none. Returns whether it isn't there. */
static bool is_missing(asked *a, size_t at, uint32_t code) {
    if (code) PUT("(%s)", error_of(code));
    else if (!at) PUT("none");
    return code || !at;
}

static void answer_signature(asked *a) {
    gm_signature s;
    uint32_t code = gm_code_signature(IMAGE_OF, &s, NULL, NULL);
    if (code || !s.is_signed) {
        say_or_error(a, code, "unsigned");
        return;
    }
    PUT("signature ");
    if (!is_missing(a, s.identifier, s.identifier_code)) put_text(a, s.identifier, s.identifier_len);
    PUT(" team ");
    if (!is_missing(a, s.team, s.team_code)) put_text(a, s.team, s.team_len);
    PUT(" version 0x%" PRIx32 " flags 0x%" PRIx32 " hash %" PRIu32 " limit %" PRIu64, s.version, s.flags, s.hash_type, s.limit);
    PUT(" pages %" PRIu64 " page-size %" PRIu32 " entitlements ", s.pages, s.page_size);
    if (!is_missing(a, s.entitlements, s.entitlements_code)) PUT("%zu", s.entitlements_len);
    PUT(" cdhash ");
    put_pairs(a, s.cdhash, sizeof s.cdhash);
    end_line(a);
}

static void answer_as_signed(asked *a) {
    uint32_t as_signed = 0, code = gm_is_as_signed(IMAGE_OF, &as_signed, NULL, NULL);
    say_or_error(a, code, as_signed ? "yes" : "no");
}


/* Says the requirement of a type, or why it can't be read. */
static void say_requirement(asked *a, uint32_t type) {
    static const char *const types[] = {"(no type)", "host", "guest", "designated", "library", "plugin"};
    uint64_t len = 0;
    uint32_t code = gm_requirement_text(IMAGE_OF, type, NULL, 0, &len, NULL, NULL);
    char *text = code == GM_NO_SPACE ? longer(NULL, (size_t)len) : NULL;
    if (text) code = gm_requirement_text(IMAGE_OF, type, text, len, &len, NULL, NULL);
    if (code || !len) say_or_error(a, code, "none");
    else {
        PUT("requirement %s ", types[type <= GM_REQUIREMENT_PLUGIN ? type : 0]);
        append(&a->to.line, text, (size_t)len);
        end_line(a);
    }
    free(text);
}

static void answer_requirement(asked *a) {
    for (const field *f = NULL; (f = next_of(a->to.b, "number", f)) != NULL;) {
        const char *text = f->value;
        say_requirement(a, (uint32_t)number(&text));
    }
    say_end(a);
}

/* Says the entitlements in XML, 64 bytes in a line. */
static void say_entitlements(asked *a, const gm_signature *s) {
    for (uint64_t at = 0; at < s->entitlements_len; at += 64) {
        uint64_t left = s->entitlements_len - at;
        PUT("xml ");
        put_text(a, (size_t)(s->entitlements + at), (size_t)(left < 64 ? left : 64));
        end_line(a);
    }
    if (!s->entitlements_code) return;
    PUT("xml (%s)", error_of(s->entitlements_code));
    end_line(a);
}

static void answer_entitlements(asked *a) {
    static const char *const words[] = {"none", "same", "different", "only-xml", "only-der", "unreadable-xml", "unreadable-der"};
    gm_signature s;
    uint32_t agreement = 0, code = gm_code_signature(IMAGE_OF, &s, NULL, NULL);
    if (!code) code = gm_entitlements_agree(IMAGE_OF, &agreement, NULL, NULL);
    if (code) {
        say_error(a, code);
        return;
    }
    PUT("entitlements %s", agreement <= GM_ENTITLEMENTS_UNREADABLE_DER ? words[agreement] : "(no agreement)");
    end_line(a);
    say_entitlements(a, &s);
    say_end(a);
}

BY_NUMBER_OR_REFUSED(security, gm_verdict, IMAGE_OF)
LINE(security, gm_verdict,
     PUT("verdict %s ", gm_verdict_name(r->verdict));
     if (r->code) PUT("(%s)", error_of(r->code));
     else PUT("%s", r->holds ? "yes" : "no"))

static void answer_security(asked *a) {
    static const list verdicts = LIST("security", security, gm_verdict, NO_CODE);
    answer_list(a, &verdicts);
}
#endif
