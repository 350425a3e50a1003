/* Uses the header like programs in C99 to C17 and in C++11 to C++20. c/check compiles this file in each of these dialects, without warnings. */
#include "goblin_mach.h"

#if GM_VERSION_NUMBER < 3000 || GM_MH_MAGIC_64 != 0xfeedfacf || GM_N_EXT != 1 || GM_EXPORT_SYMBOL_FLAGS_KIND_MASK != 3
#error "a constant that the preprocessor reads otherwise"
#endif

/* These return whether a segment has code, a symbol is in a section, an export is from another library. */
static bool is_code(const gm_segment *s) { return (s->initprot & GM_VM_PROT_EXECUTE) != 0 && (s->flags & ~GM_SG_NORELOC) == 0; }
static bool is_of_section(const gm_symbol *s) { return (s->n_type & GM_N_STAB) == 0 && (s->n_type & GM_N_TYPE) == GM_N_SECT; }
static bool is_brought(const gm_export *e) { return (e->flags & GM_EXPORT_SYMBOL_FLAGS_REEXPORT) != 0 && e->kind == GM_REEXPORTED; }

static uint32_t width_of(uint32_t cmd) {
    switch (cmd) {
    case GM_LC_SEGMENT: return 32;
    case GM_LC_SEGMENT_64: return 64;
    default: return 0;
    }
}

int main(void) {
    gm_segment segment = {{0}, 0, 0, 0, 0, 0, 0, GM_VM_PROT_READ, GM_VM_PROT_READ | GM_VM_PROT_EXECUTE, 0, GM_SG_NORELOC};
    gm_symbol symbol = {0, 0, 0, GM_NO_SECT, GM_OK, GM_N_WEAK_DEF | GM_N_NO_DEAD_STRIP, GM_N_SECT | GM_N_EXT, 0};
    gm_export found = {0, 0, 0, GM_EXPORT_SYMBOL_FLAGS_REEXPORT, 0, 0, GM_REEXPORTED, 0};
    if (!is_code(&segment) || !is_of_section(&symbol) || !is_brought(&found) || width_of(GM_LC_SEGMENT_64) != 64) return 1;
    gm_arena arena = {NULL, 0, 0, 0};
    gm_memory memory = gm_arena_memory(&arena);
    gm_image image;
    gm_error error;
    uint32_t code = gm_open(NULL, 0, 0, GM_STRICT, &memory, &image, &error);
    return !(GM_VERSION_FITS() && code != GM_OK && gm_code_name(code) != NULL && gm_cpu_name(GM_CPU_TYPE_ARM64, GM_CPU_SUBTYPE_ARM64E) != NULL);
}
