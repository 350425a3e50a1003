/* A target for libFuzzer over the C library. For each input it tests lists in batches, memory refused at each request, and what a refusal may change, as
   gm_test tests them for a file. What gm_test reads by itself out of the bytes is left out, since that is meant for sound files.
   tools/rust-fuzz builds and runs it. */
#define main gm_test_main
#include "gm_test.c"
#undef main

static void check_input(const uint8_t *bytes, uint64_t len) {
    given g = {.bytes = bytes, .len = len};
    same_in_batches(named("entries"), &g);
    same_in_batches(named("table"), &g);
    tells(told_of_table, &g);
    for (uint32_t mode = GM_STRICT; mode <= GM_LOSSY; mode++) {
        if (opens(&g, mode)) continue;
        static const char *const names[] = {"weak_binds", "rebases", "function_starts", "data_in_code", "indirect_symbols", "slots", "initializers",
                                            "linker_options",
                                            "build_tools", "notes", "layout", "ids", "signature", "signature_faults", "security"};
        for (int i = 0; i < 8; i++) same_in_batches(&lists[i], &g);
        for (uint64_t i = 0; i < sizeof names / sizeof *names; i++) same_in_batches(named(names[i]), &g);
        counts(&g);
        says(&g);
        check_exports(&g);
        fixups_refused(&g);
        opcode_imports_refused(&g);
        bindings_refused(&g);
        weak_binds_refused(&g);
        rebases_refused(&g);
        function_starts_refused(&g);
        tells(told_of_image, &g);
        finds(&g, NULL, 0);
        finds(&g, "a", 1);
        finds(&g, "\xff", 1);
    }
}

int LLVMFuzzerTestOneInput(const uint8_t *bytes, uint64_t len);

int LLVMFuzzerTestOneInput(const uint8_t *bytes, uint64_t len) {
    if (!away && !(away = fopen("/dev/null", "w"))) DIE("/dev/null can't be opened");
    check_input(bytes, len);
    return 0;
}
