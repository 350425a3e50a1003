/* symbols.c: the symbols of an image, each by its value and its name. */
#include "file.h"
#include <goblin_mach.h>
#include <inttypes.h>

int main(int argc, char **argv) {
    size_t len;
    uint8_t *bytes = argc == 2 ? whole_file(argv[1], &len) : NULL;
    if (!bytes) return 2;
    gm_image image;
    gm_error error;
    if (gm_open(bytes, len, 0, GM_STRICT, NULL, &image, &error)) { puts(error.text); free(bytes); return 1; }
    gm_symbol s[256];
    for (uint64_t first = 0, n; (n = gm_symbols(bytes, len, &image, first, s, 256)) != 0; first += n)
        for (uint64_t i = 0; i < n; i++)
            if (s[i].code == GM_OK) printf("%" PRIx64 " %.*s\n", s[i].value, (int)s[i].name_len, (const char *)bytes + s[i].name);
    free(bytes);
    return 0;
}
