/* example FILE: the libraries and the symbols of an image, or of each image of a fat file. */
#include "goblin_mach.h"
#include <inttypes.h>
#include <stdio.h>
#include <stdlib.h>

static int show(const uint8_t *bytes, uint64_t len) {
    gm_image image;
    gm_error error;
    if (gm_open(bytes, len, 0, GM_STRICT, NULL, &image, &error)) {
        fprintf(stderr, "%s\n", error.text);
        return 1;
    }
    gm_library libraries[16];
    for (uint64_t first = 0, n; (n = gm_libraries(bytes, len, &image, first, libraries, 16)); first += n)
        for (uint64_t i = 0; i < n; i++)
            printf("library %" PRIu64 ": %.*s\n", first + i + 1, (int)libraries[i].name_len, (const char *)bytes + libraries[i].name);
    gm_symbol symbols[256];
    for (uint64_t first = 0, n; (n = gm_symbols(bytes, len, &image, first, symbols, 256)); first += n)
        for (uint64_t i = 0; i < n; i++)
            if (symbols[i].code == GM_OK)
                printf("%016" PRIx64 " %.*s\n", symbols[i].value, (int)symbols[i].name_len, (const char *)bytes + symbols[i].name);
    return 0;
}

int main(int argc, char **argv) {
    FILE *file = argc == 2 ? fopen(argv[1], "rb") : NULL;
    if (!file || fseek(file, 0, SEEK_END)) return 2;
    size_t len = (size_t)ftell(file);
    uint8_t *bytes = malloc(len + 1);
    rewind(file);
    if (!bytes || fread(bytes, 1, len, file) != len) return 2;
    gm_fat_entry entries[8];
    uint64_t first = 0;
    int bad = 0;
    for (uint64_t n; (n = gm_fat_entries(bytes, len, first, entries, 8)); first += n)
        for (uint64_t i = 0; i < n; i++) bad |= entries[i].code != GM_OK || show(bytes + entries[i].offset, entries[i].size);
    return first ? bad : show(bytes, len);
}
