/* nearest.c: the symbol at each address of the standard input, in hexadecimal, and how many bytes after it the address is. */
#include "file.h"
#include <goblin_mach.h>
#include <inttypes.h>

int main(int argc, char **argv) {
    size_t len;
    uint8_t *bytes = argc == 2 ? whole_file(argv[1], &len) : NULL;
    gm_found_symbol found;
    gm_image image;
    gm_error error;
    uint64_t address, count = 0;
    if (!bytes) return 2;
    if (gm_open(bytes, len, 0, GM_STRICT, NULL, &image, &error)) { puts(error.text); return 1; }
    uint64_t end = gm_in_bounds(len, image.symbols_at, image.is_64 ? 16 : 12, image.symbols);
    uint64_t *order = malloc(((size_t)end + 1) * sizeof *order);
    if (!order) return 2;
    if (gm_symbol_map(bytes, len, &image, order, end, &count, NULL, &error)) { puts(error.text); return 1; }
    while (scanf("%" SCNx64, &address) == 1) {
        if (gm_symbol_in_map(bytes, len, &image, order, count, address, &found, NULL, &error)) { puts(error.text); return 1; }
        if (found.is_found) printf("%.*s + %" PRIu64 "\n", (int)found.symbol.name_len, (const char *)bytes + found.symbol.name, found.distance);
        else puts("nothing");
    }
    free(order);
    free(bytes);
    return 0;
}
