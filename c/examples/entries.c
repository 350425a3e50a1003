/* entries.c: the images of a file, each by its cpu and how many symbols it has: those of a fat file's entries, or the one that the file is. */
#include "file.h"
#include <goblin_mach.h>
#include <inttypes.h>

static void print_image(const uint8_t *bytes, uint64_t len) {
    gm_image image;
    gm_error error;
    if (gm_open(bytes, len, 0, GM_STRICT, NULL, &image, &error)) { puts(error.text); return; }
    const char *cpu = gm_cpu_name(image.cputype, image.cpusubtype);
    printf("%s, %" PRIu64 " symbols\n", cpu ? cpu : "unknown", image.symbols);
}

int main(int argc, char **argv) {
    size_t len;
    uint64_t first = 0;
    uint8_t *bytes = argc == 2 ? whole_file(argv[1], &len) : NULL;
    if (!bytes) return 2;
    gm_fat_entry64 e[8];
    for (uint64_t n; (n = gm_fat_entries64(bytes, len, first, e, 8)) != 0; first += n)
        for (uint64_t i = 0; i < n; i++) {
            if (e[i].code != GM_OK) puts("an entry out of the file");
            else print_image(bytes + e[i].offset, e[i].size);
        }
    if (first == 0) print_image(bytes, len);
    free(bytes);
    return 0;
}
