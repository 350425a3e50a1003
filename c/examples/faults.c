/* faults.c: the faults of an image's layout. */
#include "file.h"
#include <goblin_mach.h>
#include <inttypes.h>

int main(int argc, char **argv) {
    size_t len;
    uint64_t n = 64;
    uint8_t *bytes = argc == 2 ? whole_file(argv[1], &len) : NULL;
    if (!bytes) return 2;
    gm_image image;
    gm_error error;
    gm_layout_fault f[64];
    uint32_t code = gm_open(bytes, len, 0, GM_STRICT, NULL, &image, &error);
    for (uint64_t first = 0; !code && n == 64; first += n) {
        code = gm_layout_faults(bytes, len, &image, first, f, 64, &n, NULL, &error);
        for (uint64_t i = 0; !code && i < n; i++)
            printf("%s: %s at 0x%" PRIx64 ": 0x%" PRIx64 " against 0x%" PRIx64 "\n", gm_layout_rule(f[i].rule), gm_layout_part(f[i].part), f[i].command,
                   f[i].found, f[i].limit);
    }
    if (code) puts(error.text);
    free(bytes);
    return code != 0;
}
