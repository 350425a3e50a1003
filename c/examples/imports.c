/* imports.c: the imports of an image by opcodes only, each by its address and its name. */
#include "file.h"
#include <goblin_mach.h>
#include <inttypes.h>

int main(int argc, char **argv) {
    size_t len;
    uint64_t n;
    uint8_t *bytes = argc == 2 ? whole_file(argv[1], &len) : NULL;
    if (!bytes) return 2;
    gm_image image;
    gm_error error;
    gm_bind_cursor at = {0};
    gm_import row[256];
    uint32_t code = gm_open(bytes, len, 0, GM_STRICT, NULL, &image, &error);
    do {
        if (!code) code = gm_opcode_imports(bytes, len, &image, &at, row, 256, &n, NULL, &error);
        for (uint64_t i = 0; !code && i < n; i++)
            if (row[i].code == GM_OK) printf("%" PRIx64 " %.*s\n", row[i].address, (int)row[i].name_len, (const char *)bytes + row[i].name);
    } while (!code && n == 256);
    if (code) puts(error.text);
    free(bytes);
    return code != 0;
}
