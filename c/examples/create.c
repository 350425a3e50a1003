/* create.c: a fat file of 64 bits of one file for two cpus, written into memory, and its entries. */
#include "file.h"
#include <goblin_mach.h>
#include <inttypes.h>

int main(int argc, char **argv) {
    size_t len;
    uint64_t needed = 0;
    uint8_t *bytes = argc == 2 ? whole_file(argv[1], &len) : NULL, *out = NULL;
    if (!bytes) return 2;
    gm_fat_part parts[] = {{0, len, GM_CPU_TYPE_X86_64, GM_CPU_SUBTYPE_X86_64_ALL, 12, 0}, {0, len, GM_CPU_TYPE_ARM64, GM_CPU_SUBTYPE_ARM64_ALL, 14, 0}};
    gm_error error;
    uint32_t code = gm_write_fat(bytes, len, parts, 2, 1, NULL, 0, &needed, NULL, &error);
    if (code == GM_NO_SPACE && (out = malloc((size_t)needed))) code = gm_write_fat(bytes, len, parts, 2, 1, out, needed, &needed, NULL, &error);
    if (code) puts(error.text);
    gm_fat_entry64 e[2];
    for (uint64_t i = 0, n = code ? 0 : gm_fat_entries64(out, needed, 0, e, 2); i < n; i++)
        printf("%s at %" PRIu64 ", %" PRIu64 " bytes\n", gm_cpu_name(e[i].cputype, e[i].cpusubtype), e[i].offset, e[i].size);
    free(out);
    free(bytes);
    return code != 0;
}
