/* commands.c: the cpu and the type of an image, and its load commands, each by its place and its name. */
#include "file.h"
#include <goblin_mach.h>
#include <inttypes.h>

static const char *or_unknown(const char *name) { return name ? name : "unknown"; }

int main(int argc, char **argv) {
    size_t len;
    uint8_t *bytes = argc == 2 ? whole_file(argv[1], &len) : NULL;
    if (!bytes) return 2;
    gm_image image;
    gm_error error;
    if (gm_open(bytes, len, 0, GM_STRICT, NULL, &image, &error)) { puts(error.text); free(bytes); return 1; }
    printf("%s %s\n", or_unknown(gm_cpu_name(image.cputype, image.cpusubtype)), or_unknown(gm_file_type_name(image.filetype)));
    gm_command c[8];
    for (uint64_t first = 0, n; (n = gm_commands(bytes, len, &image, first, c, 8)) != 0; first += n)
        for (uint64_t i = 0; i < n; i++)
            printf("0x%" PRIx64 " %s\n", c[i].offset, or_unknown(gm_command_name(c[i].cmd)));
    free(bytes);
    return 0;
}
