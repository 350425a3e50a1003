/* sections.c: the sections of an image, each by its segment, its name and its address, and the sum of its data. */
#include "file.h"
#include <goblin_mach.h>
#include <inttypes.h>

static uint64_t sum(const uint8_t *data, uint64_t len) {
    uint64_t all = 0;
    for (uint64_t i = 0; i < len; i++) all += data[i];
    return all;
}

int main(int argc, char **argv) {
    size_t len;
    uint8_t *bytes = argc == 2 ? whole_file(argv[1], &len) : NULL;
    if (!bytes) return 2;
    gm_image image;
    gm_error error;
    if (gm_open(bytes, len, 0, GM_STRICT, NULL, &image, &error)) { puts(error.text); free(bytes); return 1; }
    gm_segment segment[4];
    gm_section s[16];
    for (uint64_t first = 0, n; (n = gm_segments(bytes, len, &image, first, segment, 4)) != 0; first += n)
        for (uint64_t i = 0; i < n; i++)
            for (uint64_t next = 0, m; (m = gm_sections(bytes, len, &image, segment[i].command, segment[i].sections, next, s, 16)) != 0; next += m)
                for (uint64_t k = 0; k < m; k++)
                    if (s[k].code == GM_OK && (s[k].flags & GM_SECTION_TYPE) != GM_S_ZEROFILL)
                        printf("%.16s %.16s %" PRIx64 " %" PRIu64 "\n", (const char *)s[k].segment, (const char *)s[k].name, s[k].addr,
                               sum(bytes + s[k].offset, s[k].data_len));
    free(bytes);
    return 0;
}
