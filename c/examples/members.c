/* members.c: the members of an archive, each by its size and its name, and how many symbols those have that are images; and the symbols of its index. */
#include "file.h"
#include <goblin_mach.h>
#include <inttypes.h>

int main(int argc, char **argv) {
    size_t len;
    uint8_t *bytes = argc == 2 ? whole_file(argv[1], &len) : NULL;
    if (!bytes) return 2;
    gm_archive_member m[64];
    for (uint64_t first = 0, n; (n = gm_archive_members(bytes, len, first, m, 64)) != 0; first += n)
        for (uint64_t i = 0; i < n; i++) {
            gm_image image;
            if (m[i].code != GM_OK) { printf("no more members: %s\n", gm_code_name(m[i].code)); continue; }
            printf("%" PRIu64 " %.*s", m[i].data_len, (int)m[i].name_len, (const char *)bytes + m[i].name);
            if (gm_open(bytes + m[i].data, m[i].data_len, 0, GM_STRICT, NULL, &image, NULL) == GM_OK) printf(", %" PRIu64 " symbols", image.symbols);
            puts("");
        }
    gm_archive_symbol s[64];
    for (uint64_t first = 0, n; (n = gm_archive_symbols(bytes, len, first, s, 64)) != 0; first += n)
        for (uint64_t i = 0; i < n; i++)
            if (s[i].code == GM_OK) printf("%.*s in %" PRIu64 "\n", (int)s[i].name_len, (const char *)bytes + s[i].name, s[i].member);
    free(bytes);
    return 0;
}
