/* memory.c: how many symbols an image has, without malloc but for the file. */
#include "file.h"
#include <goblin_mach.h>
#include <inttypes.h>

int main(int argc, char **argv) {
    static union { uint8_t bytes[1 << 20]; long double aligned; } room; /* aligned to 16, as a long double is */
    gm_arena arena = {room.bytes, sizeof room.bytes, 0, 0};
    gm_memory memory = gm_arena_memory(&arena);
    size_t len;
    uint8_t *bytes = argc == 2 ? whole_file(argv[1], &len) : NULL;
    if (!bytes) return 2;
    gm_image image;
    gm_error error;
    uint32_t code = gm_open(bytes, len, 0, GM_STRICT, &memory, &image, &error);
    if (code) puts(error.text);
    else printf("%" PRIu64 " symbols\n", image.symbols);
    free(bytes);
    return code != 0;
}
