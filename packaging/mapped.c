/* Maps a large file from C, opens the image, and reads its commands and its symbols. */
#include <fcntl.h>
#include <goblin_mach.h>
#include <stdio.h>
#include <sys/mman.h>
#include <sys/stat.h>

int main(int argc, char **argv) {
    struct stat found;
    int fd = argc == 2 ? open(argv[1], O_RDONLY) : -1;
    if (fd < 0 || fstat(fd, &found)) return 2;
    size_t len = (size_t)found.st_size, all = 0, n;
    const uint8_t *bytes = mmap(NULL, len, PROT_READ, MAP_PRIVATE, fd, 0);
    if (bytes == MAP_FAILED) return 2;
    gm_image image;
    gm_error error;
    if (gm_open(bytes, len, 0, GM_STRICT, NULL, &image, &error)) return puts(error.text), 1;
    gm_command command[64];
    for (size_t first = 0; (n = gm_commands(bytes, len, &image, first, command, 64)) != 0; first += n) all += n;
    gm_symbol symbol[64];
    for (size_t first = 0; (n = gm_symbols(bytes, len, &image, first, symbol, 64)) != 0; first += n) all += n;
    return printf("%zu\n", all) < 0;
}
