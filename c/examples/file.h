/* file.h: the bytes of a whole file, or NULL; the caller frees them. */
#include <stdint.h>
#include <stdio.h>
#include <stdlib.h>

static uint8_t *whole_file(const char *name, size_t *len) {
    FILE *file = fopen(name, "rb");
    uint8_t *bytes = NULL;
    long end;
    if (file && !fseek(file, 0, SEEK_END) && (end = ftell(file)) >= 0 && (bytes = malloc((size_t)end + 1))) {
        rewind(file);
        *len = fread(bytes, 1, (size_t)end, file);
        if (*len != (size_t)end) { free(bytes); bytes = NULL; }
    }
    if (file) fclose(file);
    return bytes;
}
