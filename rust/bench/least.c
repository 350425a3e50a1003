// C that does the least work for the same answers as the Rust programs beside it. It tests nothing, and is only for files of inputs.py.
//   least WORD FILE SECONDS
#include <stdint.h>
#include <stdio.h>
#include <stdlib.h>
#include <string.h>
#include <time.h>

// Each run makes `light`, the sum of addresses and lengths of names, or of both words of relocations. By it each item is used. Only the first
// run makes `sum`, the sum of a hash of each item.
typedef struct { uint64_t items, light, sum; } Answer;
typedef struct { const uint8_t *at; uint64_t length; } Text;
typedef struct {
    const uint8_t *bytes;
    const uint32_t *dyld, *symbols;
    const uint8_t *sections[8];
    uint64_t section_count[8], addresses[8], offsets[8], segments, libraries;
    Text library[64];
} Image;

static uint64_t fnv(uint64_t hash, const void *data, size_t size) {
    for (const uint8_t *p = data, *end = p + size; p < end; p++) hash = (hash ^ *p) * 0x100000001b3ull;
    return hash;
}
static uint64_t fnv_number(uint64_t hash, uint64_t number) { return fnv(hash, &number, 8); }
static const uint64_t START = 0xcbf29ce484222325ull;

static inline void named(Answer *answer, int fold, uint64_t address, const uint8_t *name, uint64_t length) {
    answer->items++;
    answer->light += address + length;
    if (fold) answer->sum += fnv(fnv_number(START, address), name, length);
}
static inline void imported(Answer *answer, int fold, uint64_t address, Text library, Text name) {
    answer->items++;
    answer->light += address + name.length;
    if (fold) answer->sum += fnv(fnv(fnv(fnv_number(START, address), library.at, library.length), " ", 1), name.at, name.length);
}

static inline uint64_t uleb(const uint8_t **p) {
    uint64_t byte = *(*p)++, number = byte & 127;
    for (int shift = 7; byte & 128; shift += 7) number |= ((byte = *(*p)++) & 127) << shift;
    return number;
}
static inline uint32_t u32(const uint8_t *p) { uint32_t x; memcpy(&x, p, 4); return x; }
static inline uint64_t u64(const uint8_t *p) { uint64_t x; memcpy(&x, p, 8); return x; }
static Text text(const void *p) { return (Text){p, strlen(p)}; }

static void open_image(Image *image, const uint8_t *bytes) {
    memset(image, 0, sizeof *image);
    image->bytes = bytes;
    image->libraries = 1;
    const uint8_t *p = bytes + 32;
    for (uint32_t left = u32(bytes + 16); left; left--, p += u32(p + 4)) switch (u32(p)) {
        case 0x19:
            if (image->segments == 8) break;
            image->addresses[image->segments] = u64(p + 24);
            image->offsets[image->segments] = u64(p + 40);
            image->section_count[image->segments] = u32(p + 64);
            image->sections[image->segments++] = p + 72;
            break;
        case 0xd: image->library[0] = text(p + u32(p + 8)); break;
        case 0xc: case 0x80000018:
            if (image->libraries < 64) image->library[image->libraries++] = text(p + u32(p + 8));
            break;
        case 0x80000022: image->dyld = (const uint32_t *)p; break;
        case 2: image->symbols = (const uint32_t *)p; break;
    }
}

// Walks the trie by a stack of nodes. With `list` it copies each name into a block of its own.
typedef struct { const uint8_t *at; uint64_t left, length; } Node;
typedef struct { uint64_t address, length; uint8_t *name; } Export;

static inline __attribute__((always_inline)) void exports_of(const Image *image, Answer *answer, int fold, int list) {
    if (!image->dyld || !image->dyld[11]) return;
    const uint8_t *trie = image->bytes + image->dyld[10], *p = trie;
    size_t depth = 0, room = 1024, name_room = 1 << 16, count = 0, list_room = 1024, length = 0;
    Node *stack = malloc(room * sizeof *stack);
    uint8_t *name = malloc(name_room);
    Export *all = list ? malloc(list_room * sizeof *all) : NULL;
    for (;;) {
        uint64_t size = uleb(&p);
        const uint8_t *branches = p + size;
        if (size) {
            uleb(&p);
            uint64_t address = uleb(&p);
            if (!list) named(answer, fold, address, name, length);
            else {
                if (count == list_room) all = realloc(all, (list_room *= 2) * sizeof *all);
                all[count] = (Export){address, length, malloc(length ? length : 1)};
                memcpy(all[count++].name, name, length);
            }
        }
        p = branches;
        uint64_t left = uleb(&p);
        if (depth == room) stack = realloc(stack, (room *= 2) * sizeof *stack);
        stack[depth++] = (Node){p, left, length};
        while (depth && !stack[depth - 1].left) depth--;
        if (!depth) break;
        Node *node = &stack[depth - 1];
        node->left--;
        p = node->at;
        length = node->length;
        if (length + 4096 > name_room) name = realloc(name, name_room *= 2);
        while (*p) name[length++] = *p++;
        p++;
        uint64_t next = uleb(&p);
        node->at = p;
        p = trie + next;
    }
    for (size_t at = 0; at < count; at++) named(answer, fold, all[at].address, all[at].name, all[at].length);
    for (size_t at = 0; at < count; at++) free(all[at].name);
    free(all);
    free(name);
    free(stack);
}

// An import has the fields of goblin's.
typedef struct { Text name, library; uint64_t offset, size, address, start; int64_t addend; uint8_t lazy, weak; } Import;

static inline __attribute__((always_inline)) void imports_of(const Image *image, Answer *answer, int fold, int list) {
    if (!image->dyld) return;
    size_t count = 0, room = 4;
    Import *all = list ? malloc(room * sizeof *all) : NULL;
    for (int lazy = 0; lazy < 2; lazy++) {
        const uint8_t *start = image->bytes + image->dyld[lazy ? 8 : 4], *p = start, *end = p + image->dyld[lazy ? 9 : 5];
        Import now = {{(const uint8_t *)"", 0}, image->library[0], 0, lazy ? 8 : 0, 0, 0, 0, lazy, 0};
        uint64_t at = 0, segment = 0, times, gap;
        while (p < end) {
            uint8_t opcode = *p >> 4, value = *p & 15;
            p++;
            switch (opcode) {
            case 0: now.start = p - start; continue;
            case 1: now.library = image->library[value]; continue;
            case 2: now.library = image->library[uleb(&p)]; continue;
            case 4: now.weak = value & 1; now.name = text(p); p += now.name.length + 1; continue;
            case 7: segment = value; at = uleb(&p); continue;
            case 9: times = 1; gap = 8; break;
            case 10: times = 1; gap = 8 + uleb(&p); break;
            case 11: times = 1; gap = 8 + 8 * value; break;
            case 12: times = uleb(&p); gap = 8 + uleb(&p); break;
            default: continue;
            }
            for (; times; times--, at += gap) {
                now.address = image->addresses[segment] + at;
                now.offset = image->offsets[segment] + at;
                if (!list) imported(answer, fold, now.address, now.library, now.name);
                else {
                    if (count == room) all = realloc(all, (room *= 2) * sizeof *all);
                    all[count++] = now;
                }
            }
        }
    }
    for (size_t at = 0; at < count; at++) imported(answer, fold, all[at].address, all[at].library, all[at].name);
    free(all);
}

static inline void symbols_of(const Image *image, Answer *answer, int fold) {
    const uint8_t *p = image->bytes + image->symbols[2], *strings = image->bytes + image->symbols[4];
    for (uint32_t left = image->symbols[3]; left; left--, p += 16) {
        Text name = text(strings + u32(p));
        named(answer, fold, u64(p + 8), name.at, name.length);
    }
}

static inline void relocations_of(const Image *image, Answer *answer, int fold) {
    for (uint64_t segment = 0; segment < image->segments; segment++)
        for (uint64_t number = 0; number < image->section_count[segment]; number++) {
            const uint8_t *section = image->sections[segment] + 80 * number;
            const uint32_t *at = (const uint32_t *)(image->bytes + u32(section + 56)), *end = at + 2 * (uint64_t)u32(section + 60);
            uint64_t light = 0;
            answer->items += (end - at) / 2;
            for (; at < end; at += 2) {
                light += (uint64_t)at[0] + at[1];
                if (fold) answer->sum += fnv_number(fnv_number(fnv_number(START, number), at[0]), at[1]);
            }
            answer->light += light;
        }
}

static int is_fat(const uint8_t *bytes) { return u32(bytes) == 0xbebafeca; }
static uint32_t big(const uint8_t *p) { return __builtin_bswap32(u32(p)); }

static const char *const WORDS[] = {"exports", "exports_stream", "imports", "imports_stream", "symbols", "relocations", "parse", "link_view"};
enum { EXPORTS, EXPORTS_STREAM, IMPORTS, IMPORTS_STREAM, SYMBOLS, RELOCATIONS, PARSE, LINK_VIEW, NONE };

static inline __attribute__((always_inline)) Answer run(int word, const uint8_t *bytes, Image *image, int fold) {
    Answer answer = {0, 0, 0};
    uint32_t count = is_fat(bytes) ? big(bytes + 4) : 1;
    switch (word) {
    case EXPORTS: exports_of(image, &answer, fold, 1); break;
    case EXPORTS_STREAM: exports_of(image, &answer, fold, 0); break;
    case IMPORTS: imports_of(image, &answer, fold, 1); break;
    case IMPORTS_STREAM: imports_of(image, &answer, fold, 0); break;
    case SYMBOLS: symbols_of(image, &answer, fold); break;
    case RELOCATIONS: relocations_of(image, &answer, fold); break;
    case PARSE:
        if (!is_fat(bytes)) open_image(image, bytes);
        __asm__ volatile("" : : "r"(image) : "memory");
        answer.light = answer.items = is_fat(bytes) ? count : u32(bytes + 16);
        break;
    case LINK_VIEW:
        for (uint32_t at = 0; at < count; at++) {
            open_image(image, is_fat(bytes) ? bytes + big(bytes + 8 + 20 * at + 8) : bytes);
            exports_of(image, &answer, fold, 1);
            imports_of(image, &answer, fold, 1);
        }
    }
    return answer;
}

// Returns processor time, which other processes change least.
static double now(void) {
    struct timespec time;
    clock_gettime(CLOCK_PROCESS_CPUTIME_ID, &time);
    return time.tv_sec * 1e9 + time.tv_nsec;
}

int main(int count, char **words) {
    FILE *file = count == 4 ? fopen(words[2], "rb") : NULL;
    if (!file) return fprintf(stderr, "usage: least WORD FILE SECONDS\n"), 2;
    fseek(file, 0, SEEK_END);
    size_t size = ftell(file);
    rewind(file);
    uint8_t *bytes = calloc(size + 64, 1);
    if (fread(bytes, 1, size, file) != size) return 2;
    int word = 0;
    while (word < NONE && strcmp(words[1], WORDS[word])) word++;
    if (word == NONE) return fprintf(stderr, "least: no word %s\n", words[1]), 2;
    static Image image;
    if (!is_fat(bytes)) open_image(&image, bytes);
    Answer full = run(word, bytes, &image, 1);
    double begun = now(), least = 1e300;
    run(word, bytes, &image, 0);
    long batch = 1 + (long)(1e6 / (now() - begun + 1));
    do {
        double from = now();
        for (long turn = 0; turn < batch; turn++)
            if (run(word, bytes, &image, 0).light != full.light) return 3;
        double each = (now() - from) / batch;
        if (each < least) least = each;
    } while (now() - begun < atof(words[3]) * 1e9);
    printf("%.1f %llu %llu %016llx\n", least, (unsigned long long)full.items, (unsigned long long)full.light, (unsigned long long)full.sum);
}
