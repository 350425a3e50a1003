/* tools/rows loads this into a program by LD_PRELOAD if a row requests memory, a clock, renames or changes of permissions that fail. The environment says which:
     SCARCE_GROWTH=N, N..   the Nth growth of memory is refused, or the Nth and all later ones
     SCARCE_SPARED=N        the first N growths are neither counted nor refused
     SCARCE_HEAP=N          a growth is refused after which the program would hold more than N bytes
     SCARCE_CLOCK=STEP,..   each reading of the monotonic clock is so many nanoseconds after the previous one, by these steps in turn
     SCARCE_CLOCK=none      that clock can't be read
     SCARCE_RENAMES=none    no file can be renamed
     SCARCE_MODES=none      of no open file can the permissions be changed
     SCARCE_TOLD=FD         a letter is written to FD once the first growth, reading, rename or change was affected: g, c, r or m;
                            and h once the bytes that the program holds are counted
   A growth is a call of the C library's allocator from the program's own code, which the return address shows. What the C library requests by
   itself, before `main` or within a call, is neither counted nor refused. A block counts with all its usable bytes. */
#define _GNU_SOURCE
#include <errno.h>
#include <fcntl.h>
#include <link.h>
#include <malloc.h>
#include <stdbool.h>
#include <stdint.h>
#include <stdlib.h>
#include <string.h>
#include <sys/stat.h>
#include <sys/syscall.h>
#include <time.h>
#include <unistd.h>

extern void *__libc_malloc(size_t), *__libc_calloc(size_t, uint64_t), *__libc_realloc(void *, uint64_t), *__libc_memalign(size_t, uint64_t);
extern void __libc_free(void *);

enum { MOST = 16 };
static uintptr_t own_from, own_upto;
static uint64_t refused, spared, growths, now, steps[MOST];
static uint64_t count, readings, most, held;
static bool all_behind, is_heap, no_clock, no_renames, no_modes;
static int told = -1;

/* Finds where the program's own code is. The first of all objects is the program. */
static int find_own(struct dl_phdr_info *info, uint64_t size, void *nothing) {
    (void)size, (void)nothing;
    for (int i = 0; i < info->dlpi_phnum; i++) {
        const ElfW(Phdr) *part = &info->dlpi_phdr[i];
        if (part->p_type != PT_LOAD || !(part->p_flags & PF_X)) continue;
        uintptr_t from = info->dlpi_addr + part->p_vaddr;
        if (own_upto == 0 || from < own_from) own_from = from;
        if (from + part->p_memsz > own_upto) own_upto = from + part->p_memsz;
    }
    return 1;
}

__attribute__((constructor)) static void begin(void) {
    const char *growth = getenv("SCARCE_GROWTH"), *heap = getenv("SCARCE_HEAP"), *clock = getenv("SCARCE_CLOCK");
    const char *renames = getenv("SCARCE_RENAMES"), *modes = getenv("SCARCE_MODES");
    const char *fd = getenv("SCARCE_TOLD"), *first = getenv("SCARCE_SPARED");
    char *rest;
    dl_iterate_phdr(find_own, NULL);
    if (growth) refused = strtoull(growth, &rest, 10), all_behind = *rest == '.';
    if (first) spared = strtoull(first, &rest, 10);
    if (heap) most = strtoull(heap, &rest, 10), is_heap = true;
    no_clock = clock && strcmp(clock, "none") == 0;
    no_renames = renames != NULL;
    no_modes = modes != NULL;
    for (; clock && !no_clock && *clock && count < MOST; clock = *rest ? rest + 1 : rest) steps[count++] = strtoull(clock, &rest, 10);
    if (fd) told = atoi(fd);
}

static void tell(char letter) {
    static char before[5];
    char *free_place = memchr(before, 0, sizeof before);
    if (told < 0 || !free_place || memchr(before, letter, sizeof before)) return;
    *free_place = letter;
    if (write(told, &letter, 1) < 0) told = -1;
}

/* Returns whether an allocator call that returns to this address comes from the program's own code. */
static bool is_own(void *back) {
    uintptr_t at = (uintptr_t)back;
    return at >= own_from && at < own_upto;
}

/* Returns whether a growth to so many bytes, instead of those of a block, exceeds the limit. */
static bool is_past_heap(uint64_t size, void *block) {
    if (!is_heap) return false;
    tell('h');
    uint64_t others = held - malloc_usable_size(block);
    return size > most || others > most - size;
}

/* Returns whether a growth by the program's own code is the one to refuse, or a later one. */
static bool is_numbered(void) {
    if (spared > 0) return spared--, false;
    growths++;
    if (refused == 0 || growths < refused || (growths > refused && !all_behind)) return false;
    tell('g');
    return true;
}

/* Returns whether an allocator call that returns to this address is refused. It requests so many bytes instead of a block, or a new block. */
static bool is_refused(void *back, uint64_t size, void *block) {
    if (!is_own(back) || (!is_numbered() && !is_past_heap(size, block))) return false;
    errno = ENOMEM;
    return true;
}

/* Returns the new block. It counts if it is the program's own. */
static void *counted(void *back, void *made) {
    if (is_own(back)) held += malloc_usable_size(made);
    return made;
}

static void *resized(void *back, void *block, uint64_t size) {
    uint64_t before = is_own(back) ? malloc_usable_size(block) : 0;
    void *made = __libc_realloc(block, size);
    if (made || size == 0) held -= before;
    return counted(back, made);
}

#define BACK __builtin_return_address(0)

void *malloc(uint64_t size) { return is_refused(BACK, size, NULL) ? NULL : counted(BACK, __libc_malloc(size)); }
void *realloc(void *block, uint64_t size) { return is_refused(BACK, size, block) ? NULL : resized(BACK, block, size); }
void *aligned_alloc(uint64_t align, uint64_t size) { return is_refused(BACK, size, NULL) ? NULL : counted(BACK, __libc_memalign(align, size)); }

void *calloc(uint64_t items, uint64_t size) {
    uint64_t all;
    if (__builtin_mul_overflow(items, size, &all)) all = UINT64_MAX;
    return is_refused(BACK, all, NULL) ? NULL : counted(BACK, __libc_calloc(items, size));
}

int posix_memalign(void **block, uint64_t align, uint64_t size) {
    *block = is_refused(BACK, size, NULL) ? NULL : counted(BACK, __libc_memalign(align, size));
    return *block ? 0 : ENOMEM;
}

void free(void *block) {
    if (is_own(BACK)) held -= malloc_usable_size(block);
    __libc_free(block);
}

int clock_gettime(clockid_t clock, struct timespec *time) {
    if (clock != CLOCK_MONOTONIC || (!no_clock && count == 0)) return (int)syscall(SYS_clock_gettime, clock, time);
    tell('c');
    if (no_clock) return errno = EINVAL, -1;
    now += steps[readings++ % count];
    time->tv_sec = (time_t)(now / 1000000000);
    time->tv_nsec = (long)(now % 1000000000);
    return 0;
}

static int renamed(long answer) {
    if (!no_renames) return (int)answer;
    tell('r');
    return errno = EACCES, -1;
}

#define AT(call) renamed(no_renames ? 0 : syscall call)

int rename(const char *from, const char *to) { return AT((SYS_renameat2, AT_FDCWD, from, AT_FDCWD, to, 0)); }
int renameat(int there, const char *from, int here, const char *to) { return AT((SYS_renameat2, there, from, here, to, 0)); }
int renameat2(int there, const char *from, int here, const char *to, unsigned how) { return AT((SYS_renameat2, there, from, here, to, how)); }

int fchmod(int file, mode_t mode) {
    if (!no_modes) return (int)syscall(SYS_fchmod, file, mode);
    tell('m');
    return errno = EPERM, -1;
}
