/* goblin_mach reads Apple's Mach-O images from bytes in memory. Each call is proved to read and write only what the caller passes, whatever the
   bytes and the numbers are, and to write what is said here. docs/C.md has all details. The bytes must not change during a call. Nothing is kept
   between calls. A gm_image is numbers. It belongs to the caller, may be copied, and is used with the bytes that it was opened in. Any thread may
   call.

   Calls with `first`, `out` and `cap` write the items of a list from index `first` on, as many as there are and fit. They return how many, and leave
   the rest of the array unchanged. 0 means that there are no more. A pointer may be NULL if its length is 0. Calls that return a code return
   GM_OK or the reason for a refusal, with a text in *error. `error` may be NULL.

   Calls with a cursor write the items after it, as many as there are and fit. They move it past them, and write how many to *count. Fewer than `cap`
   means that there are no more. With a `cap` of 0 they are refused with GM_NO_ROWS. A cursor is numbers that only the calls read. All zero is
   the start. It is used with the bytes and the image, and may be copied. These calls open the image again, and allocate memory while they run. A
   refused call leaves the array, the cursor and *count unchanged.

   Calls that return a bool write what they find to *found and return true, or return false and leave *found unchanged.

   Sizes, offsets and counts have 64 bits for every compiler. A field `reserved` has no meaning: calls write 0 to it, and read none. The names of
   numbers, such as GM_LC_MAIN for a command's, and calls that return them as texts are at the end.

   The number of a section is that by which symbols name it (n_sect of mach-o/nlist.h): it counts from 1 over all sections that the segments claim.
   A field `index` counts from 0. Every address is one in memory, before sliding. */
#ifndef GOBLIN_MACH_H
#define GOBLIN_MACH_H
#include <stdbool.h>
#include <stddef.h>
#include <stdint.h>
#ifdef __cplusplus
extern "C" {
#endif

/* The version of this header. gm_version() and gm_version_number() return those of the library. If MAJOR or MINOR differ, structs and calls may
   differ: test GM_VERSION_FITS() once. For a program that was linked to this version the loader refuses a shared library with another MAJOR or
   MINOR. */
#define GM_VERSION_MAJOR 0
#define GM_VERSION_MINOR 3
#define GM_VERSION_PATCH 0
#define GM_VERSION_TEXT "0.3.0"
#define GM_VERSION_NUMBER (GM_VERSION_MAJOR * UINT32_C(1000000) + GM_VERSION_MINOR * UINT32_C(1000) + GM_VERSION_PATCH)
#define GM_VERSION_FITS() (gm_version_number() / 1000 == GM_VERSION_NUMBER / 1000)
const char *gm_version(void);
uint32_t gm_version_number(void);

/* malformed bytes; a magic that no image has; a read past the end, or of bytes that aren't text; a count that is too large; out of memory;
   `cap` is 0; the output is larger than `cap`; the file has no image for the cpu */
enum { GM_OK, GM_MALFORMED, GM_BAD_MAGIC, GM_SHORT, GM_TOO_MANY, GM_NO_MEMORY, GM_NO_ROWS, GM_NO_SPACE, GM_NO_IMAGE };

/* why a call was refused; the text ends with a zero byte */
typedef struct gm_error { uint32_t code; char text[124]; } gm_error;

/* Memory for a call. `take` returns a block of `size` bytes, aligned to 16, or NULL. `give` takes one back. A call gives back everything that it
   took, and both functions may call this library. If a gm_memory is NULL, malloc and free are used. */
typedef struct gm_memory {
    void *self;
    void *(*take)(void *self, size_t size);
    void (*give)(void *self, void *block);
} gm_memory;

/* Memory for calls from a buffer of the caller's, which is aligned to 16. `used` and `blocks` begin as 0. */
typedef struct gm_arena { uint8_t *bytes; uint64_t size, used, blocks; } gm_arena;
gm_memory gm_arena_memory(gm_arena *arena);

/* ---- what bytes are, by how they begin: an image, a fat file of 32 or 64 bits, an archive (also a thin one), a program or library of ELF or PE,
   a Java class (whose magic is that of fat files), LLVM bitcode, a text (of ASCII at its start, without control characters in the first 256 bytes). A
   file that begins in this way may be cut, and may be refused when it is opened. */
enum { GM_KIND_UNKNOWN, GM_KIND_EMPTY, GM_KIND_IMAGE, GM_KIND_FAT, GM_KIND_FAT_64, GM_KIND_ARCHIVE, GM_KIND_ELF, GM_KIND_PE, GM_KIND_JAVA_CLASS,
       GM_KIND_BITCODE, GM_KIND_TEXT };
uint32_t gm_kind(const uint8_t *bytes, uint64_t len);

/* ---- a fat file: its entries; 0 if the bytes are no fat file. An entry is `size` bytes at bytes + offset. If these aren't all in the file, its
   code is GM_SHORT, and the rest is as in the record. If the header claims more records than the bytes have, the last entry is the first that
   isn't whole in them. Its code is GM_SHORT, and the rest is 0. */
typedef struct gm_fat_entry { uint32_t cputype, cpusubtype, offset, size, align, code; } gm_fat_entry;
uint64_t gm_fat_entries(const uint8_t *bytes, uint64_t len, uint64_t first, gm_fat_entry *out, uint64_t cap);

/* The same for a fat file of 32 or 64 bits, whichever the bytes are. */
typedef struct gm_fat_entry64 { uint64_t offset, size; uint32_t cputype, cpusubtype, align, code; } gm_fat_entry64;
uint64_t gm_fat_entries64(const uint8_t *bytes, uint64_t len, uint64_t first, gm_fat_entry64 *out, uint64_t cap);

/* Finds the one image for a cpu: `size` bytes at bytes + offset. The bytes are a fat file of 32 or 64 bits, or a thin file, which is an image
   itself. Of a `cpusubtype` only the bits that are no capabilities are compared. With GM_CPU_SUBTYPE_ANY all fit. Of several entries the first
   counts. The call is refused with GM_SHORT if that entry isn't all in the file, and the text says where both end. It is refused with GM_NO_IMAGE if
   there is none, also if the bytes are neither kind of file. A refused call leaves *found unchanged. */
uint32_t gm_image_for(const uint8_t *bytes, uint64_t len, uint32_t cputype, uint32_t cpusubtype, gm_fat_entry64 *found, gm_error *error);

/* ---- a fat file written from parts of a buffer, each for another cpu: `len` bytes from `offset` on. In the file each part follows the one
   before it, at a multiple of 2 to the power of `align`, which is at most 15. */
typedef struct gm_fat_part {
    uint64_t offset, len;
    uint32_t cputype, cpusubtype, align, reserved; /* the last is not read */
} gm_fat_part;

/* Writes the file to the start of `out`, and its size to *needed. It has 64 bits, or 32 if `is_64` is 0. If `cap` is too small, perhaps on
   purpose, the call is refused with GM_NO_SPACE, and *needed is written. It is refused with GM_SHORT if a part isn't in the bytes. It is refused
   with GM_MALFORMED if two parts are for one cpu, whatever its capabilities. The same holds if an alignment is too large, or an offset or a length
   is too large for a record. These two refusals leave *needed unchanged, and every refusal leaves `out` unchanged. The call allocates memory for
   the parts while it runs, not for their bytes. `out` and the bytes must not overlap. */
uint32_t gm_write_fat(const uint8_t *bytes, uint64_t len, const gm_fat_part *parts, uint64_t count, uint32_t is_64, uint8_t *out, uint64_t cap,
                      uint64_t *needed, const gm_memory *memory, gm_error *error);

/* ---- an archive: a static library */
enum { GM_ARCHIVE_NONE, GM_ARCHIVE_GNU, GM_ARCHIVE_BSD, GM_ARCHIVE_THIN };

/* Finds which archive the bytes are, by their first 8 and the members at the start: how short names are written. It is GM_ARCHIVE_NONE if they don't
   begin as an archive, and GM_ARCHIVE_THIN if its members are other files, which no call reads. The call is refused if the start of an archive can't
   be read. Then *kind is unchanged. */
uint32_t gm_archive_kind(const uint8_t *bytes, uint64_t len, uint32_t *kind, gm_error *error);

/* Its members in order. The bytes of one are `data_len` at bytes + data. If they are an image, open it with these bytes. Its offsets count from
   there. The name is `name_len` bytes at bytes + name, and may be any bytes. If `name_code` is not GM_OK it can't be read, and both numbers are
   0. A row with a `code` is the last. It says why there are no more members, or why the bytes are no archive, and has nothing more. `first` has
   a cost, since the headers before it are read: request many members at a time. */
typedef struct gm_archive_member {
    uint64_t date, uid, gid, mode; /* seconds from 1970, owner, group, mode; each GM_NO_NUMBER if its field is no number */
    uint64_t header;               /* the offset of its header, which has 60 bytes */
    uint64_t data, data_len, name, name_len;
    uint32_t name_code, code;
} gm_archive_member;
#define GM_NO_NUMBER UINT64_MAX
uint64_t gm_archive_members(const uint8_t *bytes, uint64_t len, uint64_t first, gm_archive_member *out, uint64_t cap);

/* The symbols of its index in the order of the index, or none if it has no index. Each name is `name_len` bytes at bytes + name. `member` is the
   `header` of the member that defines it, which isn't checked. A row with a `code` is the last. It says why a name or the index can't be read, or
   why the bytes are no archive. The names before `first` are read. */
typedef struct gm_archive_symbol {
    uint64_t member;
    uint64_t name, name_len;
    uint32_t code, reserved;
} gm_archive_symbol;
uint64_t gm_archive_symbols(const uint8_t *bytes, uint64_t len, uint64_t first, gm_archive_symbol *out, uint64_t cap);

/* Finds the member that defines a symbol, by the index; and the first member with a name. If there is none, that is no refusal, and all of *member
   is 0, also `header`. A call is refused if the archive, its index or a header on the way can't be read. gm_archive_find is also refused if the name
   isn't UTF-8. A refused call leaves *member unchanged. */
uint32_t gm_archive_find(const uint8_t *bytes, uint64_t len, const char *symbol, uint64_t symbol_len, gm_archive_member *member, gm_error *error);
uint32_t gm_archive_member_named(const uint8_t *bytes, uint64_t len, const char *name, uint64_t name_len, gm_archive_member *member, gm_error *error);

/* ---- an image */
typedef struct gm_image {
    uint64_t offset;                                                /* its offset in the bytes */
    uint64_t entry;                                                 /* the address of its entry point, or 0 */
    uint64_t base;                                                  /* the address of its first byte: of the first segment __TEXT, or 0 */
    uint64_t first_command, commands;                               /* the offset of its commands, and how many they are */
    uint64_t segments, libraries, run_paths, symbols;               /* how many the call of that name returns */
    uint64_t symbols_at, names_at;                                  /* the offsets of its symbols and of their names */
    uint32_t magic, cputype, cpusubtype, filetype, flags;           /* of its header */
    uint32_t is_lossy, is_old_style_entry, is_little_endian, is_64; /* 0 or 1 each */
    uint32_t reserved;
} gm_image;
enum { GM_STRICT, GM_LOSSY };

/* Returns how many of `count` records of `size` bytes each, from `start` on, begin within `len` bytes. A file may claim any count of records. The
   rows after those that begin there can't be read. */
static inline uint64_t gm_in_bounds(uint64_t len, uint64_t start, uint64_t size, uint64_t count) {
    uint64_t begun = start < len && size != 0 ? (len - start - 1) / size + 1 : 0;
    return begun < count ? begun : count;
}

/* Opens the image at `offset`. GM_STRICT refuses what can't be read, and GM_LOSSY skips it. Any other mode is refused as GM_MALFORMED. The call
   allocates memory for the commands while it runs. A refused call leaves *image unchanged, and GM_OK leaves *error unchanged. */
uint32_t gm_open(const uint8_t *bytes, uint64_t len, uint64_t offset, uint32_t mode, const gm_memory *memory, gm_image *image, gm_error *error);

/* ---- its load commands: each record is `size` bytes at `offset` */
typedef struct gm_command { uint64_t offset, size; uint32_t cmd, reserved; } gm_command;
uint64_t gm_commands(const uint8_t *bytes, uint64_t len, const gm_image *image, uint64_t first, gm_command *out, uint64_t cap);

/* ---- the fields of a command's record after cmd and cmdsize, under their names in mach-o/loader.h */

/* How a field is read. NUMBER and HEXADECIMAL: a number, shown in decimal or in hexadecimal. VERSION: 16, 8 and 8 bits. SOURCE_VERSION: 24, 10, 10, 10
   and 10 bits. PLATFORM: GM_PLATFORM_MACOS and the like. PROTECTION: the bits GM_VM_PROT_READ and the like. NAME: at most 16 bytes, up to a zero byte.
   TEXT: the offset in the command of a text, which ends before a zero byte or with the command. UUID: 16 bytes. */
enum { GM_FIELD_NUMBER, GM_FIELD_HEXADECIMAL, GM_FIELD_VERSION, GM_FIELD_SOURCE_VERSION, GM_FIELD_PLATFORM, GM_FIELD_PROTECTION, GM_FIELD_NAME,
       GM_FIELD_TEXT, GM_FIELD_UUID };
enum { GM_COMMAND_FIELDS = 18 }; /* no command has more */

typedef struct gm_command_field {
    char name[24];                 /* such as "dataoff": it always ends with a zero byte */
    uint64_t number;               /* of a text its offset in the command, of a name and a UUID 0 */
    uint64_t place, len;           /* the name, the text or the UUID is `len` bytes at bytes + place; 0 if has_bytes is 0 */
    uint32_t kind, width;          /* kind: GM_FIELD_NUMBER and the like; width: how many bytes the field has in the record */
    uint32_t has_bytes, reserved;  /* has_bytes: 0 or 1; that of a text is 0 if it begins outside of its command */
} gm_command_field;

/* Writes the fields of a command from index `first` on, as many as there are and fit, and returns how many. The command is a row of gm_commands. They
   end before the first field that isn't all in the command's bytes. GM_LC_IDENT, GM_LC_PREPAGE and commands of other numbers have none. */
uint64_t gm_command_fields(const uint8_t *bytes, uint64_t len, const gm_image *image, const gm_command *command, uint64_t first, gm_command_field *out,
                           uint64_t cap);

/* ---- its segments: the command is at `command`, and the data are `data_len` bytes at `fileoff`, or none */
typedef struct gm_segment {
    uint8_t name[16]; /* padded with zeros if it has fewer than 16 bytes */
    uint64_t vmaddr, vmsize, fileoff, filesize;
    uint64_t command, data_len;
    uint32_t maxprot, initprot, sections, flags;
} gm_segment;
uint64_t gm_segments(const uint8_t *bytes, uint64_t len, const gm_image *image, uint64_t first, gm_segment *out, uint64_t cap);

/* Finds the first segment with a name, which has at most 16 bytes. */
bool gm_segment_named(const uint8_t *bytes, uint64_t len, const gm_image *image, const char *name, uint64_t name_len, gm_segment *found);

/* Finds the address in memory of what is at an offset in the file; and the offset of what is at an address. Offsets count from the image's first
   byte. Both use the first segment whose part in the file holds it. There is none in zero-filled memory. */
bool gm_address_of_offset(const uint8_t *bytes, uint64_t len, const gm_image *image, uint64_t offset, uint64_t *found);
bool gm_offset_of_address(const uint8_t *bytes, uint64_t len, const gm_image *image, uint64_t address, uint64_t *found);

/* ---- the sections of a segment, which is given by its `command` and its `sections`; the data of a section are `data_len` bytes at `offset` */
typedef struct gm_section {
    uint8_t name[16], segment[16];
    uint64_t addr, size;
    uint64_t data_len;
    uint32_t offset, align, reloff, nreloc, flags, code; /* code: GM_OK, or why it can't be read */
} gm_section;
uint64_t gm_sections(const uint8_t *bytes, uint64_t len, const gm_image *image, uint64_t command, uint32_t sections, uint64_t first, gm_section *out,
                     uint64_t cap);

/* The sections of all segments in order, each with its number, the offset of its segment's command and its index there. They end with the first that
   can't be read. The section at index `k` of this list has number `k + 1`. */
typedef struct gm_numbered_section {
    gm_section section;
    uint64_t command, number;
    uint32_t index, reserved;
} gm_numbered_section;
uint64_t gm_all_sections(const uint8_t *bytes, uint64_t len, const gm_image *image, uint64_t first, gm_numbered_section *out, uint64_t cap);

/* ---- the bytes of a section, which is given by its `offset`, its `size` and its `flags`: they are `len` bytes at bytes + place. Both are 0 if it is
   filled with zeros. The call is refused with GM_SHORT if they don't all lie in the bytes. A refused call leaves *found unchanged. */
typedef struct gm_span { uint64_t place, len; } gm_span;
uint32_t gm_section_data(const uint8_t *bytes, uint64_t len, uint32_t offset, uint64_t size, uint32_t flags, gm_span *found, gm_error *error);

/* ---- the strings in the bytes that are passed, such as those of a section of type GM_S_CSTRING_LITERALS: each is `len` bytes at bytes + place, and
   may be any bytes but zeros. A zero byte ends it, which the last may lack. `first` has a cost, since the strings before it are read: to go on in many,
   pass the bytes after the last string and its zero. */
uint64_t gm_strings(const uint8_t *bytes, uint64_t len, uint64_t first, gm_span *out, uint64_t cap);

/* ---- the relocations of a section, which is given by its `reloff` and its `nreloc` */
typedef struct gm_relocation { int32_t address; uint32_t info, code; } gm_relocation;
uint64_t gm_relocations(const uint8_t *bytes, uint64_t len, const gm_image *image, uint32_t reloff, uint32_t nreloc, uint64_t first, gm_relocation *out,
                        uint64_t cap);

/* ---- its symbols: the name of one is `name_len` bytes at bytes + name. If `code` says that these aren't text, or that there is no name, the
   rest is as in the record. If the record can't be read all other fields are 0. */
typedef struct gm_symbol {
    uint64_t value;
    uint64_t name, name_len;
    uint64_t section; /* the number of its section, or 0 */
    uint32_t code;    /* GM_OK, or why it or its name can't be read */
    uint16_t desc;
    uint8_t n_type, reserved;
} gm_symbol;
uint64_t gm_symbols(const uint8_t *bytes, uint64_t len, const gm_image *image, uint64_t first, gm_symbol *out, uint64_t cap);

/* ---- its libraries, the one of ordinal 1 first: the name of one is `name_len` bytes at bytes + name */
typedef struct gm_library {
    uint64_t name, name_len;
    uint32_t kind, timestamp, current_version, compatibility_version; /* kind: by its command */
    uint32_t attributes, reserved; /* how it is used: the sum of GM_USED_WEAK and the following ones */
} gm_library;
enum { GM_REQUIRED, GM_WEAK, GM_REEXPORT, GM_UPWARD, GM_LAZY };
enum { GM_USED_WEAK = 1, GM_USED_REEXPORT = 2, GM_USED_UPWARD = 4, GM_USED_DELAYED = 8 };
uint64_t gm_libraries(const uint8_t *bytes, uint64_t len, const gm_image *image, uint64_t first, gm_library *out, uint64_t cap);

/* ---- the paths on which its libraries are searched: each is `path_len` bytes at bytes + path */
typedef struct gm_run_path { uint64_t path, path_len; } gm_run_path;
uint64_t gm_run_paths(const uint8_t *bytes, uint64_t len, const gm_image *image, uint64_t first, gm_run_path *out, uint64_t cap);

/* ---- the names of the image itself as a library (LC_ID_DYLIB), each `name_len` bytes at bytes + name. If there are several, the last one
   counts. */
typedef struct gm_id { uint64_t name, name_len; } gm_id;
uint64_t gm_ids(const uint8_t *bytes, uint64_t len, const gm_image *image, uint64_t first, gm_id *out, uint64_t cap);

/* ---- the start addresses of its functions (LC_FUNCTION_STARTS), in ascending order, before sliding */
typedef struct gm_function_start {
    uint64_t address;
    uint32_t code, reserved; /* code: GM_OK, or why no further ones can be read */
} gm_function_start;
typedef struct gm_start_cursor { uint64_t place; uint64_t address; uint32_t stage, reserved; } gm_start_cursor;
uint32_t gm_function_starts(const uint8_t *bytes, uint64_t len, const gm_image *image, gm_start_cursor *cursor, gm_function_start *out, uint64_t cap,
                            uint64_t *count, const gm_memory *memory, gm_error *error);

/* ---- the data in its code (LC_DATA_IN_CODE): `length` bytes, `offset` bytes after the image's first byte in memory, or in an object file after
   address 0 */
typedef struct gm_data_in_code_entry {
    uint32_t offset;
    uint16_t length, kind; /* kind: a GM_DICE_KIND_ number */
    uint32_t code;         /* GM_OK, or why it can't be read */
} gm_data_in_code_entry;
uint64_t gm_data_in_code(const uint8_t *bytes, uint64_t len, const gm_image *image, uint64_t first, gm_data_in_code_entry *out, uint64_t cap);

/* ---- its table of indirect symbols: those of the pointers and stubs of a section follow one another from the section's place in it */
typedef struct gm_indirect_symbol {
    uint32_t kind, symbol; /* symbol: for GM_INDIRECT_SYMBOL its index for gm_symbols, or 0 */
    uint32_t code;         /* GM_OK, or why it can't be read */
} gm_indirect_symbol;
enum { GM_INDIRECT_SYMBOL, GM_INDIRECT_LOCAL, GM_INDIRECT_ABSOLUTE, GM_INDIRECT_LOCAL_ABSOLUTE };
uint64_t gm_indirect_symbols(const uint8_t *bytes, uint64_t len, const gm_image *image, uint64_t first, gm_indirect_symbol *out, uint64_t cap);

/* ---- the linker options in an object file (LC_LINKER_OPTION): each is `text_len` bytes at bytes + text, from the command at `command` */
typedef struct gm_linker_option {
    uint64_t command, text, text_len;
    uint32_t code, reserved; /* code: GM_OK; or why it can't be read, and then no option follows it */
} gm_linker_option;
uint64_t gm_linker_options(const uint8_t *bytes, uint64_t len, const gm_image *image, uint64_t first, gm_linker_option *out, uint64_t cap);

/* ---- the tools that it was built with (LC_BUILD_VERSION), from the command at `command` */
typedef struct gm_build_tool {
    uint64_t command;
    uint32_t tool, version;  /* a GM_TOOL_ number, and X.Y.Z in 16, 8 and 8 bits */
    uint32_t code, reserved; /* code: GM_OK; or why it can't be read, and then no tool follows it */
} gm_build_tool;
uint64_t gm_build_tools(const uint8_t *bytes, uint64_t len, const gm_image *image, uint64_t first, gm_build_tool *out, uint64_t cap);

/* ---- its platforms (LC_BUILD_VERSION, LC_VERSION_MIN_MACOSX and the like), in the order of the commands, from the command at `command`. dyld
   takes the first. Versions are X.Y.Z in 16, 8 and 8 bits. */
typedef struct gm_build_version {
    uint64_t command;
    uint32_t platform;   /* a GM_PLATFORM_ number; for an x86 LC_VERSION_MIN_IPHONEOS and the like name the simulator's */
    uint32_t minos, sdk; /* the oldest system that it runs on, and the SDK that it was built with */
    uint32_t reserved;
} gm_build_version;
uint64_t gm_build_versions(const uint8_t *bytes, uint64_t len, const gm_image *image, uint64_t first, gm_build_version *out, uint64_t cap);

/* ---- its identity (LC_UUID), and the version of its source (LC_SOURCE_VERSION): A.B.C.D.E in 24, 10, 10, 10 and 10 bits. Of several commands
   the first counts. */
typedef struct gm_image_uuid { uint8_t bytes[16]; } gm_image_uuid;
bool gm_uuid(const uint8_t *bytes, uint64_t len, const gm_image *image, gm_image_uuid *found);
bool gm_source_version(const uint8_t *bytes, uint64_t len, const gm_image *image, uint64_t *found);

/* ---- its encrypted part (LC_ENCRYPTION_INFO, LC_ENCRYPTION_INFO_64): `size` bytes at `offset`, counted from the image's first byte. The first
   command counts. If `id` is 0 they are not encrypted yet. */
typedef struct gm_encrypted_part { uint32_t offset, size, id; } gm_encrypted_part;
bool gm_encryption(const uint8_t *bytes, uint64_t len, const gm_image *image, gm_encrypted_part *found);

/* ---- a text in the command at `command`: `text_len` bytes at bytes + text */
typedef struct gm_command_text {
    uint64_t command, text, text_len;
    uint32_t code, reserved; /* code: GM_OK, or why it can't be read */
} gm_command_text;

/* the path of its dynamic linker (the first LC_LOAD_DYLINKER), and the variables that it sets for dyld (LC_DYLD_ENVIRONMENT) */
bool gm_dylinker(const uint8_t *bytes, uint64_t len, const gm_image *image, gm_command_text *found);
uint64_t gm_dyld_environment(const uint8_t *bytes, uint64_t len, const gm_image *image, uint64_t first, gm_command_text *out, uint64_t cap);

/* ---- the images of a fileset (LC_FILESET_ENTRY), such as a kernel collection: each at `address` in memory, and at `offset`, counted from the
   fileset's first byte. Its name is `name_len` bytes at bytes + name. */
typedef struct gm_fileset_entry {
    uint64_t address, offset, name, name_len;
    uint32_t code, reserved; /* code: GM_OK, or why the name can't be read */
} gm_fileset_entry;
uint64_t gm_fileset_entries(const uint8_t *bytes, uint64_t len, const gm_image *image, uint64_t first, gm_fileset_entry *out, uint64_t cap);

/* ---- its notes (LC_NOTE), from the command at `command`. The owner's name is `owner_len` bytes at bytes + owner, and the note is `size` bytes
   at bytes + place. An empty note may be placed anywhere. */
typedef struct gm_note {
    uint64_t command, owner, owner_len;
    uint64_t place;
    uint64_t size;
    uint32_t code, reserved; /* code: GM_OK, or why it can't be read */
} gm_note;
uint64_t gm_notes(const uint8_t *bytes, uint64_t len, const gm_image *image, uint64_t first, gm_note *out, uint64_t cap);

/* ---- its slots: the stubs and the pointers that belong to symbols, `len` bytes at `address` in memory, in the section that has index
   `section_index` for gm_sections of the segment that has index `segment` for gm_segments */
typedef struct gm_slot {
    uint64_t address, len;
    uint64_t segment, name, name_len; /* for GM_INDIRECT_SYMBOL: its symbol's name is `name_len` bytes at bytes + name */
    uint32_t section_index, kind;     /* kind: GM_SLOT_POINTER and the following ones */
    uint32_t index, owner, symbol;    /* the index of its entry for gm_indirect_symbols, and that entry's `kind` and `symbol` */
    uint32_t code;                    /* GM_OK, or why it can't be read, nor those after it in its section if they have no entry */
} gm_slot;
enum { GM_NO_SLOT, GM_SLOT_POINTER, GM_SLOT_LAZY_POINTER, GM_SLOT_STUB, GM_SLOT_LAZY_LIBRARY_POINTER, GM_SLOT_THREAD_LOCAL_POINTER };

/* Writes the slots from index `first` on, and how many it wrote to *count. It opens the image again, allocates memory while it runs, and visits the
   slots before `first`: request many at a time. With a `cap` of 0 it is refused with GM_NO_ROWS. A refused call leaves the array and *count
   unchanged. */
uint32_t gm_slots(const uint8_t *bytes, uint64_t len, const gm_image *image, uint64_t first, gm_slot *out, uint64_t cap, uint64_t *count,
                  const gm_memory *memory, gm_error *error);

/* Finds the slot that holds an address. Its kind is GM_NO_SLOT if there is none. The call opens the image again, and allocates memory while it runs.
   It is also refused if that slot can't be read. A refused call leaves *slot unchanged. */
uint32_t gm_slot_at(const uint8_t *bytes, uint64_t len, const gm_image *image, uint64_t address, gm_slot *slot, const gm_memory *memory, gm_error *error);

/* ---- its initializers: the functions that dyld calls before its main function, each at `target`. The slot at the address `slot` names it, in the section
   that has index `section_index` for gm_sections of the segment that has index `segment` for gm_segments. These are the sections in the bytes of type
   GM_S_MOD_INIT_FUNC_POINTERS, with pointers, and of type GM_S_INIT_FUNC_OFFSETS, with offsets of 32 bits from the image's first byte. If an image has
   chained fixups, dyld reads its pointers in the format of the segment of the first one. */
typedef struct gm_initializer {
    uint64_t slot, target, segment;
    uint32_t section_index, code; /* code: GM_OK; or why the bytes of a section can't be read, and then the rest is 0 */
} gm_initializer;

/* Writes the initializers from index `first` on, as gm_slots does. It is also refused if the first fixup can't be read. */
uint32_t gm_initializers(const uint8_t *bytes, uint64_t len, const gm_image *image, uint64_t first, gm_initializer *out, uint64_t cap, uint64_t *count,
                         const gm_memory *memory, gm_error *error);

/* ---- the provider of an undefined symbol, as the linker recorded it in images with GM_MH_TWOLEVEL. It comes from a number of the symbol alone,
   which dyld need not follow. For any other symbol `is_reported` and all other fields are 0. */
typedef struct gm_provider {
    uint64_t library;           /* the ordinal of a library, or 0 */
    uint32_t provider, is_reported; /* GM_OF_LIBRARY, GM_OF_ITSELF, GM_OF_PROGRAM or GM_OF_ANY; 0 or 1 */
    uint32_t code, reserved;    /* code: GM_OK, or GM_MALFORMED if the ordinal is past the last library */
} gm_provider;
void gm_symbol_provider(const gm_image *image, const gm_symbol *symbol, gm_provider *found);

/* ---- a section that is looked up, with its number and its whole record: at index `index` of the segment that has index `segment` for gm_segments;
   all 0 if `is_found` is 0 */
typedef struct gm_found_section {
    uint8_t name[16], segment_name[16];
    uint64_t addr, size;
    uint64_t segment, number;
    uint32_t index, offset, align, reloff, nreloc, flags;
    uint32_t reserved1, reserved2; /* for pointers and stubs: the index of the first for gm_indirect_symbols; for stubs the size of each */
    uint32_t is_found, reserved;
} gm_found_section;

/* Finds the first section that holds an address, among those in the bytes; and the section of a number, such as the `section` of a gm_symbol. Both
   open the image again, and allocate memory while they run. A refused call leaves *section unchanged. The second is also refused if that section
   isn't in the bytes. */
uint32_t gm_section_at(const uint8_t *bytes, uint64_t len, const gm_image *image, uint64_t address, gm_found_section *section, const gm_memory *memory,
                       gm_error *error);
uint32_t gm_section_of(const uint8_t *bytes, uint64_t len, const gm_image *image, uint64_t number, gm_found_section *section, const gm_memory *memory,
                       gm_error *error);

/* Finds the first section with a name in a segment of that name, by the names that the section has itself, among those that are in the bytes. */
uint32_t gm_section_named(const uint8_t *bytes, uint64_t len, const gm_image *image, const char *segment, uint64_t segment_len, const char *name,
                          uint64_t name_len, gm_found_section *section, const gm_memory *memory, gm_error *error);

/* ---- a symbol that is looked up, with its index for gm_symbols; all 0 if `is_found` is 0 */
typedef struct gm_found_symbol {
    gm_symbol symbol;
    uint64_t index;
    uint64_t distance; /* of an address: the address less the symbol's value; of a name 0 */
    uint32_t is_found, reserved;
} gm_found_symbol;

/* Finds the first symbol with a name, among those whose names can be read and which are no entries for a debugger; and the symbol that names an
   address. The latter is one of the defined ones in the section that holds the address, at the address or below it. Of these it has the greatest
   value, and of several with that value it is the last. Both open the image again, and allocate memory while they run. A refused call leaves *symbol unchanged. */
uint32_t gm_symbol_named(const uint8_t *bytes, uint64_t len, const gm_image *image, const char *name, uint64_t name_len, gm_found_symbol *symbol,
                         const gm_memory *memory, gm_error *error);
uint32_t gm_symbol_at(const uint8_t *bytes, uint64_t len, const gm_image *image, uint64_t address, gm_found_symbol *symbol, const gm_memory *memory,
                      gm_error *error);

/* Writes a map of an image's symbols by address to `order` if it fits in `cap` numbers, and how many numbers it has to *count. They are the numbers for
   gm_symbols of the symbols that gm_symbol_at considers: those that are defined in sections and can be read, without entries for a debugger. They are
   sorted by section, by value, and by number. If *count is greater than `cap`, the array holds the first of them in the table's order, and is no map.
   image.symbols numbers always suffice. It opens the image again, and allocates memory while it runs. A refused call leaves the array and *count
   unchanged. */
uint32_t gm_symbol_map(const uint8_t *bytes, uint64_t len, const gm_image *image, uint64_t *order, uint64_t cap, uint64_t *count, const gm_memory *memory,
                       gm_error *error);

/* Finds the symbol that names an address, as gm_symbol_at does, by the `count` numbers that gm_symbol_map wrote to `order`. It opens the image again,
   allocates memory while it runs, and reads few symbols: as many as `count` has bits. With other numbers it finds some symbol of the image or none, and
   nothing is read out of bounds. A refused call leaves *symbol unchanged. */
uint32_t gm_symbol_in_map(const uint8_t *bytes, uint64_t len, const gm_image *image, const uint64_t *order, uint64_t count, uint64_t address,
                          gm_found_symbol *symbol, const gm_memory *memory, gm_error *error);

/* Writes all symbols with a name from index `first` of these on, entries for a debugger too, and how many it wrote to *count. Symbols whose names can't
   be read are skipped. It opens the image again, allocates memory while it runs, and visits the symbols before: request many at a time. With a `cap` of
   0 it is refused with GM_NO_ROWS. A refused call leaves the array and *count unchanged. */
uint32_t gm_symbols_named(const uint8_t *bytes, uint64_t len, const gm_image *image, const char *name, uint64_t name_len, uint64_t first,
                          gm_found_symbol *out, uint64_t cap, uint64_t *count, const gm_memory *memory, gm_error *error);

/* Finds the function that holds an address, by the starts of functions. It begins at the greatest start at or below the address, in the section that
   holds the address. It ends at the next start, or at the end of the section. All is 0 if `is_found` is 0. The call opens the image again, and
   allocates memory while it runs. A refused call leaves *function unchanged. */
typedef struct gm_found_function {
    uint64_t start, end;
    uint32_t is_found, reserved;
} gm_found_function;
uint32_t gm_function_at(const uint8_t *bytes, uint64_t len, const gm_image *image, uint64_t address, gm_found_function *function,
                        const gm_memory *memory, gm_error *error);

/* ---- one name among its exports */
typedef struct gm_export {
    uint64_t address;  /* the `base` of the image plus `offset`; of an absolute export (GM_EXPORT_SYMBOL_FLAGS_KIND_ABSOLUTE) `offset` */
    uint64_t offset;   /* its number in the trie; of a stub that of the stub. A re-export has neither: both are 0 */
    uint64_t resolver; /* of a stub: the address of its resolver, or 0 */
    uint64_t flags;
    uint64_t library_len, target_len; /* for a re-export: the lengths of the library's name and of the name there; 0: the same name */
    uint32_t kind, reserved;
} gm_export;
enum { GM_NO_EXPORT, GM_ADDRESS, GM_REEXPORTED, GM_STUB };

/* Finds the export of a name. Only the nodes on its path are read. For a re-export it writes as much of the library's name as fits to `library`,
   and of the name there to `target`. It opens the image again, and allocates memory while it runs. A refused call leaves everything except *error
   unchanged. */
uint32_t gm_find_export(const uint8_t *bytes, uint64_t len, const gm_image *image, const char *name, uint64_t name_len, gm_export *found,
                        char *library, uint64_t library_cap, char *target, uint64_t target_cap, const gm_memory *memory, gm_error *error);

/* ---- all of its exports, in batches */

/* The position of a walk over the exports. It is numbers, all 0 at the start, as in `gm_export_walk walk = {0};`. They may be copied. They are used
   with the bytes, the image, and the `name` and the `stack` that the previous call left. */
typedef struct gm_open_node { uint64_t left, place, name_len; } gm_open_node;
typedef struct gm_export_walk {
    uint64_t phase, visits_left, name_len, depth, node;
    gm_open_node top;
    uint32_t is_begun;
    uint32_t code; /* GM_OK, or why the walk was refused; then the next call is refused, too */
} gm_export_walk;

/* a row: its name is `name_len` bytes at names + name, with no zero byte after it */
typedef struct gm_listed_export {
    uint64_t name, name_len;
    uint64_t library; /* for a re-export: index `library - 1` for gm_libraries; 0 is the image itself */
    uint64_t target;  /* the name there is `what.target_len` bytes at bytes + target; none: the same name */
    gm_export what; /* `kind` is never GM_NO_EXPORT */
} gm_listed_export;

/* What a call may write to. `name` belongs to the walk, and must hold the longest name. `stack` belongs to it too, and must hold the nodes that are
   open at once. `out` is for rows, and `names` for their names, one after the other: make it many times as long as `name`. */
typedef struct gm_export_room {
    char *name; uint64_t name_cap;
    gm_open_node *stack; uint64_t stack_cap;
    gm_listed_export *out; uint64_t cap;
    char *names; uint64_t names_cap;
} gm_export_room;

/* how many rows and how many bytes of names were written; why there are no more; and how much is needed to go on */
typedef struct gm_export_batch { uint64_t count, names_len, needed; uint32_t end, reserved; } gm_export_batch;
enum {
    GM_MORE,        /* the array is full, or less is left of `names` than a name may need: call again */
    GM_END,         /* there are no more. If two paths lead to one node its exports came twice: see gm_exports_are_a_tree */
    GM_NO_ROOM,     /* `cap` is 0, and `needed` is 1; or `names` is shorter than `name`, and needs `needed` bytes */
    GM_NAME_SHORT,  /* the next name needs `needed` bytes of `name` */
    GM_STACK_SHORT, /* the stack needs `needed` nodes */
    GM_REFUSED      /* the code says why; the rows before it are valid */
};

/* Goes on with a walk. If `name`, `stack` or `names` is too short, call again with a larger one that begins with the old contents. No export is
   lost. The call opens the image again, and allocates memory while it runs. If it is out of memory, everything except *batch and *error is unchanged,
   and the call may be repeated. */
uint32_t gm_exports(const uint8_t *bytes, uint64_t len, const gm_image *image, gm_export_walk *walk, const gm_export_room *room,
                    gm_export_batch *batch, const gm_memory *memory, gm_error *error);

/* Calls `each` for each of its exports, with a name that ends with a zero byte. It ends if `each` returns another number than 0, and that is GM_OK,
   too. It opens the image again, and allocates memory while it runs, also while `each` runs. If no further exports can be read, it is refused after
   those before. */
typedef int (*gm_export_call)(void *user, const gm_listed_export *item, const char *name);
uint32_t gm_exports_each(const uint8_t *bytes, uint64_t len, const gm_image *image, gm_export_call each, void *user, const gm_memory *memory,
                         gm_error *error);

/* Returns GM_OK if all exports can be read, and no two paths of their trie lead to one node. Then a walk of gm_exports returns the image's list of
   exports. If not, returns the code of a fault. It opens the image again, visits all exports, and allocates memory while it runs: for the commands,
   and one bit for each byte of the trie. */
uint32_t gm_exports_are_a_tree(const uint8_t *bytes, uint64_t len, const gm_image *image, const gm_memory *memory, gm_error *error);

/* ---- the fixups of its chains (LC_DYLD_CHAINED_FIXUPS): a pointer at `address` in memory, `offset` bytes after the start of segment number
   `segment` */
typedef struct gm_fixup {
    uint64_t address, offset;
    uint64_t target; /* the target address of a rebase, or the number */
    uint32_t segment, kind;
    uint32_t import; /* for a bind: the index of its import, and what is added to the address */
    int32_t addend;
    uint32_t is_signed, key, diversity, is_address_diverse; /* how the pointer is signed on arm64e */
    uint32_t code, reserved; /* code: GM_OK, or why the chains can't be read further */
} gm_fixup;
enum { GM_REBASE, GM_BIND, GM_NUMBER };

typedef struct gm_fixup_cursor { uint64_t chains[4]; uint32_t stage, reserved; } gm_fixup_cursor;
uint32_t gm_fixups(const uint8_t *bytes, uint64_t len, const gm_image *image, gm_fixup_cursor *cursor, gm_fixup *out, uint64_t cap, uint64_t *count,
                   const gm_memory *memory, gm_error *error);

/* ---- its imports by opcodes only (the binds of LC_DYLD_INFO), as the Rust crate's `imports` reads them: gm_bindings has what dyld binds, chains too.
   Images with chained fixups have none. The name of one is `name_len` bytes at bytes + name. Its library has ordinal `library`, which is 0 for the
   image itself. */
typedef struct gm_import {
    uint64_t address, offset; /* of the pointer to bind: in memory, and in the file */
    int64_t addend;
    uint64_t start_of_sequence_offset; /* the offset after the last DONE before it, counted from the start of its range, or 0 */
    uint64_t name, name_len;
    uint64_t library;
    uint64_t size;              /* 8 for a lazy one, or 0 */
    uint32_t is_weak, is_lazy;  /* whether the symbol may be missing, whether it is bound at its first use: 0 or 1 each */
    uint32_t code, reserved;    /* code: GM_OK, or why no further ones can be read */
} gm_import;
typedef struct gm_bind_cursor { uint64_t binds[12]; uint32_t stage, reserved; } gm_bind_cursor;
uint32_t gm_opcode_imports(const uint8_t *bytes, uint64_t len, const gm_image *image, gm_bind_cursor *cursor, gm_import *out, uint64_t cap,
                           uint64_t *count, const gm_memory *memory, gm_error *error);

/* ---- its bindings, which are what dyld binds: from the opcodes of LC_DYLD_INFO and then from the chains. The name of one is `name_len` bytes at
   bytes + name. */
typedef struct gm_binding {
    uint64_t address, offset; /* of the pointer to bind: in memory, and in the file */
    int64_t addend;
    uint64_t name, name_len;
    uint64_t library;           /* the ordinal of a library, or 0 */
    uint32_t provider;          /* where the symbol is looked up */
    uint32_t is_weak, is_lazy; /* whether the symbol may be missing, whether it is bound at its first use: 0 or 1 each */
    uint32_t code;              /* GM_OK, or why no further ones can be read */
} gm_binding;
enum { GM_OF_LIBRARY, GM_OF_ITSELF, GM_OF_PROGRAM, GM_OF_ANY, GM_OF_ANY_WEAK };
typedef struct gm_binding_cursor { gm_bind_cursor opcodes; gm_fixup_cursor chains; } gm_binding_cursor;
uint32_t gm_bindings(const uint8_t *bytes, uint64_t len, const gm_image *image, gm_binding_cursor *cursor, gm_binding *out, uint64_t cap, uint64_t *count,
                     const gm_memory *memory, gm_error *error);

/* ---- its weak binds, from LC_DYLD_INFO, which images of C++ have. These are names that the image defines itself and not weakly, and places that
   take the definition of a name that all images share, whatever was bound there before. The name of one is `name_len` bytes at bytes + name. */
typedef struct gm_weak_bind {
    uint64_t address, offset; /* of the pointer to bind: in memory, and in the file */
    int64_t addend;
    uint64_t name, name_len;
    uint32_t is_strong;      /* 1 if the image defines the name itself: then no place is bound, and the other numbers are 0 */
    uint32_t is_weak;        /* whether the symbol may be missing: 0 or 1 */
    uint32_t code, reserved; /* code: GM_OK, or why no further ones can be read */
} gm_weak_bind;
uint32_t gm_weak_binds(const uint8_t *bytes, uint64_t len, const gm_image *image, gm_bind_cursor *cursor, gm_weak_bind *out, uint64_t cap, uint64_t *count,
                       const gm_memory *memory, gm_error *error);

/* ---- its rebases, from the opcodes of LC_DYLD_INFO and then from the chains. These are places in memory whose number dyld adjusts by the slide of
   the image. Each is at `address`, `offset` bytes after the start of segment number `segment`. */
typedef struct gm_rebase {
    uint64_t address, offset;
    uint64_t target; /* the number there before it is adjusted */
    uint32_t segment, kind;
    uint32_t is_signed, key, diversity, is_address_diverse; /* how the pointer is signed on arm64e */
    uint32_t code, reserved; /* code: GM_OK, or why no further ones can be read */
} gm_rebase;
enum { GM_REBASE_POINTER = 1, GM_REBASE_TEXT_ABSOLUTE, GM_REBASE_TEXT_RELATIVE };
typedef struct gm_rebase_cursor { gm_bind_cursor opcodes; gm_fixup_cursor chains; } gm_rebase_cursor;
uint32_t gm_rebases(const uint8_t *bytes, uint64_t len, const gm_image *image, gm_rebase_cursor *cursor, gm_rebase *out, uint64_t cap, uint64_t *count,
                    const gm_memory *memory, gm_error *error);

/* ---- the faults of its layout, rule by rule: what lies where the format and its readers don't allow it. docs/C.md says what `found` and
   `limit` are for each rule. */
typedef struct gm_layout_fault {
    uint64_t found, limit;               /* what is there, and the limit that it breaks */
    uint64_t command, index;             /* the owner: the offset of its command or record, and its place there, or 0: of a section from 1 */
    uint64_t other_command, other_index; /* the same for the other owner, if two disagree */
    uint32_t rule, part, other_part;     /* GM_LAYOUT_.., and GM_PART_..: other_part is GM_PART_NONE if there is no other owner */
    uint32_t reserved;
} gm_layout_fault;

/* the rules and the parts, with their plain names */
#define GM_LAYOUT_RULES(X) \
    X(FILE_KIND, "file kind") X(COMMANDS_OUT_OF_FILE, "commands out of file") X(COMMAND_SIZE, "command size") \
    X(COMMAND_UNALIGNED, "command unaligned") X(COMMAND_OUT_OF_COMMANDS, "command out of commands") X(COMMAND_COUNT, "command count") \
    X(SEGMENT_WIDTH, "segment width") X(COMMANDS_END_EARLY, "commands end early") X(COMMAND_AGAIN, "command again") \
    X(DYNAMIC_SYMBOLS_ALONE, "dynamic symbols alone") X(OUT_OF_FILE, "out of file") \
    X(SEGMENT_BEYOND_ADDRESSES, "segment beyond addresses") X(SEGMENT_FILE_LARGER, "segment file larger") \
    X(SEGMENT_ADDRESS_UNALIGNED, "segment address unaligned") X(SEGMENT_PLACE_UNALIGNED, "segment place unaligned") \
    X(SEGMENT_NAME_AGAIN, "segment name again") X(SEGMENT_RIGHTS, "segment rights") X(SEGMENTS_SHARE_MEMORY, "segments share memory") \
    X(SEGMENTS_SHARE_FILE, "segments share file") X(NO_SEGMENT_OF_HEADER, "no segment of header") \
    X(SECTION_OUT_OF_MEMORY, "section out of memory") X(SECTION_OUT_OF_BYTES, "section out of bytes") \
    X(SECTION_ELSEWHERE, "section elsewhere") X(SECTION_ALIGNMENT, "section alignment") X(SECTION_UNALIGNED, "section unaligned") \
    X(SECTION_OF_OTHER, "section of other") X(SECTIONS_SHARE_MEMORY, "sections share memory") X(CLAIMS_SHARE, "claims share") \
    X(HEADER_SHARED, "header shared") X(OUT_OF_LINKEDIT, "out of linkedit") X(ENCRYPTED_NOT_EXECUTABLE, "encrypted not executable") \
    X(SYMBOL_SECTION, "symbol section") X(SYMBOL_NAME, "symbol name") X(SYMBOL_RANGE, "symbol range") \
    X(SYMBOL_RANGE_KIND, "symbol range kind") X(SYMBOL_LIBRARY, "symbol library") X(INDIRECT_SYMBOL, "indirect symbol") \
    X(INDIRECT_SECTION, "indirect section") X(SYMBOL_RANGE_ORDER, "symbol range order") X(ENTRY_OUT_OF_CODE, "entry out of code") \
    X(NO_ENTRY, "no entry") X(TEXT_MISPLACED, "text misplaced") X(TEXT_EMPTY, "text empty") X(ID_MISSING, "id missing") \
    X(ID_UNEXPECTED, "id unexpected") X(BINDS, "binds") X(CHAINED_FIXUPS, "chained fixups") X(IMPORT_LIBRARY, "import library") \
    X(IMPORT_NAME, "import name") X(RECORDS_OUT_OF_FILE, "records out of file") X(SLICE_OUT_OF_FILE, "slice out of file") \
    X(SLICE_IN_RECORDS, "slice in records") X(SLICE_ALIGNMENT, "slice alignment") X(SLICE_UNALIGNED, "slice unaligned") \
    X(SLICE_AGAIN, "slice again") X(SLICE_OF_OTHER_CPU, "slice of other cpu") X(SLICES_SHARE, "slices share") \
    X(REBASES, "rebases") X(WEAK_BINDS, "weak binds") X(FUNCTION_STARTS, "function starts") X(DATA_OUT_OF_CODE, "data out of code") \
    X(DATA_SHARED, "data shared")
#define GM_LAYOUT_PARTS(X) \
    X(HEADER, "header") X(COMMAND, "command") X(TEXT, "text") X(SEGMENT, "segment") X(SECTION, "section") X(RELOCATIONS, "relocations") \
    X(SYMBOLS, "symbols") X(SYMBOL_RANGES, "symbol ranges") X(STRINGS, "strings") X(TABLE_OF_CONTENTS, "table of contents") \
    X(MODULES, "modules") X(EXTERNAL_REFERENCES, "external references") X(INDIRECT_SYMBOLS, "indirect symbols") \
    X(EXTERNAL_RELOCATIONS, "external relocations") X(LOCAL_RELOCATIONS, "local relocations") X(REBASE_OPCODES, "rebase opcodes") \
    X(BIND_OPCODES, "bind opcodes") X(WEAK_BIND_OPCODES, "weak bind opcodes") X(LAZY_BIND_OPCODES, "lazy bind opcodes") \
    X(EXPORT_TRIE, "export trie") X(SIGNATURE, "signature") X(SPLIT_INFO, "split info") X(FUNCTION_STARTS, "function starts") \
    X(DATA_IN_CODE, "data in code") X(SIGNATURE_REQUIREMENTS, "signature requirements") X(LINKER_HINTS, "linker hints") \
    X(CHAINED_FIXUPS, "chained fixups") X(IMPORTS, "imports") X(ENCRYPTED, "encrypted") X(NOTE, "note") \
    X(TWOLEVEL_HINTS, "twolevel hints") X(GDB_SYMBOLS, "gdb symbols") X(BINDS, "binds") X(ENTRY, "entry") X(SLICE, "slice") \
    X(ATOM_INFO, "atom info") X(FUNCTION_VARIANTS, "function variants") X(FUNCTION_VARIANT_FIXUPS, "function variant fixups")
#define GM_LAYOUT_RULE(name, words) GM_LAYOUT_##name,
#define GM_LAYOUT_PART(name, words) GM_PART_##name,
enum { GM_LAYOUT_NONE, GM_LAYOUT_RULES(GM_LAYOUT_RULE) };
enum { GM_PART_NONE, GM_LAYOUT_PARTS(GM_LAYOUT_PART) };
#undef GM_LAYOUT_RULE
#undef GM_LAYOUT_PART

/* Return the plain name of a rule, and of a part, or "none" for any other number. */
const char *gm_layout_rule(uint32_t rule);
const char *gm_layout_part(uint32_t part);

/* Writes the faults from index `first` on, and how many it wrote to *count. They are those of the file that begins with the image, and offsets count
   from there. It opens the image again, and allocates memory while it runs. With a `cap` of 0 it is refused with GM_NO_ROWS. A refused call
   leaves the array and *count unchanged. */
uint32_t gm_layout_faults(const uint8_t *bytes, uint64_t len, const gm_image *image, uint64_t first, gm_layout_fault *out, uint64_t cap, uint64_t *count,
                          const gm_memory *memory, gm_error *error);

/* Does the same for the table of a fat file of 32 or 64 bits; there are none if the bytes are no fat file. Unless `cap` is 0, it is only refused with
   GM_NO_MEMORY. */
uint32_t gm_container_faults(const uint8_t *bytes, uint64_t len, uint64_t first, gm_layout_fault *out, uint64_t cap, uint64_t *count,
                             const gm_memory *memory, gm_error *error);

/* ---- its code signature: the code directory that counts, which is the one that the system takes. A text is `.._len` bytes at bytes + .., and
   both are 0 if there is none. */
typedef struct gm_signature {
    uint64_t limit, pages;                                   /* how many bytes of the image are covered, and how many pages they have */
    uint64_t identifier, identifier_len, team, team_len;
    uint64_t entitlements, entitlements_len;                   /* in XML */
    uint32_t version, flags, hash_type;                      /* flags: GM_CS_ADHOC and the like; hash_type: GM_CS_HASHTYPE_SHA256 and the like */
    uint32_t page_size;                                      /* the size of a page as an exponent of 2; 0 if all covered bytes are one page */
    uint32_t identifier_code, team_code, entitlements_code;  /* GM_OK, or why the text can't be read */
    uint32_t is_signed;                                      /* 0 or 1; if it is 0 no command places a signature, and all fields are 0 */
    uint8_t cdhash[20];                                      /* the system knows the code by this: 20 bytes of the directory's hash, by hash_type */
    uint32_t reserved;
} gm_signature;

/* Writes the signature. It opens the image again, and allocates memory while it runs. It is also refused if the signature or one of its directories
   can't be read, if two directories have the same hash type, or if there is no directory. A refused call leaves *signature unchanged. */
uint32_t gm_code_signature(const uint8_t *bytes, uint64_t len, const gm_image *image, gm_signature *signature, const gm_memory *memory, gm_error *error);

/* what doesn't match the signature: a fault of a kind, of the directory at a slot or of a blob. docs/C.md says what `found` and `limit` are for each
   kind. */
typedef struct gm_signature_fault {
    uint64_t found, limit;
    uint32_t kind, slot, index, code; /* index: of a blob or a page, or a special slot; code: GM_OK, or why something can't be read */
} gm_signature_fault;

/* the kinds, with their plain names */
#define GM_SIGNATURE_KINDS(X) \
    X(BLOB, "blob") X(MAGIC, "magic") X(DIRECTORY, "directory") X(IDENTIFIER, "identifier") X(TEAM, "team") X(SHORT, "short") \
    X(SCATTERED, "scattered") X(LIMIT, "limit") X(SLOTS, "slots") X(PAGE, "page") X(UNKNOWN, "unknown") X(UNSEALED, "unsealed") \
    X(SPECIAL, "special") X(ABSENT, "absent")
#define GM_SIGNATURE_KIND(name, words) GM_SIGNATURE_##name,
enum { GM_SIGNATURE_NONE, GM_SIGNATURE_KINDS(GM_SIGNATURE_KIND) };
#undef GM_SIGNATURE_KIND

/* Returns the plain name of a kind, or "none" for any other number. */
const char *gm_signature_kind(uint32_t kind);

/* Writes the faults of the signature from index `first` on, and how many it wrote to *count. There are none if no command places a signature. It opens
   the image again, allocates memory while it runs, and hashes the covered bytes from the first page on. If there are many faults, pass an array
   that holds them all. With a `cap` of 0 it is refused with GM_NO_ROWS. It is also refused if the signature can't be read. A refused call leaves
   the array and *count unchanged. */
uint32_t gm_signature_faults(const uint8_t *bytes, uint64_t len, const gm_image *image, uint64_t first, gm_signature_fault *out, uint64_t cap, uint64_t *count,
                             const gm_memory *memory, gm_error *error);

/* Writes to *as_signed whether the image has a signature and nothing differs from it, as 1 or 0. It opens the image again, allocates memory while it
   runs, and hashes the covered bytes. It is also refused if the signature can't be read. A refused call leaves *as_signed unchanged. Who signed
   is not checked. */
uint32_t gm_is_as_signed(const uint8_t *bytes, uint64_t len, const gm_image *image, uint32_t *as_signed, const gm_memory *memory, gm_error *error);

/* ---- whether its entitlements in XML and in DER say the same, whatever the order of their keys. NONE: there are none, or no command places a
   signature. ONLY_: there are none in the other notation, and these aren't read. UNREADABLE_: these, or their blob, can't be read; it is
   UNREADABLE_XML if neither can. */
enum { GM_ENTITLEMENTS_NONE, GM_ENTITLEMENTS_AGREE, GM_ENTITLEMENTS_DIFFER, GM_ENTITLEMENTS_ONLY_XML, GM_ENTITLEMENTS_ONLY_DER,
       GM_ENTITLEMENTS_UNREADABLE_XML, GM_ENTITLEMENTS_UNREADABLE_DER };

/* Writes whether the entitlements of the signature in XML and in DER say the same to *agreement, as a number whose name begins with
   GM_ENTITLEMENTS_. No code directory is needed, and no hash is looked at. It opens the image again, and allocates memory while it runs. It is also
   refused if the signature can't be read. A refused call leaves *agreement unchanged. It takes up to 1 MB of stack. */
uint32_t gm_entitlements_agree(const uint8_t *bytes, uint64_t len, const gm_image *image, uint32_t *agreement, const gm_memory *memory, gm_error *error);

/* ---- the values of its entitlements: the outer dictionary, and after each group its values, in the order of the bytes. A key and a text are so many
   bytes of the texts from their place on, in UTF-8 if Apple's tools wrote them, without a zero byte at the end. */
typedef struct gm_entitlement_item {
    uint64_t key, key_len;   /* no bytes in an array, and for the outer dictionary */
    uint64_t text, text_len; /* no bytes if it is no text */
    uint64_t number;         /* a boolean: 0 or 1; a natural number; a negative integer: as an int64_t; a date: its digits, as 20240229235959; else 0 */
    uint32_t kind, depth;    /* kind: GM_ENTITLEMENT_BOOLEAN and the like; depth: how many groups it is in */
} gm_entitlement_item;

/* The kinds. The number that a real has is not read. */
enum { GM_ENTITLEMENT_BOOLEAN = 1, GM_ENTITLEMENT_NATURAL, GM_ENTITLEMENT_NEGATIVE, GM_ENTITLEMENT_DATE, GM_ENTITLEMENT_TEXT, GM_ENTITLEMENT_REAL,
       GM_ENTITLEMENT_ARRAY, GM_ENTITLEMENT_DICTIONARY };

/* Writes the values of the entitlements in XML, or in DER if is_der isn't 0, and their texts, as many rows as fit into `cap` and as many bytes as fit
   into `texts_cap`. *count is how many rows there are, and *texts_len how many bytes. Both are 0 if there are no such entitlements, or no signature. It
   opens the image again, and allocates memory for that, for the rows and for the texts while it runs. It is refused if the signature or the
   entitlements can't be read. A refused call leaves all of these unchanged. It takes up to 1 MB of stack. */
uint32_t gm_entitlement_items(const uint8_t *bytes, uint64_t len, const gm_image *image, uint32_t is_der, gm_entitlement_item *out, uint64_t cap,
                              uint64_t *count, char *texts, uint64_t texts_cap, uint64_t *texts_len, const gm_memory *memory, gm_error *error);

/* ---- the requirements of its signature: conditions on the code that hosts this one, on what this one hosts, on this code, on its libraries and on its
   plug-ins. The designated one says what is another version of the same code. */
enum { GM_REQUIREMENT_HOST = 1, GM_REQUIREMENT_GUEST, GM_REQUIREMENT_DESIGNATED, GM_REQUIREMENT_LIBRARY, GM_REQUIREMENT_PLUGIN };

/* Writes the text of the first requirement of a type to the start of `out`, without a zero byte after it, and its length to *needed. The length is 0 if
   there is none, or no signature. The text is the condition as csreq writes it, or "not simple: " and the bytes in hexadecimal digits. It is
   ASCII on one line. If `cap` is too small, perhaps on purpose, the call is refused with GM_NO_SPACE, and *needed is written. It is also refused if
   the signature, the index of its requirements or the requirement can't be read, and with GM_MALFORMED for another `type`. Every refusal leaves
   `out` unchanged, and these also *needed. It opens the image again, and allocates memory for that and for the text while it runs. It takes up to
   0.5 MB of stack. */
uint32_t gm_requirement_text(const uint8_t *bytes, uint64_t len, const gm_image *image, uint32_t type, char *out, uint64_t cap, uint64_t *needed,
                             const gm_memory *memory, gm_error *error);

/* ---- verdicts on how it is hardened: GM_VERDICT_PIE and the like, whose comments say what it means that one holds */
typedef struct gm_verdict {
    uint32_t verdict, holds; /* holds: 0 or 1 */
    uint32_t code;           /* GM_OK, or why what it needs of the signature can't be read; then it isn't known, and `holds` is 0 */
} gm_verdict;

/* Writes the verdicts from index `first` on, and how many it wrote to *count. An image of 32 bits has all of them, in the order of their numbers. One of
   64 bits has all but GM_VERDICT_NO_HEAP_EXECUTION. It opens the image again, and allocates memory while it runs. With a `cap` of 0 it is refused
   with GM_NO_ROWS. A refused call leaves the array and *count unchanged. It takes up to 1 MB of stack. */
uint32_t gm_security(const uint8_t *bytes, uint64_t len, const gm_image *image, uint64_t first, gm_verdict *out, uint64_t cap, uint64_t *count,
                     const gm_memory *memory, gm_error *error);

/* ---- the audit of a file: what machaudit finds, and whether the file is sound. What is found is of a kind. REFUSED: an image opens in no mode. LOSSY: it
   opens in lossy mode only. TABLE: the table of a fat file can't be read. NO_ENTRIES: it has no entries. ARCHIVE: the members of an archive end
   at an error, or it doesn't open. ITEM: item number `index` of `list` can't be read. MORE: `count` more faults of `list` were counted and have no
   row. PAST: `count` records of `list` are past the end of the bytes. CUT: `list` has more items than were visited. UNREADABLE: the signature
   can't be read. SIGNATURE: something differs from what was signed. LAYOUT: a fault of the layout of an image, or of the table of a fat file. */
#define GM_FINDING_KINDS(X) \
    X(REFUSED, "refused") X(LOSSY, "lossy") X(TABLE, "table") X(NO_ENTRIES, "no entries") X(ARCHIVE, "archive") X(ITEM, "item") X(MORE, "more") \
    X(PAST, "past the end") X(CUT, "limit met") X(UNREADABLE, "unreadable") X(SIGNATURE, "signature") X(LAYOUT, "layout")
#define GM_FINDING_LISTS(X) \
    X(SECTIONS, "sections") X(RELOCATIONS, "relocations") X(SYMBOLS, "symbols") X(EXPORTS, "exports") X(IMPORTS, "imports") X(FIXUPS, "fixups") \
    X(BINDINGS, "bindings") X(SIGNATURE, "signature") X(MEMBERS, "members") X(ENTRIES, "entries")
#define GM_FINDING_KIND(name, words) GM_FINDING_##name,
#define GM_FINDING_LIST(name, words) GM_LIST_##name,
enum { GM_FINDING_NONE, GM_FINDING_KINDS(GM_FINDING_KIND) };
enum { GM_LIST_NONE, GM_FINDING_LISTS(GM_FINDING_LIST) };
#undef GM_FINDING_KIND
#undef GM_FINDING_LIST

/* Return the plain name of a kind, and of a list, or "none" for any other number. */
const char *gm_finding_kind(uint32_t kind);
const char *gm_finding_list(uint32_t list);

/* the verdicts. SOUND: nothing was found. UNENDED: nothing but lists with more items than were visited. FAULTY: the file has faults. */
enum { GM_SOUND, GM_UNENDED, GM_FAULTY };

/* what was found. A field that its kind doesn't have is 0. */
typedef struct gm_finding {
    uint64_t entry, member;           /* the numbers of an entry of a fat file and of a member of its archive, or GM_NO_NUMBER */
    uint64_t segment, section, index; /* of an item: of a section its segment, of a relocation its section too, and its own number, from 0 */
    uint64_t count;
    uint32_t kind, list;              /* GM_FINDING_.., GM_LIST_.. */
    gm_layout_fault layout;
    gm_signature_fault signature;
    gm_error error;                   /* why something can't be read; its code is GM_OK for other kinds */
} gm_finding;

/* Writes the first things that were found, as many as fit, how many there are to *count, and the verdict to *verdict. They are in this order: of a
   fat file its table and then each entry, of an archive each member, of an image its lists, its signature and its layout. Of a list of an image and
   of a signature the first ten faults have a row. Of each list it visits at most `limit` items, and of a list of an image no more than the
   image has bytes. `cap` may be 0. It allocates memory while it runs, and is only refused with GM_NO_MEMORY. A refused call leaves the
   array, *count and *verdict unchanged. */
uint32_t gm_audit(const uint8_t *bytes, uint64_t len, uint64_t limit, gm_finding *out, uint64_t cap, uint64_t *count, uint32_t *verdict,
                  const gm_memory *memory, gm_error *error);

/* ---- a program and its libraries, resolved: which of these files has each bound name, and at which address. All files are parts of one buffer: one
   is `len` bytes from `offset` on. Its path is `path_len` bytes at bytes + path, and UTF-8. It is the file's name if the file has none of its own. */
typedef struct gm_given_file { uint64_t offset, len, path, path_len; } gm_given_file;

/* Where a name is, or why it has no place. FOUND: in a file. LEADS_BACK: re-exports lead back to a name that was looked up before. NO_LIBRARY: its
   library isn't among the files. MISSING: neither its library nor what that re-exports has the name. NOT_GIVEN: the same, but one of them re-exports
   a library that isn't among the files. NOT_FOUND: any file may have it, and none has. NO_MAIN: the main program must have it, and no file is one. */
enum { GM_PLACE_FOUND, GM_PLACE_LEADS_BACK, GM_PLACE_NO_LIBRARY, GM_PLACE_MISSING, GM_PLACE_NOT_GIVEN, GM_PLACE_NOT_FOUND, GM_PLACE_NO_MAIN };

/* the answer for a binding */
typedef struct gm_answer {
    uint64_t address;           /* of the name in its file: relative to the start of the file, or absolute; 0 if it isn't found */
    uint64_t file;              /* the number of the file in which it is found: 0 is the program, 1 the first library; 0 if it isn't found */
    uint64_t library;           /* the ordinal of the library that provides the name, 0 for other providers */
    uint32_t provider, place;   /* provider: as of a gm_binding; place: GM_PLACE_FOUND and the like */
    uint32_t is_absolute, is_weak, is_settled; /* 0 or 1; is_weak: the name may be missing; is_settled: it is found, or may be missing */
    uint32_t reserved;
} gm_answer;

/* a file that isn't used: one with its name was given before it, or it has nothing for the program's cpu, which then is `cputype` */
typedef struct gm_unused_file { uint64_t file; uint32_t why, cputype; } gm_unused_file;
enum { GM_UNUSED_GIVEN_BEFORE, GM_UNUSED_NOTHING_FOR_CPU };

/* What was written: how many answers, and how many files that aren't used; and how many of these there are. */
typedef struct gm_resolution {
    uint64_t answers, unused, all_unused;
    uint64_t file;              /* of a refused call the number of the file that was refused, else 0 */
    uint32_t more, is_settled;  /* 0 or 1: whether the program has more bindings, and whether all answers are settled */
} gm_resolution;

/* Writes the answers for the first bindings of a program, in the order of gm_bindings, as many as there are and fit. The first of the `count` files is
   the program, which is an image. The others are libraries: an image, or a fat file, of which the first entry for the program's cpu is used. Writes
   those that aren't used to `unused`, as many as there are and fit. It allocates memory while it runs. It is refused with the code of a fault of
   opening a file, of one of these bindings, or of the exports on the way of a name. It is refused with GM_SHORT if a part isn't in the bytes, and
   with GM_MALFORMED if there is no file, or a path isn't UTF-8. A refused call leaves both arrays unchanged, and of *found it writes `file`, with
   0 for the rest. */
uint32_t gm_resolve(const uint8_t *bytes, uint64_t len, const gm_given_file *files, uint64_t count, gm_answer *out, uint64_t cap, gm_unused_file *unused,
                    uint64_t unused_cap, gm_resolution *found, const gm_memory *memory, gm_error *error);

/* ---- a name as a text for C: a copy of it in `out` that fits on a line, as the programs print it, and ends with a zero byte. A backslash is \\,
   and each byte of a character that shows nothing (of control, of the direction of text and the like), and of what isn't UTF-8 is \xNN. Zero bytes at
   the end of a name are left out. Returns the bytes that the whole text needs, with its zero byte. If `cap` is less, the text is cut before an escape or a
   character that doesn't fit. */
uint64_t gm_text(char *out, uint64_t cap, const void *name, uint64_t name_len);

/* ---- the names of numbers; NULL for a number without one */
const char *gm_kind_name(uint32_t kind);                              /* "an ELF file", for a GM_KIND_ number */
const char *gm_code_name(uint32_t code);                              /* "malformed", for the code of an error or of a row */
const char *gm_cpu_name(uint32_t cputype, uint32_t cpusubtype);       /* "arm64e", as clang, lipo and LLVM call it */
const char *gm_file_type_name(uint32_t filetype);                     /* "EXECUTE" */
const char *gm_header_flag_name(uint32_t flag);                       /* "MH_PIE", for exactly one flag */
const char *gm_command_name(uint32_t cmd);                            /* "LC_SEGMENT_64" */
const char *gm_symbol_type_name(uint8_t n_type);                      /* "N_SECT", by the bits of GM_N_TYPE; "N_FUN" for an entry for a debugger */
const char *gm_relocation_name(uint32_t cputype, uint32_t type);      /* "ARM64_RELOC_BRANCH26", by `info >> 28` */
const char *gm_platform_name(uint32_t platform);                      /* "MACOS" */
const char *gm_verdict_name(uint32_t verdict);                        /* "pie", as machinfo prints it */
const char *gm_verdict_meaning(uint32_t verdict);                     /* "loaded at a random address" */

/* ---- constants: written by c/constants.py */
/* the magic numbers: `magic` of a gm_image, and the first four bytes of a fat file */
#define GM_FAT_CIGAM    UINT32_C(0xbebafeca) /* the magic of a fat file, with its bytes reversed */
#define GM_FAT_MAGIC    UINT32_C(0xcafebabe) /* the magic of a fat file */
#define GM_FAT_MAGIC_64 UINT32_C(0xcafebabf) /* the magic of a 64-bit fat file */
#define GM_MH_CIGAM     UINT32_C(0xcefaedfe) /* the magic of a 32-bit image, with its bytes reversed */
#define GM_MH_CIGAM_64  UINT32_C(0xcffaedfe) /* the magic of a 64-bit image, with its bytes reversed */
#define GM_MH_MAGIC     UINT32_C(0xfeedface) /* the magic of a 32-bit image */
#define GM_MH_MAGIC_64  UINT32_C(0xfeedfacf) /* the magic of a 64-bit image */
/* cpus: `cputype` */
#define GM_CPU_TYPE_X86       UINT32_C(0x7) /* an x86 with 32 bits */
#define GM_CPU_TYPE_ARM       UINT32_C(0xc) /* an ARM with 32 bits */
#define GM_CPU_TYPE_POWERPC   UINT32_C(0x12) /* a PowerPC with 32 bits */
#define GM_CPU_ARCH_ABI64     UINT32_C(0x01000000) /* the bit of a CPU type whose addresses have 64 bits */
#define GM_CPU_TYPE_X86_64    UINT32_C(0x01000007) /* an x86 with 64 bits */
#define GM_CPU_TYPE_ARM64     UINT32_C(0x0100000c) /* an ARM with 64 bits */
#define GM_CPU_TYPE_POWERPC64 UINT32_C(0x01000012)
#define GM_CPU_ARCH_ABI64_32  UINT32_C(0x02000000) /* the bit of a cpu of 64 bits whose addresses have 32 */
#define GM_CPU_TYPE_ARM64_32  UINT32_C(0x0200000c) /* an ARM64 whose addresses have 32 bits */
/* `cpusubtype`: the bits of capabilities; the others are the kind of the cpu */
#define GM_CPU_SUBTYPE_LIB64 UINT32_C(0x80000000) /* a capability: an executable for libraries of 64 bits */
#define GM_CPU_SUBTYPE_MASK  UINT32_C(0xff000000) /* the bits of a CPU subtype that hold its capabilities */
#define GM_CPU_SUBTYPE_ANY   UINT32_C(0xffffffff) /* for gm_image_for: every kind */
/* the kinds of GM_CPU_TYPE_X86 and GM_CPU_TYPE_X86_64 */
#define GM_CPU_SUBTYPE_I386_ALL   UINT32_C(3)
#define GM_CPU_SUBTYPE_X86_64_ALL UINT32_C(3)
#define GM_CPU_SUBTYPE_X86_64_H   UINT32_C(8) /* Haswell */
/* the kinds of GM_CPU_TYPE_ARM */
#define GM_CPU_SUBTYPE_ARM_ALL    UINT32_C(0)
#define GM_CPU_SUBTYPE_ARM_V4T    UINT32_C(5)
#define GM_CPU_SUBTYPE_ARM_V6     UINT32_C(6)
#define GM_CPU_SUBTYPE_ARM_V5TEJ  UINT32_C(7)
#define GM_CPU_SUBTYPE_ARM_XSCALE UINT32_C(8)
#define GM_CPU_SUBTYPE_ARM_V7     UINT32_C(9)
#define GM_CPU_SUBTYPE_ARM_V7S    UINT32_C(11)
#define GM_CPU_SUBTYPE_ARM_V7K    UINT32_C(12)
#define GM_CPU_SUBTYPE_ARM_V6M    UINT32_C(14)
#define GM_CPU_SUBTYPE_ARM_V7M    UINT32_C(15)
#define GM_CPU_SUBTYPE_ARM_V7EM   UINT32_C(16)
/* the kinds of GM_CPU_TYPE_ARM64 and GM_CPU_TYPE_ARM64_32 */
#define GM_CPU_SUBTYPE_ARM64_ALL   UINT32_C(0)
#define GM_CPU_SUBTYPE_ARM64_V8    UINT32_C(1)
#define GM_CPU_SUBTYPE_ARM64_32_V8 UINT32_C(1)
#define GM_CPU_SUBTYPE_ARM64E      UINT32_C(2) /* with signed pointers */
/* the kind of GM_CPU_TYPE_POWERPC and GM_CPU_TYPE_POWERPC64 */
#define GM_CPU_SUBTYPE_POWERPC_ALL UINT32_C(0)
/* file types: `filetype` of a gm_image */
#define GM_MH_OBJECT      UINT32_C(0x1) /* a relocatable object file */
#define GM_MH_EXECUTE     UINT32_C(0x2) /* an executable */
#define GM_MH_FVMLIB      UINT32_C(0x3) /* a shared library at a fixed address */
#define GM_MH_CORE        UINT32_C(0x4) /* the memory of a crashed process */
#define GM_MH_PRELOAD     UINT32_C(0x5) /* an executable that the kernel does not start */
#define GM_MH_DYLIB       UINT32_C(0x6) /* a dynamic library */
#define GM_MH_DYLINKER    UINT32_C(0x7) /* a dynamic linker */
#define GM_MH_BUNDLE      UINT32_C(0x8) /* a bundle, loaded at run time */
#define GM_MH_DYLIB_STUB  UINT32_C(0x9) /* a library without contents, to link against */
#define GM_MH_DSYM        UINT32_C(0xa) /* debug sections for another file */
#define GM_MH_KEXT_BUNDLE UINT32_C(0xb) /* a kernel extension */
#define GM_MH_FILESET     UINT32_C(0xc) /* a file set of images */
#define GM_MH_GPU_EXECUTE UINT32_C(0xd) /* a program for a graphics processor */
#define GM_MH_GPU_DYLIB   UINT32_C(0xe) /* a library for a graphics processor */
/* the bits of `flags` of a gm_image */
#define GM_MH_NOUNDEFS                      UINT32_C(0x1) /* there are no undefined references */
#define GM_MH_INCRLINK                      UINT32_C(0x2) /* it is the output of an incremental link against a base file */
#define GM_MH_DYLDLINK                      UINT32_C(0x4) /* it is input for the dynamic linker and is not linked again statically */
#define GM_MH_BINDATLOAD                    UINT32_C(0x8) /* undefined references are bound when it is loaded */
#define GM_MH_PREBOUND                      UINT32_C(0x10) /* its undefined references are prebound */
#define GM_MH_SPLIT_SEGS                    UINT32_C(0x20) /* read-only and writable segments are separate */
#define GM_MH_LAZY_INIT                     UINT32_C(0x40) /* obsolete: a library is initialized at its first use */
#define GM_MH_TWOLEVEL                      UINT32_C(0x80) /* it uses two-level namespaces: undefined references name the library they are bound to */
#define GM_MH_FORCE_FLAT                    UINT32_C(0x100) /* all images use flat namespaces: they are bound by name only */
#define GM_MH_NOMULTIDEFS                   UINT32_C(0x200) /* no symbol is defined twice in its sub-images */
#define GM_MH_NOFIXPREBINDING               UINT32_C(0x400) /* the prebinding agent is not notified of it */
#define GM_MH_PREBINDABLE                   UINT32_C(0x800) /* it is not prebound but can be */
#define GM_MH_ALLMODSBOUND                  UINT32_C(0x1000) /* it is bound to all modules of the libraries it needs */
#define GM_MH_SUBSECTIONS_VIA_SYMBOLS       UINT32_C(0x2000) /* sections may be divided at symbols */
#define GM_MH_CANONICAL                     UINT32_C(0x4000) /* its prebinding was undone */
#define GM_MH_WEAK_DEFINES                  UINT32_C(0x8000) /* it defines weak symbols */
#define GM_MH_BINDS_TO_WEAK                 UINT32_C(0x00010000) /* it uses weak symbols */
#define GM_MH_ALLOW_STACK_EXECUTION         UINT32_C(0x00020000) /* stacks may be executed, in an executable */
#define GM_MH_ROOT_SAFE                     UINT32_C(0x00040000) /* it is safe in a process that runs as root */
#define GM_MH_SETUID_SAFE                   UINT32_C(0x00080000) /* it is safe in a process that runs with the rights of another user */
#define GM_MH_NO_REEXPORTED_DYLIBS          UINT32_C(0x00100000) /* it re-exports no library */
#define GM_MH_PIE                           UINT32_C(0x00200000) /* it is loaded at a random address, in an executable */
#define GM_MH_DEAD_STRIPPABLE_DYLIB         UINT32_C(0x00400000) /* it need not be loaded if nothing of it is used */
#define GM_MH_HAS_TLV_DESCRIPTORS           UINT32_C(0x00800000) /* it has a section of thread-local variables */
#define GM_MH_NO_HEAP_EXECUTION             UINT32_C(0x01000000) /* the heap may not be executed, in an executable */
#define GM_MH_APP_EXTENSION_SAFE            UINT32_C(0x02000000) /* it may be used in an extension of an application */
#define GM_MH_NLIST_OUTOFSYNC_WITH_DYLDINFO UINT32_C(0x04000000) /* symbols and what dyld reads say different things */
#define GM_MH_SIM_SUPPORT                   UINT32_C(0x08000000) /* it may be used in a simulator */
#define GM_MH_DYLIB_IN_CACHE                UINT32_C(0x80000000) /* it is in a shared cache */
/* load commands: `cmd` of a gm_command */
#define GM_LC_SEGMENT                  UINT32_C(0x1) /* a segment of a 32-bit image */
#define GM_LC_SYMTAB                   UINT32_C(0x2) /* the symbols */
#define GM_LC_SYMSEG                   UINT32_C(0x3) /* a symbol table of GDB; obsolete */
#define GM_LC_THREAD                   UINT32_C(0x4) /* the state of a thread */
#define GM_LC_UNIXTHREAD               UINT32_C(0x5) /* the state of the first thread, with a stack */
#define GM_LC_LOADFVMLIB               UINT32_C(0x6) /* a library at a fixed address that the image uses; obsolete */
#define GM_LC_IDFVMLIB                 UINT32_C(0x7) /* the image's own name as a library at a fixed address; obsolete */
#define GM_LC_IDENT                    UINT32_C(0x8) /* texts that identify the image; obsolete */
#define GM_LC_FVMFILE                  UINT32_C(0x9) /* a file to be loaded at a fixed address */
#define GM_LC_PREPAGE                  UINT32_C(0xa) /* pages to be read in advance; obsolete */
#define GM_LC_DYSYMTAB                 UINT32_C(0xb) /* the tables that the dynamic linker uses */
#define GM_LC_LOAD_DYLIB               UINT32_C(0xc) /* a library that the image needs */
#define GM_LC_ID_DYLIB                 UINT32_C(0xd) /* the image's own name as a library */
#define GM_LC_LOAD_DYLINKER            UINT32_C(0xe) /* the dynamic linker that the image uses */
#define GM_LC_ID_DYLINKER              UINT32_C(0xf) /* the image's own name as a dynamic linker */
#define GM_LC_PREBOUND_DYLIB           UINT32_C(0x10) /* a library for which the image is prebound; obsolete */
#define GM_LC_ROUTINES                 UINT32_C(0x11) /* the first routine of a 32-bit library */
#define GM_LC_SUB_FRAMEWORK            UINT32_C(0x12) /* the framework that the image is a part of */
#define GM_LC_SUB_UMBRELLA             UINT32_C(0x13) /* a framework that is a part of the image */
#define GM_LC_SUB_CLIENT               UINT32_C(0x14) /* a client that may link to the image */
#define GM_LC_SUB_LIBRARY              UINT32_C(0x15) /* a library that is a part of the image */
#define GM_LC_TWOLEVEL_HINTS           UINT32_C(0x16) /* hints for looking up names */
#define GM_LC_PREBIND_CKSUM            UINT32_C(0x17) /* the checksum of a prebound image */
#define GM_LC_SEGMENT_64               UINT32_C(0x19) /* a segment of a 64-bit image */
#define GM_LC_ROUTINES_64              UINT32_C(0x1a) /* the first routine of a 64-bit library */
#define GM_LC_UUID                     UINT32_C(0x1b) /* the unique number of the image */
#define GM_LC_CODE_SIGNATURE           UINT32_C(0x1d) /* the place of the code signature */
#define GM_LC_SEGMENT_SPLIT_INFO       UINT32_C(0x1e) /* the place of the data for moving segments apart */
#define GM_LC_LAZY_LOAD_DYLIB          UINT32_C(0x20) /* a library that is loaded when it is first used */
#define GM_LC_ENCRYPTION_INFO          UINT32_C(0x21) /* the encrypted bytes of a 32-bit image */
#define GM_LC_DYLD_INFO                UINT32_C(0x22) /* the streams of the dynamic linker */
#define GM_LC_VERSION_MIN_MACOSX       UINT32_C(0x24) /* the oldest macOS that the image runs on */
#define GM_LC_VERSION_MIN_IPHONEOS     UINT32_C(0x25) /* the oldest iOS that the image runs on */
#define GM_LC_FUNCTION_STARTS          UINT32_C(0x26) /* the place of the starts of functions */
#define GM_LC_DYLD_ENVIRONMENT         UINT32_C(0x27) /* a variable of the environment for the dynamic linker */
#define GM_LC_DATA_IN_CODE             UINT32_C(0x29) /* the place of the list of data in code */
#define GM_LC_SOURCE_VERSION           UINT32_C(0x2a) /* the version of the sources */
#define GM_LC_DYLIB_CODE_SIGN_DRS      UINT32_C(0x2b) /* the place of what the libraries must be signed with */
#define GM_LC_ENCRYPTION_INFO_64       UINT32_C(0x2c) /* the encrypted bytes of a 64-bit image */
#define GM_LC_LINKER_OPTION            UINT32_C(0x2d) /* options for the linker */
#define GM_LC_LINKER_OPTIMIZATION_HINT UINT32_C(0x2e) /* the place of hints for the linker */
#define GM_LC_VERSION_MIN_TVOS         UINT32_C(0x2f) /* the oldest tvOS that the image runs on */
#define GM_LC_VERSION_MIN_WATCHOS      UINT32_C(0x30) /* the oldest watchOS that the image runs on */
#define GM_LC_NOTE                     UINT32_C(0x31) /* the place of data with an owner */
#define GM_LC_BUILD_VERSION            UINT32_C(0x32) /* the platform and the versions that the image was built for */
#define GM_LC_ATOM_INFO                UINT32_C(0x36) /* the place of what the linker knows of each atom */
#define GM_LC_FUNCTION_VARIANTS        UINT32_C(0x37) /* the place of the variants of functions, of which dyld selects one by the cpu */
#define GM_LC_FUNCTION_VARIANT_FIXUPS  UINT32_C(0x38) /* the place of the pointers to such functions */
#define GM_LC_TARGET_TRIPLE            UINT32_C(0x39) /* the target triple that the image was compiled for */
#define GM_LC_REQ_DYLD                 UINT32_C(0x80000000) /* the bit of a command number that the dynamic linker must understand */
#define GM_LC_LOAD_WEAK_DYLIB          UINT32_C(0x80000018) /* a library that may be missing */
#define GM_LC_RPATH                    UINT32_C(0x8000001c) /* a path on which libraries are searched */
#define GM_LC_REEXPORT_DYLIB           UINT32_C(0x8000001f) /* a library whose exports the image re-exports */
#define GM_LC_DYLD_INFO_ONLY           UINT32_C(0x80000022) /* the streams of the dynamic linker, which it must understand */
#define GM_LC_LOAD_UPWARD_DYLIB        UINT32_C(0x80000023) /* a library that may need the image in turn */
#define GM_LC_MAIN                     UINT32_C(0x80000028) /* the place at which the image begins to run */
#define GM_LC_DYLD_EXPORTS_TRIE        UINT32_C(0x80000033) /* the place of the trie of exports */
#define GM_LC_DYLD_CHAINED_FIXUPS      UINT32_C(0x80000034) /* the place of the chained fixups */
#define GM_LC_FILESET_ENTRY            UINT32_C(0x80000035) /* an image in a file set */
/* what memory allows: `maxprot` and `initprot` of a gm_segment */
#define GM_VM_PROT_NONE    UINT32_C(0x0) /* nothing */
#define GM_VM_PROT_READ    UINT32_C(0x1) /* reading */
#define GM_VM_PROT_WRITE   UINT32_C(0x2) /* writing */
#define GM_VM_PROT_EXECUTE UINT32_C(0x4) /* running */
/* the bits of `flags` of a gm_segment */
#define GM_SG_HIGHVM              UINT32_C(0x1) /* its bytes are the last ones of its memory */
#define GM_SG_FVMLIB              UINT32_C(0x2) /* it is memory of a library at a fixed address */
#define GM_SG_NORELOC             UINT32_C(0x4) /* nothing of it is corrected */
#define GM_SG_PROTECTED_VERSION_1 UINT32_C(0x8) /* it is encrypted, but for its first page */
#define GM_SG_READ_ONLY           UINT32_C(0x10) /* it may not be written once it is corrected */
/* the types of sections: `flags` of a gm_section in the bits of GM_SECTION_TYPE */
#define GM_S_REGULAR                             UINT32_C(0x0) /* a section like most */
#define GM_S_ZEROFILL                            UINT32_C(0x1) /* the type of a section of zeros, which takes no bytes of the file */
#define GM_S_CSTRING_LITERALS                    UINT32_C(0x2) /* texts, each with a zero byte behind it */
#define GM_S_4BYTE_LITERALS                      UINT32_C(0x3) /* literals of 4 bytes */
#define GM_S_8BYTE_LITERALS                      UINT32_C(0x4) /* literals of 8 bytes */
#define GM_S_LITERAL_POINTERS                    UINT32_C(0x5) /* pointers to literals */
#define GM_S_NON_LAZY_SYMBOL_POINTERS            UINT32_C(0x6) /* pointers to symbols, bound when the image is loaded */
#define GM_S_LAZY_SYMBOL_POINTERS                UINT32_C(0x7) /* pointers to symbols, bound at their first use */
#define GM_S_SYMBOL_STUBS                        UINT32_C(0x8) /* stubs of symbols */
#define GM_S_MOD_INIT_FUNC_POINTERS              UINT32_C(0x9) /* pointers to functions to call at the start */
#define GM_S_MOD_TERM_FUNC_POINTERS              UINT32_C(0xa) /* pointers to functions to call at the end */
#define GM_S_COALESCED                           UINT32_C(0xb) /* symbols of which one definition stays */
#define GM_S_GB_ZEROFILL                         UINT32_C(0xc) /* the type of a section of zeros that may be larger than 4 gigabytes */
#define GM_S_INTERPOSING                         UINT32_C(0xd) /* pairs of functions, of which one takes the other's place */
#define GM_S_16BYTE_LITERALS                     UINT32_C(0xe) /* literals of 16 bytes */
#define GM_S_DTRACE_DOF                          UINT32_C(0xf) /* what DTrace reads */
#define GM_S_LAZY_DYLIB_SYMBOL_POINTERS          UINT32_C(0x10) /* pointers to symbols of libraries that are loaded at their first use */
#define GM_S_THREAD_LOCAL_REGULAR                UINT32_C(0x11) /* first values of variables that every thread has for itself */
#define GM_S_THREAD_LOCAL_ZEROFILL               UINT32_C(0x12) /* the type of a section of zeros of which each thread has its own copy */
#define GM_S_THREAD_LOCAL_VARIABLES              UINT32_C(0x13) /* descriptors of such variables */
#define GM_S_THREAD_LOCAL_VARIABLE_POINTERS      UINT32_C(0x14) /* pointers to such descriptors */
#define GM_S_THREAD_LOCAL_INIT_FUNCTION_POINTERS UINT32_C(0x15) /* pointers to functions that make such values */
#define GM_S_INIT_FUNC_OFFSETS                   UINT32_C(0x16) /* places of functions to call at the start, of 32 bits */
#define GM_SECTION_TYPE                          UINT32_C(0xff) /* the bits of a section's flags that hold its type */
/* the bits above them */
#define GM_S_ATTR_LOC_RELOC           UINT32_C(0x00000100) /* it has local relocations */
#define GM_S_ATTR_EXT_RELOC           UINT32_C(0x00000200) /* it has external relocations */
#define GM_S_ATTR_SOME_INSTRUCTIONS   UINT32_C(0x00000400) /* some instructions */
#define GM_SECTION_ATTRIBUTES_SYS     UINT32_C(0x00ffff00) /* those that the system sets */
#define GM_S_ATTR_DEBUG               UINT32_C(0x02000000) /* for a debugger */
#define GM_S_ATTR_SELF_MODIFYING_CODE UINT32_C(0x04000000) /* code that dyld writes */
#define GM_S_ATTR_LIVE_SUPPORT        UINT32_C(0x08000000) /* used where what it refers to is used */
#define GM_S_ATTR_NO_DEAD_STRIP       UINT32_C(0x10000000) /* never stripped as unused */
#define GM_S_ATTR_STRIP_STATIC_SYMS   UINT32_C(0x20000000) /* its local symbols may be stripped */
#define GM_S_ATTR_NO_TOC              UINT32_C(0x40000000) /* its symbols are in no table of contents */
#define GM_S_ATTR_PURE_INSTRUCTIONS   UINT32_C(0x80000000) /* instructions alone */
#define GM_SECTION_ATTRIBUTES_USR     UINT32_C(0xff000000) /* those that a user may set */
#define GM_SECTION_ATTRIBUTES         UINT32_C(0xffffff00) /* all of them */
/* the parts of `n_type` of a gm_symbol */
#define GM_NLIST_TYPE_LOCAL  UINT8_C(0x0) /* visible inside the image */
#define GM_N_EXT             UINT8_C(0x1) /* visible outside the image (external) */
#define GM_NLIST_TYPE_GLOBAL UINT8_C(0x1) /* visible outside the image */
#define GM_N_TYPE            UINT8_C(0xe) /* the bits of a symbol's type */
#define GM_NLIST_TYPE_MASK   UINT8_C(0xe) /* the bits of a symbol's type */
#define GM_N_PEXT            UINT8_C(0x10) /* visible outside its object file but not outside the image (private external) */
#define GM_N_STAB            UINT8_C(0xe0) /* the bits of a type that only debugging entries have */
/* the types of symbols: `n_type` in the bits of GM_N_TYPE, where none of GM_N_STAB is set */
#define GM_N_UNDF UINT8_C(0x0) /* undefined: defined in another image */
#define GM_N_ABS  UINT8_C(0x2) /* an absolute value */
#define GM_N_INDR UINT8_C(0xa) /* an alias of another symbol (indirect) */
#define GM_N_PBUD UINT8_C(0xc) /* undefined, and prebound */
#define GM_N_SECT UINT8_C(0xe) /* defined in a section */
/* `section` of a gm_symbol */
#define GM_NO_SECT  UINT8_C(0x0) /* no section */
#define GM_MAX_SECT UINT8_C(0xff) /* the highest section number */
/* how an undefined symbol is referred to: `desc` of a gm_symbol in the bits of GM_REFERENCE_TYPE */
#define GM_REFERENCE_FLAG_UNDEFINED_NON_LAZY         UINT16_C(0x0) /* an undefined symbol, bound when the image is loaded */
#define GM_REFERENCE_FLAG_UNDEFINED_LAZY             UINT16_C(0x1) /* an undefined symbol, bound at its first use */
#define GM_REFERENCE_FLAG_DEFINED                    UINT16_C(0x2) /* a symbol defined in this module */
#define GM_REFERENCE_FLAG_PRIVATE_DEFINED            UINT16_C(0x3) /* a symbol defined in this module, and visible only in its image */
#define GM_REFERENCE_FLAG_PRIVATE_UNDEFINED_NON_LAZY UINT16_C(0x4) /* a symbol of another module of the image, bound when it is loaded */
#define GM_REFERENCE_FLAG_PRIVATE_UNDEFINED_LAZY     UINT16_C(0x5) /* a symbol of another module of the image, bound at its first use */
#define GM_REFERENCE_TYPE                            UINT16_C(0xf) /* the bits of `n_desc` that hold the kind of reference of an undefined symbol */
/* the other bits of `desc` */
#define GM_N_ARM_THUMB_DEF        UINT16_C(0x0008) /* it is Thumb code */
#define GM_REFERENCED_DYNAMICALLY UINT16_C(0x10) /* looked up by name at run time, so it is not stripped */
#define GM_N_DESC_DISCARDED       UINT16_C(0x20) /* for the dynamic linker at run time */
#define GM_N_NO_DEAD_STRIP        UINT16_C(0x20) /* never stripped as unused, in an object file */
#define GM_N_WEAK_REF             UINT16_C(0x40) /* a weak reference: 0 if nothing defines it */
#define GM_N_WEAK_DEF             UINT16_C(0x80) /* a weak definition: another definition replaces it */
#define GM_N_REF_TO_WEAK          UINT16_C(0x0080) /* of an undefined symbol: its definition is weak */
#define GM_N_SYMBOL_RESOLVER      UINT16_C(0x0100) /* a function that answers the address to use */
#define GM_N_ALT_ENTRY            UINT16_C(0x0200) /* a place inside of what the symbol before it names */
#define GM_N_COLD_FUNC            UINT16_C(0x0400) /* a function that is seldom called */
/* the types of entries for a debugger: `n_type`, where a bit of GM_N_STAB is set */
#define GM_N_GSYM    UINT8_C(0x20) /* a global variable */
#define GM_N_FNAME   UINT8_C(0x22) /* the name of a procedure */
#define GM_N_FUN     UINT8_C(0x24) /* a procedure */
#define GM_N_STSYM   UINT8_C(0x26) /* a static variable */
#define GM_N_LCSYM   UINT8_C(0x28) /* a static variable of zeros */
#define GM_N_BNSYM   UINT8_C(0x2e) /* the beginning of a section's symbol */
#define GM_N_PC      UINT8_C(0x30) /* a global Pascal symbol */
#define GM_N_AST     UINT8_C(0x32) /* the path of a syntax tree */
#define GM_N_OPT     UINT8_C(0x3c) /* options of the compiler */
#define GM_N_RSYM    UINT8_C(0x40) /* a variable in a register */
#define GM_N_SLINE   UINT8_C(0x44) /* a line of the source */
#define GM_N_ENSYM   UINT8_C(0x4e) /* the end of a section's symbol */
#define GM_N_SSYM    UINT8_C(0x60) /* an element of a structure */
#define GM_N_SO      UINT8_C(0x64) /* a source file */
#define GM_N_OSO     UINT8_C(0x66) /* an object file */
#define GM_N_LSYM    UINT8_C(0x80) /* a local variable */
#define GM_N_BINCL   UINT8_C(0x82) /* the beginning of an included file */
#define GM_N_SOL     UINT8_C(0x84) /* an included file */
#define GM_N_PARAMS  UINT8_C(0x86) /* the compiler's parameters */
#define GM_N_VERSION UINT8_C(0x88) /* the compiler's version */
#define GM_N_OLEVEL  UINT8_C(0x8a) /* the compiler's level of optimization */
#define GM_N_PSYM    UINT8_C(0xa0) /* a parameter */
#define GM_N_EINCL   UINT8_C(0xa2) /* the end of an included file */
#define GM_N_ENTRY   UINT8_C(0xa4) /* an alternate entry of a procedure */
#define GM_N_LBRAC   UINT8_C(0xc0) /* a left bracket */
#define GM_N_EXCL    UINT8_C(0xc2) /* an included file that is omitted */
#define GM_N_RBRAC   UINT8_C(0xe0) /* a right bracket */
#define GM_N_BCOMM   UINT8_C(0xe2) /* the beginning of a common block */
#define GM_N_ECOMM   UINT8_C(0xe4) /* the end of a common block */
#define GM_N_ECOML   UINT8_C(0xe8) /* the end of a local common block */
#define GM_N_LENG    UINT8_C(0xfe) /* the length of the preceding entry */
/* the library of an undefined symbol: the high 8 bits of `desc`, where the image has GM_MH_TWOLEVEL */
#define GM_SELF_LIBRARY_ORDINAL   UINT8_C(0) /* the image itself */
#define GM_MAX_LIBRARY_ORDINAL    UINT8_C(0xfd) /* the last one that is an ordinal */
#define GM_DYNAMIC_LOOKUP_ORDINAL UINT8_C(0xfe) /* any image */
#define GM_EXECUTABLE_ORDINAL     UINT8_C(0xff) /* the main executable */
/* `flags` of a gm_export */
#define GM_EXPORT_SYMBOL_FLAGS_KIND_REGULAR      UINT64_C(0x00) /* the kind of an ordinary symbol */
#define GM_EXPORT_SYMBOL_FLAGS_KIND_THREAD_LOCAL UINT64_C(0x01) /* the kind of a symbol of which every thread has its own copy */
#define GM_EXPORT_SYMBOL_FLAGS_KIND_ABSOLUTE     UINT64_C(0x02) /* the kind of a symbol whose address doesn't move with the image */
#define GM_EXPORT_SYMBOL_FLAGS_KIND_MASK         UINT64_C(0x03) /* the bits of an export's flags that hold its kind */
#define GM_EXPORT_SYMBOL_FLAGS_WEAK_DEFINITION   UINT64_C(0x04) /* the definition is weak: another may replace it */
#define GM_EXPORT_SYMBOL_FLAGS_REEXPORT          UINT64_C(0x08) /* the export comes from another library */
#define GM_EXPORT_SYMBOL_FLAGS_STUB_AND_RESOLVER UINT64_C(0x10) /* the export is a stub with a resolver */
/* relocations of GM_CPU_TYPE_X86_64: bits 28 to 31 of `info` of a gm_relocation */
#define GM_X86_64_RELOC_UNSIGNED   UINT8_C(0) /* an absolute address */
#define GM_X86_64_RELOC_SIGNED     UINT8_C(1) /* a signed 32-bit displacement */
#define GM_X86_64_RELOC_BRANCH     UINT8_C(2) /* the displacement of a call or a jump */
#define GM_X86_64_RELOC_GOT_LOAD   UINT8_C(3) /* a load of an entry in the global offset table */
#define GM_X86_64_RELOC_GOT        UINT8_C(4) /* another use of the global offset table */
#define GM_X86_64_RELOC_SUBTRACTOR UINT8_C(5) /* the subtrahend of a difference; a GM_X86_64_RELOC_UNSIGNED follows */
#define GM_X86_64_RELOC_SIGNED_1   UINT8_C(6) /* like GM_X86_64_RELOC_SIGNED, with the addend -1 */
#define GM_X86_64_RELOC_SIGNED_2   UINT8_C(7) /* like GM_X86_64_RELOC_SIGNED, with the addend -2 */
#define GM_X86_64_RELOC_SIGNED_4   UINT8_C(8) /* like GM_X86_64_RELOC_SIGNED, with the addend -4 */
#define GM_X86_64_RELOC_TLV        UINT8_C(9) /* a thread-local variable */
/* relocations of GM_CPU_TYPE_X86 */
#define GM_GENERIC_RELOC_VANILLA        UINT8_C(0) /* a plain address */
#define GM_GENERIC_RELOC_PAIR           UINT8_C(1) /* the second relocation of a pair */
#define GM_GENERIC_RELOC_SECTDIFF       UINT8_C(2) /* the difference of two addresses; a pair follows */
#define GM_GENERIC_RELOC_PB_LA_PTR      UINT8_C(3) /* a prebound lazy pointer */
#define GM_GENERIC_RELOC_LOCAL_SECTDIFF UINT8_C(4) /* the difference of two local addresses; a pair follows */
#define GM_GENERIC_RELOC_TLV            UINT8_C(5) /* a thread-local variable */
/* relocations of GM_CPU_TYPE_ARM */
#define GM_ARM_RELOC_VANILLA        UINT8_C(0) /* a plain address */
#define GM_ARM_RELOC_PAIR           UINT8_C(1) /* the second relocation of a pair */
#define GM_ARM_RELOC_SECTDIFF       UINT8_C(2) /* the difference of two addresses; a pair follows */
#define GM_ARM_RELOC_LOCAL_SECTDIFF UINT8_C(3) /* the difference of two local addresses; a pair follows */
#define GM_ARM_RELOC_PB_LA_PTR      UINT8_C(4) /* a prebound lazy pointer */
#define GM_ARM_RELOC_BR24           UINT8_C(5) /* the 24-bit displacement of a branch */
#define GM_ARM_THUMB_RELOC_BR22     UINT8_C(6) /* the 22-bit displacement of a Thumb branch */
#define GM_ARM_THUMB_32BIT_BRANCH   UINT8_C(7) /* a 32-bit Thumb branch; obsolete */
#define GM_ARM_RELOC_HALF           UINT8_C(8) /* half of an address, in a `movw` or a `movt` */
#define GM_ARM_RELOC_HALF_SECTDIFF  UINT8_C(9) /* half of the difference of two addresses */
/* relocations of GM_CPU_TYPE_ARM64 and GM_CPU_TYPE_ARM64_32 */
#define GM_ARM64_RELOC_UNSIGNED            UINT8_C(0) /* a pointer */
#define GM_ARM64_RELOC_SUBTRACTOR          UINT8_C(1) /* the subtrahend of a difference; a GM_ARM64_RELOC_UNSIGNED follows */
#define GM_ARM64_RELOC_BRANCH26            UINT8_C(2) /* the 26-bit displacement of a branch */
#define GM_ARM64_RELOC_PAGE21              UINT8_C(3) /* the distance to the page of the target */
#define GM_ARM64_RELOC_PAGEOFF12           UINT8_C(4) /* the offset within that page */
#define GM_ARM64_RELOC_GOT_LOAD_PAGE21     UINT8_C(5) /* the distance to the page of an entry of the global offset table */
#define GM_ARM64_RELOC_GOT_LOAD_PAGEOFF12  UINT8_C(6) /* the offset of that entry within its page */
#define GM_ARM64_RELOC_POINTER_TO_GOT      UINT8_C(7) /* a pointer to an entry of the global offset table */
#define GM_ARM64_RELOC_TLVP_LOAD_PAGE21    UINT8_C(8) /* the distance to the page of a thread-local variable */
#define GM_ARM64_RELOC_TLVP_LOAD_PAGEOFF12 UINT8_C(9) /* the offset of that variable within its page */
#define GM_ARM64_RELOC_ADDEND              UINT8_C(10) /* the addend of the GM_ARM64_RELOC_PAGE21 or GM_ARM64_RELOC_PAGEOFF12 that follows */
/* bits 0 to 23 of `info` */
#define GM_R_ABS UINT8_C(0) /* an absolute value, without a symbol or a section */
/* platforms, of GM_LC_BUILD_VERSION */
#define GM_PLATFORM_MACOS             UINT32_C(1) /* macOS */
#define GM_PLATFORM_IOS               UINT32_C(2) /* iOS */
#define GM_PLATFORM_TVOS              UINT32_C(3) /* tvOS */
#define GM_PLATFORM_WATCHOS           UINT32_C(4) /* watchOS */
#define GM_PLATFORM_BRIDGEOS          UINT32_C(5) /* bridgeOS */
#define GM_PLATFORM_MACCATALYST       UINT32_C(6) /* iOS on macOS */
#define GM_PLATFORM_IOSSIMULATOR      UINT32_C(7) /* the simulator of iOS */
#define GM_PLATFORM_TVOSSIMULATOR     UINT32_C(8) /* the simulator of tvOS */
#define GM_PLATFORM_WATCHOSSIMULATOR  UINT32_C(9) /* the simulator of watchOS */
#define GM_PLATFORM_DRIVERKIT         UINT32_C(10) /* drivers of macOS */
#define GM_PLATFORM_VISIONOS          UINT32_C(11) /* visionOS */
#define GM_PLATFORM_VISIONOSSIMULATOR UINT32_C(12) /* the simulator of visionOS */
/* tools, of GM_LC_BUILD_VERSION */
#define GM_TOOL_CLANG UINT32_C(1) /* the compiler clang */
#define GM_TOOL_SWIFT UINT32_C(2) /* the compiler of Swift */
#define GM_TOOL_LD    UINT32_C(3) /* the linker ld */
#define GM_TOOL_LLD   UINT32_C(4) /* the linker lld */
/* `kind` of a gm_data_in_code_entry */
#define GM_DICE_KIND_DATA             UINT16_C(1) /* data */
#define GM_DICE_KIND_JUMP_TABLE8      UINT16_C(2) /* jump tables of 8 bits */
#define GM_DICE_KIND_JUMP_TABLE16     UINT16_C(3) /* jump tables of 16 bits */
#define GM_DICE_KIND_JUMP_TABLE32     UINT16_C(4) /* jump tables of 32 bits */
#define GM_DICE_KIND_ABS_JUMP_TABLE32 UINT16_C(5) /* jump tables of 32 bits with absolute addresses */
/* the opcodes of binds: the halves of a byte */
#define GM_BIND_IMMEDIATE_MASK UINT8_C(0x0f) /* the half of a byte that is the immediate */
#define GM_BIND_OPCODE_MASK    UINT8_C(0xf0) /* the half of a byte that is the opcode */
/* the opcodes */
#define GM_BIND_OPCODE_DONE                             UINT8_C(0x00) /* for `imports`, resets all settings; for `bindings`, ends the non-lazy stream */
#define GM_BIND_OPCODE_SET_DYLIB_ORDINAL_IMM            UINT8_C(0x10) /* the library is the immediate */
#define GM_BIND_OPCODE_SET_DYLIB_ORDINAL_ULEB           UINT8_C(0x20) /* the library is a ULEB128 number */
#define GM_BIND_OPCODE_SET_DYLIB_SPECIAL_IMM            UINT8_C(0x30) /* the library is a special ordinal, which no import shows */
#define GM_BIND_OPCODE_SET_SYMBOL_TRAILING_FLAGS_IMM    UINT8_C(0x40) /* the flags are the immediate, and the name is a text */
#define GM_BIND_OPCODE_SET_TYPE_IMM                     UINT8_C(0x50) /* the type is the immediate */
#define GM_BIND_OPCODE_SET_ADDEND_SLEB                  UINT8_C(0x60) /* the addend is an SLEB128 number */
#define GM_BIND_OPCODE_SET_SEGMENT_AND_OFFSET_ULEB      UINT8_C(0x70) /* the segment is the immediate, and the offset in it a ULEB128 number */
#define GM_BIND_OPCODE_ADD_ADDR_ULEB                    UINT8_C(0x80) /* advance by a ULEB128 number */
#define GM_BIND_OPCODE_DO_BIND                          UINT8_C(0x90) /* bind, then advance by a pointer */
#define GM_BIND_OPCODE_DO_BIND_ADD_ADDR_ULEB            UINT8_C(0xa0) /* bind, then advance by a ULEB128 number and a pointer */
#define GM_BIND_OPCODE_DO_BIND_ADD_ADDR_IMM_SCALED      UINT8_C(0xb0) /* bind, then advance by one pointer more than the immediate counts */
/* as many times as a ULEB128 number says: bind, then advance by a second number and a pointer */
#define GM_BIND_OPCODE_DO_BIND_ULEB_TIMES_SKIPPING_ULEB UINT8_C(0xc0)
#define GM_BIND_OPCODE_THREADED                         UINT8_C(0xd0) /* threaded binds: without effect in `imports`, a fault in `bindings` */
/* the immediates of GM_BIND_OPCODE_SET_TYPE_IMM */
#define GM_BIND_TYPE_POINTER         UINT8_C(1) /* bind a pointer */
#define GM_BIND_TYPE_TEXT_ABSOLUTE32 UINT8_C(2) /* bind an absolute address of 32 bits in code */
#define GM_BIND_TYPE_TEXT_PCREL32    UINT8_C(3) /* bind a relative address of 32 bits in code */
/* those of GM_BIND_OPCODE_SET_DYLIB_SPECIAL_IMM */
#define GM_BIND_SPECIAL_DYLIB_SELF            UINT8_C(0) /* the image itself */
#define GM_BIND_SPECIAL_DYLIB_FLAT_LOOKUP     UINT8_C(0xe) /* any image, which the immediate -2 means */
#define GM_BIND_SPECIAL_DYLIB_MAIN_EXECUTABLE UINT8_C(0xf) /* the main executable, which the immediate -1 means */
/* the bits of those of GM_BIND_OPCODE_SET_SYMBOL_TRAILING_FLAGS_IMM */
#define GM_BIND_SYMBOL_FLAGS_WEAK_IMPORT         UINT8_C(0x1) /* the symbol may be missing */
#define GM_BIND_SYMBOL_FLAGS_NON_WEAK_DEFINITION UINT8_C(0x8) /* the image defines the symbol itself, and not weakly */
/* how the imports of chained fixups are laid out */
#define GM_DYLD_CHAINED_IMPORT          UINT32_C(1) /* the library of the import, whether it may be missing, and its name */
#define GM_DYLD_CHAINED_IMPORT_ADDEND   UINT32_C(2) /* the same, with a 32-bit addend */
#define GM_DYLD_CHAINED_IMPORT_ADDEND64 UINT32_C(3) /* the same in wider fields, with a 64-bit addend */
/* how the pointers of chained fixups are laid out, of those that are read */
#define GM_DYLD_CHAINED_PTR_ARM64E            UINT16_C(1) /* targets are addresses */
#define GM_DYLD_CHAINED_PTR_64                UINT16_C(2) /* targets are addresses */
#define GM_DYLD_CHAINED_PTR_32                UINT16_C(3) /* targets are addresses, and some pointers are plain numbers */
#define GM_DYLD_CHAINED_PTR_64_OFFSET         UINT16_C(6) /* targets are relative to the image's base */
#define GM_DYLD_CHAINED_PTR_ARM64E_KERNEL     UINT16_C(7) /* like GM_DYLD_CHAINED_PTR_ARM64E_USERLAND, in steps of 4 bytes */
#define GM_DYLD_CHAINED_PTR_ARM64E_USERLAND   UINT16_C(9) /* targets are relative to the image's base */
#define GM_DYLD_CHAINED_PTR_ARM64E_FIRMWARE   UINT16_C(10) /* like GM_DYLD_CHAINED_PTR_ARM64E, in steps of 4 bytes */
#define GM_DYLD_CHAINED_PTR_ARM64E_USERLAND24 UINT16_C(12) /* like GM_DYLD_CHAINED_PTR_ARM64E_USERLAND, with 24 bits for an import's number */
/* where the chain of a page starts */
/* the bit of a page's start that means that the page has several. These follow the starts of all pages */
#define GM_DYLD_CHAINED_PTR_START_MULTI UINT16_C(0x8000)
#define GM_DYLD_CHAINED_PTR_START_LAST  UINT16_C(0x8000) /* the bit of the last of several starts */
#define GM_DYLD_CHAINED_PTR_START_NONE  UINT16_C(0xffff) /* the start of a page that has no chain */
/* `hash_type` of a gm_signature */
#define GM_CS_HASHTYPE_SHA1             UINT32_C(1)
#define GM_CS_HASHTYPE_SHA256           UINT32_C(2)
#define GM_CS_HASHTYPE_SHA256_TRUNCATED UINT32_C(3) /* cut to 20 bytes */
#define GM_CS_HASHTYPE_SHA384           UINT32_C(4)
/* the bits of `flags` of a gm_signature */
#define GM_CS_ADHOC            UINT32_C(0x2) /* it is signed by no one */
#define GM_CS_HARD             UINT32_C(0x100) /* pages that aren't as they were signed are not loaded */
#define GM_CS_KILL             UINT32_C(0x200) /* the process is killed where one isn't */
#define GM_CS_CHECK_EXPIRATION UINT32_C(0x400) /* certificates must not be expired */
#define GM_CS_RESTRICT         UINT32_C(0x800) /* dyld takes no variables of the environment */
#define GM_CS_ENFORCEMENT      UINT32_C(0x1000) /* all pages must be signed */
#define GM_CS_REQUIRE_LV       UINT32_C(0x2000) /* libraries must be the system's or of the same team */
#define GM_CS_RUNTIME          UINT32_C(0x10000) /* the hardened runtime */
#define GM_CS_LINKER_SIGNED    UINT32_C(0x20000) /* the linker signed it */
/* verdicts on how an image is hardened: `verdict` of a gm_verdict, and what it means that it holds */
#define GM_VERDICT_NO_HEAP_EXECUTION      UINT32_C(1) /* execution refused on the heap */
#define GM_VERDICT_PIE                    UINT32_C(2) /* loaded at a random address */
#define GM_VERDICT_STACK_EXECUTION        UINT32_C(3) /* execution allowed on the stack */
#define GM_VERDICT_POINTER_AUTHENTICATION UINT32_C(4) /* for arm64e, which signs pointers */
#define GM_VERDICT_STACK_CANARY           UINT32_C(5) /* code that checks its stack by canaries */
#define GM_VERDICT_WRITABLE_CODE          UINT32_C(6) /* a segment both writable and executable */
#define GM_VERDICT_WRITABLE_CODE_ALLOWED  UINT32_C(7) /* a segment that may become both */
#define GM_VERDICT_RESTRICTED             UINT32_C(8) /* dyld is to ignore environment variables */
#define GM_VERDICT_CHAINED_FIXUPS         UINT32_C(9) /* pointers in chains of fixups */
#define GM_VERDICT_RELATIVE_RUN_PATHS     UINT32_C(10) /* a run path that begins with neither / nor @ */
#define GM_VERDICT_ENCRYPTED              UINT32_C(11) /* a part is encrypted */
#define GM_VERDICT_STRIPPED               UINT32_C(12) /* no local symbols */
#define GM_VERDICT_SIGNED                 UINT32_C(13) /* a code directory */
#define GM_VERDICT_AD_HOC                 UINT32_C(14) /* signed without an identity */
#define GM_VERDICT_CMS                    UINT32_C(15) /* a CMS message, which says who signed */
#define GM_VERDICT_HARDENED_RUNTIME       UINT32_C(16) /* started in the hardened runtime */
#define GM_VERDICT_LIBRARY_VALIDATION     UINT32_C(17) /* only libraries of its team or of the system */
#define GM_VERDICT_ENTITLEMENTS           UINT32_C(18) /* entitlements in the signature */
#define GM_VERDICT_GET_TASK_ALLOW         UINT32_C(19) /* debuggers may attach to it */
/* ---- end */

/* The layout that the library gives each struct (x86-64 Linux), and its numbers. A compiler that sees other ones refuses this header. */
#ifdef __cplusplus
#define GM_ASSERT(name, holds) static_assert(holds, #name)
#define GM_WIDTH(type, field) sizeof(type::field)
#else
#if defined __STDC_VERSION__ && __STDC_VERSION__ >= 201112L
#define GM_ASSERT(name, holds) _Static_assert(holds, #name)
#else
#define GM_ASSERT(name, holds) typedef char gm_assert_##name[(holds) ? 1 : -1]
#endif
#define GM_WIDTH(type, field) sizeof(((type *)0)->field)
#endif
#define GM_FIELD(type, field, at, size) GM_ASSERT(type##_##field, offsetof(type, field) == (at) && GM_WIDTH(type, field) == (size))
#define GM_SIZE(type, size) GM_ASSERT(type, sizeof(type) == (size))
#define GM_IS(name, number) GM_ASSERT(name, name == (number))
#if UINTPTR_MAX == UINT64_MAX
GM_FIELD(gm_memory, self, 0, 8);
GM_FIELD(gm_memory, take, 8, 8);
GM_FIELD(gm_memory, give, 16, 8);
GM_SIZE(gm_memory, 24);
GM_FIELD(gm_arena, bytes, 0, 8);
GM_FIELD(gm_arena, size, 8, 8);
GM_FIELD(gm_arena, used, 16, 8);
GM_FIELD(gm_arena, blocks, 24, 8);
GM_SIZE(gm_arena, 32);
GM_FIELD(gm_export_room, name, 0, 8);
GM_FIELD(gm_export_room, name_cap, 8, 8);
GM_FIELD(gm_export_room, stack, 16, 8);
GM_FIELD(gm_export_room, stack_cap, 24, 8);
GM_FIELD(gm_export_room, out, 32, 8);
GM_FIELD(gm_export_room, cap, 40, 8);
GM_FIELD(gm_export_room, names, 48, 8);
GM_FIELD(gm_export_room, names_cap, 56, 8);
GM_SIZE(gm_export_room, 64);
#endif
/* ---- layout: written by c/constants.py */
GM_FIELD(gm_answer, address, 0, 8);
GM_FIELD(gm_answer, file, 8, 8);
GM_FIELD(gm_answer, library, 16, 8);
GM_FIELD(gm_answer, provider, 24, 4);
GM_FIELD(gm_answer, place, 28, 4);
GM_FIELD(gm_answer, is_absolute, 32, 4);
GM_FIELD(gm_answer, is_weak, 36, 4);
GM_FIELD(gm_answer, is_settled, 40, 4);
GM_FIELD(gm_answer, reserved, 44, 4);
GM_SIZE(gm_answer, 48);
GM_FIELD(gm_archive_member, date, 0, 8);
GM_FIELD(gm_archive_member, uid, 8, 8);
GM_FIELD(gm_archive_member, gid, 16, 8);
GM_FIELD(gm_archive_member, mode, 24, 8);
GM_FIELD(gm_archive_member, header, 32, 8);
GM_FIELD(gm_archive_member, data, 40, 8);
GM_FIELD(gm_archive_member, data_len, 48, 8);
GM_FIELD(gm_archive_member, name, 56, 8);
GM_FIELD(gm_archive_member, name_len, 64, 8);
GM_FIELD(gm_archive_member, name_code, 72, 4);
GM_FIELD(gm_archive_member, code, 76, 4);
GM_SIZE(gm_archive_member, 80);
GM_FIELD(gm_archive_symbol, member, 0, 8);
GM_FIELD(gm_archive_symbol, name, 8, 8);
GM_FIELD(gm_archive_symbol, name_len, 16, 8);
GM_FIELD(gm_archive_symbol, code, 24, 4);
GM_FIELD(gm_archive_symbol, reserved, 28, 4);
GM_SIZE(gm_archive_symbol, 32);
GM_FIELD(gm_bind_cursor, binds, 0, 96);
GM_FIELD(gm_bind_cursor, stage, 96, 4);
GM_FIELD(gm_bind_cursor, reserved, 100, 4);
GM_SIZE(gm_bind_cursor, 104);
GM_FIELD(gm_binding, address, 0, 8);
GM_FIELD(gm_binding, offset, 8, 8);
GM_FIELD(gm_binding, addend, 16, 8);
GM_FIELD(gm_binding, name, 24, 8);
GM_FIELD(gm_binding, name_len, 32, 8);
GM_FIELD(gm_binding, library, 40, 8);
GM_FIELD(gm_binding, provider, 48, 4);
GM_FIELD(gm_binding, is_weak, 52, 4);
GM_FIELD(gm_binding, is_lazy, 56, 4);
GM_FIELD(gm_binding, code, 60, 4);
GM_SIZE(gm_binding, 64);
GM_FIELD(gm_binding_cursor, opcodes, 0, 104);
GM_FIELD(gm_binding_cursor, chains, 104, 40);
GM_SIZE(gm_binding_cursor, 144);
GM_FIELD(gm_build_tool, command, 0, 8);
GM_FIELD(gm_build_tool, tool, 8, 4);
GM_FIELD(gm_build_tool, version, 12, 4);
GM_FIELD(gm_build_tool, code, 16, 4);
GM_FIELD(gm_build_tool, reserved, 20, 4);
GM_SIZE(gm_build_tool, 24);
GM_FIELD(gm_build_version, command, 0, 8);
GM_FIELD(gm_build_version, platform, 8, 4);
GM_FIELD(gm_build_version, minos, 12, 4);
GM_FIELD(gm_build_version, sdk, 16, 4);
GM_FIELD(gm_build_version, reserved, 20, 4);
GM_SIZE(gm_build_version, 24);
GM_FIELD(gm_command, offset, 0, 8);
GM_FIELD(gm_command, size, 8, 8);
GM_FIELD(gm_command, cmd, 16, 4);
GM_FIELD(gm_command, reserved, 20, 4);
GM_SIZE(gm_command, 24);
GM_FIELD(gm_command_field, name, 0, 24);
GM_FIELD(gm_command_field, number, 24, 8);
GM_FIELD(gm_command_field, place, 32, 8);
GM_FIELD(gm_command_field, len, 40, 8);
GM_FIELD(gm_command_field, kind, 48, 4);
GM_FIELD(gm_command_field, width, 52, 4);
GM_FIELD(gm_command_field, has_bytes, 56, 4);
GM_FIELD(gm_command_field, reserved, 60, 4);
GM_SIZE(gm_command_field, 64);
GM_FIELD(gm_command_text, command, 0, 8);
GM_FIELD(gm_command_text, text, 8, 8);
GM_FIELD(gm_command_text, text_len, 16, 8);
GM_FIELD(gm_command_text, code, 24, 4);
GM_FIELD(gm_command_text, reserved, 28, 4);
GM_SIZE(gm_command_text, 32);
GM_FIELD(gm_data_in_code_entry, offset, 0, 4);
GM_FIELD(gm_data_in_code_entry, length, 4, 2);
GM_FIELD(gm_data_in_code_entry, kind, 6, 2);
GM_FIELD(gm_data_in_code_entry, code, 8, 4);
GM_SIZE(gm_data_in_code_entry, 12);
GM_FIELD(gm_encrypted_part, offset, 0, 4);
GM_FIELD(gm_encrypted_part, size, 4, 4);
GM_FIELD(gm_encrypted_part, id, 8, 4);
GM_SIZE(gm_encrypted_part, 12);
GM_FIELD(gm_entitlement_item, key, 0, 8);
GM_FIELD(gm_entitlement_item, key_len, 8, 8);
GM_FIELD(gm_entitlement_item, text, 16, 8);
GM_FIELD(gm_entitlement_item, text_len, 24, 8);
GM_FIELD(gm_entitlement_item, number, 32, 8);
GM_FIELD(gm_entitlement_item, kind, 40, 4);
GM_FIELD(gm_entitlement_item, depth, 44, 4);
GM_SIZE(gm_entitlement_item, 48);
GM_FIELD(gm_error, code, 0, 4);
GM_FIELD(gm_error, text, 4, 124);
GM_SIZE(gm_error, 128);
GM_FIELD(gm_export, address, 0, 8);
GM_FIELD(gm_export, offset, 8, 8);
GM_FIELD(gm_export, resolver, 16, 8);
GM_FIELD(gm_export, flags, 24, 8);
GM_FIELD(gm_export, library_len, 32, 8);
GM_FIELD(gm_export, target_len, 40, 8);
GM_FIELD(gm_export, kind, 48, 4);
GM_FIELD(gm_export, reserved, 52, 4);
GM_SIZE(gm_export, 56);
GM_FIELD(gm_export_batch, count, 0, 8);
GM_FIELD(gm_export_batch, names_len, 8, 8);
GM_FIELD(gm_export_batch, needed, 16, 8);
GM_FIELD(gm_export_batch, end, 24, 4);
GM_FIELD(gm_export_batch, reserved, 28, 4);
GM_SIZE(gm_export_batch, 32);
GM_FIELD(gm_export_walk, phase, 0, 8);
GM_FIELD(gm_export_walk, visits_left, 8, 8);
GM_FIELD(gm_export_walk, name_len, 16, 8);
GM_FIELD(gm_export_walk, depth, 24, 8);
GM_FIELD(gm_export_walk, node, 32, 8);
GM_FIELD(gm_export_walk, top, 40, 24);
GM_FIELD(gm_export_walk, is_begun, 64, 4);
GM_FIELD(gm_export_walk, code, 68, 4);
GM_SIZE(gm_export_walk, 72);
GM_FIELD(gm_fat_entry, cputype, 0, 4);
GM_FIELD(gm_fat_entry, cpusubtype, 4, 4);
GM_FIELD(gm_fat_entry, offset, 8, 4);
GM_FIELD(gm_fat_entry, size, 12, 4);
GM_FIELD(gm_fat_entry, align, 16, 4);
GM_FIELD(gm_fat_entry, code, 20, 4);
GM_SIZE(gm_fat_entry, 24);
GM_FIELD(gm_fat_entry64, offset, 0, 8);
GM_FIELD(gm_fat_entry64, size, 8, 8);
GM_FIELD(gm_fat_entry64, cputype, 16, 4);
GM_FIELD(gm_fat_entry64, cpusubtype, 20, 4);
GM_FIELD(gm_fat_entry64, align, 24, 4);
GM_FIELD(gm_fat_entry64, code, 28, 4);
GM_SIZE(gm_fat_entry64, 32);
GM_FIELD(gm_fat_part, offset, 0, 8);
GM_FIELD(gm_fat_part, len, 8, 8);
GM_FIELD(gm_fat_part, cputype, 16, 4);
GM_FIELD(gm_fat_part, cpusubtype, 20, 4);
GM_FIELD(gm_fat_part, align, 24, 4);
GM_FIELD(gm_fat_part, reserved, 28, 4);
GM_SIZE(gm_fat_part, 32);
GM_FIELD(gm_fileset_entry, address, 0, 8);
GM_FIELD(gm_fileset_entry, offset, 8, 8);
GM_FIELD(gm_fileset_entry, name, 16, 8);
GM_FIELD(gm_fileset_entry, name_len, 24, 8);
GM_FIELD(gm_fileset_entry, code, 32, 4);
GM_FIELD(gm_fileset_entry, reserved, 36, 4);
GM_SIZE(gm_fileset_entry, 40);
GM_FIELD(gm_finding, entry, 0, 8);
GM_FIELD(gm_finding, member, 8, 8);
GM_FIELD(gm_finding, segment, 16, 8);
GM_FIELD(gm_finding, section, 24, 8);
GM_FIELD(gm_finding, index, 32, 8);
GM_FIELD(gm_finding, count, 40, 8);
GM_FIELD(gm_finding, kind, 48, 4);
GM_FIELD(gm_finding, list, 52, 4);
GM_FIELD(gm_finding, layout, 56, 64);
GM_FIELD(gm_finding, signature, 120, 32);
GM_FIELD(gm_finding, error, 152, 128);
GM_SIZE(gm_finding, 280);
GM_FIELD(gm_fixup, address, 0, 8);
GM_FIELD(gm_fixup, offset, 8, 8);
GM_FIELD(gm_fixup, target, 16, 8);
GM_FIELD(gm_fixup, segment, 24, 4);
GM_FIELD(gm_fixup, kind, 28, 4);
GM_FIELD(gm_fixup, import, 32, 4);
GM_FIELD(gm_fixup, addend, 36, 4);
GM_FIELD(gm_fixup, is_signed, 40, 4);
GM_FIELD(gm_fixup, key, 44, 4);
GM_FIELD(gm_fixup, diversity, 48, 4);
GM_FIELD(gm_fixup, is_address_diverse, 52, 4);
GM_FIELD(gm_fixup, code, 56, 4);
GM_FIELD(gm_fixup, reserved, 60, 4);
GM_SIZE(gm_fixup, 64);
GM_FIELD(gm_fixup_cursor, chains, 0, 32);
GM_FIELD(gm_fixup_cursor, stage, 32, 4);
GM_FIELD(gm_fixup_cursor, reserved, 36, 4);
GM_SIZE(gm_fixup_cursor, 40);
GM_FIELD(gm_found_function, start, 0, 8);
GM_FIELD(gm_found_function, end, 8, 8);
GM_FIELD(gm_found_function, is_found, 16, 4);
GM_FIELD(gm_found_function, reserved, 20, 4);
GM_SIZE(gm_found_function, 24);
GM_FIELD(gm_found_section, name, 0, 16);
GM_FIELD(gm_found_section, segment_name, 16, 16);
GM_FIELD(gm_found_section, addr, 32, 8);
GM_FIELD(gm_found_section, size, 40, 8);
GM_FIELD(gm_found_section, segment, 48, 8);
GM_FIELD(gm_found_section, number, 56, 8);
GM_FIELD(gm_found_section, index, 64, 4);
GM_FIELD(gm_found_section, offset, 68, 4);
GM_FIELD(gm_found_section, align, 72, 4);
GM_FIELD(gm_found_section, reloff, 76, 4);
GM_FIELD(gm_found_section, nreloc, 80, 4);
GM_FIELD(gm_found_section, flags, 84, 4);
GM_FIELD(gm_found_section, reserved1, 88, 4);
GM_FIELD(gm_found_section, reserved2, 92, 4);
GM_FIELD(gm_found_section, is_found, 96, 4);
GM_FIELD(gm_found_section, reserved, 100, 4);
GM_SIZE(gm_found_section, 104);
GM_FIELD(gm_found_symbol, symbol, 0, 40);
GM_FIELD(gm_found_symbol, index, 40, 8);
GM_FIELD(gm_found_symbol, distance, 48, 8);
GM_FIELD(gm_found_symbol, is_found, 56, 4);
GM_FIELD(gm_found_symbol, reserved, 60, 4);
GM_SIZE(gm_found_symbol, 64);
GM_FIELD(gm_function_start, address, 0, 8);
GM_FIELD(gm_function_start, code, 8, 4);
GM_FIELD(gm_function_start, reserved, 12, 4);
GM_SIZE(gm_function_start, 16);
GM_FIELD(gm_given_file, offset, 0, 8);
GM_FIELD(gm_given_file, len, 8, 8);
GM_FIELD(gm_given_file, path, 16, 8);
GM_FIELD(gm_given_file, path_len, 24, 8);
GM_SIZE(gm_given_file, 32);
GM_FIELD(gm_id, name, 0, 8);
GM_FIELD(gm_id, name_len, 8, 8);
GM_SIZE(gm_id, 16);
GM_FIELD(gm_image, offset, 0, 8);
GM_FIELD(gm_image, entry, 8, 8);
GM_FIELD(gm_image, base, 16, 8);
GM_FIELD(gm_image, first_command, 24, 8);
GM_FIELD(gm_image, commands, 32, 8);
GM_FIELD(gm_image, segments, 40, 8);
GM_FIELD(gm_image, libraries, 48, 8);
GM_FIELD(gm_image, run_paths, 56, 8);
GM_FIELD(gm_image, symbols, 64, 8);
GM_FIELD(gm_image, symbols_at, 72, 8);
GM_FIELD(gm_image, names_at, 80, 8);
GM_FIELD(gm_image, magic, 88, 4);
GM_FIELD(gm_image, cputype, 92, 4);
GM_FIELD(gm_image, cpusubtype, 96, 4);
GM_FIELD(gm_image, filetype, 100, 4);
GM_FIELD(gm_image, flags, 104, 4);
GM_FIELD(gm_image, is_lossy, 108, 4);
GM_FIELD(gm_image, is_old_style_entry, 112, 4);
GM_FIELD(gm_image, is_little_endian, 116, 4);
GM_FIELD(gm_image, is_64, 120, 4);
GM_FIELD(gm_image, reserved, 124, 4);
GM_SIZE(gm_image, 128);
GM_FIELD(gm_image_uuid, bytes, 0, 16);
GM_SIZE(gm_image_uuid, 16);
GM_FIELD(gm_import, address, 0, 8);
GM_FIELD(gm_import, offset, 8, 8);
GM_FIELD(gm_import, addend, 16, 8);
GM_FIELD(gm_import, start_of_sequence_offset, 24, 8);
GM_FIELD(gm_import, name, 32, 8);
GM_FIELD(gm_import, name_len, 40, 8);
GM_FIELD(gm_import, library, 48, 8);
GM_FIELD(gm_import, size, 56, 8);
GM_FIELD(gm_import, is_weak, 64, 4);
GM_FIELD(gm_import, is_lazy, 68, 4);
GM_FIELD(gm_import, code, 72, 4);
GM_FIELD(gm_import, reserved, 76, 4);
GM_SIZE(gm_import, 80);
GM_FIELD(gm_indirect_symbol, kind, 0, 4);
GM_FIELD(gm_indirect_symbol, symbol, 4, 4);
GM_FIELD(gm_indirect_symbol, code, 8, 4);
GM_SIZE(gm_indirect_symbol, 12);
GM_FIELD(gm_initializer, slot, 0, 8);
GM_FIELD(gm_initializer, target, 8, 8);
GM_FIELD(gm_initializer, segment, 16, 8);
GM_FIELD(gm_initializer, section_index, 24, 4);
GM_FIELD(gm_initializer, code, 28, 4);
GM_SIZE(gm_initializer, 32);
GM_FIELD(gm_layout_fault, found, 0, 8);
GM_FIELD(gm_layout_fault, limit, 8, 8);
GM_FIELD(gm_layout_fault, command, 16, 8);
GM_FIELD(gm_layout_fault, index, 24, 8);
GM_FIELD(gm_layout_fault, other_command, 32, 8);
GM_FIELD(gm_layout_fault, other_index, 40, 8);
GM_FIELD(gm_layout_fault, rule, 48, 4);
GM_FIELD(gm_layout_fault, part, 52, 4);
GM_FIELD(gm_layout_fault, other_part, 56, 4);
GM_FIELD(gm_layout_fault, reserved, 60, 4);
GM_SIZE(gm_layout_fault, 64);
GM_FIELD(gm_library, name, 0, 8);
GM_FIELD(gm_library, name_len, 8, 8);
GM_FIELD(gm_library, kind, 16, 4);
GM_FIELD(gm_library, timestamp, 20, 4);
GM_FIELD(gm_library, current_version, 24, 4);
GM_FIELD(gm_library, compatibility_version, 28, 4);
GM_FIELD(gm_library, attributes, 32, 4);
GM_FIELD(gm_library, reserved, 36, 4);
GM_SIZE(gm_library, 40);
GM_FIELD(gm_linker_option, command, 0, 8);
GM_FIELD(gm_linker_option, text, 8, 8);
GM_FIELD(gm_linker_option, text_len, 16, 8);
GM_FIELD(gm_linker_option, code, 24, 4);
GM_FIELD(gm_linker_option, reserved, 28, 4);
GM_SIZE(gm_linker_option, 32);
GM_FIELD(gm_listed_export, name, 0, 8);
GM_FIELD(gm_listed_export, name_len, 8, 8);
GM_FIELD(gm_listed_export, library, 16, 8);
GM_FIELD(gm_listed_export, target, 24, 8);
GM_FIELD(gm_listed_export, what, 32, 56);
GM_SIZE(gm_listed_export, 88);
GM_FIELD(gm_note, command, 0, 8);
GM_FIELD(gm_note, owner, 8, 8);
GM_FIELD(gm_note, owner_len, 16, 8);
GM_FIELD(gm_note, place, 24, 8);
GM_FIELD(gm_note, size, 32, 8);
GM_FIELD(gm_note, code, 40, 4);
GM_FIELD(gm_note, reserved, 44, 4);
GM_SIZE(gm_note, 48);
GM_FIELD(gm_numbered_section, section, 0, 80);
GM_FIELD(gm_numbered_section, command, 80, 8);
GM_FIELD(gm_numbered_section, number, 88, 8);
GM_FIELD(gm_numbered_section, index, 96, 4);
GM_FIELD(gm_numbered_section, reserved, 100, 4);
GM_SIZE(gm_numbered_section, 104);
GM_FIELD(gm_open_node, left, 0, 8);
GM_FIELD(gm_open_node, place, 8, 8);
GM_FIELD(gm_open_node, name_len, 16, 8);
GM_SIZE(gm_open_node, 24);
GM_FIELD(gm_provider, library, 0, 8);
GM_FIELD(gm_provider, provider, 8, 4);
GM_FIELD(gm_provider, is_reported, 12, 4);
GM_FIELD(gm_provider, code, 16, 4);
GM_FIELD(gm_provider, reserved, 20, 4);
GM_SIZE(gm_provider, 24);
GM_FIELD(gm_rebase, address, 0, 8);
GM_FIELD(gm_rebase, offset, 8, 8);
GM_FIELD(gm_rebase, target, 16, 8);
GM_FIELD(gm_rebase, segment, 24, 4);
GM_FIELD(gm_rebase, kind, 28, 4);
GM_FIELD(gm_rebase, is_signed, 32, 4);
GM_FIELD(gm_rebase, key, 36, 4);
GM_FIELD(gm_rebase, diversity, 40, 4);
GM_FIELD(gm_rebase, is_address_diverse, 44, 4);
GM_FIELD(gm_rebase, code, 48, 4);
GM_FIELD(gm_rebase, reserved, 52, 4);
GM_SIZE(gm_rebase, 56);
GM_FIELD(gm_rebase_cursor, opcodes, 0, 104);
GM_FIELD(gm_rebase_cursor, chains, 104, 40);
GM_SIZE(gm_rebase_cursor, 144);
GM_FIELD(gm_relocation, address, 0, 4);
GM_FIELD(gm_relocation, info, 4, 4);
GM_FIELD(gm_relocation, code, 8, 4);
GM_SIZE(gm_relocation, 12);
GM_FIELD(gm_resolution, answers, 0, 8);
GM_FIELD(gm_resolution, unused, 8, 8);
GM_FIELD(gm_resolution, all_unused, 16, 8);
GM_FIELD(gm_resolution, file, 24, 8);
GM_FIELD(gm_resolution, more, 32, 4);
GM_FIELD(gm_resolution, is_settled, 36, 4);
GM_SIZE(gm_resolution, 40);
GM_FIELD(gm_run_path, path, 0, 8);
GM_FIELD(gm_run_path, path_len, 8, 8);
GM_SIZE(gm_run_path, 16);
GM_FIELD(gm_section, name, 0, 16);
GM_FIELD(gm_section, segment, 16, 16);
GM_FIELD(gm_section, addr, 32, 8);
GM_FIELD(gm_section, size, 40, 8);
GM_FIELD(gm_section, data_len, 48, 8);
GM_FIELD(gm_section, offset, 56, 4);
GM_FIELD(gm_section, align, 60, 4);
GM_FIELD(gm_section, reloff, 64, 4);
GM_FIELD(gm_section, nreloc, 68, 4);
GM_FIELD(gm_section, flags, 72, 4);
GM_FIELD(gm_section, code, 76, 4);
GM_SIZE(gm_section, 80);
GM_FIELD(gm_segment, name, 0, 16);
GM_FIELD(gm_segment, vmaddr, 16, 8);
GM_FIELD(gm_segment, vmsize, 24, 8);
GM_FIELD(gm_segment, fileoff, 32, 8);
GM_FIELD(gm_segment, filesize, 40, 8);
GM_FIELD(gm_segment, command, 48, 8);
GM_FIELD(gm_segment, data_len, 56, 8);
GM_FIELD(gm_segment, maxprot, 64, 4);
GM_FIELD(gm_segment, initprot, 68, 4);
GM_FIELD(gm_segment, sections, 72, 4);
GM_FIELD(gm_segment, flags, 76, 4);
GM_SIZE(gm_segment, 80);
GM_FIELD(gm_signature, limit, 0, 8);
GM_FIELD(gm_signature, pages, 8, 8);
GM_FIELD(gm_signature, identifier, 16, 8);
GM_FIELD(gm_signature, identifier_len, 24, 8);
GM_FIELD(gm_signature, team, 32, 8);
GM_FIELD(gm_signature, team_len, 40, 8);
GM_FIELD(gm_signature, entitlements, 48, 8);
GM_FIELD(gm_signature, entitlements_len, 56, 8);
GM_FIELD(gm_signature, version, 64, 4);
GM_FIELD(gm_signature, flags, 68, 4);
GM_FIELD(gm_signature, hash_type, 72, 4);
GM_FIELD(gm_signature, page_size, 76, 4);
GM_FIELD(gm_signature, identifier_code, 80, 4);
GM_FIELD(gm_signature, team_code, 84, 4);
GM_FIELD(gm_signature, entitlements_code, 88, 4);
GM_FIELD(gm_signature, is_signed, 92, 4);
GM_FIELD(gm_signature, cdhash, 96, 20);
GM_FIELD(gm_signature, reserved, 116, 4);
GM_SIZE(gm_signature, 120);
GM_FIELD(gm_signature_fault, found, 0, 8);
GM_FIELD(gm_signature_fault, limit, 8, 8);
GM_FIELD(gm_signature_fault, kind, 16, 4);
GM_FIELD(gm_signature_fault, slot, 20, 4);
GM_FIELD(gm_signature_fault, index, 24, 4);
GM_FIELD(gm_signature_fault, code, 28, 4);
GM_SIZE(gm_signature_fault, 32);
GM_FIELD(gm_slot, address, 0, 8);
GM_FIELD(gm_slot, len, 8, 8);
GM_FIELD(gm_slot, segment, 16, 8);
GM_FIELD(gm_slot, name, 24, 8);
GM_FIELD(gm_slot, name_len, 32, 8);
GM_FIELD(gm_slot, section_index, 40, 4);
GM_FIELD(gm_slot, kind, 44, 4);
GM_FIELD(gm_slot, index, 48, 4);
GM_FIELD(gm_slot, owner, 52, 4);
GM_FIELD(gm_slot, symbol, 56, 4);
GM_FIELD(gm_slot, code, 60, 4);
GM_SIZE(gm_slot, 64);
GM_FIELD(gm_span, place, 0, 8);
GM_FIELD(gm_span, len, 8, 8);
GM_SIZE(gm_span, 16);
GM_FIELD(gm_start_cursor, place, 0, 8);
GM_FIELD(gm_start_cursor, address, 8, 8);
GM_FIELD(gm_start_cursor, stage, 16, 4);
GM_FIELD(gm_start_cursor, reserved, 20, 4);
GM_SIZE(gm_start_cursor, 24);
GM_FIELD(gm_symbol, value, 0, 8);
GM_FIELD(gm_symbol, name, 8, 8);
GM_FIELD(gm_symbol, name_len, 16, 8);
GM_FIELD(gm_symbol, section, 24, 8);
GM_FIELD(gm_symbol, code, 32, 4);
GM_FIELD(gm_symbol, desc, 36, 2);
GM_FIELD(gm_symbol, n_type, 38, 1);
GM_FIELD(gm_symbol, reserved, 39, 1);
GM_SIZE(gm_symbol, 40);
GM_FIELD(gm_unused_file, file, 0, 8);
GM_FIELD(gm_unused_file, why, 8, 4);
GM_FIELD(gm_unused_file, cputype, 12, 4);
GM_SIZE(gm_unused_file, 16);
GM_FIELD(gm_verdict, verdict, 0, 4);
GM_FIELD(gm_verdict, holds, 4, 4);
GM_FIELD(gm_verdict, code, 8, 4);
GM_SIZE(gm_verdict, 12);
GM_FIELD(gm_weak_bind, address, 0, 8);
GM_FIELD(gm_weak_bind, offset, 8, 8);
GM_FIELD(gm_weak_bind, addend, 16, 8);
GM_FIELD(gm_weak_bind, name, 24, 8);
GM_FIELD(gm_weak_bind, name_len, 32, 8);
GM_FIELD(gm_weak_bind, is_strong, 40, 4);
GM_FIELD(gm_weak_bind, is_weak, 44, 4);
GM_FIELD(gm_weak_bind, code, 48, 4);
GM_FIELD(gm_weak_bind, reserved, 52, 4);
GM_SIZE(gm_weak_bind, 56);
GM_IS(GM_ARCHIVE_NONE, 0);
GM_IS(GM_ARCHIVE_GNU, 1);
GM_IS(GM_ARCHIVE_BSD, 2);
GM_IS(GM_ARCHIVE_THIN, 3);
GM_IS(GM_FINDING_REFUSED, 1);
GM_IS(GM_FINDING_LOSSY, 2);
GM_IS(GM_FINDING_TABLE, 3);
GM_IS(GM_FINDING_NO_ENTRIES, 4);
GM_IS(GM_FINDING_ARCHIVE, 5);
GM_IS(GM_FINDING_MORE, 7);
GM_IS(GM_FINDING_PAST, 8);
GM_IS(GM_FINDING_CUT, 9);
GM_IS(GM_FINDING_UNREADABLE, 10);
GM_IS(GM_FINDING_SIGNATURE, 11);
GM_IS(GM_FINDING_LAYOUT, 12);
GM_IS(GM_FINDING_ITEM, 6);
GM_IS(GM_LIST_SECTIONS, 1);
GM_IS(GM_LIST_RELOCATIONS, 2);
GM_IS(GM_LIST_SYMBOLS, 3);
GM_IS(GM_LIST_EXPORTS, 4);
GM_IS(GM_LIST_IMPORTS, 5);
GM_IS(GM_LIST_FIXUPS, 6);
GM_IS(GM_LIST_BINDINGS, 7);
GM_IS(GM_LIST_SIGNATURE, 8);
GM_IS(GM_LIST_MEMBERS, 9);
GM_IS(GM_LIST_ENTRIES, 10);
GM_IS(GM_SOUND, 0);
GM_IS(GM_UNENDED, 1);
GM_IS(GM_FAULTY, 2);
GM_IS(GM_OF_LIBRARY, 0);
GM_IS(GM_OF_ITSELF, 1);
GM_IS(GM_OF_PROGRAM, 2);
GM_IS(GM_OF_ANY, 3);
GM_IS(GM_OF_ANY_WEAK, 4);
GM_IS(GM_ENTITLEMENT_BOOLEAN, 1);
GM_IS(GM_ENTITLEMENT_NATURAL, 2);
GM_IS(GM_ENTITLEMENT_NEGATIVE, 3);
GM_IS(GM_ENTITLEMENT_DATE, 4);
GM_IS(GM_ENTITLEMENT_TEXT, 5);
GM_IS(GM_ENTITLEMENT_REAL, 6);
GM_IS(GM_ENTITLEMENT_ARRAY, 7);
GM_IS(GM_ENTITLEMENT_DICTIONARY, 8);
GM_IS(GM_ENTITLEMENTS_NONE, 0);
GM_IS(GM_ENTITLEMENTS_AGREE, 1);
GM_IS(GM_ENTITLEMENTS_DIFFER, 2);
GM_IS(GM_ENTITLEMENTS_ONLY_XML, 3);
GM_IS(GM_ENTITLEMENTS_ONLY_DER, 4);
GM_IS(GM_ENTITLEMENTS_UNREADABLE_XML, 5);
GM_IS(GM_ENTITLEMENTS_UNREADABLE_DER, 6);
GM_IS(GM_OK, 0);
GM_IS(GM_MALFORMED, 1);
GM_IS(GM_BAD_MAGIC, 2);
GM_IS(GM_SHORT, 3);
GM_IS(GM_TOO_MANY, 4);
GM_IS(GM_NO_MEMORY, 5);
GM_IS(GM_NO_ROWS, 6);
GM_IS(GM_NO_SPACE, 7);
GM_IS(GM_NO_IMAGE, 8);
GM_IS(GM_MORE, 0);
GM_IS(GM_END, 1);
GM_IS(GM_NO_ROOM, 2);
GM_IS(GM_NAME_SHORT, 3);
GM_IS(GM_STACK_SHORT, 4);
GM_IS(GM_REFUSED, 5);
GM_IS(GM_FIELD_NUMBER, 0);
GM_IS(GM_FIELD_HEXADECIMAL, 1);
GM_IS(GM_FIELD_VERSION, 2);
GM_IS(GM_FIELD_SOURCE_VERSION, 3);
GM_IS(GM_FIELD_PLATFORM, 4);
GM_IS(GM_FIELD_PROTECTION, 5);
GM_IS(GM_FIELD_NAME, 6);
GM_IS(GM_FIELD_TEXT, 7);
GM_IS(GM_FIELD_UUID, 8);
GM_IS(GM_NO_EXPORT, 0);
GM_IS(GM_ADDRESS, 1);
GM_IS(GM_REEXPORTED, 2);
GM_IS(GM_STUB, 3);
GM_IS(GM_REBASE, 0);
GM_IS(GM_BIND, 1);
GM_IS(GM_NUMBER, 2);
GM_IS(GM_INDIRECT_SYMBOL, 0);
GM_IS(GM_INDIRECT_LOCAL, 1);
GM_IS(GM_INDIRECT_ABSOLUTE, 2);
GM_IS(GM_INDIRECT_LOCAL_ABSOLUTE, 3);
GM_IS(GM_KIND_UNKNOWN, 0);
GM_IS(GM_KIND_EMPTY, 1);
GM_IS(GM_KIND_IMAGE, 2);
GM_IS(GM_KIND_FAT, 3);
GM_IS(GM_KIND_FAT_64, 4);
GM_IS(GM_KIND_ARCHIVE, 5);
GM_IS(GM_KIND_ELF, 6);
GM_IS(GM_KIND_PE, 7);
GM_IS(GM_KIND_JAVA_CLASS, 8);
GM_IS(GM_KIND_BITCODE, 9);
GM_IS(GM_KIND_TEXT, 10);
GM_IS(GM_REQUIRED, 0);
GM_IS(GM_WEAK, 1);
GM_IS(GM_REEXPORT, 2);
GM_IS(GM_UPWARD, 3);
GM_IS(GM_LAZY, 4);
GM_IS(GM_USED_WEAK, 1);
GM_IS(GM_USED_REEXPORT, 2);
GM_IS(GM_USED_UPWARD, 4);
GM_IS(GM_USED_DELAYED, 8);
GM_IS(GM_LOSSY, 1);
GM_IS(GM_REBASE_POINTER, 1);
GM_IS(GM_REBASE_TEXT_ABSOLUTE, 2);
GM_IS(GM_REBASE_TEXT_RELATIVE, 3);
GM_IS(GM_REQUIREMENT_HOST, 1);
GM_IS(GM_REQUIREMENT_GUEST, 2);
GM_IS(GM_REQUIREMENT_DESIGNATED, 3);
GM_IS(GM_REQUIREMENT_LIBRARY, 4);
GM_IS(GM_REQUIREMENT_PLUGIN, 5);
GM_IS(GM_PLACE_FOUND, 0);
GM_IS(GM_PLACE_LEADS_BACK, 1);
GM_IS(GM_PLACE_NO_LIBRARY, 2);
GM_IS(GM_PLACE_MISSING, 3);
GM_IS(GM_PLACE_NOT_GIVEN, 4);
GM_IS(GM_PLACE_NOT_FOUND, 5);
GM_IS(GM_PLACE_NO_MAIN, 6);
GM_IS(GM_UNUSED_GIVEN_BEFORE, 0);
GM_IS(GM_UNUSED_NOTHING_FOR_CPU, 1);
GM_IS(GM_SIGNATURE_BLOB, 1);
GM_IS(GM_SIGNATURE_MAGIC, 2);
GM_IS(GM_SIGNATURE_DIRECTORY, 3);
GM_IS(GM_SIGNATURE_IDENTIFIER, 4);
GM_IS(GM_SIGNATURE_TEAM, 5);
GM_IS(GM_SIGNATURE_SHORT, 6);
GM_IS(GM_SIGNATURE_SCATTERED, 7);
GM_IS(GM_SIGNATURE_LIMIT, 8);
GM_IS(GM_SIGNATURE_SLOTS, 9);
GM_IS(GM_SIGNATURE_PAGE, 10);
GM_IS(GM_SIGNATURE_UNKNOWN, 11);
GM_IS(GM_SIGNATURE_UNSEALED, 12);
GM_IS(GM_SIGNATURE_SPECIAL, 13);
GM_IS(GM_SIGNATURE_ABSENT, 14);
GM_IS(GM_NO_SLOT, 0);
GM_IS(GM_SLOT_POINTER, 1);
GM_IS(GM_SLOT_LAZY_POINTER, 2);
GM_IS(GM_SLOT_STUB, 3);
GM_IS(GM_SLOT_LAZY_LIBRARY_POINTER, 4);
GM_IS(GM_SLOT_THREAD_LOCAL_POINTER, 5);
/* ---- end */
#undef GM_ASSERT
#undef GM_WIDTH
#undef GM_FIELD
#undef GM_SIZE
#undef GM_IS

#ifdef __cplusplus
}
#endif
#endif
