// goblin_mach.h for C++17. A refused call throws goblin_mach::refusal. What may be missing is a std::optional. A list is a range whose rows are
// read in batches while it is visited. A name is a std::string_view of the bytes. An image refers to its bytes, which must outlive it, and copies
// nothing. All names of goblin_mach.h may be used beside these.
#ifndef GOBLIN_MACH_HPP
#define GOBLIN_MACH_HPP
#include "goblin_mach.h"
#include <algorithm>
#include <array>
#include <cstddef>
#include <exception>
#include <fstream>
#include <iterator>
#include <optional>
#include <stdexcept>
#include <string>
#include <string_view>
#include <utility>
#include <vector>

namespace goblin_mach {

// Why a call was refused.
class refusal : public std::runtime_error {
public:
    explicit refusal(const gm_error &error) : std::runtime_error(error.text), code(error.code) {}
    uint32_t code;
};

// The rows of a list, by a function that writes the next ones to an array and returns how many. Each begin() starts again.
template <typename Row, typename Fill>
class rows {
public:
    explicit rows(Fill from) : start(from), fill(std::move(from)) {}

    class iterator {
    public:
        using iterator_category = std::input_iterator_tag;
        using value_type = Row;
        using difference_type = std::ptrdiff_t;
        using pointer = const Row *;
        using reference = const Row &;
        iterator() = default;
        explicit iterator(rows *list) : of(list) {}
        reference operator*() const { return of->batch[of->at]; }
        pointer operator->() const { return &**this; }
        iterator &operator++() {
            if (++of->at == of->count) of->next_batch();
            return *this;
        }
        void operator++(int) { ++*this; }
        friend bool operator==(const iterator &a, const iterator &b) { return a.is_end() == b.is_end(); }
        friend bool operator!=(const iterator &a, const iterator &b) { return !(a == b); }

    private:
        bool is_end() const { return of == nullptr || of->count == 0; }
        rows *of = nullptr;
    };

    iterator begin() {
        fill = start;
        next_batch();
        return iterator(this);
    }
    iterator end() { return iterator(); }

    // Returns all rows.
    std::vector<Row> all() {
        std::vector<Row> found;
        for (const Row &row : *this) found.push_back(row);
        return found;
    }

private:
    void next_batch() {
        at = 0;
        count = fill(batch.data(), batch.size());
    }
    Fill start, fill;
    std::array<Row, 64> batch;
    uint64_t at = 0, count = 0;
};

// Returns the name in a field of 16 bytes, which zeros pad.
inline std::string_view name_of(const uint8_t (&field)[16]) {
    std::string_view name(reinterpret_cast<const char *>(field), sizeof field);
    return name.substr(0, name.find('\0'));
}

// Returns a name on one line, with escapes, as gm_text writes it.
inline std::string printable(std::string_view name) {
    std::string text(gm_text(nullptr, 0, name.data(), name.size()), '\0');
    gm_text(text.data(), text.size(), name.data(), name.size());
    text.pop_back();
    return text;
}

// How the rows of a list are filled: by index, by a cursor, or by index with memory.
namespace fills {

template <typename Row, typename Call>
struct by_index {
    Call call;
    const uint8_t *bytes;
    uint64_t size;
    gm_image image;
    uint64_t first;
    uint64_t operator()(Row *out, uint64_t cap) {
        uint64_t count = call(bytes, size, &image, first, out, cap);
        first += count;
        return count;
    }
};

template <typename Row, typename Cursor, typename Call>
struct by_cursor {
    Call call;
    const uint8_t *bytes;
    uint64_t size;
    gm_image image;
    const gm_memory *memory;
    Cursor cursor;
    uint64_t operator()(Row *out, uint64_t cap) {
        uint64_t count = 0;
        gm_error error;
        if (call(bytes, size, &image, &cursor, out, cap, &count, memory, &error)) throw refusal(error);
        return count;
    }
};

template <typename Row, typename Call>
struct by_count {
    Call call;
    const uint8_t *bytes;
    uint64_t size;
    gm_image image;
    const gm_memory *memory;
    uint64_t first;
    uint64_t operator()(Row *out, uint64_t cap) {
        uint64_t count = 0;
        gm_error error;
        if (call(bytes, size, &image, first, out, cap, &count, memory, &error)) throw refusal(error);
        first += count;
        return count;
    }
};

struct of_entries {
    const uint8_t *bytes;
    uint64_t size, first;
    uint64_t operator()(gm_fat_entry64 *out, uint64_t cap) {
        uint64_t count = gm_fat_entries64(bytes, size, first, out, cap);
        first += count;
        return count;
    }
};

// The strings before an end, from a place on.
struct of_strings {
    const uint8_t *bytes;
    uint64_t end, from;
    uint64_t operator()(gm_span *out, uint64_t cap) {
        uint64_t start = from, count = gm_strings(bytes + start, end - start, 0, out, cap);
        for (uint64_t i = 0; i < count; i++) out[i].place += start;
        if (count) from = std::min(end, out[count - 1].place + out[count - 1].len + 1);
        return count;
    }
};

} // namespace fills

// An image at the start of some bytes.
class image {
    template <typename Row, typename Call>
    auto list(Call call) const { return rows<Row, fills::by_index<Row, Call>>({call, data, len, numbers, 0}); }
    template <typename Row, typename Cursor, typename Call>
    auto after(Call call) const { return rows<Row, fills::by_cursor<Row, Cursor, Call>>({call, data, len, numbers, memory, {}}); }
    template <typename Row, typename Call>
    auto counted(Call call) const { return rows<Row, fills::by_count<Row, Call>>({call, data, len, numbers, memory, 0}); }
    template <typename Row, typename Call>
    std::optional<Row> said(Call call) const {
        Row row;
        return call(data, len, &numbers, &row) ? std::optional<Row>(row) : std::nullopt;
    }
    template <typename Call>
    std::optional<uint64_t> number(Call call, uint64_t by) const {
        uint64_t there;
        return call(data, len, &numbers, by, &there) ? std::optional<uint64_t>(there) : std::nullopt;
    }
    template <typename Row, typename Call, typename... By>
    std::optional<Row> found(Call call, By... by) const {
        Row row;
        gm_error error;
        if (call(data, len, &numbers, by..., &row, memory, &error)) throw refusal(error);
        return row.is_found ? std::optional<Row>(row) : std::nullopt;
    }
    template <typename Section>
    gm_span bytes_of(const Section &section) const {
        gm_span there;
        gm_error error;
        if (gm_section_data(data, len, section.offset, section.size, section.flags, &there, &error)) throw refusal(error);
        return there;
    }

public:
    image(const uint8_t *bytes, uint64_t size, uint32_t mode = GM_STRICT, const gm_memory *with = nullptr) : data(bytes), len(size), memory(with) {
        gm_error error;
        if (gm_open(data, len, 0, mode, memory, &numbers, &error)) throw refusal(error);
    }

    // Returns the numbers of its header and of its lists.
    const gm_image *operator->() const { return &numbers; }

    // Return what the bytes have at a place, which a row gives; and the name of a row.
    std::string_view text(uint64_t at, uint64_t size) const { return {reinterpret_cast<const char *>(data) + at, static_cast<std::size_t>(size)}; }
    template <typename Row>
    std::string_view name(const Row &row) const { return text(row.name, row.name_len); }

    // ---- lists by index
    auto commands() const { return list<gm_command>(gm_commands); }
    auto segments() const { return list<gm_segment>(gm_segments); }
    auto sections() const { return list<gm_numbered_section>(gm_all_sections); }
    auto symbols() const { return list<gm_symbol>(gm_symbols); }
    auto libraries() const { return list<gm_library>(gm_libraries); }
    auto run_paths() const { return list<gm_run_path>(gm_run_paths); }
    auto ids() const { return list<gm_id>(gm_ids); }
    auto data_in_code() const { return list<gm_data_in_code_entry>(gm_data_in_code); }
    auto indirect_symbols() const { return list<gm_indirect_symbol>(gm_indirect_symbols); }
    auto linker_options() const { return list<gm_linker_option>(gm_linker_options); }
    auto build_tools() const { return list<gm_build_tool>(gm_build_tools); }
    auto build_versions() const { return list<gm_build_version>(gm_build_versions); }
    auto dyld_environment() const { return list<gm_command_text>(gm_dyld_environment); }
    auto fileset_entries() const { return list<gm_fileset_entry>(gm_fileset_entries); }
    auto notes() const { return list<gm_note>(gm_notes); }

    // Returns the fields of a command. The bytes of one that has some are text(field.place, field.len).
    std::vector<gm_command_field> fields(const gm_command &command) const {
        std::vector<gm_command_field> found(GM_COMMAND_FIELDS);
        found.resize(static_cast<std::size_t>(gm_command_fields(data, len, &numbers, &command, 0, found.data(), found.size())));
        return found;
    }

    // Return the bytes of a section, and the strings in it, by a row with its offset, its size and its flags. A string is text(it.place, it.len).
    template <typename Section>
    std::string_view section_data(const Section &section) const {
        auto found = bytes_of(section);
        return text(found.place, found.len);
    }
    template <typename Section>
    auto strings(const Section &section) const {
        auto found = bytes_of(section);
        return rows<gm_span, fills::of_strings>({data, found.place + found.len, found.place});
    }

    // ---- lists that open the image again: by a cursor, and by index
    auto function_starts() const { return after<gm_function_start, gm_start_cursor>(gm_function_starts); }
    auto fixups() const { return after<gm_fixup, gm_fixup_cursor>(gm_fixups); }
    // The binds of opcodes only: bindings() has what dyld binds, chains too.
    auto opcode_imports() const { return after<gm_import, gm_bind_cursor>(gm_opcode_imports); }
    auto bindings() const { return after<gm_binding, gm_binding_cursor>(gm_bindings); }
    auto weak_binds() const { return after<gm_weak_bind, gm_bind_cursor>(gm_weak_binds); }
    auto rebases() const { return after<gm_rebase, gm_rebase_cursor>(gm_rebases); }
    auto slots() const { return counted<gm_slot>(gm_slots); }
    auto initializers() const { return counted<gm_initializer>(gm_initializers); }
    auto layout_faults() const { return counted<gm_layout_fault>(gm_layout_faults); }
    auto signature_faults() const { return counted<gm_signature_fault>(gm_signature_faults); }
    auto security() const { return counted<gm_verdict>(gm_security); }

    // ---- what single commands say
    auto uuid() const { return said<gm_image_uuid>(gm_uuid); }
    auto source_version() const { return said<uint64_t>(gm_source_version); }
    auto encryption() const { return said<gm_encrypted_part>(gm_encryption); }
    auto dylinker() const { return said<gm_command_text>(gm_dylinker); }

    // ---- look-ups
    std::optional<gm_segment> segment(std::string_view called) const {
        gm_segment found;
        if (!gm_segment_named(data, len, &numbers, called.data(), called.size(), &found)) return std::nullopt;
        return found;
    }
    std::optional<uint64_t> address_of_offset(uint64_t offset) const { return number(gm_address_of_offset, offset); }
    std::optional<uint64_t> offset_of_address(uint64_t address) const { return number(gm_offset_of_address, address); }
    auto section_at(uint64_t address) const { return found<gm_found_section>(gm_section_at, address); }
    auto section_of(uint64_t its_number) const { return found<gm_found_section>(gm_section_of, its_number); }
    auto section(std::string_view its_segment, std::string_view called) const {
        return found<gm_found_section>(gm_section_named, its_segment.data(), its_segment.size(), called.data(), called.size());
    }
    auto symbol(std::string_view called) const { return found<gm_found_symbol>(gm_symbol_named, called.data(), called.size()); }
    auto symbol_at(uint64_t address) const { return found<gm_found_symbol>(gm_symbol_at, address); }
    auto function_at(uint64_t address) const { return found<gm_found_function>(gm_function_at, address); }

    // ---- exports and the signature

    // Calls `each` with the name and the row of each export, until it returns false. What `each` throws ends the visit, and is thrown.
    template <typename Each>
    void exports(Each each) const {
        struct visit { Each &each; std::exception_ptr thrown; } state{each, nullptr};
        gm_error error;
        uint32_t code = gm_exports_each(data, len, &numbers, [](void *user, const gm_listed_export *item, const char *name) -> int {
            visit &v = *static_cast<visit *>(user);
            try {
                return !v.each(std::string_view(name, static_cast<std::size_t>(item->name_len)), *item);
            } catch (...) {
                v.thrown = std::current_exception();
                return 1;
            }
        }, &state, memory, &error);
        if (state.thrown) std::rethrow_exception(state.thrown);
        if (code) throw refusal(error);
    }
    std::optional<gm_export> find_export(std::string_view called) const {
        gm_export found;
        gm_error error;
        if (gm_find_export(data, len, &numbers, called.data(), called.size(), &found, nullptr, 0, nullptr, 0, memory, &error)) throw refusal(error);
        return found.kind == GM_NO_EXPORT ? std::nullopt : std::optional(found);
    }
    std::optional<gm_signature> signature() const {
        gm_signature found;
        gm_error error;
        if (gm_code_signature(data, len, &numbers, &found, memory, &error)) throw refusal(error);
        return found.is_signed ? std::optional(found) : std::nullopt;
    }

private:
    const uint8_t *data;
    uint64_t len;
    const gm_memory *memory;
    gm_image numbers;
};

// A file in memory: an image, or a fat file of several.
class file {
public:
    explicit file(std::vector<uint8_t> bytes) : held(std::move(bytes)) {}

    // Reads a file.
    explicit file(const std::string &path) {
        std::ifstream from(path, std::ios::binary);
        if (!from) throw std::runtime_error(path + ": cannot be opened");
        held.assign(std::istreambuf_iterator<char>(from), std::istreambuf_iterator<char>());
    }

    const std::vector<uint8_t> &bytes() const { return held; }
    uint32_t kind() const { return gm_kind(held.data(), held.size()); }

    // Returns the entries of a fat file, or none of any other file.
    rows<gm_fat_entry64, fills::of_entries> entries() const { return rows<gm_fat_entry64, fills::of_entries>({held.data(), held.size(), 0}); }

    // Opens the image of an entry, whose code is GM_OK.
    goblin_mach::image image(const gm_fat_entry64 &entry, uint32_t mode = GM_STRICT) const {
        return goblin_mach::image(held.data() + entry.offset, entry.size, mode);
    }

    // Opens the one image for a cpu.
    goblin_mach::image image_for(uint32_t cputype, uint32_t cpusubtype = GM_CPU_SUBTYPE_ANY, uint32_t mode = GM_STRICT) const {
        gm_fat_entry64 found;
        gm_error error;
        if (gm_image_for(held.data(), held.size(), cputype, cpusubtype, &found, &error)) throw refusal(error);
        return image(found, mode);
    }

    // Opens the images of all entries, or of the file itself.
    std::vector<goblin_mach::image> images(uint32_t mode = GM_STRICT) const {
        std::vector<goblin_mach::image> all;
        auto list = entries();
        for (const gm_fat_entry64 &entry : list) {
            if (entry.code) throw std::runtime_error("an entry isn't all in the file");
            all.push_back(image(entry, mode));
        }
        if (kind() != GM_KIND_FAT && kind() != GM_KIND_FAT_64) all.emplace_back(held.data(), held.size(), mode);
        return all;
    }

private:
    std::vector<uint8_t> held;
};

} // namespace goblin_mach
#endif
