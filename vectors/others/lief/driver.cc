// Answers a vector by LIEF: driver CALL FILE. LIEF refuses by exceptions of its own. Other exceptions count as crashes.
#include <LIEF/MachO.hpp>
#include <LIEF/logging.hpp>
#include <LIEF/exception.hpp>

#include <cinttypes>
#include <cstdio>
#include <functional>
#include <map>
#include <string>

using namespace LIEF::MachO;
using std::string;

namespace {

string quoted(const string &name) {
    string text = "\"";
    for (unsigned char byte : name) {
        char escape[8];
        snprintf(escape, sizeof escape, byte < 0x20 || byte > 0x7e || byte == '"' || byte == '\\' ? "\\x%02x" : "%c", byte);
        text += escape;
    }
    return text + '"';
}

/// Returns a name of 16 bytes in quotes, up to the first zero.
string up_to_zero(const string &name) {
    return quoted(name.c_str());
}

void header(const Binary &image) {
    const Header &it = image.header();
    const unsigned magic = static_cast<unsigned>(it.magic());
    printf("header 0x%x cpu 0x%x 0x%x type %u flags 0x%x\n", magic, static_cast<unsigned>(it.cpu_type()), it.cpu_subtype(),
           static_cast<unsigned>(it.file_type()), it.flags());
    printf("holds commands %zu segments %zu libraries %zu\n", image.commands().size(), image.segments().size(), image.libraries().size());
}

void commands(const Binary &image) {
    for (const LoadCommand &it : image.commands())
        printf("command 0x%" PRIx64 " at 0x%" PRIx64 " size %u\n", static_cast<uint64_t>(it.command()), it.command_offset(), it.size());
}

void segments(const Binary &image) {
    for (const SegmentCommand &it : image.segments())
        printf("segment %s at 0x%" PRIx64 " size 0x%" PRIx64 " file 0x%" PRIx64 " 0x%" PRIx64 " data %zu protection 0x%x 0x%x sections %u flags 0x%x\n",
               up_to_zero(it.name()).c_str(), it.virtual_address(), it.virtual_size(), it.file_offset(), it.file_size(), it.content().size(),
               it.init_protection(), it.max_protection(), it.numberof_sections(), it.flags());
}

void sections(const Binary &image) {
    for (const Section &it : image.sections())
        printf("section %s of %s at 0x%" PRIx64 " size 0x%" PRIx64 " offset 0x%" PRIx64 " align %u relocations %u at 0x%x flags 0x%x\n",
               up_to_zero(it.name()).c_str(), up_to_zero(it.segment_name()).c_str(), it.address(), it.size(), it.offset(), it.alignment(),
               it.numberof_relocations(), it.relocation_offset(), it.raw_flags());
}

void symbols(const Binary &image) {
    for (const Symbol &it : image.symbols())
        if (it.origin() == SYMBOL_ORIGINS::SYM_ORIGIN_LC_SYMTAB)
            printf("symbol %s value 0x%" PRIx64 " type 0x%x section %u description 0x%x\n", quoted(it.name()).c_str(), it.value(), it.type(),
                   it.numberof_sections(), it.description());
}

unsigned version(const DylibCommand::version_t &parts) {
    return parts[0] << 16 | parts[1] << 8 | parts[2];
}

void libraries(const Binary &image) {
    const std::map<LOAD_COMMAND_TYPES, const char *> kinds = {
        {LOAD_COMMAND_TYPES::LC_LOAD_WEAK_DYLIB, "weak"}, {LOAD_COMMAND_TYPES::LC_REEXPORT_DYLIB, "reexport"},
        {LOAD_COMMAND_TYPES::LC_LOAD_UPWARD_DYLIB, "upward"}, {LOAD_COMMAND_TYPES::LC_LAZY_LOAD_DYLIB, "lazy"}};
    unsigned ordinal = 0;
    for (const DylibCommand &it : image.libraries()) {
        if (it.command() == LOAD_COMMAND_TYPES::LC_ID_DYLIB)
            continue;
        const auto kind = kinds.find(it.command());
        printf("library %u %s %s timestamp %u current 0x%x compatible 0x%x\n", ++ordinal, quoted(it.name()).c_str(),
               kind == kinds.end() ? "required" : kind->second, it.timestamp(), version(it.current_version()), version(it.compatibility_version()));
    }
}

/// Prints exports, without names, libraries and resolvers.
void exports(const Binary &image) {
    constexpr uint64_t KIND = 3, REEXPORT = 8, STUB_AND_RESOLVER = 16;
    if (!image.has_dyld_info())
        return;
    for (const ExportInfo &it : image.dyld_info().exports())
        if ((it.flags() & KIND) == 0 && it.flags() & (REEXPORT | STUB_AND_RESOLVER))
            printf("export flags 0x%" PRIx64 "\n", it.flags());
        else
            printf("export at 0x%" PRIx64 " flags 0x%" PRIx64 "\n", it.address(), it.flags());
}

string where(const BindingInfo &it) {
    const std::map<int, const char *> special = {{0, "itself"}, {-1, "main-executable"}, {-2, "flat"}, {-3, "weak-look-up"}};
    const auto found = special.find(it.library_ordinal());
    if (found != special.end())
        return found->second;
    return std::to_string(it.library_ordinal()) + ' ' + (it.has_library() ? quoted(it.library().name()) : "none");
}

void bindings(const Binary &image) {
    if (!image.has_dyld_info())
        return;
    for (const BindingInfo &it : image.dyld_info().bindings())
        if (it.binding_class() != BINDING_CLASS::BIND_CLASS_WEAK)
            printf("binding of %s at 0x%" PRIx64 " addend %" PRId64 "%s%s\n", where(it).c_str(), it.address(), it.addend(), it.is_weak_import() ? " weak" : "",
                   it.binding_class() == BINDING_CLASS::BIND_CLASS_LAZY ? " lazy" : "");
}

void function_starts(const Binary &image) {
    if (image.has_function_starts())
        for (uint64_t it : image.function_starts().functions())
            printf("start 0x%" PRIx64 "\n", image.imagebase() + it);
}

void signature(const Binary &image) {
    puts(image.has_code_signature() ? "signature" : "unsigned");
}

const std::map<string, std::function<void(const Binary &)>> CALLS = {
    {"header", header}, {"commands", commands}, {"segments", segments}, {"sections", sections}, {"symbols", symbols},
    {"libraries", libraries}, {"exports", exports}, {"bindings", bindings}, {"function-starts", function_starts},
    {"signature", signature}};

int answer(const string &call, const char *path) {
    const std::unique_ptr<FatBinary> file = Parser::parse(path);
    if (!file || file->size() == 0) {
        fputs("no image\n", stderr);
        return 1;
    }
    CALLS.at(call)(file->at(0));
    if (call != "signature")
        puts("end");
    return 0;
}

}

int main(int, char **words) {
    LIEF::Logger::disable();
    try {
        if (answer(words[1], words[2]) == 0)
            return 0;
    } catch (const LIEF::exception &fault) {
        fprintf(stderr, "%s\n", fault.what());
    }
    puts("error");
}
