// example17 FILE: of each image of a file its platform, its identity, and its defined symbols by address, each with its section. It is C++17.
#include "goblin_mach.hpp"
#include <algorithm>
#include <cinttypes>
#include <cstdio>

namespace {

void show(const goblin_mach::image &image) {
    const char *cpu = gm_cpu_name(image->cputype, image->cpusubtype);
    std::printf("%s\n", cpu ? cpu : "another cpu");
    for (const gm_build_version &version : image.build_versions()) {
        const char *platform = gm_platform_name(version.platform);
        std::printf("  for %s %" PRIu32 ".%" PRIu32 "\n", platform ? platform : "another system", version.minos >> 16, version.minos >> 8 & 255);
    }
    if (auto uuid = image.uuid()) std::printf("  uuid %02x%02x..\n", uuid->bytes[0], uuid->bytes[1]);
    for (const gm_library &library : image.libraries()) std::printf("  library %s\n", goblin_mach::printable(image.name(library)).c_str());
    std::vector<gm_symbol> symbols = image.symbols().all();
    std::sort(symbols.begin(), symbols.end(), [](const gm_symbol &a, const gm_symbol &b) { return a.value < b.value; });
    for (const gm_symbol &symbol : symbols) {
        auto section = symbol.code == GM_OK && symbol.section != GM_NO_SECT ? image.section_of(symbol.section) : std::nullopt;
        if (!section) continue;
        std::printf("  %016" PRIx64 " %s in %s\n", symbol.value, goblin_mach::printable(image.name(symbol)).c_str(),
                    goblin_mach::printable(goblin_mach::name_of(section->name)).c_str());
    }
    int shown = 0;
    image.exports([&](std::string_view name, const gm_listed_export &item) {
        std::printf("  export %s, kind %" PRIu32 "\n", goblin_mach::printable(name).c_str(), item.what.kind);
        return ++shown < 10;
    });
}

} // namespace

int main(int argc, char **argv) {
    if (argc != 2) return 2;
    try {
        const goblin_mach::file file{std::string(argv[1])};
        for (const goblin_mach::image &image : file.images(GM_LOSSY)) show(image);
    } catch (const std::exception &why) {
        std::fprintf(stderr, "%s\n", why.what());
        return 1;
    }
    return 0;
}
