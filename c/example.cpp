// example FILE: the defined symbols of an image, sorted by address. It is C++11, and C++17 and C++20 as well.
#include "goblin_mach.h"
#include <algorithm>
#include <array>
#include <cinttypes>
#include <cstdio>
#include <fstream>
#include <iterator>
#include <stdexcept>
#include <string>
#include <utility>
#include <vector>

namespace {

// Returns all rows of a list, requested in batches.
template <typename Row, typename Call>
std::vector<Row> rows(Call call) {
    std::vector<Row> all;
    std::array<Row, 256> batch;
    for (size_t n; (n = call(all.size(), batch.data(), batch.size())) != 0;)
        all.insert(all.end(), batch.begin(), batch.begin() + static_cast<std::ptrdiff_t>(n));
    return all;
}

// An image, with its bytes.
class macho {
public:
    explicit macho(std::vector<uint8_t> held) : bytes(std::move(held)) {
        gm_error error;
        if (gm_open(bytes.data(), bytes.size(), 0, GM_LOSSY, nullptr, &image, &error)) throw std::runtime_error(error.text);
    }

    std::vector<gm_symbol> symbols() const {
        return rows<gm_symbol>([this](size_t first, gm_symbol *out, size_t cap) {
            return gm_symbols(bytes.data(), bytes.size(), &image, first, out, cap);
        });
    }

    std::string name(const gm_symbol &s) const {
        return std::string(reinterpret_cast<const char *>(bytes.data()) + s.name, s.name_len);
    }

private:
    std::vector<uint8_t> bytes;
    gm_image image;
};

} // namespace

int main(int argc, char **argv) {
    if (argc != 2) return 2;
    std::ifstream file(argv[1], std::ios::binary);
    std::vector<uint8_t> bytes{std::istreambuf_iterator<char>(file), std::istreambuf_iterator<char>()};
    try {
        const macho m(std::move(bytes));
        std::vector<gm_symbol> symbols = m.symbols();
        std::sort(symbols.begin(), symbols.end(), [](const gm_symbol &a, const gm_symbol &b) { return a.value < b.value; });
        for (const gm_symbol &s : symbols)
            if (s.code == GM_OK && s.section != GM_NO_SECT) std::printf("%016" PRIx64 " %s\n", s.value, m.name(s).c_str());
    } catch (const std::exception &why) {
        std::fprintf(stderr, "%s\n", why.what());
        return 1;
    }
    return 0;
}
