// sample LIST CORPUS STRICT LAX NORMAL: the verdicts of the corpus's lines against stored ones, by mode, with the
// texts of C++. Prints 'N passed, M failed'.
#include <spdx.h>

#include <cstdint>
#include <cstdio>
#include <fstream>
#include <iterator>
#include <stdexcept>
#include <string>
#include <string_view>

namespace {

spdx_text text_of(std::string_view s) { return {s.data(), s.size()}; }

// What a call writes: it is asked once more where the buffer was too short.
template <class Call>
spdx_report written(std::string &out, Call call) {
    spdx_report report = call(spdx_buffer{out.data(), out.size()});
    if (report.status == SPDX_SHORT) {
        out.resize(report.length);
        report = call(spdx_buffer{out.data(), out.size()});
    }
    out.resize(report.length);
    return report;
}

// A list that was read, open for as long as this lives.
class Licences {
  public:
    explicit Licences(std::string_view json) {
        if (spdx_open(text_of(json), &list_).status != SPDX_OK) throw std::runtime_error("no list of licences");
    }
    Licences(const Licences &) = delete;
    Licences &operator=(const Licences &) = delete;
    ~Licences() { spdx_close(&list_); }
    const spdx_list *get() const { return &list_; }

  private:
    spdx_list list_ = {};
};

std::string file(const char *path) {
    std::ifstream in(path, std::ios::binary);
    return {std::istreambuf_iterator<char>(in), {}};
}

}  // namespace

int main(int count, char **words) {
    if (count != 6) return 2;
    const Licences licences(file(words[1]));
    const spdx_list *list = licences.get();
    const std::string corpus = file(words[2]), held = "MIT\nApache-2.0\nBSD-3-Clause\n";
    int passed = 0, failed = 0;
    auto expect = [&](bool holds, const char *what) {
        holds ? ++passed : ++failed;
        if (!holds) std::printf("differs: %s\n", what);
    };
    for (uint32_t mode = SPDX_STRICT; mode <= SPDX_NORMAL; mode++) {
        std::string out(100, '\0');
        const spdx_report report = written(out, [&](spdx_buffer to) {
            return spdx_lines(list, mode, text_of(held), text_of(corpus), to);
        });
        expect(report.status == SPDX_OK && out == file(words[3 + mode]), words[3 + mode]);
    }
    const std::string_view both = "MIT AND Zlib";
    std::string fix, needs;
    const spdx_report told =
        written(needs, [&](spdx_buffer to) { return spdx_requirements(list, 0, text_of(both), to); });
    expect(told.status == SPDX_OK && needs == "MIT\nZlib\n", "requirements");
    const std::uint8_t met[] = {3}, half[] = {1};
    expect(spdx_evaluate_bits(list, 0, text_of(both), met, 2).status == SPDX_OK, "met by bits");
    expect(spdx_evaluate_bits(list, 0, text_of(both), half, 2).status == SPDX_UNMET, "unmet by bits");
    std::string meaning;
    const spdx_report meant = written(
        meaning, [&](spdx_buffer to) { return spdx_simplify(list, 0, text_of("Zlib AND MIT OR Zlib"), to); });
    expect(meant.status == SPDX_OK && meaning == "Zlib", "what it means");
    const spdx_report compared = spdx_compare(list, SPDX_STRICT, text_of(both), text_of("MIT"));
    expect(compared.status == SPDX_OK && compared.number == SPDX_MORE, "how two compare");
    const spdx_report listed = spdx_listed(list, text_of("GPL-2.0"));
    expect(listed.status == SPDX_OK && listed.number == SPDX_DEPRECATED, "a deprecated name");
    const spdx_report report =
        written(fix, [&](spdx_buffer to) { return spdx_fix(list, text_of("apache 2.0"), to); });
    expect(report.status == SPDX_OK && fix == "Apache-2.0", "a fix");
    try {
        const Licences nothing("{}");
        expect(false, "no list");
    } catch (const std::runtime_error &) {
        expect(true, "no list");
    }
    std::printf("%d passed, %d failed\n", passed, failed);
    return failed != 0;
}
