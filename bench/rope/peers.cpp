// The same edits on libstdc++'s rope and on a string: nanoseconds for each, one line an operation.
// usage: peers rope|string BYTES
#include <chrono>
#include <cstdint>
#include <cstdio>
#include <cstdlib>
#include <cstring>
#include <ext/rope>
#include <string>

// The generator that the program `rope_bench` uses.
static uint64_t state = 0x9e3779b97f4a7c15ull;
static uint64_t roll() {
    state ^= state << 13;
    state ^= state >> 7;
    state ^= state << 17;
    return state >> 11;
}

static std::string text_of(size_t bytes) {
    std::string text(bytes, ' ');
    for (size_t i = 0; i < bytes; i++) text[i] = i % 41 == 40 ? '\n' : char('a' + i % 26);
    return text;
}

static uint64_t sum; // so that nothing is left out

template <class Step> static void timed(const char *name, unsigned steps, Step step) {
    auto start = std::chrono::steady_clock::now();
    for (unsigned k = 0; k < steps; k++) step();
    std::chrono::duration<double, std::nano> took = std::chrono::steady_clock::now() - start;
    std::printf("%s %.0f\n", name, took.count() / steps);
    std::fflush(stdout);
}

static long resident_kilobytes() {
    FILE *f = std::fopen("/proc/self/status", "r");
    char line[256];
    long kilobytes = 0;
    while (f && std::fgets(line, sizeof line, f))
        if (std::sscanf(line, "VmRSS: %ld", &kilobytes) == 1) break;
    if (f) std::fclose(f);
    return kilobytes;
}

static size_t nth_line(const std::string &text, size_t line) {
    size_t at = 0;
    for (; line > 0; line--) at = text.find('\n', at) + 1;
    return at;
}

static size_t nth_line(const __gnu_cxx::rope<char> &text, size_t line) {
    size_t at = 0;
    for (auto i = text.begin(); line > 0; ++i, ++at) line -= *i == '\n';
    return at;
}

template <class Text> static void run(size_t bytes, unsigned edits, unsigned slices, unsigned lines) {
    std::string source = text_of(bytes);
    long before = resident_kilobytes();
    Text text;
    timed("build", 1, [&] { text = Text(source.c_str()); });
    std::printf("memory %.2f\n", double(resident_kilobytes() - before) * 1024 / double(bytes));
    timed("insert", edits, [&] { text.insert(roll() % text.size(), "x"); });
    timed("delete", edits, [&] { text.erase(roll() % text.size(), 1); });
    timed("slice", slices, [&] { sum += text.substr(roll() % (text.size() / 10 * 9), text.size() / 10).size(); });
    timed("line", lines, [&] { sum += nth_line(text, roll() % (bytes / 41)); });
}

int main(int argc, char **argv) {
    if (argc != 3) return 2;
    size_t bytes = std::strtoull(argv[2], nullptr, 10);
    if (std::strcmp(argv[1], "rope") == 0)
        run<__gnu_cxx::rope<char>>(bytes, 100000, 100000, 20);
    else
        run<std::string>(bytes, 2000, 2000, 200);
    return sum == 1;
}
