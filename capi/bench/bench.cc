// Compares the library with regexec of the C library, RE2 (longest matches) and PCRE2 (compiled to code) in one run and
// prints a table for docs/LIBRARY.md. Each measurement has a process of its own; one whose first calls take more than
// 10 s is `none`. A number with `!` is of other answers than those of the library.
//
//     bench [SECONDS]     seconds for each measurement, 0.3
#include "gaxtrel.h"
#include <cmath>
#include <cstring>
#include <ctime>
#include <malloc.h>
#include <memory>
#include <re2/re2.h>
#include <regex.h>
#include <string>
#include <sys/resource.h>
#include <sys/wait.h>
#include <thread>
#include <unistd.h>
#include <vector>
#if __has_include(<pcre2.h>)
#define PCRE2_CODE_UNIT_WIDTH 8
#include <pcre2.h>
#endif
using std::string;
using Lines = std::vector<string>;

// How many parts that are not empty a line has, by the next stretch from a place on.
template <class Next> static size_t count_parts(const string &line, Next next) {
    size_t count = 0, from = 0, start, end;
    for (; from <= line.size() && next(from, start, end); from = end + (end == start)) count += end > start;
    return count;
}

// A copy is what another thread uses at the same time.
struct Gaxtrel {
    const char *pattern;
    gaxtrel_matcher matcher = GAXTREL_NONE;
    explicit Gaxtrel(const char *text) : pattern(text) {
        gaxtrel_fault fault;
        if (gaxtrel_compile(&matcher, (const uint8_t *)text, strlen(text), GAXTREL_EXTENDED, 0, 0, &fault)) _exit(1);
    }
    Gaxtrel(const Gaxtrel &other) : Gaxtrel(other.pattern) {}
    ~Gaxtrel() { gaxtrel_free(&matcher); }
    bool matches(const string &line) { return gaxtrel_is_match(&matcher, (const uint8_t *)line.data(), line.size()); }
    size_t parts(const string &line) {
        size_t count;
        uint32_t some = gaxtrel_parts(&matcher, (const uint8_t *)line.data(), line.size(), 0, nullptr, 0, &count);
        return some > GAXTREL_YES ? _exit(1), 0 : count;
    }
};

struct Regexec {
    std::shared_ptr<regex_t> expression{new regex_t, [](regex_t *it) { regfree(it), delete it; }};
    explicit Regexec(const char *text) {
        if (regcomp(expression.get(), text, REG_EXTENDED)) _exit(1);
    }
    bool matches(const string &line) { return !regexec(expression.get(), line.c_str(), 0, nullptr, 0); }
    size_t parts(const string &line) {
        return count_parts(line, [&](size_t from, size_t &start, size_t &end) {
            regmatch_t part;
            bool none = regexec(expression.get(), line.c_str() + from, 1, &part, from ? REG_NOTBOL : 0);
            start = from + part.rm_so, end = from + part.rm_eo;
            return !none;
        });
    }
};

struct Re2 {
    std::shared_ptr<RE2> expression;
    explicit Re2(const char *text) {
        RE2::Options options(RE2::POSIX);
        options.set_one_line(true);
        options.set_encoding(RE2::Options::EncodingLatin1);
        options.set_log_errors(false);
        expression = std::make_shared<RE2>(text, options);
        if (!expression->ok()) _exit(1);
    }
    bool matches(const string &line) { return expression->Match(line, 0, line.size(), RE2::UNANCHORED, nullptr, 0); }
    size_t parts(const string &line) {
        return count_parts(line, [&](size_t from, size_t &start, size_t &end) {
            re2::StringPiece part;
            bool some = expression->Match(line, from, line.size(), RE2::UNANCHORED, &part, 1);
            start = part.data() - line.data(), end = start + part.size();
            return some;
        });
    }
};

// Bytes that are not on the heap.
template <class Matcher> static size_t code_of(const Matcher &) { return 0; }

#ifdef PCRE2_CODE_UNIT_WIDTH
struct Pcre2 {
    std::shared_ptr<pcre2_code> code;
    std::shared_ptr<pcre2_match_data> data{pcre2_match_data_create(1, nullptr), pcre2_match_data_free};
    explicit Pcre2(const char *text) {
        int fault;
        size_t at;
        auto made = pcre2_compile((PCRE2_SPTR)text, strlen(text), PCRE2_DOLLAR_ENDONLY, &fault, &at, nullptr);
        if (!made || pcre2_jit_compile(made, PCRE2_JIT_COMPLETE)) _exit(1);
        code = {made, pcre2_code_free};
    }
    Pcre2(const Pcre2 &other) : code(other.code) {}
    bool matches(const string &line, size_t from = 0) {
        int some = pcre2_match(code.get(), (PCRE2_SPTR)line.data(), line.size(), from, 0, data.get(), nullptr);
        return some < PCRE2_ERROR_NOMATCH ? _exit(1), false : some >= 0;
    }
    size_t parts(const string &line) {
        size_t *place = pcre2_get_ovector_pointer(data.get());
        return count_parts(line, [&](size_t from, size_t &start, size_t &end) {
            bool some = matches(line, from);
            start = place[0], end = place[1];
            return some;
        });
    }
};

static size_t code_of(const Pcre2 &it) {
    size_t size = 0;
    pcre2_pattern_info(it.code.get(), PCRE2_INFO_JITSIZE, &size);
    return size;
}
#endif

static Lines log_lines(size_t size) {
    Lines lines(size < 1000 ? 200 : size < 100000 ? 20 : 10);
    for (size_t i = 0; i < lines.size(); i++) {
        while (lines[i].size() < size) lines[i] += "abcdefghij klmnop: qrstuvwxyz 0123456789"[rand() % 40];
        if (i % 10 == 0) memcpy(&lines[i][size * 6 / 10], "error: disk 507", 15);
    }
    return lines;
}

static Lines mixed_lines(size_t size) {
    Lines lines(size < 1000 ? 21 : size < 100000 ? 3 : 2);
    for (auto &line : lines) {
        while (line.size() + 1 < size) line += "ab"[rand() % 2];
        line += "c";
    }
    return lines;
}

static Lines same_lines(size_t size) { return {string(size, 'a')}; }

// What is asked of patterns: all together on lines of 100 bytes, or of one on lines of each size.
enum Asked { COMPILE, KEEP, THREADS, MATCHES, PARTS };
struct Row {
    const char *name;
    Asked asked;
    std::vector<const char *> patterns;
    Lines (*lines)(size_t size);
};

static const size_t SIZES[] = {100, 10000, 1000000};

static const std::vector<const char *> RULES = {
    "error", "^ERROR: ", "fatal|panic|abort", "timeout after [0-9]+ms", "user=[a-z]+", "user=(root|admin)", "disk full",
    "[0-9]{1,3}\\.[0-9]{1,3}\\.[0-9]{1,3}\\.[0-9]{1,3}", "GET /[a-z/]+ HTTP", "status=[45][0-9][0-9]", "\\.php$", "^$",
    "^[A-Z][a-z]{2} [ 0-9][0-9] ", "session [0-9a-f]{8}", "[Ff]ailed password", "connection (reset|refused|closed)",
    "out of memory", "id=[0-9]+ .*name=[a-z]+", "[[:space:]]+$", "warn(ing)?:", "exception in thread", "<script",
    "at [a-z.]+\\([A-Z][a-z]+\\.java:[0-9]+\\)", "[a-z0-9._]+@[a-z0-9.]+\\.[a-z]{2,4}", "^[^ ]+ [^ ]+ [^ ]+", "base64",
    "select .* from", "insert into [a-z_]+", "(drop|alter) table", "union.*select", "\\.\\./", "/etc/(passwd|shadow)",
    "cmd=.*;", "%[0-9a-fA-F]{2}", "eval\\(", "x-forwarded-for: [0-9.]+", "bytes=[0-9]{5,}", "latency=[0-9]{4,}",
    "retry [3-9]", "queue depth [0-9]{3,}", "(a|b)*abb", "port (22|23|3389)", "kernel: .*segfault", "usb [0-9]-[0-9]",
    "sudo: .*COMMAND=", "cron\\[[0-9]+\\]", "[0-9]{4}-[0-9]{2}-[0-9]{2}T[0-9:]{8}", "level=(warn|error|fatal)",
    "trace_id=[0-9a-f]{16,32}", "^.{80,}$"};

static const Row ROWS[] = {
    {"compile, µs: each of fifty rules", COMPILE, RULES, log_lines},
    {"compile, µs: ", COMPILE, {"foo|bar|baz"}, log_lines},
    {"compile, µs: ", COMPILE, {"[0-9]+"}, log_lines},
    {"compile, µs: ", COMPILE, {"error: [a-z]+ [0-9]{3}"}, log_lines},
    {"KB after 200 lines: each of fifty rules", KEEP, RULES, log_lines},
    {"", MATCHES, {"error: [a-z]+ [0-9]{3}"}, log_lines},
    {"", MATCHES, {"disk|error|fatal"}, log_lines},
    {"", MATCHES, {"[0-9]{3} ?[a-f]+[x-z]"}, log_lines},
    {"all parts of ", PARTS, {"[0-9]{3} ?[a-f]+[x-z]"}, log_lines},
    {"", MATCHES, {"[a-z]+: [a-z]+$"}, log_lines},
    {"`a` alone: ", MATCHES, {"(a|aa)*a{20}c"}, same_lines},
    {"`a` alone: all parts of ", PARTS, {"a|a*[bc]"}, same_lines},
    {"`a` alone: all parts of ", PARTS, {"(a{250}){16}[b-d]|(a{25}){2}x"}, same_lines},
    {"`a` and `b`: ", MATCHES, {"(a|b)*a(a|b){12}aa[cd]"}, mixed_lines},
    {"eight threads: ", THREADS, {"error: [a-z]+ [0-9]{3}"}, log_lines},
};

// Microseconds, KB, or thousands of calls a second; and what all lines have. Both are 0 if it isn't done.
struct Result {
    double number;
    size_t found;
};

static double seconds = 0.3;

// How many calls are made in a second.
template <class Call> static double rate(clockid_t clock, Call call) {
    auto now = [=] {
        timespec time;
        clock_gettime(clock, &time);
        return time.tv_sec + time.tv_nsec * 1e-9;
    };
    size_t done = 0, round = 1;
    double start = now(), spent;
    do {
        for (size_t i = 0; i < round; i++) call(done++);
        spent = now() - start;
        if (round < 4096 && spent < seconds / 8) round *= 2;
    } while (spent < seconds);
    return done / spent;
}

template <class Matcher> static double kept(const Row &row, const Lines &lines) {
    std::vector<std::unique_ptr<Matcher>> all;
    size_t before = mallinfo2().uordblks, code = 0;
    for (auto pattern : row.patterns) {
        all.emplace_back(new Matcher(pattern));
        for (auto &line : lines) all.back()->matches(line);
        code += code_of(*all.back());
    }
    return (mallinfo2().uordblks - before + code) / 1e3 / all.size();
}

template <class Matcher> static Result measured(const Row &row, const Lines &lines) {
    auto compile = [&](size_t i) { Matcher made(row.patterns[i % row.patterns.size()]); };
    if (row.asked == COMPILE) return {1e6 / rate(CLOCK_PROCESS_CPUTIME_ID, compile), 0};
    if (row.asked == KEEP) return {kept<Matcher>(row, lines), 0};
    auto ask = [&](Matcher &it, const string &line) { return row.asked == PARTS ? it.parts(line) : it.matches(line); };
    auto calls = [&](clockid_t clock, Matcher &it) {
        return rate(clock, [&](size_t i) { ask(it, lines[i % lines.size()]); }) / 1e3;
    };
    Matcher matcher(row.patterns[0]);
    size_t found = 0;
    for (auto &line : lines) found += ask(matcher, line);
    if (row.asked != THREADS) return {calls(CLOCK_PROCESS_CPUTIME_ID, matcher), found};
    std::vector<std::thread> threads;
    double rates[8], sum = 0;
    for (double &it : rates)
        threads.emplace_back([&] {
            Matcher own(matcher);
            it = calls(CLOCK_MONOTONIC, own);
        });
    for (auto &it : threads) it.join();
    for (double it : rates) sum += it;
    return {sum, found};
}

// The same in a process of its own.
template <class Matcher> static Result apart(const Row &row, size_t size) {
    int ends[2];
    Result result = {0, 0};
    if (pipe(ends)) abort();
    if (pid_t child = fork()) {
        close(ends[1]);
        if (read(ends[0], &result, sizeof result) != sizeof result) result = {0, 0};
        waitpid(child, nullptr, 0);
        close(ends[0]);
        return result;
    }
    rlimit time = {10, 10}, memory = {rlim_t(4) << 30, rlim_t(4) << 30};
    setrlimit(RLIMIT_CPU, &time);
    setrlimit(RLIMIT_AS, &memory);
    result = measured<Matcher>(row, row.lines(size));
    _exit(write(ends[1], &result, sizeof result) != sizeof result);
}

// Three digits of a number from 100 on, else two.
static string shown(double number) {
    char text[40];
    if (number == 0) return "none";
    if (number < 99.5) return snprintf(text, sizeof text, "%.2g", number), text;
    long unit = lround(pow(10, floor(log10(number)) - 2));
    string digits = std::to_string(lround(number / unit) * unit);
    for (size_t at = digits.size(); at > 3;) digits.insert(at -= 3, ",");
    return digits;
}

template <class Matcher> static void show(const Row &row, std::vector<size_t> &wanted) {
    for (size_t k = 0; k < (row.asked < MATCHES ? 1 : 3); k++) {
        auto [number, found] = apart<Matcher>(row, SIZES[k]);
        if (wanted.size() == k) wanted.push_back(found);
        printf("%s%s%s", k ? "; " : " ", shown(number).c_str(), number > 0 && found != wanted[k] ? "!" : "");
    }
    printf(" |"), fflush(stdout);
}

static string code(string text) {
    if (text.find('|') == string::npos) return "`" + text + "`";
    for (size_t at; (at = text.find('|')) != string::npos;) text.replace(at, 1, "&#124;");
    return "<code>" + text + "</code>";
}

int main(int count, char **words) {
    if (count > 1) seconds = atof(words[1]);
    puts("| | gaxtrel | regexec | RE2 | PCRE2 |\n|---|---|---|---|---|");
    for (auto &row : ROWS) {
        std::vector<size_t> wanted;
        printf("| %s%s |", row.name, row.patterns.size() > 1 ? "" : code(row.patterns[0]).c_str());
        show<Gaxtrel>(row, wanted), show<Regexec>(row, wanted), show<Re2>(row, wanted);
#ifdef PCRE2_CODE_UNIT_WIDTH
        show<Pcre2>(row, wanted);
#else
        printf(" not installed |");
#endif
        puts("");
    }
}
