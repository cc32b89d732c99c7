// Times Tanklefrost's C calls on messages that it makes itself, beside nlohmann::json's BJData reader (SAX, with a handler that keeps
// nothing) where that reads the message, and beside memcpy. Each number is the best of many runs. `bench growth` shows how time grows.
#include "messages.hpp"
#include "tanklefrost.h"
#include <chrono>
#include <cstdio>
#include <nlohmann/json.hpp>

using Clock = std::chrono::steady_clock;

// The best time of a run in nanoseconds: runs until half a second is gone, at least five and at most 100,000.
template <class Run> static double best(Run run)
{
    double least = 1e18, total = 0;
    for (int i = 0; i < 5 || (total < 5e8 && i < 100000); i++) {
        auto from = Clock::now();
        run();
        double t = std::chrono::duration<double, std::nano>(Clock::now() - from).count();
        total += t;
        if (t < least) least = t;
    }
    return least;
}

// A handler that keeps nothing.
struct Nothing {
    using json = nlohmann::json;
    bool null() { return true; }
    bool boolean(bool) { return true; }
    bool number_integer(json::number_integer_t) { return true; }
    bool number_unsigned(json::number_unsigned_t) { return true; }
    bool number_float(json::number_float_t, const json::string_t &) { return true; }
    bool string(json::string_t &) { return true; }
    bool binary(json::binary_t &) { return true; }
    bool start_object(std::size_t) { return true; }
    bool end_object() { return true; }
    bool start_array(std::size_t) { return true; }
    bool end_array() { return true; }
    bool key(json::string_t &) { return true; }
    bool parse_error(std::size_t, const std::string &, const nlohmann::detail::exception &) { return false; }
};

static bool theirs(const Bytes &m)
{
    Nothing nothing;
    return nlohmann::json::sax_parse(m.begin(), m.end(), &nothing, nlohmann::json::input_format_t::bjdata);
}

static std::vector<uint32_t> rows;
static Bytes output(TANKLEFROST_LIMIT);
static volatile uint64_t sink;

// Every slot of the message's packed arrays and tables, by address.
static size_t slots(const Bytes &m, size_t used)
{
    size_t found = 0;
    for (size_t r = 0; r < used; r++) {
        const uint32_t *w = &rows[r * TANKLEFROST_ROW_WORDS];
        bool plain = w[7] == 0;
        if (w[0] == 7 && plain)
            for (size_t i = 0; i < w[5]; i++, found++) sink = sink + tanklefrost_packed_slot(rows.data(), rows.size(), (uint32_t)m.size(), r, &i, 1).first;
        if (w[0] == 8 && plain)
            for (size_t leaf = r + 1; leaf < w[6]; leaf++)
                if (rows[leaf * TANKLEFROST_ROW_WORDS] == 9)
                    for (size_t i = 0; i < w[5]; i++, found++) sink = sink + tanklefrost_table_slot(rows.data(), rows.size(), (uint32_t)m.size(), r, leaf, &i, 1).first;
    }
    return found;
}

// The last record's time in a table of rooms, by the call that has no rows.
static double slotTime(const Bytes &m, uint64_t rooms) { return best([&] { sink = sink + tanklefrost_slot(m.data(), m.size(), 0, 2, rooms - 1); }); }

static double placeTime(const Bytes &m) { return best([&] { sink = sink + tanklefrost_number_and_place(m.data(), m.size()); }); }

// Lends as many rows as the message needs.
static tanklefrost_reading lend(const Bytes &m)
{
    rows.resize(TANKLEFROST_ROW_WORDS * (size_t)tanklefrost_answer_rows(tanklefrost_rows_needed(m.data(), m.size())));
    return tanklefrost_read(TANKLEFROST_NEW_EDITION, m.data(), m.size(), rows.data(), rows.size());
}

static void table(size_t size)
{
    printf("%-30s %9s %8s | %10s %7s | %10s %10s | %9s | %11s | %8s %8s\n", "message", "bytes", "rows", "place us", "MB/s", "read us", "rewrite us", "slot ns", "nlohmann us", "place x", "read x");
    for (const Message &x : messages(size)) {
        const Bytes &m = x.bytes;
        tanklefrost_reading r = lend(m);
        if (r.number != 0) { printf("%-30s refused: %u at %zu\n", x.name.c_str(), r.number, r.place); continue; }
        double place = placeTime(m);
        double read = best([&] { sink = sink + tanklefrost_read(TANKLEFROST_NEW_EDITION, m.data(), m.size(), rows.data(), rows.size()).amount; });
        double rewrite = best([&] { sink = sink + tanklefrost_rewrite(TANKLEFROST_NEW_EDITION, m.data(), m.size(), rows.data(), rows.size(), output.data(), output.size()).amount; });
        lend(m);
        size_t many = slots(m, r.amount);
        double slot = many ? best([&] { slots(m, r.amount); }) / (double)many : 0;
        printf("%-30s %9zu %8zu | %10.2f %7.0f | %10.2f %10.2f | ", x.name.c_str(), m.size(), r.amount, place / 1e3, (double)m.size() / place * 1e3, read / 1e3, rewrite / 1e3);
        many ? printf("%9.1f | ", slot) : printf("%9s | ", "-");
        if (theirs(m)) {
            double other = best([&] { sink = sink + theirs(m); });
            printf("%11.2f | %8.2f %8.2f\n", other / 1e3, other / place, other / read);
        } else
            printf("%11s | %8s %8s\n", "-", "-", "-");
    }
    Bytes from(size), to(size);
    double copy = best([&] { memcpy(to.data(), from.data(), size); sink = sink + to[size / 2]; });
    printf("%-30s %9zu %8s | %10.2f %7.0f |\n", "memcpy", size, "", copy / 1e3, (double)size / copy * 1e3);
}

static void growth(size_t size)
{
    printf("number and place, us, at n, 2n, 4n and 8n bytes (n = %zu), and the last by the one before\n", size / 8);
    std::vector<std::vector<double>> times;
    std::vector<std::string> names;
    for (size_t k = 8; k >= 1; k /= 2) {
        std::vector<Message> l = messages(size / k);
        for (size_t i = 2; i < l.size(); i++) {
            if (k == 8) { names.push_back(l[i].name); times.emplace_back(); }
            times[i - 2].push_back(placeTime(l[i].bytes));
        }
    }
    for (size_t i = 0; i < names.size(); i++) {
        printf("%-30s", names[i].c_str());
        for (double t : times[i]) printf(" %10.2f", t / 1e3);
        printf("   x %.2f\n", times[i][3] / times[i][2]);
    }
    printf("\nthe slot of the last record, us, at as many bytes\n");
    for (bool columns : {false, true}) {
        double before = 0, now = 0;
        printf("%-30s", columns ? "table by columns" : "table by rows");
        for (size_t k = 8; k >= 1; k /= 2) {
            size_t rooms = (size / k - 64) / 9;
            before = now;
            now = slotTime(floorOf(rooms, columns), rooms);
            printf(" %10.2f", now / 1e3);
        }
        printf("   x %.2f\n", now / before);
    }
}

int main(int argc, char **)
{
    const size_t size = 1000000;
    if (argc > 1) growth(size);
    else table(size);
}
