// The messages that are measured. Each is made here, as large as asked for.
#pragma once
#include <cstdint>
#include <cstring>
#include <string>
#include <vector>

using Bytes = std::vector<uint8_t>;

struct Message {
    std::string name;
    Bytes bytes;
};

// Numbers that are always the same.
struct Chance {
    uint64_t state = 1;
    uint32_t next() { return (uint32_t)((state = state * 6364136223846793005u + 1442695040888963407u) >> 33); }
};

inline void put(Bytes &b, std::initializer_list<int> l) { for (int x : l) b.push_back((uint8_t)x); }
inline void put(Bytes &b, const char *s) { while (*s) b.push_back((uint8_t)*s++); }
inline void put(Bytes &b, uint64_t n, int width) { for (int i = 0; i < width; i++) b.push_back((uint8_t)(n >> 8 * i)); }
inline void key(Bytes &b, const char *s) { put(b, {'U', (int)strlen(s)}); put(b, s); }

// null, booleans and numbers of every width, one after another: in no order, or in the same order again and again
inline Bytes scalars(size_t size, bool ordered)
{
    Bytes b{'['};
    Chance c;
    const char marks[] = "ZTFiUIulmLMdDC";
    const int widths[] = {0, 0, 0, 1, 1, 2, 2, 4, 4, 8, 8, 4, 8, 1};
    for (uint32_t i = 0; b.size() + 16 < size; i++) {
        uint32_t k = (ordered ? i : c.next()) % 14;
        b.push_back((uint8_t)marks[k]);
        for (int i = 0; i < widths[k]; i++) b.push_back(c.next() & 0x3F);
    }
    b.push_back(']');
    return b;
}

// scalars of one mark
inline Bytes alike(size_t size)
{
    Bytes b{'['};
    Chance c;
    while (b.size() + 16 < size) put(b, {'I', (int)(c.next() & 0xFF), (int)(c.next() & 0xFF)});
    b.push_back(']');
    return b;
}

// a text of letters
inline void letters(Bytes &b, Chance &c, int n)
{
    put(b, {'S', 'U', n});
    for (int i = 0; i < n; i++) b.push_back((uint8_t)('a' + c.next() % 26));
}

// {"id": U, "ok": T, "t": d}; or with texts of 3 to 11 letters and of one: {"id": U, "name": S, "ok": T, "unit": S, "t": d}
inline Bytes objects(size_t size, bool texts)
{
    Bytes b{'['};
    Chance c;
    while (b.size() + 64 < size) {
        b.push_back('{');
        key(b, "id"); put(b, {'U', (int)(c.next() & 0xFF)});
        if (texts) { key(b, "name"); letters(b, c, 3 + (int)(c.next() % 9)); }
        key(b, "ok"); b.push_back(c.next() & 1 ? 'T' : 'F');
        if (texts) { key(b, "unit"); letters(b, c, 1); }
        key(b, "t"); put(b, {'d', 0, 0, 0xAC, 0x41});
        b.push_back('}');
    }
    b.push_back(']');
    return b;
}

// texts of 4 to 19 letters
inline Bytes shortTexts(size_t size)
{
    Bytes b{'['};
    Chance c;
    while (b.size() + 32 < size) letters(b, c, 4 + (int)(c.next() % 16));
    b.push_back(']');
    return b;
}

inline Bytes text(size_t size, bool ascii)
{
    Bytes body;
    Chance c;
    while (body.size() + 8 < size) {
        int k = ascii ? 0 : c.next() % 4;
        if (k == 0) body.push_back((uint8_t)(32 + c.next() % 95));
        if (k == 1) put(body, {0xC3, (int)(0x80 + c.next() % 64)});
        if (k == 2) put(body, {0xE2, 0x82, (int)(0x80 + c.next() % 64)});
        if (k == 3) put(body, {0xF0, 0x9F, 0x98, (int)(0x80 + c.next() % 64)});
    }
    Bytes b{'S', 'm'};
    put(b, body.size(), 4);
    b.insert(b.end(), body.begin(), body.end());
    return b;
}

inline Bytes packed(size_t size, char mark, int width)
{
    Bytes b{'[', '$', (uint8_t)mark, '#', 'm'};
    size_t n = (size - 16) / (size_t)width;
    put(b, n, 4);
    Chance c;
    for (size_t i = 0; i < n * (size_t)width; i++) b.push_back(c.next() & 0x3F);
    return b;
}

// rooms with a temperature, a mark and a time, by rows or by columns
inline Bytes floorOf(size_t rooms, bool columns)
{
    Bytes b{(uint8_t)(columns ? '{' : '['), '$', '{'};
    key(b, "temperature"); b.push_back('d');
    key(b, "alert"); b.push_back('T');
    key(b, "time"); b.push_back('m');
    put(b, {'}', '#', 'm'});
    put(b, rooms, 4);
    Chance c;
    auto temperature = [&] { put(b, {0, 0, 0xAC, 0x41}); };
    auto alert = [&] { b.push_back(c.next() % 16 ? 'F' : 'T'); };
    auto time = [&] { put(b, 1700000000u + c.next() % 60, 4); };
    if (columns) {
        for (size_t i = 0; i < rooms; i++) temperature();
        for (size_t i = 0; i < rooms; i++) alert();
        for (size_t i = 0; i < rooms; i++) time();
    } else {
        for (size_t i = 0; i < rooms; i++) { temperature(); alert(); time(); }
    }
    return b;
}

// arrays 31 deep, side by side
inline Bytes nested(size_t size)
{
    Bytes b{'['};
    while (b.size() + 64 < size) {
        for (int i = 0; i < 31; i++) b.push_back('[');
        for (int i = 0; i < 31; i++) b.push_back(']');
    }
    b.push_back(']');
    return b;
}

inline std::vector<Message> messages(size_t size)
{
    return {
        {"floor of 40 rooms by rows", floorOf(40, false)},
        {"floor of 40 rooms by columns", floorOf(40, true)},
        {"mixed scalars", scalars(size, false)},
        {"scalars in one order", scalars(size, true)},
        {"scalars of one mark", alike(size)},
        {"small objects", objects(size, false)},
        {"small objects with texts", objects(size, true)},
        {"short texts", shortTexts(size)},
        {"one ASCII text", text(size, true)},
        {"one mixed UTF-8 text", text(size, false)},
        {"packed bytes", packed(size, 'B', 1)},
        {"packed chars", packed(size, 'C', 1)},
        {"packed doubles", packed(size, 'D', 8)},
        {"table by rows", floorOf((size - 64) / 9, false)},
        {"table by columns", floorOf((size - 64) / 9, true)},
        {"deep nesting", nested(size)},
    };
}
