// What the plain programs share: a graph's keys read from a text, classes, and numbers put into a text. They trust
// their input: nothing of the format is checked.
#pragma once
#include <algorithm>
#include <cstdint>
#include <cstring>
#include <fcntl.h>
#include <unistd.h>
#include <vector>

using Key = unsigned __int128; // weight, smaller end, larger end

static inline uint32_t weight_of(Key key) { return key >> 64; }
static inline uint32_t low_of(Key key) { return uint64_t(key) >> 32; }
static inline uint32_t high_of(Key key) { return uint64_t(key); }

struct Graph {
    uint32_t nodes = 0;
    std::vector<Key> keys;
};

static uint32_t number(const char *&at) {
    while (uint8_t(*at - '0') > 9) ++at;
    uint32_t value = 0;
    for (uint8_t digit; (digit = *at - '0') <= 9; ++at) value = value * 10 + digit;
    return value;
}

// Takes whole lines, each with its line feed.
static void take(Graph &graph, const char *at, const char *end) {
    while (at < end) {
        if (*at == 'a') {
            const uint32_t u = number(at), v = number(at), weight = number(at);
            if (u != v) graph.keys.push_back(Key(weight) << 64 | uint64_t(std::min(u, v)) << 32 | std::max(u, v));
        } else if (*at == 'p') {
            graph.nodes = number(at);
            graph.keys.reserve(number(at));
        }
        while (*at != '\n') ++at;
        ++at;
    }
}

static bool read_graph(Graph &graph, int file) {
    std::vector<char> room(1 << 17);
    size_t held = 0; // the bytes of a line that is cut
    for (;;) {
        if (room.size() - held < 1 << 16) room.resize(2 * room.size());
        const ssize_t count = read(file, room.data() + held, room.size() - held - 1);
        if (count < 0) return false;
        size_t size = held + count;
        if (count == 0 && size > 0) room[size++] = '\n'; // a last line without a line feed
        const char *start = room.data();
        const void *last = memrchr(start, '\n', size);
        const size_t whole = last ? static_cast<const char *>(last) + 1 - start : 0;
        take(graph, start, start + whole);
        held = size - whole;
        std::memmove(room.data(), start + whole, held);
        if (count == 0) return true;
    }
}

// Sorts keys, digit by digit from the last, and leaves each once.
static inline void sort_keys(std::vector<Key> &keys) {
    static const int digits[] = {0, 11, 32, 43, 64, 75, 86}; // of 11 bits: larger end, smaller end, weight
    std::vector<Key> others(keys.size());
    for (const int digit : digits) {
        std::vector<uint32_t> starts(2049);
        for (const Key key : keys) ++starts[(uint64_t(key >> digit) & 2047) + 1];
        for (int value = 0; value < 2047; ++value) starts[value + 1] += starts[value];
        for (const Key key : keys) others[starts[uint64_t(key >> digit) & 2047]++] = key;
        keys.swap(others);
    }
    keys.erase(std::unique(keys.begin(), keys.end()), keys.end());
}

static uint32_t find(std::vector<uint32_t> &up, uint32_t node) {
    while (up[node] != node) node = up[node] = up[up[node]];
    return node;
}

static char *put(char *to, uint64_t number) {
    char digits[20];
    size_t first = sizeof digits;
    do digits[--first] = '0' + number % 10;
    while (number /= 10);
    std::memcpy(to, digits + first, sizeof digits - first);
    return to + (sizeof digits - first);
}

static inline char *put_link(char *to, Key key) {
    *to++ = 't', *to++ = ' ';
    to = put(to, low_of(key)), *to++ = ' ';
    to = put(to, high_of(key)), *to++ = ' ';
    to = put(to, weight_of(key)), *to++ = '\n';
    return to;
}

static inline bool write_all(const char *from, const char *end) {
    while (from < end) {
        const ssize_t count = write(1, from, end - from);
        if (count <= 0) return false;
        from += count;
    }
    return true;
}
