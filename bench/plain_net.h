// What the plain simulators share: runs of GHS as `ghs run` makes them, written for speed: the same graph, seed and wake set,
// and so the same events one after another. With `MEASURED` a run also has its lengths: its longest chain of messages, and
// the bits of its messages.
//
// Heads of nodes and ports have one numbering, a head before the ports of its node, and that is the order of events: the
// waking of a node stands at its head. Each is 32 bytes, and a port holds the first message that waits there; what waits behind
// it are cells of one list, which are used again. A key is its number in key order, so a message takes 8 bytes. Level and phase
// stand in a byte apart, so that a message that waits is told without the head. Which events may happen is a row of bits,
// counted by blocks, so that the event of a number is found at once; while messages are only put back the row stays as it is,
// and the places of the next events are looked up and fetched early. The large arrays are laid on huge pages. Nothing is checked.
#pragma once
#include "plain.h"
#include <cstdlib>
#ifdef __BMI2__
#include <immintrin.h>
#endif
#include <string>
#include <sys/mman.h>

// An array of zeros on huge pages.
template <typename T> static T *lay(size_t count) {
    const size_t page = size_t(1) << 21, size = (count * sizeof(T) + page - 1) / page * page;
    char *at = static_cast<char *>(mmap(nullptr, size + page, PROT_READ | PROT_WRITE, MAP_PRIVATE | MAP_ANONYMOUS, -1, 0));
    if (at == MAP_FAILED) std::exit(4);
    at += (page - uintptr_t(at) % page) % page;
    madvise(at, size, MADV_HUGEPAGE);
    return reinterpret_cast<T *>(at);
}

// The words of Xoshiro256++, begun by SplitMix64.
struct Words {
    uint64_t s[4];

    explicit Words(uint64_t seed) {
        for (uint64_t &word : s) {
            uint64_t z = seed += 0x9e3779b97f4a7c15ull;
            z = (z ^ z >> 30) * 0xbf58476d1ce4e5b9ull;
            z = (z ^ z >> 27) * 0x94d049bb133111ebull;
            word = z ^ z >> 31;
        }
    }

    static uint64_t turn(uint64_t word, int by) { return word << by | word >> (64 - by); }

    uint64_t next() {
        const uint64_t result = turn(s[0] + s[3], 23) + s[0], t = s[1] << 17;
        s[2] ^= s[0], s[3] ^= s[1], s[1] ^= s[2], s[0] ^= s[3];
        s[2] ^= t, s[3] = turn(s[3], 45);
        return result;
    }
};

// A row of flags: bits, and how many are raised in each block of 512, of 8,192, of 131,072 and of 2,097,152.
class Flags {
    size_t count;
    uint64_t *bits;
    uint16_t *few;
    uint32_t *some, *more, *most;

  public:
    uint32_t raised = 0;
    uint32_t changes = 0; // how often a flag was raised or lowered

    explicit Flags(size_t count) : count(count) {
        bits = lay<uint64_t>((count >> 9) * 8 + 8);
        few = lay<uint16_t>((count >> 9) + 16);
        some = lay<uint32_t>((count >> 13) + 16);
        more = lay<uint32_t>((count >> 17) + 16);
        most = lay<uint32_t>((count >> 21) + 1);
    }

    void add(uint32_t place, int by) {
        few[place >> 9] += by, some[place >> 13] += by, more[place >> 17] += by, most[place >> 21] += by;
        raised += by;
        ++changes;
    }

    bool has(uint32_t place) const { return bits[place >> 6] >> (place & 63) & 1; }

    void raise(uint32_t place) {
        bits[place >> 6] |= uint64_t(1) << (place & 63);
        add(place, 1);
    }

    void lower(uint32_t place) {
        bits[place >> 6] &= ~(uint64_t(1) << (place & 63));
        add(place, -1);
    }

    void lower_all() {
        std::fill(bits, bits + (count >> 9) * 8 + 8, 0);
        std::fill(few, few + (count >> 9) + 16, 0);
        std::fill(some, some + (count >> 13) + 16, 0);
        std::fill(more, more + (count >> 17) + 16, 0);
        std::fill(most, most + (count >> 21) + 1, 0);
        raised = 0;
    }

    // The place of the raised flag of this number.
    uint32_t find(uint32_t rank) const {
        size_t at = 0;
        while (rank >= most[at]) rank -= most[at++];
        at <<= 4;
        while (rank >= more[at]) rank -= more[at++];
        at <<= 4;
        while (rank >= some[at]) rank -= some[at++];
        at <<= 4;
        while (rank >= few[at]) rank -= few[at++];
        at <<= 3;
        for (uint32_t count; rank >= (count = __builtin_popcountll(bits[at])); ++at) rank -= count;
        uint64_t word = bits[at];
#ifdef __BMI2__
        word = _pdep_u64(uint64_t(1) << rank, word);
#else
        for (; rank > 0; --rank) word &= word - 1;
#endif
        return uint32_t(at << 6) | __builtin_ctzll(word);
    }
};

enum Kind : uint8_t { CONNECT, INITIATE, TEST, ACCEPT, REJECT, REPORT, CHANGEROOT, KINDS };
enum Phase : uint8_t { SLEEPING, FIND, FOUND };
enum Mark : uint8_t { BASIC, BRANCH, REJECTED };

constexpr uint32_t NONE = UINT32_MAX; // as a key it stands for infinity

// kind 0..2, level 3..7, phase 8..9, the number of its chain 10..31, key 32..63
using Message = uint64_t;

static inline Message message(Kind kind, uint32_t level = 0, uint32_t phase = 0, uint32_t key = NONE) {
    return uint64_t(key) << 32 | phase << 8 | level << 3 | kind;
}

// Ports are named by their places. No port before `basic` is Basic.
struct alignas(32) Head {
    uint32_t find_count, name, in_branch, best, best_key, basic;
    uint32_t owner; // itself, so a place is known as that of a head
    uint32_t probe;
};

struct alignas(32) Port {
    Message first;       // as far as the place is ready
    uint32_t more, last; // the cells of what waits behind it
    uint32_t far, key;
    uint32_t owner;      // the head of its node
    uint32_t node : 30, mark : 2;
};

union Place {
    Head head;
    Port port;
};
static_assert(sizeof(Place) == 32, "size");

struct Cell {
    Message message;
    uint32_t next;
};

// The words of the next events, and while no flag changes the places that they pick.
class Ahead {
    static constexpr uint32_t MOST = 4;
    Words words;
    uint64_t word[MOST + 1];
    uint32_t pick[MOST + 1], at = 0, known = 0, still = 0;

  public:
    explicit Ahead(uint64_t seed) : words(seed) {
        for (uint64_t &it : word) it = words.next();
    }

    // The place that the next word picks.
    uint32_t next(const Flags &ready) {
        const uint32_t place = known > 0 ? pick[at] : ready.find(word[at] % ready.raised);
        word[at] = words.next();
        at = at == MOST ? 0 : at + 1;
        if (known > 0) --known;
        return place;
    }

    void forget() { known = still = 0; }

    // After some events without a change, two more places are looked up and fetched.
    void look(const Flags &ready, const Place *place) {
        if (++still < 3) return;
        for (uint32_t count = 0; count < 2 && known < MOST; ++count, ++known) {
            const uint32_t k = (at + known) % (MOST + 1);
            pick[k] = ready.find(word[k] % ready.raised);
            __builtin_prefetch(&place[pick[k]]);
        }
    }
};

// How long a run is, in messages and in bits.
struct Lengths {
    uint64_t chain = 0, bits = 0;
    uint32_t longest = 0;
};

static uint32_t width(uint32_t number) { return number == 0 ? 1 : 32 - __builtin_clz(number); }
static uint32_t top_level(uint32_t nodes) { return width(nodes) - 1; }

template <bool MEASURED> class Net {
    const Graph &graph;
    size_t places;
    Place *blank = nullptr; // as at the opening
    Place *place;
    uint8_t *states; // of each node its level, and its phase above five bits
    Flags ready;
    std::vector<Cell> cells;
    uint32_t unused = NONE; // the first of the cells that are used no more
    std::vector<uint32_t> starts, root;
    std::vector<bool> ended;
    uint32_t running = 0, components = 0; // components of which no node has halted, and all
    std::vector<uint32_t> chains; // by the numbers of nodes
    uint32_t bits_of[KINDS] = {}, key_bits = 0, now = 0; // now: the chain of the node that sends

  public:
    const bool first; // whether only the first node of each component wakes by itself
    uint64_t sent[KINDS] = {}, events = 0, requeued = 0, queued = 0;
    Lengths lengths;
    std::vector<uint32_t> *trace = nullptr;

  private:
    Head &head(uint32_t at) { return place[at].head; }
    Port &port(uint32_t at) { return place[at].port; }
    bool is_port_of(uint32_t at, uint32_t owner) { return port(at).owner == owner && at != owner; }

    void append(uint32_t to, Message message) {
        Port &p = port(to);
        if (!ready.has(to)) {
            p.first = message;
            ready.raise(to);
            return;
        }
        uint32_t cell = unused;
        if (cell != NONE) unused = cells[cell].next;
        else cell = cells.size(), cells.push_back({0, 0});
        cells[cell] = {message, NONE};
        if (p.more == NONE) p.more = cell;
        else cells[p.last].next = cell;
        p.last = cell;
    }

    void send(uint32_t from, Message message) {
        const Kind kind = Kind(message & 7);
        ++sent[kind];
        if (MEASURED) {
            const uint32_t length = bits_of[kind] + (kind == REPORT && message >> 32 != NONE ? key_bits : 0);
            lengths.bits += length;
            lengths.longest = std::max(lengths.longest, length);
            message = (message & ~uint64_t(0xfffffc00)) | uint64_t(now + 1) << 10;
        }
        append(port(from).far, message);
    }

    void consume(uint32_t at) {
        Port &p = port(at);
        const uint32_t cell = p.more;
        if (cell == NONE) return ready.lower(at);
        p.first = cells[cell].message;
        p.more = cells[cell].next;
        cells[cell].next = unused;
        unused = cell;
    }

    void put_back(uint32_t at) {
        ++requeued;
        Port &p = port(at);
        const uint32_t cell = p.more;
        if (cell == NONE) return;
        const Message message = p.first;
        p.first = cells[cell].message;
        cells[cell].message = message;
        if (cell == p.last) return; // two messages change places
        p.more = cells[cell].next;
        cells[cell].next = NONE;
        cells[p.last].next = cell;
        p.last = cell;
    }

    uint32_t level(uint32_t v) const { return states[v] & 31u; }
    uint32_t phase(uint32_t v) const { return states[v] >> 5; }
    void set(uint32_t v, uint32_t level, uint32_t phase) { states[v] = level | phase << 5; }

    void halt(uint32_t v) {
        if (!ended[root[v]]) ended[root[v]] = true, --running;
    }

    void wake(uint32_t n, uint32_t v) {
        if (ready.has(n)) ready.lower(n);
        set(v, 0, FOUND);
        if (!is_port_of(n + 1, n)) return halt(v);
        port(n + 1).mark = BRANCH;
        send(n + 1, message(CONNECT));
    }

    void report(Head &h, uint32_t v) {
        if (h.find_count != 0 || h.probe != NONE) return;
        set(v, level(v), FOUND);
        send(h.in_branch, message(REPORT, 0, 0, h.best_key));
    }

    void test(Head &h, uint32_t n, uint32_t v) {
        uint32_t at = h.basic;
        while (is_port_of(at, n) && port(at).mark != BASIC) ++at;
        h.basic = at;
        if (is_port_of(at, n)) {
            h.probe = at;
            send(at, message(TEST, level(v), 0, h.name));
        } else {
            h.probe = NONE;
            report(h, v);
        }
    }

    void change_root(Head &h, uint32_t v) {
        if (port(h.best).mark == BRANCH) return send(h.best, message(CHANGEROOT));
        port(h.best).mark = BRANCH;
        send(h.best, message(CONNECT, level(v)));
    }

    void hear(Head &h, uint32_t v, uint32_t at, uint32_t key) {
        if (key < h.best_key) h.best = at, h.best_key = key;
        report(h, v);
    }

    // Whether the message at a port is consumed; otherwise it goes to the end of its queue.
    bool take(uint32_t at, Message m) {
        Port &p = port(at);
        const uint32_t n = p.owner, v = p.node;
        Head &h = head(n);
        const uint32_t of = uint32_t(m) >> 3 & 31, key = m >> 32;
        switch (Kind(m & 7)) {
        case CONNECT:
            if (phase(v) == SLEEPING) wake(n, v);
            if (of < level(v)) {
                p.mark = BRANCH;
                if (phase(v) == FIND) ++h.find_count;
                send(at, message(INITIATE, level(v), phase(v), h.name));
            } else if (p.mark == BASIC) {
                return false;
            } else {
                send(at, message(INITIATE, level(v) + 1, FIND, p.key));
            }
            return true;
        case INITIATE: {
            const uint32_t then = uint32_t(m) >> 8 & 3;
            set(v, of, then);
            h.name = key;
            h.in_branch = at;
            h.best = h.best_key = NONE;
            for (uint32_t other = n + 1; is_port_of(other, n); ++other) {
                if (other == at || port(other).mark != BRANCH) continue;
                send(other, message(INITIATE, of, then, key));
                if (then == FIND) ++h.find_count;
            }
            if (then == FIND) test(h, n, v);
            return true;
        }
        case TEST:
            if (phase(v) == SLEEPING) wake(n, v);
            if (of > level(v)) return false;
            if (key != h.name) {
                send(at, message(ACCEPT));
            } else {
                if (p.mark == BASIC) p.mark = REJECTED;
                if (h.probe == at) test(h, n, v);
                else send(at, message(REJECT));
            }
            return true;
        case ACCEPT:
            h.probe = NONE;
            hear(h, v, at, p.key);
            return true;
        case REJECT:
            if (p.mark == BASIC) p.mark = REJECTED;
            test(h, n, v);
            return true;
        case REPORT:
            if (at != h.in_branch) {
                --h.find_count;
                hear(h, v, at, key);
                return true;
            }
            if (phase(v) == FIND) return false;
            if (key > h.best_key) change_root(h, v);
            else if (key == NONE && h.best_key == NONE) halt(v);
            return true;
        default:
            change_root(h, v);
            return true;
        }
    }

    // Whether a node that is awake would only put the message back.
    bool waits(const Port &p, Message m) const {
        const uint32_t of = uint32_t(m) >> 3 & 31;
        switch (Kind(m & 7)) {
        case CONNECT: return of >= level(p.node) && p.mark == BASIC;
        case TEST: return of > level(p.node);
        case REPORT: return place[p.owner].head.in_branch == &p - &place->port && phase(p.node) == FIND;
        default: return false;
        }
    }

    // The first message that waits at a port is taken. A node hears of a message that it consumes, or that wakes it.
    void deliver(uint32_t at) {
        const Message first = port(at).first;
        if (MEASURED) {
            const Port &p = port(at);
            const bool asleep = phase(p.node) == SLEEPING;
            if (!asleep && waits(p, first)) return put_back(at);
            uint32_t &chain = chains[p.node];
            now = chain = std::max(chain, uint32_t(first) >> 10);
        }
        if (take(at, first)) consume(at);
        else put_back(at);
    }

    uint32_t node_of(uint32_t n) { // of a head
        if (is_port_of(n + 1, n)) return port(n + 1).node;
        return std::upper_bound(starts.begin() + 1, starts.end() - 1, n) - starts.begin() - 1;
    }

    bool may_wake(uint32_t v) const { return !first || root[v] == v; }

    void find_roots() {
        root.resize(graph.nodes + 1);
        for (uint32_t v = 0; v <= graph.nodes; ++v) root[v] = v;
        for (const Key key : graph.keys) {
            const uint32_t a = ::find(root, low_of(key)), b = ::find(root, high_of(key));
            root[std::max(a, b)] = std::min(a, b);
        }
        for (uint32_t v = 1; v <= graph.nodes; ++v) components += (root[v] = ::find(root, v)) == v;
    }

    void measure_words() {
        uint32_t heaviest = 0;
        for (const Key key : graph.keys) heaviest = std::max(heaviest, weight_of(key));
        const uint32_t level = width(top_level(graph.nodes));
        key_bits = 2 * width(graph.nodes) + width(graph.keys.empty() ? 1 : heaviest);
        const uint32_t lengths[] = {3 + level, 3 + level + key_bits + 1, 3 + level + key_bits, 3, 3, 3 + 1, 3};
        std::copy(lengths, lengths + KINDS, bits_of);
    }

  public:
    // Keys have to be sorted, and each to stand once. `again`: more than one run is to be played.
    Net(const Graph &graph, bool first, bool again)
        : graph(graph), places(graph.nodes + 2 * graph.keys.size()), place(lay<Place>(places + 1)), states(lay<uint8_t>(graph.nodes + 1)),
          ready(places + 1), starts(graph.nodes + 2), first(first) {
        for (const Key key : graph.keys) ++starts[low_of(key)], ++starts[high_of(key)];
        uint32_t at = 0;
        for (uint32_t v = 1; v <= graph.nodes + 1; ++v) {
            const uint32_t degree = starts[v];
            starts[v] = at;
            head(at) = Head{0, NONE, NONE, NONE, NONE, at + 1, at, NONE};
            at += degree + 1;
        }
        std::vector<uint32_t> next(starts);
        for (uint32_t k = 0; k < graph.keys.size(); ++k) {
            const uint32_t a = low_of(graph.keys[k]), b = high_of(graph.keys[k]);
            const uint32_t x = ++next[a], y = ++next[b];
            port(x) = Port{0, NONE, NONE, y, k, starts[a], a, BASIC};
            port(y) = Port{0, NONE, NONE, x, k, starts[b], b, BASIC};
        }
        find_roots();
        if (MEASURED) measure_words();
        if (again) {
            blank = lay<Place>(places + 1);
            std::memcpy(static_cast<void *>(blank), place, (places + 1) * sizeof(Place));
        }
    }

    // Plays the run of a seed from the opening on.
    void run(uint64_t seed) {
        open();
        Ahead ahead(seed);
        while (running > 0) {
            const uint32_t at = ahead.next(ready);
            if (trace != nullptr) trace->push_back(at);
            ++events;
            const uint32_t changes = ready.changes;
            if (port(at).owner == at) {
                const uint32_t v = node_of(at);
                if (MEASURED) now = chains[v];
                wake(at, v);
            } else {
                deliver(at);
            }
            if (ready.changes != changes) ahead.forget();
            else ahead.look(ready, place);
        }
        finish();
    }

    uint64_t all_sent() const {
        uint64_t all = 0;
        for (const uint64_t count : sent) all += count;
        return all;
    }

    uint64_t bound() const { return 2 * uint64_t(graph.keys.size()) + 5 * uint64_t(graph.nodes) * top_level(graph.nodes); }

    std::vector<bool> branches() const {
        std::vector<bool> are(graph.keys.size());
        for (size_t at = 0; at < places; ++at) {
            const Port &p = place[at].port;
            if (p.owner != at && p.mark == BRANCH) are[p.key] = true;
        }
        return are;
    }

    std::string trace_text() {
        std::string text(trace->size() * 25 + 32, '\0'); // an event's line has 22 bytes at most
        char *to = stpcpy(&text[0], "trace ");
        to = put(to, trace->size()), *to++ = '\n';
        for (const uint32_t at : *trace) {
            const uint32_t n = port(at).owner;
            to = stpcpy(to, n == at ? "wake " : "take ");
            to = put(to, n == at ? node_of(at) : port(at).node);
            if (n != at) *to++ = ' ', to = put(to, at - n - 1);
            *to++ = '\n';
        }
        text.resize(to - text.data());
        return text;
    }

  private:
    // All is as it was at first.
    void open() {
        if (blank != nullptr) {
            std::memcpy(static_cast<void *>(place), blank, (places + 1) * sizeof(Place));
            std::memset(states, 0, graph.nodes + 1);
            ready.lower_all();
            cells.clear(), unused = NONE;
            std::fill(sent, sent + KINDS, 0);
            events = requeued = 0;
        }
        if (MEASURED) chains.assign(graph.nodes + 1, 0), lengths = {};
        ended.assign(graph.nodes + 1, false);
        running = components;
        for (uint32_t v = 1; v <= graph.nodes; ++v) {
            if (may_wake(v)) ready.raise(starts[v]);
        }
    }

    void finish() {
        queued = 0;
        if (!MEASURED) return;
        for (size_t at = 0; at < places; ++at) queued += port(at).owner != at && ready.has(at);
        queued += cells.size();
        for (uint32_t cell = unused; cell != NONE; cell = cells[cell].next) --queued;
        for (const uint32_t chain : chains) lengths.chain = std::max<uint64_t>(lengths.chain, chain);
    }
};
