// A node of GHS by the procedures of docs/PROTOCOL.md, with one rule of them, or one assumption of the network, switched off.
// Nothing here is proved, and with a rule off it is NOT the algorithm.
#pragma once
#include <algorithm>
#include <cstdint>
#include <cstdio>
#include <cstdlib>
#include <string>
#include <vector>

[[noreturn]] inline void fail(const std::string &text) {
    std::fprintf(stderr, "why: %s\n", text.c_str());
    std::exit(2);
}

// What may be switched off; bench/why.rules says in words what each does.
#define SWITCHES(X) \
    X(none) X(test_no_wait) X(sleeper_answers) X(sleeper_answers_asleep) X(sleeper_waits) X(absorb_equal_basic) X(absorb_equal) \
    X(merge_basic) X(connect_above) X(absorb_uncounted) X(absorb_tells_found) X(absorb_tells_find) X(absorb_raises) X(absorb_as_merge) \
    X(absorb_no_mark) X(no_absorb) X(absorb_waits_find) X(no_merge) X(one_side) X(no_raise) X(old_name) X(name_by_end) X(report_no_wait) \
    X(report_early) X(report_early_once) X(report_probe) X(stay_find) X(report_always) X(accept_always) X(accept_keeps_probe) \
    X(reject_forgotten) X(test_not_marked) X(test_rejected_unmarked) X(forget_at_initiate) X(mark_any_reject) X(mark_any_test) \
    X(cross_reject) X(cross_both) X(cross_ignore) X(best_kept) X(in_branch_kept) X(search_not_forwarded) X(rest_not_forwarded) \
    X(reset_find_count) X(reset_probe) X(test_greatest) X(test_any) X(test_branch_too) X(test_waits_below) X(test_by_level) X(no_test) \
    X(wake_greatest) X(wake_no_mark) X(root_not_forwarded) X(move_no_mark) X(both_move) X(connect_zero) X(halt_other) X(halt_own) \
    X(never_halt) X(halted_deaf) X(ties_compared) X(ties_named) X(ties_local) X(overtake) X(overtake_rest) X(lose) X(twice) \
    X(defer_front) X(defer_drop)
#define X(name) name,
enum Switch { SWITCHES(X) SWITCH_COUNT };
#undef X
#define X(name) #name,
static const char *const SWITCH_NAMES[] = {SWITCHES(X)};
#undef X

enum Kind { Connect, Initiate, Test, Accept, Reject, Report, ChangeRoot, KINDS };
static const char *const KIND_NAMES[] = {"connect", "initiate", "test", "accept", "reject", "report", "changeroot"};
enum Phase { Sleeping, Found, Find };
static const char *const PHASE_NAMES[] = {"sleeping", "found", "find"};
enum Mark { Basic, Branch, Rejected };
static const char *const MARK_NAMES[] = {"basic", "branch", "rejected"};

// A switch, and the kinds of message that it is about where it is about some alone: the overtaken and the overtaking one.
struct Rules {
    Switch off = none;
    int kind = -1, second = -1;
};

const int MOST_NODES = 10, MOST_LINKS = 14, MOST_PORTS = 2 * MOST_LINKS, ROOM = 12, TOP_LEVEL = 14;
const int8_t NO = -1;
// the name that the larger end gives, where the two halves get other names
const int8_t OTHER_END = 16;

// A network. Links stand in key order, and a link goes by its place there. A slot is a node's port.
struct Link {
    int weight, low, high;
};

struct Network {
    int nodes = 0, levels = 0, bound = 0;
    bool ties = false;
    std::vector<Link> links;
    std::vector<int> first, degree;                // of each node
    std::vector<int8_t> owner, port, far, link_at; // of each slot

    Network(int count, std::vector<Link> list) : nodes(count), links(std::move(list)), first(count), degree(count) {
        if (nodes > MOST_NODES || links.size() > MOST_LINKS) fail("the network is too large");
        std::vector<int> slot_of(2 * links.size());
        for (int v = 0; v < nodes; ++v) {
            first[v] = int(owner.size());
            for (size_t i = 0; i < links.size(); ++i)
                if (links[i].low == v || links[i].high == v) {
                    slot_of[2 * i + (links[i].high == v)] = int(owner.size());
                    owner.push_back(int8_t(v));
                    port.push_back(int8_t(degree[v]++));
                    link_at.push_back(int8_t(i));
                }
        }
        for (size_t s = 0; s < owner.size(); ++s) {
            const int i = link_at[s];
            far.push_back(int8_t(slot_of[2 * i + (links[i].low == owner[s])]));
        }
        while (2 << levels <= nodes) ++levels;
        bound = 2 * int(links.size()) + 5 * nodes * levels;
        for (size_t i = 1; i < links.size(); ++i) ties |= links[i].weight == links[i - 1].weight;
    }
    size_t slots() const { return owner.size(); }
};

// A message in 16 bits: kind, level, the link whose key it carries, phase.
struct Message {
    int kind = 0, level = 0, key = NO, phase = 0;
    uint16_t packed() const { return uint16_t(kind | level << 3 | (key + 1) << 7 | phase << 13); }
    static Message of(uint16_t bits) { return {bits & 7, bits >> 3 & 15, (bits >> 7 & 63) - 1, bits >> 13 & 3}; }
};

struct NodeState {
    int8_t level = 0, phase = Sleeping, find_count = 0, name = NO, in_branch = NO, best_port = NO, best_key = NO, probe = NO, halted = 0;
};

// What a node does with its work.
struct Answer {
    bool waits = false, no_rule = false;
    const char *row = "";
    int choices = 1; // how many ways the rule leaves open
    int count = 0;
    struct Send {
        int port;
        uint16_t message;
    } sends[2 * MOST_LINKS];
};

// A node at its work. Its methods are the procedures; `answer.no_rule` is set where the table leaves the work out.
class Procedures {
    const Network &net;
    const Rules &rules;
    const int v, choice;
    NodeState &s;
    uint8_t *marks;

  public:
    Answer answer;

    Procedures(const Network &network, const Rules &changed, int node, NodeState &state, uint8_t *its_marks, int which)
        : net(network), rules(changed), v(node), choice(which), s(state), marks(its_marks) {}

    void wake() {
        answer.row = net.degree[v] ? "Wakes" : "Wakes_alone";
        wakeup();
    }

    void take(int j, const Message &m) {
        if (off(halted_deaf) && s.halted) {
            answer.row = "(deaf)";
            return;
        }
        const bool slept = s.phase == Sleeping;
        if (slept) {
            if (m.kind != Connect && m.kind != Test) return no_rule("Still_asleep");
            if (off(sleeper_waits)) return wait("(sleeps)");
            if (off(sleeper_answers_asleep) && m.kind == Test) {
                answer.row = "(accepts_asleep)";
                return send(j, {Accept});
            }
            wakeup();
        }
        switch (m.kind) {
        case Connect: return connect(j, m.level, slept);
        case Initiate: return initiate(j, m);
        case Test: return test(j, m, slept);
        case Accept: return accept(j);
        case Reject: return reject(j);
        case Report: return report(j, m.key);
        default: answer.row = "Root_moves"; return change_root();
        }
    }

  private:
    bool off(Switch which) const { return rules.off == which; }
    int link(int j) const { return net.link_at[net.first[v] + j]; }
    int weight(int key) const { return net.links[key].weight; }

    bool below(int a, int b) const {
        if (a == NO || b == NO) return a != NO && b == NO;
        return off(ties_compared) ? weight(a) < weight(b) : a < b;
    }
    bool same_name(int a, int b) const { return a == b || (off(ties_named) && a != NO && b != NO && weight(a) == weight(b)); }

    void send(int port, const Message &m) { answer.sends[answer.count++] = {port, m.packed()}; }
    void wait(const char *row) {
        answer.row = row;
        answer.waits = true;
    }
    void no_rule(const char *entry) {
        answer.row = entry;
        answer.no_rule = true;
    }

    // The port to ask next, or NO. Where the rule leaves it open, `choice` picks.
    int basic_port() {
        int found[MOST_LINKS], count = 0;
        for (int i = 0; i < net.degree[v]; ++i)
            if (marks[i] == Basic || (off(test_branch_too) && marks[i] == Branch && i != s.in_branch)) found[count++] = i;
        if (!count) return NO;
        if (off(test_greatest)) return found[count - 1];
        int open = off(test_any) ? count : 1;
        while (off(ties_local) && open < count && weight(link(found[open])) == weight(link(found[0]))) ++open;
        answer.choices = std::max(answer.choices, open);
        return found[std::min(choice, open - 1)];
    }

    void wakeup() {
        s.phase = Found;
        if (!net.degree[v]) {
            s.halted = 1;
            return;
        }
        const int p = off(wake_greatest) ? net.degree[v] - 1 : off(ties_local) ? basic_port() : 0;
        if (!off(wake_no_mark)) marks[p] = Branch;
        send(p, {Connect, 0});
    }

    void search() {
        const int p = basic_port();
        s.probe = int8_t(p);
        if (p != NO && !off(no_test)) return send(p, {Test, s.level, s.name});
        if (p != NO) {
            s.probe = NO;
            better(p, link(p), false);
        }
        report_up();
    }

    void better(int port, int key, bool always) {
        if (!below(key, s.best_port == NO ? NO : s.best_key) && !always) return;
        s.best_port = int8_t(port);
        s.best_key = int8_t(key);
    }

    void report_up() {
        const bool once = off(report_early_once) || off(report_probe);
        if (once && s.phase != Find) return;
        if (s.find_count != 0 && !off(report_early) && !off(report_early_once)) return;
        if (s.probe != NO && !off(report_probe)) return;
        if (s.in_branch == NO) return no_rule("Report_nowhere");
        if (!off(stay_find)) s.phase = Found;
        send(s.in_branch, {Report, 0, s.best_port == NO ? NO : s.best_key});
    }

    void change_root() {
        if (s.best_port == NO) return no_rule("Root_without_best");
        if (marks[s.best_port] == Branch) {
            if (!off(root_not_forwarded)) send(s.best_port, {ChangeRoot});
            return;
        }
        send(s.best_port, {Connect, off(connect_zero) ? 0 : s.level});
        if (!off(move_no_mark)) marks[s.best_port] = Branch;
    }

    void connect(int j, int level, bool slept) {
        if (off(connect_above) && level > s.level) return no_rule("Connect_above");
        const bool equal = level == s.level && (off(absorb_equal) || (off(absorb_equal_basic) && marks[j] == Basic));
        if (level < s.level || equal) return absorb(j);
        if (marks[j] == Basic && !off(merge_basic)) return wait(slept ? "Woken_connect_waits" : "Connect_waits");
        if (off(no_merge)) return wait("(no_merge)");
        if (s.level >= TOP_LEVEL) return no_rule("Merge_above_levels");
        if (off(merge_basic)) marks[j] = Branch;
        answer.row = slept ? "Woken_merges" : "Connect_merges";
        const bool low_end = net.links[link(j)].low == v;
        if (off(one_side) && low_end) return;
        const int name = off(old_name) ? s.name : off(name_by_end) && !low_end ? link(j) + OTHER_END : link(j);
        send(j, {Initiate, off(no_raise) ? s.level : s.level + 1, name, Find});
    }

    void absorb(int j) {
        if (off(no_absorb) || (off(absorb_waits_find) && s.phase == Find)) return wait("(waits_below)");
        answer.row = "Connect_absorbed";
        if (!off(absorb_no_mark)) marks[j] = Branch;
        if (off(absorb_as_merge)) return send(j, {Initiate, s.level + 1, link(j), Find});
        const int phase = off(absorb_tells_found) ? int(Found) : off(absorb_tells_find) ? int(Find) : s.phase;
        send(j, {Initiate, off(absorb_raises) ? s.level + 1 : s.level, s.name, phase});
        if (s.phase == Find && !off(absorb_uncounted) && !off(absorb_tells_found)) ++s.find_count;
        if (s.find_count > net.degree[v]) no_rule("Absorbs_too_many");
    }

    void initiate(int j, const Message &m) {
        if (m.level <= s.level) return no_rule("Initiate_too_low");
        s.level = int8_t(m.level);
        s.name = int8_t(m.key);
        s.phase = int8_t(m.phase);
        if (!off(in_branch_kept) || s.in_branch == NO) s.in_branch = int8_t(j);
        if (!off(best_kept)) s.best_port = s.best_key = NO;
        if (off(reset_find_count)) s.find_count = 0;
        if (off(reset_probe)) s.probe = NO;
        const bool searches = m.phase == Find;
        if (off(forget_at_initiate) && searches) std::replace(marks, marks + net.degree[v], uint8_t(Rejected), uint8_t(Basic));
        for (int i = 0; i < net.degree[v]; ++i) {
            if (i == j || marks[i] != Branch || (searches ? off(search_not_forwarded) : off(rest_not_forwarded))) continue;
            send(i, m);
            s.find_count = int8_t(s.find_count + searches);
        }
        answer.row = searches ? "Initiate_searches" : "Initiate_rests";
        if (s.find_count > net.degree[v]) return no_rule("Searches_too_many");
        if (searches) search();
    }

    void test(int j, const Message &m, bool slept) {
        if (off(sleeper_answers) && slept) {
            answer.row = "Woken_accepts";
            return send(j, {Accept});
        }
        if (m.level > s.level && !off(test_no_wait)) return wait(slept ? "Woken_test_waits" : "Test_waits");
        if (m.level < s.level && off(test_waits_below)) return wait("(waits_below)");
        if (!same_name(m.key, s.name) || (off(test_by_level) && m.level != s.level)) {
            answer.row = slept ? "Woken_accepts" : "Test_accepted";
            return send(j, {Accept});
        }
        const bool crossing = s.probe == j, unmarked = off(test_not_marked) || (off(test_rejected_unmarked) && !crossing);
        if ((marks[j] == Basic && !unmarked) || off(mark_any_test)) marks[j] = Rejected;
        answer.row = crossing ? "Tests_cross" : "Test_rejected";
        if (!crossing || off(cross_reject) || off(cross_both)) send(j, {Reject});
        if (crossing && !off(cross_reject) && !off(cross_ignore)) search();
    }

    void accept(int j) {
        answer.row = "Accept_heard";
        if (s.probe != j) return no_rule("Accept_untested");
        if (!off(accept_keeps_probe)) s.probe = NO;
        better(j, link(j), off(accept_always));
        report_up();
    }

    void reject(int j) {
        answer.row = "Reject_heard";
        if (s.probe != j) return no_rule("Reject_untested");
        if ((marks[j] == Basic && !off(reject_forgotten)) || off(mark_any_reject)) marks[j] = Rejected;
        search();
    }

    void report(int j, int key) {
        const int best = s.best_port == NO ? NO : s.best_key;
        if (j != s.in_branch) {
            answer.row = "Report_heard";
            if (s.find_count <= 0) return no_rule("Report_unowed");
            --s.find_count;
            better(j, key, off(report_always) && key != NO);
            return report_up();
        }
        if (s.phase == Find && !off(report_no_wait)) return wait("Report_waits");
        const bool early = (off(halt_other) && key == NO) || (off(halt_own) && best == NO);
        if (!early && (below(best, key) || (off(both_move) && best != NO))) {
            answer.row = "Report_moves_root";
            return change_root();
        }
        answer.row = early || (key == NO && best == NO) ? "Report_halts" : "Report_passes";
        if (early || (key == NO && best == NO && !off(never_halt))) s.halted = 1;
    }
};
