// GHS by the procedures of docs/PROTOCOL.md; and a variant in which a node tests all its Basic ports at once, where GHS
// tests one after another in key order.
#pragma once
#include "peers_protocol.h"

class Ghs : public Protocol {
    enum Kind : uint8_t { CONNECT, INITIATE, TEST, ACCEPT, REJECT, REPORT, CHANGEROOT };
    enum Mark : uint8_t { BASIC, BRANCH, REJECTED };
    enum Phase : uint8_t { SLEEPING, FIND, FOUND };
    static const uint32_t NO_PORT = UINT32_MAX;

    struct State {
        Phase phase = SLEEPING;
        uint8_t level = 0;
        Place name = NO_LINK, best_key = NO_LINK;
        uint32_t in_branch = NO_PORT, best = NO_PORT, probe = NO_PORT;
        uint32_t find_count = 0;
        uint32_t unanswered = 0; // all at once: how many Tests aren't answered yet
        uint32_t least_basic = 0; // no port before it is Basic, as marks never become Basic again
        std::vector<uint8_t> marks, tested;
    };
    std::vector<State> states;
    const bool all_at_once;

  public:
    Ghs(const Graph &network, bool at_once)
        : Protocol(network, network.components()), states(network.nodes + 1), all_at_once(at_once) {
        for (Node node = 1; node <= network.nodes; ++node) {
            states[node].marks.assign(network.degree(node), BASIC);
            if (at_once) states[node].tested.assign(network.degree(node), false);
        }
    }

    const std::vector<const char *> &kinds() const override {
        static const std::vector<const char *> names = {"connect", "initiate", "test", "accept", "reject", "report", "changeroot"};
        return names;
    }

    // Three bits for the kind; one for the phase of an Initiate, and one for whether a Report has a key.
    uint64_t bits(const Message &message) const override {
        switch (message.kind) {
        case CONNECT: return 3 + graph.level_bits;
        case INITIATE: return 3 + graph.level_bits + graph.key_bits + 1;
        case TEST: return 3 + graph.level_bits + graph.key_bits;
        case REPORT: return 3 + 1 + (message.key == NO_LINK ? 0 : graph.key_bits);
        default: return 3;
        }
    }

    bool asleep(Node node) const override { return states[node].phase == SLEEPING; }
    bool branch(Node node, uint32_t port) const override { return states[node].marks[port] == BRANCH; }

    void wake(Outbox &out, Node node) override {
        State &state = states[node];
        state.phase = FOUND;
        if (state.marks.empty()) return halt_component(node);
        state.marks[0] = BRANCH;
        send(out, node, 0, CONNECT, 0);
    }

    // Whether a node that is awake would only put the message back.
    bool waits(Node node, uint32_t port, const Message &message) const {
        const State &state = states[node];
        switch (message.kind) {
        case CONNECT: return message.level >= state.level && state.marks[port] == BASIC;
        case TEST: return message.level > state.level;
        case REPORT: return port == state.in_branch && state.phase == FIND;
        default: return false;
        }
    }

    bool take(Outbox &out, Node node, uint32_t port, const Message &message) override {
        State &state = states[node];
        if (state.phase == SLEEPING) wake(out, node);
        if (waits(node, port, message)) return false;
        switch (message.kind) {
        case CONNECT:
            if (message.level < state.level) {
                state.marks[port] = BRANCH;
                if (state.phase == FIND) ++state.find_count;
                send(out, node, port, INITIATE, state.level, state.name, state.phase == FIND);
                return true;
            }
            send(out, node, port, INITIATE, state.level + 1, graph.ports[node][port].link, true);
            return true;
        case INITIATE: initiate(out, node, port, message); return true;
        case TEST:
            if (message.key != state.name) send(out, node, port, ACCEPT);
            else same_fragment(out, node, port);
            return true;
        case ACCEPT:
            answered(state, port);
            hear(state, port, graph.ports[node][port].link);
            report(out, node);
            return true;
        case REJECT:
            if (state.marks[port] == BASIC) state.marks[port] = REJECTED;
            answered(state, port);
            go_on(out, node);
            return true;
        case REPORT:
            if (port != state.in_branch) {
                --state.find_count;
                hear(state, port, message.key);
                report(out, node);
                return true;
            }
            if (message.key > state.best_key) change_root(out, node);
            else if (message.key == NO_LINK && state.best_key == NO_LINK) halt_component(node);
            return true;
        default: change_root(out, node); return true;
        }
    }

  private:
    void send(Outbox &out, Node node, uint32_t port, Kind kind, uint8_t level = 0, Place key = NO_LINK, bool find = false) {
        Message message;
        message.kind = kind, message.level = level, message.key = key, message.find = find;
        out.send(node, port, message);
    }

    static void hear(State &state, uint32_t port, Place key) {
        if (key < state.best_key) state.best = port, state.best_key = key;
    }

    void initiate(Outbox &out, Node node, uint32_t from, const Message &message) {
        State &state = states[node];
        state.level = message.level, state.name = message.key, state.phase = message.find ? FIND : FOUND;
        state.in_branch = from, state.best = NO_PORT, state.best_key = NO_LINK;
        for (uint32_t port = 0; port < state.marks.size(); ++port)
            if (port != from && state.marks[port] == BRANCH) {
                send(out, node, port, INITIATE, state.level, state.name, message.find);
                if (message.find) ++state.find_count;
            }
        if (!message.find) return;
        if (all_at_once)
            for (uint32_t port = 0; port < state.marks.size(); ++port)
                if (state.marks[port] == BASIC) {
                    state.tested[port] = true, ++state.unanswered;
                    send(out, node, port, TEST, state.level, state.name);
                }
        go_on(out, node);
    }

    // A Test from the node's own fragment. Where the node has tested the same port, the two Tests answer one another.
    void same_fragment(Outbox &out, Node node, uint32_t port) {
        State &state = states[node];
        if (state.marks[port] == BASIC) state.marks[port] = REJECTED;
        const bool crosses = all_at_once ? state.tested[port] : state.probe == port;
        if (!crosses) return send(out, node, port, REJECT);
        answered(state, port);
        go_on(out, node);
    }

    void answered(State &state, uint32_t port) {
        state.probe = NO_PORT;
        if (all_at_once) state.tested[port] = false, --state.unanswered;
    }

    // The next Test, one at a time; or what there is to report.
    void go_on(Outbox &out, Node node) {
        State &state = states[node];
        if (!all_at_once) {
            uint32_t &port = state.least_basic;
            while (port < state.marks.size() && state.marks[port] != BASIC) ++port;
            if (port < state.marks.size()) {
                state.probe = port;
                return send(out, node, port, TEST, state.level, state.name);
            }
        }
        report(out, node);
    }

    void report(Outbox &out, Node node) {
        State &state = states[node];
        if (state.phase != FIND || state.find_count > 0 || state.probe != NO_PORT || state.unanswered > 0) return;
        state.phase = FOUND;
        send(out, node, state.in_branch, REPORT, 0, state.best_key);
    }

    void change_root(Outbox &out, Node node) {
        State &state = states[node];
        if (state.best == NO_PORT) fail("ghs: a root is to move, and there is no best link");
        if (state.marks[state.best] == BRANCH) return send(out, node, state.best, CHANGEROOT);
        state.marks[state.best] = BRANCH;
        send(out, node, state.best, CONNECT, state.level);
    }
};
