// Boruvka in step: fragments of one level at a time. A fragment of level L + 1 is what fragments of level L become that
// choose links of one another. Each node tells its neighbours which fragment it is in, and nothing waits.
#pragma once
#include "peers_protocol.h"

class Boruvka : public Protocol {
    enum Kind : uint8_t { CONNECT, INITIATE, NAME, REPORT, CHANGEROOT };
    enum Mark : uint8_t { BASIC, ASKED, BRANCH, INSIDE }; // Asked: as Basic, and the far end's Connect has come
    enum Phase : uint8_t { SLEEPING, SEARCH, REST };
    static const uint32_t NO_PORT = UINT32_MAX;

    struct Heard { // the last that the far end of a port has told: its level, and its fragment's name
        uint8_t level = 0;
        Place name = NO_LINK;
    };
    struct State {
        Phase phase = SLEEPING;
        uint8_t level = 0;
        Place name = NO_LINK, best_key = NO_LINK;
        uint32_t parent = NO_PORT, best = NO_PORT; // a root has no parent
        uint32_t gone_out = NO_PORT;               // where this level's Connect went out
        uint32_t reports = 0;                      // Reports that are owed to it
        uint32_t unheard = 0;                      // Basic ports that haven't told the node's level yet
        std::vector<uint8_t> marks;
        std::vector<Heard> heard;
    };
    std::vector<State> states;

  public:
    explicit Boruvka(const Graph &network) : Protocol(network, network.components()), states(network.nodes + 1) {
        for (Node node = 1; node <= network.nodes; ++node) {
            states[node].marks.assign(network.degree(node), BASIC);
            states[node].heard.resize(network.degree(node));
        }
    }

    const std::vector<const char *> &kinds() const override {
        static const std::vector<const char *> names = {"connect", "initiate", "name", "report", "changeroot"};
        return names;
    }

    uint64_t bits(const Message &message) const override {
        switch (message.kind) {
        case CONNECT: return 3 + graph.level_bits;
        case INITIATE:
        case NAME: return 3 + graph.level_bits + graph.key_bits;
        case REPORT: return 3 + 1 + (message.key == NO_LINK ? 0 : graph.key_bits);
        default: return 3;
        }
    }

    bool asleep(Node node) const override { return states[node].phase == SLEEPING; }
    bool branch(Node node, uint32_t port) const override { return states[node].marks[port] == BRANCH; }

    void wake(Outbox &out, Node node) override {
        states[node].phase = REST;
        if (states[node].marks.empty()) return halt_component(node);
        go_out(out, node, 0);
    }

    bool take(Outbox &out, Node node, uint32_t port, const Message &message) override {
        State &state = states[node];
        if (state.phase == SLEEPING) {
            need(message.kind == CONNECT || message.kind == NAME, "a sleeper is called");
            wake(out, node);
        }
        switch (message.kind) {
        case CONNECT: connect(out, node, port, message.level); break;
        case INITIATE:
            need(message.level == state.level + 1 && state.phase == REST, "an Initiate that is not one level above, or out of rest");
            enter(out, node, message.level, message.key, port);
            break;
        case NAME: told(out, node, port, message); break;
        case REPORT:
            need(state.phase == SEARCH && state.reports > 0, "a Report that is not owed");
            --state.reports;
            if (message.key < state.best_key) state.best = port, state.best_key = message.key;
            close(out, node);
            break;
        default: move(out, node);
        }
        return true;
    }

  private:
    // What has no rule, and is met by no run.
    static void need(bool holds, const char *text) {
        if (!holds) fail(std::string("boruvka has no rule for ") + text);
    }

    void send(Outbox &out, Node node, uint32_t port, Kind kind, uint8_t level = 0, Place key = NO_LINK) {
        Message message;
        message.kind = kind, message.level = level, message.key = key;
        out.send(node, port, message);
    }

    void connect(Outbox &out, Node node, uint32_t port, uint8_t level) {
        State &state = states[node];
        if (level == state.level) {
            need(state.marks[port] == BASIC, "a Connect at a port that isn't Basic");
            state.marks[port] = ASKED;
            if (state.gone_out == port) core(out, node, port);
            return;
        }
        // The far end's fragment has chosen a link of this one, which has been called to the next level meanwhile.
        need(level + 1 == state.level && state.phase == SEARCH && state.marks[port] == BASIC, "a late Connect out of search");
        need(state.heard[port].level < state.level, "a late Connect behind a name of the level");
        state.marks[port] = BRANCH;
        --state.unheard;
        ++state.reports;
        send(out, node, port, INITIATE, state.level, state.name);
    }

    void go_out(Outbox &out, Node node, uint32_t port) {
        State &state = states[node];
        state.gone_out = port;
        send(out, node, port, CONNECT, state.level);
        if (state.marks[port] == ASKED) core(out, node, port);
    }

    // Both ends have gone out over the link. Its lesser end begins; the other one waits to be called.
    void core(Outbox &out, Node node, uint32_t port) {
        const Port &here = graph.ports[node][port];
        if (node < here.far) enter(out, node, states[node].level + 1, here.link, NO_PORT);
    }

    void enter(Outbox &out, Node node, uint8_t level, Place name, uint32_t parent) {
        State &state = states[node];
        state.level = level, state.name = name, state.parent = parent, state.phase = SEARCH;
        state.best = NO_PORT, state.best_key = NO_LINK, state.reports = 0, state.unheard = 0;
        for (uint32_t port = 0; port < state.marks.size(); ++port)
            if (state.marks[port] == ASKED || port == state.gone_out) state.marks[port] = BRANCH;
        state.gone_out = NO_PORT;
        for (uint32_t port = 0; port < state.marks.size(); ++port) {
            if (state.marks[port] == BRANCH && port != parent) {
                send(out, node, port, INITIATE, level, name);
                ++state.reports;
            } else if (state.marks[port] == BASIC) {
                send(out, node, port, NAME, level, name);
                if (state.heard[port].level < level) ++state.unheard;
                else compare(state, port);
            }
        }
        close(out, node);
    }

    static void compare(State &state, uint32_t port) {
        const Heard &heard = state.heard[port];
        if (heard.level == state.level && heard.name == state.name) state.marks[port] = INSIDE;
    }

    void told(Outbox &out, Node node, uint32_t port, const Message &message) {
        State &state = states[node];
        need(message.level == state.heard[port].level + 1, "a name that skips a level");
        state.heard[port] = {message.level, message.key};
        if (state.marks[port] != BASIC && state.marks[port] != ASKED) return;
        need(message.level <= state.level + 1, "a name two levels above");
        if (message.level != state.level || state.phase != SEARCH) return;
        --state.unheard;
        compare(state, port);
        close(out, node);
    }

    // A search ends where no Report is owed and each Basic port has told the node's level or one above.
    void close(Outbox &out, Node node) {
        State &state = states[node];
        if (state.phase != SEARCH || state.reports > 0 || state.unheard > 0) return;
        uint32_t own = 0;
        while (own < state.marks.size() && state.marks[own] != BASIC && state.marks[own] != ASKED) ++own;
        if (own < state.marks.size() && graph.ports[node][own].link < state.best_key)
            state.best = own, state.best_key = graph.ports[node][own].link;
        state.phase = REST;
        if (state.parent != NO_PORT) send(out, node, state.parent, REPORT, 0, state.best_key);
        else if (state.best == NO_PORT) halt_component(node);
        else move(out, node);
    }

    void move(Outbox &out, Node node) {
        State &state = states[node];
        need(state.best != NO_PORT, "a move without a best link");
        if (state.marks[state.best] == BRANCH) send(out, node, state.best, CHANGEROOT);
        else go_out(out, node, state.best);
    }
};
