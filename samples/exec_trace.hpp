// Records a run of a runtime for `exec_run check`: docs/TRACES.md says which call is which entry.
#pragma once
#include <mutex>
#include <ostream>
#include <string>
#include <utility>
#include <vector>

namespace exec_trace {
// A node of an operation's tree: its parent, a greater number, or -1 for the root, the last node;
// and what it is to requests: "source", "unstoppable" or "plain".
struct node {
    int parent = -1;
    std::string flag = "plain";
};

// A node of the operation in a block. A stop source is that of a node, or the scope's.
struct place {
    int block, node;
};
inline constexpr place scope{-1, -1};

inline std::string text(place at) {
    return at.block < 0 ? "scope" : std::to_string(at.block) + "." + std::to_string(at.node);
}

// The entries so far. A step and its entry are made under one lock, and so stand in one order.
struct recorder {
    recorder(std::vector<node> tree, int blocks, int hands)
        : tree(std::move(tree)), open(blocks), hands(hands) {}

    // Makes a step and writes its entry, as in step(1, "finish 0.0", [&] { word = done; }).
    template <class Step>
    decltype(auto) step(int hand, const std::string& entry, Step&& make) {
        std::scoped_lock held(*this);
        write(hand, entry);
        return std::forward<Step>(make)();
    }

    // The lock, for a step that is no single call, and what is written under it. The first 10,000
    // entries are kept: a front of a trace is a trace.
    void lock() { mutex.lock(); }
    void unlock() { mutex.unlock(); }
    void write(int hand, const std::string& entry) {
        if (entry.starts_with("claim ")) open[std::stoi(entry.substr(6))] = true;
        if (entry.starts_with("release ")) open[std::stoi(entry.substr(8))] = false;
        if (entries.size() < 10'000) entries.push_back(std::to_string(hand) + " " + entry);
    }

    void print(std::ostream& out) {
        std::scoped_lock held(*this);
        out << "exec " << tree.size() << " " << open.size() << " " << hands << " counting 65535\n";
        for (const auto& [parent, flag] : tree)
            out << "node " << (parent < 0 ? "-" : std::to_string(parent)) << " " << flag << "\n";
        for (const std::string& entry : entries) out << entry << "\n";
    }

private:
    friend struct scan;
    std::mutex mutex;
    std::vector<node> tree;
    std::vector<bool> open;  // which blocks are claimed
    int hands;
    std::vector<std::string> entries;
};

// The scan that a request begins. It passes the places of its source by rising block and node, and
// a free block as a whole. All calls are under the lock; between `run` and `end_run`, while the
// callback runs, the lock is given back.
struct scan {
    scan(recorder& trace, int hand, place source) : trace(trace), hand(hand), source(source) {}
    void run(place at) { pass(number(at)), write(run_at(at)); }
    void end_run(place at) { write("end_run " + text(at)), next = number(at) + 1; }
    void seal() { pass(trace.open.size() * size), write("seal_scan " + text(source)); }

private:
    void write(const std::string& entry) { trace.write(hand, entry); }
    std::string run_at(place at) const { return "run " + text(source) + " " + text(at); }
    int number(place at) const { return at.block * size + at.node; }
    bool hears(place at) const {  // whether the source is the nearest above the node
        int above = trace.tree[at.node].parent;
        while (above >= 0 && trace.tree[above].flag == "plain") above = trace.tree[above].parent;
        if (above < 0 || source.block < 0) return above < 0 && source.block < 0;
        return trace.tree[above].flag == "source" && number(source) == number({at.block, above});
    }
    void pass(int end) {
        for (; next < end; ++next) {
            const place at{next / size, next % size};
            if (!hears(at)) continue;
            const bool is_open = source.block >= 0 || trace.open[at.block];
            write(is_open ? run_at(at) : "skip " + std::to_string(at.block));
            if (!is_open) next = number({at.block, size - 1});
        }
    }
    recorder& trace;
    int hand, size = int(trace.tree.size()), next = 0;
    place source;
};
}  // namespace exec_trace
