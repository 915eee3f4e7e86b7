// A race, recorded: hand 1 runs one operation after another, each with a stop callback, and hand 0
// requests a stop meanwhile. The callbacks are libstdc++'s std::stop_callback.
//
//     g++ -std=c++20 -O2 -pthread stop_race.cpp -o stop_race
//     ./stop_race [hasty] SEED > trace.txt      the trace of a run; SEED says when the stop comes
//     exec_run check trace.txt
//
// With `hasty` an operation's callback is handed to a list of old ones, in place of being destroyed:
// so nobody waits for a run on the other thread, and the operation may end while its callback runs.
#include <atomic>
#include <functional>
#include <iostream>
#include <list>
#include <memory>
#include <random>
#include <stop_token>
#include <string>
#include <thread>

#include "exec_trace.hpp"

using exec_trace::place, exec_trace::recorder, exec_trace::scan;
using Callback = std::stop_callback<std::function<void()>>;

constexpr place root{0, 0};
constexpr int operations = 40;

// The words of an operation. They stay in their block when it ends, so that `hasty` does nothing
// that C++ forbids.
struct block_words {
    std::atomic<bool> open, done, asked;
};

struct race {
    explicit race(bool hasty) : hasty(hasty) {}
    const bool hasty;
    recorder trace{std::vector<exec_trace::node>(1), 1, 2};  // one node, one block, two hands
    std::stop_source source;
    scan scanning{trace, 0, exec_trace::scope};
    block_words block;
    bool runs = false;  // under the lock: whether hand 0 runs the callback
    std::list<std::unique_ptr<Callback>> old;
};

void wait(int turns) {
    for (int turn = 0; turn < turns; ++turn) std::this_thread::yield();
}

// The body of each callback. Hand 0 runs it in request_stop, which has the lock.
void run_callback(race& it) {
    it.scanning.run(root);
    it.runs = true;
    it.trace.unlock();
    wait(50);
    it.block.asked = true;
    it.trace.lock();
    it.runs = false;
    it.scanning.end_run(root);
}

// Hand 0. std::stop_source makes the request and runs the callbacks in one call, which is therefore
// one step: the lock is given back only while a callback runs.
void request_stop(race& it) {
    std::scoped_lock held(it.trace);
    it.trace.write(0, "request scope plain");
    it.source.request_stop();
    it.scanning.seal();
}

// Constructs the callback: registers it, and looks. Where a stop was requested before, libstdc++
// runs it here, at once, and registers nothing: then it is withdrawn again before a scan can meet it.
std::unique_ptr<Callback> arm(race& it) {
    std::scoped_lock held(it.trace);
    it.trace.write(1, "arm 0.0");
    it.trace.write(1, "look scope 0.0");
    if (!it.source.stop_requested())
        return std::make_unique<Callback>(it.source.get_token(), [&it] { run_callback(it); });
    std::make_unique<Callback>(it.source.get_token(), [&it] { it.block.asked = true; });
    it.trace.write(1, "withdraw 0.0");
    return nullptr;
}

// Destroys the callback. Where it runs on hand 0 the destructor waits for the end of the run, and so
// the lock is given back before.
void withdraw(race& it, std::unique_ptr<Callback> callback) {
    if (!callback) return;
    std::unique_lock held(it.trace);
    it.trace.write(1, "withdraw 0.0");
    const bool runs = it.runs;
    if (runs) held.unlock();
    if (runs && it.hasty)
        it.old.push_back(std::move(callback));
    else
        callback.reset();
}

// Hand 1.
void run_operations(race& it, int turns) {
    for (int number = 0; number < operations; ++number) {
        it.trace.step(1, "claim 0", [&] { it.block.open = true; });
        it.trace.step(1, "begin 0.0", [&] { it.block.done = it.block.asked = false; });
        std::unique_ptr<Callback> callback = arm(it);
        wait(turns);
        withdraw(it, std::move(callback));
        it.trace.step(1, "finish 0.0", [&] { it.block.done = true; });
        it.trace.step(1, "release 0", [&] { it.block.open = false; });
    }
}

int main(int count, char** words) {
    const bool hasty = count > 1 && std::string(words[1]) == "hasty";
    std::mt19937 dice(count > 1 + hasty ? std::stoul(words[1 + hasty]) : std::random_device{}());
    const int before = dice() % 400, turns = dice() % 20;
    race it(hasty);
    std::thread hand_1([&] { run_operations(it, turns); });
    wait(before);
    request_stop(it);
    hand_1.join();
    it.trace.print(std::cout);
}
