// Worked examples through libhlc, from C++: clocks that others pull along, on threads of their own, and what the judge says of their stamps, to two threads at once.
#include "hlc.h"

#include <cstdio>
#include <mutex>
#include <thread>
#include <vector>

namespace {

// Nodes that log what they do as claims. One lock is round all clocks and the log, so that one writer at a time is at each.
class Log {
public:
    explicit Log(std::size_t nodes) : clocks(nodes, hlc_stamp{0, 0}) {}

    // A send of a node. Returns its place.
    std::uint32_t send(std::uint32_t node, std::uint64_t reading)
    {
        const std::lock_guard<std::mutex> held(lock);
        refused += hlc_tick(&clocks[node], reading) != HLC_OK;
        return add(node, reading, HLC_SEND, 0);
    }

    // A receive of what was sent in a place.
    void receive(std::uint32_t node, std::uint64_t reading, std::uint32_t sent)
    {
        const std::lock_guard<std::mutex> held(lock);
        const hlc_stamp message{claims[sent].l, claims[sent].c};
        refused += hlc_merge(&clocks[node], message, reading) != HLC_OK;
        add(node, reading, HLC_RECEIVE, sent);
    }

    // How many claims the judge doesn't find least. Any number of threads may ask at once.
    std::size_t not_least() const
    {
        std::vector<hlc_verdict> verdicts(claims.size());
        std::uint32_t bad = 0;
        if (hlc_judge(claims.data(), claims.size(), verdicts.data(), verdicts.size(), &bad) != HLC_OK)
            return claims.size();
        std::size_t found = 0;
        for (const hlc_verdict &verdict : verdicts)
            found += verdict.kind != HLC_LEAST;
        return found;
    }

    std::size_t size() const { return claims.size(); }

    std::size_t refused = 0;

private:
    std::uint32_t add(std::uint32_t node, std::uint64_t reading, std::uint32_t kind, std::uint32_t sent)
    {
        claims.push_back({reading, clocks[node].l, clocks[node].c, sent, node, kind});
        return static_cast<std::uint32_t>(claims.size() - 1);
    }

    std::mutex lock;
    std::vector<hlc_stamp> clocks;
    std::vector<hlc_claim> claims;
};

} // namespace

int main()
{
    constexpr std::uint32_t nodes = 4, rounds = 2000;
    Log log(nodes);
    // The clocks go at unequal paces, and each node takes in what node 0 sent first.
    const std::uint32_t first = log.send(0, 100000);
    std::vector<std::thread> threads;
    for (std::uint32_t node = 1; node < nodes; node++)
        threads.emplace_back([&log, node, first] {
            for (std::uint32_t round = 1; round <= rounds; round++) {
                log.receive(node, node * round, first);
                log.send(node, node * round);
            }
        });
    for (std::thread &thread : threads)
        thread.join();
    // Two threads judge the same claims side by side.
    std::size_t beside = 1;
    std::thread other([&log, &beside] { beside = log.not_least(); });
    const std::size_t found = log.not_least();
    other.join();
    const bool well = log.size() == 1 + 2 * rounds * (nodes - 1) && log.refused == 0 && found == 0 && beside == 0;
    std::printf("from C++: %zu claims, %zu refused, %zu not least\n", log.size(), log.refused, found);
    return well ? 0 : 1;
}
