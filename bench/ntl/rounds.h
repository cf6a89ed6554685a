// Times, as desk/rounds.rs takes them: processor time in microseconds, rounds that repeat a call until that clock is fine enough,
// and the median of an odd number of rounds.
#ifndef BENCH_NTL_ROUNDS_H
#define BENCH_NTL_ROUNDS_H

#include <algorithm>
#include <cstdint>
#include <cstdio>
#include <ctime>
#include <vector>

namespace bench {

const int rounds = 5;
const double shortest_round = 0.01;

inline double now() { return static_cast<double>(std::clock()) / CLOCKS_PER_SEC; }

// One more answer in a fold, as desk/rounds.rs has it, so that no answer can be left out.
inline std::uint64_t folded(std::uint64_t sum, std::uint64_t answer) { return ((sum << 1 | sum >> 63) ^ answer) * 0x100000001b3; }

inline double median(std::vector<double> times) {
    std::sort(times.begin(), times.end());
    return times[times.size() / 2];
}

template <class Call> std::uint64_t fold(std::uint64_t times, Call call) {
    std::uint64_t sum = 0;
    for (std::uint64_t i = 0; i < times; i++) sum = folded(sum, call(i));
    return sum;
}

// Where the answers of timed calls go.
inline volatile std::uint64_t used;

template <class Call> double seconds(std::uint64_t repetitions, Call call) {
    double start = now();
    used = fold(repetitions, call);
    return now() - start;
}

// Prints the fold of the first `compared` answers, then the time of one call.
template <class Call> void measure(const char *name, std::uint64_t compared, Call call) {
    std::printf("answer %s ntl %llu\n", name, static_cast<unsigned long long>(fold(compared, call)));
    std::uint64_t repetitions = 1;
    while (seconds(repetitions, call) < shortest_round) repetitions *= 2;
    std::vector<double> times;
    for (int round = 0; round < rounds; round++) times.push_back(seconds(repetitions, call) / repetitions);
    std::printf("time %s ntl %.2f\n", name, median(times) * 1e9);
}

} // namespace bench

#endif
