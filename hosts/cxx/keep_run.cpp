// Checks a plug-in, makes 20 runs of it, keeps the record of the first that ends otherwise than run 1, and replays it.
// Then eight threads make these runs at once, 1,000 each, and each run has to end as it did before.
//
//     keep_run MODULE [CALLS]
#include <atomic>
#include <cstdlib>
#include <fstream>
#include <iostream>
#include <iterator>
#include <thread>

#include "wathread.hpp"

namespace {

constexpr int runs = 20, thread_count = 8;

std::string words(const wathread::End &end)
{
    switch (end.kind) {
    case wathread::Kind::i32: return "ok i32:" + std::to_string(*end.value);
    case wathread::Kind::i64: return "ok i64:" + std::to_string(*end.value);
    case wathread::Kind::trap: return "trap " + std::to_string(*end.number);
    case wathread::Kind::stop: return "stop " + std::to_string(*end.number);
    default: return "ok";
    }
}

// The outcome of thread 0 in an object of JSON.
std::string outcome(const std::string &object)
{
    const std::string before = "\"outcome\":";
    const std::size_t from = object.find(before) + before.size();
    return object.substr(from, object.find(",\"units\"") - from);
}

wathread::Run made(const wathread::Bytes &module, int number, bool with_record)
{
    wathread::Options options;
    options.seed = 4;
    options.run = static_cast<std::uint64_t>(number);
    return wathread::run(module, "main", {}, options, with_record);
}

int make_at_once(const wathread::Bytes &module, const std::vector<wathread::End> &ends, int calls)
{
    std::atomic<int> alike{0};
    std::vector<std::thread> threads;
    for (int n = 0; n < thread_count; n++)
        threads.emplace_back([&] {
            for (int call = 0; call < calls; call++)
                if (made(module, call % runs + 1, false).end == ends[static_cast<std::size_t>(call % runs)])
                    alike++;
        });
    for (auto &it : threads)
        it.join();
    return alike;
}

} // namespace

int main(int argc, char **argv)
try {
    std::ifstream file(argc > 1 ? argv[1] : "", std::ios::binary);
    if (!file) {
        std::cerr << "keep_run MODULE [CALLS]\n";
        return 3;
    }
    const wathread::Bytes module{std::istreambuf_iterator<char>(file), {}};
    const int calls = argc > 2 ? std::atoi(argv[2]) : 1000;
    std::cout << "check: " << wathread::check(module).object << "\n";
    std::vector<wathread::End> ends;
    wathread::Bytes record;
    int kept = 0;
    for (int number = 1; number <= runs; number++) {
        const wathread::Run run = made(module, number, kept == 0);
        ends.push_back(run.end);
        if (kept == 0 && run.end != ends[0]) {
            kept = number;
            record = run.record;
        }
    }
    std::cout << "run 1: " << words(ends[0]) << "\n";
    if (kept == 0) {
        std::cout << runs << " runs end alike\n";
        return 1;
    }
    std::cout << "run " << kept << ": " << words(ends[static_cast<std::size_t>(kept - 1)]) << ", a record of "
              << record.size() << " bytes\n";
    std::cout << "replay: " << outcome(wathread::replay(module, record).object) << "\n";
    const int alike = make_at_once(module, ends, calls);
    std::cout << thread_count << " threads: " << alike << " of " << thread_count * calls << " runs ended as before\n";
    return alike == thread_count * calls ? 0 : 1;
} catch (const wathread::Refused &refused) {
    std::cerr << refused.what() << "\n";
    return static_cast<int>(refused.status());
}
