// Tests of wathread.hpp: what each call gives, and what each refusal says.
//
//     tests FOLDER    examples/ of this repository
#include "wathread.hpp"

#include <fstream>
#include <iostream>
#include <iterator>

namespace {

int tried = 0, wrong = 0;

void want(bool is_so, const char *what)
{
    tried++;
    if (!is_so) {
        wrong++;
        std::cout << what << " isn't so\n";
    }
}

wathread::Bytes read(const std::string &path)
{
    std::ifstream file(path, std::ios::binary);
    if (!file) {
        std::cerr << path << " isn't there\n";
        std::exit(70);
    }
    return {std::istreambuf_iterator<char>(file), {}};
}

bool has(const std::string &text, const char *part) { return text.find(part) != std::string::npos; }

// Tells what a call is refused with, or nothing where it isn't.
template <class Fault, class Call> std::optional<Fault> refused(Call call)
{
    try {
        call();
    } catch (const Fault &fault) {
        return fault;
    } catch (const std::exception &) {
    }
    return std::nullopt;
}

void try_runs(const wathread::Bytes &add, const wathread::Bytes &fac)
{
    const wathread::Run run = wathread::run(add, "f");
    want(run.status == wathread::Status::well && run.end.kind == wathread::Kind::i32, "a run of atomic_add ends well");
    want(run.end.value == std::optional<std::uint64_t>(0) && !run.end.number, "it returns 0");
    want(!run.record.empty() && run.record.back() == '\n', "its record ends with a line feed");
    want(wathread::run(add, "f", {}, {}, false).record.empty(), "a run without a record has none");
    const wathread::Replay replay = wathread::replay(add, run.record, true);
    want(replay.memory.size() == 65536 && replay.memory[0] == 5, "the replay has the memory");
    want(has(replay.object, "\"outcome\":{\"ok\":{\"i32\":0}}"), "the replay says how thread 0 ended");
    want(wathread::replay(add, run.record).memory.empty(), "a replay without memory has none");
    bool returns_120 = false;
    for (const auto &five : {wathread::i32(5), wathread::i64(5)})
        if (!refused<wathread::CallRefused>([&] { wathread::run(fac, "fac", {five}); }))
            returns_120 = wathread::run(fac, "fac", {five}).end.value == std::optional<std::uint64_t>(120);
    want(returns_120, "fac of 5 is 120");
    wathread::Options poor;
    poor.fuel = 2;
    const wathread::Run stopped = wathread::run(add, "f", {}, poor);
    want(stopped.status == wathread::Status::ended && stopped.end.kind == wathread::Kind::stop, "two units don't do");
    want(stopped.end.number == std::optional<std::uint32_t>(1) && stopped.units == 2,
         "it is out of fuel after two units");
}

// A run of which a thread spins until the record is full.
void try_large(const wathread::Bytes &barrier)
{
    const wathread::Run run = wathread::run(barrier, "main");
    want(run.record.size() > (1 << 16), "a record may be longer than the first buffer");
    want(wathread::replay(barrier, run.record).status == run.status, "and is whole then");
}

void try_search(const wathread::Bytes &peterson)
{
    const wathread::Search found = wathread::search(peterson, "f", {wathread::i32(1)});
    want(found.status == wathread::Status::well && has(found.object, "\"verdict\":\"all\""), "Peterson's lock is one");
    wathread::Options few;
    few.states = 10;
    want(wathread::search(peterson, "f", {wathread::i32(1)}, few).status == wathread::Status::ended,
         "10 states don't do");
}

void try_refusals(const wathread::Bytes &add, const wathread::Bytes &lock)
{
    using namespace wathread;
    const Bytes cut(add.begin(), add.begin() + 5);
    const auto checked = refused<ModuleRefused>([&] { check(cut); });
    const auto made = refused<ModuleRefused>([&] { run(cut, "f"); });
    for (const auto &fault : {checked, made})
        want(fault && fault->is_read() && fault->number() == 1 && fault->offset() == std::optional<std::uint64_t>(5),
             "a module that is cut ends at its length");
    want(bool(refused<ModuleRefused>([&] { check(Bytes()); })), "nothing is no module");
    const auto unknown = refused<CallRefused>([&] { run(add, "g"); });
    want(unknown && has(unknown->what(), "unknown export"), "an unknown export is refused with its reason");
    const auto arguments = refused<CallRefused>([&] { run(add, "f", {i64(5)}); });
    want(arguments && has(arguments->what(), "wrong arguments"), "an argument too much is refused with its reason");
    Options none;
    none.limit = 0;
    const auto range = refused<CallRefused>([&] { run(add, "f", {}, none); });
    want(range && has(range->what(), "out of range"), "a limit of 0 is refused with its reason");
    Bytes record = run(add, "f").record;
    want(bool(refused<RecordRefused>([&] { replay(lock, record); })), "a record of another module is refused");
    record.pop_back();
    const auto damaged = refused<RecordRefused>([&] { replay(add, record); });
    want(damaged && damaged->status() == Status::no_record, "a record that is cut is refused");
}

void try_instances(const wathread::Bytes &add)
{
    using namespace wathread;
    std::optional<Module> module(add);
    Instance counter = module->instance(), other(*module);
    Module shared = module->share();
    module.reset();
    want(counter.call("f").end.value == std::optional<std::uint64_t>(0), "a counter begins with 0");
    const Bytes before = counter.memory();
    const Run second = counter.call("f");
    want(second.end.value == std::optional<std::uint64_t>(5) && !second.record.empty(), "the memory stays");
    want(counter.pages() == 1 && counter.read(0, 1) == Bytes{10}, "it is read");
    want(has(counter.search("f").object, "{\"ok\":{\"i32\":10}}") && counter.read(0, 1) == Bytes{10},
         "a search begins with it, and leaves it");
    want(bool(refused<RecordRefused>([&] { other.replay(second.record); })), "a record of another memory is refused");
    other.set_memory(before);
    want(other.replay(second.record).status == Status::well && other.memory() == counter.memory(),
         "a record over the memory that it began with leaves the same");
    counter.write(0, std::string_view("\1\2", 2));
    want(counter.call("f", {}, {}, false).end.value == std::optional<std::uint64_t>(513), "what is written is there");
    want(bool(refused<OutOfBounds>([&] { counter.write(65535, "ab"); })), "nothing is written outside");
    want(bool(refused<OutOfBounds>([&] { counter.read(65536, 1); })), "nor read");
    want(bool(refused<OutOfBounds>([&] { counter.set_memory("ab"); })), "two bytes are no memory");
    const auto unknown = refused<CallRefused>([&] { counter.call("g"); });
    want(unknown && has(unknown->what(), "unknown export"), "a call is refused with its reason");
    Instance moved = std::move(counter);
    want(moved.call("f").end.value == std::optional<std::uint64_t>(518) && counter.pages() == 0, "an instance is moved");
    want(shared.instance().call("f").end.value == std::optional<std::uint64_t>(0), "another begins anew");
    want(bool(refused<ModuleRefused>([&] { Module none(View(add.data(), 5)); })), "a module that is cut isn't opened");
}

} // namespace

int main(int argc, char **argv)
{
    const std::string at = argc > 1 ? argv[1] : "examples";
    const wathread::Bytes add = read(at + "/atomic_add.wasm"), lock = read(at + "/c/broken_lock.wasm");
    try_runs(add, read(at + "/fac.wasm"));
    try_large(read(at + "/bugs/barrier.wasm"));
    try_search(read(at + "/search/peterson.wasm"));
    try_refusals(add, lock);
    try_instances(add);
    std::cout << tried << " tried, " << wrong << " wrong\n";
    return wrong != 0;
}
