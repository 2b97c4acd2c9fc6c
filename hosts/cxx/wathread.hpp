// wathread for hosts in C++17, over wathread.h, which says what the calls do: vectors in place of buffers, exceptions in
// place of the statuses of what is refused, and classes in place of handles. Calls on several threads at once are
// independent, where each has objects of its own.
#ifndef WATHREAD_HPP
#define WATHREAD_HPP

#include <cstddef>
#include <cstdint>
#include <initializer_list>
#include <new>
#include <optional>
#include <stdexcept>
#include <string>
#include <string_view>
#include <utility>
#include <vector>

#include "wathread.h"

namespace wathread {

using Bytes = std::vector<std::uint8_t>;

enum class Status : std::uint32_t {
    well = WATHREAD_WELL,
    ended = WATHREAD_ENDED,
    no_module = WATHREAD_NO_MODULE,
    no_call = WATHREAD_NO_CALL,
    no_record = WATHREAD_NO_RECORD,
    failed = WATHREAD_FAILED
};

enum class Kind : std::uint32_t {
    none = WATHREAD_NONE,
    no_value = WATHREAD_VOID,
    i32 = WATHREAD_I32,
    i64 = WATHREAD_I64,
    trap = WATHREAD_TRAP,
    stop = WATHREAD_STOP
};

enum class Strategy : std::uint32_t {
    mix = WATHREAD_MIX,
    random = WATHREAD_RANDOM,
    priorities = WATHREAD_PRIORITIES,
    spin = WATHREAD_SPIN
};

// Bytes that are somebody else's: a module, a name or a record. They have to stay where they are during the call.
class View {
  public:
    View(const Bytes &bytes) : View(bytes.data(), bytes.size()) {}
    View(std::string_view text) : View(reinterpret_cast<const std::uint8_t *>(text.data()), text.size()) {}
    View(const std::string &text) : View(std::string_view(text)) {}
    View(const char *text) : View(std::string_view(text)) {}
    View(const std::uint8_t *data, std::size_t size) : data_(size == 0 ? &nothing_ : data), size_(size) {}
    const std::uint8_t *data() const noexcept { return data_; }
    std::size_t size() const noexcept { return size_; }

  private:
    static constexpr std::uint8_t nothing_ = 0;
    const std::uint8_t *data_;
    std::size_t size_;
};

// Arguments: i32(-5), i64(5).
using Word = wathread_word;
inline Word i32(std::int64_t value) noexcept { return {static_cast<std::uint32_t>(value), 0}; }
inline Word i64(std::int64_t value) noexcept { return {static_cast<std::uint64_t>(value), 1}; }
using Words = std::vector<Word>;

// As wathread_options has them.
struct Options {
    std::uint64_t seed = 1, run = 1, fuel = 10000000;
    std::uint32_t limit = 10000;
    Strategy strategy = Strategy::mix;
    std::uint32_t depth = 3, states = 1000000, dump = 0;

    wathread_options raw() const noexcept
    {
        return {seed, run, fuel, limit, static_cast<std::uint32_t>(strategy), depth, states, dump};
    }
};

// How thread 0 ended.
struct End {
    Kind kind = Kind::none;
    std::optional<std::uint64_t> value;     // of an i32 or an i64
    std::optional<std::uint32_t> number;    // of a trap or a stop

    friend bool operator==(const End &a, const End &b) noexcept
    {
        return a.kind == b.kind && a.value == b.value && a.number == b.number;
    }
    friend bool operator!=(const End &a, const End &b) noexcept { return !(a == b); }
};

struct Run {
    Status status = Status::well;
    End end;
    std::uint64_t units = 0;    // that thread 0 spent
    Bytes record;               // empty where the run was made without
};

// An object of JSON, with the status that it came with.
struct Check {
    std::string object;
};

struct Replay {
    Status status = Status::well;
    std::string object;
    Bytes memory;               // empty where the replay was made without
};

struct Search {
    Status status = Status::well;
    std::string object;
};

// What is refused: the status, and the object of JSON that says why.
class Refused : public std::runtime_error {
  public:
    Refused(Status status, const std::string &what, std::string object)
        : std::runtime_error(what), status_(status), object_(std::move(object)) {}
    Status status() const noexcept { return status_; }
    const std::string &object() const noexcept { return object_; }

  private:
    Status status_;
    std::string object_;
};

// A module: the stage, and the kind and the place of its first fault, of which docs/LIMITS.md has the tables.
class ModuleRefused : public Refused {
  public:
    explicit ModuleRefused(const std::string &object);
    bool is_read() const noexcept { return is_read_; }
    std::uint64_t number() const noexcept { return number_; }
    std::optional<std::uint64_t> offset() const noexcept { return offset_; }
    std::optional<std::uint64_t> function() const noexcept { return function_; }
    std::optional<std::uint64_t> instruction() const noexcept { return instruction_; }

  private:
    bool is_read_;
    std::uint64_t number_;
    std::optional<std::uint64_t> offset_, function_, instruction_;
};

// A call: no such function, other arguments, or a number out of its range.
class CallRefused : public Refused {
  public:
    explicit CallRefused(const std::string &object);
};

// A record: the words, and the line where they name one.
class RecordRefused : public Refused {
  public:
    explicit RecordRefused(const std::string &object);
    std::optional<std::uint64_t> line() const noexcept { return line_; }

  private:
    std::optional<std::uint64_t> line_;
};

namespace detail {

inline const std::size_t first_record = 1 << 16, first_text = 1 << 14, first_memory = 1 << 17;

// The number behind a name in the object of a refusal, whose texts have no such name within them.
inline std::optional<std::uint64_t> number_in(const std::string &object, const std::string &name)
{
    const std::size_t at = object.find("\"" + name + "\":");
    if (at == std::string::npos)
        return std::nullopt;
    std::uint64_t value = 0;
    std::size_t from = at + name.size() + 3;
    if (object[from] == '"')
        ++from;
    std::size_t to = from;
    for (; to < object.size() && object[to] >= '0' && object[to] <= '9'; ++to)
        value = value * 10 + static_cast<std::uint64_t>(object[to] - '0');
    return to == from ? std::nullopt : std::optional<std::uint64_t>(value);
}

inline std::string text_in(const std::string &object, const std::string &name)
{
    const std::size_t at = object.find("\"" + name + "\":\"");
    if (at == std::string::npos)
        return "";
    const std::size_t from = at + name.size() + 4;
    return object.substr(from, object.find('"', from) - from);
}

inline std::string object_of(const Bytes &text, std::size_t len)
{
    return std::string(text.begin(), text.begin() + static_cast<std::ptrdiff_t>(len == 0 ? 0 : len - 1));
}

inline std::string fault_of(const char *what, const std::string &object)
{
    return std::string(what) + " refused: " + text_in(object, "fault");
}

[[noreturn]] inline void refuse(std::uint32_t status, const std::string &object)
{
    switch (status) {
    case WATHREAD_NO_MODULE: throw ModuleRefused(object);
    case WATHREAD_NO_CALL: throw CallRefused(object);
    case WATHREAD_NO_RECORD: throw RecordRefused(object);
    default: throw std::bad_alloc();
    }
}

// Makes a call that writes a text, once more with more room where that is wanted, and gives back the status.
template <class Call> std::uint32_t with_text(std::string &object, Call call)
{
    Bytes text(first_text);
    wathread_answer answer{};
    std::uint32_t status = call(text, answer);
    while (status != WATHREAD_FAILED && answer.text > text.size()) {
        text.resize(answer.text);
        status = call(text, answer);
    }
    if (status == WATHREAD_FAILED)
        throw std::bad_alloc();
    object = object_of(text, answer.text);
    if (status > WATHREAD_ENDED)
        refuse(status, object);
    return status;
}

// Throws where a handle wasn't opened: it was moved from, or memory was refused.
inline void opened(std::uint32_t status)
{
    if (status == WATHREAD_FAILED)
        throw std::bad_alloc();
    if (status != WATHREAD_WELL)
        throw std::logic_error("the module was moved from");
}

inline const Word *words_of(const Words &args) noexcept
{
    static const Word none{0, 0};
    return args.empty() ? &none : args.data();
}

} // namespace detail

inline ModuleRefused::ModuleRefused(const std::string &object)
    : Refused(Status::no_module,
              "module refused: " + detail::text_in(object, "stage") + " " +
                  std::to_string(detail::number_in(object, "number").value_or(0)),
              object),
      is_read_(detail::text_in(object, "stage") == "read"), number_(detail::number_in(object, "number").value_or(0)),
      offset_(detail::number_in(object, "offset")), function_(detail::number_in(object, "function")),
      instruction_(detail::number_in(object, "instruction")) {}

inline CallRefused::CallRefused(const std::string &object)
    : Refused(Status::no_call, detail::fault_of("call", object), object) {}

inline RecordRefused::RecordRefused(const std::string &object)
    : Refused(Status::no_record, detail::fault_of("record", object), object),
      line_(detail::number_in(object, "line")) {}

inline Check check(View module)
{
    Check checked;
    detail::with_text(checked.object, [&](Bytes &text, wathread_answer &answer) {
        return wathread_check(module.data(), module.size(), text.data(), text.size(), &answer);
    });
    return checked;
}

inline Search search(View module, View name, const Words &args = {}, const Options &options = {})
{
    Search found;
    const wathread_options raw = options.raw();
    found.status = static_cast<Status>(detail::with_text(found.object, [&](Bytes &text, wathread_answer &answer) {
        return wathread_search(module.data(), module.size(), name.data(), name.size(), detail::words_of(args),
                               args.size(), &raw, text.data(), text.size(), &answer);
    }));
    return found;
}

namespace detail {

// Throws that a number of a run's options is out of its range.
[[noreturn]] inline void refuse_range()
{
    throw CallRefused("{\"status\":3,\"refused\":{\"stage\":\"call\",\"fault\":\"fuel or limit out of range\"}}");
}

// Throws what a run was refused for, which has no text of its own.
[[noreturn]] inline void refuse_run(std::uint32_t status, View module, View name, const Words &args)
{
    if (status == WATHREAD_FAILED)
        throw std::bad_alloc();
    check(module);
    Options none;
    none.states = 0;
    search(module, name, args, none);
    refuse_range();
}

// Makes a run, once more with more room for its record where that is wanted.
template <class Call, class Refuse> Run made_by(bool with_record, Call call, Refuse refuse)
{
    Run made;
    Bytes record(with_record ? first_record : 1);
    wathread_answer answer{};
    const auto once = [&] { return call(record.data(), with_record ? record.size() : 0, answer); };
    std::uint32_t status = once();
    while (with_record && status <= WATHREAD_ENDED && answer.bytes > record.size()) {
        record.resize(answer.bytes);
        status = once();
    }
    if (status > WATHREAD_ENDED)
        refuse(status);
    record.resize(with_record ? answer.bytes : 0);
    made.status = static_cast<Status>(status);
    made.end.kind = static_cast<Kind>(answer.kind);
    if (made.end.kind == Kind::i32 || made.end.kind == Kind::i64)
        made.end.value = answer.value;
    if (made.end.kind == Kind::trap || made.end.kind == Kind::stop)
        made.end.number = answer.number;
    made.units = answer.units;
    made.record = std::move(record);
    return made;
}

} // namespace detail

// Makes the run of options.run by options.seed; its record is kept where with_record says so.
inline Run run(View module, View name, const Words &args = {}, const Options &options = {}, bool with_record = true)
{
    const wathread_options raw = options.raw();
    return detail::made_by(
        with_record,
        [&](std::uint8_t *record, std::size_t room, wathread_answer &answer) {
            return wathread_run(module.data(), module.size(), name.data(), name.size(), detail::words_of(args),
                                args.size(), &raw, record, room, &answer);
        },
        [&](std::uint32_t status) { detail::refuse_run(status, module, name, args); });
}

// Makes the run of a record again; the memory's bytes are kept where with_memory says so.
inline Replay replay(View module, View record, bool with_memory = false)
{
    Replay made;
    made.memory.resize(with_memory ? detail::first_memory : 1);
    std::size_t bytes = 0;
    const auto call = [&](Bytes &text, wathread_answer &answer) {
        const std::uint32_t status =
            wathread_replay(module.data(), module.size(), record.data(), record.size(), made.memory.data(),
                            with_memory ? made.memory.size() : 0, text.data(), text.size(), &answer);
        bytes = answer.bytes;
        return status;
    };
    made.status = static_cast<Status>(detail::with_text(made.object, call));
    if (with_memory && bytes > made.memory.size()) {
        made.memory.resize(bytes);
        made.status = static_cast<Status>(detail::with_text(made.object, call));
    }
    made.memory.resize(with_memory ? bytes : 0);
    return made;
}

// Bytes don't lie within an instance's memory, or can't be the whole of it.
class OutOfBounds : public std::out_of_range {
  public:
    OutOfBounds() : std::out_of_range("out of the memory's bounds") {}
};

class Instance;

// A module that stays: it is read and validated once. Another object of it is made by share, for another thread say.
class Module {
  public:
    explicit Module(View bytes)
    {
        std::string object;
        detail::with_text(object, [&](Bytes &text, wathread_answer &answer) {
            return wathread_module_open(bytes.data(), bytes.size(), &raw_, text.data(), text.size(), &answer);
        });
    }
    Module(Module &&other) noexcept : raw_(std::exchange(other.raw_, wathread_module{})) {}
    Module &operator=(Module &&other) noexcept
    {
        std::swap(raw_, other.raw_);
        return *this;
    }
    Module(const Module &) = delete;
    Module &operator=(const Module &) = delete;
    ~Module() { wathread_module_free(&raw_); }

    Module share()
    {
        Module other;
        detail::opened(wathread_module_share(&raw_, &other.raw_));
        return other;
    }
    inline Instance instance();

  private:
    Module() = default;
    wathread_module raw_{};
};

// A module with a memory that stays between calls; it has a share in the module.
class Instance {
  public:
    explicit Instance(Module &module) : Instance(module.instance()) {}
    Instance(Instance &&other) noexcept : raw_(std::exchange(other.raw_, wathread_instance{})) {}
    Instance &operator=(Instance &&other) noexcept
    {
        std::swap(raw_, other.raw_);
        return *this;
    }
    Instance(const Instance &) = delete;
    Instance &operator=(const Instance &) = delete;
    ~Instance() { wathread_instance_free(&raw_); }

    // How many pages of 65,536 bytes the memory has.
    std::uint32_t pages() { return wathread_instance_pages(&raw_); }

    Bytes read(std::uint32_t address, std::size_t count)
    {
        Bytes bytes(count);
        within(wathread_instance_read(&raw_, address, bytes.data(), bytes.size()));
        return bytes;
    }
    void write(std::uint32_t address, View bytes)
    {
        within(wathread_instance_write(&raw_, address, bytes.data(), bytes.size()));
    }

    // The whole memory, and another in its place: as many whole pages as the module's memory can have.
    Bytes memory() { return read(0, std::size_t{65536} * pages()); }
    void set_memory(View bytes) { within(wathread_instance_set(&raw_, bytes.data(), bytes.size())); }

    // Makes the run of options.run by options.seed that begins with this memory, which is then what the run left.
    Run call(View name, const Words &args = {}, const Options &options = {}, bool with_record = true)
    {
        const wathread_options raw = options.raw();
        return detail::made_by(
            with_record,
            [&](std::uint8_t *record, std::size_t room, wathread_answer &answer) {
                return wathread_call(&raw_, name.data(), name.size(), detail::words_of(args), args.size(), &raw, record,
                                     room, &answer);
            },
            [&](std::uint32_t status) { refuse(status, name, args); });
    }

    // Makes a call again by its record, which began with just this memory: that is then what the run left.
    Replay replay(View record)
    {
        Replay made;
        made.status = static_cast<Status>(detail::with_text(made.object, [&](Bytes &text, wathread_answer &answer) {
            return wathread_instance_replay(&raw_, record.data(), record.size(), text.data(), text.size(), &answer);
        }));
        return made;
    }

    // Goes through every order of a call that begins with this memory, which stays.
    Search search(View name, const Words &args = {}, const Options &options = {})
    {
        Search found;
        const wathread_options raw = options.raw();
        found.status = static_cast<Status>(detail::with_text(found.object, [&](Bytes &text, wathread_answer &answer) {
            return wathread_instance_search(&raw_, name.data(), name.size(), detail::words_of(args), args.size(), &raw,
                                            text.data(), text.size(), &answer);
        }));
        return found;
    }

  private:
    friend class Module;
    Instance() = default;

    static void within(std::uint32_t status)
    {
        if (status == WATHREAD_FAILED)
            throw std::bad_alloc();
        if (status != WATHREAD_WELL)
            throw OutOfBounds();
    }

    // Throws what a call was refused for, which has no text of its own.
    [[noreturn]] void refuse(std::uint32_t status, View name, const Words &args)
    {
        if (status == WATHREAD_FAILED)
            throw std::bad_alloc();
        Options none;
        none.states = 0;
        search(name, args, none);
        detail::refuse_range();
    }

    wathread_instance raw_{};
};

inline Instance Module::instance()
{
    Instance made;
    detail::opened(wathread_instance_open(&raw_, &made.raw_));
    return made;
}

} // namespace wathread

#endif
