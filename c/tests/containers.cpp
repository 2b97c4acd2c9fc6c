// What of C++'s library isn't in its headers, by one thread: trees and lists, against the same in a vector, strings, blocks.
#include <algorithm>
#include <cassert>
#include <cstdlib>
#include <functional>
#include <future>
#include <list>
#include <map>
#include <memory>
#include <new>
#include <set>
#include <string>
#include <utility>
#include <vector>

static void try_trees() {
    unsigned seed = 7;
    std::map<int, int> tree;
    std::vector<std::pair<int, int>> same;
    for (int i = 0; i < 200; i++) {
        int key = rand_r(&seed) % 24;
        auto at = std::find_if(same.begin(), same.end(), [key](auto &one) { return one.first == key; });
        if (rand_r(&seed) % 2) {
            tree[key] = i;
            if (at == same.end())
                same.emplace_back(key, i);
            else
                at->second = i;
        } else {
            assert(tree.erase(key) == (at != same.end()));
            if (at != same.end())
                same.erase(at);
        }
        std::sort(same.begin(), same.end());
        assert(std::equal(tree.begin(), tree.end(), same.begin(), same.end(),
                          [](auto &a, auto &b) { return a.first == b.first && a.second == b.second; }));
        assert(std::equal(tree.rbegin(), tree.rend(), same.rbegin(), same.rend(),
                          [](auto &a, auto &b) { return a.first == b.first; }));
    }
    std::set<std::string> names{"b", "c", "a"};
    assert(*names.begin() == "a" && *names.rbegin() == "c");
}

static void try_lists() {
    std::list<int> a{3, 1, 2}, b{9}, none;
    a.sort();
    a.reverse();
    a.swap(b);
    assert(a.size() == 1 && b.front() == 3);
    a.splice(a.begin(), b);
    assert((std::vector<int>(a.begin(), a.end()) == std::vector<int>{3, 2, 1, 9}));
    a.swap(none);
    assert(a.empty() && none.back() == 9);
    none.remove(2);
    assert(none.size() == 3);
}

struct alignas(64) Line { int words[16]; };

int main() {
    try_trees();
    try_lists();
    std::string text = "a text of more than fifteen letters";
    text += std::to_string(-45);
    std::hash<std::string> hash;
    assert(text.size() == 38 && std::stoi(text.substr(35)) == -45 && hash("a") != hash("b"));
    auto line = std::make_unique<Line>();
    assert((size_t)line.get() % 64 == 0);
    auto shared = std::make_shared<std::string>("x");
    std::weak_ptr<std::string> weak = shared;
    shared.reset();
    assert(weak.expired());
    volatile size_t large = 1 << 20; // of a constant clang says of itself that it isn't null
    assert(!new (std::nothrow) char[large]);
    std::promise<int> promise;
    promise.set_value(5);
    assert(promise.get_future().get() == 5);
    std::function<int(int)> more = [](int x) { return x + 1; };
    return more(4);
}
