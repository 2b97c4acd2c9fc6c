// The threads of C++'s library: what is done under a std::mutex the others see, who waits is woken, what is called once is
// called once, and a wait for a time ends.
#include <atomic>
#include <cassert>
#include <chrono>
#include <condition_variable>
#include <mutex>
#include <thread>
#include <vector>

#ifndef N
#define N 2
#endif

using namespace std::chrono_literals;

static std::mutex mutex;
static std::condition_variable changed;
static std::once_flag once;
static std::atomic<int> come;
static int sum, made;

static void work(int number) {
    std::call_once(once, [] { made++; });
    come++;
    {
#ifndef BUG /* the sum is changed without the lock */
        std::lock_guard<std::mutex> lock(mutex);
#endif
        sum += number;
    }
    changed.notify_one();
}

int main() {
    std::vector<std::thread> threads;
    for (int i = 1; i <= N; i++)
        threads.emplace_back(work, i);
    {
        std::unique_lock<std::mutex> lock(mutex);
        changed.wait(lock, [] { return sum == N * (N + 1) / 2; });
        assert(made == 1);
    }
    for (std::thread &thread : threads)
        thread.join();
    assert(come == N && !threads[0].joinable());
    std::unique_lock<std::mutex> lock(mutex);
    assert(changed.wait_for(lock, 1s) == std::cv_status::timeout);
    return 0;
}
