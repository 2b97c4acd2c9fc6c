// Two threads that take what is to be done from a list, until it is closed. With -DONE only one of them is woken then, and
// the other one may sleep for good.
#include <atomic>
#include <cassert>
#include <condition_variable>
#include <functional>
#include <mutex>
#include <queue>
#include <thread>
#include <utility>
#include <vector>

class Pool {
    std::mutex mutex;
    std::condition_variable changed;
    std::queue<std::function<void()>> jobs;
    bool closed = false;
    std::vector<std::thread> threads;

    void work() {
        for (;;) {
            std::unique_lock<std::mutex> lock(mutex);
            changed.wait(lock, [this] { return closed || !jobs.empty(); });
            if (jobs.empty())
                return;
            std::function<void()> job = std::move(jobs.front());
            jobs.pop();
            lock.unlock();
            job();
        }
    }

public:
    explicit Pool(int count) {
        for (int i = 0; i < count; i++)
            threads.emplace_back(&Pool::work, this);
    }

    void add(std::function<void()> job) {
        {
            std::lock_guard<std::mutex> lock(mutex);
            jobs.push(std::move(job));
        }
        changed.notify_one();
    }

    ~Pool() {
        {
            std::lock_guard<std::mutex> lock(mutex);
            closed = true;
        }
#ifdef ONE
        changed.notify_one();
#else
        changed.notify_all();
#endif
        for (std::thread &thread : threads)
            thread.join();
    }
};

int main() {
    std::atomic<int> sum{0};
    {
        Pool pool(2);
        pool.add([&sum] { sum += 1; });
        pool.add([&sum] { sum += 2; });
    }
    assert(sum == 3);
    return sum;
}
