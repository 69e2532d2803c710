// SPDX-License-Identifier: Apache-2.0
// Four threads move ones between the pages of a file: least FILE. FILE is made anew, and what it had is lost. Then a work throws, and
// its page is as it was.
#include "pinpool.hpp"
#include <cstdio>
#include <cstring>
#include <thread>
#include <vector>

static const char settings[] = R"(
version = 2
frames = 12
page_bytes = 512
workers = 4
waiting = 1
flushes = 1000000
[[region]]
name = "from"
first = 0
count = 32
class = 1
[[region]]
name = "to"
first = 32
count = 32
class = 2
)";
static const char plan_of_moves[] = R"({"version": 1, "body": [
    {"fix": "a", "region": "from"}, {"latch": "a", "mode": "X"},
    {"fix": "b", "region": "to"}, {"latch": "b", "mode": "X"},
    {"unlatch": "b"}, {"unfix": "b"}, {"unlatch": "a"}, {"unfix": "a"}]})";

// Takes one from a page, and adds it to another, once it has both.
class mover : public pp::work {
    std::uint32_t seed;
    std::int64_t *from = nullptr;

public:
    bool is_to_throw = false;
    explicit mover(std::uint32_t number) : seed(number) {}

    std::uint32_t page(const pinpool_ask &ask) override {
        seed = seed * 1664525 + 1013904223;
        return ask.first + (seed >> 8) % ask.count;
    }
    void change(const pinpool_ask &ask, std::uint8_t *body) override {
        std::int64_t *number = static_cast<std::int64_t *>(static_cast<void *>(body));
        if (ask.slot == 0) {
            from = number;
        } else {
            --*from;
            if (is_to_throw) throw std::range_error("no more");
            ++*number;
        }
    }
};

static std::int64_t sum_of(const char *path) {
    std::int64_t sum = 0, number;
    std::FILE *file = std::fopen(path, "rb");
    for (long page = 0; file && page < 64; page++)
        if (!std::fseek(file, page * 512 + 12, SEEK_SET) && std::fread(&number, sizeof number, 1, file) == 1)
            sum += page < 32 ? -number : number;
    if (file) std::fclose(file);
    return sum;
}

int main(int count, char **words) {
    if (count != 2) return 2;
    std::remove(words[1]);
    pp::file::make(words[1], 64, 512);
    pp::file file(words[1], 512);
    const pinpool_policy policy = {16, 2, 6, 3};
    pp::pool pool(settings, policy, file.device());
    const pinpool_plan plan = pool.prepare(plan_of_moves);
    std::vector<std::thread> threads;
    for (std::uint32_t i = 0; i < 4; i++)
        threads.emplace_back([&, i] {
            mover work(i);
            for (int turn = 0; turn < 1000; turn++) pool.execute(plan, work);
        });
    for (auto &it : threads) it.join();
    bool has_thrown = false;
    try {
        mover work(7);
        work.is_to_throw = true;
        pool.execute(plan, work);
    } catch (const std::range_error &) {
        has_thrown = true;
    }
    const auto stats = pool.stats();
    pool.close();
    const std::int64_t moved = sum_of(words[1]);
    std::printf("pinpool %s: %llu plans, %llu misses, %lld moved: %s\n", pinpool_version(),
        static_cast<unsigned long long>(stats.done), static_cast<unsigned long long>(stats.misses), static_cast<long long>(moved),
        moved == 8000 && has_thrown ? "right" : "WRONG");
    return moved != 8000 || !has_thrown;
}
