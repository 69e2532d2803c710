// SPDX-License-Identifier: Apache-2.0
// The cache from C++: a pointer that frees itself, and a page that unpins itself.
#include "pinpool_cache.h"
#include <cstdio>
#include <memory>
#include <new>
#include <stdexcept>
#include <string>
#include <vector>

struct Free {
    void operator()(pinpool_cache *cache) const { pinpool_cache_free(cache); }
};
using Cache = std::unique_ptr<pinpool_cache, Free>;

static Cache made(std::uint32_t size) {
    pinpool_cache *cache = nullptr;
    if (pinpool_cache_new(size, &cache) != PINPOOL_OK) throw std::bad_alloc();
    return Cache(cache);
}

// A page in use.
class Pinned {
    pinpool_cache *cache;
    std::uint32_t key;

public:
    pinpool_page page;

    Pinned(const Cache &from, std::uint32_t of) : cache(from.get()), key(of), page() {
        if (pinpool_cache_fetch(cache, key, PINPOOL_ALWAYS, &page) != PINPOOL_OK) throw std::bad_alloc();
    }
    Pinned(const Pinned &) = delete;
    Pinned &operator=(const Pinned &) = delete;
    ~Pinned() { pinpool_cache_unpin(cache, key, 0, nullptr); }
};

int main() {
    Cache cache = made(8);
    std::vector<std::string> frames(64);
    for (std::uint32_t i = 0; i < 1000; i++) {
        std::uint32_t key = i * i % 23;
        Pinned pinned(cache, key);
        std::string &bytes = frames.at(pinned.page.frame);
        if (pinned.page.found == PINPOOL_NEW) bytes = "page " + std::to_string(key);
        if (bytes != "page " + std::to_string(key)) throw std::runtime_error("another page's bytes");
    }
    pinpool_counts counts;
    if (pinpool_cache_counts(cache.get(), &counts) != PINPOOL_OK) return 1;
    std::printf("pinpool %s: %llu hits of 1000, %u pages in %u frames\n", pinpool_cache_version(),
        static_cast<unsigned long long>(counts.hits), counts.pages, counts.frames);
    return counts.hits + counts.misses == 1000 ? 0 : 1;
}
