// SPDX-License-Identifier: Apache-2.0
// The pool for C++ (from C++11 on), in the namespace pp: a pool that closes itself, works as classes, and errors as exceptions. All of it
// stands over pinpool_threads.h.
//
//     pp::file file("pages", 4096);
//     pp::pool pool(settings, policy, file.device());
//     pinpool_plan plan = pool.prepare(text);       // once for each kind of work
//     pool.execute(plan, work);                     // by any thread, at any time
//     pool.close();                                 // once no thread has it any more
#ifndef PINPOOL_HPP
#define PINPOOL_HPP

#include "pinpool_threads.h"
#include <cerrno>
#include <cstdint>
#include <exception>
#include <memory>
#include <stdexcept>
#include <string>
#include <system_error>

namespace pp {

// Why something wasn't done.
class error : public std::runtime_error {
public:
    // What was answered. For PINPOOL_DONE, the plan ended before its end, as `end` tells.
    pinpool_answer answer;
    pinpool_fault fault; // of PINPOOL_REFUSED
    pinpool_end end;

    explicit error(pinpool_answer of, const pinpool_fault &why = pinpool_fault())
        : std::runtime_error(pinpool_answer_name(of)), answer(of), fault(why), end() {}
    explicit error(const pinpool_end &how)
        : std::runtime_error(how.given_up ? "given up" : "gone"), answer(PINPOOL_DONE), fault(), end(how) {}
};

inline void see(pinpool_answer answer, const pinpool_fault &fault = pinpool_fault()) {
    if (answer != PINPOOL_DONE) throw error(answer, fault);
}

// What a thread does with the pages of its plan: the calls are those of pinpool_work. A work may throw: then its plan is given up, and
// pool::execute throws the same.
class work {
public:
    virtual ~work() = default;
    // The page to fix or gather, of ask.count ones from ask.first on. PINPOOL_NOBODY gives the plan up.
    virtual std::uint32_t page(const pinpool_ask &ask) = 0;
    // The branch to take, below ask.count. PINPOOL_NOBODY gives the plan up.
    virtual std::uint32_t branch(const pinpool_ask &) { return PINPOOL_NOBODY; }
    // ask.page in ask.slot is latched S, and the body can be read until it is unlatched, where the pool keeps it: it is fit for bytes alone.
    virtual void see(const pinpool_ask &, const std::uint8_t *) {}
    // ask.page in ask.slot is latched X, and the body can be changed until it is unlatched.
    virtual void change(const pinpool_ask &, std::uint8_t *) {}
};

// A file of pages, which closes itself.
class file {
    pinpool_file at;

public:
    file(const std::string &path, std::size_t page_bytes) : at() {
        if (!pinpool_file_open(&at, path.c_str(), page_bytes)) throw std::system_error(errno, std::generic_category(), path);
    }
    ~file() { pinpool_file_close(&at); }
    file(const file &) = delete;
    file &operator=(const file &) = delete;

    pinpool_device device() { return pinpool_file_device(&at); }

    // Makes a new file of so many pages.
    static void make(const std::string &path, std::uint32_t pages, std::size_t page_bytes) {
        if (!pinpool_file_make(path.c_str(), pages, page_bytes)) throw std::system_error(errno, std::generic_category(), path);
    }
};

// A pool that threads share. One that falls writes what is changed, as far as it can, and tells no errors; so close it.
class pool {
    pinpool_threads *at;

    // A work, and what it threw. Nothing that is thrown may pass through C.
    struct call {
        work &of;
        std::exception_ptr thrown;
    };
    template <typename T, typename F> static T guarded(void *of, T otherwise, F does) {
        call &c = *static_cast<call *>(of);
        try {
            return does(c.of);
        } catch (...) {
            c.thrown = std::current_exception();
            return otherwise;
        }
    }
    static std::uint32_t page(void *of, const pinpool_ask *ask) {
        return guarded(of, std::uint32_t(PINPOOL_NOBODY), [=](work &w) { return w.page(*ask); });
    }
    static std::uint32_t branch(void *of, const pinpool_ask *ask) {
        return guarded(of, std::uint32_t(PINPOOL_NOBODY), [=](work &w) { return w.branch(*ask); });
    }
    static int see_page(void *of, const pinpool_ask *ask, const std::uint8_t *body) {
        return guarded(of, 0, [=](work &w) { return w.see(*ask, body), 1; });
    }
    static int change_page(void *of, const pinpool_ask *ask, std::uint8_t *body) {
        return guarded(of, 0, [=](work &w) { return w.change(*ask, body), 1; });
    }

public:
    pool(const std::string &settings, const pinpool_policy &policy, const pinpool_device &device) : at() {
        pinpool_fault fault = pinpool_fault();
        pp::see(pinpool_threads_open(settings.data(), settings.size(), &policy, &device, &at, &fault), fault);
    }
    ~pool() {
        if (pinpool_threads_close(&at) != PINPOOL_DONE) pinpool_threads_abandon(&at);
    }
    pool(const pool &) = delete;
    pool &operator=(const pool &) = delete;

    pinpool_plan prepare(const std::string &text) {
        pinpool_plan plan;
        pinpool_fault fault = pinpool_fault();
        pp::see(pinpool_threads_prepare(at, text.data(), text.size(), &plan, &fault), fault);
        return plan;
    }

    // Runs the plan to its end. It throws what the work threw, and an error where the plan wasn't run, was left, or was given up.
    void execute(const pinpool_plan &plan, work &of) {
        call c = {of, nullptr};
        const pinpool_work calls = {&c, page, branch, see_page, change_page};
        pinpool_end end;
        pinpool_answer answer = pinpool_threads_execute(at, &plan, &calls, &end);
        if (c.thrown) std::rethrow_exception(c.thrown);
        pp::see(answer);
        if (end.given_up || end.is_gone) throw error(end);
    }

    // See pinpool_threads_flush, _stop, _stats, _sizes and _close.
    void flush() { pp::see(pinpool_threads_flush(at)); }
    void stop() { pinpool_threads_stop(at); }
    pinpool_stats stats() { return pinpool_threads_stats(at); }
    pinpool_sizes sizes() { return pinpool_threads_sizes(at); }
    // Where it can't be closed, it throws, and the pool stays, stopped.
    void close() { pp::see(pinpool_threads_close(&at)); }
};

} // namespace pp

#endif
