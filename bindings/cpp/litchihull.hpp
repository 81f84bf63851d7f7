// A device core and a host of litchihull.h that free themselves.
#ifndef LITCHIHULL_HPP
#define LITCHIHULL_HPP

#include "litchihull.h"

#include <cstddef>
#include <stdexcept>
#include <string>
#include <utility>
#include <vector>

namespace litchihull {

// A call that did nothing, with its code.
struct Refused : std::runtime_error {
    explicit Refused(std::uint32_t why) : std::runtime_error("code " + std::to_string(why) + " of litchihull.h"), code(why) {}
    std::uint32_t code;
};

// Why there is no host: with the number of the refused line of the setup, or the index of the bad record.
struct NoHost : Refused {
    NoHost(std::uint32_t why, std::uint32_t at) : Refused(why), where(at) {}
    std::uint32_t where;
};

inline void checked(std::uint32_t code) {
    if (code != LH_OK) throw Refused(code);
}

class Core {
public:
    explicit Core(const LhSettings &settings) { checked(lh_core_new(&settings, &core_)); }
    Core(const Core &) = delete;
    Core &operator=(const Core &) = delete;
    ~Core() { lh_core_free(&core_); }

    // The answer to bytes and a gap; no bytes where it is silent.
    std::vector<std::uint8_t> hear(const std::vector<std::uint8_t> &bytes) {
        std::vector<std::uint8_t> said(LH_MOST);
        std::size_t count = 0;
        const auto code = lh_core_hear(&core_, bytes.data(), bytes.size(), said.data(), said.size(), &count);
        if (code != LH_SILENCE) checked(code);
        said.resize(count);
        return said;
    }

    // The sorter path of a coin that is accepted, 0 of a bill that is held.
    std::uint8_t put(std::uint8_t place) {
        std::uint8_t path = 0;
        checked(lh_core_put(&core_, place, &path));
        return path;
    }

    void alien() { checked(lh_core_alien(&core_)); }
    void fall() { checked(lh_core_fall(&core_)); }
    void jam() { checked(lh_core_jam(&core_)); }
    void reset() { checked(lh_core_reset(&core_)); }

private:
    LhCore core_;
};

// What a host asks for: LH_IDLE to LH_ENDED, where a write goes, and the bytes.
struct Ask {
    std::uint8_t what;
    std::uint64_t at;
    std::vector<std::uint8_t> bytes;
};

// A host of the machine that setup lines say, over the bytes that its part holds now. Each method is the call of its name.
class Host {
public:
    Host(const std::string &setup, const std::vector<std::uint8_t> &part) {
        std::uint32_t where = 0;
        const auto *text = reinterpret_cast<const std::uint8_t *>(setup.data());
        const auto code = lh_host_new(text, setup.size(), part.data(), part.size(), &host_, &where);
        if (code != LH_OK) throw NoHost(code, where);
    }
    Host(const Host &) = delete;
    Host &operator=(const Host &) = delete;
    ~Host() { lh_host_free(&host_); }

    Ask ask(std::uint8_t address) {
        std::vector<std::uint8_t> bytes(LH_MOST_ASKED);
        LhAsk asked;
        checked(lh_host_ask(&host_, address, &asked, bytes.data(), bytes.size()));
        bytes.resize(asked.count);
        return {asked.what, asked.at, std::move(bytes)};
    }

    void done() { checked(lh_host_done(&host_)); }
    void lost() { checked(lh_host_lost(&host_)); }
    void taken() { checked(lh_host_taken(&host_)); }
    void heard(const std::vector<std::uint8_t> &bytes) { checked(lh_host_heard(&host_, bytes.data(), bytes.size())); }

    void command(const std::string &line) {
        checked(lh_host_command(&host_, reinterpret_cast<const std::uint8_t *>(line.data()), line.size()));
    }

    LhTotals totals() {
        LhTotals totals;
        checked(lh_host_totals(&host_, &totals));
        return totals;
    }

private:
    LhHost host_;
};

}  // namespace litchihull

#endif
