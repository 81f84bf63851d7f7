// In C++ an acceptor takes a coin and tells it, and a host over a part in memory posts another. What is wanted is written here by
// docs/PROTOCOL.md and docs/SCRIPT.md.
#include "../../bindings/cpp/litchihull.hpp"

#include <algorithm>
#include <cstring>

using Bytes = std::vector<std::uint8_t>;

static const std::string SETUP = "acceptor 2 simple 0 0\nvalue 2 5 100 EU100A\n";

static LhSettings acceptor() {
    LhSettings settings{};
    settings.family = LH_ACCEPTOR;
    settings.address = 2;
    for (auto *text : {settings.maker, settings.product, settings.software, settings.build}) std::memcpy(text, "A", 1);
    for (auto &id : settings.ids) std::memcpy(id, "EU100A", 6);
    return settings;
}

// The code of what is refused, or LH_OK.
template <typename Call> static std::uint32_t code_of(Call call) {
    try {
        call();
    } catch (const litchihull::Refused &why) {
        return why.code;
    }
    return LH_OK;
}

static bool core_is_right() {
    litchihull::Core core(acceptor());
    return core.hear({2, 2, 1, 231, 16, 0, 4}) == Bytes{1, 0, 2, 0, 253} && core.put(5) == 1
        && core.hear({2, 0, 1, 229, 24}) == Bytes{1, 11, 2, 0, 1, 5, 1, 0, 0, 0, 0, 0, 0, 0, 0, 235}
        && code_of([&] { core.fall(); }) == LH_WRONG_FAMILY;
}

// Does what a host asks for at address 2, until it is idle there.
static void serve(litchihull::Host &host, Bytes &part, litchihull::Core &core) {
    for (auto asked = host.ask(2); asked.what != LH_IDLE; asked = host.ask(2)) {
        if (asked.what == LH_SEND) {
            const auto answer = core.hear(asked.bytes);
            asked.bytes.insert(asked.bytes.end(), answer.begin(), answer.end());
            host.heard(asked.bytes);
        } else if (asked.what == LH_TAKE) {
            host.taken();
        } else {
            std::copy(asked.bytes.begin(), asked.bytes.end(), part.begin() + static_cast<std::ptrdiff_t>(asked.at));
            host.done();
        }
    }
}

static bool host_is_right() {
    Bytes part(4096);
    litchihull::Core core(acceptor());
    litchihull::Host host(SETUP, part);
    const bool is_early = code_of([&] { host.command("start 2 0010"); }) == LH_NOT_NOW;
    serve(host, part, core);
    host.command("start 2 0010");
    serve(host, part, core);
    core.put(5);
    host.command("round 2");
    serve(host, part, core);
    return is_early && host.totals().available == 100 && litchihull::Host(SETUP, part).totals().available == 100;
}

static bool no_host_is_told() {
    try {
        litchihull::Host(SETUP + "value 2 17 1 EU100A\n", Bytes(2368));
    } catch (const litchihull::NoHost &why) {
        return why.code == LH_BAD_SETUP && why.where == 3;
    }
    return false;
}

int main() {
    return core_is_right() && host_is_right() && no_host_is_told() ? 0 : 1;
}
