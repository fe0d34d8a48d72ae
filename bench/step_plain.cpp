// The job of `slnf step`, written plainly on std's hash map: the same plans and captures in, the same bytes out. It shares no
// code with the proved program, so that a comparison of their files is a test of both; bench/step.sh times them side by side.
// It takes plans and captures as good: what `slnf step` refuses is not looked at here.
#include <algorithm>
#include <array>
#include <cctype>
#include <charconv>
#include <cstdint>
#include <cstdio>
#include <cstdlib>
#include <cstring>
#include <fstream>
#include <functional>
#include <map>
#include <optional>
#include <queue>
#include <string>
#include <string_view>
#include <unordered_map>
#include <variant>
#include <vector>

using Number = unsigned __int128;
using Bytes = std::string;

[[noreturn]] static void fail(const std::string &why) {
    std::fprintf(stderr, "step_plain: %s\n", why.c_str());
    std::exit(2);
}

// ---- Plans: the part of TOML that they need ----

struct Toml;
using Table = std::map<std::string, Toml>;
using Array = std::vector<Toml>;
struct Toml {
    std::variant<bool, int64_t, std::string, Array, Table> is;
    const Array &array() const { return std::get<Array>(is); }
    const std::string &text() const { return std::get<std::string>(is); }
    int64_t number() const { return std::get<int64_t>(is); }
};

class Reader {
  public:
    explicit Reader(std::string_view text) : text(text) {}

    Table document() {
        Table top;
        Table *now = &top;
        for (skip(true); at < text.size(); skip(true)) {
            if (text.substr(at, 2) == "[[") {
                at += 2;
                auto &list = top[word()];
                if (!std::holds_alternative<Array>(list.is)) list.is = Array{};
                auto &elements = std::get<Array>(list.is);
                elements.push_back(Toml{Table{}});
                now = &std::get<Table>(elements.back().is);
                at += 2;
            } else if (text[at] == '[') {
                at += 1;
                auto &table = top[word()];
                table.is = Table{};
                now = &std::get<Table>(table.is);
                at += 1;
            } else {
                pair(*now);
            }
        }
        return top;
    }

  private:
    std::string_view text;
    size_t at = 0;

    void skip(bool lines) {
        while (at < text.size()) {
            char c = text[at];
            if (c == '#') {
                while (at < text.size() && text[at] != '\n') at += 1;
            } else if (c == ' ' || c == '\t' || c == '\r' || (lines && c == '\n')) {
                at += 1;
            } else {
                return;
            }
        }
    }

    std::string word() {
        skip(false);
        size_t from = at;
        while (at < text.size() && (std::isalnum(static_cast<unsigned char>(text[at])) || text[at] == '_')) at += 1;
        std::string found(text.substr(from, at - from));
        skip(false);
        return found;
    }

    void pair(Table &table) {
        std::string key = word();
        if (at >= text.size() || text[at] != '=') fail("a plan that this program doesn't read");
        at += 1;
        skip(false);
        table[key] = value();
        skip(false);
    }

    Toml value() {
        char c = text[at];
        if (c == '"') {
            size_t end = text.find('"', at + 1);
            Toml found{std::string(text.substr(at + 1, end - at - 1))};
            at = end + 1;
            return found;
        }
        if (c == '[') {
            Array array;
            at += 1;
            for (skip(true); text[at] != ']'; skip(true)) {
                array.push_back(value());
                skip(true);
                if (text[at] == ',') at += 1;
            }
            at += 1;
            return Toml{array};
        }
        if (c == '{') {
            Table table;
            at += 1;
            for (skip(true); text[at] != '}'; skip(true)) {
                pair(table);
                skip(true);
                if (text[at] == ',') at += 1;
            }
            at += 1;
            return Toml{table};
        }
        std::string bare = word();
        if (bare == "true" || bare == "false") return Toml{bare == "true"};
        return Toml{static_cast<int64_t>(std::stoll(bare))};
    }
};

struct Pair {
    uint32_t addr = 0;
    uint16_t port = 0;
    bool operator==(const Pair &other) const { return addr == other.addr && port == other.port; }
};

struct Prefix {
    uint32_t addr = 0;
    unsigned bits = 0;
    bool contains(uint32_t other) const { return bits == 0 || ((addr ^ other) >> (32 - bits)) == 0; }
};

static uint32_t address(std::string_view text) {
    uint32_t whole = 0;
    uint32_t part = 0;
    for (char c : text) {
        if (c == '.') {
            whole = whole << 8 | part;
            part = 0;
        } else {
            part = part * 10 + static_cast<uint32_t>(c - '0');
        }
    }
    return whole << 8 | part;
}

static Pair pair_of(const std::string &text) {
    size_t colon = text.find(':');
    return {address(std::string_view(text).substr(0, colon)), static_cast<uint16_t>(std::stoul(text.substr(colon + 1)))};
}

static Prefix prefix_of(const std::string &text) {
    size_t slash = text.find('/');
    return {address(std::string_view(text).substr(0, slash)), static_cast<unsigned>(std::stoul(text.substr(slash + 1)))};
}

constexpr uint8_t TCP = 6;
constexpr uint8_t UDP = 17;

struct Rule {
    bool permit;
    bool outbound;
    uint8_t proto;
    Prefix source;
    Prefix dest;
    uint16_t low;
    uint16_t high;
};

struct Instance {
    uint32_t lane;
    std::optional<uint64_t> quota;
    std::optional<uint64_t> stop;
};

struct Epoch {
    std::vector<Instance> instances;
    std::vector<Pair> active;
    bool sweep = false;
    std::optional<uint64_t> sweep_stop;
    std::vector<uint32_t> schedule;
};

enum class Kind { Nat, Firewall, Balancer };

struct Plan {
    Kind kind;
    uint32_t shards = 4;
    size_t batch = 1;
    Prefix inside;
    uint32_t outside = 0;
    uint16_t low = 0;
    uint16_t high = 0;
    std::vector<Rule> rules;
    uint8_t proto = 0;
    Pair front;
    std::vector<Pair> backends;
    std::vector<Epoch> epochs;
    uint32_t ports() const { return static_cast<uint32_t>(high - low) + 1; }
};

static std::optional<uint64_t> number_at(const Table &table, const char *key) {
    auto found = table.find(key);
    if (found == table.end()) return std::nullopt;
    return static_cast<uint64_t>(found->second.number());
}

static std::string text_at(const Table &table, const char *key, const char *otherwise) {
    auto found = table.find(key);
    return found == table.end() ? otherwise : found->second.text();
}

static Rule rule_of(const Table &table) {
    std::string proto = text_at(table, "proto", "any");
    Rule rule{table.at("action").text() == "permit",
              table.at("direction").text() == "out",
              static_cast<uint8_t>(proto == "tcp" ? TCP : proto == "udp" ? UDP : 0),
              prefix_of(text_at(table, "source", "0.0.0.0/0")),
              prefix_of(text_at(table, "dest", "0.0.0.0/0")),
              0,
              65535};
    if (auto ports = table.find("ports"); ports != table.end()) {
        rule.low = static_cast<uint16_t>(ports->second.array()[0].number());
        rule.high = static_cast<uint16_t>(ports->second.array()[1].number());
    }
    return rule;
}

static Epoch epoch_of(const Plan &plan, const Table &table) {
    Epoch epoch;
    for (const Toml &instance : table.at("instances").array()) {
        const Table &keys = std::get<Table>(instance.is);
        epoch.instances.push_back({static_cast<uint32_t>(keys.at("lane").number()), number_at(keys, "quota"), number_at(keys, "stop")});
    }
    if (auto active = table.find("active"); active != table.end()) {
        for (const Toml &place : active->second.array()) epoch.active.push_back(plan.backends[static_cast<size_t>(place.number())]);
    } else {
        epoch.active = plan.backends;
    }
    if (auto sweep = table.find("sweep"); sweep != table.end()) epoch.sweep = std::get<bool>(sweep->second.is);
    epoch.sweep_stop = number_at(table, "sweep_stop");
    if (auto schedule = table.find("schedule"); schedule != table.end())
        for (const Toml &actor : schedule->second.array()) epoch.schedule.push_back(static_cast<uint32_t>(actor.number()));
    return epoch;
}

static Plan plan_of(const Bytes &text) {
    Table top = Reader(text).document();
    Plan plan;
    const std::string function = top.at("function").text();
    plan.kind = function == "nat" ? Kind::Nat : function == "firewall" ? Kind::Firewall : Kind::Balancer;
    if (auto shards = number_at(top, "shards")) plan.shards = static_cast<uint32_t>(*shards);
    if (auto batch = number_at(top, "batch")) plan.batch = *batch;
    const Table &own = std::get<Table>(top.at(function).is);
    if (plan.kind == Kind::Balancer) {
        plan.proto = own.at("proto").text() == "tcp" ? TCP : UDP;
        plan.front = pair_of(own.at("service").text());
        for (const Toml &backend : own.at("backends").array()) plan.backends.push_back(pair_of(backend.text()));
    } else {
        plan.inside = prefix_of(own.at("inside").text());
    }
    if (plan.kind == Kind::Nat) {
        plan.outside = address(own.at("outside").text());
        plan.low = static_cast<uint16_t>(own.at("ports").array()[0].number());
        plan.high = static_cast<uint16_t>(own.at("ports").array()[1].number());
    }
    if (plan.kind == Kind::Firewall)
        for (const Toml &rule : own.at("rules").array()) plan.rules.push_back(rule_of(std::get<Table>(rule.is)));
    for (const Toml &epoch : top.at("epoch").array()) plan.epochs.push_back(epoch_of(plan, std::get<Table>(epoch.is)));
    return plan;
}

// ---- Captures and frames ----

enum Reason : uint8_t { NotIpv4 = 1, Fragment, Short, Protocol, Neither, NoPort, NoFlow, DeniedRule, DeniedState, NoConn, NotPinned };

struct Packet {
    uint8_t proto;
    uint8_t flags;
    Pair source;
    Pair dest;
};

struct Record {
    size_t at;
    size_t size;
    uint8_t reason = 0; // 0: the packet is seen
    uint32_t ip = 0;
    uint32_t l4 = 0;
    Packet packet{};
};

struct Capture {
    Bytes bytes;
    std::vector<Record> records;
};

static uint16_t two(const unsigned char *at) { return static_cast<uint16_t>(at[0] << 8 | at[1]); }
static uint32_t four(const unsigned char *at) { return static_cast<uint32_t>(two(at)) << 16 | two(at + 2); }

static void view(Record &record, const unsigned char *frame, bool ethernet) {
    size_t size = record.size;
    size_t ip = ethernet ? 14 : 0;
    auto drop = [&](Reason reason) { record.reason = reason; };
    if (ethernet && (size < 14 || two(frame + 12) != 0x0800)) return drop(NotIpv4);
    const unsigned char *p = frame + ip;
    size_t rest = size - ip;
    if (rest == 0 || p[0] >> 4 != 4) return drop(NotIpv4);
    if (rest >= 8 && (two(p + 6) & 0x3fff) != 0) return drop(Fragment);
    if (rest < 20) return drop(Short);
    size_t header = 4 * (p[0] & 15u);
    size_t more = p[9] == TCP ? 20 : p[9] == UDP ? 8 : 0;
    if (header < 20 || std::min<size_t>(two(p + 2), rest) < header + more) return drop(Short);
    if (more == 0) return drop(Protocol);
    record.ip = static_cast<uint32_t>(ip);
    record.l4 = static_cast<uint32_t>(ip + header);
    const unsigned char *q = p + header;
    record.packet = {p[9], static_cast<uint8_t>(p[9] == TCP ? q[13] : 0), {four(p + 12), two(q)}, {four(p + 16), two(q + 2)}};
}

static Bytes whole_file(const char *name) {
    std::ifstream file(name, std::ios::binary | std::ios::ate);
    if (!file) fail(std::string("no file ") + name);
    Bytes bytes(static_cast<size_t>(file.tellg()), '\0');
    file.seekg(0);
    file.read(bytes.data(), static_cast<std::streamsize>(bytes.size()));
    return bytes;
}

static Capture capture_of(const char *name) {
    Capture capture{whole_file(name), {}};
    const auto *bytes = reinterpret_cast<const unsigned char *>(capture.bytes.data());
    bool big = bytes[0] == 0xa1;
    auto field = [&](size_t at) { return big ? four(bytes + at) : __builtin_bswap32(four(bytes + at)); };
    bool ethernet = field(20) == 1;
    for (size_t at = 24; at < capture.bytes.size();) {
        Record record{at, field(at + 8)};
        view(record, bytes + at + 16, ethernet);
        capture.records.push_back(record);
        at += 16 + record.size;
    }
    return capture;
}

// ---- The store ----

enum class Ask : uint8_t { Read, Put, Replace, Delete };
enum class Answer : uint8_t { Done, Found, Absent };

struct Request {
    Ask ask;
    Number key;
    Number value = 0;
    uint64_t version = 0;
};

struct Reply {
    Answer answer;
    Number value = 0;
    uint64_t version = 0;
};

struct Entry {
    Request request;
    Reply reply;
    uint64_t stamp;
    uint32_t shard;
    uint32_t incarnation;
    uint32_t item;
};

struct Hash {
    size_t operator()(Number key) const {
        uint64_t mixed = (static_cast<uint64_t>(key >> 64) * 0x9e3779b97f4a7c15u) ^ static_cast<uint64_t>(key);
        mixed = (mixed ^ (mixed >> 29)) * 0xbf58476d1ce4e5b9u;
        return static_cast<size_t>(mixed ^ (mixed >> 32));
    }
};

struct Held {
    Number value;
    uint64_t version;
};

class Store {
  public:
    explicit Store(uint32_t shards) : last(shards, 0), histories(shards) {}

    Reply access(uint32_t incarnation, uint32_t item, uint64_t &clock, const Request &request) {
        auto shard = static_cast<uint32_t>(request.key % last.size());
        uint64_t stamp = std::max(last[shard], clock) + 1;
        Reply reply = answered(request, stamp);
        last[shard] = clock = stamp;
        histories[shard].push_back({request, reply, stamp, shard, incarnation, item});
        return reply;
    }

    uint64_t latest() const { return *std::max_element(last.begin(), last.end()); }

    // The histories, each of which is sorted, merged by stamp and shard.
    std::vector<Entry> journal() {
        size_t count = 0;
        for (const auto &history : histories) count += history.size();
        std::vector<Entry> all;
        all.reserve(count);
        using Front = std::pair<uint64_t, uint32_t>; // stamp and shard
        std::priority_queue<Front, std::vector<Front>, std::greater<>> fronts;
        std::vector<size_t> next(histories.size(), 0);
        for (uint32_t shard = 0; shard < histories.size(); shard++)
            if (!histories[shard].empty()) fronts.push({histories[shard][0].stamp, shard});
        while (!fronts.empty()) {
            uint32_t shard = fronts.top().second;
            fronts.pop();
            const auto &history = histories[shard];
            size_t &at = next[shard];
            // The run of this shard up to the next front.
            do all.push_back(history[at++]);
            while (at < history.size() && (fronts.empty() || Front{history[at].stamp, shard} < fronts.top()));
            if (at < history.size()) fronts.push({history[at].stamp, shard});
        }
        histories.clear();
        return all;
    }

  private:
    std::unordered_map<Number, Held, Hash> cells;
    std::vector<uint64_t> last;
    std::vector<std::vector<Entry>> histories;

    Reply answered(const Request &request, uint64_t stamp) {
        auto there = cells.find(request.key);
        if (there == cells.end()) {
            if (request.ask != Ask::Put) return {Answer::Absent};
            cells.emplace(request.key, Held{request.value, stamp});
            return {Answer::Done, 0, stamp};
        }
        Held &held = there->second;
        bool same = held.version == request.version;
        if (request.ask == Ask::Replace && same) {
            held = {request.value, stamp};
            return {Answer::Done, 0, stamp};
        }
        if (request.ask == Ask::Delete && same) {
            cells.erase(there);
            return {Answer::Done, 0, stamp};
        }
        return {Answer::Found, held.value, held.version};
    }
};

static Number word_of(Pair pair) { return static_cast<Number>(pair.addr) << 16 | pair.port; }
static Pair pair_in(Number value) { return {static_cast<uint32_t>(value >> 16), static_cast<uint16_t>(value)}; }

static Number key_of(unsigned tag, uint8_t proto, Pair first, Pair second = {}) {
    return static_cast<Number>(tag) << 120 | static_cast<Number>(proto) << 112 | word_of(second) << 48 | word_of(first);
}

// ---- The functions' machines ----

enum class Verdict : uint8_t { Left, Lost, Keep, Source, Dest, Drop };

struct Outcome {
    Verdict verdict = Verdict::Left;
    uint8_t reason = 0;
    Pair pair;
};

static Outcome source(Pair pair) { return {Verdict::Source, 0, pair}; }
static Outcome dest(Pair pair) { return {Verdict::Dest, 0, pair}; }
static Outcome drop(Reason reason) { return {Verdict::Drop, reason, {}}; }
static Outcome keep() { return {Verdict::Keep, 0, {}}; }

enum class At : uint8_t { Look, Try, Confirm, Release, Last, LookPort, LookFlow, Remove, Add, Alter, Forward, Put, Return };

struct Flight {
    At at = At::Look;
    Packet packet{};
    uint32_t incarnation = 0;
    uint32_t place = 0;   // of a candidate
    uint64_t version = 0; // that was found or made
    Pair pair;            // that was found, or the choice
    Number value = 0;     // to write
    uint32_t base = 0;    // of a sweep's epoch
};

// A flight that goes on, an outcome, or a sweep's item that is done.
struct Next {
    std::optional<Flight> flight;
    std::optional<Outcome> outcome;
};

static Next go(const Flight &flight) { return {flight, std::nullopt}; }
static Next over(Outcome outcome) { return {std::nullopt, outcome}; }

static Pair candidate(const Plan &plan, Pair inside, uint32_t place) {
    uint64_t n = plan.ports();
    uint64_t first = (static_cast<uint64_t>(inside.addr) + inside.port) % n;
    return {plan.outside, static_cast<uint16_t>(plan.low + (first + place) % n)};
}

static Request nat_asks(const Plan &plan, const Flight &f) {
    Number flow = key_of(1, f.packet.proto, f.packet.source);
    Pair outside = candidate(plan, f.packet.source, f.place);
    Number port = key_of(2, f.packet.proto, outside);
    switch (f.at) {
    case At::Look:
    case At::Last: return {Ask::Read, flow};
    case At::Try: return {Ask::Put, port, static_cast<Number>(f.incarnation) << 48 | word_of(f.packet.source)};
    case At::Confirm: return {Ask::Put, flow, word_of(outside)};
    case At::Release: return {Ask::Delete, port, 0, f.version};
    case At::LookPort: return {Ask::Read, key_of(2, f.packet.proto, f.packet.dest)};
    case At::LookFlow: return {Ask::Read, key_of(1, f.packet.proto, f.pair)};
    default: return {Ask::Delete, key_of(2, f.packet.proto, f.packet.dest), 0, f.version};
    }
}

static Next nat_goes(const Plan &plan, Flight f, const Reply &reply) {
    bool found = reply.answer == Answer::Found;
    Pair there = pair_in(reply.value);
    switch (f.at) {
    case At::Look:
        if (found) return over(source(there));
        f.at = At::Try;
        return go(f);
    case At::Try:
        if (reply.answer == Answer::Done) {
            f.at = At::Confirm;
            f.version = reply.version;
        } else if (f.place + 1 < plan.ports()) {
            f.place += 1;
        } else {
            f.at = At::Last;
        }
        return go(f);
    case At::Confirm:
        if (!found) return over(source(candidate(plan, f.packet.source, f.place)));
        f.at = At::Release;
        f.pair = there;
        return go(f);
    case At::Release: return over(source(f.pair));
    case At::Last: return over(found ? source(there) : drop(NoPort));
    case At::LookPort:
        if (!found) return over(drop(NoFlow));
        f.at = At::LookFlow;
        f.pair = there;
        return go(f);
    default: return over(found && there == f.packet.dest ? dest(f.pair) : drop(NoFlow));
    }
}

static Next sweep_goes(Flight f, const Reply &reply) {
    bool found = reply.answer == Answer::Found;
    if (f.at == At::LookPort && found && (reply.value >> 48) < f.base) {
        f.at = At::LookFlow;
        f.pair = pair_in(reply.value);
        f.version = reply.version;
        return go(f);
    }
    if (f.at == At::LookFlow && !(found && pair_in(reply.value) == f.packet.dest)) {
        f.at = At::Remove;
        return go(f);
    }
    return {};
}

enum class Segment { Syn, SynAck, Fin, Rst, Ack, Bare, Datagram };

static Segment segment_of(const Packet &packet) {
    uint8_t flags = packet.flags;
    if (packet.proto == UDP) return Segment::Datagram;
    if (flags & 4) return Segment::Rst;
    if (flags & 2) return flags & 16 ? Segment::SynAck : Segment::Syn;
    if (flags & 1) return Segment::Fin;
    return flags & 16 ? Segment::Ack : Segment::Bare;
}

constexpr int STAY = 0;
constexpr int DENY = -1;
constexpr int REOPEN = -2;

// The moves of states 1 to 7, by kind (Syn, SynAck, Fin, Rst, Ack, Bare) and by side, the opener's first.
constexpr int MOVES[7][6][2] = {
    {{STAY, DENY}, {DENY, 2}, {DENY, DENY}, {7, 7}, {DENY, DENY}, {DENY, DENY}},
    {{STAY, DENY}, {DENY, STAY}, {4, 5}, {7, 7}, {3, STAY}, {DENY, DENY}},
    {{STAY, DENY}, {DENY, STAY}, {4, 5}, {7, 7}, {STAY, STAY}, {DENY, DENY}},
    {{DENY, DENY}, {DENY, DENY}, {STAY, 6}, {7, 7}, {STAY, STAY}, {DENY, DENY}},
    {{DENY, DENY}, {DENY, DENY}, {6, STAY}, {7, 7}, {STAY, STAY}, {DENY, DENY}},
    {{DENY, DENY}, {DENY, DENY}, {STAY, STAY}, {7, 7}, {7, 7}, {DENY, DENY}},
    {{REOPEN, REOPEN}, {DENY, DENY}, {STAY, STAY}, {STAY, STAY}, {STAY, STAY}, {DENY, DENY}},
};

static int move_of(unsigned state, bool opener, Segment segment) {
    if (state == 8) return segment == Segment::Datagram ? STAY : DENY;
    if (segment == Segment::Datagram) return DENY;
    return MOVES[state - 1][static_cast<size_t>(segment)][opener ? 0 : 1];
}

static bool is_outbound(const Plan &plan, const Packet &packet) { return plan.inside.contains(packet.source.addr); }

static bool permits(const Plan &plan, const Packet &packet) {
    bool outbound = is_outbound(plan, packet);
    for (const Rule &rule : plan.rules)
        if (rule.outbound == outbound && (rule.proto == 0 || rule.proto == packet.proto) && rule.source.contains(packet.source.addr) &&
            rule.dest.contains(packet.dest.addr) && rule.low <= packet.dest.port && packet.dest.port <= rule.high)
            return rule.permit;
    return false;
}

static Number opened(const Plan &plan, const Packet &packet) {
    return (is_outbound(plan, packet) ? 0u : 1u) << 8 | (packet.proto == TCP ? 1u : 8u);
}

static Next decided(const Plan &plan, Flight f, const Reply &reply) {
    if (reply.answer == Answer::Absent) {
        if (f.packet.proto == TCP && segment_of(f.packet) != Segment::Syn) return over(drop(NoConn));
        if (!permits(plan, f.packet)) return over(drop(DeniedRule));
        f.at = At::Add;
        f.value = opened(plan, f.packet);
        return go(f);
    }
    bool by_outside = (reply.value >> 8) != 0;
    int move = move_of(static_cast<unsigned>(reply.value & 255), by_outside != is_outbound(plan, f.packet), segment_of(f.packet));
    if (move == STAY) return over(keep());
    if (move == DENY) return over(drop(DeniedState));
    if (move == REOPEN && !permits(plan, f.packet)) return over(drop(DeniedRule));
    f.at = At::Alter;
    f.version = reply.version;
    f.value = move == REOPEN ? opened(plan, f.packet) : (by_outside ? 256u : 0u) | static_cast<unsigned>(move);
    return go(f);
}

static Request firewall_asks(const Plan &plan, const Flight &f) {
    bool outbound = is_outbound(plan, f.packet);
    Pair inside = outbound ? f.packet.source : f.packet.dest;
    Pair outside = outbound ? f.packet.dest : f.packet.source;
    Number key = key_of(3, f.packet.proto, inside, outside);
    if (f.at == At::Add) return {Ask::Put, key, f.value};
    if (f.at == At::Alter) return {Ask::Replace, key, f.value, f.version};
    return {Ask::Read, key};
}

static Request balancer_asks(const Flight &f) {
    if (f.at == At::Return) return {Ask::Read, key_of(4, f.packet.proto, f.packet.dest)};
    Number key = key_of(4, f.packet.proto, f.packet.source);
    if (f.at == At::Put) return {Ask::Put, key, word_of(f.pair)};
    return {Ask::Read, key};
}

static Next balancer_goes(const Plan &plan, Flight f, const Reply &reply) {
    bool found = reply.answer == Answer::Found;
    if (f.at == At::Return) {
        bool pinned = found && pair_in(reply.value) == f.packet.source;
        return over(pinned ? source(plan.front) : drop(NotPinned));
    }
    if (found) return over(dest(pair_in(reply.value)));
    if (reply.answer == Answer::Done) return over(dest(f.pair));
    f.at = At::Put;
    return go(f);
}

static Next start(const Plan &plan, const Epoch &epoch, uint32_t incarnation, uint32_t number, const Record &record) {
    if (record.reason) return over(drop(static_cast<Reason>(record.reason)));
    const Packet &packet = record.packet;
    Flight f;
    f.packet = packet;
    f.incarnation = incarnation;
    bool from = plan.inside.contains(packet.source.addr);
    bool into = plan.inside.contains(packet.dest.addr);
    switch (plan.kind) {
    case Kind::Nat:
        if (from && !into && packet.dest.addr != plan.outside) return go(f);
        if (packet.dest.addr != plan.outside || from) return over(drop(Neither));
        f.at = At::LookPort;
        return go(f);
    case Kind::Firewall: return from != into ? go(f) : over(drop(Neither));
    case Kind::Balancer:
        if (packet.proto != plan.proto) return over(drop(Neither));
        if (packet.dest == plan.front) {
            f.at = At::Forward;
            f.pair = epoch.active[(static_cast<uint64_t>(incarnation) + number) % epoch.active.size()];
            return go(f);
        }
        if (std::find(plan.backends.begin(), plan.backends.end(), packet.source) == plan.backends.end()) return over(drop(Neither));
        f.at = At::Return;
        return go(f);
    }
    return {};
}

// ---- Actors ----

struct Turn {
    uint32_t shard;
    uint32_t slot;
};

struct Actor {
    const Plan &plan;
    const Epoch &epoch;
    const std::vector<Record> *records; // of its lane; a sweep has none
    std::vector<Outcome> *outcomes;
    uint32_t incarnation;
    uint32_t base;
    uint64_t clock;
    std::optional<uint64_t> stop;
    uint64_t end;
    uint64_t next;      // the first item that no batch has
    uint64_t made = 0;  // accesses
    uint64_t first = 0; // the batch in hand begins here
    std::vector<std::optional<Flight>> batch{};
    std::vector<Number> keys{}; // the first keys of the batch
    std::vector<Turn> round{};
    size_t turn = 0;

    bool stopped() const { return stop && made == *stop; }

    Request asks(const Flight &flight) const {
        switch (plan.kind) {
        case Kind::Nat: return nat_asks(plan, flight);
        case Kind::Firewall: return firewall_asks(plan, flight);
        default: return balancer_asks(flight);
        }
    }

    Next goes(const Flight &flight, const Reply &reply) const {
        if (!records) return sweep_goes(flight, reply);
        switch (plan.kind) {
        case Kind::Nat: return nat_goes(plan, flight, reply);
        case Kind::Firewall: return decided_or_written(flight, reply);
        default: return balancer_goes(plan, flight, reply);
        }
    }

    Next decided_or_written(const Flight &flight, const Reply &reply) const {
        return reply.answer == Answer::Done ? over(keep()) : decided(plan, flight, reply);
    }

    Next begins(uint64_t item) const {
        if (records) return start(plan, epoch, incarnation, static_cast<uint32_t>(item), (*records)[item]);
        uint32_t n = plan.ports();
        Flight flight;
        flight.at = At::LookPort;
        flight.packet = {item < n ? TCP : UDP, 0, {}, {plan.outside, static_cast<uint16_t>(plan.low + item % n)}};
        flight.base = base;
        return go(flight);
    }

    void end_item(uint64_t item, const Next &how) {
        if (records && how.outcome) (*outcomes)[item] = *how.outcome;
    }

    // Takes the next batch: the longest run of next items without a repeated first key.
    void take() {
        first = next;
        batch.clear();
        keys.clear();
        size_t most = records ? plan.batch : 1;
        while (next < end && batch.size() < most) {
            Next how = begins(next);
            if (how.flight) {
                Number key = asks(*how.flight).key;
                if (std::find(keys.begin(), keys.end(), key) != keys.end()) break;
                keys.push_back(key);
            }
            if (records) (*outcomes)[next].verdict = Verdict::Lost;
            end_item(next, how);
            batch.push_back(how.flight);
            next += 1;
        }
    }

    void open_round() {
        round.clear();
        turn = 0;
        for (uint32_t slot = 0; slot < batch.size(); slot++)
            if (batch[slot]) round.push_back({static_cast<uint32_t>(asks(*batch[slot]).key % plan.shards), slot});
        std::sort(round.begin(), round.end(),
                  [](const Turn &a, const Turn &b) { return a.shard != b.shard ? a.shard < b.shard : a.slot < b.slot; });
    }

    // Opens the next round, of the batch in hand or of the first one behind it in which an item flies.
    void settle() {
        open_round();
        while (round.empty() && next < end) {
            take();
            open_round();
        }
    }

    bool ended() const { return stopped() || turn == round.size(); }

    // Makes one access, where the actor has one to make.
    bool step(Store &store) {
        if (ended()) return false;
        uint32_t slot = round[turn].slot;
        uint64_t item = first + slot;
        Reply reply = store.access(incarnation, static_cast<uint32_t>(item), clock, asks(*batch[slot]));
        made += 1;
        turn += 1;
        if (stopped()) return true;
        Next how = goes(*batch[slot], reply);
        batch[slot] = how.flight;
        end_item(item, how);
        if (turn == round.size()) settle();
        return true;
    }
};

static void run_epoch(const Plan &plan, const Epoch &epoch, uint32_t base, const std::vector<Capture> &captures, Store &store,
                      std::vector<uint64_t> &places, std::vector<std::vector<Outcome>> &outcomes) {
    static const std::vector<Record> none;
    static std::vector<Outcome> nothing;
    std::vector<Actor> actors;
    uint64_t clock = store.latest();
    for (size_t k = 0; k < epoch.instances.size(); k++) {
        const Instance &instance = epoch.instances[k];
        bool there = instance.lane < captures.size();
        const auto &records = there ? captures[instance.lane].records : none;
        uint64_t at = places[instance.lane];
        uint64_t count = std::min<uint64_t>(records.size() - at, instance.quota.value_or(UINT64_MAX));
        actors.push_back({plan, epoch, &records, there ? &outcomes[instance.lane] : &nothing, static_cast<uint32_t>(base + k), base, clock,
                          instance.stop, at + count, at});
    }
    if (epoch.sweep)
        actors.push_back({plan, epoch, nullptr, nullptr, static_cast<uint32_t>(base + epoch.instances.size()), base, clock,
                          epoch.sweep_stop, 2 * plan.ports(), 0});
    for (Actor &actor : actors)
        if (!actor.stopped()) actor.settle();
    for (uint32_t number : epoch.schedule) actors[number].step(store);
    std::vector<size_t> going;
    for (size_t k = 0; k < actors.size(); k++) going.push_back(k);
    while (!going.empty()) {
        size_t kept = 0;
        for (size_t k : going)
            if (actors[k].step(store)) going[kept++] = k;
        going.resize(kept);
    }
    for (size_t k = 0; k < epoch.instances.size(); k++) places[epoch.instances[k].lane] = actors[k].next;
}

// ---- Texts and outputs ----

static void add_decimal(Bytes &out, uint64_t number) {
    char digits[20];
    auto end = std::to_chars(digits, digits + sizeof digits, number).ptr;
    out.append(digits, end);
}

static void add_number(Bytes &out, Number number) {
    char digits[32];
    for (int place = 31; place >= 0; place--) {
        digits[place] = "0123456789abcdef"[static_cast<unsigned>(number & 15)];
        number >>= 4;
    }
    out.append(digits, sizeof digits);
}

static void add_pair(Bytes &out, Pair pair) {
    for (int shift = 24; shift >= 0; shift -= 8) {
        add_decimal(out, pair.addr >> shift & 255);
        out += shift ? '.' : ':';
    }
    add_decimal(out, pair.port);
}

static void add_entry(Bytes &out, const Entry &e) {
    for (uint64_t field : {e.stamp, uint64_t{e.shard}, uint64_t{e.incarnation}, uint64_t{e.item}}) {
        add_decimal(out, field);
        out += ' ';
    }
    static const char *const names[] = {"read ", "put ", "replace ", "delete "};
    out += names[static_cast<size_t>(e.request.ask)];
    add_number(out, e.request.key);
    out += ' ';
    if (e.request.ask == Ask::Replace || e.request.ask == Ask::Delete) {
        add_decimal(out, e.request.version);
        out += ' ';
    }
    if (e.request.ask == Ask::Put || e.request.ask == Ask::Replace) {
        add_number(out, e.request.value);
        out += ' ';
    }
    if (e.reply.answer == Answer::Done) {
        out += "done ";
        add_decimal(out, e.reply.version);
    } else if (e.reply.answer == Answer::Found) {
        out += "found ";
        add_number(out, e.reply.value);
        out += ' ';
        add_decimal(out, e.reply.version);
    } else {
        out += "absent";
    }
    out += '\n';
}

static Bytes journal_text(const std::vector<Entry> &journal) {
    Bytes out = "slnf journal 1\n";
    out.reserve(out.size() + journal.size() * 128);
    for (const Entry &entry : journal) add_entry(out, entry);
    return out;
}

static Bytes verdicts_text(const std::vector<std::vector<Outcome>> &outcomes) {
    Bytes out = "slnf verdicts 1\n";
    size_t packets = 0;
    for (const auto &lane : outcomes) packets += lane.size();
    out.reserve(out.size() + packets * 48);
    for (size_t lane = 0; lane < outcomes.size(); lane++) {
        for (size_t number = 0; number < outcomes[lane].size(); number++) {
            const Outcome &outcome = outcomes[lane][number];
            add_decimal(out, lane);
            out += ' ';
            add_decimal(out, number);
            switch (outcome.verdict) {
            case Verdict::Keep: out += " emit keep"; break;
            case Verdict::Source: out += " emit source "; add_pair(out, outcome.pair); break;
            case Verdict::Dest: out += " emit dest "; add_pair(out, outcome.pair); break;
            case Verdict::Drop: out += " drop "; add_decimal(out, outcome.reason); break;
            case Verdict::Lost: out += " lost"; break;
            case Verdict::Left: out += " left"; break;
            }
            out += '\n';
        }
    }
    return out;
}

// RFC 1624, equation 3, over the words of a pair.
static uint16_t adjusted(uint16_t check, const uint16_t *old, const uint16_t *now, size_t words) {
    uint32_t sum = static_cast<uint16_t>(~check);
    for (size_t k = 0; k < words; k++) sum += static_cast<uint32_t>(static_cast<uint16_t>(~old[k])) + now[k];
    while (sum >> 16) sum = (sum & 0xffff) + (sum >> 16);
    return static_cast<uint16_t>(~sum);
}

static void put_two(Bytes &out, size_t at, uint16_t word) {
    out[at] = static_cast<char>(word >> 8);
    out[at + 1] = static_cast<char>(word & 255);
}

static void rewrite(Bytes &out, size_t frame, const Record &record, const Outcome &outcome) {
    const auto *bytes = reinterpret_cast<const unsigned char *>(out.data());
    bool is_source = outcome.verdict == Verdict::Source;
    size_t ip = frame + record.ip;
    size_t l4 = frame + record.l4;
    size_t addr = ip + (is_source ? 12 : 16);
    size_t port = l4 + (is_source ? 0 : 2);
    const uint16_t old[3] = {two(bytes + addr), two(bytes + addr + 2), two(bytes + port)};
    const uint16_t now[3] = {static_cast<uint16_t>(outcome.pair.addr >> 16), static_cast<uint16_t>(outcome.pair.addr), outcome.pair.port};
    bool is_tcp = record.packet.proto == TCP;
    size_t check = l4 + (is_tcp ? 16 : 6);
    uint16_t header = adjusted(two(bytes + ip + 10), old, now, 2);
    uint16_t before = two(bytes + check);
    uint16_t after = adjusted(before, old, now, 3);
    if (!is_tcp) after = before == 0 ? 0 : after == 0 ? 0xffff : after;
    put_two(out, ip + 10, header);
    put_two(out, check, after);
    put_two(out, addr, now[0]);
    put_two(out, addr + 2, now[1]);
    put_two(out, port, now[2]);
}

static Bytes output_of(const Capture &capture, const std::vector<Outcome> &outcomes) {
    Bytes out = capture.bytes.substr(0, 24);
    out.reserve(capture.bytes.size());
    for (size_t number = 0; number < capture.records.size(); number++) {
        const Record &record = capture.records[number];
        const Outcome &outcome = outcomes[number];
        if (outcome.verdict != Verdict::Keep && outcome.verdict != Verdict::Source && outcome.verdict != Verdict::Dest) continue;
        size_t frame = out.size() + 16;
        out.append(capture.bytes, record.at, 16 + record.size);
        if (outcome.verdict != Verdict::Keep) rewrite(out, frame, record, outcome);
    }
    return out;
}

static void write_file(const std::string &name, const Bytes &bytes) {
    std::ofstream file(name, std::ios::binary);
    file.write(bytes.data(), static_cast<std::streamsize>(bytes.size()));
    if (!file) fail("can't write " + name);
}

static Bytes summary_of(const std::vector<std::vector<Outcome>> &outcomes, size_t entries) {
    std::array<uint64_t, 4> counts{}; // emitted, dropped, lost, left
    uint64_t packets = 0;
    for (const auto &lane : outcomes) {
        packets += lane.size();
        for (const Outcome &outcome : lane)
            counts[outcome.verdict == Verdict::Drop ? 1 : outcome.verdict == Verdict::Lost ? 2 : outcome.verdict == Verdict::Left ? 3 : 0] += 1;
    }
    return "packets " + std::to_string(packets) + " emitted " + std::to_string(counts[0]) + " dropped " + std::to_string(counts[1]) +
           " lost " + std::to_string(counts[2]) + " left " + std::to_string(counts[3]) + " entries " + std::to_string(entries) + "\n";
}

int main(int count, char **words) {
    if (count < 5) fail("usage: step_plain step PLAN OUT IN..");
    Plan plan = plan_of(whole_file(words[2]));
    std::string out = words[3];
    std::vector<Capture> captures;
    for (int k = 4; k < count; k++) captures.push_back(capture_of(words[k]));
    Store store(plan.shards);
    std::vector<uint64_t> places(32, 0);
    std::vector<std::vector<Outcome>> outcomes;
    for (const Capture &capture : captures) outcomes.emplace_back(capture.records.size());
    uint32_t base = 0;
    for (const Epoch &epoch : plan.epochs) {
        run_epoch(plan, epoch, base, captures, store, places, outcomes);
        base += static_cast<uint32_t>(epoch.instances.size()) + (epoch.sweep ? 1 : 0);
    }
    std::vector<Entry> journal = store.journal();
    for (size_t lane = 0; lane < captures.size(); lane++)
        write_file(out + "." + std::to_string(lane) + ".pcap", output_of(captures[lane], outcomes[lane]));
    write_file(out + ".verdicts", verdicts_text(outcomes));
    write_file(out + ".journal", journal_text(journal));
    Bytes summary = summary_of(outcomes, journal.size());
    std::fwrite(summary.data(), 1, summary.size(), stdout);
    bool left = std::any_of(outcomes.begin(), outcomes.end(), [](const auto &lane) {
        return std::any_of(lane.begin(), lane.end(), [](const Outcome &outcome) { return outcome.verdict == Verdict::Left; });
    });
    return left ? 1 : 0;
}
