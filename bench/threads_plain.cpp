// What crates/slnf_store_threads does, without proofs: the same rounds of accesses by std's threads over shards of std's hash
// map, each under a mutex of its own, and the same checksum.
#include <algorithm>
#include <chrono>
#include <cstdint>
#include <cstdio>
#include <cstdlib>
#include <memory>
#include <mutex>
#include <optional>
#include <thread>
#include <unordered_map>
#include <vector>

using u64 = std::uint64_t;
using u128 = unsigned __int128;

enum class Kind { Read, PutIfAbsent, ReplaceIf, DeleteIf };
enum class Answer { Done, Found, Absent };

struct Request {
    Kind kind;
    u128 key;
    u64 version;
    u128 value;
};

struct Reply {
    Answer answer;
    u128 value;
    u64 version;
};

struct Entry {
    u64 stamp;
    std::uint32_t shard;
    u64 incarnation;
    u64 item;
    Request request;
    Reply reply;
};

struct Held {
    u128 value;
    u64 version;
};

struct KeyHash {
    std::size_t operator()(u128 key) const {
        u128 product = u128(u64(key) ^ u64(key >> 64) ^ 0x243f6a8885a308d3) * 0x9e3779b97f4a7c15;
        return u64(product) ^ u64(product >> 64);
    }
};

// A shard stands on cache lines of its own.
class alignas(128) Shard {
public:
    // The pass's clock becomes the stamp of its access.
    Reply access(u64 incarnation, u64 item, u64& pass_clock, const Request& request) {
        std::lock_guard<std::mutex> turn(mutex);
        return kept(incarnation, item, pass_clock, request);
    }

    // The same for several requests, under the mutex once.
    void access_many(u64 incarnation, u64 item, u64& pass_clock, const Request* requests, Reply* replies, std::size_t count) {
        std::lock_guard<std::mutex> turn(mutex);
        for (std::size_t i = 0; i < count; i++) replies[i] = kept(incarnation, item, pass_clock, requests[i]);
    }

    std::uint32_t number = 0;
    std::vector<Entry> entries;

private:
    Reply kept(u64 incarnation, u64 item, u64& pass_clock, const Request& request) {
        clock = pass_clock = std::max(clock, pass_clock) + 1;
        Reply reply = made(request, clock);
        entries.push_back({clock, number, incarnation, item, request, reply});
        return reply;
    }

    Reply made(const Request& request, u64 stamp) {
        auto found = held.find(request.key);
        if (found == held.end()) {
            if (request.kind != Kind::PutIfAbsent) return {Answer::Absent, 0, 0};
            held.emplace(request.key, Held{request.value, stamp});
            return {Answer::Done, 0, stamp};
        }
        Held& there = found->second;
        bool changes = request.kind == Kind::ReplaceIf || request.kind == Kind::DeleteIf;
        if (!changes || there.version != request.version) return {Answer::Found, there.value, there.version};
        if (request.kind == Kind::ReplaceIf) there = {request.value, stamp};
        else held.erase(found);
        return {Answer::Done, 0, stamp};
    }

    std::mutex mutex;
    u64 clock = 0;
    std::unordered_map<u128, Held, KeyHash> held;
};

class Store {
public:
    explicit Store(std::uint32_t count) : shards(new Shard[count]), count(count) {
        for (std::uint32_t shard = 0; shard < count; shard++) shards[shard].number = shard;
    }

    Reply access(u64 incarnation, u64 item, u64& pass_clock, const Request& request) {
        return shards[std::size_t(request.key % count)].access(incarnation, item, pass_clock, request);
    }

    void access_many(u64 incarnation, u64 item, u64& pass_clock, const Request* requests, Reply* replies, std::size_t count) {
        if (count) shards[std::size_t(requests[0].key % this->count)].access_many(incarnation, item, pass_clock, requests, replies, count);
    }

    std::size_t entries() const {
        std::size_t all = 0;
        for (std::uint32_t shard = 0; shard < count; shard++) all += shards[shard].entries.size();
        return all;
    }

private:
    std::unique_ptr<Shard[]> shards;
    std::uint32_t count;
};

static u64 next_word(u64& state) {
    u64 word = state += 0x9e3779b97f4a7c15;
    word = (word ^ (word >> 30)) * 0xbf58476d1ce4e5b9;
    word = (word ^ (word >> 27)) * 0x94d049bb133111eb;
    return word ^ (word >> 31);
}

static std::optional<Request> written(u64 word, u128 key, const Reply& reply) {
    if (reply.answer == Answer::Absent) return Request{Kind::PutIfAbsent, key, 0, word};
    if (word % 8 == 0) return Request{Kind::DeleteIf, key, reply.version, 0};
    if (word % 8 == 1) return Request{Kind::ReplaceIf, key, reply.version, word};
    return std::nullopt;
}

static u64 with_reply(u64 sum, const Reply& reply) {
    u64 told = reply.answer == Answer::Done ? 1 : reply.answer == Answer::Absent ? 2 : u64(reply.value);
    return sum * 31 + told;
}

// The rounds of one thread, on keys of its own.
static u64 work(Store& store, u64 caller, u64 keys, u64 rounds) {
    u64 state = caller;
    u64 clock = 0;
    u64 sum = 0;
    for (u64 item = 0; item < rounds; item++) {
        u64 word = next_word(state);
        u128 key = (u128(0x0411) << 112) + (u128(caller) << 32) + (word >> 32) % keys;
        Reply looked = store.access(caller, item, clock, {Kind::Read, key, 0, 0});
        sum = with_reply(sum, looked);
        if (auto request = written(word, key, looked)) sum = with_reply(sum, store.access(caller, item, clock, *request));
    }
    return sum;
}

// The same with keys of one shard at a time, which are looked up in one turn and written in a second.
static u64 work_in_turns(Store& store, u64 caller, u64 keys, u64 rounds, u64 shards, u64 turn) {
    u64 state = caller;
    u64 clock = 0;
    u64 sum = 0;
    u64 drawn[32];
    Request requests[32];
    Reply replies[32];
    for (u64 item = 0; item < rounds / turn; item++) {
        u64 left = next_word(state) % shards;
        for (u64 i = 0; i < turn; i++) {
            drawn[i] = next_word(state);
            u128 key = (u128(0x0411) << 112) + (u128(caller) << 32) + left + u128((drawn[i] >> 32) % (keys / shards)) * shards;
            requests[i] = {Kind::Read, key, 0, 0};
        }
        store.access_many(caller, item, clock, requests, replies, turn);
        u64 count = 0;
        for (u64 i = 0; i < turn; i++) {
            sum = with_reply(sum, replies[i]);
            if (auto request = written(drawn[i], requests[i].key, replies[i])) requests[count++] = *request;
        }
        store.access_many(caller, item, clock, requests, replies, count);
        for (u64 i = 0; i < count; i++) sum = with_reply(sum, replies[i]);
    }
    return sum;
}

int main(int count, char** words) {
    auto word = [&](int place, u64 otherwise) { return count > place ? std::strtoull(words[place], nullptr, 10) : otherwise; };
    u64 callers = word(1, 4), shards = word(2, 8), rounds = word(3, 1000), turn = word(4, 1);
    u64 keys = word(5, 16384) / callers;
    Store store(static_cast<std::uint32_t>(shards));
    std::vector<u64> sums(callers);
    std::vector<std::thread> threads;
    auto start = std::chrono::steady_clock::now();
    for (u64 caller = 0; caller < callers; caller++)
        threads.emplace_back([&, caller] {
            sums[caller] = turn == 1 ? work(store, caller, keys, rounds) : work_in_turns(store, caller, keys, rounds, shards, turn);
        });
    for (std::thread& thread : threads) thread.join();
    auto time = std::chrono::duration_cast<std::chrono::nanoseconds>(std::chrono::steady_clock::now() - start);
    u64 sum = 0;
    for (u64 one : sums) sum += one;
    std::fprintf(stderr, "nanoseconds %lld\n", static_cast<long long>(time.count()));
    std::printf("accesses %zu checksum %016llx\n", store.entries(), static_cast<unsigned long long>(sum));
}
