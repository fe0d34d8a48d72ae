// What crates/slnf_store_bench does, on std's hash map, without proofs: the same accesses, histories, merge and checksum.
#include <algorithm>
#include <cstdint>
#include <cstdio>
#include <cstdlib>
#include <unordered_map>
#include <vector>

using u64 = std::uint64_t;
using u128 = unsigned __int128;

enum class Kind { Read, PutIfAbsent, ReplaceIf, DeleteIf };
enum class Answer { Done = 1, Found = 2, Absent = 3 };

struct Request {
    Kind kind;
    u128 key;
    u64 version;
    u128 value;
};

struct Reply {
    Answer answer;
    u128 value;
    u64 stamp;
};

struct Entry {
    u64 stamp;
    std::uint32_t shard;
    u64 incarnation;
    u64 item;
    Request request;
    Reply reply;
};

struct Held {
    u128 value;
    u64 version;
};

struct KeyHash {
    std::size_t operator()(u128 key) const {
        u128 product = u128(u64(key) ^ u64(key >> 64) ^ 0x243f6a8885a308d3) * 0x9e3779b97f4a7c15;
        return u64(product) ^ u64(product >> 64);
    }
};

class Bucket {
public:
    explicit Bucket(std::uint32_t shard) : shard(shard) {}

    Reply access(u64 incarnation, u64 item, u64 latest, const Request& request) {
        clock = std::max(clock, latest) + 1;
        Reply reply = made(request, clock);
        entries.push_back({clock, shard, incarnation, item, request, reply});
        return reply;
    }

    std::uint32_t shard;
    u64 clock = 0;
    std::vector<Entry> entries;

private:
    Reply made(const Request& request, u64 stamp) {
        auto found = held.find(request.key);
        if (found == held.end()) {
            if (request.kind != Kind::PutIfAbsent) return {Answer::Absent, 0, 0};
            held.emplace(request.key, Held{request.value, stamp});
            return {Answer::Done, 0, stamp};
        }
        Held& there = found->second;
        bool changes = request.kind == Kind::ReplaceIf || request.kind == Kind::DeleteIf;
        if (!changes || there.version != request.version) return {Answer::Found, there.value, there.version};
        if (request.kind == Kind::ReplaceIf) there = {request.value, stamp};
        else held.erase(found);
        return {Answer::Done, 0, stamp};
    }

    std::unordered_map<u128, Held, KeyHash> held;
};

static u64 next_word(u64& state) {
    u64 word = state += 0x9e3779b97f4a7c15;
    word = (word ^ (word >> 30)) * 0xbf58476d1ce4e5b9;
    word = (word ^ (word >> 27)) * 0x94d049bb133111eb;
    return word ^ (word >> 31);
}

static Request drawn(u64 word, u128 key, u64 version) {
    u64 kind = word % 8;
    if (kind < 4) return {Kind::Read, key, 0, 0};
    if (kind < 6) return {Kind::PutIfAbsent, key, 0, word};
    return {kind == 6 ? Kind::ReplaceIf : Kind::DeleteIf, key, version, word};
}

static std::vector<Entry> merged(const std::vector<Bucket>& buckets) {
    std::size_t count = 0;
    for (const Bucket& bucket : buckets) count += bucket.entries.size();
    std::vector<Entry> all;
    all.reserve(count);
    for (const Bucket& bucket : buckets) all.insert(all.end(), bucket.entries.begin(), bucket.entries.end());
    std::stable_sort(all.begin(), all.end(), [](const Entry& a, const Entry& b) {
        return a.stamp != b.stamp ? a.stamp < b.stamp : a.shard < b.shard;
    });
    return all;
}

static u64 checksum(const std::vector<Entry>& entries) {
    u64 sum = 0xcbf29ce484222325;
    auto with = [&sum](u64 number) { sum = (sum ^ number) * 0x00000100000001b3; };
    for (const Entry& entry : entries) {
        with(entry.stamp);
        with(entry.shard);
        with(u64(entry.reply.answer));
        if (entry.reply.answer == Answer::Found) with(u64(entry.reply.value));
        if (entry.reply.answer != Answer::Absent) with(entry.reply.stamp);
    }
    return sum;
}

int main(int count, char** words) {
    u64 accesses = count > 1 ? std::strtoull(words[1], nullptr, 10) : 1000;
    std::vector<Bucket> buckets;
    for (std::uint32_t shard = 0; shard < 8; shard++) buckets.emplace_back(shard);
    std::vector<u64> versions(accesses / 8 + 1);
    u64 clocks[4] = {0, 0, 0, 0};
    u64 state = 7;
    for (u64 item = 0; item < accesses; item++) {
        u64 word = next_word(state);
        u64 place = (word >> 32) % versions.size();
        u64 version = (word >> 3) % 8 == 0 ? versions[place] / 2 : versions[place];
        u128 key = (u128(0x0411) << 112) + place;
        Bucket& bucket = buckets[std::size_t(key % buckets.size())];
        Reply reply = bucket.access(item % 4, item, clocks[item % 4], drawn(word, key, version));
        clocks[item % 4] = bucket.clock;
        versions[place] = reply.stamp;
    }
    std::vector<Entry> all = merged(buckets);
    std::printf("accesses %zu checksum %016llx\n", all.size(), (unsigned long long)checksum(all));
}
