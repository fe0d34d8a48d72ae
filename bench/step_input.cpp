// Writes a plan and captures for bench/step.sh into a folder: plan.toml, in.0.pcap, in.1.pcap and so on. The words:
//   step_input LOAD PACKETS FLOWS SHARDS INSTANCES BATCH EPOCHS FOLDER
// LOAD is nat, firewall or balancer, or one of these made hard: returns (a balancer whose packets come back, all but the first
// of each flow), colliding (a balancer whose clients are chosen to meet in one group of a hash map with the kit's fixed seed), full
// (a NAT with a pool of 1,024 ports, all of whose flows begin at one port) or wide (a firewall with frames of 1,500 bytes).
// The packets are dealt to as many lanes as there are instances. With more than one epoch all packets stand on lane 0, and each
// epoch takes its share by a quota, so that most instances have nothing to do.
#include <algorithm>
#include <cstdint>
#include <cstdio>
#include <cstdlib>
#include <fstream>
#include <string>
#include <vector>

using Bytes = std::string;

constexpr uint32_t INSIDE = 0x0a000001;   // 10.0.0.1
constexpr uint32_t OUTSIDE = 0xcb007101;  // 203.0.113.1
constexpr uint32_t SERVER = 0xc6336407;   // 198.51.100.7
constexpr uint32_t SERVICE = 0xc633640a;  // 198.51.100.10
constexpr uint32_t CLIENT = 0xc0000201;   // 192.0.2.1
constexpr uint32_t BACKEND = 0x0a010001;  // 10.1.0.1
constexpr uint16_t LOW = 1024;
constexpr uint8_t SYN = 2;
constexpr uint8_t ACK = 16;

struct Segment {
    uint8_t proto;
    uint32_t source;
    uint16_t source_port;
    uint32_t dest;
    uint16_t dest_port;
    uint8_t flags;
};

static void add(Bytes &out, uint64_t number, int bytes) {
    for (int shift = 8 * (bytes - 1); shift >= 0; shift -= 8) out += static_cast<char>(number >> shift & 255);
}

static void add_little(Bytes &out, uint32_t number) {
    for (int shift = 0; shift < 32; shift += 8) out += static_cast<char>(number >> shift & 255);
}

static uint32_t sum_of(const Bytes &bytes) {
    uint32_t sum = 0;
    for (size_t k = 0; k + 1 < bytes.size(); k += 2)
        sum += static_cast<uint32_t>(static_cast<unsigned char>(bytes[k]) << 8 | static_cast<unsigned char>(bytes[k + 1]));
    while (sum >> 16) sum = (sum & 0xffff) + (sum >> 16);
    return sum;
}

static void set_check(Bytes &bytes, size_t at, uint32_t sum) {
    uint32_t check = ~sum & 0xffff;
    bytes[at] = static_cast<char>(check >> 8);
    bytes[at + 1] = static_cast<char>(check & 255);
}

static Bytes frame_of(const Segment &s, uint16_t number, size_t payload) {
    Bytes l4;
    add(l4, s.source_port, 2);
    add(l4, s.dest_port, 2);
    if (s.proto == 6) {
        add(l4, number, 4);
        add(l4, 0, 4);
        add(l4, 0x5000u | s.flags, 2);
        add(l4, 0xffff0000, 4);
        add(l4, 0, 2);
    } else {
        add(l4, 8, 2);
        add(l4, 0, 2);
    }
    l4.append(payload, 'x');
    Bytes pseudo;
    add(pseudo, s.source, 4);
    add(pseudo, s.dest, 4);
    add(pseudo, s.proto, 2);
    add(pseudo, l4.size(), 2);
    set_check(l4, s.proto == 6 ? 16 : 6, sum_of(pseudo + l4));
    Bytes header;
    add(header, 0x4500, 2);
    add(header, 20 + l4.size(), 2);
    add(header, number, 2);
    add(header, 0x4000, 2);
    add(header, 0x4000u | s.proto, 2);
    add(header, 0, 2);
    add(header, s.source, 4);
    add(header, s.dest, 4);
    set_check(header, 10, sum_of(header));
    return header + l4;
}

// What the kit's map makes of a key whose low half is this pair, under the hash with the fixed seed.
static uint32_t fixed_hash(uint64_t pair) {
    constexpr uint64_t seed = 0x243f6a8885a308d3u + 16;
    constexpr uint64_t factor = 0x9e3779b97f4a7c15u ^ 0x0411000000000000u;
    unsigned __int128 product = static_cast<unsigned __int128>(pair ^ seed) * factor;
    uint64_t hash = static_cast<uint64_t>(product) ^ static_cast<uint64_t>(product >> 64);
    return static_cast<uint32_t>(hash ^ hash >> 32);
}

struct Client {
    uint32_t addr;
    uint16_t port;
};

// Clients of one group, among up to 512, and of one tag, which the map looks at before it compares keys.
static std::vector<Client> colliding_clients(uint32_t flows) {
    std::vector<Client> clients;
    for (uint64_t pair = uint64_t{0x64400000} << 16; clients.size() < flows; pair++)
        if ((fixed_hash(pair) & 0xff0001ff) == 0x80000000)
            clients.push_back({static_cast<uint32_t>(pair >> 16), static_cast<uint16_t>(pair)});
    return clients;
}

static std::vector<Client> clients_of(const Bytes &load, uint32_t flows) {
    if (load == "colliding") return colliding_clients(flows);
    std::vector<Client> clients;
    for (uint32_t flow = 0; flow < flows; flow++) {
        auto port = static_cast<uint16_t>(1024 + flow);
        if (load == "nat" || load == "firewall" || load == "wide") clients.push_back({INSIDE, port});
        else if (load == "full") clients.push_back({INSIDE + flow, static_cast<uint16_t>(8192 - flow)});
        else clients.push_back({CLIENT, port});
    }
    return clients;
}

static uint32_t pool_of(const Bytes &load) { return load == "full" ? 1024 : 64512; }

static Segment nat_segment(Client client, uint32_t pool, uint32_t flow, uint64_t turn) {
    if (turn % 2 == 0) return {6, client.addr, client.port, SERVER, 80, turn == 0 ? SYN : ACK};
    uint64_t first = (static_cast<uint64_t>(client.addr) + client.port + (pool == 1024 ? flow : 0)) % pool;
    return {6, SERVER, 80, OUTSIDE, static_cast<uint16_t>(LOW + first), turn == 1 ? uint8_t{SYN | ACK} : ACK};
}

static Segment firewall_segment(Client client, uint64_t turn) {
    if (turn % 2 == 0) return {6, client.addr, client.port, SERVER, 80, turn == 0 ? SYN : ACK};
    return {6, SERVER, 80, client.addr, client.port, turn == 1 ? uint8_t{SYN | ACK} : ACK};
}

static Segment balancer_segment(Client client, uint32_t backend, bool back) {
    if (back) return {17, backend, 53, client.addr, client.port, 0};
    return {17, client.addr, client.port, SERVICE, 53, 0};
}

static Bytes capture_of(const Bytes &load, const std::vector<Client> &clients, uint64_t packets, uint32_t lane, uint32_t lanes) {
    Bytes out;
    for (uint32_t word : {0xa1b2c3d4u, 0x00040002u, 0u, 0u, 262144u, 101u}) add_little(out, word);
    auto flows = static_cast<uint32_t>(clients.size());
    uint32_t own = std::max(flows / lanes, 1u);
    for (uint64_t number = 0; number < packets; number++) {
        auto place = static_cast<uint32_t>(number % own);
        uint32_t flow = (place * lanes + lane) % flows;
        uint64_t turn = number / own;
        // The backend that the flow's first packet chose.
        uint32_t backend = BACKEND + (lane + place) % 2;
        Segment segment = load == "nat" || load == "full"        ? nat_segment(clients[flow], pool_of(load), flow, turn)
                          : load == "firewall" || load == "wide" ? firewall_segment(clients[flow], turn)
                          : balancer_segment(clients[flow], backend, load == "returns" ? turn > 0 : turn % 4 == 3);
        Bytes frame = frame_of(segment, static_cast<uint16_t>(number), load == "wide" ? 1460 : 0);
        auto size = static_cast<uint32_t>(frame.size());
        for (uint32_t word : {static_cast<uint32_t>(number), 0u, size, size}) add_little(out, word);
        out += frame;
    }
    return out;
}

static Bytes function_text(const Bytes &load) {
    if (load == "nat" || load == "full")
        return "function = \"nat\"\n[nat]\ninside = \"10.0.0.0/8\"\noutside = \"203.0.113.1\"\nports = [1024, " +
               std::to_string(LOW + pool_of(load) - 1) + "]\n";
    if (load == "firewall" || load == "wide")
        return "function = \"firewall\"\n[firewall]\ninside = \"10.0.0.0/8\"\n"
               "rules = [{ action = \"permit\", direction = \"out\", proto = \"tcp\" }]\n";
    return "function = \"balancer\"\n[balancer]\nproto = \"udp\"\nservice = \"198.51.100.10:53\"\n"
           "backends = [\"10.1.0.1:53\", \"10.1.0.2:53\"]\n";
}

static Bytes plan_of(const Bytes &load, uint64_t packets, uint32_t shards, uint32_t instances, uint32_t batch, uint32_t epochs) {
    Bytes head = function_text(load);
    size_t line = head.find('\n') + 1;
    Bytes plan = head.substr(0, line) + "shards = " + std::to_string(shards) + "\nbatch = " + std::to_string(batch) + "\n" + head.substr(line);
    Bytes quota = epochs == 1 ? "" : ", quota = " + std::to_string((packets + epochs - 1) / epochs);
    for (uint32_t epoch = 0; epoch < epochs; epoch++) {
        plan += "[[epoch]]\ninstances = [";
        for (uint32_t lane = 0; lane < instances; lane++) plan += (lane ? ", { lane = " : "{ lane = ") + std::to_string(lane) + quota + " }";
        plan += "]\n";
    }
    return plan;
}

static void write_file(const Bytes &name, const Bytes &bytes) {
    std::ofstream file(name, std::ios::binary);
    file.write(bytes.data(), static_cast<std::streamsize>(bytes.size()));
    if (file) return;
    std::fprintf(stderr, "step_input: can't write %s\n", name.c_str());
    std::exit(2);
}

int main(int count, char **words) {
    if (count != 9) {
        std::fprintf(stderr, "usage: step_input LOAD PACKETS FLOWS SHARDS INSTANCES BATCH EPOCHS FOLDER\n");
        return 2;
    }
    Bytes load = words[1];
    uint64_t packets = std::stoull(words[2]);
    auto number = [&](int place) { return static_cast<uint32_t>(std::stoul(words[place])); };
    uint32_t flows = number(3), shards = number(4), instances = number(5), batch = number(6), epochs = number(7);
    Bytes folder = words[8];
    std::vector<Client> clients = clients_of(load, flows);
    write_file(folder + "/plan.toml", plan_of(load, packets, shards, instances, batch, epochs));
    for (uint32_t lane = 0; lane < instances; lane++) {
        uint64_t own = epochs > 1 ? (lane == 0 ? packets : 0) : packets / instances;
        write_file(folder + "/in." + std::to_string(lane) + ".pcap",
                   capture_of(load, clients, own, epochs > 1 ? 0 : lane, epochs > 1 ? 1 : instances));
    }
    return 0;
}
