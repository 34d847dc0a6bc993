// What `foedus run --brief` does with a script of `foedus make`, written by hand in the plainest way: the same map
// operations and log lines, one worker's lines after another's, and the same writes and syncs in the same rhythm. It
// checks nothing and recovers nothing, and sums up what it has in memory. It is there for bench.py to compare with.
// Usage, in the folder of a fresh database: plain_brief < SCRIPT
#include <fcntl.h>
#include <unistd.h>

#include <cstdint>
#include <cstdio>
#include <cstdlib>
#include <cstring>
#include <map>
#include <string>
#include <utility>
#include <vector>

using Key = std::pair<uint64_t, uint64_t>;

static void check(bool ok, const char *what) {
    if (!ok) {
        perror(what);
        exit(1);
    }
}

// A file that is written and synced, as the engine's devices are.
struct Device {
    int file;

    explicit Device(const std::string &name) : file(open(name.c_str(), O_RDWR)) { check(file >= 0, name.c_str()); }

    void write(uint64_t at, const unsigned char *bytes, size_t size) {
        check(pwrite(file, bytes, size, (off_t)at) == (ssize_t)size, "write");
    }

    void sync() { check(fdatasync(file) == 0, "sync"); }
};

static void put_word(unsigned char *to, uint64_t word) {
    for (int i = 0; i < 8; i++) to[i] = (unsigned char)(word >> (56 - 8 * i));
}

struct Journal {
    Device device;
    unsigned char lines[4096];
    size_t filled = 0;
    uint64_t durable = 0;

    explicit Journal(int worker) : device("bank" + std::to_string(2 * worker)) {
        check(ftruncate(device.file, 0) == 0, "cut");
    }

    void flush() {
        if (filled == 0) return;
        device.write(durable, lines, filled);
        device.sync();
        durable += filled;
        filled = 0;
    }

    void room() {
        if (sizeof lines - filled < 400) flush();
    }

    void put(uint64_t number, const std::map<Key, uint64_t> &changes) {
        put_word(lines + filled, number);
        put_word(lines + filled + 8, changes.size());
        filled += 16;
        for (const auto &[key, value] : changes) {
            put_word(lines + filled, key.first + 256);
            put_word(lines + filled + 8, key.second);
            put_word(lines + filled + 16, value);
            filled += 24;
        }
    }
};

// A savepoint in a place that is closed: its body is written, and then the place is opened, with a sync before and
// after each.
static void save(Device &device, uint64_t sequence, uint64_t epoch, const std::vector<Journal> &journals) {
    unsigned char place[512] = {0};
    put_word(place + 8, 0x464F454455530001);
    put_word(place + 16, sequence);
    put_word(place + 24, epoch);
    put_word(place + 32, 1);
    put_word(place + 40, 1);
    for (size_t worker = 0; worker < journals.size(); worker++) put_word(place + 48 + 16 * worker, journals[worker].durable);
    uint64_t at = sequence % 2 ? 0 : 512;
    const unsigned char valid = 0xA5;
    device.sync();
    device.write(at + 1, place + 1, 511);
    device.sync();
    device.write(at, &valid, 1);
    device.sync();
}

// The catalogue of `array 1 1024` and `tree 2`, the first page of a database.
static void write_catalogue(Device &device) {
    unsigned char page[512] = {0};
    const uint64_t storages[] = {257, 1024, 0, 514, 0, 0};
    put_word(page, 0x4341540000000002);
    for (int i = 0; i < 6; i++) put_word(page + 8 * (16 + i), storages[i]);
    device.write(0, page, 512);
    device.sync();
}

static uint64_t number(const char *&at) {
    uint64_t n = 0;
    while (*at >= '0' && *at <= '9') n = 10 * n + (uint64_t)(*at++ - '0');
    return n;
}

// Runs the operations of a line, `a S K V; a S K V ..`, and gives what they change.
static std::map<Key, uint64_t> run_line(std::map<Key, uint64_t> &state, const char *at) {
    std::map<Key, uint64_t> changes;
    while (*at != '\n') {
        at += *at == ';' ? 4 : 3;
        uint64_t storage = number(at);
        uint64_t key = number(++at);
        uint64_t value = number(++at);
        changes[{storage, key}] = state[{storage, key}] += value;
    }
    return changes;
}

int main() {
    std::string script;
    char block[1 << 16];
    for (size_t n; (n = fread(block, 1, sizeof block, stdin)) > 0;) script.append(block, n);

    // The first two lines are the declarations.
    const char *at = strchr(strchr(script.c_str(), '\n') + 1, '\n') + 1;
    std::vector<std::vector<const char *>> lines(8);
    while (*at) {
        uint64_t worker = number(at);
        lines[worker].push_back(at);
        at = strchr(at, '\n') + 1;
    }

    Device save_device("save"), snaps("snaps");
    std::vector<Journal> journals;
    for (int worker = 0; worker < 8; worker++) journals.emplace_back(worker);
    write_catalogue(snaps);
    save(save_device, 1, 0, journals);

    std::map<Key, uint64_t> state;
    uint64_t draw = 1;
    for (int worker = 0; worker < 8; worker++) {
        for (const char *line : lines[(size_t)worker]) {
            journals[(size_t)worker].room();
            journals[(size_t)worker].put((uint64_t)1 << 40 | draw++, run_line(state, line));
        }
        journals[(size_t)worker].flush();
    }
    save(save_device, 2, 1, journals);

    unsigned __int128 total = 0;
    for (const auto &[key, value] : state) total += value;
    printf("commits %llu\ntotal %llu\ndurable 1\n", (unsigned long long)(draw - 1), (unsigned long long)total);
    return 0;
}
