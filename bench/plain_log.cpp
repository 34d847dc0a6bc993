// What `foedus run` does with a script of additions to an array by one worker, written by hand in the plainest way: the
// values stand in a row in memory, as the engine's do, and log lines, writes and syncs are the same, in the same
// rhythm. It takes no lock and no other precaution against threads, since it has one, checks nothing and recovers
// nothing, and is there for measure_log.py to compare with. Usage, in the folder of a fresh database: plain_log < SCRIPT
#include <fcntl.h>
#include <unistd.h>

#include <cstdint>
#include <cstdio>
#include <cstdlib>
#include <cstring>
#include <string>
#include <vector>

static void check(bool ok, const char *what) {
    if (!ok) {
        perror(what);
        exit(1);
    }
}

// A file that is written and synced, as the engine's devices are.
struct Device {
    int file;

    explicit Device(const char *name) : file(open(name, O_RDWR)) { check(file >= 0, name); }

    void write(uint64_t at, const unsigned char *bytes, size_t size) {
        check(pwrite(file, bytes, size, (off_t)at) == (ssize_t)size, "write");
    }

    void sync() { check(fdatasync(file) == 0, "sync"); }
};

static void put_word(unsigned char *to, uint64_t word) {
    for (int i = 0; i < 8; i++) to[i] = (unsigned char)(word >> (56 - 8 * i));
}

// A savepoint in a place that is closed: its body is written, and then the place is opened, with a sync before and
// after each.
static void save(Device &device, uint64_t sequence, uint64_t epoch, uint64_t length) {
    unsigned char place[512] = {0};
    put_word(place + 8, 0x464F454455530001);
    put_word(place + 16, sequence);
    put_word(place + 24, epoch);
    put_word(place + 32, 1);
    put_word(place + 40, 1);
    put_word(place + 48, length);
    uint64_t at = sequence % 2 ? 0 : 512;
    const unsigned char valid = 0xA5;
    device.sync();
    device.write(at + 1, place + 1, 511);
    device.sync();
    device.write(at, &valid, 1);
    device.sync();
}

// The catalogue of an array, the first page of a database.
static void write_catalogue(Device &device, uint64_t id, uint64_t size) {
    unsigned char page[512] = {0};
    put_word(page, 0x4341540000000001);
    put_word(page + 8 * 16, 256 + id);
    put_word(page + 8 * 17, size);
    device.write(0, page, 512);
    device.sync();
}

// What a line changes, in ascending order of its keys.
struct Changes {
    uint64_t keys[16], values[16];
    size_t count = 0;

    void put(uint64_t key, uint64_t value) {
        size_t at = 0;
        while (at < count && keys[at] < key) at++;
        if (at == count || keys[at] != key) {
            memmove(keys + at + 1, keys + at, (count - at) * sizeof *keys);
            memmove(values + at + 1, values + at, (count - at) * sizeof *values);
            keys[at] = key;
            count++;
        }
        values[at] = value;
    }
};

struct Journal {
    Device device{"bank0"};
    unsigned char lines[4096];
    size_t filled = 0;
    uint64_t durable = 0;

    void flush() {
        if (filled == 0) return;
        device.write(durable, lines, filled);
        device.sync();
        durable += filled;
        filled = 0;
    }

    void room() {
        if (sizeof lines - filled < 400) flush();
    }

    void put(uint64_t number, uint64_t id, const Changes &changes) {
        put_word(lines + filled, number);
        put_word(lines + filled + 8, changes.count);
        filled += 16;
        for (size_t i = 0; i < changes.count; i++) {
            put_word(lines + filled, id + 256);
            put_word(lines + filled + 8, changes.keys[i]);
            put_word(lines + filled + 16, changes.values[i]);
            filled += 24;
        }
    }
};

static uint64_t number(const char *&at) {
    uint64_t n = 0;
    while (*at >= '0' && *at <= '9') n = 10 * n + (uint64_t)(*at++ - '0');
    return n;
}

// Runs a worker's line, `0 a S K V; a S K V ..`, and gives what it changes.
static Changes run_line(std::vector<uint64_t> &values, const char *&at) {
    Changes changes;
    number(at);
    while (*at != '\n') {
        at += *at == ';' ? 4 : 3;
        number(at);
        uint64_t key = number(++at);
        uint64_t value = number(++at);
        changes.put(key, values[key] += value);
    }
    at++;
    return changes;
}

int main() {
    std::string script, out;
    char block[1 << 16];
    for (size_t n; (n = fread(block, 1, sizeof block, stdin)) > 0;) script.append(block, n);

    // The first line is `array ID N`.
    const char *at = script.c_str() + 6;
    uint64_t id = number(at);
    uint64_t size = number(++at);
    at++;
    Device save_device("save"), snaps("snaps");
    write_catalogue(snaps, id, size);
    save(save_device, 1, 0, 0);

    std::vector<uint64_t> values(size);
    Journal journal;
    check(ftruncate(journal.device.file, 0) == 0, "cut");
    for (uint64_t draw = 1; *at; draw++) {
        journal.room();
        journal.put((uint64_t)1 << 40 | draw, id, run_line(values, at));
        char text[64];
        out.append(text, (size_t)snprintf(text, sizeof text, "0.%llu ok 1:%llu\n", (unsigned long long)(draw - 1),
                                          (unsigned long long)draw));
    }
    journal.flush();
    save(save_device, 2, 1, journal.durable);
    out += "durable 1\n";
    check(write(1, out.data(), out.size()) == (ssize_t)out.size(), "output");
}
