// What `foedus run` does with a script over arrays, written by hand in the plainest way: transactions over words of the
// values themselves, with no pages, a thread for each worker that has lines in a round, and the same log lines, writes
// and syncs in the same rhythm. It prints each line's outcome, or, in brief, how many committed and the sum of the values
// that its files have, which it reads again. It checks nothing. It is there for measure_rounds.py to compare with. It
// knows `array` lines, workers' lines of `r`, `w`, `a` and `t`, and `join`.
// Usage, in the folder of a fresh database: plain_rounds [--brief] < SCRIPT
#include <fcntl.h>
#include <sched.h>
#include <unistd.h>

#include <atomic>
#include <charconv>
#include <cstdint>
#include <cstdio>
#include <cstdlib>
#include <cstring>
#include <memory>
#include <string>
#include <thread>
#include <vector>

using std::size_t;

constexpr uint64_t LOCK = 1ull << 60;
constexpr uint64_t DRAWS = 1ull << 40;
constexpr size_t RECORDS = 32;

static void check(bool ok, const char *what) {
    if (!ok) {
        perror(what);
        exit(1);
    }
}

// A file that is written and synced, as the engine's devices are.
struct Device {
    int file;

    explicit Device(const std::string &name) : file(open(name.c_str(), O_RDWR)) { check(file >= 0, name.c_str()); }

    void write(uint64_t at, const unsigned char *bytes, size_t size) {
        check(pwrite(file, bytes, size, (off_t)at) == (ssize_t)size, "write");
    }

    void sync() { check(fdatasync(file) == 0, "sync"); }

    void cut() {
        check(ftruncate(file, 0) == 0, "cut");
        sync();
    }

    std::vector<unsigned char> read() {
        std::vector<unsigned char> bytes((size_t)lseek(file, 0, SEEK_END));
        check(pread(file, bytes.data(), bytes.size(), 0) == (ssize_t)bytes.size(), "read");
        return bytes;
    }
};

static void put_word(unsigned char *to, uint64_t word) {
    for (int i = 0; i < 8; i++) to[i] = (unsigned char)(word >> (56 - 8 * i));
}

static uint64_t word_at(const unsigned char *from) {
    uint64_t word = 0;
    for (int i = 0; i < 8; i++) word = word << 8 | from[i];
    return word;
}

struct Storage {
    uint64_t id, size;
    size_t at;
};

struct Table {
    std::vector<Storage> storages;
    std::vector<std::atomic<uint64_t>> words;

    Table(std::vector<Storage> storages, size_t length) : storages(std::move(storages)), words(length) {
        words[0] = DRAWS + 1;
    }

    uint32_t place(uint64_t storage, uint64_t key) const {
        for (const Storage &each : storages)
            if (each.id == storage) return (uint32_t)(each.at + 2 * key);
        exit(1);
    }
};

struct Op {
    char kind;
    uint64_t storage, key, value;
};

struct Read {
    uint64_t word, value;
    uint32_t at;
};

struct Write {
    uint64_t storage, key, value;
    uint32_t at;
};

struct Journal {
    Device device;
    unsigned char lines[4096];
    size_t filled = 0;
    uint64_t durable = 0;

    explicit Journal(const std::string &name) : device(name) { check(ftruncate(device.file, 0) == 0, "cut"); }

    void flush() {
        if (filled == 0) return;
        device.write(durable, lines, filled);
        device.sync();
        durable += filled;
        filled = 0;
    }

    void room() {
        if (sizeof lines - filled < 400) flush();
    }

    void put(uint64_t number, const Write *writes, size_t count) {
        put_word(lines + filled, number);
        put_word(lines + filled + 8, count);
        filled += 16;
        for (size_t i = 0; i < count; i++) {
            put_word(lines + filled, writes[i].storage + 256);
            put_word(lines + filled + 8, writes[i].key);
            put_word(lines + filled + 16, writes[i].value);
            filled += 24;
        }
    }
};

// The sets of one worker, made once.
struct Txn {
    Table &table;
    size_t reads = 0, writes = 0;
    Read read_set[256];
    Write write_set[16];
    uint64_t found[16];
    uint64_t number = 0;

    explicit Txn(Table &table) : table(table) {}

    std::atomic<uint64_t> &word(uint32_t at) { return table.words[at]; }

    Write *written(uint32_t at) {
        for (size_t i = 0; i < writes; i++)
            if (write_set[i].at == at) return &write_set[i];
        return nullptr;
    }

    Read *met(uint32_t at) {
        for (size_t i = 0; i < reads; i++)
            if (read_set[i].at == at) return &read_set[i];
        return nullptr;
    }

    Read *entry(uint32_t at) {
        if (Read *entry = met(at)) return entry;
        uint64_t seen = word(at).load();
        if (seen >= LOCK) return nullptr;
        uint64_t value = word(at + 1).load();
        if (word(at).load() != seen) return nullptr;
        read_set[reads] = {seen, value, at};
        return &read_set[reads++];
    }

    void set(const Op &op, uint32_t at, uint64_t value) {
        if (Write *own = written(at)) {
            own->value = value;
            return;
        }
        size_t place = writes++;
        for (; place > 0 && write_set[place - 1].at > at; place--) write_set[place] = write_set[place - 1];
        write_set[place] = {op.storage, op.key, value, at};
    }

    // False where another transaction is in the way; `keep` is false where the operation can't be done.
    bool run(const Op &op, bool &keep, std::vector<uint64_t> &replies) {
        uint32_t at = table.place(op.storage, op.key);
        if (op.kind == 'w') {
            set(op, at, op.value);
            return true;
        }
        uint64_t value;
        if (Write *own = written(at)) {
            value = own->value;
        } else {
            Read *entry = this->entry(at);
            if (!entry) return false;
            value = entry->value;
        }
        if (op.kind == 'r') replies.push_back(value);
        if (op.kind == 'a') keep = !__builtin_add_overflow(value, op.value, &value);
        if (op.kind == 't') keep = !__builtin_sub_overflow(value, op.value, &value);
        if (op.kind != 'r' && keep) set(op, at, value);
        return true;
    }

    bool back_out(size_t locked) {
        for (size_t i = 0; i < locked; i++) word(write_set[i].at).store(found[i]);
        return false;
    }

    bool lock(size_t i) {
        Write &write = write_set[i];
        uint64_t seen = word(write.at).load();
        Read *entry = met(write.at);
        uint64_t expected = entry ? entry->word : seen;
        if (seen >= LOCK || seen != expected) return false;
        found[i] = expected;
        return word(write.at).compare_exchange_strong(expected, expected + LOCK);
    }

    bool commit() {
        for (size_t i = 0; i < writes; i++)
            if (!lock(i)) return back_out(i);
        number = word(0).fetch_add(1);
        for (size_t i = 0; i < reads; i++) {
            Read &entry = read_set[i];
            uint64_t seen = word(entry.at).load();
            if (seen != entry.word && !(written(entry.at) && seen == entry.word + LOCK)) return back_out(writes);
        }
        word(1).fetch_add(1);
        for (size_t i = 0; i < writes; i++) {
            word(write_set[i].at + 1).store(write_set[i].value);
            word(write_set[i].at).store(number);
        }
        return true;
    }

    bool attempt(const std::vector<Op> &ops, std::vector<uint64_t> &replies) {
        reads = writes = 0;
        (void)word(0).load();
        bool keep = true;
        for (const Op &op : ops) {
            if (!run(op, keep, replies)) return false;
            if (!keep) break;
        }
        if (!keep) writes = 0;
        return commit();
    }
};

static uint64_t number(const char *&at) {
    uint64_t n = 0;
    while (*at >= '0' && *at <= '9') n = 10 * n + (uint64_t)(*at++ - '0');
    return n;
}

// The operations of a line, `a S K V; r S K ..`.
static void parse(const char *at, std::vector<Op> &ops) {
    ops.clear();
    while (*at != '\n') {
        at += *at == ';' ? 2 : 1;
        Op op = {*at, 0, 0, 0};
        op.storage = number(at += 2);
        op.key = number(++at);
        if (op.kind != 'r') op.value = number(++at);
        ops.push_back(op);
    }
}

// A line that committed: its number, and how many replies there are up to it.
struct Done {
    uint64_t number;
    size_t replies;
};

struct Worker {
    Journal journal;
    Txn txn;
    std::vector<const char *> lines;
    std::vector<uint64_t> replies;
    std::vector<Done> done;
    uint64_t commits = 0;

    Worker(Table &table, int worker) : journal("bank" + std::to_string(2 * worker)), txn(table) {}

    void run() {
        std::vector<Op> ops;
        for (const char *line : lines) {
            journal.room();
            parse(line, ops);
            for (;;) {
                size_t before = replies.size();
                if (txn.attempt(ops, replies)) {
                    done.push_back({txn.number, replies.size()});
                    commits++;
                    if (txn.writes > 0) journal.put(txn.number, txn.write_set, txn.writes);
                    break;
                }
                replies.resize(before);
            }
        }
        journal.flush();
        lines.clear();
    }
};

static void put_number(std::string &text, uint64_t n) {
    char digits[20];
    text.append(digits, (size_t)(std::to_chars(digits, digits + 20, n).ptr - digits));
}

// Prints the outcomes of a worker's lines of a round, with all replies.
static void tell(size_t worker, const Worker &of, std::string &text) {
    size_t reply = 0;
    for (size_t i = 0; i < of.done.size(); i++) {
        put_number(text, worker);
        text += '.';
        put_number(text, i);
        text += " ok ";
        put_number(text, of.done[i].number / DRAWS);
        text += ':';
        put_number(text, of.done[i].number % DRAWS);
        for (; reply < of.done[i].replies; reply++) {
            text += ' ';
            put_number(text, of.replies[reply]);
        }
        text += '\n';
    }
}

// A savepoint in a place that is closed: its body is written, and then the place is opened, with a sync before and
// after each.
static void save(Device &device, uint64_t sequence, uint64_t epoch) {
    unsigned char place[512] = {0};
    put_word(place + 8, 0x464F454455530001);
    put_word(place + 16, sequence);
    put_word(place + 24, epoch);
    uint64_t at = sequence % 2 ? 0 : 512;
    const unsigned char open = 0xA5, closed = 0;
    device.write(at, &closed, 1);
    device.sync();
    device.write(at + 1, place + 1, 511);
    device.sync();
    device.write(at, &open, 1);
    device.sync();
}

static void run_round(std::vector<std::unique_ptr<Worker>> &workers) {
    std::vector<Worker *> busy;
    for (auto &worker : workers)
        if (!worker->lines.empty()) busy.push_back(worker.get());
    std::vector<std::thread> threads;
    for (size_t i = 1; i < busy.size(); i++) threads.emplace_back([&, i] { busy[i]->run(); });
    if (!busy.empty()) busy[0]->run();
    for (std::thread &thread : threads) thread.join();
}

static void tell_round(std::vector<std::unique_ptr<Worker>> &workers, bool brief, uint64_t epoch) {
    std::string text;
    for (size_t worker = 0; worker < workers.size(); worker++) {
        if (!brief) tell(worker, *workers[worker], text);
        workers[worker]->replies.clear();
        workers[worker]->done.clear();
    }
    if (brief) return;
    text += "durable ";
    put_number(text, epoch);
    text += '\n';
    fwrite(text.data(), 1, text.size(), stdout);
    fflush(stdout);
}

// The sum of the values that the workers' files have, the last of each key by its number.
static unsigned __int128 sum_of_files(const Table &table, std::vector<std::unique_ptr<Worker>> &workers, size_t length) {
    std::vector<uint64_t> last(length);
    for (auto &worker : workers) {
        std::vector<unsigned char> bytes = worker->journal.device.read();
        for (const unsigned char *at = bytes.data(), *end = at + bytes.size(); at < end;) {
            uint64_t number = word_at(at), count = word_at(at + 8);
            at += 16;
            for (uint64_t i = 0; i < count; i++, at += 24) {
                uint32_t place = table.place(word_at(at) - 256, word_at(at + 8));
                if (number < last[place]) continue;
                last[place] = number;
                last[place + 1] = word_at(at + 16);
            }
        }
    }
    unsigned __int128 total = 0;
    for (size_t place = RECORDS; place < length; place += 2) total += last[place + 1];
    return total;
}

int main(int count, char **words) {
    bool brief = count > 1 && strcmp(words[1], "--brief") == 0;
    std::string script;
    char block[1 << 16];
    for (size_t n; (n = fread(block, 1, sizeof block, stdin)) > 0;) script.append(block, n);

    const char *at = script.c_str();
    std::vector<Storage> storages;
    size_t length = RECORDS;
    for (; strncmp(at, "array ", 6) == 0; at = strchr(at, '\n') + 1) {
        const char *word = at + 6;
        uint64_t id = number(word), size = number(++word);
        storages.push_back({id, size, length});
        length += 2 * size;
    }
    Table table(storages, length);
    std::vector<std::unique_ptr<Worker>> workers;
    for (int worker = 0; worker < 8; worker++) workers.push_back(std::make_unique<Worker>(table, worker));
    Device save_device("save");
    save(save_device, 1, 0);

    uint64_t epoch = 1;
    bool more = true;
    while (more) {
        for (more = false; *at && !more; at = strchr(at, '\n') + 1) {
            if (strncmp(at, "join\n", 5) == 0) {
                more = true;
            } else {
                uint64_t worker = number(at);
                workers[worker]->lines.push_back(at);
            }
        }
        more = more && *at;
        run_round(workers);
        table.words[0].fetch_add(DRAWS);
        save(save_device, epoch + 1, epoch);
        tell_round(workers, brief, epoch);
        if (epoch == 1)
            for (int worker = 0; worker < 8; worker++) Device("bank" + std::to_string(2 * worker + 1)).cut();
        epoch++;
    }

    if (!brief) return 0;
    uint64_t commits = 0;
    for (auto &worker : workers) commits += worker->commits;
    printf("commits %llu\ntotal %llu\ndurable %llu\n", (unsigned long long)commits,
           (unsigned long long)sum_of_files(table, workers, length), (unsigned long long)(epoch - 1));
    return 0;
}
