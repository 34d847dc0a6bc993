// Transactions over pages, written by hand in the plainest way: the same atomic steps in the same order as those of
// page_commit, sequentially consistent, over a table of the same layout. measure_txn.py compares with it. It prints,
// line by line, what was done, how many transactions committed, and in how many nanoseconds.
//
// For arrays of 32, 1,000 and 131,072 values: 500,000 transactions that read two values and add to two others, by one
// worker and by four in threads, each on keys of its own; and as many that read sixteen, all the same.
//
// Where the table begins decides what several workers cost, as the processor fetches lines of memory by pairs of 128
// bytes: the clock and the first root are in one pair where it begins 0 to 32 bytes behind a multiple of 128, and in
// two where it begins 48 bytes behind or further. It begins 16 behind here, as a large block of malloc does, or as many
// as the first argument says.
#include <sched.h>

#include <algorithm>
#include <atomic>
#include <chrono>
#include <cstdint>
#include <cstdio>
#include <cstdlib>
#include <cstring>
#include <memory>
#include <string>
#include <thread>
#include <vector>

using std::size_t;

constexpr uint64_t LOCK = 1ull << 60;  // of a record's word; a pointer's word is shut by it
constexpr uint64_t SLOT = 1ull << 32;  // a pointer's word has a slot, plus 1, above the number of a snapshot page
constexpr uint64_t LIMIT = (1ull << 40) - 64;
constexpr uint64_t LEAF = 32, MIDDLE = 2048, TOP = 131072;
constexpr uint64_t STATE = 1 << 16, TIMES = 1 << 18;
constexpr size_t ROOTS = 10, SLOTS = 32, HASHES = 128;
constexpr size_t PAIR = 128;

static size_t behind = 16;

static size_t hash_of(uint64_t key) { return key % (1ull << 32) * 2654435761 / (1 << 25) % HASHES; }

// One array, whose root has the first root's word.
struct Table {
    std::vector<char> room;
    std::atomic<uint64_t> *words;
    uint64_t size;
    uint32_t slots;

    Table(uint64_t size, uint32_t slots)
        : room(8 * (SLOTS + 65 * size_t(slots)) + 2 * PAIR), size(size), slots(slots) {
        uintptr_t first = (reinterpret_cast<uintptr_t>(room.data()) + PAIR - 1) / PAIR * PAIR + behind % PAIR;
        words = reinterpret_cast<std::atomic<uint64_t> *>(first);
        words[0] = (1ull << 40) + 1;
    }
    uint32_t page(uint32_t slot, uint32_t index) const { return uint32_t(SLOTS + slots + 64 * size_t(slot) + index); }
};

struct Read {
    uint64_t key;
    uint32_t at;
    uint64_t word, value;
};

struct Write {
    uint64_t key, value;
    uint32_t at;
};

struct Seen {
    uint32_t at;
    uint64_t word;
};

// The sets of one worker, made once.
struct Txn {
    Table &table;
    size_t reads = 0, writes = 0, pointers = 0, holds = 0;
    Read read_set[256];
    Write write_set[16];
    Seen pointer_set[128];
    uint32_t hold_set[128];
    bool noted[4096] = {};
    bool marked[HASHES] = {};
    uint64_t found[16];

    explicit Txn(Table &table) : table(table) {}

    std::atomic<uint64_t> &word(uint32_t at) { return table.words[at]; }

    bool forget() {
        (void)word(0).load();
        leave_all();
        return false;
    }

    void leave_all() {
        for (size_t i = 0; i < holds; i++) word(uint32_t(SLOTS + hold_set[i])).fetch_sub(1);
    }

    bool begin() {
        for (size_t i = 0; i < holds; i++) noted[hold_set[i]] = false;
        memset(marked, 0, sizeof marked);
        reads = writes = pointers = holds = 0;
        return word(0).load() % (1ull << 40) < LIMIT;
    }

    Write *written(uint64_t key) {
        for (size_t i = 0; i < writes; i++)
            if (write_set[i].key == key) return &write_set[i];
        return nullptr;
    }

    bool written_at(uint32_t at) {
        for (size_t i = 0; i < writes; i++)
            if (write_set[i].at == at) return true;
        return false;
    }

    Read *met(uint64_t key) {
        if (!marked[hash_of(key)]) return nullptr;
        for (size_t i = 0; i < reads; i++)
            if (read_set[i].key == key) return &read_set[i];
        return nullptr;
    }

    Seen *kept(uint32_t at) {
        for (size_t i = 0; i < pointers; i++)
            if (pointer_set[i].at == at) return &pointer_set[i];
        return nullptr;
    }

    // The slot to which the pointer was seen to lead is held.
    bool hold(uint32_t at, uint64_t seen, uint32_t &slot) {
        slot = uint32_t(seen / SLOT) - 1;
        if (noted[slot]) return true;
        if (holds == 128) return false;
        word(uint32_t(SLOTS + slot)).fetch_add(1);
        noted[slot] = true;
        hold_set[holds++] = slot;
        return word(at).load() == seen;
    }

    enum End { Slot, Page, Refused };

    End reach(uint32_t at, uint32_t &slot, uint64_t &seen) {
        seen = word(at).load();
        Seen *before = kept(at);
        if (before && before->word != seen) return Refused;
        if (seen >= LOCK) return Refused;
        if (seen >= SLOT) return hold(at, seen, slot) ? Slot : Refused;
        return before || pointers < 128 ? Page : Refused;
    }

    // The first usable slot.
    bool give(uint32_t &slot) {
        for (slot = 0; slot < table.slots; slot++) {
            uint64_t seen = word(uint32_t(SLOTS + slot)).load();
            uint64_t low = seen % TIMES;
            if (low != 0 && low != 3 * STATE) continue;
            uint64_t expected = seen;
            return word(uint32_t(SLOTS + slot)).compare_exchange_strong(expected, STATE + (seen / TIMES + 1) * TIMES);
        }
        return false;
    }

    // The page below the pointer is in a slot.
    bool settle(uint32_t at, uint32_t &slot) {
        uint64_t seen = word(at).load();
        Seen *before = kept(at);
        if (before && before->word != seen) return false;
        if (seen >= LOCK) return false;
        if (seen >= SLOT) return hold(at, seen, slot);
        if (holds == 128 || !give(slot)) return false;
        for (uint32_t i = 0; i < 64; i++) word(table.page(slot, i)).store(0);
        word(uint32_t(SLOTS + slot)).fetch_add(STATE);
        word(uint32_t(SLOTS + slot)).fetch_add(1);
        noted[slot] = true;
        hold_set[holds++] = slot;
        uint64_t expected = seen;
        if (!word(at).compare_exchange_strong(expected, seen + SLOT * (slot + 1))) {
            word(uint32_t(SLOTS + slot)).fetch_add(STATE);
            return false;
        }
        return !before;
    }

    // The place of the key's record, which is brought into memory.
    bool bring_up(uint64_t key, uint32_t &at) {
        uint32_t pointer = ROOTS, slot;
        if (table.size > MIDDLE) {
            if (!settle(pointer, slot)) return false;
            pointer = table.page(slot, uint32_t(key / MIDDLE));
        }
        if (table.size > LEAF) {
            if (!settle(pointer, slot)) return false;
            pointer = table.page(slot, uint32_t(key % MIDDLE / LEAF));
        }
        if (!settle(pointer, slot)) return false;
        at = table.page(slot, uint32_t(2 * (key % LEAF)));
        return true;
    }

    bool left(uint32_t at, uint64_t seen, uint64_t &value) {
        if (!kept(at)) pointer_set[pointers++] = {at, seen};
        value = 0;
        return true;
    }

    // What stands at a key that wasn't read yet. Nothing stands in snapshot pages here.
    bool read_anew(uint64_t key, uint64_t &value) {
        uint32_t pointer = ROOTS, slot;
        uint64_t seen;
        if (table.size > MIDDLE) {
            End end = reach(pointer, slot, seen);
            if (end != Slot) return end == Page && left(pointer, seen, value);
            pointer = table.page(slot, uint32_t(key / MIDDLE));
        }
        if (table.size > LEAF) {
            End end = reach(pointer, slot, seen);
            if (end != Slot) return end == Page && left(pointer, seen, value);
            pointer = table.page(slot, uint32_t(key % MIDDLE / LEAF));
        }
        End end = reach(pointer, slot, seen);
        if (end != Slot) return end == Page && left(pointer, seen, value);
        uint32_t at = table.page(slot, uint32_t(2 * (key % LEAF)));
        uint64_t first = word(at).load();
        if (first >= LOCK) return false;
        value = word(at + 1).load();
        if (word(at).load() != first || reads == 256) return false;
        read_set[reads++] = {key, at, first, value};
        marked[hash_of(key)] = true;
        return true;
    }

    bool value_of(uint64_t key, uint64_t &value) {
        if (Read *entry = met(key)) {
            value = entry->value;
            return true;
        }
        return read_anew(key, value);
    }

    bool read(uint64_t key, uint64_t &value) {
        if (Write *own = written(key)) {
            value = own->value;
            return true;
        }
        return value_of(key, value) || forget();
    }

    bool add(uint64_t key, uint64_t amount) {
        if (Write *own = written(key)) return !__builtin_add_overflow(own->value, amount, &own->value);
        uint32_t at;
        uint64_t value;
        if (writes == 16 || !bring_up(key, at) || !value_of(key, value)) return forget();
        if (__builtin_add_overflow(value, amount, &value)) return true;
        size_t place = writes++;
        for (; place > 0 && write_set[place - 1].key > key; place--) write_set[place] = write_set[place - 1];
        write_set[place] = {key, value, at};
        return true;
    }

    bool back_out(size_t locked) {
        for (size_t i = 0; i < locked; i++) word(write_set[i].at).store(found[i]);
        return forget();
    }

    bool lock(size_t i) {
        Write &write = write_set[i];
        uint64_t seen = word(write.at).load();
        uint64_t expected = seen;
        for (size_t k = 0; k < reads; k++)
            if (read_set[k].at == write.at) {
                expected = read_set[k].word;
                break;
            }
        if (seen >= LOCK || seen != expected) return false;
        found[i] = expected;
        return word(write.at).compare_exchange_strong(expected, expected + LOCK);
    }

    bool commit() {
        for (size_t i = 0; i < writes; i++)
            if (!lock(i)) return back_out(i);
        uint64_t number = word(0).fetch_add(1);
        for (size_t i = 0; i < reads; i++) {
            Read &entry = read_set[i];
            bool own = written_at(entry.at);
            uint64_t seen = word(entry.at).load();
            if (seen != entry.word && !(own && seen == entry.word + LOCK)) return back_out(writes);
        }
        for (size_t i = 0; i < pointers; i++)
            if (word(pointer_set[i].at).load() != pointer_set[i].word) return back_out(writes);
        word(1).fetch_add(1);
        for (size_t i = 0; i < writes; i++) {
            word(write_set[i].at + 1).store(write_set[i].value);
            word(write_set[i].at).store(number);
        }
        leave_all();
        return true;
    }
};

// The first key of a worker: the workers' keys lie 16 apart, in other lines of memory, or as far as the array has room.
static uint64_t first_of(uint64_t size, uint64_t worker) {
    return worker * std::clamp<uint64_t>(size / 16, 2, 16);
}

// Of four keys, the worker's first one and those a quarter of the array behind one another, two are read and two added
// to.
static bool read_write(Txn &txn, uint64_t worker) {
    uint64_t first = first_of(txn.table.size, worker), step = txn.table.size / 4, value;
    return txn.begin() && txn.read(first, value) && txn.read(first + step, value) && txn.add(first + 2 * step, 1) &&
           txn.add(first + 3 * step, 1) && txn.commit();
}

// Keys that are spread over the array, the same for all workers.
static bool read_many(Txn &txn, uint64_t) {
    uint64_t value;
    if (!txn.begin()) return false;
    for (uint64_t i = 0; i < 16; i++)
        if (!txn.read(i * (txn.table.size / 16), value)) return false;
    return txn.commit();
}

template <class Work>
static uint64_t repeat(Txn &txn, uint32_t rounds, Work work) {
    uint64_t done = 0;
    for (uint32_t round = 0; round < rounds; round++)
        for (int tries = 0; tries < 10000; tries++) {
            if (work(txn)) {
                done++;
                break;
            }
            sched_yield();
        }
    return done;
}

static void measure(const std::string &name, uint64_t size, size_t count, bool (*work)(Txn &, uint64_t)) {
    Table table(size, size > 2048 ? 4096 : 256);
    std::vector<std::unique_ptr<Txn>> txns;
    for (size_t i = 0; i < count; i++) txns.push_back(std::make_unique<Txn>(table));
    // The pages of all keys that any worker uses are brought into memory first.
    for (uint64_t i = 0; i < 32; i++) {
        uint64_t key = i < 16 ? i * (size / 16) : first_of(size, i / 4 % 4) + i % 4 * (size / 4);
        repeat(*txns[0], 1, [&](Txn &txn) { return txn.begin() && txn.add(key, 1) && txn.commit(); });
    }
    std::vector<uint64_t> done(count);
    auto start = std::chrono::steady_clock::now();
    auto one = [&](size_t i) { done[i] = repeat(*txns[i], 500000, [&](Txn &txn) { return work(txn, i); }); };
    std::vector<std::thread> threads;
    for (size_t i = 1; i < count; i++) threads.emplace_back(one, i);
    one(0);
    for (auto &thread : threads) thread.join();
    auto took = std::chrono::steady_clock::now() - start;
    uint64_t all = 0;
    for (uint64_t each : done) all += each;
    auto nanos = std::chrono::duration_cast<std::chrono::nanoseconds>(took).count();
    printf("%s %llu %llu\n", name.c_str(), (unsigned long long)all, (unsigned long long)nanos);
}

int main(int count, char **words) {
    if (count > 1) behind = std::strtoul(words[1], nullptr, 10);
    for (uint64_t size : {32, 1000, 131072})
        for (size_t count : {1, 4}) {
            std::string over = std::to_string(size) + "x" + std::to_string(count);
            measure("writes" + over, size, count, read_write);
            measure("reads" + over, size, count, read_many);
        }
}
