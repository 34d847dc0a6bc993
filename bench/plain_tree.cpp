// Transactions over a tree in memory, written by hand in the plainest way: the same atomic steps in the same order as
// those of tree_walks, foster_tree and page_commit, sequentially consistent, over a table of the same layout.
// measure_tree.py compares with it. It prints, line by line, what was done, how many transactions committed, in how
// many nanoseconds, how many that is in a second, and how often one was tried again.
//
// Trees of 1,000 and 100,000 random keys, whose pages are all in memory; by 1, 2, 4 and 8 workers in threads: reads of
// one key, writes of one key that is there, writes of one that is not, and scans of 16. As many keys are added to a
// tree as it has, so where more lines are asked for they go to further trees. Behind each the tree is gone over:
// every key has to be there, and a scan over all of it has them all, in order.
//
// `check` as the first argument: workers read, write, remove and scan in a small tree at once, and their replies are
// compared with those of the same transactions one after another, in order of number.
//
// Other than in the engine the search for a free slot begins behind the one that the worker was given last, as here
// a table has more than 4,096 slots. And nothing stands in snapshot pages.
// Usage: plain_tree [LINES], plain_tree check [LINES]
#include <sched.h>

#include <algorithm>
#include <atomic>
#include <chrono>
#include <cstdint>
#include <cstdio>
#include <cstdlib>
#include <cstring>
#include <map>
#include <memory>
#include <string>
#include <thread>
#include <vector>

using std::size_t;

constexpr uint64_t LOCK = 1ull << 60;    // of a record's word and of a header; a pointer's word is shut by it
constexpr uint64_t ABSENT = 1ull << 61;  // of a record's word
constexpr uint64_t MOVED = 1ull << 62;   // of a header
constexpr uint64_t SLOT = 1ull << 32;    // a pointer's word has a slot, plus 1, above the number of a snapshot page
constexpr uint64_t DRAWS = 1ull << 40, LIMIT = DRAWS - 64;
constexpr uint64_t STATE = 1 << 16, TIMES = 1 << 18;
constexpr uint64_t LEAF = 0x100, INNER = 0x200;
constexpr uint32_t FIRST = 16, RECORD = 3, FULL = 16, MINOR = 8;  // of a leaf's records
constexpr uint32_t POINTERS = 4, SEPARATORS = 34;                 // of an interior page
constexpr size_t ROOTS = 10, SLOTS = 32, HASHES = 128, HOLDS = 128, ROWS = 16;
constexpr uint64_t LAST = UINT64_MAX;

static uint64_t mix(uint64_t x) {
    x += 0x9E3779B97F4A7C15;
    x = (x ^ (x >> 30)) * 0xBF58476D1CE4E5B9;
    x = (x ^ (x >> 27)) * 0x94D049BB133111EB;
    return x ^ (x >> 31);
}

// A random key, the same for the same number, and another one for each.
static uint64_t key_of(uint64_t number) { return mix(number) >> 1; }

static size_t hash_of(uint64_t key) { return key % (1ull << 32) * 2654435761 / (1 << 25) % HASHES; }

static void check(bool ok, const char *what) {
    if (ok) return;
    fprintf(stderr, "plain_tree: %s\n", what);
    exit(1);
}

// One tree, whose root has the first root's word.
struct Table {
    uint32_t slots;
    std::vector<std::atomic<uint64_t>> words;
    uint32_t used = 0;  // slots that were given before any worker began

    explicit Table(uint32_t slots) : slots(slots), words(SLOTS + 65 * size_t(slots)) { words[0] = DRAWS + 2; }

    uint32_t page(uint32_t slot, uint32_t index) const { return uint32_t(SLOTS + slots + 64 * size_t(slot) + index); }

    // A published page with this header and these fences.
    uint32_t place(uint64_t header, uint64_t low, uint64_t high) {
        check(used < slots, "no slot");
        words[SLOTS + used] = TIMES + 2 * STATE;
        words[page(used, 0)] = header;
        words[page(used, 1)] = low;
        words[page(used, 2)] = high;
        return used++;
    }

    // The tree has these keys, each with the value 1: leaves of 11 records below interior pages of 20 children.
    void fill(std::vector<uint64_t> keys) {
        struct Below {
            uint32_t slot;
            uint64_t low, high;
        };
        std::sort(keys.begin(), keys.end());
        std::vector<Below> level;
        for (size_t at = 0; at < keys.size(); at += 11) {
            size_t end = std::min(at + 11, keys.size());
            uint64_t low = at == 0 ? 0 : keys[at], high = end == keys.size() ? LAST : keys[end] - 1;
            uint32_t slot = place(LEAF + (end - at), low, high);
            for (size_t i = at; i < end; i++) {
                uint32_t first = FIRST + RECORD * uint32_t(i - at);
                words[page(slot, first)] = keys[i];
                words[page(slot, first + 1)] = DRAWS + 1;
                words[page(slot, first + 2)] = 1;
            }
            level.push_back({slot, low, high});
        }
        while (level.size() > 1) {
            std::vector<Below> above;
            size_t pages = (level.size() + 19) / 20;
            for (size_t i = 0; i < pages; i++) {
                size_t at = level.size() * i / pages, end = level.size() * (i + 1) / pages;
                uint32_t slot = place(INNER + (end - at), level[at].low, level[end - 1].high);
                for (size_t k = at; k < end; k++) {
                    words[page(slot, POINTERS + uint32_t(k - at))] = SLOT * (level[k].slot + 1);
                    if (k > at) words[page(slot, SEPARATORS + uint32_t(k - at) - 1)] = level[k].low;
                }
                above.push_back({slot, level[at].low, level[end - 1].high});
            }
            level = above;
        }
        if (!level.empty()) words[ROOTS] = SLOT * (level[0].slot + 1);
    }
};

// What a transaction found at a key: nothing, where it isn't there.
struct Content {
    bool there;
    uint64_t value;
};

struct Read {
    uint64_t key;
    uint32_t at;
    uint64_t word, value;
};

struct Write {
    uint64_t key;
    Content content;
    uint32_t at;
};

// A word that was seen: a pointer's or a header's.
struct Seen {
    uint32_t at;
    uint64_t word;
};

struct Row {
    uint64_t key, value;
};

struct Record {
    uint64_t key, word, value;
};

// A page on the way, over the keys from `low` to `high`. Of a leaf at the way's end the header that was loaded.
struct Page {
    uint32_t slot;
    uint64_t low, high, header;
};

// The sets of one worker, made once.
struct Txn {
    Table &table;
    size_t reads = 0, writes = 0, pointers = 0, headers = 0, holds = 0;
    Read read_set[256];
    Write write_set[16];
    Seen pointer_set[128], header_set[128];
    uint32_t hold_set[HOLDS];
    std::vector<char> noted;
    bool marked[HASHES] = {};
    uint64_t found[16];
    uint32_t next;  // where the search for a free slot begins
    uint64_t number = 0;

    Txn(Table &table, uint32_t next) : table(table), noted(table.slots), next(next) {}

    std::atomic<uint64_t> &word(uint32_t at) { return table.words[at]; }
    std::atomic<uint64_t> &slot_word(uint32_t slot) { return table.words[SLOTS + slot]; }
    std::atomic<uint64_t> &word_in(uint32_t slot, uint32_t index) { return table.words[table.page(slot, index)]; }

    bool forget() {
        (void)word(0).load();
        leave_all();
        return false;
    }

    void leave_all() {
        for (size_t i = 0; i < holds; i++) {
            slot_word(hold_set[i]).fetch_sub(1);
            noted[hold_set[i]] = false;
        }
        holds = 0;
    }

    bool begin() {
        memset(marked, 0, sizeof marked);
        reads = writes = pointers = headers = 0;
        return word(0).load() % DRAWS < LIMIT;
    }

    Write *written(uint64_t key) {
        for (size_t i = 0; i < writes; i++)
            if (write_set[i].key == key) return &write_set[i];
        return nullptr;
    }

    bool written_at(uint32_t at) {
        for (size_t i = 0; i < writes; i++)
            if (write_set[i].at == at) return true;
        return false;
    }

    Read *met(uint64_t key) {
        if (!marked[hash_of(key)]) return nullptr;
        for (size_t i = 0; i < reads; i++)
            if (read_set[i].key == key) return &read_set[i];
        return nullptr;
    }

    static Seen *kept(Seen *set, size_t count, uint32_t at) {
        for (size_t i = 0; i < count; i++)
            if (set[i].at == at) return &set[i];
        return nullptr;
    }

    Seen *kept_pointer(uint32_t at) { return kept(pointer_set, pointers, at); }
    Seen *kept_header(uint32_t at) { return kept(header_set, headers, at); }

    bool enter(uint32_t slot) {
        if (noted[slot]) return true;
        if (holds == HOLDS) return false;
        slot_word(slot).fetch_add(1);
        note(slot);
        return true;
    }

    void note(uint32_t slot) {
        noted[slot] = true;
        hold_set[holds++] = slot;
    }

    enum End { Refused, InLeaf, Bare };

    // The slot to which the pointer leads is held.
    End reach(uint32_t at, uint32_t &slot, Seen &bare) {
        uint64_t seen = word(at).load();
        Seen *before = kept_pointer(at);
        if ((before && before->word != seen) || seen >= LOCK) return Refused;
        if (seen < SLOT) {
            bare = {at, seen};
            return Bare;
        }
        slot = uint32_t(seen / SLOT) - 1;
        if (noted[slot]) return InLeaf;
        if (!enter(slot)) return Refused;
        return word(at).load() == seen ? InLeaf : Refused;
    }

    // Down to the leaf that has the key, or to a pointer that leads to no slot.
    End go_down(uint64_t key, Page &page, Seen &bare) {
        page = {0, 0, LAST, 0};
        End end = reach(ROOTS, page.slot, bare);
        return end == InLeaf ? go_down_from(key, page, bare) : end;
    }

    End go_down_from(uint64_t key, Page &page, Seen &bare) {
        for (int level = 0; level < 128; level++) {
            uint32_t at = table.page(page.slot, 0);
            uint64_t header = word(at).load();
            Seen *before = kept_header(at);
            if (before && before->word != header) return Refused;
            if (header / 256 % 256 == 2) {
                End end = go_to_child(key, page, uint32_t(header % 256), bare);
                if (end != InLeaf) return end;
            } else if (header < MOVED) {
                page.header = header;
                return InLeaf;
            } else if (!go_to_half(key, page, at, header)) {
                return Refused;
            }
        }
        return Refused;
    }

    End go_to_child(uint64_t key, Page &page, uint32_t count, Seen &bare) {
        uint32_t above = page.slot, child = 0;
        for (; child + 1 < count; child++) {
            uint64_t separator = word_in(above, SEPARATORS + child).load();
            if (key < separator) {
                page.high = separator - 1;
                break;
            }
            page.low = separator;
        }
        return reach(table.page(above, POINTERS + child), page.slot, bare);
    }

    // The half is entered, and then the header is loaded again.
    bool go_to_half(uint64_t key, Page &page, uint32_t at, uint64_t header) {
        if (header >= MOVED + LOCK) return false;
        uint32_t above = page.slot;
        uint64_t separator = word_in(above, 5).load();
        if (key < separator) {
            page.slot = uint32_t(word_in(above, 3).load()) - 1;
            page.high = separator - 1;
        } else {
            page.slot = uint32_t(word_in(above, 4).load()) - 1;
            page.low = separator;
        }
        return enter(page.slot) && word(at).load() == header;
    }

    // The index of the key's record, as many as the header counts where there is none.
    uint32_t search(const Page &leaf, uint64_t key) {
        uint32_t count = uint32_t(leaf.header % 256);
        for (uint32_t i = 0; i < count; i++)
            if (word_in(leaf.slot, FIRST + RECORD * i).load() == key) return i;
        return count;
    }

    // The record joins the read set.
    bool read_record(uint64_t key, uint32_t at, Content &content) {
        if (Read *entry = met(key)) {
            content = {entry->word < ABSENT, entry->value};
            return true;
        }
        uint64_t first = word(at).load(), value = 0;
        if (first / LOCK % 2 == 1 || reads == 256) return false;
        if (first < ABSENT) {
            value = word(at + 1).load();
            if (word(at).load() != first) return false;
        }
        content = {first < ABSENT, value};
        read_set[reads++] = {key, at, first, value};
        marked[hash_of(key)] = true;
        return true;
    }

    // The leaf's header joins the set of headers, where it is open and as it was.
    bool keep_header(const Page &leaf) {
        uint32_t at = table.page(leaf.slot, 0);
        if (word(at).load() != leaf.header || leaf.header >= LOCK) return false;
        if (kept_header(at)) return true;
        if (headers == 128) return false;
        header_set[headers++] = {at, leaf.header};
        return true;
    }

    bool keep_pointer(const Seen &bare) {
        if (!kept_pointer(bare.at) && pointers == 128) return false;
        if (word(bare.at).load() != bare.word) return false;
        if (!kept_pointer(bare.at)) pointer_set[pointers++] = bare;
        return true;
    }

    bool find(uint64_t key, Content &content) {
        Page leaf;
        Seen bare;
        content = {false, 0};
        End end = go_down(key, leaf, bare);
        if (end == Refused) return false;
        if (end == Bare) return keep_pointer(bare);
        uint32_t index = search(leaf, key);
        if (index == leaf.header % 256) return keep_header(leaf);
        return read_record(key, table.page(leaf.slot, FIRST + RECORD * index + 1), content);
    }

    bool read(uint64_t key, Content &content) {
        if (Write *own = written(key)) {
            content = own->content;
            return true;
        }
        if (Read *entry = met(key)) {
            content = {entry->word < ABSENT, entry->value};
            return true;
        }
        return find(key, content) || forget();
    }

    // The first usable slot.
    bool give(uint32_t &slot) {
        for (uint32_t i = 0; i < table.slots; i++) {
            slot = (next + i) % table.slots;
            uint64_t seen = slot_word(slot).load(), low = seen % TIMES;
            if (low != 0 && low != 3 * STATE) continue;
            next = slot + 1;
            return slot_word(slot).compare_exchange_strong(seen, STATE + (seen / TIMES + 1) * TIMES);
        }
        return false;
    }

    // A published leaf with these records.
    bool make_leaf(uint64_t low, uint64_t high, const Record *records, uint32_t count, uint32_t &slot) {
        if (!give(slot)) return false;
        word_in(slot, 0).store(LEAF + count);
        word_in(slot, 1).store(low);
        word_in(slot, 2).store(high);
        for (uint32_t i = 0; i < count; i++) {
            word_in(slot, FIRST + RECORD * i).store(records[i].key);
            word_in(slot, FIRST + RECORD * i + 1).store(records[i].word);
            word_in(slot, FIRST + RECORD * i + 2).store(records[i].value);
        }
        slot_word(slot).fetch_add(STATE);
        return true;
    }

    // An empty leaf is put in below a pointer that leads to nothing.
    bool bring(const Seen &bare, Page &page) {
        if (holds == HOLDS || !make_leaf(page.low, page.high, nullptr, 0, page.slot)) return false;
        enter(page.slot);
        uint64_t expected = bare.word;
        if (!word(bare.at).compare_exchange_strong(expected, bare.word + SLOT * (page.slot + 1))) {
            slot_word(page.slot).fetch_add(STATE);
            return false;
        }
        Seen *before = kept_pointer(bare.at);
        return !before || word(bare.at).load() == before->word;
    }

    // Adds the key's record, absent, to a leaf that has room for it. What was kept of the leaf goes on with it.
    bool add_key(const Page &leaf, uint64_t key, uint32_t &record) {
        uint32_t at = table.page(leaf.slot, 0), first = table.page(leaf.slot, FIRST + RECORD * (leaf.header % 256));
        uint64_t expected = leaf.header;
        if (leaf.header >= LOCK || !word(at).compare_exchange_strong(expected, expected + LOCK)) return false;
        word(first).store(key);
        word(first + 1).store(ABSENT);
        word(first + 2).store(0);
        word(at).store(leaf.header + 1);
        record = first + 1;
        if (Seen *before = kept_header(at)) {
            if (reads == 256) return false;
            before->word = leaf.header + 1;
            read_set[reads++] = {key, record, ABSENT, 0};
            marked[hash_of(key)] = true;
        }
        return true;
    }

    void open_records(const Page &leaf, const Record *records, uint32_t count) {
        while (count-- > 0) word_in(leaf.slot, FIRST + RECORD * count + 1).store(records[count].word);
    }

    bool lock_records(const Page &leaf, Record *records) {
        for (uint32_t i = 0; i < FULL; i++) {
            uint32_t first = table.page(leaf.slot, FIRST + RECORD * i);
            uint64_t key = word(first).load(), seen = word(first + 1).load(), expected = seen;
            if (seen / LOCK % 2 == 1 || !word(first + 1).compare_exchange_strong(expected, seen + LOCK)) {
                open_records(leaf, records, i);
                return false;
            }
            records[i] = {key, seen, seen < ABSENT ? word(first + 2).load() : 0};
        }
        return true;
    }

    bool make_halves(const Page &leaf, const Record *sorted, uint32_t &minor, uint32_t &major) {
        uint64_t separator = sorted[MINOR].key;
        if (!make_leaf(leaf.low, separator - 1, sorted, MINOR, minor)) return false;
        if (make_leaf(separator, leaf.high, sorted + MINOR, FULL + 1 - MINOR, major)) return true;
        slot_word(minor).fetch_add(STATE);
        return false;
    }

    // Splits a full leaf into two with the key's record, absent.
    bool split(const Page &leaf, uint64_t key, uint32_t &record) {
        uint32_t at = table.page(leaf.slot, 0), minor, major;
        uint64_t expected = leaf.header;
        Record records[FULL + 1], sorted[FULL + 1];
        if (holds == HOLDS || leaf.header >= LOCK) return false;
        if (!word(at).compare_exchange_strong(expected, expected + LOCK)) return false;
        if (!lock_records(leaf, records)) {
            word(at).store(leaf.header);
            return false;
        }
        records[FULL] = {key, ABSENT, 0};
        std::copy(records, records + FULL + 1, sorted);
        std::sort(sorted, sorted + FULL + 1, [](const Record &a, const Record &b) { return a.key < b.key; });
        if (!make_halves(leaf, sorted, minor, major)) {
            open_records(leaf, records, FULL);
            word(at).store(leaf.header);
            return false;
        }
        uint32_t index = 0;
        while (sorted[index].key != key) index++;
        uint32_t half = index < MINOR ? minor : major;
        enter(half);
        word_in(leaf.slot, 3).store(minor + 1);
        word_in(leaf.slot, 4).store(major + 1);
        word_in(leaf.slot, 5).store(sorted[MINOR].key);
        word(at).store(MOVED + leaf.header);
        record = table.page(half, FIRST + RECORD * (index < MINOR ? index : index - MINOR) + 1);
        return !names(leaf.slot);
    }

    // Whether an own set has a word of the page.
    bool names(uint32_t slot) {
        uint32_t from = table.page(slot, 0), to = from + 64;
        auto in = [&](uint32_t at) { return at >= from && at < to; };
        for (size_t i = 0; i < reads; i++)
            if (in(read_set[i].at)) return true;
        for (size_t i = 0; i < writes; i++)
            if (in(write_set[i].at)) return true;
        return kept_header(from) != nullptr;
    }

    // The place of the key's record, which is added where there is none.
    bool bring_up(uint64_t key, uint32_t &record) {
        Page leaf;
        Seen bare;
        End end = go_down(key, leaf, bare);
        while (end == Bare) {
            if (!bring(bare, leaf)) return false;
            end = go_down_from(key, leaf, bare);
        }
        if (end == Refused) return false;
        uint32_t index = search(leaf, key);
        if (index < leaf.header % 256) {
            record = table.page(leaf.slot, FIRST + RECORD * index + 1);
            return true;
        }
        return index < FULL ? add_key(leaf, key, record) : split(leaf, key, record);
    }

    bool put(uint64_t key, Content content, uint32_t at) {
        size_t place = writes++;
        for (; place > 0 && write_set[place - 1].key > key; place--) write_set[place] = write_set[place - 1];
        write_set[place] = {key, content, at};
        return true;
    }

    bool write(uint64_t key, uint64_t value) {
        if (Write *own = written(key)) {
            own->content = {true, value};
            return true;
        }
        uint32_t at;
        if (writes == 16 || !bring_up(key, at)) return forget();
        return put(key, {true, value}, at);
    }

    // A key that isn't there stays so, which is kept.
    bool remove(uint64_t key) {
        if (Write *own = written(key)) {
            own->content = {false, 0};
            return true;
        }
        Content content;
        if (writes == 16 || !read(key, content)) return writes == 16 && forget();
        Read *entry = met(key);
        return !entry || !content.there || put(key, {false, 0}, entry->at);
    }

    // The first 16 pairs of a range; the transaction has written nothing before.
    bool scan(uint64_t low, uint64_t high, Row *rows, size_t &count) {
        count = 0;
        for (uint64_t from = low;;) {
            Page leaf;
            Seen bare;
            leaf.high = LAST;
            End end = go_down(from, leaf, bare);
            if (end == Refused || (end == Bare && !keep_pointer(bare))) return forget();
            if (end == InLeaf && !scan_leaf(leaf, from, high, rows, count)) return forget();
            if (count == ROWS || leaf.high >= high) return true;
            from = leaf.high + 1;
        }
    }

    // The header is kept first, and for each record all keys of the leaf are gone over for the next one.
    bool scan_leaf(const Page &leaf, uint64_t low, uint64_t high, Row *rows, size_t &count) {
        if (!keep_header(leaf)) return false;
        high = std::min(high, leaf.high);
        for (uint64_t from = low; count < ROWS;) {
            uint64_t key = 0;
            uint32_t index = smallest_from(leaf, from, key);
            if (index == FULL || key > high) return true;
            Content content;
            if (!read_record(key, table.page(leaf.slot, FIRST + RECORD * index + 1), content)) return false;
            if (content.there) rows[count++] = {key, content.value};
            if (key == high) return true;
            from = key + 1;
        }
        return true;
    }

    // The index of the record with the smallest key from this one on, 16 where there is none.
    uint32_t smallest_from(const Page &leaf, uint64_t from, uint64_t &least) {
        uint32_t best = FULL;
        for (uint32_t i = 0; i < leaf.header % 256; i++) {
            uint64_t key = word_in(leaf.slot, FIRST + RECORD * i).load();
            if (key < from || (best < FULL && key >= least)) continue;
            best = i;
            least = key;
        }
        return best;
    }

    bool back_out(size_t locked) {
        for (size_t i = 0; i < locked; i++) word(write_set[i].at).store(found[i]);
        return forget();
    }

    bool lock(size_t i) {
        Write &write = write_set[i];
        uint64_t seen = word(write.at).load(), expected = seen;
        for (size_t k = 0; k < reads; k++)
            if (read_set[k].at == write.at) {
                expected = read_set[k].word;
                break;
            }
        if (seen / LOCK % 2 == 1 || seen != expected) return false;
        found[i] = expected;
        return word(write.at).compare_exchange_strong(expected, expected + LOCK);
    }

    bool are_as_seen() {
        for (size_t i = 0; i < reads; i++) {
            Read &entry = read_set[i];
            bool own = written_at(entry.at);
            uint64_t seen = word(entry.at).load();
            if (seen != entry.word && !(own && seen == entry.word + LOCK)) return false;
        }
        for (size_t i = 0; i < pointers; i++)
            if (word(pointer_set[i].at).load() != pointer_set[i].word) return false;
        for (size_t i = 0; i < headers; i++)
            if (word(header_set[i].at).load() != header_set[i].word) return false;
        return true;
    }

    bool commit() {
        for (size_t i = 0; i < writes; i++)
            if (!lock(i)) return back_out(i);
        number = word(0).fetch_add(1);
        if (!are_as_seen()) return back_out(writes);
        word(1).fetch_add(1);
        for (size_t i = 0; i < writes; i++) {
            Write &write = write_set[i];
            word(write.at + 1).store(write.content.value);
            word(write.at).store(number + (write.content.there ? 0 : ABSENT));
        }
        leave_all();
        return true;
    }
};

// Workers and the tree that they share.
struct Gang {
    Table table;
    std::vector<std::unique_ptr<Txn>> txns;

    Gang(uint32_t slots, const std::vector<uint64_t> &keys, size_t count) : table(slots) {
        table.fill(keys);
        for (size_t i = 0; i < count; i++) {
            uint32_t next = table.used + uint32_t((slots - table.used) * i / count);
            txns.push_back(std::make_unique<Txn>(table, next));
        }
    }

    // Each worker does its part in a thread; the nanoseconds from when all could begin to the last one's end.
    template <class Work>
    uint64_t run(Work work) {
        std::atomic<size_t> ready{0};
        std::atomic<bool> go{false};
        auto one = [&](size_t i) {
            ready.fetch_add(1);
            while (!go.load()) sched_yield();
            work(i, *txns[i]);
        };
        std::vector<std::thread> threads;
        for (size_t i = 0; i < txns.size(); i++) threads.emplace_back(one, i);
        while (ready.load() < txns.size()) sched_yield();
        auto start = std::chrono::steady_clock::now();
        go.store(true);
        for (auto &thread : threads) thread.join();
        auto took = std::chrono::steady_clock::now() - start;
        return uint64_t(std::chrono::duration_cast<std::chrono::nanoseconds>(took).count());
    }
};

// Tries a transaction until it commits. Answers how often it was tried again.
template <class Work>
static uint64_t repeat(Txn &txn, Work work) {
    for (uint64_t tries = 0; tries < 1000000; tries++) {
        if (txn.begin() && work(txn) && txn.commit()) return tries;
        sched_yield();
    }
    check(false, "a transaction never committed");
    return 0;
}

// The tree has just these pairs: each is found, and a scan over all of it has them in order.
static void verify(Txn &txn, const std::map<uint64_t, uint64_t> &pairs) {
    for (auto &[key, value] : pairs) {
        Content content;
        repeat(txn, [&, key = key](Txn &txn) { return txn.read(key, content); });
        check(content.there && content.value == value, "a key isn't there, or has another value");
    }
    auto next = pairs.begin();
    Row rows[ROWS];
    size_t count = ROWS;
    for (uint64_t low = 0; count == ROWS;) {
        repeat(txn, [&](Txn &txn) { return txn.scan(low, LAST, rows, count); });
        for (size_t i = 0; i < count; i++, ++next) {
            bool same = next != pairs.end() && next->first == rows[i].key && next->second == rows[i].value;
            check(same, "a scan is wrong");
        }
        if (count == ROWS) low = rows[ROWS - 1].key + 1;
    }
    check(next == pairs.end(), "a scan ends too early");
}

static std::vector<uint64_t> first_keys(uint64_t size) {
    std::vector<uint64_t> keys;
    for (uint64_t i = 0; i < size; i++) keys.push_back(key_of(i));
    return keys;
}

static void tell(const char *name, uint64_t size, size_t count, uint64_t done, uint64_t nanos, uint64_t again) {
    printf("%s%llux%zu %llu %llu %.0f %llu\n", name, (unsigned long long)size, count, (unsigned long long)done,
           (unsigned long long)nanos, 1e9 * double(done) / double(nanos), (unsigned long long)again);
    fflush(stdout);
}

static uint32_t slots_for(uint64_t size) { return size <= 1000 ? 4096 : 60000; }

enum Kind { Reads, Updates, Scans };

// One transaction at a random one of the tree's keys.
static bool one_line(Txn &txn, Kind kind, uint64_t key) {
    if (kind == Updates) return txn.write(key, 2);
    if (kind == Reads) {
        Content content;
        return txn.read(key, content);
    }
    Row rows[ROWS];
    size_t count;
    return txn.scan(key, LAST, rows, count);
}

static void measure(const char *name, Kind kind, uint64_t size, size_t count, uint64_t lines) {
    Gang gang(slots_for(size), first_keys(size), count);
    std::vector<uint64_t> again(count);
    uint64_t each = lines / count;
    uint64_t nanos = gang.run([&](size_t i, Txn &txn) {
        uint64_t draw = mix(i + 1000);
        for (uint64_t line = 0; line < each; line++) {
            draw = mix(draw);
            uint64_t key = key_of(draw % size);
            again[i] += repeat(txn, [&](Txn &txn) { return one_line(txn, kind, key); });
        }
    });
    uint64_t tries = 0;
    for (uint64_t some : again) tries += some;
    tell(name, size, count, each * count, nanos, tries);
}

// As many keys are added to each tree as it has.
static void measure_adds(uint64_t size, size_t count, uint64_t lines) {
    uint64_t nanos = 0, done = 0, tries = 0, each = size / count;
    for (uint64_t left = lines; left > 0; left -= std::min(left, size)) {
        Gang gang(slots_for(size), first_keys(size), count);
        uint64_t most = std::min(each, left / count);
        if (most == 0) break;
        std::vector<uint64_t> again(count);
        nanos += gang.run([&](size_t i, Txn &txn) {
            for (uint64_t line = 0; line < most; line++) {
                uint64_t number = size + line * count + i;
                again[i] += repeat(txn, [&](Txn &txn) { return txn.write(key_of(number), number); });
            }
        });
        for (uint64_t some : again) tries += some;
        done += most * count;
        std::map<uint64_t, uint64_t> pairs;
        for (uint64_t i = 0; i < size + most * count; i++) pairs[key_of(i)] = i < size ? 1 : i;
        verify(*gang.txns[0], pairs);
    }
    tell("adds", size, count, done, nanos, tries);
}

// A transaction that committed: what it did, and what it found.
struct Done {
    uint64_t number, kind, key, value;
    Content content;
    std::vector<Row> rows;
};

constexpr uint64_t AHEAD = 40;  // keys of a scan's range

// One of five kinds: a read; a write; a removal; a scan and a write into its range; a read and a write of its key.
static bool mixed(Txn &txn, Done &done) {
    Row rows[ROWS];
    size_t count = 0;
    if (done.kind == 0 && !txn.read(done.key, done.content)) return false;
    if (done.kind == 1 && !txn.write(done.key, done.value)) return false;
    if (done.kind == 2 && !txn.remove(done.key)) return false;
    if (done.kind == 3) {
        if (!txn.scan(done.key, done.key + AHEAD, rows, count)) return false;
        if (!txn.write(done.key + done.value % AHEAD, done.value)) return false;
    }
    if (done.kind == 4) {
        if (!txn.read(done.key, done.content) || !txn.write(done.key, done.value)) return false;
    }
    done.rows.assign(rows, rows + count);
    return true;
}

// The same by a map. Whether it found the same.
static bool is_serial(std::map<uint64_t, uint64_t> &pairs, const Done &done) {
    auto found = pairs.find(done.key);
    bool there = found != pairs.end();
    bool same = there == done.content.there && (!there || found->second == done.content.value);
    same = same || (done.kind != 0 && done.kind != 4);
    if (done.kind == 1 || done.kind == 4) pairs[done.key] = done.value;
    if (done.kind == 2) pairs.erase(done.key);
    if (done.kind != 3) return same;
    auto next = pairs.lower_bound(done.key);
    for (const Row &row : done.rows) {
        if (next == pairs.end() || next->first != row.key || next->second != row.value) return false;
        ++next;
    }
    if (done.rows.size() < ROWS && next != pairs.end() && next->first <= done.key + AHEAD) return false;
    pairs[done.key + done.value % AHEAD] = done.value;
    return true;
}

// Answers how often transactions were tried again.
static uint64_t check_tree(uint64_t lines, size_t count, bool empty, uint64_t seed) {
    uint64_t range = 2000;
    std::map<uint64_t, uint64_t> pairs;
    std::vector<uint64_t> keys;
    for (uint64_t key = 0; !empty && key < range; key += 40) keys.push_back(key);
    for (uint64_t key : keys) pairs[key] = 1;
    Gang gang(2048, keys, count);
    std::vector<std::vector<Done>> done(count);
    std::vector<uint64_t> again(count);
    gang.run([&](size_t i, Txn &txn) {
        uint64_t draw = mix(seed + i);
        for (uint64_t line = 0; line < lines / count; line++) {
            draw = mix(draw);
            Done each{0, draw % 5, draw / 8 % range, draw >> 20, {false, 0}, {}};
            again[i] += repeat(txn, [&](Txn &txn) { return mixed(txn, each); });
            each.number = txn.number;
            done[i].push_back(each);
        }
    });
    std::vector<Done> all;
    for (auto &some : done) all.insert(all.end(), some.begin(), some.end());
    std::sort(all.begin(), all.end(), [](const Done &a, const Done &b) { return a.number < b.number; });
    for (const Done &each : all) check(is_serial(pairs, each), "a reply isn't that of the order of numbers");
    verify(*gang.txns[0], pairs);
    uint64_t tries = 0, held = 0;
    for (uint64_t some : again) tries += some;
    for (uint32_t slot = 0; slot < gang.table.slots; slot++) held += gang.table.words[SLOTS + slot].load() % STATE;
    check(held == 0, "a slot is held");
    return tries;
}

// In trees that begin with some keys or none, each with 2,000 lines, since a tree is split most as it begins.
static void check_serial(uint64_t lines, size_t count) {
    uint64_t trees = 0, tries = 0;
    for (; trees * 2000 < lines; trees++) tries += check_tree(2000, count, trees % 2 == 0, 8 * trees);
    printf("serial by %zu: %llu trees, ", count, (unsigned long long)trees);
    printf("tried again %llu\n", (unsigned long long)tries);
    fflush(stdout);
}

int main(int count, char **words) {
    bool checks = count > 1 && strcmp(words[1], "check") == 0;
    int at = checks ? 2 : 1;
    uint64_t lines = count > at ? std::strtoull(words[at], nullptr, 10) : 100000;
    if (checks) {
        for (size_t workers : {1, 2, 4, 8}) check_serial(lines, workers);
        return 0;
    }
    for (uint64_t size : {1000, 100000})
        for (size_t workers : {1, 2, 4, 8}) {
            measure("reads", Reads, size, workers, lines);
            measure("updates", Updates, size, workers, lines);
            measure("scans", Scans, size, workers, lines / 4);
            measure_adds(size, workers, lines);
        }
}
