// Counts the squares of a collection as `shapes count` does, and prints the same bytes, as fast as plain C++ does it: nothing is
// proved, no number of patterns is too large, each thread has a table of its own, and what is in vain is left out. It is what
// `docs/performance.md` compares with.
//
//     c++ -std=c++17 -O3 -march=native -pthread -o native bench/native.cpp
//     ./native WORKERS < COLLECTION > DICTIONARY
#include "../tests/records.hpp"

#include <algorithm>
#include <array>
#include <atomic>
#include <cstdint>
#include <cstdio>
#include <cstdlib>
#include <iostream>
#include <iterator>
#include <string>
#include <thread>
#include <vector>

// ---- What was counted: the patterns of one game in a small table, and those of all games of a thread in a large one.

struct Entry {
    uint64_t word, there, played;
};

static size_t hash(uint64_t word) { return word * 0x9E3779B97F4A7C15u >> 32; }

// The patterns of a game, by their places in the order in which they were met.
class Met {
  public:
    std::vector<Entry> entries;

    void clear() {
        entries.clear();
        std::fill(slots.begin(), slots.end(), 0);
    }

    uint32_t place(uint64_t word) {
        if (entries.size() * 2 >= slots.size()) grow();
        size_t at = hash(word) & (slots.size() - 1);
        while (slots[at] && entries[slots[at] - 1].word != word) at = (at + 1) & (slots.size() - 1);
        if (!slots[at]) {
            entries.push_back({word, 0, 0});
            slots[at] = uint32_t(entries.size());
        }
        return slots[at] - 1;
    }

  private:
    std::vector<uint32_t> slots = std::vector<uint32_t>(1 << 13);

    void grow() {
        slots.assign(slots.size() * 2, 0);
        for (size_t i = 0; i < entries.size(); i++) {
            size_t at = hash(entries[i].word) & (slots.size() - 1);
            while (slots[at]) at = (at + 1) & (slots.size() - 1);
            slots[at] = uint32_t(i + 1);
        }
    }
};

// The patterns of many games. The lines of memory of the next ones are asked for ahead.
class Counts {
  public:
    void add(const std::vector<Entry> &met) {
        while ((count + met.size()) * 3 >= table.size() * 2) grow();
        for (size_t i = 0; i < met.size(); i++) {
            if (i + 16 < met.size()) __builtin_prefetch(&table[hash(met[i + 16].word) & (table.size() - 1)], 1);
            Entry &entry = find(met[i].word);
            entry.there += met[i].there;
            entry.played += met[i].played;
        }
    }

    // The entries in the order of their words. Nothing can be added after that.
    std::vector<Entry> sorted() {
        table.erase(std::remove_if(table.begin(), table.end(), [](const Entry &entry) { return entry.word == NONE; }), table.end());
        std::sort(table.begin(), table.end(), is_less);
        return std::move(table);
    }

    static bool is_less(const Entry &one, const Entry &other) { return one.word < other.word; }

  private:
    static constexpr uint64_t NONE = ~uint64_t(0);
    std::vector<Entry> table = std::vector<Entry>(1 << 16, {NONE, 0, 0});
    size_t count = 0;

    Entry &find(uint64_t word) {
        size_t at = hash(word) & (table.size() - 1);
        while (table[at].word != word && table[at].word != NONE) at = (at + 1) & (table.size() - 1);
        count += table[at].word == NONE;
        table[at].word = word;
        return table[at];
    }

    void grow() {
        std::vector<Entry> old(table.size() * 2, {NONE, 0, 0});
        old.swap(table);
        count = 0;
        for (const Entry &entry : old)
            if (entry.word != NONE) find(entry.word) = entry;
    }
};

// ---- A game: the board, the eight images of each point's word, and what stays at a point for each mover.

using Images = std::array<uint64_t, 8>;

// For each cell the bits of one stone in the eight images.
static std::array<Images, 25> cell_images() {
    std::array<Images, 25> made{};
    for (int cell = 0; cell < 25; cell++) {
        int x = cell % 5 - 2, y = cell / 5 - 2;
        int turned[8][2] = {{x, y}, {-y, x}, {-x, -y}, {y, -x}, {-x, y}, {x, -y}, {y, x}, {-y, -x}};
        for (int i = 0; i < 8; i++) made[cell][i] = uint64_t(1) << 2 * ((turned[i][1] + 2) * 5 + turned[i][0] + 2);
    }
    return made;
}

static const std::array<Images, 25> CELLS = cell_images();

struct Stay {
    uint32_t place;
    uint32_t since;
};

struct Side {
    uint32_t occasions = 0;
    std::vector<uint8_t> is_changed;
    std::vector<uint16_t> changed;
    std::vector<Stay> stays;
};

class Walk {
  public:
    uint64_t moves = 0;
    Counts counts;
    std::vector<Entry> entries;     // in the order of their words, once all games are counted

    void game(const Record &game) {
        begin(game);
        for (const Action &action : game.actions) {
            int at = action.at.row * columns + action.at.column;
            if (!action.is_move) {
                put(at, action.stone);
                continue;
            }
            if (stones[at] == EMPTY) count(sides[action.stone - 1], action.stone, at);
            put(at, action.stone);
            for (int near : neighbours(at))
                if (near >= 0 && stones[near] == 3 - action.stone) remove_if_dead(near);
            remove_if_dead(at);
        }
        for (Side &side : sides)
            for (Stay stay : side.stays)
                if (stay.place != NONE) met.entries[stay.place].there += side.occasions - stay.since;
        counts.add(met.entries);
    }

  private:
    static constexpr uint32_t NONE = ~uint32_t(0);
    int columns = 0, rows = 0;
    Met met;
    std::vector<Stone> stones;
    std::vector<Images> words;
    std::array<Side, 2> sides;
    std::vector<int> group;
    std::vector<uint32_t> seen;
    uint32_t flood = 0;

    void begin(const Record &game) {
        met.clear();
        columns = game.columns, rows = game.rows;
        size_t area = size_t(columns) * rows;
        stones.assign(area, EMPTY);
        words.assign(area, Images{});
        seen.assign(area, 0);
        flood = 0;
        for (int row = 0; row < rows; row++)
            for (int column = 0; column < columns; column++)
                for (int cell = 0; cell < 25; cell++) {
                    int x = column + cell % 5 - 2, y = row + cell / 5 - 2;
                    if (x >= 0 && y >= 0 && x < columns && y < rows) continue;
                    for (int i = 0; i < 8; i++) words[row * columns + column][i] |= 3 * CELLS[cell][i];
                }
        for (Side &side : sides) {
            side.occasions = 0;
            side.is_changed.assign(area, 1);
            side.changed.resize(area);
            for (size_t at = 0; at < area; at++) side.changed[at] = uint16_t(at);
            side.stays.assign(area, {NONE, 0});
        }
    }

    std::array<int, 4> neighbours(int at) const {
        int column = at % columns, row = at / columns;
        return {column > 0 ? at - 1 : -1, column + 1 < columns ? at + 1 : -1, row > 0 ? at - columns : -1, row + 1 < rows ? at + columns : -1};
    }

    void put(int at, Stone stone) {
        uint64_t change = stones[at] ^ stone;
        if (!change) return;
        stones[at] = stone;
        int column = at % columns, row = at / columns;
        for (int y = std::max(0, row - 2); y <= std::min(rows - 1, row + 2); y++)
            for (int x = std::max(0, column - 2); x <= std::min(columns - 1, column + 2); x++) {
                const Images &cell = CELLS[(row - y + 2) * 5 + column - x + 2];
                Images &word = words[y * columns + x];
                for (int i = 0; i < 8; i++) word[i] ^= change * cell[i];
                for (Side &side : sides)
                    if (!side.is_changed[y * columns + x]) {
                        side.is_changed[y * columns + x] = 1;
                        side.changed.push_back(uint16_t(y * columns + x));
                    }
            }
    }

    void remove_if_dead(int start) {
        group.assign(1, start);
        seen[start] = ++flood;
        for (size_t next = 0; next < group.size(); next++)
            for (int near : neighbours(group[next])) {
                if (near < 0) continue;
                if (stones[near] == EMPTY) return;
                if (stones[near] != stones[start] || seen[near] == flood) continue;
                seen[near] = flood;
                group.push_back(near);
            }
        std::vector<int> dead = group;
        for (int at : dead) put(at, EMPTY);
    }

    uint64_t canonical(int at, Stone mover) const {
        const uint64_t LOW = 0x5555555555555555;
        uint64_t least = ~uint64_t(0);
        for (uint64_t word : words[at]) {
            if (mover == WHITE) word = (word & LOW) << 1 | (word >> 1 & LOW);
            least = std::min(least, word);
        }
        return least;
    }

    void count(Side &side, Stone mover, int at) {
        for (int point : side.changed) {
            side.is_changed[point] = 0;
            Stay &stay = side.stays[point];
            if (stay.place != NONE) met.entries[stay.place].there += side.occasions - stay.since;
            stay.place = stones[point] == EMPTY ? met.place(canonical(point, mover)) : NONE;
            stay.since = side.occasions;
        }
        side.changed.clear();
        side.occasions++;
        moves++;
        met.entries[side.stays[at].place].played++;
    }
};

// ---- The dictionary: each thread's entries in order, and ranges of words joined and printed side by side.

static void push(std::string &text, uint64_t number) {
    char digits[20];
    int count = 0;
    do digits[count++] = char('0' + number % 10);
    while (number /= 10);
    while (count) text += digits[--count];
}

static void line(std::string &text, const Entry &entry) {
    for (int shift = 48; shift >= 0; shift -= 4) text += "0123456789abcdef"[entry.word >> shift & 15];
    text += ' ';
    push(text, entry.there);
    text += ' ';
    push(text, entry.played);
    text += '\n';
}

// Joins the entries of one range, out of all threads' entries, and prints them.
static size_t join(const std::vector<Walk> &walks, uint64_t from, uint64_t to, std::string &text) {
    std::vector<Entry> all;
    for (const Walk &walk : walks) {
        auto first = std::lower_bound(walk.entries.begin(), walk.entries.end(), Entry{from, 0, 0}, Counts::is_less);
        auto last = std::lower_bound(first, walk.entries.end(), Entry{to, 0, 0}, Counts::is_less);
        auto middle = all.insert(all.end(), first, last);
        std::inplace_merge(all.begin(), middle, all.end(), Counts::is_less);
    }
    size_t patterns = 0;
    for (size_t at = 0; at < all.size(); patterns++) {
        Entry sum = all[at++];
        for (; at < all.size() && all[at].word == sum.word; at++) sum.there += all[at].there, sum.played += all[at].played;
        line(text, sum);
    }
    return patterns;
}

template <class Work> static void in_threads(size_t count, Work work) {
    std::vector<std::thread> threads;
    for (size_t i = 0; i < count; i++) threads.emplace_back(work, i);
    for (std::thread &thread : threads) thread.join();
}

int main(int count, char **words) try {
    size_t workers = count == 2 ? std::strtoul(words[1], nullptr, 10) : 0;
    if (workers < 1 || workers > 64) {
        std::fprintf(stderr, "native: WORKERS is 1 to 64\n");
        return 2;
    }
    std::string input{std::istreambuf_iterator<char>(std::cin), std::istreambuf_iterator<char>()};
    std::vector<Record> games;
    Reader reader(input);
    while (auto line = reader.next()) {
        try {
            games.push_back(read_record(*line));
        } catch (const OfAnotherGame &) {
        } catch (const Refused &) {
        }
    }

    std::vector<Walk> walks(workers);
    std::atomic<size_t> next{0};
    in_threads(workers, [&](size_t i) {
        for (size_t at; (at = next++) < games.size();) walks[i].game(games[at]);
        walks[i].entries = walks[i].counts.sorted();
    });

    // Ranges of about as many entries each, by the largest thread's.
    auto fewer = [](const Walk &one, const Walk &other) { return one.entries.size() < other.entries.size(); };
    const std::vector<Entry> &most = std::max_element(walks.begin(), walks.end(), fewer)->entries;
    size_t ranges = 16 * workers;
    std::vector<uint64_t> cuts{0};
    for (size_t i = 1; i < ranges && !most.empty(); i++) cuts.push_back(most[most.size() * i / ranges].word);
    cuts.push_back(~uint64_t(0));
    std::vector<std::string> texts(cuts.size() - 1);
    std::atomic<size_t> range{0}, patterns{0};
    in_threads(workers, [&](size_t) {
        for (size_t at; (at = range++) < texts.size();) patterns += join(walks, cuts[at], cuts[at + 1], texts[at]);
    });

    uint64_t moves = 0;
    for (const Walk &walk : walks) moves += walk.moves;
    std::printf("shapes 1 games %zu moves %lu patterns %zu\n", games.size(), moves, patterns.load());
    for (const std::string &text : texts) std::fwrite(text.data(), 1, text.size(), stdout);
    return std::fflush(stdout) ? 6 : 0;
} catch (const SyntaxFault &fault) {
    std::fprintf(stderr, "native: %s at %zu\n", fault.text.c_str(), fault.at);
    return 3;
}
