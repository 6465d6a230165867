// Counts the local patterns of a collection as `shapes count` does, by other ways: a tree's letters are walked with a
// stack, every group is flooded anew, and every pattern is read off the board cell by cell at every occasion. It shares
// no line with the program, and nothing of it is proved. Both must print the same: `tests/agreement` compares them.
//
//     independent TEXT [BITS] < COLLECTION   TEXT is 1, 2 or 3
//
// Where BITS is given and there are more than 2^BITS patterns, it says which one is the first that is too many, in the
// order in which they are met: game by game, occasion by occasion, points row by row, the square before the diamond.
#include "records.hpp"

#include <algorithm>
#include <array>
#include <cstdint>
#include <cstdio>
#include <cstdlib>
#include <iostream>
#include <iterator>
#include <map>
#include <unordered_map>

// ---- Boards: stones, groups and captures.

struct Board {
    int columns, rows;
    std::vector<Stone> stones;

    Board(int columns, int rows) : columns(columns), rows(rows), stones(columns * rows, EMPTY) {}

    bool has(int column, int row) const { return column >= 0 && row >= 0 && column < columns && row < rows; }

    Stone &at(int column, int row) { return stones[row * columns + column]; }

    std::vector<Point> neighbours(Point point) const {
        std::vector<Point> found;
        for (auto [x, y] : {std::pair{-1, 0}, {1, 0}, {0, -1}, {0, 1}})
            if (has(point.column + x, point.row + y)) found.push_back({point.column + x, point.row + y});
        return found;
    }

    // Removes the group of a point where it has no liberty.
    void remove_if_dead(Point start) {
        std::vector<Point> group{start};
        std::vector<bool> seen(stones.size());
        seen[start.row * columns + start.column] = true;
        for (size_t next = 0; next < group.size(); next++) {
            for (Point near : neighbours(group[next])) {
                if (at(near.column, near.row) == EMPTY) return;
                bool same = at(near.column, near.row) == at(start.column, start.row);
                if (!same || seen[near.row * columns + near.column]) continue;
                seen[near.row * columns + near.column] = true;
                group.push_back(near);
            }
        }
        for (Point dead : group) at(dead.column, dead.row) = EMPTY;
    }

    void play(Stone stone, Point move) {
        at(move.column, move.row) = stone;
        for (Point near : neighbours(move)) {
            Stone other = at(near.column, near.row);
            if (other != EMPTY && other != stone) remove_if_dead(near);
        }
        remove_if_dead(move);
    }
};

// ---- Patterns: 25 cells, their images, and the least of them.

struct Offset {
    int down, right;
    bool operator==(const Offset &other) const { return down == other.down && right == other.right; }
};

static Offset image(Offset cell, int symmetry) {
    auto [y, x] = cell;
    switch (symmetry) {
    case 0: return {y, x};
    case 1: return {x, -y};
    case 2: return {-y, -x};
    case 3: return {-x, y};
    case 4: return {y, -x};
    case 5: return {-y, x};
    case 6: return {x, y};
    default: return {-x, -y};
    }
}

struct Kind {
    std::vector<Offset> cells;
    std::array<std::array<int, 25>, 8> images;
    uint64_t mark;
    std::unordered_map<uint64_t, uint64_t> least;

    Kind(std::vector<Offset> offsets, uint64_t mark) : cells(std::move(offsets)), mark(mark) {
        for (int symmetry = 0; symmetry < 8; symmetry++)
            for (int cell = 0; cell < 25; cell++) {
                auto to = std::find(cells.begin(), cells.end(), image(cells[cell], symmetry));
                images[symmetry][cell] = int(to - cells.begin());
            }
    }

    uint64_t least_image(const std::array<int, 25> &codes) {
        uint64_t word = 0;
        for (int cell = 0; cell < 25; cell++) word |= uint64_t(codes[cell]) << (2 * cell);
        auto [known, is_new] = least.try_emplace(word, ~uint64_t(0));
        for (int symmetry = 0; is_new && symmetry < 8; symmetry++) {
            uint64_t turned = 0;
            for (int cell = 0; cell < 25; cell++) turned |= uint64_t(codes[cell]) << (2 * images[symmetry][cell]);
            known->second = std::min(known->second, turned | mark);
        }
        return known->second;
    }

    uint64_t pattern(Board &board, int column, int row, Stone mover) {
        std::array<int, 25> codes;
        for (int cell = 0; cell < 25; cell++) {
            int x = column + cells[cell].right, y = row + cells[cell].down;
            int code = board.has(x, y) ? board.at(x, y) : 3;
            codes[cell] = mover == WHITE && (code == BLACK || code == WHITE) ? 3 - code : code;
        }
        return least_image(codes);
    }
};

static Kind square() {
    std::vector<Offset> cells;
    for (int y = -2; y <= 2; y++)
        for (int x = -2; x <= 2; x++) cells.push_back({y, x});
    return Kind(cells, 0);
}

static Kind diamond() {
    std::vector<Offset> cells;
    for (int y = -3; y <= 3; y++)
        for (int x = -3; x <= 3; x++)
            if (std::abs(x) + std::abs(y) <= 3) cells.push_back({y, x});
    return Kind(cells, uint64_t(1) << 50);
}

// ---- Dictionaries.

struct Entry {
    uint64_t there = 0, played = 0, first = 0;
};

struct Dictionary {
    uint64_t games = 0, moves = 0, others = 0, refused = 0;
    std::map<uint64_t, Entry> entries;
    std::vector<uint64_t> met;

    void count(std::vector<Kind> &kinds, Board &board, const Action &move) {
        moves++;
        for (int row = 0; row < board.rows; row++)
            for (int column = 0; column < board.columns; column++) {
                if (board.at(column, row) != EMPTY) continue;
                bool is_played = column == move.at.column && row == move.at.row;
                for (Kind &kind : kinds) count_one(kind.pattern(board, column, row, move.stone), is_played);
            }
    }

    void count_one(uint64_t pattern, bool is_played) {
        auto [entry, is_new] = entries.try_emplace(pattern);
        if (is_new) {
            entry->second.first = games;
            met.push_back(pattern);
        }
        entry->second.there++;
        if (is_played) entry->second.played++;
    }

    void add(std::vector<Kind> &kinds, const MainLine &line) try {
        Record record = read_record(line);
        Board board(record.columns, record.rows);
        for (const Action &action : record.actions) {
            Stone &stone = board.at(action.at.column, action.at.row);
            if (!action.is_move) {
                stone = action.stone;
                continue;
            }
            if (stone == EMPTY) count(kinds, board, action);
            board.play(action.stone, action.at);
        }
        games++;
    } catch (const OfAnotherGame &) {
        others++;
    } catch (const Refused &) {
        refused++;
    }

    void print(int text) const {
        size_t diamonds = std::distance(entries.lower_bound(uint64_t(1) << 50), entries.end());
        size_t squares = entries.size() - diamonds;
        std::printf("shapes %d games %lu moves %lu ", text, games, moves);
        if (text == 1) std::printf("patterns %zu\n", squares);
        if (text != 1) std::printf("squares %zu diamonds %zu\n", squares, diamonds);
        for (const auto &[word, entry] : entries) {
            std::printf("%013lx %lu %lu", word, entry.there, entry.played);
            if (text == 3) std::printf(" %lu", entry.first);
            std::putchar('\n');
        }
    }
};

int main(int count, char **words) try {
    int text = count == 2 || count == 3 ? std::atoi(words[1]) : 0;
    int bits = count == 3 ? std::atoi(words[2]) : 63;
    if (text < 1 || text > 3 || bits < 0 || bits > 63) {
        std::fprintf(stderr, "independent: TEXT is 1, 2 or 3, and BITS 0 to 63\n");
        return 2;
    }
    std::string input{std::istreambuf_iterator<char>(std::cin), std::istreambuf_iterator<char>()};
    std::vector<Kind> kinds{square()};
    if (text != 1) kinds.push_back(diamond());
    Dictionary dictionary;
    Reader reader(input);
    while (auto line = reader.next()) dictionary.add(kinds, *line);
    uint64_t most = uint64_t(1) << bits;
    if (dictionary.met.size() > most) {
        uint64_t beyond = dictionary.met[most];
        std::fprintf(stderr, "shapes: F1 full in game %lu at %013lx\n", dictionary.entries[beyond].first, beyond);
        return 4;
    }
    dictionary.print(text);
    std::fprintf(stderr, "shapes: games %lu other %lu refused %lu\n", dictionary.games, dictionary.others, dictionary.refused);
    return 0;
} catch (const SyntaxFault &fault) {
    std::fprintf(stderr, "shapes: %s at %zu\n", fault.text.c_str(), fault.at);
    return 3;
}
