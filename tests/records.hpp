// The games of a collection: its trees, the properties of their main lines, and what these do. It shares no line with the program,
// and nothing of it is proved. `tests/independent.cpp` and `bench/native.cpp` read by it.
#pragma once
#include <algorithm>
#include <map>
#include <optional>
#include <string>
#include <utility>
#include <vector>

// ---- Collections: trees, and the properties of their main lines.

struct Value {
    std::string bytes;
};

struct Property {
    std::string name;
    std::vector<Value> values;
};

using Node = std::vector<Property>;
using MainLine = std::vector<Node>;

struct SyntaxFault {
    std::string text;
    size_t at;
};

static bool is_white(char byte) { return (byte >= 9 && byte <= 13) || byte == ' '; }
static bool is_upper(char byte) { return byte >= 'A' && byte <= 'Z'; }
static bool is_lower(char byte) { return byte >= 'a' && byte <= 'z'; }
static bool is_letter(char byte) { return is_upper(byte) || is_lower(byte); }

class Reader {
  public:
    explicit Reader(const std::string &input) : bytes(input) {}

    // The main line of the next tree, or nothing where no tree is left.
    std::optional<MainLine> next() {
        for (; place < bytes.size(); place++) {
            if (bytes[place] != '(') continue;
            size_t after = place + 1;
            while (after < bytes.size() && is_white(bytes[after])) after++;
            if (after < bytes.size() && bytes[after] == ';') return tree();
        }
        return std::nullopt;
    }

  private:
    struct Level {
        bool of_main_line;
        int trees;
    };

    const std::string &bytes;
    size_t place = 0;
    size_t start = 0;

    char peek() {
        if (place >= bytes.size()) throw SyntaxFault{"S1 truncated tree", start};
        return bytes[place];
    }

    char peek_past_white() {
        while (place < bytes.size() && is_white(bytes[place])) place++;
        return peek();
    }

    Value value() {
        size_t first = place;
        while (peek() != ']') {
            place += peek() == '\\' ? 2 : 1;
        }
        Value read{bytes.substr(first, place - first)};
        place++;
        return read;
    }

    Property property() {
        Property read;
        for (; is_letter(peek()); place++) {
            if (is_upper(bytes[place])) read.name += bytes[place];
        }
        if (peek_past_white() != '[') throw SyntaxFault{"S3 no value", place};
        while (peek_past_white() == '[') {
            place++;
            read.values.push_back(value());
        }
        return read;
    }

    Node node() {
        Node read;
        while (is_letter(peek_past_white())) read.push_back(property());
        return read;
    }

    MainLine tree() {
        start = place++;
        MainLine line;
        std::vector<Level> levels{{true, 0}};
        bool begins = true;
        while (!levels.empty()) {
            char byte = peek_past_white();
            if (byte == ';' && levels.back().trees == 0) {
                place++;
                Node read = node();
                if (levels.back().of_main_line) line.push_back(std::move(read));
                begins = false;
            } else if (byte == '(' && !begins) {
                bool main = levels.back().of_main_line && levels.back().trees == 0;
                levels.back().trees++;
                levels.push_back({main, 0});
                place++;
                begins = true;
            } else if (byte == ')' && !begins) {
                levels.pop_back();
                place++;
            } else {
                throw SyntaxFault{"S2 bad byte", place};
            }
        }
        return line;
    }
};

// ---- Records: sizes and actions.

enum Stone : char { EMPTY = 0, BLACK = 1, WHITE = 2 };

struct Point {
    int column, row;
};

struct Action {
    bool is_move;
    Stone stone;
    Point at;
};

struct Record {
    int columns = 19, rows = 19;
    std::vector<Action> actions;
};

struct Refused {};
struct OfAnotherGame {};

static std::string trimmed(const std::string &text) {
    size_t first = 0, end = text.size();
    while (first < end && is_white(text[first])) first++;
    while (end > first && is_white(text[end - 1])) end--;
    return text.substr(first, end - first);
}

// Digits with an optional plus before them; -1 where it is no number. Large numbers are all as large.
static long number(const std::string &text) {
    size_t place = !text.empty() && text[0] == '+';
    if (place == text.size()) return -1;
    long value = 0;
    for (; place < text.size(); place++) {
        if (text[place] < '0' || text[place] > '9') return -1;
        value = std::min(value * 10 + (text[place] - '0'), 1000000L);
    }
    return value;
}

static int letter(char byte) {
    if (is_lower(byte)) return byte - 'a';
    if (is_upper(byte)) return byte - 'A' + 26;
    throw Refused();
}

static Point point(const std::string &text) {
    if (text.size() != 2) throw Refused();
    return {letter(text[0]), letter(text[1])};
}

static void check_on_board(const Record &record, Point at) {
    if (at.column >= record.columns || at.row >= record.rows) throw Refused();
}

static int side(const std::string &text) {
    long value = number(trimmed(text));
    if (value < 1 || value > 52) throw Refused();
    return int(value);
}

static void read_size(Record &record, const std::string &text) {
    if (text.empty()) return;
    size_t colon = text.find(':');
    record.columns = side(text.substr(0, colon));
    record.rows = colon == std::string::npos ? record.columns : side(text.substr(colon + 1));
}

static void read_setup(Record &record, Stone stone, const std::string &text) {
    if (text.empty()) return;
    size_t colon = text.find(':');
    Point from = point(trimmed(text.substr(0, colon)));
    Point to = colon == std::string::npos ? from : point(trimmed(text.substr(colon + 1)));
    check_on_board(record, {std::max(from.column, to.column), std::max(from.row, to.row)});
    for (int row = std::min(from.row, to.row); row <= std::max(from.row, to.row); row++)
        for (int column = std::min(from.column, to.column); column <= std::max(from.column, to.column); column++)
            record.actions.push_back({false, stone, {column, row}});
}

static void read_move(Record &record, Stone stone, const std::string &text) {
    bool is_small = record.columns <= 19 && record.rows <= 19;
    if (text.empty() || (text == "tt" && is_small)) return;
    Point at = point(text);
    check_on_board(record, at);
    record.actions.push_back({true, stone, at});
}

static Record read_record(const MainLine &line) {
    static const std::map<std::string, Stone> setups{{"AB", BLACK}, {"AW", WHITE}, {"AE", EMPTY}};
    static const std::map<std::string, Stone> moves{{"B", BLACK}, {"W", WHITE}};
    std::optional<std::string> game, size;
    for (const Property &property : line[0]) {
        if (property.name == "GM" && !game) game = trimmed(property.values[0].bytes);
        if (property.name == "SZ" && !size) size = trimmed(property.values[0].bytes);
    }
    if (game && !game->empty() && number(*game) != 1) throw OfAnotherGame();
    Record record;
    read_size(record, size.value_or(""));
    for (const Node &node : line) {
        for (const Property &property : node)
            if (auto setup = setups.find(property.name); setup != setups.end())
                for (const Value &value : property.values) read_setup(record, setup->second, trimmed(value.bytes));
        for (const Property &property : node)
            if (auto move = moves.find(property.name); move != moves.end())
                for (const Value &value : property.values) read_move(record, move->second, trimmed(value.bytes));
    }
    return record;
}
