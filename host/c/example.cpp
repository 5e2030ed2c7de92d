// Opens, edits, reads, looks up and lists a sheet from C++: the paper's cases M1 to M4 and M6 with each number and word that it prints, a
// plain reading, and refusals. Each answer that differs from the expected one is printed; the exit status is 0 where none does.
#include "bannelgo.h"

#include <array>
#include <cstddef>
#include <cstdint>
#include <iostream>
#include <stdexcept>
#include <string>
#include <vector>

namespace {

using Bytes = std::vector<std::uint8_t>;
using Words = std::vector<std::uint64_t>;

// A call that was refused, with the number of the first question that is answered no.
class Refused : public std::runtime_error {
public:
    explicit Refused(std::uint64_t number) : std::runtime_error("refused with " + std::to_string(number)), number_(number) {}
    std::uint64_t number() const { return number_; }

private:
    std::uint64_t number_;
};

bannelgo_answer answered(const bannelgo_answer &answer) {
    if (answer.number != BANNELGO_NONE) {
        throw Refused(answer.number);
    }
    return answer;
}

// What to lend of a vector. A lent pointer is never null, and data() of an empty vector may be.
template <typename Vector> auto lent(Vector &vector) -> decltype(vector.data()) {
    static typename Vector::value_type none;
    return vector.empty() ? &none : vector.data();
}

const std::uint8_t *lent_text(const std::string &text) {
    return reinterpret_cast<const std::uint8_t *>(text.data());
}

const Bytes &accepted(const Bytes &image) {
    const std::uint64_t number = bannelgo_check_image(lent(image), image.size());
    if (number != BANNELGO_NONE) {
        throw Refused(number);
    }
    return image;
}

struct Row {
    std::uint64_t rule, depth, start, length;
};

Row row_of(std::uint64_t word) {
    return {bannelgo_row_rule(word), bannelgo_row_depth(word), bannelgo_row_start(word), bannelgo_row_length(word)};
}

// A sheet with its image, its text and the records of what was read. It owns all three, so a copy of it is a sheet of its own. Each call
// throws `Refused` where it is refused.
class Sheet {
public:
    // Opens a text, with room for `cap` bytes.
    Sheet(const Bytes &image, const std::string &text, std::size_t cap)
        : image_(accepted(image)), buffer_(cap), table_(bannelgo_table_words(lent(image), cap)),
          opened_(answered(bannelgo_open(lent(image_), image_.size(), lent_text(text), text.size(), lent(buffer_), cap, lent(table_),
                                         table_.size()))),
          n_(opened_.length) {}

    const bannelgo_answer &opened() const { return opened_; }

    std::string text() const { return std::string(buffer_.begin(), buffer_.begin() + static_cast<std::ptrdiff_t>(n_)); }

    // Bytes start to end - 1 give way to the replacement.
    bannelgo_answer edit(std::size_t start, std::size_t end, const std::string &replacement) {
        const bannelgo_answer answer =
            answered(bannelgo_edit(lent(image_), image_.size(), lent(buffer_), buffer_.size(), n_, lent(table_), table_.size(), start,
                                   end, lent_text(replacement), replacement.size()));
        n_ = answer.length;
        return answer;
    }

    bannelgo_answer read() {
        return answered(
            bannelgo_read(lent(image_), image_.size(), lent(buffer_), buffer_.size(), n_, lent(table_), table_.size()));
    }

    bannelgo_answer look_up(std::size_t rule, std::size_t position) const {
        return answered(bannelgo_look_up(lent(image_), image_.size(), lent(buffer_), buffer_.size(), n_, lent(table_), table_.size(),
                                         rule, position));
    }

    // Writes the rows to the front of the slots.
    bannelgo_answer list(Words &slots) { return answered(listed(slots)); }

    // The rows, with as many slots as they need.
    std::vector<Row> rows() {
        Words slots(1);
        bannelgo_answer answer = listed(slots);
        while (answer.number == BANNELGO_ROWS) {
            slots.resize(2 * slots.size());
            answer = listed(slots);
        }
        slots.resize(answered(answer).value);
        std::vector<Row> rows;
        for (const std::uint64_t word : slots) {
            rows.push_back(row_of(word));
        }
        return rows;
    }

private:
    bannelgo_answer listed(Words &slots) {
        return bannelgo_list(lent(image_), image_.size(), lent(buffer_), buffer_.size(), n_, lent(table_), table_.size(), lent(slots),
                             slots.size());
    }

    Bytes image_;
    Bytes buffer_;
    Words table_;
    bannelgo_answer opened_;
    std::size_t n_;
};

// What is expected.

int differences = 0;

void expect(const std::string &what, std::uint64_t got, std::uint64_t expected) {
    if (got != expected) {
        std::cout << std::hex << what << ": 0x" << got << ", expected 0x" << expected << std::dec << "\n";
        ++differences;
    }
}

using Fields = std::array<std::uint64_t, 7>;

Fields of_reading(std::uint64_t outcome, std::uint64_t length, std::uint64_t examined, std::uint64_t evaluations,
                  std::uint64_t rows) {
    return {{BANNELGO_NONE, outcome, length, examined, 4, evaluations, rows}};
}

Fields with(std::uint64_t length, std::uint64_t value) {
    return {{BANNELGO_NONE, 0, length, 0, 0, 0, value}};
}

void expect_answer(const std::string &what, const bannelgo_answer &got, const Fields &expected) {
    std::cout << what << "\n";
    expect("  number", got.number, expected[0]);
    expect("  outcome", got.outcome, expected[1]);
    expect("  length", got.length, expected[2]);
    expect("  examined", got.examined, expected[3]);
    expect("  nesting", got.nesting, expected[4]);
    expect("  evaluations", got.evaluations, expected[5]);
    expect("  value", got.value, expected[6]);
}

template <typename Call> void expect_refused(const std::string &what, std::uint64_t number, Call call) {
    std::cout << what << "\n";
    try {
        call();
        expect("  refused", false, true);
    } catch (const Refused &refused) {
        expect("  number", refused.number(), number);
    }
}

void expect_text(const Sheet &sheet, const std::string &text) {
    expect("  the text differs", sheet.text() != text, false);
}

// The marked cases.

// Rule 0 = rule 1, then rule 1 zero or more times; rule 1 = 0x30 to 0x39.
const Bytes D2 = {
    0x10, 0x20, 0x05, 0x00, // edition 1, 2 rules, 5 nodes, start 0
    0x00, 0x00, 0x00, 0x04, // roots 0 and 4
    0x30, 0x00, 0x10, 0x02, // 0: node 1 then node 2
    0x70, 0x00, 0x10, 0x00, // 1: rule 1
    0x50, 0x00, 0x30, 0x00, // 2: node 3 zero or more times
    0x70, 0x00, 0x10, 0x00, // 3: rule 1
    0x20, 0x03, 0x00, 0x39, // 4: 0x30 to 0x39
};

const std::size_t CAP = 8;

Sheet opened_and_read() {
    Sheet sheet(D2, "12a", CAP);
    expect_answer("open \"12a\"", sheet.opened(), with(3, 0));
    expect_text(sheet, "12a");
    expect_answer("M1: reading", sheet.read(), of_reading(BANNELGO_PART, 2, 3, 4, 0));
    return sheet;
}

void marked_1() {
    const Sheet sheet = opened_and_read();
    expect_answer("M1: word of (0,0)", sheet.look_up(0, 0), with(0, UINT64_C(0xC000000800030002)));
    expect_answer("M1: word of (1,2)", sheet.look_up(1, 2), with(0, UINT64_C(0x8000000200010000)));
    expect_answer("no record of (0,1)", sheet.look_up(0, 1), with(0, 0));
}

void marked_2_and_3() {
    Sheet sheet = opened_and_read();
    expect_answer("M2: edit (2, 3, empty)", sheet.edit(2, 3, ""), with(2, 2));
    expect_text(sheet, "12");
    expect_answer("M2: reading", sheet.read(), of_reading(BANNELGO_WHOLE, 2, 3, 2, 0));
    expect_answer("M3: edit (0, 0, \"7\")", sheet.edit(0, 0, "7"), with(3, 4));
    expect_text(sheet, "712");
    expect_answer("M3: reading", sheet.read(), of_reading(BANNELGO_WHOLE, 3, 4, 2, 0));
}

void marked_4() {
    Sheet sheet = opened_and_read();
    expect_answer("M4: edit (2, 2, empty)", sheet.edit(2, 2, ""), with(3, 3));
    expect_text(sheet, "12a");
    expect_answer("M4: reading", sheet.read(), of_reading(BANNELGO_PART, 2, 3, 1, 0));
}

// The rows of "12".
const std::array<Row, 3> ROWS = {{{0, 0, 0, 2}, {1, 1, 0, 1}, {1, 1, 1, 1}}};

void expect_rows(const std::vector<Row> &rows) {
    expect("  rows", rows.size(), ROWS.size());
    for (std::size_t i = 0; i < rows.size() && i < ROWS.size(); ++i) {
        const Row &row = rows[i];
        std::cout << std::string(2 + 2 * row.depth, ' ') << "rule " << row.rule << ", start " << row.start << ", length "
                  << row.length << "\n";
        expect("  rule", row.rule, ROWS[i].rule);
        expect("  depth", row.depth, ROWS[i].depth);
        expect("  start", row.start, ROWS[i].start);
        expect("  length", row.length, ROWS[i].length);
    }
}

void marked_6() {
    Sheet sheet(D2, "12", CAP);
    Words slots(2, UINT64_MAX);
    expect_refused("M6: 2 slots", BANNELGO_ROWS, [&] { sheet.list(slots); });
    expect("  the first row", slots[0], UINT64_MAX);
    slots.resize(4, UINT64_MAX);
    expect_answer("M6: 4 slots", sheet.list(slots), of_reading(BANNELGO_WHOLE, 2, 3, 0, 3));
    expect("  the row past the last", slots[3], UINT64_MAX);
    expect_rows(sheet.rows());
}

// Refusals, the image check and the plain reading.

void refusals() {
    Sheet sheet = opened_and_read();
    expect_refused("8: open 9 bytes in a buffer of 8", BANNELGO_LOAN, [] { Sheet(D2, "123456789", CAP); });
    expect_refused("9: edit (1, 0, empty)", BANNELGO_EDIT_RANGE, [&] { sheet.edit(1, 0, ""); });
    expect_refused("10: edit (3, 3, 6 bytes)", BANNELGO_EDIT_ROOM, [&] { sheet.edit(3, 3, "456789"); });
    expect_refused("11: rule 2 of 2 rules", BANNELGO_PAIR, [&] { sheet.look_up(2, 0); });
    expect_text(sheet, "12a");
    expect_refused("1: no byte", BANNELGO_EDITION, [] { Sheet(Bytes(), "", 0); });
}

void a_sheet_without_room() {
    Sheet sheet(D2, "", 0);
    expect_answer("open nothing, with no room", sheet.opened(), with(0, 0));
    expect_answer("reading", sheet.read(), {{BANNELGO_NONE, BANNELGO_NOTHING, 0, 1, 3, 2, 0}});
    expect("  rows", sheet.rows().size(), 0);
}

void plain_reading() {
    const std::string text = "12a";
    std::cout << "plain reading\n";
    const std::uint64_t word = bannelgo_plain_reading(lent(D2), D2.size(), lent_text(text), text.size());
    expect("  held", bannelgo_is_held(word) != 0, true);
    expect("  matched", bannelgo_is_matched(word) != 0, true);
    expect("  nesting", bannelgo_nesting(word), 4);
    expect("  examined", bannelgo_examined(word), 3);
    expect("  length", bannelgo_length(word), 2);
}

} // namespace

int main() {
    try {
        marked_1();
        marked_2_and_3();
        marked_4();
        marked_6();
        refusals();
        a_sheet_without_room();
        plain_reading();
    } catch (const Refused &refused) {
        std::cout << refused.what() << "\n";
        ++differences;
    }
    std::cout << differences << " differences\n";
    return differences == 0 ? 0 : 1;
}
