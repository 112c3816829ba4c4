// The program of client.c in C++: the same records and the same output. A refusal is thrown.
#include <cstdio>
#include <stdexcept>
#include <string>
#include <vector>

#include "morvenka.h"

namespace {

const uint8_t *bytes(const std::string &text)
{
    return reinterpret_cast<const uint8_t *>(text.data());
}

// The length of a success.
std::size_t length_of(uint64_t answer)
{
    unsigned number = morvenka_number(answer);
    if (number != MORVENKA_OK)
        throw std::runtime_error("refused with " + std::to_string(number) + ", " + morvenka_name(number) + ", at field " +
                                 std::to_string(morvenka_field(answer)));
    return morvenka_length(answer);
}

class Layout {
public:
    explicit Layout(const std::string &text) : plan(MORVENKA_PLAN_MAX)
    {
        plan.resize(length_of(morvenka_compile(bytes(text), text.size(), plan.data(), plan.size())));
    }

    std::size_t fields() const { return morvenka_plan_fields(plan.data(), plan.size()); }
    std::size_t record() const { return morvenka_plan_record(plan.data(), plan.size()); }
    std::size_t scale(std::size_t field) const { return morvenka_field_scale(plan.data(), plan.size(), field); }

    std::vector<int64_t> read(const std::string &record) const
    {
        std::vector<int64_t> row(fields());
        length_of(morvenka_plan_read(plan.data(), plan.size(), bytes(record), record.size(),
                                     reinterpret_cast<uint8_t *>(row.data()), 8 * row.size()));
        return row;
    }

    std::string edit(const std::vector<int64_t> &row) const
    {
        std::string record(this->record(), ' ');
        length_of(morvenka_plan_edit(plan.data(), plan.size(), reinterpret_cast<const uint8_t *>(row.data()), 8 * row.size(),
                                     reinterpret_cast<uint8_t *>(&record[0]), record.size()));
        return record;
    }

private:
    std::vector<uint8_t> plan;
};

// A number of a row with its point: 125050 at scale 2 is 1250.50, and -5 is -0.05.
std::string amount(int64_t m, std::size_t scale)
{
    std::string digits = std::to_string(m < 0 ? -m : m);
    if (digits.size() <= scale)
        digits.insert(0, scale + 1 - digits.size(), '0');
    if (scale > 0)
        digits.insert(digits.size() - scale, ".");
    return (m < 0 ? "-" : "") + digits;
}

void show(const Layout &layout, const char *what, const std::string &record)
try {
    std::vector<int64_t> row = layout.read(record);
    for (std::size_t field = 1; field <= row.size(); field++)
        std::printf("%s: field %zu is %s\n", what, field, amount(row[field - 1], layout.scale(field)).c_str());
    std::printf("%s: \"%s\"\n", what, layout.edit(row).c_str());
} catch (const std::runtime_error &refusal) {
    std::printf("%s: %s\n", what, refusal.what());
}

} // namespace

int main()
{
    Layout layout("ZZ,ZZ9V.99;$$,$$9V.99CR;(3)Z9;9999V9T;");
    std::printf("layout: %zu fields, %zu characters\n", layout.fields(), layout.record());
    show(layout, "weighed", " 1,250.50" "  $312.62CR" "  42" "00184C");
    show(layout, "corrected", "     0.75" "    $0.05CR" "  43" "00245}");
    show(layout, "missed", "         " "  $312.62CR" "  44" "00000{");
}
