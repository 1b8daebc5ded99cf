// The headers in C++. Where a length is 0 the pointer may be null, as an empty vector has it.
#include "cuorfelt.h"
#include "cuorfelt_text.h"

#include <cstddef>
#include <cstdio>
#include <vector>

static_assert(sizeof(cuorfelt_refusal) == 2 && sizeof(cuorfelt_sheet) == 4 && sizeof(cuorfelt_reply) == 16 && offsetof(cuorfelt_reply, folded) == 12, "as the library lays them out");
static_assert(sizeof(cuorfelt_written) == 8 && sizeof(cuorfelt_callback) == CUORFELT_RECORD_NUMBERS * sizeof(uint16_t), "as the writer has them");
static_assert(CUORFELT_LONGEST_TABLE == CUORFELT_HEADER_LENGTH + CUORFELT_RECORD_LENGTH * CUORFELT_PLACES, "a table of sixteen callbacks");

static int wrong = 0;

static void expect(const char *call, unsigned said, unsigned number)
{
    if (said != number) {
        std::printf("%s says %u, not %u\n", call, said, number);
        wrong = 1;
    }
}

int main()
{
    std::vector<uint8_t> state(CUORFELT_STATE_LENGTH);
    std::vector<uint16_t> row(CUORFELT_PLACES);
    std::vector<uint8_t> table(CUORFELT_LONGEST_TABLE);
    const cuorfelt_callback lone = {CUORFELT_SERVICE, 0, 1, 10, 0, 10, {2}};
    expect("state_length", unsigned(cuorfelt_state_length()), CUORFELT_STATE_LENGTH);
    expect("read", cuorfelt_read(nullptr, 0).number, CUORFELT_SHORT_HEADER);
    expect("write", cuorfelt_write(1, 1, 1, 1, 0, 0, nullptr, 0, nullptr, 0).number, CUORFELT_WRONG_KIND);
    expect("write", cuorfelt_write(1, 1, 1, 1, 0, 0, &lone.kind, CUORFELT_RECORD_NUMBERS, nullptr, 0).number, CUORFELT_SHORT_BUFFER);
    expect("write", cuorfelt_write(1, 1, 1, 1, 0, 0, &lone.kind, CUORFELT_RECORD_NUMBERS, table.data(), table.size()).length, 48);
    expect("read", cuorfelt_read(table.data(), 48).number, CUORFELT_ACCEPTED);
    expect("normalise", cuorfelt_normalise(nullptr, 0).number, CUORFELT_SHORT_HEADER);
    expect("normalise", cuorfelt_normalise(table.data(), 48).number, CUORFELT_ACCEPTED);
    expect("analyse", cuorfelt_analyse(nullptr, 0, row.data(), row.size()).number, CUORFELT_SHORT_HEADER);
    expect("analyse", cuorfelt_analyse(nullptr, 0, nullptr, 0).number, CUORFELT_SHORT_ROW);
    expect("start", cuorfelt_start(nullptr, 0, state.data(), state.size()).number, CUORFELT_SHORT_HEADER);
    expect("start", cuorfelt_start(nullptr, 0, nullptr, 0).number, CUORFELT_FAULTY_STATE);
    expect("tick", cuorfelt_tick(nullptr, 0, 0, 1, 1).number, CUORFELT_FAULTY_STATE);
    expect("tick", cuorfelt_tick(state.data(), state.size(), 0, 1, 1).number, CUORFELT_FAULTY_STATE);
    return wrong;
}
