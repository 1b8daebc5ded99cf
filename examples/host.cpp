// A host in C++: prints the sheet of a table and the replies to a recorded history, as desk.c does without its words.
//
//     c++ -std=c++11 host.cpp $(pkg-config --cflags --libs cuorfelt) -o host
//     host TABLE HISTORY
//
// Ends with 0, with 1 where something was refused, with 2 where a file cannot be read or the output not be written.
#include "cuorfelt.h"

#include <array>
#include <cstdlib>
#include <fstream>
#include <iostream>
#include <sstream>
#include <string>
#include <vector>

using Bytes = std::vector<std::uint8_t>;

// One tick of a history.
struct Offer {
    unsigned long mask, supplied, cost;
};

[[noreturn]] static void fail(const std::string &what)
{
    std::cerr << "host: " << what << '\n';
    std::exit(2);
}

static std::string read_file(const std::string &name)
{
    std::ifstream file(name, std::ios::binary);
    std::string text;
    std::array<char, 4096> part;
    while (file.read(part.data(), part.size()) || file.gcount() > 0)
        text.append(part.data(), std::size_t(file.gcount()));
    if (!file.is_open() || file.bad())
        fail(name + ": cannot be read");
    return text;
}

static std::string hex(const Bytes &bytes)
{
    static const char digits[] = "0123456789abcdef";
    std::string text;
    for (auto byte : bytes)
        (text += digits[byte / 16]) += digits[byte % 16];
    return text;
}

// The ticks of a history, whose first line is the table in hex.
static std::vector<Offer> offers(const Bytes &table, const std::string &history)
{
    std::vector<Offer> ticks;
    std::istringstream lines(history);
    std::string line, rest;
    if (!std::getline(lines, line) || line != hex(table))
        fail("line 1: recorded for another table");
    for (unsigned number = 2; std::getline(lines, line); number++) {
        if (line.empty() || line[0] == '#')
            continue;
        std::istringstream words(line);
        Offer tick;
        if (!(words >> tick.mask >> tick.supplied >> tick.cost) || words >> rest || tick.mask > UINT16_MAX || tick.supplied > 1 || tick.cost > UINT32_MAX)
            fail("line " + std::to_string(number) + ": not a tick");
        ticks.push_back(tick);
    }
    return ticks;
}

static bool print_sheet(const Bytes &table)
{
    std::array<std::uint16_t, CUORFELT_PLACES> row{};
    const cuorfelt_sheet sheet = cuorfelt_analyse(table.data(), table.size(), row.data(), row.size());
    if (sheet.number) {
        std::cout << "refused " << +sheet.number << ' ' << +sheet.index << '\n';
        return false;
    }
    std::cout << "window " << sheet.window << '\n';
    for (unsigned index = 1; index <= table[1]; index++)
        std::cout << index << ' ' << row[index - 1] << '\n';
    return true;
}

static bool print_reply(std::size_t tick, const cuorfelt_reply &reply)
{
    static const std::array<const char *, 5> answers{{"refused", "nosupply", "idle", "ran", "finished"}};
    std::cout << tick << ' ' << answers[reply.answer] << ' ';
    if (reply.number)
        std::cout << +reply.number << ' ' << +reply.index << '\n';
    else
        std::cout << +reply.callback << ' ' << reply.instance << ' ' << +reply.started << ' ' << +reply.polled << ' ' << +reply.gathered << ' ' << reply.folded << '\n';
    return reply.number == 0;
}

static bool run(const Bytes &table, const std::vector<Offer> &ticks)
{
    std::array<std::uint8_t, CUORFELT_STATE_LENGTH> state{};
    const cuorfelt_refusal refusal = cuorfelt_start(table.data(), table.size(), state.data(), state.size());
    if (refusal.number) {
        std::cout << "start refused " << +refusal.number << ' ' << +refusal.index << '\n';
        return false;
    }
    std::cout << "start accepted\n";
    bool taken = true;
    for (std::size_t tick = 0; tick < ticks.size(); tick++) {
        const Offer &offer = ticks[tick];
        taken &= print_reply(tick, cuorfelt_tick(state.data(), state.size(), std::uint16_t(offer.mask), std::uint8_t(offer.supplied), std::uint32_t(offer.cost)));
    }
    return taken;
}

int main(int words, char **word)
{
    if (words != 3)
        fail("usage: host TABLE HISTORY");
    const std::string bytes = read_file(word[1]);
    const Bytes table(bytes.begin(), bytes.end());
    const std::vector<Offer> ticks = offers(table, read_file(word[2]));
    const bool accepted = print_sheet(table);
    const bool taken = run(table, ticks);
    if (!std::cout.flush())
        fail("standard output: cannot be written");
    return accepted && taken ? 0 : 1;
}
