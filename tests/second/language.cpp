// Languages of xor automata: every quotient is a vector of truths on a list of test words.
#include "language.hpp"

#include <algorithm>
#include <utility>

#include "bits.hpp"
#include "halves.hpp"

namespace second {

namespace {

// Independent vectors, each cleared of the leading entries of those before it.
class Echelon {
public:
    // Keeps the vector and says yes when it is no xor of the vectors kept before.
    bool admit(Bits vector)
    {
        for (const auto& [lead, kept] : kept_) {
            if (vector[lead] != 0) {
                add(vector, kept);
            }
        }
        const auto lead = std::find(vector.begin(), vector.end(), 1);
        if (lead == vector.end()) {
            return false;
        }
        const auto place = static_cast<std::size_t>(lead - vector.begin());
        kept_.emplace_back(place, std::move(vector));
        return true;
    }

private:
    std::vector<std::pair<std::size_t, Bits>> kept_;
};

struct Test {
    std::size_t length;   // of the test word
    Parts back;
};

// Test words by length, enough to tell apart all that any front can lead to. The tests up to a
// length decide as much as all words up to that length.
std::vector<Test> tests_of(const Language& language)
{
    std::vector<Test> tests;
    Echelon seen;
    const auto offer = [&](Test test) {
        if (seen.admit(spread(language, test.back))) {
            tests.push_back(std::move(test));
        }
    };
    offer({0, back_of_empty(language)});
    for (std::size_t next = 0; next < tests.size(); ++next) {
        for (std::size_t letter = 0; letter < language.operands[0].letters; ++letter) {
            offer({tests[next].length + 1, back_before(language, tests[next].back, letter)});
        }
    }
    return tests;
}

Bits quotient(const Language& language, const std::vector<Test>& tests, const Parts& front)
{
    Bits truths;
    truths.reserve(tests.size());
    for (const Test& test : tests) {
        truths.push_back(truth(language, front, test.back) ? 1 : 0);
    }
    return truths;
}

// One equation for each entry, one unknown for each basis vector, one right-hand side for each target.
std::vector<Bits> equations_of(const std::vector<Bits>& basis, const std::vector<Bits>& targets)
{
    std::vector<Bits> equations(basis.empty() ? 0 : basis[0].size());
    for (std::size_t e = 0; e < equations.size(); ++e) {
        for (const Bits& vector : basis) {
            equations[e].push_back(vector[e]);
        }
        for (const Bits& vector : targets) {
            equations[e].push_back(vector[e]);
        }
    }
    return equations;
}

// Clears unknown c from the equations after the c-th. The basis is independent, so an
// equation that still holds the unknown is always found.
void eliminate(std::vector<Bits>& equations, std::size_t unknowns)
{
    for (std::size_t c = 0; c < unknowns; ++c) {
        std::size_t found = c;
        while (equations[found][c] == 0) {
            ++found;
        }
        std::swap(equations[c], equations[found]);
        for (std::size_t e = c + 1; e < equations.size(); ++e) {
            if (equations[e][c] != 0) {
                add(equations[e], equations[c]);
            }
        }
    }
}

// For each target, which of the independent basis vectors xor to it.
std::vector<Bits> coordinates(const std::vector<Bits>& basis, const std::vector<Bits>& targets)
{
    const std::size_t unknowns = basis.size();
    std::vector<Bits> equations = equations_of(basis, targets);
    eliminate(equations, unknowns);
    std::vector<Bits> solved(targets.size(), Bits(unknowns, 0));
    for (std::size_t t = 0; t < targets.size(); ++t) {
        for (std::size_t c = unknowns; c-- > 0;) {
            unsigned char value = equations[c][unknowns + t];
            for (std::size_t later = c + 1; later < unknowns; ++later) {
                value ^= equations[c][later] & solved[t][later];
            }
            solved[t][c] = value;
        }
    }
    return solved;
}

// The basis words' quotients in shortlex order, and after each of them those of its extensions.
struct Quotients {
    std::vector<Bits> basis;
    std::vector<Bits> extended;   // basis word 0 by letters 0, 1, ..., then basis word 1, and so on
};

// Only extensions of basis words can be new, and they come up in shortlex order.
Quotients quotients_of(const Language& language, const std::vector<Test>& tests)
{
    Quotients found;
    std::vector<Parts> fronts;
    Echelon seen;
    const auto offer = [&](Parts front, const Bits& truths) {
        if (seen.admit(truths)) {
            found.basis.push_back(truths);
            fronts.push_back(std::move(front));
        }
    };
    const Parts start = front_of_empty(language);
    offer(start, quotient(language, tests, start));
    for (std::size_t next = 0; next < fronts.size(); ++next) {
        for (std::size_t letter = 0; letter < language.operands[0].letters; ++letter) {
            Parts front = front_after(language, fronts[next], letter);
            found.extended.push_back(quotient(language, tests, front));
            offer(std::move(front), found.extended.back());
        }
    }
    return found;
}

}  // namespace

Machine minimal_machine(const Language& language)
{
    const std::size_t letters = language.operands[0].letters;
    const std::vector<Test> tests = tests_of(language);
    const Quotients found = quotients_of(language, tests);
    const std::vector<Bits> solved = coordinates(found.basis, found.extended);
    Machine minimal = blank_machine(found.basis.size(), letters);
    for (std::size_t k = 0; k < minimal.states; ++k) {
        minimal.initial[k] = k == 0 ? 1 : 0;
        // Where there is a test at all, the first one is the empty word.
        minimal.accepting[k] = found.basis[k][0];
        for (std::size_t letter = 0; letter < letters; ++letter) {
            minimal.rows[letter][k] = solved[k * letters + letter];
        }
    }
    return minimal;
}

std::size_t dimension(const Machine& machine)
{
    return minimal_machine({Kind::own, {machine}}).states;
}

Difference first_difference(const Machine& one, const Machine& two)
{
    const Language either{Kind::sum, {one, two}};
    const std::vector<Test> tests = tests_of(either);
    Parts front = front_of_empty(either);
    const auto differs = [&](const Parts& from, std::size_t most) {
        return std::any_of(tests.begin(), tests.end(), [&](const Test& test) {
            return test.length <= most && truth(either, from, test.back);
        });
    };
    const auto shortest = std::find_if(tests.begin(), tests.end(),
                                       [&](const Test& test) { return truth(either, front, test.back); });
    if (shortest == tests.end()) {
        return {};
    }
    // The length is known. The smallest letter that still leaves a difference is the right one:
    // no difference comes sooner, so one within the letters left comes just at their end.
    Difference found{true, {}, 0};
    for (std::size_t left = shortest->length; left > 0; --left) {
        std::size_t letter = 0;
        Parts next = front_after(either, front, letter);
        while (!differs(next, left - 1)) {
            next = front_after(either, front, ++letter);
        }
        found.word.push_back(static_cast<std::uint8_t>(letter));
        front = std::move(next);
    }
    found.side = parity(front[0], one.accepting) != 0 ? 1 : 2;
    return found;
}

bool accepts(const Machine& machine, const Word& word)
{
    // Whole counts that wrap at 2^64: wrapping keeps their parity.
    std::vector<std::uint64_t> paths(machine.initial.begin(), machine.initial.end());
    for (std::uint8_t letter : word) {
        std::vector<std::uint64_t> next(machine.states, 0);
        for (std::size_t from = 0; from < machine.states; ++from) {
            for (std::size_t to = 0; to < machine.states; ++to) {
                next[to] += paths[from] * machine.rows[letter][from][to];
            }
        }
        paths.swap(next);
    }
    std::uint64_t total = 0;
    for (std::size_t state = 0; state < machine.states; ++state) {
        total += paths[state] * machine.accepting[state];
    }
    return total % 2 == 1;
}

}  // namespace second
