// Brute force for small machines: every path is walked, every word and every choice is tried.
#include "brute.hpp"

#include <set>

namespace brute {

using second::Bits;

std::vector<Word> words_shorter_than(std::size_t bound, std::size_t letters)
{
    std::vector<Word> words;
    if (bound == 0) {
        return words;
    }
    words.push_back({});
    for (std::size_t next = 0; next < words.size(); ++next) {
        if (words[next].size() + 1 == bound) {
            break;
        }
        for (std::size_t letter = 0; letter < letters; ++letter) {
            Word longer = words[next];
            longer.push_back(static_cast<std::uint8_t>(letter));
            words.push_back(longer);
        }
    }
    return words;
}

namespace {

std::size_t paths_from(const Machine& machine, std::size_t state, const Word& word, std::size_t at)
{
    if (at == word.size()) {
        return machine.accepting[state] != 0 ? 1 : 0;
    }
    if (word[at] >= machine.letters) {
        return 0;
    }
    std::size_t count = 0;
    for (std::size_t to = 0; to < machine.states; ++to) {
        if (machine.rows[word[at]][state][to] != 0) {
            count += paths_from(machine, to, word, at + 1);
        }
    }
    return count;
}

Bits quotient(Oracle& language, const Word& prefix, const std::vector<Word>& suffixes)
{
    Bits truths;
    for (const Word& suffix : suffixes) {
        Word whole = prefix;
        whole.insert(whole.end(), suffix.begin(), suffix.end());
        truths.push_back(language(whole) ? 1 : 0);
    }
    return truths;
}

Bits xor_of(Bits one, const Bits& two)
{
    for (std::size_t i = 0; i < one.size(); ++i) {
        one[i] = one[i] != two[i] ? 1 : 0;
    }
    return one;
}

// All xors of some vectors, the xor of none included.
class Xors {
public:
    explicit Xors(std::size_t size) : all_{Bits(size, 0)} {}

    bool has(const Bits& vector) const { return all_.count(vector) != 0; }

    void with(const Bits& vector)
    {
        const std::set<Bits> before = all_;
        for (const Bits& each : before) {
            all_.insert(xor_of(each, vector));
        }
    }

    std::size_t logarithm() const
    {
        std::size_t power = 0;
        while ((std::size_t{1} << power) < all_.size()) {
            ++power;
        }
        return power;
    }

private:
    std::set<Bits> all_;
};

// The choice of basis vectors that xor to the target, found by trying every choice.
Bits choice_for(const std::vector<Bits>& basis, const Bits& target)
{
    for (std::size_t code = 0; code < (std::size_t{1} << basis.size()); ++code) {
        Bits choice;
        Bits total(target.size(), 0);
        for (std::size_t k = 0; k < basis.size(); ++k) {
            choice.push_back((code >> k) % 2 == 1 ? 1 : 0);
            total = choice.back() != 0 ? xor_of(total, basis[k]) : total;
        }
        if (total == target) {
            return choice;
        }
    }
    return {};   // a wrong size, which no record has
}

}  // namespace

std::size_t path_count(const Machine& machine, const Word& word)
{
    std::size_t count = 0;
    for (std::size_t state = 0; state < machine.states; ++state) {
        if (machine.initial[state] != 0) {
            count += paths_from(machine, state, word, 0);
        }
    }
    return count;
}

bool Oracle::operator()(const Word& word)
{
    const auto known = answers_.find(word);
    if (known != answers_.end()) {
        return known->second;
    }
    return answers_[word] = question_(word);
}

Oracle oracle_of(const Machine& machine)
{
    return Oracle([machine](const Word& word) { return path_count(machine, word) % 2 == 1; });
}

std::size_t cuts_into_two(Oracle& one, Oracle& other, const Word& word)
{
    std::size_t count = 0;
    for (auto cut = word.begin();; ++cut) {
        count += one(Word(word.begin(), cut)) && other(Word(cut, word.end())) ? 1 : 0;
        if (cut == word.end()) {
            return count;
        }
    }
}

std::size_t cuts_into_words(Oracle& language, const Word& word)
{
    if (word.empty()) {
        return 1;
    }
    std::size_t count = 0;
    for (auto cut = word.begin() + 1;; ++cut) {
        count += language(Word(word.begin(), cut)) ? cuts_into_words(language, Word(cut, word.end())) : 0;
        if (cut == word.end()) {
            return count;
        }
    }
}

std::size_t table_rank(Oracle& language, std::size_t bound, std::size_t letters)
{
    const std::vector<Word> words = words_shorter_than(bound, letters);
    Xors xors(words.size());
    for (const Word& prefix : words) {
        xors.with(quotient(language, prefix, words));
    }
    return xors.logarithm();
}

Bytes minimal_record(Oracle& language, std::size_t bound, std::size_t letters)
{
    const std::vector<Word> words = words_shorter_than(bound, letters);
    std::vector<Word> basis_words;
    std::vector<Bits> basis;
    Xors earlier(words.size());
    for (const Word& prefix : words) {
        const Bits truths = quotient(language, prefix, words);
        if (!earlier.has(truths)) {
            basis_words.push_back(prefix);
            basis.push_back(truths);
        }
        earlier.with(truths);
    }
    Machine machine = second::blank_machine(basis.size(), letters);
    for (std::size_t k = 0; k < basis.size(); ++k) {
        machine.initial[k] = k == 0 ? 1 : 0;
        machine.accepting[k] = language(basis_words[k]) ? 1 : 0;
        for (std::size_t letter = 0; letter < letters; ++letter) {
            Word longer = basis_words[k];
            longer.push_back(static_cast<std::uint8_t>(letter));
            machine.rows[letter][k] = choice_for(basis, quotient(language, longer, words));
        }
    }
    return second::write_record(machine);
}

bool first_difference(Oracle& one, Oracle& two, std::size_t bound, std::size_t letters, Word& found)
{
    for (const Word& word : words_shorter_than(bound, letters)) {
        if (one(word) != two(word)) {
            found = word;
            return true;
        }
    }
    return false;
}

}  // namespace brute
