// Words in two halves: rows and columns of the machines, letter by letter; for product and star those of every cut.
#include "halves.hpp"

#include <utility>

#include "bits.hpp"

namespace second {

namespace {

// The states reached by an odd number of paths, one letter further on.
Bits row_after(const Machine& machine, const Bits& row, std::size_t letter)
{
    Bits next(machine.states, 0);
    for (std::size_t from = 0; from < machine.states; ++from) {
        if (row[from] != 0) {
            add(next, machine.rows[letter][from]);
        }
    }
    return next;
}

// From which states an odd number of paths leads to acceptance, with one letter put in front.
Bits column_before(const Machine& machine, const Bits& column, std::size_t letter)
{
    Bits next(machine.states, 0);
    for (std::size_t from = 0; from < machine.states; ++from) {
        next[from] = parity(machine.rows[letter][from], column);
    }
    return next;
}

// ---- the product of K and L, the two operands, by counting cuts
//
// The front of u has the row of K after u; then, for each cut of u into a word of K and a rest, the row of L after the rest. The back of v
// has the column of L before v; then, for each cut of v into a beginning that is not empty and a word of L, the column of K before the
// beginning. A cut of uv is one of u, its end included, or one of v: each that leaves a word of K and a word of L is counted once.

Parts with_cut_at_end(const Language& product, Parts front)
{
    if (parity(front[0], product.operands[0].accepting) != 0) {
        front.push_back(product.operands[1].initial);
    }
    return front;
}

Parts product_after(const Language& product, const Parts& front, std::size_t letter)
{
    Parts next = {row_after(product.operands[0], front[0], letter)};
    for (std::size_t cut = 1; cut < front.size(); ++cut) {
        next.push_back(row_after(product.operands[1], front[cut], letter));
    }
    return with_cut_at_end(product, std::move(next));
}

Parts product_before(const Language& product, const Parts& back, std::size_t letter)
{
    const Machine& first = product.operands[0];
    const Machine& other = product.operands[1];
    Parts next = {column_before(other, back[0], letter)};
    for (std::size_t cut = 1; cut < back.size(); ++cut) {
        next.push_back(column_before(first, back[cut], letter));
    }
    if (parity(other.initial, back[0]) != 0) {   // v itself is a word of L: a cut right after the letter
        next.push_back(column_before(first, first.accepting, letter));
    }
    return next;
}

std::size_t product_cuts(const Parts& front, const Parts& back)
{
    std::size_t cuts = 0;
    for (std::size_t cut = 1; cut < front.size(); ++cut) {
        cuts += parity(front[cut], back[0]);
    }
    for (std::size_t cut = 1; cut < back.size(); ++cut) {
        cuts += parity(front[0], back[cut]);
    }
    return cuts;
}

// ---- the star of L, which has not the empty word, by counting cuts
//
// How many cuts into words of L a word has is found from its beginnings, or from its ends: the last word of a cut comes after a cut of a
// shorter beginning. These numbers grow with the length without limit, so only their parities are kept; parities add and multiply alike.
//
// The front of u has the parity of the cuts of u; then, for each beginning of u that has an odd number of cuts and leaves a rest, not
// empty, the row of L after the rest. The back of v has the parity of the cuts of v; then, for each end of v that has an odd number of
// cuts and leaves a beginning, not empty, the column of L before the beginning. A cut of uv has either the end of u among its places, and
// is one of u and one of v, or one word of L that goes across it: a rest of u and a beginning of v.

Parts star_of_empty()
{
    return {Bits(1, 1)};   // one cut, into none
}

Parts star_after(const Machine& machine, const Parts& front, std::size_t letter)
{
    Parts next = {Bits(1, 0)};
    for (std::size_t cut = 1; cut < front.size(); ++cut) {
        next.push_back(row_after(machine, front[cut], letter));
    }
    if (front[0][0] != 0) {   // u may be cut: the letter is a rest
        next.push_back(row_after(machine, machine.initial, letter));
    }
    for (std::size_t cut = 1; cut < next.size(); ++cut) {
        next[0][0] ^= parity(next[cut], machine.accepting);
    }
    return next;
}

Parts star_before(const Machine& machine, const Parts& back, std::size_t letter)
{
    Parts next = {Bits(1, 0)};
    for (std::size_t cut = 1; cut < back.size(); ++cut) {
        next.push_back(column_before(machine, back[cut], letter));
    }
    if (back[0][0] != 0) {
        next.push_back(column_before(machine, machine.accepting, letter));
    }
    for (std::size_t cut = 1; cut < next.size(); ++cut) {
        next[0][0] ^= parity(machine.initial, next[cut]);
    }
    return next;
}

unsigned char star_cuts(const Parts& front, const Parts& back)
{
    unsigned char odd = front[0][0] & back[0][0];
    for (std::size_t rest = 1; rest < front.size(); ++rest) {
        for (std::size_t beginning = 1; beginning < back.size(); ++beginning) {
            odd ^= parity(front[rest], back[beginning]);
        }
    }
    return odd;
}

// The first vector, and the xor of all others, which have so many entries.
Bits first_and_rest(const Parts& parts, std::size_t entries)
{
    Bits rest(entries, 0);
    for (std::size_t i = 1; i < parts.size(); ++i) {
        add(rest, parts[i]);
    }
    Bits all = parts[0];
    all.insert(all.end(), rest.begin(), rest.end());
    return all;
}

}  // namespace

// A mirrored language reads its words from the end, so rows and columns change places.
Parts front_of_empty(const Language& language)
{
    if (language.kind == Kind::product) {
        return with_cut_at_end(language, {language.operands[0].initial});
    }
    if (language.kind == Kind::star) {
        return star_of_empty();
    }
    Parts front;
    for (const Machine& machine : language.operands) {
        front.push_back(language.kind == Kind::mirror ? machine.accepting : machine.initial);
    }
    return front;
}

Parts front_after(const Language& language, const Parts& front, std::size_t letter)
{
    if (language.kind == Kind::product) {
        return product_after(language, front, letter);
    }
    if (language.kind == Kind::star) {
        return star_after(language.operands[0], front, letter);
    }
    Parts next;
    for (std::size_t i = 0; i < front.size(); ++i) {
        const Machine& machine = language.operands[i];
        next.push_back(language.kind == Kind::mirror ? column_before(machine, front[i], letter)
                                                     : row_after(machine, front[i], letter));
    }
    return next;
}

Parts back_of_empty(const Language& language)
{
    if (language.kind == Kind::product) {
        return {language.operands[1].accepting};
    }
    if (language.kind == Kind::star) {
        return star_of_empty();
    }
    Parts back;
    for (const Machine& machine : language.operands) {
        back.push_back(language.kind == Kind::mirror ? machine.initial : machine.accepting);
    }
    return back;
}

Parts back_before(const Language& language, const Parts& back, std::size_t letter)
{
    if (language.kind == Kind::product) {
        return product_before(language, back, letter);
    }
    if (language.kind == Kind::star) {
        return star_before(language.operands[0], back, letter);
    }
    Parts next;
    for (std::size_t i = 0; i < back.size(); ++i) {
        const Machine& machine = language.operands[i];
        next.push_back(language.kind == Kind::mirror ? row_after(machine, back[i], letter)
                                                     : column_before(machine, back[i], letter));
    }
    return next;
}

bool truth(const Language& language, const Parts& front, const Parts& back)
{
    switch (language.kind) {
    case Kind::sum:
        return parity(front[0], back[0]) != parity(front[1], back[1]);
    case Kind::meet:
        return parity(front[0], back[0]) != 0 && parity(front[1], back[1]) != 0;
    case Kind::complement:
        return parity(front[0], back[0]) == 0;
    case Kind::product:
        return product_cuts(front, back) % 2 == 1;
    case Kind::star:
        return star_cuts(front, back) != 0;
    default:
        return parity(front[0], back[0]) != 0;
    }
}

// Product: the cuts of uv are, but for an even number, the front's rows of L added, times the back's column of L, and the front's row of K
// times the back's columns of K added. Star: the two parities multiplied, and the front's rows added times the back's columns added. So
// the truth is linear in the back's first vector and the xor of the others. With a letter in front, each vector that stood there goes
// through the letter's matrix; whether a new one comes, and the star's parity, is read off the vectors linearly too.
Bits spread(const Language& language, const Parts& back)
{
    Bits all = back[0];
    switch (language.kind) {
    case Kind::sum:
        all.insert(all.end(), back[1].begin(), back[1].end());
        return all;
    case Kind::complement:
        all.push_back(1);
        return all;
    case Kind::meet:
        all.clear();
        for (unsigned char one : back[0]) {
            for (unsigned char two : back[1]) {
                all.push_back(one & two);
            }
        }
        return all;
    case Kind::product:
    case Kind::star:
        return first_and_rest(back, language.operands[0].states);
    default:
        return all;
    }
}

}  // namespace second
