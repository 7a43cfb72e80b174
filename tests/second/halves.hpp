// Words in two halves: what is kept of u and of v, so that the two say whether the word uv is in a language.
#ifndef SECOND_HALVES_HPP
#define SECOND_HALVES_HPP

#include "language.hpp"

namespace second {

using Parts = std::vector<Bits>;

// What is kept of u, its front, and of v, its back: of the empty word, and of the word that is longer by a letter.
Parts front_of_empty(const Language& language);
Parts front_after(const Language& language, const Parts& front, std::size_t letter);
Parts back_of_empty(const Language& language);
Parts back_before(const Language& language, const Parts& back, std::size_t letter);

// Whether the word uv is in the language, given the front of u and the back of v.
bool truth(const Language& language, const Parts& front, const Parts& back);

// A vector on which the truth depends linearly, whatever the front: where these vectors
// are dependent, so are the truths. With a letter in front of v it is a linear function of what it was.
Bits spread(const Language& language, const Parts& back);

}  // namespace second

#endif
