// The book of the stored cases: how a request and its answer are written as a line.
#ifndef STORED_BOOK_HPP
#define STORED_BOOK_HPP

#include <cstdio>
#include <cstdlib>
#include <string>

#include "../second/second.hpp"

namespace stored {

using second::Bytes;
using second::Reply;

// ---- how bytes are written: in hexadecimal, 00 as a point, nothing as a dash

inline std::string text_of(const Bytes& bytes)
{
    static const char digits[] = "0123456789abcdef";
    std::string text;
    for (std::uint8_t byte : bytes) {
        text += byte == 0 ? std::string(".") : std::string{digits[byte / 16], digits[byte % 16]};
    }
    return text.empty() ? "-" : text;
}

// Bytes with their text; long ones are put together from repeated parts, so that their text is short.
struct Input {
    Input(const Bytes& all) : bytes(all), text(text_of(all)) {}
    Bytes bytes;
    std::string text;
};

inline Input repeated(const Bytes& part, std::size_t count)
{
    Input input(part);
    input.text += "*" + std::to_string(count);
    for (std::size_t i = 1; i < count; ++i) {
        input.bytes.insert(input.bytes.end(), part.begin(), part.end());
    }
    return input;
}

inline Input joined(Input one, const Input& two)
{
    one.bytes.insert(one.bytes.end(), two.bytes.begin(), two.bytes.end());
    one.text += "+" + two.text;
    return one;
}

// ---- one line for each request

constexpr std::size_t ample = 1100;   // larger than anything a service writes

class Book {
public:
    using One = Reply (*)(const Bytes&, Bytes&);
    using Two = Reply (*)(const Bytes&, const Bytes&, Bytes&);

    explicit Book(std::uint64_t seed)
    {
        std::printf("# Requests with the answers that they must get, from seed %llu. The columns of a line: the service, its first and\n"
                    "# second input, a number, the bytes lent; number, record, place, length and value of the reply, the bytes written.\n"
                    "# Bytes are in hexadecimal, 00 as a point, nothing as a dash. = is that input of the line before, A*N is A repeated,\n"
                    "# A+B is A and then B. The last line has the number of cases.\n",
                    static_cast<unsigned long long>(seed));
    }

    void check(const Input& record)
    {
        put("check", record, Bytes{}, 0, 0, [&](Bytes&) { return second::check(record.bytes); });
    }

    void test(const Input& record, const Input& word)
    {
        put("test", record, word, 0, 0, [&](Bytes&) { return second::test(record.bytes, word.bytes); });
    }

    std::size_t one(const char* service, One expected, const Input& record, std::size_t lent = ample)
    {
        return put(service, record, Bytes{}, 0, lent, [&](Bytes& out) { return expected(record.bytes, out); });
    }

    std::size_t two(const char* service, Two expected, const Input& first, const Input& other, std::size_t lent = ample)
    {
        return put(service, first, other, 0, lent, [&](Bytes& out) { return expected(first.bytes, other.bytes, out); });
    }

    void catalogue(std::size_t number, std::size_t lent)
    {
        put("catalogue", Bytes{}, Bytes{}, number, lent, [&](Bytes& out) { return second::catalogue(number, out); });
    }

    std::size_t mark(const Input& script, std::size_t index, std::size_t lent = ample)
    {
        return put("mark", script, Bytes{}, index, lent, [&](Bytes& out) { return second::mark(script.bytes, index, out); });
    }

    void finish() const { std::printf("end %zu\n", cases_); }

private:
    // Writes the line and gives the bytes that the answer needs: those written, or those that were not there.
    template <typename Second>
    std::size_t put(const char* service, const Input& first, const Input& other, std::size_t number, std::size_t lent, Second expected)
    {
        Bytes out(lent, 0xEE);
        const Reply reply = expected(out);
        std::printf("%s %s %s %zu %zu %zu %zu %zu %zu %zu %s\n", service, again(first_, first.text).c_str(),
                    again(other_, other.text).c_str(), number, lent, reply.number, reply.record, reply.place, reply.length,
                    reply.value, text_of(Bytes(out.begin(), out.begin() + static_cast<std::ptrdiff_t>(reply.length))).c_str());
        for (std::size_t i = reply.length; i < lent; ++i) {
            if (out[i] != 0xEE) {
                std::fprintf(stderr, "make: the second program writes past its length\n");
                std::exit(1);
            }
        }
        ++cases_;
        return reply.number == 12 ? reply.place : reply.length;
    }

    static std::string again(std::string& before, const std::string& text)
    {
        if (before == text && text.size() > 1) {
            return "=";
        }
        before = text;
        return text;
    }

    std::string first_, other_;
    std::size_t cases_ = 0;
};

// Services that write a record from one record, and services on two.
struct OneService {
    const char* name;
    Book::One expected;
};
struct TwoService {
    const char* name;
    Book::Two expected;
};

// Exactly enough, one byte short, none, one more.
inline std::vector<std::size_t> sizes_of(std::size_t needed)
{
    return needed == 0 ? std::vector<std::size_t>{0, 1} : std::vector<std::size_t>{needed, needed - 1, 0, needed + 1};
}

inline void one_sizes(Book& book, const OneService& service, const Input& record)
{
    for (std::size_t size : sizes_of(book.one(service.name, service.expected, record))) {
        book.one(service.name, service.expected, record, size);
    }
}

inline void two_sizes(Book& book, const TwoService& service, const Input& first, const Input& other)
{
    for (std::size_t size : sizes_of(book.two(service.name, service.expected, first, other))) {
        book.two(service.name, service.expected, first, other, size);
    }
}

// The cases of product and star, with so many random ones; they stand in a file of their own.
void chaining(Book& book, std::uint64_t seed, std::size_t count);

}  // namespace stored

#endif
