// A run of requests: guarded bytes around every input and buffer, every field and byte compared.
#include "run.hpp"

#include <sanitizer/asan_interface.h>

#include <algorithm>
#include <cstdio>
#include <cstdlib>
#include <utility>

namespace drive {

namespace {

// A pattern that no service writes by accident at every place.
std::uint8_t guard_byte(std::size_t place)
{
    return static_cast<std::uint8_t>(0xA5 + 37 * place);
}

std::string hexadecimal(const Bytes& bytes)
{
    static const char digits[] = "0123456789abcdef";
    std::string text;
    for (std::uint8_t byte : bytes) {
        text += digits[byte / 16];
        text += digits[byte % 16];
    }
    return text.empty() ? "(no bytes)" : text;
}

std::string shown(const Reply& reply)
{
    return "number " + std::to_string(reply.number) + " record " + std::to_string(reply.record) + " place "
        + std::to_string(reply.place) + " length " + std::to_string(reply.length) + " value "
        + std::to_string(reply.value);
}

bool equal(const Reply& one, const Reply& two)
{
    return one.number == two.number && one.record == two.record && one.place == two.place
        && one.length == two.length && one.value == two.value;
}

Reply plain(const nxa_reply& reply)
{
    return {reply.number, reply.record, reply.place, reply.length, reply.value};
}

// The name of its list of numbers.
const std::string refused_line = "a refused line";

// Whether a line says `refused`, and with which number.
bool says_refused(const Bytes& line, std::size_t& number)
{
    const std::string text(line.begin(), line.end());
    return std::sscanf(text.c_str(), "%*u refused %zu", &number) == 1;
}

}  // namespace

Guarded::Guarded(const Bytes& content) : all_(content.size() + 2 * margin, 0)
{
    for (std::size_t i = 0; i < all_.size(); ++i) {
        all_[i] = guard_byte(i);
    }
    std::copy(content.begin(), content.end(), all_.begin() + margin);
}

bool Guarded::holds(const Bytes& content) const
{
    return all_ == Guarded(content).all_;
}

void Guarded::fence_off()
{
    ASAN_POISON_MEMORY_REGION(all_.data(), margin);
    ASAN_POISON_MEMORY_REGION(data() + size(), margin);
}

void Guarded::open_up()
{
    ASAN_UNPOISON_MEMORY_REGION(all_.data(), all_.size());
}

Bytes Answer::written() const
{
    return Bytes(buffer.begin(), buffer.begin() + static_cast<std::ptrdiff_t>(reply.length));
}

Run::Run(std::string name, int argc, char** argv) : name_(std::move(name)), filling_(0)
{
    if (argc > 1) {
        seed_ = std::strtoull(argv[1], nullptr, 10);
    }
    if (argc > 2) {
        count_ = std::strtoull(argv[2], nullptr, 10);
    }
    if (argc > 3) {
        first_ = std::strtoull(argv[3], nullptr, 10);
    }
}

void Run::fail(const Request& request, const std::string& what) const
{
    std::printf("%s: %s: %s\n", name_.c_str(), request.service.c_str(), what.c_str());
    if (number_ == SIZE_MAX) {
        std::printf("a fixed case, request %zu\n", requests_);
    } else {
        std::printf("seed %llu case %zu\n", static_cast<unsigned long long>(seed_), number_);
    }
    std::printf("number or index %zu, lent buffer %zu bytes\n", request.number, request.lent);
    for (std::size_t i = 0; i < request.inputs.size(); ++i) {
        std::printf("input %zu (%zu bytes): %s\n", i + 1, request.inputs[i].size(),
                    hexadecimal(request.inputs[i]).c_str());
    }
    std::exit(1);
}

// Notes that a number came, which must be one of those that the second program lists by this name.
void Run::count(const Request& request, const std::string& service, std::size_t number)
{
    const std::vector<std::size_t>& known = second::numbers_of(service);
    if (std::find(known.begin(), known.end(), number) == known.end()) {
        fail(request, "number " + std::to_string(number) + " is not among those of " + service);
    }
    came_[service].insert(number);
}

// Old bytes of no pattern, so that a byte written by mistake is seen.
Bytes Run::lent_bytes(std::size_t size)
{
    Bytes bytes(size, 0);
    for (std::uint8_t& byte : bytes) {
        byte = static_cast<std::uint8_t>(filling_.next());
    }
    return bytes;
}

template <typename Desk, typename Second>
Answer Run::put(Request request, Desk desk, Second expected)
{
    ++requests_;
    const Bytes before = lent_bytes(request.lent);
    std::vector<Guarded> inputs;
    for (const Bytes& input : request.inputs) {
        inputs.emplace_back(input);
    }
    Guarded lent(before);
    std::for_each(inputs.begin(), inputs.end(), [](Guarded& input) { input.fence_off(); });
    lent.fence_off();
    const Reply got = plain(desk(inputs, lent));
    std::for_each(inputs.begin(), inputs.end(), [](Guarded& input) { input.open_up(); });
    lent.open_up();
    Answer answer{{}, before};
    answer.reply = expected(answer.buffer);
    if (!equal(got, answer.reply)) {
        fail(request, "replies " + shown(got) + ", expected " + shown(answer.reply));
    }
    count(request, request.service, got.number);
    if (!lent.holds(answer.buffer)) {
        const Bytes found(lent.data(), lent.data() + lent.size());
        fail(request, found == answer.buffer ? "bytes beside the lent buffer are written"
                                             : "the lent buffer holds " + hexadecimal(found) + ", expected "
                                                 + hexadecimal(answer.buffer));
    }
    for (std::size_t i = 0; i < inputs.size(); ++i) {
        if (!inputs[i].holds(request.inputs[i])) {
            fail(request, "input " + std::to_string(i + 1) + " or a byte beside it is written");
        }
    }
    return answer;
}

Answer Run::check(const Bytes& record)
{
    return put({"check", {record}, 0, 0},
               [](std::vector<Guarded>& in, Guarded&) { return nxa_check(in[0].data(), in[0].size()); },
               [&](Bytes&) { return second::check(record); });
}

Answer Run::test(const Bytes& record, const Word& word)
{
    return put({"test", {record, word}, 0, 0},
               [](std::vector<Guarded>& in, Guarded&) {
                   return nxa_test(in[0].data(), in[0].size(), in[1].data(), in[1].size());
               },
               [&](Bytes&) { return second::test(record, word); });
}

Answer Run::one(const char* service, OneService desk, SecondOne expected, const Bytes& record, std::size_t lent)
{
    return put({service, {record}, 0, lent},
               [&](std::vector<Guarded>& in, Guarded& out) {
                   return desk(in[0].data(), in[0].size(), out.data(), out.size());
               },
               [&](Bytes& out) { return expected(record, out); });
}

Answer Run::two(const char* service, TwoService desk, SecondTwo expected, const Bytes& first, const Bytes& other,
                std::size_t lent)
{
    return put({service, {first, other}, 0, lent},
               [&](std::vector<Guarded>& in, Guarded& out) {
                   return desk(in[0].data(), in[0].size(), in[1].data(), in[1].size(), out.data(), out.size());
               },
               [&](Bytes& out) { return expected(first, other, out); });
}

Answer Run::catalogue(NumberService desk, std::size_t number, std::size_t lent)
{
    return put({"catalogue", {}, number, lent},
               [&](std::vector<Guarded>&, Guarded& out) { return desk(number, out.data(), out.size()); },
               [&](Bytes& out) { return second::catalogue(number, out); });
}

Answer Run::mark(IndexService desk, const Bytes& script, std::size_t index, std::size_t lent)
{
    const Request request{"mark", {script}, index, lent};
    const Answer answer = put(request,
                              [&](std::vector<Guarded>& in, Guarded& out) {
                                  return desk(in[0].data(), in[0].size(), index, out.data(), out.size());
                              },
                              [&](Bytes& out) { return second::mark(script, index, out); });
    came_.try_emplace(refused_line);   // so that its numbers are asked for at the end, also where no line said it
    std::size_t number = 0;
    if (says_refused(answer.written(), number)) {
        count(request, refused_line, number);
    }
    return answer;
}

void Run::one_sizes(const char* service, OneService desk, SecondOne expected, const Bytes& record)
{
    const std::size_t needed = one(service, desk, expected, record, ample).reply.length;
    for (std::size_t size : {std::size_t{0}, needed == 0 ? 0 : needed - 1, needed, needed + 1}) {
        one(service, desk, expected, record, size);
    }
}

void Run::two_sizes(const char* service, TwoService desk, SecondTwo expected, const Bytes& first,
                    const Bytes& other)
{
    const std::size_t needed = two(service, desk, expected, first, other, ample).reply.length;
    for (std::size_t size : {std::size_t{0}, needed == 0 ? 0 : needed - 1, needed, needed + 1}) {
        two(service, desk, expected, first, other, size);
    }
}

void Run::two_blank(const char* service, TwoService desk, SecondTwo expected, const Bytes& first)
{
    // A refused first record may have any number there, or none: the second is not looked at then.
    const std::size_t letters = first.size() > 6 ? first[6] : 1;
    const Bytes blank, record = second::write_record(second::blank_machine(0, letters));
    const std::size_t needed = two(service, desk, expected, first, blank, ample).reply.length;
    for (std::size_t size : {std::size_t{0}, needed == 0 ? 0 : needed - 1, needed, needed + 1, ample}) {
        const Chance filling = filling_;
        const Answer got = two(service, desk, expected, first, blank, size);
        filling_ = filling;   // the same old bytes once more
        const Answer wanted = two(service, desk, expected, first, record, size);
        law(equal(got.reply, wanted.reply) && got.buffer == wanted.buffer, "a blank is the record with no states", {first});
    }
}

void Run::law(bool holds, const char* what, const std::vector<Bytes>& inputs)
{
    if (!holds) {
        fail({what, inputs, 0, 0}, "the law does not hold");
    }
}

int Run::finish() const
{
    bool all_came = true;
    for (const auto& [service, numbers] : came_) {
        for (std::size_t number : second::numbers_of(service)) {
            if (numbers.count(number) == 0) {
                std::printf("%s: %s: number %zu never came\n", name_.c_str(), service.c_str(), number);
                all_came = false;
            }
        }
    }
    if (!all_came) {
        return 1;
    }
    std::printf("%s: %zu requests agree\n", name_.c_str(), requests_);
    return 0;
}

}  // namespace drive
