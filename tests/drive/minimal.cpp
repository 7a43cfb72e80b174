// Driver: the minimal record of the desk against the second program.
#include "run.hpp"
#include "samples.hpp"

namespace {

using drive::Bytes;
using drive::Chance;
using drive::Run;

void every_size(Run& run, const Bytes& record)
{
    run.one_sizes("minimal", nxa_minimal, second::minimal, record);
}

void fixed_cases(Run& run)
{
    for (const std::vector<Bytes>& records : {drive::boundary_records(), drive::refused_records(),
                                              drive::sample_records(), drive::smallest_records()}) {
        for (const Bytes& record : records) {
            every_size(run, record);
        }
    }
    for (std::size_t length = 0; length < 32; ++length) {
        every_size(run, drive::power(0, length, 1));
        every_size(run, drive::power(7, length, 8));
    }
}

// Half of the cases lend an ample buffer only; the others one more, whose size is chosen by what is needed.
void random_case(Run& run, Chance& chance)
{
    const bool sized = chance.one_in(2);
    const Bytes record = generate::any_record(chance);
    const auto answer = run.one("minimal", nxa_minimal, second::minimal, record, drive::ample);
    if (sized) {
        run.one("minimal", nxa_minimal, second::minimal, record,
                generate::buffer_size(chance, answer.reply.length));
    }
}

}  // namespace

int main(int argc, char** argv)
{
    Run run("minimal", argc, argv);
    fixed_cases(run);
    run.cases([&](Chance& chance) { random_case(run, chance); });
    return run.finish();
}
