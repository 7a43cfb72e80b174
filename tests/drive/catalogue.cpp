// Driver: the catalogue of the desk against the second program.
#include "run.hpp"

namespace {

using drive::Chance;
using drive::Run;

// Every number and the first few that are refused, with every size of buffer.
void fixed_cases(Run& run)
{
    for (std::size_t number = 0; number < 10; ++number) {
        for (std::size_t size = 0; size < 45; ++size) {
            run.catalogue(nxa_catalogue, number, size);
        }
    }
    for (std::size_t number : {std::size_t{255}, std::size_t{256}, std::size_t{1} << 32, SIZE_MAX}) {
        run.catalogue(nxa_catalogue, number, 0);
        run.catalogue(nxa_catalogue, number, 100);
    }
}

void random_case(Run& run, Chance& chance)
{
    run.catalogue(nxa_catalogue, chance.below(7), chance.below(50));
}

}  // namespace

int main(int argc, char** argv)
{
    Run run("catalogue", argc, argv);
    fixed_cases(run);
    run.cases([&](Chance& chance) { random_case(run, chance); });
    return run.finish();
}
