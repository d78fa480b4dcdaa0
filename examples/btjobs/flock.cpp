// The finder of a game in one line; exit status 0 where all orders agree.     flock [--seeds N] [--seed K] [--replay FILE]
#include "btjobs_finder.hpp"
#include "flock.hpp"

int main(int argc, char **argv) {
    btjobs::Settings n;
    n.frames = 4, n.agents = 26, n.bands = 4, n.most_questions = 2;
    return btjobs::finder_main(argc, argv, [] { return Flock{}; }, n);
}
