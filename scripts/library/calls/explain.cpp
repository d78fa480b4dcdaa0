// explain tells where a fault lies and why it is one.
#include "looking.hpp"

int main(int, char **argv) {
    const Bytes level = read_whole(argv[1]);
    LOOK(btworld::explain(level, "1 on a\n") == "" && btworld::explain(level, "1 on a\n1 on A\n").substr(0, 2) == "2\n");
    LOOK(btworld::explain("{}").substr(0, 4) == "1:1\n" && btworld::explain("").size() > 4);
    return 0;
}
