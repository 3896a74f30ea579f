// A program of three sources: this one, one of a static library, and one in C.
#include "library/shape.h"
#include <cstdio>

extern "C" int doubled(int number);

int main(int count, char **) {
    Shape shape{"square", count + 2};
    std::printf("%s: %d, %d\n", shape.name.c_str(), shape.area(), doubled(count));
    return 0;
}
