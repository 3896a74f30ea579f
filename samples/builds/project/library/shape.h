#pragma once
#include <string>

struct Shape {
    std::string name;
    int side;
    int area() const;
};
