#include "shapes.hpp"

NAME_OF(square);

unsigned long sum_of_areas(const Shape &a, const Shape &b) {
    describe(Square(1));
    return a.area() + b.area();
}
