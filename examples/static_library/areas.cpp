#include "shapes.hpp"

// Run before all else, by way of .init_array.
static struct Counter {
    Counter() { printed_parts = 100; }
} counter;

unsigned long greatest_area(const Shape &a, const Shape &b) { return greatest(a.area(), b.area()); }
