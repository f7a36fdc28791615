// Shapes: the C++ half of the library. The functions and tables of this file stand in each object that uses them, in
// COMDAT groups.
#include "text.h"

template <typename T> T greatest(T a, T b) { return a < b ? b : a; }

// Puts a name into a section of its own; the linker says where it begins and ends.
#define NAME_OF(shape) __attribute__((section("shape_names"), used)) static const char *const name_of_##shape = #shape

class Shape {
  public:
    virtual unsigned long area() const { return 0; }
    virtual const char *name() const { return "shape"; }
};

inline void describe(const Shape &shape) {
    print(shape.name());
    put(" ", 1);
    print_number(shape.area());
    put("\n", 1);
}

class Square : public Shape {
  public:
    explicit Square(unsigned long side) : side(side) {}
    unsigned long area() const override { return side * side; }
    const char *name() const override { return "square"; }

  private:
    unsigned long side;
};

unsigned long sum_of_areas(const Shape &a, const Shape &b);
unsigned long greatest_area(const Shape &a, const Shape &b);
