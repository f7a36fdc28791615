// The program: its own shape beside the library's, and its own prefix in place of the library's.
#include "shapes.hpp"

extern "C" const char *prefix() { return "- "; }

// Names that the linker defines.
extern "C" char __bss_start[], _end[], _etext[], __executable_start[];
extern "C" void (*__init_array_start[])(), (*__init_array_end[])();
extern "C" const char *const __start_shape_names[], *const __stop_shape_names[];

NAME_OF(rectangle);

class Rectangle : public Shape {
  public:
    Rectangle(unsigned long width, unsigned long height) : width(width), height(height) {}
    unsigned long area() const override { return width * height; }
    const char *name() const override { return "rectangle"; }

  private:
    unsigned long width, height;
};

extern "C" int run() {
    for (void (**init)() = __init_array_start; init != __init_array_end; init++)
        (*init)();
    for (const char *const *name = __start_shape_names; name != __stop_shape_names; name++) {
        print(*name);
        put("\n", 1);
    }
    Square square(4);
    Rectangle rectangle(3, 7);
    describe(Shape());
    describe(square);
    describe(rectangle);
    print("sum ");
    print_number(sum_of_areas(square, rectangle));
    put("\n", 1);
    print("greatest ");
    print_number(greatest_area(square, rectangle));
    put("\n", 1);
    print("parts ");
    print_number(printed_parts);
    put("\n", 1);
    bool in_order = __executable_start < _etext && _etext <= __bss_start && __bss_start < _end;
    return (int)greatest(sum_of_areas(square, rectangle), 0ul) + (in_order ? 0 : 100);
}
