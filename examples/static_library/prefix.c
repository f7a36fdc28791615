#include "text.h"

__attribute__((weak)) const char *prefix(void) { return "library: "; }
