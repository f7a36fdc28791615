#include "part.h"

// Without a priority, so behind all that have one; and one that is low.
Part plain("plain, of the first object");
__attribute__((init_priority(5000))) Part middle("priority 5000");
