#include "part.h"

__attribute__((init_priority(200))) Part first("priority 200");
__attribute__((init_priority(60000))) Part last("priority 60000");
Part other("plain, of the second object");

extern "C" int run()
{
    return made == 5 && first.number == 1 && other.number == 5 ? 0 : 1;
}
