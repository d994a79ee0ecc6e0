#include "half.hpp"

extern "C" unsigned long right_go(unsigned long number) __asm__("right::go");

unsigned long right_go(unsigned long number)
{
    return half(number) + 2;
}
