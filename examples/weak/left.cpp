#include "half.hpp"

extern "C" unsigned long left_go(unsigned long number) __asm__("left::go");

unsigned long left_go(unsigned long number)
{
    return half(number) + 1;
}
