/* An inline function. A compiler that doesn't inline it puts it into each object that calls it, as a WEAK symbol. */
__attribute__((noinline)) inline unsigned long half(unsigned long number)
{
    return number / 2;
}
