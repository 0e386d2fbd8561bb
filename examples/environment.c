/* A shared library that sets the floating-point environment as it is loaded, to the bits MXCSR of that register. examples/run loads it ahead of the two
 * examples, to see that they ask nothing then. */
#include <xmmintrin.h>

__attribute__((constructor)) static void set(void)
{
    _mm_setcsr(MXCSR);
}
