/* Preloaded, begins a program with the bits of LINKAGE_TEST_MXCSR, hexadecimal, in MXCSR. */
#include <stdlib.h>
#include <xmmintrin.h>

__attribute__((constructor)) static void set_environment(void) {
    const char *bits = getenv("LINKAGE_TEST_MXCSR");
    if (bits)
        _mm_setcsr((unsigned)strtoul(bits, NULL, 16));
}
