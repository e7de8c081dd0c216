// The class linkage_environment: the right environment in its scope, and the one before after it, also where an exception ends the scope.
#include <linkage.h>

static uint32_t inside;

static void enter_and_throw() {
    const linkage_environment environment;
    inside = _mm_getcsr();
    throw 1;
}

int main() {
    const uint32_t own = _mm_getcsr(), wrong = 0xe040;
    bool caught = false;
    _mm_setcsr(wrong);
    try {
        enter_and_throw();
    } catch (int) {
        caught = true;
    }
    const uint32_t after = _mm_getcsr();
    _mm_setcsr(own);
    return caught && inside == 0x1f80 && after == wrong ? 0 : 1;
}
