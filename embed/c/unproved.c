/* Part of a library over an engine that is not proved: says so where the library is loaded. */
#include <stdio.h>

__attribute__((constructor)) static void say_unproved(void) {
    fputs("libflashfill: this engine is not proved; embed/build without --try proves it first\n", stderr);
}
