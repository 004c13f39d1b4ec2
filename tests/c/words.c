/*
 * Prints CLEARANCE_VERSION, and then what clearance_words says of each number in the arguments, a line each. The Rust side compares them with its own
 * (rust/clearance/tests/header.rs).
 */
#include <stdio.h>
#include <stdlib.h>

#include "clearance.h"

int main(int count, char **arguments)
{
    printf("%d\n", CLEARANCE_VERSION);
    for (int n = 1; n < count; n++) {
        puts(clearance_words((uint32_t)strtoul(arguments[n], NULL, 10)));
    }
    return EXIT_SUCCESS;
}
