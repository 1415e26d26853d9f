// SPDX-License-Identifier: MIT
// Prints the sum of sums/src/lib.rs.
#include <stdint.h>
#include <stdio.h>

uint64_t sum_of_hashes(void);

int main(void) {
    printf("%016llx\n", (unsigned long long)sum_of_hashes());
    return 0;
}
