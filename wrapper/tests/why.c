/* Prints the sentence of each number, those included that refuse nothing. */
#include "zelwydro.h"

#include <stdio.h>

int main(void) {
    for (int number = 0; number < 256; number++) {
        printf("%d: %s\n", number, zelwydro_why((uint8_t)number));
    }
    return 0;
}
