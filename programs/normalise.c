/* The program `normalise` with a status to end with, which the program of the crate has not: all but the status is the crate `report`, which `report_c` exports. */
#include <stdint.h>

uint8_t cuorfelt_normalise_program(void);

int main(void)
{
    return cuorfelt_normalise_program();
}
