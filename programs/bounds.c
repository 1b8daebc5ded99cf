/* The program `bounds` with a status to end with, which the program of the crate has not: all but the status is the crate `report`, which `report_c` exports. */
#include <stdint.h>

uint8_t cuorfelt_bounds(void);

int main(void)
{
    return cuorfelt_bounds();
}
