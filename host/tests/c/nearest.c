/* The nearest on-pixel of a line of three pixels, the outer two of which are on. */
#include "stand.h"
#include <stdio.h>
int main(void)
{
    uint8_t mask[3] = {1, 0, 1};
    uint32_t work[30];
    int32_t rows[3], cols[3];
    uint32_t refusal = stand_nearest(mask, 3, 1, 3, work, 30, rows, 3, cols, 3);
    printf("%u: %d,%d\n", (unsigned)refusal, (int)rows[1], (int)cols[1]);
    return 0;
}
