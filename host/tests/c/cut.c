/* The cut of a line of three pixels, the last two of which are transparent. */
#include "stand.h"
#include <stdio.h>
int main(void)
{
    const double colours[9] = {0};
    const uint8_t alpha[3] = {255, 0, 0};
    double weights[3];
    uint32_t nearest[30];
    uint8_t mask[3], shallow[30], deep[30], marks[30];
    StandCut cut = stand_cut(colours, 9, alpha, 3, 1, 3, STAND_DEFAULT_SETTINGS,
                             nearest, 30, shallow, 30, deep, 30, marks, 30, mask, 3, weights, 3);
    printf("%u: %d%d%d, columns %d to %d\n", (unsigned)cut.refusal, mask[0], mask[1], mask[2], (int)cut.x0, (int)cut.x1);
    return 0;
}
