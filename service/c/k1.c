/* Cuts the square (0,0)-(2,2), family 7, by the square (1,-1)-(3,3), and prints the pieces and the cell that each was cut from. */
#include "daqwimay.h"
#include <stdio.h>

#define COUNT(l) (sizeof(l) / sizeof *(l))
#define LENT(l) l, COUNT(l)
#define LIMIT 9

int main(void)
{
    static const double scoords[] = {0, 0, 2, 0, 2, 2, 0, 2}, ccoords[] = {1, -1, 3, -1, 3, 3, 1, 3};
    static const uint32_t nodes[] = {0, 1, 2, 3}, ends[] = {4}, sfamilies[] = {7}, cfamilies[] = {0};
    static const uint32_t layers[4] = {0}; /* one layer: all nodes of both squares */
    static const uint8_t skinds[] = {DAQWIMAY_QUAD4}, ckinds[] = {DAQWIMAY_PGON};
    static double coords[2 * (8 + LIMIT)];
    static const char *const names[] = {"subject", "cutter"};
    static uint32_t olayers[8 + LIMIT], out[64], oends[16], families[16], meshes[16], cells[16], work[DAQWIMAY_WORK(8, 8, LIMIT)], counts[DAQWIMAY_COUNTS];
    static uint8_t kinds[16];
    uint32_t refused = daqwimay_overlay(
        DAQWIMAY_IMPRINT, LIMIT, DAQWIMAY_NO_GRID,
        LENT(scoords), LENT(layers), LENT(nodes), LENT(ends), LENT(skinds), LENT(sfamilies),
        LENT(ccoords), LENT(layers), LENT(nodes), LENT(ends), LENT(ckinds), LENT(cfamilies),
        LENT(coords), LENT(olayers), LENT(out), LENT(oends), LENT(kinds), LENT(families), LENT(meshes), LENT(cells),
        LENT(work), LENT(counts));
    if (refused) {
        fprintf(stderr, "refused: %u\n", (unsigned)refused);
        return 1;
    }
    for (uint32_t i = 0, at = 0; i < counts[DAQWIMAY_PIECES]; i++) {
        printf("piece %u of family %u, from cell %u of the %s:", (unsigned)i, (unsigned)families[i], (unsigned)cells[i], names[meshes[i]]);
        for (; at < oends[i]; at++)
            printf(" (%g, %g)", coords[2 * out[at]], coords[2 * out[at] + 1]);
        printf("\n");
    }
    printf("%u pieces, %u new points of %u added\n", (unsigned)counts[DAQWIMAY_PIECES], (unsigned)counts[DAQWIMAY_NEW_POINTS],
           (unsigned)counts[DAQWIMAY_ADDED_POINTS]);
    return 0;
}
