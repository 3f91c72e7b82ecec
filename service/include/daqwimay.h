/* daqwimay: the proved overlay of two meshes, for C. Link crates/overlay_c/out/liboverlay_c.a (rt lib in crates/overlay_c). */
#ifndef DAQWIMAY_H
#define DAQWIMAY_H

#include <stddef.h>
#include <stdint.h>

#ifdef __cplusplus
extern "C" {
#endif

/* Operations. */
enum {
    DAQWIMAY_IMPRINT = 0,
    DAQWIMAY_UNION = 1,
    DAQWIMAY_INTERSECTION = 2,
    DAQWIMAY_DIFFERENCE = 3,
    DAQWIMAY_SYMMETRIC_DIFFERENCE = 4,
    DAQWIMAY_LINES = 5 /* the cutter's cells are of kind DAQWIMAY_SEG2 */
};

/* Kinds of cells. In a mesh they don't fall from one cell to the next. */
enum { DAQWIMAY_SEG2 = 1, DAQWIMAY_TRI3 = 5, DAQWIMAY_QUAD4 = 8, DAQWIMAY_PGON = 11 };

/* The mesh of the cell that a piece was cut from. */
enum { DAQWIMAY_SUBJECT = 0, DAQWIMAY_CUTTER = 1 };

/* In the place of a grid's number: new points stay as computed. */
#define DAQWIMAY_NO_GRID 4294967295u

/* Places in the list of counts, and how many there are. */
enum { DAQWIMAY_PIECES = 0, DAQWIMAY_NEW_POINTS = 1, DAQWIMAY_ADDED_POINTS = 3, DAQWIMAY_COUNTS = 4 };

/* Answers. At 1 to 7 and 13 every list but counts keeps its content; at the others but 0 the output lists and the working list are all zero. */
enum {
    DAQWIMAY_DONE = 0,
    DAQWIMAY_BAD_OPERATION = 1,       /* operation above 5, or meeting limit outside 1..65,536 */
    DAQWIMAY_BAD_SHAPE = 2,           /* lists of unequal or odd lengths, not one layer for each node, ends that don't rise, a mesh that is too large */
    DAQWIMAY_BAD_COORDINATE = 3,      /* not finite, above 2^40 in size, or -0 */
    DAQWIMAY_BAD_KIND = 4,            /* unknown, out of order, or with a wrong count of corners (PGON: 3..256) */
    DAQWIMAY_BAD_NODE = 5,            /* a node number not below the node count */
    DAQWIMAY_REPEATED_NODE = 6,       /* a node twice in one cell or line */
    DAQWIMAY_SHORT_WORK = 7,          /* a working list shorter than DAQWIMAY_WORK */
    DAQWIMAY_MANY_MEETINGS = 8,       /* a meeting beyond the limit */
    DAQWIMAY_CROWDED_EDGE = 9,        /* over 256 nodes collected on one edge */
    DAQWIMAY_CROWDED_CELL = 10,       /* over 1,024 slots in a cell's table */
    DAQWIMAY_OPEN_CELL = 11,          /* a cell whose outline doesn't lead round once cut: a node a hair beside a corner, not on it; never on a grid */
    DAQWIMAY_FULL_OUTPUT = 12,        /* no place in an output list */
    DAQWIMAY_FINE_GRID = 13,          /* a grid finer than 1/2^10 metre; looked at after 1 and before 2 */
    DAQWIMAY_FOLDED_CELL = 19         /* a cell whose outline runs along itself once cut: corners so close that they became one node, a spike */
};

/* Numbers in the working list, at least: of the nodes and the node entries of both meshes, and the meeting limit. */
#define DAQWIMAY_WORK(nodes, entries, limit) (16 * ((size_t)(nodes) + (size_t)(entries) + (size_t)(limit)) + 64)

/*
 * Cuts the subject (s..) by the cutter (c..) into the output (o..). `limit` is the most meetings of edges. `grid` is k, from 0 to 10, of the
 * survey grid of 1/2^k metre: each coordinate of a new point goes to the nearest multiple of 1/2^k, halfway to the even one; no other node
 * moves. With DAQWIMAY_NO_GRID none does. In x and in y a new point is within M x 2^-50 + 2^-1074 of its subject edge, M being the largest size
 * among the coordinates of the edge's ends, and on a grid within 2^-(k+1), half a step, more: docs/TOLERANCE.md. Each list is an address and a
 * count of numbers:
 *   coords    x and y of each node
 *   layers    one for each node, any number: a node of the cutter that lies less than 1e-12 from one of the subject becomes that node only
 *             where their layers are equal. With one number for all nodes of both meshes every answer is that without layers
 *   nodes     the cells' node numbers, one cell after the other
 *   ends      where each cell's node numbers end
 *   kinds, families   one for each cell
 * The output has two more lists, one number for each piece, which say from which cell it was cut, its parent:
 *   parent_meshes   DAQWIMAY_SUBJECT or DAQWIMAY_CUTTER
 *   parent_cells    the index of the cell in that mesh, from 0
 * The output's coordinates are those of the subject, of the cutter, then of all points added where edges meet, pieces name them or not:
 * 2 x (nodes + added points) numbers. 2 x (nodes + limit) always suffice. Its layers are those of the same nodes, half as many numbers: an
 * added point has that of its subject edge's first node, in the direction of the first cell with this edge. Edges meet whatever their layers.
 * A piece takes its node numbers and a place in each of ends, kinds, families, parent_meshes and parent_cells. Places behind the answer
 * are kept.
 * counts: as many of these four as it has places, all 0 at a refusal; places behind them are kept.
 *   DAQWIMAY_PIECES         the pieces
 *   DAQWIMAY_NEW_POINTS     the added points that at least one piece names, each once. It was the number of all added points before: who cuts
 *                           the coordinates by it takes DAQWIMAY_ADDED_POINTS now
 *   2                       0. It was the count of doubled cells: there are none any more, and it stays for readers of old listings
 *   DAQWIMAY_ADDED_POINTS   all added points: more than the new points where INTERSECTION, DIFFERENCE or SYMMETRIC_DIFFERENCE drop all
 *                           pieces that name one, as many for the others
 *
 * Addresses are aligned and not null, and no written list overlaps another. Nothing else is asked of the caller: any content is
 * answered. The call keeps nothing, allocates nothing and may run in many threads at once.
 */
uint32_t daqwimay_overlay(
    uint32_t operation, uint32_t limit, uint32_t grid,
    const double *scoords, size_t scoords_len, const uint32_t *slayers, size_t slayers_len, const uint32_t *snodes, size_t snodes_len,
    const uint32_t *sends, size_t sends_len, const uint8_t *skinds, size_t skinds_len, const uint32_t *sfamilies, size_t sfamilies_len,
    const double *ccoords, size_t ccoords_len, const uint32_t *clayers, size_t clayers_len, const uint32_t *cnodes, size_t cnodes_len,
    const uint32_t *cends, size_t cends_len, const uint8_t *ckinds, size_t ckinds_len, const uint32_t *cfamilies, size_t cfamilies_len,
    double *ocoords, size_t ocoords_len, uint32_t *olayers, size_t olayers_len, uint32_t *onodes, size_t onodes_len,
    uint32_t *oends, size_t oends_len, uint8_t *okinds, size_t okinds_len, uint32_t *ofamilies, size_t ofamilies_len,
    uint32_t *parent_meshes, size_t parent_meshes_len, uint32_t *parent_cells, size_t parent_cells_len,
    uint32_t *work, size_t work_len, uint32_t *counts, size_t counts_len);

#ifdef __cplusplus
}
#endif

#endif
