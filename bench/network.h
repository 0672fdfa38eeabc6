/* Generated road networks. Most are a city of width x height nodes, numbered row by row, with streets between neighbours in both directions. About one street in ten
 * is missing, in both directions together. Each direction of a street is an arc with a drawn length of its own, from 1 to `longest`. The same seed gives the
 * same network everywhere. */
#ifndef NETWORK_H
#define NETWORK_H

#include "ojeonbut.h"

struct network {
    uint32_t width, height;
    uint32_t nodes;
    size_t bytes;
    uint8_t table[OJEONBUT_ARCS * OJEONBUT_RECORD];
};

/* From a start to a goal. */
struct leg {
    uint32_t start, goal;
};

/* width * height must not exceed OJEONBUT_NODES. */
void network_make(struct network *net, uint32_t width, uint32_t height, uint32_t longest, uint64_t seed);

/* The greatest table: 256 x 256 nodes with every street, and from each 64th node an arc more, to the node two rows further: 262,144 arcs. */
void network_region(struct network *net, uint32_t longest, uint64_t seed);

/* Gives both directions of each street one road number, from 1, and each street its own; network_make leaves them 0. */
void network_number_streets(struct network *net);

/* A node 0 with `arcs` arcs, at most OJEONBUT_ARCS, to the nodes from 1 to `ends` in turn; one node more, the last, has no arc. Road numbers are 0. */
void network_fan(struct network *net, uint32_t arcs, uint32_t ends, uint32_t longest, uint64_t seed);

/* Two nodes or more, from each of them up to `most` arcs to drawn other ones, with lengths from 1 to `longest` and road numbers from 0 to `roads`. */
void network_scatter(struct network *net, uint32_t nodes, uint32_t most, uint32_t longest, uint32_t roads, uint64_t *seed);

/* A number from 0 to n - 1; `seed` becomes that of the next. */
uint32_t network_draw(uint64_t *seed, uint32_t n);

/* A drawn leg whose ends are `across` blocks apart from east to west, in either direction, and `down` blocks from north to south; `across` must be below the
 * width and `down` below the height. `seed` becomes that of the next leg. */
struct leg network_leg(const struct network *net, uint32_t across, uint32_t down, uint64_t *seed);

#endif
