#include "network.h"

#include <stdbool.h>
#include <string.h>

/* The generator adds a constant to the seed and mixes the bits of the sum (splitmix64). */
uint32_t network_draw(uint64_t *seed, uint32_t n)
{
    uint64_t z = *seed += 0x9e3779b97f4a7c15u;
    z = (z ^ z >> 30) * 0xbf58476d1ce4e5b9u;
    z = (z ^ z >> 27) * 0x94d049bb133111ebu;
    z ^= z >> 31;
    return (z >> 32) * n >> 32;
}

static void put(uint8_t *p, uint32_t v)
{
    for (int i = 0; i < 4; i++)
        p[i] = v >> 8 * i;
}

static uint32_t word(const uint8_t *p) { return p[0] | (uint32_t)p[1] << 8 | (uint32_t)p[2] << 16 | (uint32_t)p[3] << 24; }

static void add_arc(struct network *net, uint32_t start, uint32_t end, uint32_t length)
{
    uint8_t *record = net->table + net->bytes;
    put(record, start);
    put(record + 4, end);
    put(record + 8, length);
    put(record + 12, 0);
    net->bytes += OJEONBUT_RECORD;
}

void network_make(struct network *net, uint32_t width, uint32_t height, uint32_t longest, uint64_t seed)
{
    static bool east[OJEONBUT_NODES], south[OJEONBUT_NODES]; /* whether a street leads from the node to its neighbour there */
    net->width = width;
    net->height = height;
    net->nodes = width * height;
    net->bytes = 0;
    for (uint32_t v = 0; v < net->nodes; v++) {
        east[v] = network_draw(&seed, 10) > 0 && v % width < width - 1;
        south[v] = network_draw(&seed, 10) > 0 && v / width < height - 1;
    }
    for (uint32_t v = 0; v < net->nodes; v++) {
        if (v >= width && south[v - width])
            add_arc(net, v, v - width, 1 + network_draw(&seed, longest));
        if (v >= 1 && east[v - 1])
            add_arc(net, v, v - 1, 1 + network_draw(&seed, longest));
        if (east[v])
            add_arc(net, v, v + 1, 1 + network_draw(&seed, longest));
        if (south[v])
            add_arc(net, v, v + width, 1 + network_draw(&seed, longest));
    }
}

void network_region(struct network *net, uint32_t longest, uint64_t seed)
{
    const uint32_t side = 256;
    net->width = net->height = side;
    net->nodes = side * side;
    net->bytes = 0;
    for (uint32_t v = 0; v < net->nodes; v++) {
        if (v >= side)
            add_arc(net, v, v - side, 1 + network_draw(&seed, longest));
        if (v % side > 0)
            add_arc(net, v, v - 1, 1 + network_draw(&seed, longest));
        if (v % side < side - 1)
            add_arc(net, v, v + 1, 1 + network_draw(&seed, longest));
        if (v + side < net->nodes)
            add_arc(net, v, v + side, 1 + network_draw(&seed, longest));
        if (v % 64 == 0)
            add_arc(net, v, (v + 2 * side) % net->nodes, 1 + network_draw(&seed, longest));
    }
}

/* The street east of node v has number 2v + 1, the one south of it 2v + 2. */
void network_number_streets(struct network *net)
{
    for (size_t i = 0; i < net->bytes; i += OJEONBUT_RECORD) {
        uint32_t start = word(net->table + i), end = word(net->table + i + 4);
        uint32_t near = start < end ? start : end, far = start < end ? end : start;
        put(net->table + i + 12, 2 * near + (far - near == 1 && net->width > 1 ? 1 : 2));
    }
}

static void begin(struct network *net, uint32_t nodes)
{
    net->width = net->nodes = nodes;
    net->height = 1;
    net->bytes = 0;
}

void network_fan(struct network *net, uint32_t arcs, uint32_t ends, uint32_t longest, uint64_t seed)
{
    begin(net, ends + 2);
    for (uint32_t i = 0; i < arcs; i++)
        add_arc(net, 0, 1 + i % ends, 1 + network_draw(&seed, longest));
}

void network_scatter(struct network *net, uint32_t nodes, uint32_t most, uint32_t longest, uint32_t roads, uint64_t *seed)
{
    begin(net, nodes);
    for (uint32_t v = 0; v < nodes; v++) {
        for (uint32_t arcs = network_draw(seed, most + 1); arcs > 0; arcs--) {
            uint32_t end = (v + 1 + network_draw(seed, nodes - 1)) % nodes;
            add_arc(net, v, end, 1 + network_draw(seed, longest));
            put(net->table + net->bytes - 4, network_draw(seed, roads + 1));
        }
    }
}

struct leg network_leg(const struct network *net, uint32_t across, uint32_t down, uint64_t *seed)
{
    uint32_t x = network_draw(seed, net->width - across), y = network_draw(seed, net->height - down);
    uint32_t from_x = x, to_x = x + across, from_y = y, to_y = y + down;
    if (network_draw(seed, 2)) {
        from_x = x + across;
        to_x = x;
    }
    if (network_draw(seed, 2)) {
        from_y = y + down;
        to_y = y;
    }
    return (struct leg){from_y * net->width + from_x, to_y * net->width + to_x};
}
