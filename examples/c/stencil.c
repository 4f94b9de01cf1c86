/*
 * Four cells a node in a row, and one of them set; in each of seven steps a cell becomes the exclusive or of the two beside it (rule 90).
 * A node waits for the nodes on its left and right alone, and only until they have done the step before. Who ends last puts the row out.
 */
#include "node.h"
#include "shared.h"

#define STEPS 7
#define CELLS 4

static Shared cells[STEPS + 1][16]; /* a node's cells after each step, the leftmost in the highest bit */
static Shared done[16];             /* 1 and how many steps a node has done */
static Shared ended;

static void await(const Shared *other, unsigned value, unsigned *place)
{
    while (load(other) < value)
        give_way(place);
}

int main(unsigned node, unsigned nodes)
{
    unsigned place = node * BLOCK, own = node == nodes / 2 ? 1 << (CELLS - 1) : 0;
    for (unsigned step = 0;; step++) {
        unsigned left = 0, right = 0;
        store(&cells[step][node], own);
        store(&done[node], step + 1);
        if (step == STEPS)
            break;
        if (node > 0) {
            await(&done[node - 1], step + 1, &place);
            left = load(&cells[step][node - 1]) & 1;
        }
        if (node < nodes - 1) {
            await(&done[node + 1], step + 1, &place);
            right = load(&cells[step][node + 1]) >> (CELLS - 1);
        }
        own = (own >> 1 | left << (CELLS - 1)) ^ ((own << 1 | right) & ((1 << CELLS) - 1));
    }
    if (count(&ended) < nodes - 1)
        return 0;
    for (unsigned at = 0; at < nodes; at++)
        for (unsigned cell = CELLS; cell > 0; cell--)
            put(cells[STEPS][at].word >> (cell - 1) & 1 ? '#' : '.');
    put('\n');
    return 0;
}
