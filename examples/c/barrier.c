/* In each of six phases each node says the phase's letter. A barrier keeps the phases apart: nobody begins one before all have ended the last. */
#include "node.h"
#include "shared.h"

#define PHASES 6

static Shared arrived; /* how many nodes are at the barrier */
static Shared open;    /* changes its sense, 0 or 1, when all are */

int main(unsigned node, unsigned nodes)
{
    unsigned place = node * BLOCK, sense = 0;
    for (unsigned phase = 0; phase < PHASES; phase++) {
        put((unsigned char)('a' + phase));
        sense = !sense;
        if (count(&arrived) == nodes - 1) {
            put('\n');
            store(&arrived, 0);
            store(&open, sense);
        } else {
            while (load(&open) != sense)
                give_way(&place);
        }
    }
    return 0;
}
