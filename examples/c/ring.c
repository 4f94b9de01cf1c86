/* A token goes from node to node, twice round the ring, and each node says its number when it has the token. */
#include "node.h"
#include "shared.h"

#define ROUNDS 2

static Shared token; /* how often it was handed on */

int main(unsigned node, unsigned nodes)
{
    unsigned place = node * BLOCK, turn = node;
    for (unsigned round = 0; round < ROUNDS; round++, turn += nodes) {
        while (load(&token) != turn)
            give_way(&place);
        put((unsigned char)("0123456789abcdef"[node]));
        if (node == nodes - 1)
            put('\n');
        store(&token, turn + 1);
    }
    return 0;
}
