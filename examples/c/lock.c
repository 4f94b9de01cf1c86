/* Each node adds 1 to a counter four times, under a lock, and says each time as a letter what the counter is then. */
#include "node.h"
#include "shared.h"

#define ADDITIONS 4
static const char letters[64] = "ABCDEFGHIJKLMNOPQRSTUVWXYZabcdefghijklmnopqrstuvwxyz0123456789+-";

static Shared lock; /* 1 while a node has it */
static Shared counter;

static void take(unsigned *place)
{
    for (;;) {
        unsigned is_taken = load(&lock);
        /* a load-reserved and a store-conditional: of the nodes that see a free lock one gets it */
        if (!is_taken && __atomic_compare_exchange_n(&lock.word, &is_taken, 1, 1, __ATOMIC_ACQUIRE, __ATOMIC_RELAXED))
            return;
        give_way(place);
    }
}

int main(unsigned node)
{
    unsigned place = node * BLOCK, last = 0;
    for (unsigned addition = 0; addition < ADDITIONS; addition++) {
        take(&place);
        last = counter.word;
        put((unsigned char)letters[last % sizeof letters]);
        counter.word = ++last;
        if (last % ADDITIONS == 0)
            put('\n');
        store(&lock, 0);
    }
    return (int)last;
}
