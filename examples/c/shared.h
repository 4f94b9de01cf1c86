/* What nodes that share memory need: words that are read and written in order, and a way to wait. */
#ifndef SHARED_H
#define SHARED_H

/* Coherence moves whole blocks of 64 bytes, so a word that nodes wait for has a block of its own. */
#define BLOCK 64
typedef struct {
    unsigned word;
} __attribute__((aligned(BLOCK))) Shared;

/* Whoever sees a value here also sees all that was written before it was stored. */
static inline unsigned load(const Shared *place)
{
    return __atomic_load_n(&place->word, __ATOMIC_ACQUIRE);
}

static inline void store(Shared *place, unsigned value)
{
    __atomic_store_n(&place->word, value, __ATOMIC_RELEASE);
}

/* Adds 1, and gives what was there before. */
static inline unsigned count(Shared *place)
{
    return __atomic_fetch_add(&place->word, 1, __ATOMIC_ACQ_REL);
}

/*
 * Lets the other nodes go on. A node that only looked at a word again and again would find it in its cache, and each look is an event
 * that moves nobody. So it reads the next block of a meadow that nobody writes, which isn't in its cache any more: it waits until the
 * block's home has sent it, and since the block after it has another home, every node gets a turn before long. The meadow has 256
 * blocks, four times as many as a cache has lines where no option says otherwise.
 */
#define MEADOW (256 * BLOCK)
static volatile unsigned char meadow[MEADOW] __attribute__((section(".bss.meadow"), aligned(BLOCK)));

static inline void give_way(unsigned *place)
{
    (void)meadow[*place];
    *place = (*place + BLOCK) % MEADOW;
}

#endif
