/* Node 0 puts jobs into a queue, and all nodes take them. A job is a letter of a text, which whoever takes it makes a capital. */
#include "node.h"
#include "shared.h"

#define PLACES 8
static const char text[] = "a queue with several takers";
#define JOBS (sizeof text - 1)

static Shared jobs[PLACES]; /* which letter */
static Shared in, out;      /* how many jobs were put in and taken out */
static Shared is_closed;
static Shared done;
static unsigned capitals[JOBS];

/* Takes the oldest job, or tells that there is none. */
static int take(unsigned *job)
{
    unsigned first = load(&out);
    for (;;) {
        if (first == load(&in))
            return 0;
        *job = load(&jobs[first % PLACES]);
        /* who counts it out has it; else somebody was quicker, and first is what it is now */
        if (__atomic_compare_exchange_n(&out.word, &first, first + 1, 0, __ATOMIC_ACQ_REL, __ATOMIC_ACQUIRE))
            return 1;
    }
}

/* A letter that was taken twice would be added twice. */
static void perform(unsigned job)
{
    unsigned letter = (unsigned char)text[job];
    if (letter >= 'a' && letter <= 'z')
        letter -= 'a' - 'A';
    __atomic_fetch_add(&capitals[job], letter, __ATOMIC_RELAXED);
    count(&done);
}

/* Fills the queue. A node that finds no room does a job itself, so it waits for nobody until there is none to do. */
static void give(unsigned *place)
{
    unsigned job;
    for (unsigned next = 0; next < JOBS; next++) {
        while (next - load(&out) == PLACES)
            if (take(&job))
                perform(job);
        store(&jobs[next % PLACES], next);
        store(&in, next + 1);
    }
    store(&is_closed, 1);
    while (take(&job))
        perform(job);
    while (load(&done) != JOBS)
        give_way(place);
    for (unsigned letter = 0; letter < JOBS; letter++)
        put((unsigned char)capitals[letter]);
    put('\n');
}

int main(unsigned node)
{
    unsigned place = node * BLOCK, job, taken = 0;
    if (node == 0) {
        give(&place);
        return 0;
    }
    /* closed is asked for first: what was put in before it is still seen */
    for (;;) {
        unsigned is_last = load(&is_closed);
        if (take(&job)) {
            perform(job);
            taken++;
        } else if (is_last) {
            return (int)taken;
        } else {
            give_way(&place);
        }
    }
}
