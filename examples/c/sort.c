/*
 * Sorts the 64 letters of a text in 16 parts. A node takes a part, sorts it, and merges it with the part beside it if that is sorted
 * already; else it leaves both to the node that sorts the other, and takes another part. So nobody waits for anybody. Who does the
 * last merge puts the letters out.
 */
#include "node.h"
#include "shared.h"

#define PARTS 16
#define LETTERS 64
static const char text[LETTERS] = "thequickbrownfoxjumpsoverthelazydogsphinxofblackquartzjudgemyvow";

static Shared next; /* the part that nobody has taken */
/* How many of the two halves of a merge are sorted. Merge 1 is the last; merge m takes the halves 2m and 2m + 1, which are merges too, or
 * from 16 on parts. */
static Shared sorted[PARTS];
/* Merges go from one side to the other. */
static unsigned letters[2][LETTERS] __attribute__((aligned(BLOCK)));

static void sort(unsigned *part, unsigned size)
{
    for (unsigned end = 1; end < size; end++) {
        unsigned letter = part[end], place = end;
        for (; place > 0 && part[place - 1] > letter; place--)
            part[place] = part[place - 1];
        part[place] = letter;
    }
}

static void merge(const unsigned *from, unsigned *to, unsigned half)
{
    unsigned left = 0, right = half;
    for (unsigned place = 0; place < 2 * half; place++)
        if (right == 2 * half || (left < half && from[left] <= from[right]))
            to[place] = from[left++];
        else
            to[place] = from[right++];
}

/* Sorts a part, and all of which it is the last to be sorted. Tells whether that is the whole text; it is on side 0 then. */
static int perform(unsigned part)
{
    unsigned size = LETTERS / PARTS, first = part * size, side = 0;
    for (unsigned place = first; place < first + size; place++)
        letters[side][place] = (unsigned char)text[place];
    sort(&letters[side][first], size);
    for (unsigned merging = (PARTS + part) / 2; merging > 0; merging /= 2) {
        if (count(&sorted[merging]) == 0)
            return 0;
        first &= ~(2 * size - 1);
        merge(&letters[side][first], &letters[!side][first], size);
        size *= 2;
        side = !side;
    }
    return 1;
}

int main(unsigned node)
{
    unsigned part;
    (void)node;
    while ((part = count(&next)) < PARTS)
        if (perform(part)) {
            for (unsigned place = 0; place < LETTERS; place++)
                put((unsigned char)letters[0][place]);
            put('\n');
        }
    return 0;
}
