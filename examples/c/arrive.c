/* Each node takes a number in the order of arrival, says it, and ends with it. */
#include "node.h"

static unsigned arrived;
static const char greeting[] = "arrived as ";

int main(unsigned node)
{
    (void)node;
    unsigned order = __atomic_fetch_add(&arrived, 1, __ATOMIC_SEQ_CST);
    for (const char *letter = greeting; *letter; letter++)
        put((unsigned char)*letter);
    put((unsigned char)("0123456789abcdef"[order & 15]));
    put('\n');
    return (int)order;
}
