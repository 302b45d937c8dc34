/*
 * malloc, realloc and free of the module. Blocks lie one after another. What a freed block had is used again once all after it are freed too:
 * a call of the library frees all that it took, so that each begins with an empty heap, and in between it holds at most twice what it needs.
 */
typedef __SIZE_TYPE__ size;

/* What is right before the octets of a block. */
struct block {
    size length;          /* a multiple of 16, and one more if the block was freed */
    struct block *before; /* or null */
};

enum { ALIGNMENT = 16, FREED = 1 };
static const size MOST = (size)1 << 40;

extern char *heap_begin(void);
extern _Bool heap_reaches(char *end); /* whether there is memory up to here */

static struct block *last; /* or null, if there is none */

static size rounded(size octets)
{
    return (octets + ALIGNMENT - 1) & ~(size)(ALIGNMENT - 1);
}

static char *end_of(struct block *it)
{
    return it ? (char *)(it + 1) + it->length : heap_begin();
}

void *malloc(size octets)
{
    struct block *it = (struct block *)end_of(last);
    if (octets > MOST || !heap_reaches((char *)(it + 1) + rounded(octets)))
        return 0;
    *it = (struct block){rounded(octets), last};
    last = it;
    return it + 1;
}

void free(void *at)
{
    if (!at)
        return;
    ((struct block *)at - 1)->length |= FREED;
    while (last && last->length & FREED)
        last = last->before;
}

/* The last block is made longer or shorter where it is. Another one moves if it is too short. */
void *realloc(void *at, size octets)
{
    struct block *it = (struct block *)at - 1;
    if (octets > MOST)
        return 0;
    if (it == last && heap_reaches((char *)at + rounded(octets))) {
        it->length = rounded(octets);
        return at;
    }
    if (octets <= it->length)
        return at;
    char *to = malloc(octets);
    if (!to)
        return 0;
    __builtin_memcpy(to, at, it->length);
    free(at);
    return to;
}
