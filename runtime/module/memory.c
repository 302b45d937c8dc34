/* The memory of the module, which grows as the engine allows, and what whoever calls the module needs of it. */
typedef __SIZE_TYPE__ size;

enum { PAGE = 65536 };
static const size MOST = 0xffff0000; /* the module's pointers have 32 bits in the end */

extern char __heap_base; /* after the module's own data */
extern void *malloc(size octets);
extern void free(void *at);

static size bound = ~(size)0; /* no block ends after this octet */
static size most;             /* the last octet after which a block ended */

char *heap_begin(void)
{
    return (char *)(((size)&__heap_base + 15) & ~(size)15);
}

static size has(void)
{
    return __builtin_wasm_memory_size(0) * PAGE;
}

/* What growing returns is not looked at: a refusal has 32 bits set in the module, and 64 in this code. */
_Bool heap_reaches(char *end)
{
    size to = (size)end;
    if (to > bound || to > MOST)
        return 0;
    if (to > has())
        __builtin_wasm_memory_grow(0, (to - has() + PAGE - 1) / PAGE);
    if (to > has())
        return 0;
    if (to > most)
        most = to;
    return 1;
}

/* Room for what is handed to a call and what it writes; null if there is none. */
void *cms_canon_room(size octets)
{
    return malloc(octets);
}

void cms_canon_free(void *at)
{
    free(at);
}

/* For tests: where the memory that was used ends, and a bound on it. */
size cms_canon_used(void)
{
    return most;
}

void cms_canon_bound(size to)
{
    bound = to;
}
