/*
 * The heap that Rattle's library `libc` declares, over malloc: new memory, memory of another size, and memory given back. README.md says what the
 * proofs take from it. Nothing is included, as Rattle's compiler comes without headers.
 */
typedef __SIZE_TYPE__ size;

/* Whether there is memory, and where. */
struct tried {
    _Bool ok;
    void *at;
};

extern void *malloc(size octets);
extern void *realloc(void *at, size octets);
extern void free(void *at);

/* What a refusal points to, since its pointer may not be null. Nobody reads it. */
static char nothing;

static struct tried tried(void *at)
{
    return (struct tried){at != 0, at ? at : &nothing};
}

/* For no octets as many as the alignment are asked for, since malloc(0) may return null. The alignment is at most 16, which is malloc's. */
struct tried rattle_alloc(size octets, size alignment)
{
    return tried(malloc(octets ? octets : alignment));
}

struct tried rattle_realloc(void *at, size kept, size octets, size alignment)
{
    (void)kept; /* realloc keeps all */
    return tried(realloc(at, octets ? octets : alignment));
}

void rattle_dealloc(void *at)
{
    free(at);
}
