/*
 * Tries malloc, realloc and free of runtime/module/blocks.c, under other names, at random: blocks do not overlap, keep what is in them, and are
 * aligned; memory that is refused changes nothing; and once all is freed, a block lies where the first one lay. Its word is the seed; the last line
 * is `N passed, M failed`.
 */
#include <stdbool.h>
#include <stdint.h>
#include <stdio.h>
#include <stdlib.h>
#include <string.h>

enum { MEMORY = 1 << 20, BLOCKS = 64, STEPS = 200000, LONGEST = 40000 };

void *tried_malloc(size_t octets);
void *tried_realloc(void *at, size_t octets);
void tried_free(void *at);

static _Alignas(16) char memory[MEMORY];
static size_t most; /* no block may end after this */
static int passed, failed;

char *heap_begin(void)
{
    return memory;
}

_Bool heap_reaches(char *end)
{
    return (size_t)(end - memory) <= most;
}

struct kept {
    uint8_t *at;
    size_t length;
    uint8_t octet;
};

static struct kept blocks[BLOCKS];
static uint64_t state;

static uint64_t at_random(uint64_t below)
{
    state = state * 6364136223846793005u + 1442695040888963407u;
    return (state >> 33) % below;
}

static void check(const char *what, bool is_so)
{
    if (!is_so)
        printf("%s: NOT as due\n", what);
    *(is_so ? &passed : &failed) += 1;
}

static bool holds(const struct kept *it, size_t length)
{
    for (size_t i = 0; i < length; i++)
        if (it->at[i] != it->octet)
            return false;
    return true;
}

static void keep(struct kept *it, uint8_t *at, size_t length)
{
    *it = (struct kept){at, length, (uint8_t)at_random(256)};
    memset(at, it->octet, length);
    check("aligned", (uintptr_t)at % 16 == 0);
    check("within the memory", at >= (uint8_t *)memory && at + length <= (uint8_t *)memory + MEMORY);
}

static void step(struct kept *it)
{
    size_t length = at_random(at_random(4) ? 200 : LONGEST);
    if (!it->at) {
        uint8_t *at = tried_malloc(length);
        check("within the bound", !at || (size_t)(at + length - (uint8_t *)memory) <= most);
        if (at)
            keep(it, at, length);
    } else if (at_random(2)) {
        check("kept", holds(it, it->length));
        tried_free(it->at);
        it->at = NULL;
    } else {
        uint8_t *at = tried_realloc(it->at, length);
        check("kept though refused", at || holds(it, it->length));
        if (at) {
            it->at = at;
            check("kept elsewhere", holds(it, length < it->length ? length : it->length));
            keep(it, at, length);
        }
    }
}

int main(int count, char **words)
{
    state = count > 1 ? strtoull(words[1], NULL, 10) : 0;
    for (int i = 0; i < STEPS; i++) {
        most = at_random(8) ? MEMORY : MEMORY / 8;
        step(&blocks[at_random(BLOCKS)]);
    }
    for (int i = 0; i < BLOCKS; i++) {
        check("kept to the end", !blocks[i].at || holds(&blocks[i], blocks[i].length));
        tried_free(blocks[i].at);
    }
    most = MEMORY;
    void *first = tried_malloc(1);
    check("an empty heap again", (char *)first - memory <= 16);
    tried_free(first);
    check("no memory of too many octets", !tried_malloc(SIZE_MAX) && !tried_malloc((size_t)1 << 41));
    first = tried_malloc(16);
    check("no other size of too many octets", !tried_realloc(first, SIZE_MAX) && !tried_realloc(first, (size_t)1 << 41));
    tried_free(NULL);
    printf("%d passed, %d failed\n", passed, failed);
    return failed != 0;
}
