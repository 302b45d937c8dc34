/*
 * Tries the C that the proofs take as given: that of the Rattle kit, or what is in runtime/ in its place. Its words are `words`, an empty one and
 * `three`. Each line that it prints says what was asked and what came; the last one is `N passed, M failed`. Memory is refused by the malloc and the
 * realloc here, through which the linker has the tried code call the C library's (--wrap).
 */
#include <errno.h>
#include <pthread.h>
#include <stdbool.h>
#include <stdint.h>
#include <stdio.h>
#include <stdlib.h>
#include <string.h>

#define COUNT(array) (sizeof(array) / sizeof *(array))

struct tried {
    bool ok;
    uint8_t *at;
};

struct tried rattle_alloc(size_t octets, size_t alignment);
struct tried rattle_realloc(void *at, size_t kept, size_t octets, size_t alignment);
void rattle_dealloc(void *at);
size_t rattle_arg_count(void);
long rattle_arg(size_t number, char *to, size_t room);
int rattle_errno(void);
void rattle_set_errno(int number);

void *__real_malloc(size_t octets);
void *__real_realloc(void *at, size_t octets);

static bool refuses;
static size_t asked; /* the octets that were asked for last */
static int passed, failed;

void *__wrap_malloc(size_t octets)
{
    asked = octets;
    return refuses ? NULL : __real_malloc(octets);
}

void *__wrap_realloc(void *at, size_t octets)
{
    asked = octets;
    return refuses ? NULL : __real_realloc(at, octets);
}

static void check(const char *what, size_t number, bool is_so)
{
    printf("%s, %zu: %s\n", what, number, is_so ? "as due" : "NOT as due");
    *(is_so ? &passed : &failed) += 1;
}

static bool holds(const uint8_t *at, uint8_t octet, size_t length)
{
    for (size_t i = 0; i < length; i++)
        if (at[i] != octet)
            return false;
    return true;
}

static const size_t SIZES[] = {0, 1, 2, 15, 16, 17, 4095, 4096, 1 << 20};
static const size_t ALIGNMENTS[] = {1, 2, 4, 8, 16};
static const size_t TOO_LARGE = (size_t)1 << 62;

static void check_new(size_t octets, size_t alignment)
{
    struct tried one = rattle_alloc(octets, alignment), other = rattle_alloc(octets, alignment);
    check("there is memory", octets, one.ok && other.ok && one.at && other.at && one.at != other.at);
    check("aligned", alignment, (uintptr_t)one.at % alignment == 0 && (uintptr_t)other.at % alignment == 0);
    check("asked for", octets, asked == (octets ? octets : alignment));
    memset(one.at, 1, octets);
    memset(other.at, 2, octets);
    check("apart", octets, holds(one.at, 1, octets) && holds(other.at, 2, octets));
    rattle_dealloc(one.at);
    rattle_dealloc(other.at);
}

static void check_other_size(size_t before, size_t after, size_t alignment)
{
    size_t kept = before < after ? before : after;
    struct tried block = rattle_alloc(before, alignment);
    memset(block.at, 7, before);
    refuses = true;
    struct tried none = rattle_realloc(block.at, kept, after, alignment);
    refuses = false;
    check("refused, and as it was", before, !none.ok && none.at && holds(block.at, 7, before));
    struct tried other = rattle_realloc(block.at, kept, after, alignment);
    check("another size", after, other.ok && other.at && (uintptr_t)other.at % alignment == 0 && holds(other.at, 7, kept));
    check("asked for", after, asked == (after ? after : alignment));
    memset(other.at, 8, after);
    rattle_dealloc(other.at);
}

static void check_heap(void)
{
    for (size_t i = 0; i < COUNT(SIZES); i++)
        for (size_t j = 0; j < COUNT(ALIGNMENTS); j++) {
            check_new(SIZES[i], ALIGNMENTS[j]);
            for (size_t k = 0; k < COUNT(SIZES); k++)
                check_other_size(SIZES[i], SIZES[k], ALIGNMENTS[j]);
        }
    struct tried none = rattle_alloc(TOO_LARGE, 16), block = rattle_alloc(16, 16);
    check("more than there is", 0, !none.ok && none.at);
    none = rattle_realloc(block.at, 16, TOO_LARGE, 16);
    check("another size, more than there is", 0, !none.ok && none.at);
    rattle_dealloc(block.at);
    refuses = true;
    none = rattle_alloc(0, 1);
    check("refused", 0, !none.ok && none.at);
    refuses = false;
}

/* Each octet of the room that is not written to stays as it was. */
static void check_word(size_t number, const char *wanted)
{
    char room[16];
    size_t length = wanted ? strlen(wanted) : 0;
    for (size_t i = 0; i <= 8; i++) {
        memset(room, '?', sizeof room);
        long came = rattle_arg(number, room, i);
        size_t written = i < length ? i : length;
        check("a word", number, came == (!wanted ? -1 : i < length ? -2 : (long)length));
        check("its octets", i, memcmp(room, wanted ? wanted : "", written) == 0 && holds((uint8_t *)room + written, '?', sizeof room - written));
    }
}

static void check_words(const char *program)
{
    char room[4096];
    check("how many words", rattle_arg_count(), rattle_arg_count() == 4);
    long length = rattle_arg(0, room, sizeof room);
    check("the name of the program", 0, length == (long)strlen(program) && memcmp(room, program, strlen(program)) == 0);
    check_word(1, "words");
    check_word(2, "");
    check_word(3, "three");
    check_word(4, NULL);
    check_word(5, NULL); /* the environment begins here */
    check_word(SIZE_MAX, NULL);
}

static void *errno_of_thread(void *is_so)
{
    errno = 0;
    rattle_set_errno(EINTR);
    *(bool *)is_so = errno == EINTR && rattle_errno() == EINTR;
    return NULL;
}

static void check_errno(void)
{
    bool is_so = false;
    pthread_t thread;
    rattle_set_errno(ENOSPC);
    check("errno that is set", ENOSPC, errno == ENOSPC && rattle_errno() == ENOSPC);
    errno = EIO;
    check("errno of the C library", EIO, rattle_errno() == EIO);
    check("a thread", 0, pthread_create(&thread, NULL, errno_of_thread, &is_so) == 0 && pthread_join(thread, NULL) == 0);
    check("errno of a thread", EINTR, is_so && rattle_errno() == EIO);
}

int main(int count, char **words)
{
    (void)count;
    check_heap();
    check_words(words[0]);
    check_errno();
    printf("%d passed, %d failed\n", passed, failed);
    return failed != 0;
}
