/* The frame of a C program that converts what it reads: once, or as many times more as its only argument says. The standard input
   is read to its end before. What the last time gives is written to the standard output. If there is an argument, how many octets
   were read and how many microseconds of processor time the times after the first took are written to the standard error. The exit
   status is 3 if the input is refused, 4 if a read or a write fails, and 5 if memory runs out. */
#include "input.h"
#include <stdint.h>
#include <stdio.h>
#include <time.h>

static const size_t REFUSED = SIZE_MAX;

/* Converts the `count` octets at `octets`, writes DER to `der`, and returns how many octets it has, or REFUSED. There is room for
   twice as many octets as are read, and 64 more. */
static size_t convert(const unsigned char *octets, size_t count, unsigned char *der);

/* Volatile, so that the compiler cannot take the call out of the loop. */
static size_t (*volatile called)(const unsigned char *octets, size_t count, unsigned char *der) = convert;

int main(int argc, char **argv) {
    long more = argc > 1 ? atol(argv[1]) : 0;
    struct input input = read_input();
    unsigned char *der = malloc(2 * input.count + 64);
    if (der == NULL)
        return 5;
    size_t written = called(input.octets, input.count, der);
    clock_t began = clock();
    for (long i = 0; i < more && written != REFUSED; i++)
        written = called(input.octets, input.count, der);
    double seconds = (double)(clock() - began) / CLOCKS_PER_SEC;
    if (written == REFUSED)
        return 3;
    if (argc > 1)
        fprintf(stderr, "%zu %.0f\n", input.count, seconds * 1e6);
    if (fwrite(der, 1, written, stdout) != written || fflush(stdout) != 0)
        return 4;
    free(der);
    free(input.octets);
    return 0;
}
