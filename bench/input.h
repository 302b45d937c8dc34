/* The standard input, read to its end in pieces, as the program asks for them. */
#include <stdlib.h>
#include <unistd.h>

enum { PIECE = 8192 };

struct input {
    unsigned char *octets;
    size_t count;
};

/* Reads all of it, or ends the program: 5 for want of memory, 4 where a read fails. */
static struct input read_input(void) {
    size_t room = PIECE;
    struct input input = {malloc(room), 0};
    for (;;) {
        if (room - input.count < PIECE) {
            room *= 2;
            input.octets = realloc(input.octets, room);
        }
        if (input.octets == NULL)
            exit(5);
        ssize_t n = read(0, input.octets + input.count, PIECE);
        if (n < 0)
            exit(4);
        if (n == 0)
            return input;
        input.count += (size_t)n;
    }
}
