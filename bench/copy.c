/* Reads the standard input to its end, in pieces as the program asks for them, and writes it to the standard output. */
#include "input.h"

int main(void) {
    struct input input = read_input();
    size_t written = 0;
    while (written < input.count) {
        ssize_t n = write(1, input.octets + written, input.count - written);
        if (n <= 0)
            return 4;
        written += (size_t)n;
    }
    free(input.octets);
    return 0;
}
