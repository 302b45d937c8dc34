/* The words of the command line, as Rattle's library `os` declares them. */
typedef __SIZE_TYPE__ size;

enum { NO_SUCH_WORD = -1, NO_ROOM = -2 };

static size count;
static char **words;

/* The C library of GNU gives the arguments of main to what it calls before main. */
__attribute__((constructor)) static void keep(int given, char **arguments)
{
    count = (size)given;
    words = arguments;
}

size rattle_arg_count(void)
{
    return count;
}

/* Copies a word, without the octet 0 at its end, and returns how many octets it has, NO_SUCH_WORD, or NO_ROOM after the room is full. */
long rattle_arg(size number, char *to, size room)
{
    if (number >= count || !words[number])
        return NO_SUCH_WORD;
    const char *word = words[number];
    size length = 0;
    for (; word[length]; length++) {
        if (length == room)
            return NO_ROOM;
        to[length] = word[length];
    }
    return (long)length;
}
