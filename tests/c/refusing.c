/*
 * Loaded into a program (LD_PRELOAD), refuses it memory, reads of the standard input or writes to the standard output, as the
 * environment says:
 *
 *     REFUSED_GROWTH=K    the K-th call of malloc or realloc fails, counted from 1
 *     REFUSED_FOR=NAME    only calls from a library with this in its path are counted
 *     READ_ROOM=R         the standard input gives R octets, and then every read fails
 *     READ_ONCE=1         with READ_ROOM: only the next read fails
 *     READ_MOST=N         the standard input gives at most N octets at a time
 *     WRITE_ROOM=W        the standard output takes W octets, and then every write fails
 *     WRITE_MOST=N        with WRITE_ROOM: it takes at most N octets at a time
 *     WRITE_END=N         with WRITE_ROOM: what a write returns in the end, -1 or 0
 */
#define _GNU_SOURCE
#include <dlfcn.h>
#include <errno.h>
#include <stddef.h>
#include <stdlib.h>
#include <string.h>
#include <sys/types.h>

static long calls, growth, read_room, read_once, read_most, room, most, end;
static const char *library;

static long number(const char *name, long otherwise)
{
    const char *value = getenv(name);
    return value ? atol(value) : otherwise;
}

__attribute__((constructor)) static void begin(void)
{
    growth = number("REFUSED_GROWTH", 0);
    library = getenv("REFUSED_FOR");
    read_room = number("READ_ROOM", -1);
    read_once = number("READ_ONCE", 0);
    read_most = number("READ_MOST", 1 << 30);
    room = number("WRITE_ROOM", -1);
    most = number("WRITE_MOST", 1 << 30);
    end = number("WRITE_END", -1);
}

static int is_counted(void *caller)
{
    Dl_info info;
    return !library || (dladdr(caller, &info) && strstr(info.dli_fname, library));
}

static int is_refused(void *caller)
{
    if (growth == 0 || !is_counted(caller) || ++calls != growth)
        return 0;
    errno = ENOMEM;
    return 1;
}

void *malloc(size_t octets)
{
    void *(*next)(size_t) = (void *(*)(size_t))dlsym(RTLD_NEXT, "malloc");
    return is_refused(__builtin_return_address(0)) ? NULL : next(octets);
}

void *realloc(void *memory, size_t octets)
{
    void *(*next)(void *, size_t) = (void *(*)(void *, size_t))dlsym(RTLD_NEXT, "realloc");
    return is_refused(__builtin_return_address(0)) ? NULL : next(memory, octets);
}

static size_t least(size_t length, long other)
{
    return length < (size_t)other ? length : (size_t)other;
}

ssize_t read(int file, void *octets, size_t length)
{
    ssize_t (*next)(int, void *, size_t) = (ssize_t (*)(int, void *, size_t))dlsym(RTLD_NEXT, "read");
    if (file != 0)
        return next(file, octets, length);
    if (read_room == 0) {
        read_room = read_once ? -1 : 0;
        errno = EIO;
        return -1;
    }
    length = least(length, read_most);
    if (read_room > 0)
        length = least(length, read_room);
    ssize_t given = next(file, octets, length);
    if (read_room > 0 && given > 0)
        read_room -= given;
    return given;
}

ssize_t write(int file, const void *octets, size_t length)
{
    ssize_t (*next)(int, const void *, size_t) = (ssize_t (*)(int, const void *, size_t))dlsym(RTLD_NEXT, "write");
    if (file != 1 || room < 0)
        return next(file, octets, length);
    if (room == 0) {
        errno = EIO;
        return end;
    }
    length = least(least(length, most), room);
    ssize_t taken = next(file, octets, length);
    room -= taken > 0 ? taken : 0;
    return taken;
}
