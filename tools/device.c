/* Loaded before a program (LD_PRELOAD), it makes a device of its standard output: of DEVICE_STEP bytes a call at most are taken, and of
   DEVICE_ROOM bytes in all; then a write fails where DEVICE_FAILS is 1, and else takes none. For each call it writes a byte to the
   descriptor DEVICE_TELL. With DEVICE_GIVES standard input gives so many spaces, one a call, and then fails. */
#define _GNU_SOURCE
#include <dlfcn.h>
#include <errno.h>
#include <stdlib.h>
#include <unistd.h>

typedef ssize_t writes(int, const void *, size_t);
typedef ssize_t reads(int, void *, size_t);

static writes *real_write;
static reads *real_read;
static long step, room, fails, tell, gives;

static long number_in(const char *name)
{
    const char *word = getenv(name);
    return word ? atol(word) : -1;
}

__attribute__((constructor)) static void begin(void)
{
    real_write = (writes *)dlsym(RTLD_NEXT, "write");
    real_read = (reads *)dlsym(RTLD_NEXT, "read");
    step = number_in("DEVICE_STEP");
    room = number_in("DEVICE_ROOM");
    fails = number_in("DEVICE_FAILS");
    tell = number_in("DEVICE_TELL");
    gives = number_in("DEVICE_GIVES");
}

static size_t least(size_t first, size_t second)
{
    return first < second ? first : second;
}

ssize_t write(int to, const void *bytes, size_t count)
{
    if (to != STDOUT_FILENO || step < 0) {
        return real_write(to, bytes, count);
    }
    if (real_write(tell, "1", 1) != 1) {
        abort();
    }
    if (room == 0 && fails == 1) {
        errno = EPIPE;
        return -1;
    }
    size_t taken = least(count, least(step, room));
    room -= taken;
    return taken == 0 ? 0 : real_write(to, bytes, taken);
}

ssize_t read(int from, void *bytes, size_t count)
{
    if (from != STDIN_FILENO || gives < 0) {
        return real_read(from, bytes, count);
    }
    if (gives == 0 || count == 0) {
        errno = EPIPE;
        return -1;
    }
    gives -= 1;
    *(char *)bytes = ' ';
    return 1;
}
