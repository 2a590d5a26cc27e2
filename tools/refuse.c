/* Loaded before a program (LD_PRELOAD), it refuses the program one allocation: the one of the number in REFUSE, from 1
   on. A thread counts as one. It then writes a byte to the descriptor REFUSE_TELL. All other allocations are the C library's. */
#define _GNU_SOURCE
#include <dlfcn.h>
#include <errno.h>
#include <pthread.h>
#include <stdatomic.h>
#include <stdlib.h>
#include <unistd.h>

extern void *__libc_malloc(size_t size);
extern void *__libc_realloc(void *block, size_t size);
extern void *__libc_memalign(size_t align, size_t size);

typedef int create_thread(pthread_t *, const pthread_attr_t *, void *(*)(void *), void *);

static atomic_long made;
static long number;
static int tell;
static create_thread *create;

static int number_in(const char *name)
{
    const char *word = getenv(name);
    return word ? atoi(word) : 0;
}

__attribute__((constructor)) static void begin(void)
{
    create = (create_thread *)dlsym(RTLD_NEXT, "pthread_create");
    if (create == NULL) {
        abort();
    }
    tell = number_in("REFUSE_TELL");
    number = number_in("REFUSE");
    atomic_store(&made, 0);
}

static int is_refused(void)
{
    if (number == 0 || atomic_fetch_add(&made, 1) + 1 != number) {
        return 0;
    }
    if (write(tell, "1", 1) != 1) {
        abort();
    }
    errno = ENOMEM;
    return 1;
}

void *malloc(size_t size)
{
    return is_refused() ? NULL : __libc_malloc(size);
}

void *realloc(void *block, size_t size)
{
    return is_refused() ? NULL : __libc_realloc(block, size);
}

void *aligned_alloc(size_t align, size_t size)
{
    return is_refused() ? NULL : __libc_memalign(align, size);
}

int posix_memalign(void **block, size_t align, size_t size)
{
    void *found = is_refused() ? NULL : __libc_memalign(align, size);
    if (found == NULL) {
        return ENOMEM;
    }
    *block = found;
    return 0;
}

int pthread_create(pthread_t *thread, const pthread_attr_t *attributes, void *(*body)(void *), void *argument)
{
    return is_refused() ? EAGAIN : create(thread, attributes, body, argument);
}
