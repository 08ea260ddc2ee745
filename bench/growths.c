/* A library that is put before the C library's (LD_PRELOAD): it refuses the GROWTH_REFUSED-th call of malloc, calloc or
   realloc that the program makes, and then makes the file GROWTH_FILE. Where GROWTH_LIMIT is set, it refuses each call that
   would take the program past that many bytes in use, and keeps in GROWTH_FILE how many there were at most, a long.
   The program's own children don't have it. */
#define _GNU_SOURCE
#include <errno.h>
#include <fcntl.h>
#include <malloc.h>
#include <stdlib.h>
#include <string.h>
#include <sys/mman.h>
#include <unistd.h>

extern void *__libc_malloc(size_t size);
extern void *__libc_calloc(size_t count, size_t size);
extern void *__libc_realloc(void *old, size_t size);
extern void __libc_free(void *old);

static long calls, refused, limit, used, most_of_none, *most = &most_of_none;
static char path[4096];
static pid_t self;

__attribute__((constructor)) static void begin(void)
{
    const char *number = getenv("GROWTH_REFUSED"), *bytes = getenv("GROWTH_LIMIT"), *file = getenv("GROWTH_FILE");
    if (file && strlen(file) < sizeof path)
        strcpy(path, file);
    unsetenv("LD_PRELOAD");
    self = getpid();
    refused = number ? atol(number) : 0;
    if (!bytes)
        return;
    int shared = open(path, O_RDWR | O_CREAT, 0600);
    void *kept = shared < 0 || ftruncate(shared, sizeof *most) ? MAP_FAILED : mmap(NULL, sizeof *most, PROT_READ | PROT_WRITE, MAP_SHARED, shared, 0);
    if (kept != MAP_FAILED)
        most = kept;
    limit = atol(bytes);
}

static int is_refused(void)
{
    if (!refused || getpid() != self || __atomic_add_fetch(&calls, 1, __ATOMIC_SEQ_CST) != refused)
        return 0;
    int file = open(path, O_WRONLY | O_CREAT, 0600);
    if (file >= 0)
        close(file);
    errno = ENOMEM;
    return 1;
}

/* Whether this many bytes more would be too many. */
static int is_over(long more)
{
    if (!limit || __atomic_load_n(&used, __ATOMIC_SEQ_CST) + more <= limit)
        return 0;
    errno = ENOMEM;
    return 1;
}

/* What is in use from now on. */
static void *counted(void *new, long less)
{
    if (!limit)
        return new;
    long now = __atomic_add_fetch(&used, (new ? (long)malloc_usable_size(new) : 0) - less, __ATOMIC_SEQ_CST);
    for (long seen = __atomic_load_n(most, __ATOMIC_SEQ_CST); seen < now;)
        if (__atomic_compare_exchange_n(most, &seen, now, 0, __ATOMIC_SEQ_CST, __ATOMIC_SEQ_CST))
            break;
    return new;
}

void *malloc(size_t size)
{
    return is_refused() || is_over(size) ? NULL : counted(__libc_malloc(size), 0);
}

void *calloc(size_t count, size_t size)
{
    return is_refused() || is_over(count * size) ? NULL : counted(__libc_calloc(count, size), 0);
}

void *realloc(void *old, size_t size)
{
    long before = old ? (long)malloc_usable_size(old) : 0;
    if (is_refused() || is_over((long)size - before))
        return NULL;
    void *new = __libc_realloc(old, size);
    return new ? counted(new, before) : NULL;
}

void free(void *old)
{
    counted(NULL, old ? (long)malloc_usable_size(old) : 0);
    __libc_free(old);
}
