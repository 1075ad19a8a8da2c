/* Preloaded into a program (Linux, the GNU C library): refuses one request for memory, and tells how many there were and how
   much stack was used.

   REFUSED_REQUEST   the number, from 1, of the request for memory that is refused; absent: none is
   WATCHED_FILE      where the count of requests and the bytes of stack are written when the program ends; absent: nowhere */
#include <errno.h>
#include <fcntl.h>
#include <stdint.h>
#include <stdio.h>
#include <stdlib.h>
#include <unistd.h>

extern void *__libc_malloc(size_t);
extern void *__libc_calloc(size_t, size_t);
extern void *__libc_realloc(void *, size_t);
extern void *__libc_memalign(size_t, size_t);

enum { PAINTED = 7 << 20, PAINT = 0xA5 };

static unsigned long requests, refused;
static uintptr_t lowest, highest;

/* Counts a request; whether it is to be refused. */
static int refuse(void)
{
    if (++requests != refused)
        return 0;
    errno = ENOMEM;
    return 1;
}

void *malloc(size_t size)
{
    return refuse() ? NULL : __libc_malloc(size);
}

void *calloc(size_t count, size_t size)
{
    return refuse() ? NULL : __libc_calloc(count, size);
}

void *realloc(void *old, size_t size)
{
    return refuse() ? NULL : __libc_realloc(old, size);
}

void *memalign(size_t alignment, size_t size)
{
    return refuse() ? NULL : __libc_memalign(alignment, size);
}

void *aligned_alloc(size_t alignment, size_t size)
{
    return memalign(alignment, size);
}

int posix_memalign(void **taken, size_t alignment, size_t size)
{
    *taken = memalign(alignment, size);
    return *taken ? 0 : ENOMEM;
}

/* Paints the stack below this call. The addresses are kept as numbers of what was there: nothing lives there any more. */
static void __attribute__((noinline)) paint(void)
{
    volatile unsigned char stack[PAINTED];
    for (size_t place = 0; place < PAINTED; place++)
        stack[place] = PAINT;
    lowest = (uintptr_t)stack;
    highest = lowest + PAINTED;
}

/* How many bytes of the painted stack lie above the lowest one that was written since. */
static size_t used(void)
{
    uintptr_t place = lowest;
    while (place < highest && *(const volatile unsigned char *)place == PAINT)
        place++;
    return highest - place;
}

static void __attribute__((constructor)) begin(void)
{
    const char *number = getenv("REFUSED_REQUEST");
    if (getenv("WATCHED_FILE"))
        paint();
    requests = 0;
    refused = number ? strtoul(number, NULL, 10) : 0;
}

static void __attribute__((destructor)) end(void)
{
    const char *name = getenv("WATCHED_FILE");
    unsigned long count = requests;
    char line[64];
    int file, length;
    if (!name)
        return;
    refused = 0;
    length = snprintf(line, sizeof line, "%lu %zu\n", count, used());
    file = open(name, O_WRONLY | O_CREAT | O_TRUNC, 0666);
    if (file < 0 || write(file, line, length) != length)
        _exit(99);
    close(file);
}
