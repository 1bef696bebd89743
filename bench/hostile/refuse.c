/* A library to be loaded in front of the C library's allocator: it counts the growths of a program's memory, and
 * refuses the one of a given number, or each from that number on. A growth is a call of malloc, calloc, realloc,
 * aligned_alloc, posix_memalign or mmap by the program.
 *
 * The file that GROWTHS names is shared with whoever started the program, and holds a `struct told`. */
#include <errno.h>
#include <fcntl.h>
#include <stddef.h>
#include <stdint.h>
#include <stdlib.h>
#include <sys/mman.h>
#include <sys/syscall.h>
#include <unistd.h>

struct told {
    /* the first growth that is refused, from 1; 0 for none */
    uint64_t refused;
    /* the last one that is refused */
    uint64_t until;
    /* growths that were asked for, and their bytes */
    _Atomic uint64_t growths;
    _Atomic uint64_t bytes;
};

extern void *__libc_malloc(size_t);
extern void *__libc_calloc(size_t, size_t);
extern void *__libc_realloc(void *, size_t);
extern void *__libc_memalign(size_t, size_t);

static struct told *told;

__attribute__((constructor)) static void begin(void)
{
    const char *path = getenv("GROWTHS");
    if (!path)
        return;
    int file = open(path, O_RDWR);
    if (file < 0)
        return;
    void *at = (void *)syscall(SYS_mmap, NULL, sizeof *told, PROT_READ | PROT_WRITE, MAP_SHARED, file, 0);
    close(file);
    if (at != MAP_FAILED)
        told = at;
}

/* Counts a growth by so many bytes, and says whether it is refused. */
static int is_refused(size_t bytes)
{
    if (!told)
        return 0;
    told->bytes += bytes;
    uint64_t number = ++told->growths;
    if (told->refused == 0 || number < told->refused || number > told->until)
        return 0;
    errno = ENOMEM;
    return 1;
}

void *malloc(size_t bytes)
{
    return is_refused(bytes) ? NULL : __libc_malloc(bytes);
}

void *calloc(size_t count, size_t bytes)
{
    return is_refused(count * bytes) ? NULL : __libc_calloc(count, bytes);
}

void *realloc(void *old, size_t bytes)
{
    return bytes != 0 && is_refused(bytes) ? NULL : __libc_realloc(old, bytes);
}

void *aligned_alloc(size_t alignment, size_t bytes)
{
    return is_refused(bytes) ? NULL : __libc_memalign(alignment, bytes);
}

int posix_memalign(void **to, size_t alignment, size_t bytes)
{
    void *at = is_refused(bytes) ? NULL : __libc_memalign(alignment, bytes);
    if (!at)
        return ENOMEM;
    *to = at;
    return 0;
}

void *mmap(void *at, size_t bytes, int protection, int flags, int file, off_t offset)
{
    if (is_refused(bytes))
        return MAP_FAILED;
    return (void *)syscall(SYS_mmap, at, bytes, protection, flags, file, offset);
}
