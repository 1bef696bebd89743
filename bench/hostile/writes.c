/* A library to be loaded in front of the C library's `write`: each write of standard output moves so many bytes at most,
 * and the write of a given number fails.
 *
 * The file that WRITES names is shared with whoever started the program, and holds a `struct told`. */
#include <errno.h>
#include <fcntl.h>
#include <stddef.h>
#include <stdint.h>
#include <stdlib.h>
#include <sys/mman.h>
#include <sys/syscall.h>
#include <unistd.h>

struct told {
    /* bytes that a write moves at most; 0 for as many as the program asks for */
    uint64_t most;
    /* the write that fails, from 1; 0 for none */
    uint64_t number;
    /* writes of standard output, by whichever thread */
    _Atomic uint64_t writes;
};

static struct told *told;

__attribute__((constructor)) static void begin(void)
{
    const char *path = getenv("WRITES");
    if (!path)
        return;
    int file = open(path, O_RDWR);
    if (file < 0)
        return;
    void *at = mmap(NULL, sizeof *told, PROT_READ | PROT_WRITE, MAP_SHARED, file, 0);
    close(file);
    if (at != MAP_FAILED)
        told = at;
}

ssize_t write(int file, const void *from, size_t bytes)
{
    if (!told || file != STDOUT_FILENO)
        return syscall(SYS_write, file, from, bytes);
    if (++told->writes == told->number) {
        errno = EIO;
        return -1;
    }
    return syscall(SYS_write, file, from, told->most != 0 && bytes > told->most ? told->most : bytes);
}
