/* A library to be loaded in front of the C library's `read`: each read of one file moves so many bytes at most, and the
 * read of a given number fails, or finds the end of the file.
 *
 * The file that READS names is shared with whoever started the program, and holds a `struct told`. */
#include <errno.h>
#include <fcntl.h>
#include <stddef.h>
#include <stdint.h>
#include <stdlib.h>
#include <sys/mman.h>
#include <sys/stat.h>
#include <sys/syscall.h>
#include <unistd.h>

enum { FAILS = 1, ENDS = 2 };

struct told {
    /* the number by which the file system knows the file */
    uint64_t file;
    /* bytes that a read of it moves at most; 0 for as many as the program asks for */
    uint64_t most;
    /* the read that does not read, from 1; 0 for none */
    uint64_t number;
    /* how it ends: FAILS or ENDS */
    uint64_t how;
    /* reads of the file */
    uint64_t reads;
    /* bytes of the file that were read before that one */
    uint64_t before;
};

static struct told *told;

__attribute__((constructor)) static void begin(void)
{
    const char *path = getenv("READS");
    if (!path)
        return;
    int file = open(path, O_RDWR);
    if (file < 0)
        return;
    void *at = mmap(NULL, sizeof *told, PROT_READ | PROT_WRITE, MAP_SHARED, file, 0);
    close(file);
    if (at != MAP_FAILED)
        told = at;
}

/* Whether a descriptor is of the file. */
static int is_told(int file)
{
    struct stat found;
    return told && fstat(file, &found) == 0 && found.st_ino == told->file;
}

ssize_t read(int file, void *to, size_t bytes)
{
    if (!is_told(file))
        return syscall(SYS_read, file, to, bytes);
    if (++told->reads == told->number) {
        told->before = lseek(file, 0, SEEK_CUR);
        if (told->how == ENDS)
            return 0;
        errno = EIO;
        return -1;
    }
    return syscall(SYS_read, file, to, told->most != 0 && bytes > told->most ? told->most : bytes);
}
