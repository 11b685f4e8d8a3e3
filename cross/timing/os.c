/* What the kit's library `os` has in C, for a program that is compiled for timing on a machine for which the kit has no such
   code (see `native`). Only what a program that reads named files calls. */
#include <errno.h>
#include <fcntl.h>
#include <string.h>
#include <sys/types.h>

static size_t count;
static char **words;

/* glibc hands a program's arguments to what runs before main. */
__attribute__((constructor)) static void keep(int argc, char **argv)
{
    count = (size_t)argc;
    words = argv;
}

size_t rattle_arg_count(void)
{
    return count;
}

ssize_t rattle_arg(size_t i, unsigned char *buf, size_t room)
{
    if (i >= count)
        return -1;
    size_t length = strlen(words[i]);
    memcpy(buf, words[i], length < room ? length : room);
    return length <= room ? (ssize_t)length : -2;
}

int rattle_open_to_read(const char *path)
{
    return open(path, O_RDONLY | O_CLOEXEC);
}

int rattle_errno(void)
{
    return errno;
}

void rattle_set_errno(int error)
{
    errno = error;
}
