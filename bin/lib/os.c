/* The C functions of the toolchain's library `os` that the programs call, for a processor that the toolchain has them not for.
 *
 * Each does what libs/os/src/c.rt of the toolchain says of it, as the toolchain's own do on x86-64: the same flags of `open` too. Nothing
 * proves them, there or here (docs/TRUST.md). A program that comes to call another one of `os` does not link until it stands here. */
#define _GNU_SOURCE
#include <errno.h>
#include <fcntl.h>
#include <stddef.h>
#include <stdint.h>
#include <sys/types.h>

static int count;
static char **words;

/* glibc hands to every constructor what it hands to main */
__attribute__((constructor)) static void keep(int argc, char **argv)
{
    count = argc;
    words = argv;
}

size_t rattle_arg_count(void) { return (size_t)count; }

/* Argument i at the start of `to`, and its length; -1 where there is none, -2 where it does not fit, and then `to` is full. */
ssize_t rattle_arg(size_t i, unsigned char *to, size_t room)
{
    if (i >= (size_t)count || words[i] == NULL) return -1;
    size_t n = 0;
    for (; words[i][n] != '\0'; n++) {
        if (n == room) return -2;
        to[n] = (unsigned char)words[i][n];
    }
    return (ssize_t)n;
}

/* A descriptor, or -1 and the error's number. */
int32_t rattle_open_to_read(const char *path) { return open(path, O_RDONLY | O_NOCTTY | O_CLOEXEC); }

int32_t rattle_errno(void) { return errno; }

void rattle_set_errno(int32_t error) { errno = error; }
