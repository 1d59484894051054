/* Calls of the C library as a machine at fault makes them, loaded before it: what FAULT names is what goes wrong.
 *
 * It needs no header and no start of its own, so that it loads with the toolchain's C library whichever made it. */

typedef unsigned long size;
typedef long count;

#if defined(__aarch64__)
enum { READ = 63, WRITE = 64, CLOSE = 57, OPENAT = 56, FSTAT = 80, FSYNC = 82, FDATASYNC = 83 };
#else
enum { READ = 0, WRITE = 1, CLOSE = 3, OPENAT = 257, FSTAT = 5, FSYNC = 74, FDATASYNC = 75 };
#endif
enum { EINTR = 4, EIO = 5, EACCES = 13, ENOSPC = 28 };
enum { HERE = -100 };

extern int *__errno_location(void);
extern char *getenv(const char *);

static count asked_more(count call, count a, count b, count c, count d)
{
#if defined(__aarch64__)
    register count number __asm__("x8") = call, r __asm__("x0") = a, second __asm__("x1") = b, third __asm__("x2") = c, fourth __asm__("x3") = d;
    __asm__ volatile("svc 0" : "+r"(r) : "r"(number), "r"(second), "r"(third), "r"(fourth) : "memory");
#else
    register count fourth __asm__("r10") = d;
    count r;
    __asm__ volatile("syscall" : "=a"(r) : "a"(call), "D"(a), "S"(b), "d"(c), "r"(fourth) : "rcx", "r11", "memory");
#endif
    if (r >= 0) return r;
    *__errno_location() = (int)-r;
    return -1;
}

static count asked(count call, count a, count b, count c) { return asked_more(call, a, b, c, 0); }

static count fails(int error)
{
    *__errno_location() = error;
    return -1;
}

static int same(const char *a, const char *b)
{
    while (*a && *a == *b) a++, b++;
    return *a == *b;
}

static int is(const char *fault)
{
    const char *named = getenv("FAULT");
    return named && same(named, fault);
}

static size least(size a, size b) { return a < b ? a : b; }

count read(int fd, void *to, size room)
{
    static unsigned calls;
    calls++;
    if (is("pieces")) room = least(room, 1);
    if (is("signals") && calls % 2) return fails(EINTR);
    if (is("broken-read") && calls == 3) return fails(EIO);
    return asked(READ, fd, (count)to, (count)room);
}

count write(int fd, const void *from, size handed)
{
    static unsigned calls;
    if (fd == 2) return asked(WRITE, fd, (count)from, (count)handed);
    calls++;
    if (is("pieces")) handed = least(handed, 7);
    if (is("signals") && calls % 2) return fails(EINTR);
    if (is("signals")) handed = least(handed, 1000);
    if (is("broken-write") && calls == 1) handed = least(handed, 10);
    if (is("broken-write") && calls == 2) return fails(ENOSPC);
    if (is("no-headway") && fd == 1) return *__errno_location() = 0;
    return asked(WRITE, fd, (count)from, (count)handed);
}

int close(int fd)
{
    if (is("late") && fd == 1) return (int)fails(EIO);
    return (int)asked(CLOSE, fd, 0, 0);
}

/* Whether the descriptor is of the very file that standard output is: the device and the number come first in what fstat tells. */
static int is_output(int fd)
{
    size own[32], output[32];
    return asked(FSTAT, fd, (count)own, 0) == 0 && asked(FSTAT, 1, (count)output, 0) == 0 && own[0] == output[0] && own[1] == output[1];
}

/* A program that asks, before it ends, whether what it wrote is kept. */
int fdatasync(int fd)
{
    if (is("late") && is_output(fd)) return (int)fails(EIO);
    return (int)asked(FDATASYNC, fd, 0, 0);
}

int fsync(int fd)
{
    if (is("late") && is_output(fd)) return (int)fails(EIO);
    return (int)asked(FSYNC, fd, 0, 0);
}

/* Standard output may be a file that only the one who opened it may open. */
int open(const char *path, int how, int mode)
{
    if (is("unasked") && same(path, "/proc/self/fd/1")) return (int)fails(EACCES);
    return (int)asked_more(OPENAT, HERE, (count)path, how, mode);
}

/* The names by which the C library's own headers may have them called. */
count __read(int fd, void *to, size room) { return read(fd, to, room); }
count __write(int fd, const void *from, size handed) { return write(fd, from, handed); }
int __close(int fd) { return close(fd); }
