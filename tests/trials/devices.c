// Stands between a program and the C library, and makes the devices of a run: what the program reads from two files and writes
// to standard output comes and goes as it is told here, and memory is refused. It is loaded by LD_PRELOAD.
//
// The environment says what is to happen:
//
//     TRIAL_FIRST, TRIAL_SECOND          the paths of the two files, as the program opens them
//     TRIAL_FIRST_PIECE, .._SECOND_      a read gives at most so many bytes
//     TRIAL_FIRST_FAILS, .._SECOND_      the read with this number fails; the first has the number 1
//     TRIAL_PAGE_ROOM                    standard output takes so many bytes in all, and then none
//     TRIAL_PAGE_FAILS                   it then fails, where this is there
//     TRIAL_FIRST_INTERRUPTS, .._SECOND_, .._PAGE_
//                                        a signal interrupts so many calls before each one that gets through
//     TRIAL_REFUSED, TRIAL_REFUSED_FROM  the allocation with this number is refused, alone or with all after it; the first after
//                                        the first file was opened has the number 1
//     TRIAL_SECONDS                      a program that runs longer is ended
//     TRIAL_REPORT                       the file in which it says at the end what did happen
//
// A program may also give orders itself, by the size of an allocation that nobody would make: 2^62, and above it a word of
// 6 bits and a number of 56 bits. Such an allocation gets no memory; where it asks something, a block stands for yes.
#define _GNU_SOURCE
#include <errno.h>
#include <fcntl.h>
#include <stdarg.h>
#include <stdio.h>
#include <stdlib.h>
#include <string.h>
#include <sys/syscall.h>
#include <sys/uio.h>
#include <unistd.h>

void *__libc_malloc(size_t bytes);
void *__libc_calloc(size_t count, size_t bytes);
void *__libc_realloc(void *block, size_t bytes);

// ---- devices

static const long NO_END = 1L << 62;

// A file that is read, or standard output. `left` counts down the interruptions of the next call.
struct device {
    const char *path;
    int fd;
    long piece, fails_at;
    long room;
    int fails_when_full;
    long interrupts, left;
    long calls;
    int has_failed, has_taken_none;
};

static struct device first = {.fd = -1}, second = {.fd = -1}, page = {.fd = 1};

static long interruptions;

static struct device *reader_of(int fd) {
    if (fd < 0) {
        return 0;
    }
    return fd == first.fd ? &first : fd == second.fd ? &second : 0;
}

static int is_interrupted(struct device *device) {
    if (device->left == 0) {
        device->left = device->interrupts;
        return 0;
    }
    device->left--;
    interruptions++;
    errno = EINTR;
    return 1;
}

// How many bytes this read may ask for, or -1 where it does not get through.
static long asked(struct device *device, size_t bytes) {
    if (is_interrupted(device)) {
        return -1;
    }
    device->calls++;
    if (device->calls == device->fails_at) {
        device->has_failed = 1;
        errno = EIO;
        return -1;
    }
    return (long)bytes < device->piece ? (long)bytes : device->piece;
}

ssize_t read(int fd, void *buffer, size_t bytes) {
    struct device *device = reader_of(fd);
    if (!device) {
        return syscall(SYS_read, fd, buffer, bytes);
    }
    long count = asked(device, bytes);
    return count < 0 ? -1 : syscall(SYS_read, fd, buffer, count);
}

// How many bytes this write may take, or -1 where it does not get through.
static long taken(struct device *device, size_t bytes) {
    if (is_interrupted(device)) {
        return -1;
    }
    device->calls++;
    if (device->room == 0 && bytes > 0) {
        if (device->fails_when_full) {
            device->has_failed = 1;
            errno = EIO;
            return -1;
        }
        device->has_taken_none = 1;
        return 0;
    }
    return (long)bytes < device->room ? (long)bytes : device->room;
}

ssize_t write(int fd, const void *buffer, size_t bytes) {
    if (fd != page.fd) {
        return syscall(SYS_write, fd, buffer, bytes);
    }
    long count = taken(&page, bytes);
    if (count <= 0) {
        return count;
    }
    count = syscall(SYS_write, fd, buffer, count);
    page.room -= count > 0 ? count : 0;
    return count;
}

// Of several pieces the first with bytes is read or written: a call may give or take fewer than it was asked for.
static const struct iovec *first_piece(const struct iovec *pieces, int count) {
    int k = 0;
    while (k + 1 < count && pieces[k].iov_len == 0) {
        k++;
    }
    return &pieces[k];
}

ssize_t readv(int fd, const struct iovec *pieces, int count) {
    if (!reader_of(fd) || count < 1) {
        return syscall(SYS_readv, fd, pieces, count);
    }
    const struct iovec *piece = first_piece(pieces, count);
    return read(fd, piece->iov_base, piece->iov_len);
}

ssize_t writev(int fd, const struct iovec *pieces, int count) {
    if (fd != page.fd || count < 1) {
        return syscall(SYS_writev, fd, pieces, count);
    }
    const struct iovec *piece = first_piece(pieces, count);
    return write(fd, piece->iov_base, piece->iov_len);
}

// ---- memory

enum word {
    IS_THERE, // asks whether this stands here: yes
    STOP,     // asks whether an allocation was refused since the last order, and none is from here on
    ONE,      // from here on the nth allocation is refused
    FROM,     // from here on the nth and each after it
    WORDS
};

static const size_t ORDERS = 1UL << 62;

// What is refused, and how many allocations come before it. Threads of the program allocate side by side.
static _Atomic enum word order = STOP;
static _Atomic long before;
static _Atomic int has_refused, was_ever_refused;
static _Atomic int is_counting;
static _Atomic long allocations;

// What is refused once the first file is open.
static enum word first_order = STOP;
static long first_refused;

static int is_order(size_t bytes) {
    return bytes >= ORDERS && (bytes - ORDERS) >> 56 < WORDS;
}

static void begin(enum word word, long number) {
    order = STOP;
    has_refused = 0;
    before = number - 1;
    order = word;
}

static void *obey(size_t bytes) {
    enum word word = (bytes - ORDERS) >> 56;
    if (word == IS_THERE) {
        return __libc_malloc(1);
    }
    int refused = has_refused;
    begin(word, (long)(bytes & ((1UL << 56) - 1)));
    return word == STOP && refused ? __libc_malloc(1) : 0;
}

static int refuses(void) {
    if (is_counting) {
        allocations++;
    }
    enum word now = order;
    if (now == STOP) {
        return 0;
    }
    long left = before--;
    int refused = now == ONE ? left == 0 : left <= 0;
    if (refused) {
        has_refused = 1;
        was_ever_refused = 1;
        errno = ENOMEM;
    }
    return refused;
}

void *malloc(size_t bytes) {
    if (is_order(bytes)) {
        return obey(bytes);
    }
    return refuses() ? 0 : __libc_malloc(bytes);
}

void *calloc(size_t count, size_t bytes) {
    return refuses() ? 0 : __libc_calloc(count, bytes);
}

void *realloc(void *block, size_t bytes) {
    return refuses() ? 0 : __libc_realloc(block, bytes);
}

// ---- which files are meant

static void note(const char *path, int fd) {
    if (fd < 0) {
        return;
    }
    if (first.path && !strcmp(path, first.path)) {
        first.fd = fd;
        begin(first_order, first_refused);
        is_counting = 1;
    } else if (second.path && !strcmp(path, second.path)) {
        second.fd = fd;
    }
}

static int opened(int folder, const char *path, int flags, mode_t mode) {
    int fd = (int)syscall(SYS_openat, folder, path, flags, mode);
    note(path, fd);
    return fd;
}

// Where a file may be made, its mode follows.
#define MODE(flags)                                                                                                            \
    mode_t mode = 0;                                                                                                           \
    if ((flags) & (O_CREAT | O_TMPFILE)) {                                                                                     \
        va_list more;                                                                                                          \
        va_start(more, flags);                                                                                                 \
        mode = va_arg(more, mode_t);                                                                                           \
        va_end(more);                                                                                                          \
    }

int open(const char *path, int flags, ...) {
    MODE(flags)
    return opened(AT_FDCWD, path, flags, mode);
}

int open64(const char *path, int flags, ...) {
    MODE(flags)
    return opened(AT_FDCWD, path, flags, mode);
}

int openat(int folder, const char *path, int flags, ...) {
    MODE(flags)
    return opened(folder, path, flags, mode);
}

int openat64(int folder, const char *path, int flags, ...) {
    MODE(flags)
    return opened(folder, path, flags, mode);
}

int close(int fd) {
    struct device *device = reader_of(fd);
    if (device) {
        device->fd = -1;
    }
    return (int)syscall(SYS_close, fd);
}

// ---- the beginning and the end

static long number_of(const char *name, long otherwise) {
    const char *text = getenv(name);
    return text ? atol(text) : otherwise;
}

static void make_interrupts(struct device *device, const char *name) {
    device->interrupts = number_of(name, 0);
    device->left = device->interrupts;
}

__attribute__((constructor)) static void make(void) {
    alarm((unsigned)number_of("TRIAL_SECONDS", 0));
    first.path = getenv("TRIAL_FIRST");
    second.path = getenv("TRIAL_SECOND");
    first.piece = number_of("TRIAL_FIRST_PIECE", NO_END);
    second.piece = number_of("TRIAL_SECOND_PIECE", NO_END);
    first.fails_at = number_of("TRIAL_FIRST_FAILS", 0);
    second.fails_at = number_of("TRIAL_SECOND_FAILS", 0);
    page.room = number_of("TRIAL_PAGE_ROOM", NO_END);
    page.fails_when_full = getenv("TRIAL_PAGE_FAILS") != 0;
    make_interrupts(&first, "TRIAL_FIRST_INTERRUPTS");
    make_interrupts(&second, "TRIAL_SECOND_INTERRUPTS");
    make_interrupts(&page, "TRIAL_PAGE_INTERRUPTS");
    first_refused = number_of("TRIAL_REFUSED", 0);
    first_order = first_refused ? ONE : STOP;
    if (!first_refused) {
        first_refused = number_of("TRIAL_REFUSED_FROM", 0);
        first_order = first_refused ? FROM : STOP;
    }
}

// One line: of the first file, the second and standard output the calls that got through and whether one failed, whether
// standard output took none, the interruptions, the allocations, and whether one was refused.
__attribute__((destructor)) static void tell(void) {
    char line[256];
    const char *path = getenv("TRIAL_REPORT");
    if (!path) {
        return;
    }
    int length = snprintf(line, sizeof line, "%ld %d %ld %d %ld %d %d %ld %ld %d\n", first.calls, first.has_failed, second.calls,
                          second.has_failed, page.calls, page.has_failed, page.has_taken_none, interruptions, allocations,
                          was_ever_refused);
    int fd = (int)syscall(SYS_openat, AT_FDCWD, path, O_WRONLY | O_CREAT | O_TRUNC, 0600);
    syscall(SYS_write, fd, line, length);
    syscall(SYS_close, fd);
}

// A program of the kit ends by this call, and runs no destructors.
void _exit(int status) {
    tell();
    for (;;) {
        syscall(SYS_exit_group, status);
    }
}
