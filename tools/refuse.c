/* For LD_PRELOAD, by the script tools/sweeps: has something refused to a program, as the environment says, and tells at
   its end what was done.

   REFUSED_START: the number of a start of a thread, counted from 1; where a `+` follows, those behind it are refused
   too.
   REFUSED_READ: how many bytes standard input gives before one read fails; it goes on behind that. READ_PIECE: how many
   a read gives at the most.
   REFUSED_OPEN, REFUSED_FILE_READ: the number of an open by a path with no slash in front, and of a read of another file
   than standard input, counted from 1, that fails; where a `-` stands before that of an open, for want of memory.
   REFUSED_WRITE: how many bytes standard output takes, one a write, before it fails; where a `-` stands before the
   number, before it takes nothing.
   REFUSED_SYNC: the name of a file; while it is there, each sync of data fails.
   REFUSED_CALL: the name of a call of the system, which of these is refused, counted from 1, and how: by that number of
   errno, or, where that is 0, it goes through by half; where `+N` follows, N calls on files behind it fail, too.
   REFUSED_ALLOCATION: the number of an allocation, counted from 1; none is refused where it is 0. A program that `rt
   try --fail-alloc N` built counts its allocations, and refuses the one that it counts as N. COUNTER is that N and,
   behind a `:`, where the count stands in the program; so it is set here, once where the program begins, or, with
   MARKED, each time that it writes the line `begin` to standard error. Where it writes `end` no more are refused.
   A program that answers HTTP is told by a field `Refuse` of a request what is refused from there on, and nothing else
   any more: `allocation N`, or words as of REFUSED_CALL.
   CALLS is a file that gets a line for each call of the system that can be refused: its name, its descriptor, what it
   answered, where it wrote, read or cut, how many allocations were made since REFUSED_ALLOCATION was set, and the path;
   and a line `refuse` for each such field.

   TOLD is a file that gets a line at the end: the allocations that were made (with MARKED: between `begin` and `end`),
   and how many threads were started, how many refused, and of how many the handle was given up: they were joined, or
   let go; and how much memory the program held at the most, in KB. A thread is let go by itself, a moment after its
   scope was told that it has ended; so the end of the program waits for that, two seconds at most. */
#define _GNU_SOURCE
#include <dlfcn.h>
#include <errno.h>
#include <fcntl.h>
#include <link.h>
#include <pthread.h>
#include <stdarg.h>
#include <stdio.h>
#include <stdlib.h>
#include <string.h>
#include <sys/epoll.h>
#include <sys/socket.h>
#include <sys/stat.h>
#include <sys/syscall.h>
#include <unistd.h>

typedef int Create(pthread_t *, const pthread_attr_t *, void *(*)(void *), void *);
typedef int Join(pthread_t, void **);
typedef int Detach(pthread_t);

static int started, refused, given_up, told;

/* The count of allocations, at which one is refused, what it begins with, and how many were made in calls that are
   over. */
static long *count, refusing, first, made;
static char *marked;

/* Which call is refused, how many of that name were made, and how many on files fail behind it. */
static char refused_call[100];
static long asked, failing;

static size_t read_bytes, written_bytes;
static int read_failed;

static int find_program(struct dl_phdr_info *info, size_t size, void *base) {
    (void)size;
    *(char **)base = (char *)info->dlpi_addr;
    return 1;
}

static void begin(void) {
    if (count) __atomic_store_n(count, first, __ATOMIC_SEQ_CST);
}

/* From here on this allocation is refused, or none. */
static void set_refused(long number) {
    first = number ? refusing - number : 0;
    if (!marked) begin();
}

static void end(void) {
    if (count) made += __atomic_exchange_n(count, 0, __ATOMIC_SEQ_CST) - first;
}

__attribute__((constructor)) static void set_count(void) {
    char *word = getenv("COUNTER"), *number = getenv("REFUSED_ALLOCATION"), *call = getenv("REFUSED_CALL"), *base = 0;
    marked = getenv("MARKED");
    if (call) snprintf(refused_call, sizeof refused_call, "%s", call);
    if (!word || !number) return;
    char *place;
    refusing = strtol(word, &place, 10);
    dl_iterate_phdr(find_program, &base);
    count = (long *)(base + strtol(place + 1, 0, 16));
    set_refused(atol(number));
}

int pthread_create(pthread_t *thread, const pthread_attr_t *attr, void *(*run)(void *), void *argument) {
    static int asked;
    const char *word = getenv("REFUSED_START");
    int number = __atomic_add_fetch(&asked, 1, __ATOMIC_SEQ_CST);
    if (word && (number == atoi(word) || (strchr(word, '+') && number > atoi(word)))) {
        __atomic_add_fetch(&refused, 1, __ATOMIC_SEQ_CST);
        return EAGAIN;
    }
    int answer = ((Create *)dlsym(RTLD_NEXT, "pthread_create"))(thread, attr, run, argument);
    if (answer == 0) __atomic_add_fetch(&started, 1, __ATOMIC_SEQ_CST);
    return answer;
}

int pthread_join(pthread_t thread, void **value) {
    int answer = ((Join *)dlsym(RTLD_NEXT, "pthread_join"))(thread, value);
    if (answer == 0) __atomic_add_fetch(&given_up, 1, __ATOMIC_SEQ_CST);
    return answer;
}

int pthread_detach(pthread_t thread) {
    int answer = ((Detach *)dlsym(RTLD_NEXT, "pthread_detach"))(thread);
    if (answer == 0) __atomic_add_fetch(&given_up, 1, __ATOMIC_SEQ_CST);
    return answer;
}

/* One thread alone reads standard input, and one writes standard output. */
ssize_t read(int file, void *bytes, size_t room) {
    static int file_reads;
    const char *at = getenv("REFUSED_READ"), *piece = getenv("READ_PIECE"), *number = getenv("REFUSED_FILE_READ");
    if (file != 0 && number && __atomic_add_fetch(&file_reads, 1, __ATOMIC_SEQ_CST) == atoi(number)) return errno = EIO, -1;
    if (file != 0 || (!at && !piece)) return syscall(SYS_read, file, bytes, room);
    if (piece && room > strtoul(piece, 0, 10)) room = strtoul(piece, 0, 10);
    if (at && !read_failed) {
        size_t left = strtoul(at, 0, 10) - read_bytes;
        if (left == 0 && room > 0) return read_failed = 1, errno = EIO, -1;
        if (room > left) room = left;
    }
    ssize_t got = syscall(SYS_read, file, bytes, room);
    if (got > 0) read_bytes += got;
    return got;
}

ssize_t write(int file, const void *bytes, size_t size) {
    const char *at = getenv("REFUSED_WRITE");
    if (file == 2 && marked && size == 6 && !memcmp(bytes, "begin\n", 6)) return begin(), size;
    if (file == 2 && marked && size == 4 && !memcmp(bytes, "end\n", 4)) return end(), size;
    if (file != 1 || !at || size == 0) return syscall(SYS_write, file, bytes, size);
    if (written_bytes == strtoul(at + (*at == '-'), 0, 10)) return *at == '-' ? 0 : (errno = EIO, -1);
    written_bytes++;
    return syscall(SYS_write, file, bytes, 1);
}

/* By which number of errno a call fails, HALF where it goes through by half, 0 where it isn't refused. A program of
   which one is refused makes them in one thread. */
enum { HALF = -1 };

static int refusal(const char *name, int of_files) {
    char *how = refused_call + strlen(name);
    if (failing > 0 && of_files) return failing--, EIO;
    if (strncmp(refused_call, name, how - refused_call) || *how != ' ') return 0;
    if (++asked != strtol(how, &how, 10)) return 0;
    long number = strtol(how, &how, 10);
    failing = *how == '+' ? atol(how) : 0;
    return number ? number : HALF;
}

/* An answer, of which CALLS gets a line. */
static long say(const char *name, int file, long answer, long at, const char *path) {
    static int calls;
    const char *to = getenv("CALLS");
    int number = errno;
    char line[5000];
    if (!to) return answer;
    if (!calls) calls = syscall(SYS_openat, AT_FDCWD, to, O_WRONLY | O_CREAT | O_APPEND | O_CLOEXEC, 0644);
    int size = snprintf(line, sizeof line, "%s %d %ld %ld %ld %s\n", name, file, answer < 0 ? -number : answer, at,
        count ? __atomic_load_n(count, __ATOMIC_SEQ_CST) - first : 0, path);
    if (syscall(SYS_write, calls, line, size) != size) abort();
    errno = number;
    return answer;
}

#define CALL(name, of_files, parameters, file, at, path, ...) \
    int name parameters { \
        int number = refusal(#name, of_files); \
        return say(#name, file, number ? (errno = number, -1) : syscall(__VA_ARGS__), at, path); \
    }

#define CALL_OF_BYTES(name, of_files, parameters, at, ...) \
    ssize_t name parameters { \
        int number = refusal(#name, of_files); \
        if (number == HALF) size = (size + 1) / 2; \
        return say(#name, file, number > 0 ? (errno = number, -1) : syscall(__VA_ARGS__), at, ""); \
    }

CALL(mkdir, 1, (const char *path, mode_t mode), -1, 0, path, SYS_mkdirat, AT_FDCWD, path, mode)
CALL(flock, 1, (int file, int how), file, 0, "", SYS_flock, file, how)
CALL(fsync, 1, (int file), file, 0, "", SYS_fsync, file)
CALL(ftruncate, 1, (int file, off_t at), file, at, "", SYS_ftruncate, file, at)
CALL(statx, 1, (int file, const char *restrict path, int how, unsigned mask, struct statx *restrict to), file, 0, path,
    SYS_statx, file, path, how, mask, to)
CALL(socket, 0, (int domain, int type, int protocol), -1, 0, "", SYS_socket, domain, type, protocol)
CALL(setsockopt, 0, (int file, int level, int name, const void *from, socklen_t size), file, 0, "", SYS_setsockopt,
    file, level, name, from, size)
CALL(bind, 0, (int file, const struct sockaddr *from, socklen_t size), file, 0, "", SYS_bind, file, from, size)
CALL(listen, 0, (int file, int many), file, 0, "", SYS_listen, file, many)
CALL(accept4, 0, (int file, struct sockaddr *to, socklen_t *size, int how), file, 0, "", SYS_accept4, file, to, size,
    how)
CALL(epoll_create1, 0, (int how), -1, 0, "", SYS_epoll_create1, how)
CALL(epoll_ctl, 0, (int file, int how, int of, struct epoll_event *event), file, of, "", SYS_epoll_ctl, file, how, of,
    event)
CALL(epoll_wait, 0, (int file, struct epoll_event *to, int most, int time), file, 0, "", SYS_epoll_pwait, file, to,
    most, time, 0, 8)
CALL_OF_BYTES(getdents64, 1, (int file, void *to, size_t size), 0, SYS_getdents64, file, to, size)
CALL_OF_BYTES(pread, 1, (int file, void *to, size_t size, off_t at), at, SYS_pread64, file, to, size, at)
CALL_OF_BYTES(pwrite, 1, (int file, const void *from, size_t size, off_t at), at, SYS_pwrite64, file, from, size, at)
CALL_OF_BYTES(send, 0, (int file, const void *from, size_t size, int how), 0, SYS_sendto, file, from, size, how, 0, 0)

static int open_refusal(const char *path) {
    static int opened;
    const char *word = getenv("REFUSED_OPEN");
    if (word && *path != '/' && ++opened == abs(atoi(word))) return *word == '-' ? ENOMEM : EACCES;
    return refusal("open", 1);
}

static int open_at(int at, const char *path, int how, va_list more) {
    mode_t mode = how & O_CREAT ? va_arg(more, mode_t) : 0;
    int number = open_refusal(path);
    int file = number ? (errno = number, -1) : syscall(SYS_openat, at, path, how, mode);
    return say("open", -1, file, how & O_CREAT, path);
}

int open(const char *path, int how, ...) {
    va_list more;
    va_start(more, how);
    int file = open_at(AT_FDCWD, path, how, more);
    va_end(more);
    return file;
}

int openat(int at, const char *path, int how, ...) {
    va_list more;
    va_start(more, how);
    int file = open_at(at, path, how, more);
    va_end(more);
    return file;
}

int ioctl(int file, unsigned long what, ...) {
    va_list more;
    va_start(more, what);
    int number = refusal("ioctl", 0);
    int answer = number ? (errno = number, -1) : syscall(SYS_ioctl, file, what, va_arg(more, void *));
    va_end(more);
    return say("ioctl", file, answer, 0, "");
}

int getentropy(void *to, size_t size) {
    int number = refusal("getentropy", 0);
    long got = number ? (errno = number, -1) : syscall(SYS_getrandom, to, size, 0);
    return say("getentropy", -1, got < 0 ? -1 : 0, 0, "");
}

int fdatasync(int file) {
    const char *name = getenv("REFUSED_SYNC");
    int number = name && access(name, F_OK) == 0 ? EIO : refusal("fdatasync", 1);
    return say("fdatasync", file, number ? (errno = number, -1) : syscall(SYS_fdatasync, file), 0, "");
}

/* What a request says that is refused. */
static void hear(const char *from, size_t size) {
    const char *field = memmem(from, size, "\r\nRefuse: ", 10), *end;
    if (!field || !(end = memchr(field + 10, '\r', from + size - field - 10))) return;
    snprintf(refused_call, sizeof refused_call, "%.*s", (int)(end - field - 10), field + 10);
    asked = failing = 0;
    set_refused(strncmp(refused_call, "allocation ", 11) ? 0 : atol(refused_call + 11));
    say("refuse", -1, 0, 0, refused_call);
}

ssize_t recv(int file, void *to, size_t size, int how) {
    int number = refusal("recv", 0);
    long got = number ? (errno = number, -1) : syscall(SYS_recvfrom, file, to, size, how, 0, 0);
    if (got > 0) hear(to, got);
    return say("recv", file, got, 0, "");
}

static long peak(void) {
    char text[4096] = "", *place;
    int file = open("/proc/self/status", O_RDONLY);
    if (file < 0 || syscall(SYS_read, file, text, sizeof text - 1) < 0) abort();
    close(file);
    place = strstr(text, "VmHWM:");
    return place ? atol(place + 6) : 0;
}

__attribute__((destructor)) static void tell(void) {
    if (told++) return;
    for (int turns = 0; turns < 2000; turns++) {
        if (__atomic_load_n(&started, __ATOMIC_SEQ_CST) == __atomic_load_n(&given_up, __ATOMIC_SEQ_CST)) break;
        usleep(1000);
    }
    const char *name = getenv("TOLD");
    if (!name) return;
    if (!marked) end();
    char line[100];
    int size = snprintf(line, sizeof line, "%ld %d %d %d %ld\n", made, started, refused, given_up, peak());
    int file = open(name, O_WRONLY | O_CREAT | O_TRUNC, 0644);
    if (file < 0 || syscall(SYS_write, file, line, size) != size) abort();
    close(file);
}

void _exit(int status) {
    tell();
    syscall(SYS_exit_group, status);
    __builtin_unreachable();
}
