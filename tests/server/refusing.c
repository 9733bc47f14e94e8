/* Put before libc by LD_PRELOAD: refuses one call, and then writes a byte to the descriptor REFUSED_TO. Calls are
   counted from 1:
   - REFUSED_CALL: the calls of malloc and realloc, with REFUSED_FROM once there is a file of that name
   - REFUSED_READ, REFUSED_WRITE: the reads of standard input, and the writes to standard output, which fail with the
     number REFUSED_ERRNO
   - REFUSED_NODELAY: the settings of TCP_NODELAY, which is the first thing that is set on a client's socket
   - REFUSED_ACCEPT: the accepts that a client came to, which is closed; they fail with the number REFUSED_ERRNO
   - REFUSED_BIND, REFUSED_CONNECT: the calls of bind and connect, which fail with the number REFUSED_ERRNO
   - REFUSED_THREAD: the threads that are made
   With BYTE_BY_BYTE each of these reads and writes moves one byte. */
#define _GNU_SOURCE
#include <dlfcn.h>
#include <errno.h>
#include <netinet/tcp.h>
#include <pthread.h>
#include <stdlib.h>
#include <sys/socket.h>
#include <unistd.h>

static void *(*next_malloc)(size_t);
static void *(*next_realloc)(void *, size_t);
static ssize_t (*next_read)(int, void *, size_t);
static ssize_t (*next_write)(int, const void *, size_t);
static int (*next_setsockopt)(int, int, int, const void *, socklen_t);
static int (*next_accept)(int, struct sockaddr *, socklen_t *, int);
static int (*next_bind)(int, const struct sockaddr *, socklen_t);
static int (*next_connect)(int, const struct sockaddr *, socklen_t);
static int (*next_thread)(pthread_t *, const pthread_attr_t *, void *(*)(void *), void *);
static long calls_left, reads_left, writes_left, nodelays_left, accepts_left, binds_left, connects_left, threads_left;
static int told, fault_number, is_byte_by_byte;
static const char *from;

static long number_of(const char *name, long otherwise) {
    const char *text = getenv(name);
    return text ? atol(text) : otherwise;
}

__attribute__((constructor)) static void begin(void) {
    calls_left = number_of("REFUSED_CALL", 0);
    reads_left = number_of("REFUSED_READ", 0);
    writes_left = number_of("REFUSED_WRITE", 0);
    nodelays_left = number_of("REFUSED_NODELAY", 0);
    accepts_left = number_of("REFUSED_ACCEPT", 0);
    binds_left = number_of("REFUSED_BIND", 0);
    connects_left = number_of("REFUSED_CONNECT", 0);
    threads_left = number_of("REFUSED_THREAD", 0);
    told = number_of("REFUSED_TO", -1);
    fault_number = number_of("REFUSED_ERRNO", EIO);
    is_byte_by_byte = number_of("BYTE_BY_BYTE", 0);
    from = getenv("REFUSED_FROM");
}

/* Counts a call, and returns whether it is refused, with this errno. */
static int is_refused(long *left, int number) {
    if (*left == 0 || --*left > 0)
        return 0;
    if (write(told, "x", 1) != 1)
        abort();
    errno = number;
    return 1;
}

static int is_out_of_memory(void) {
    return calls_left > 0 && (!from || access(from, F_OK) == 0) && is_refused(&calls_left, ENOMEM);
}

static size_t shortened(size_t size) {
    return is_byte_by_byte && size > 1 ? 1 : size;
}

void *malloc(size_t size) {
    if (!next_malloc)
        next_malloc = (void *(*)(size_t))dlsym(RTLD_NEXT, "malloc");
    return is_out_of_memory() ? NULL : next_malloc(size);
}

void *realloc(void *old, size_t size) {
    if (!next_realloc)
        next_realloc = (void *(*)(void *, size_t))dlsym(RTLD_NEXT, "realloc");
    return is_out_of_memory() ? NULL : next_realloc(old, size);
}

ssize_t read(int file, void *bytes, size_t size) {
    if (!next_read)
        next_read = (ssize_t (*)(int, void *, size_t))dlsym(RTLD_NEXT, "read");
    if (file != STDIN_FILENO)
        return next_read(file, bytes, size);
    return is_refused(&reads_left, fault_number) ? -1 : next_read(file, bytes, shortened(size));
}

ssize_t write(int file, const void *bytes, size_t size) {
    if (!next_write)
        next_write = (ssize_t (*)(int, const void *, size_t))dlsym(RTLD_NEXT, "write");
    if (file != STDOUT_FILENO)
        return next_write(file, bytes, size);
    return is_refused(&writes_left, fault_number) ? -1 : next_write(file, bytes, shortened(size));
}

int setsockopt(int file, int level, int name, const void *value, socklen_t size) {
    if (!next_setsockopt)
        next_setsockopt = (int (*)(int, int, int, const void *, socklen_t))dlsym(RTLD_NEXT, "setsockopt");
    if (level != SOL_TCP || name != TCP_NODELAY)
        return next_setsockopt(file, level, name, value, size);
    return is_refused(&nodelays_left, fault_number) ? -1 : next_setsockopt(file, level, name, value, size);
}

int accept4(int file, struct sockaddr *address, socklen_t *size, int flags) {
    if (!next_accept)
        next_accept = (int (*)(int, struct sockaddr *, socklen_t *, int))dlsym(RTLD_NEXT, "accept4");
    int client = next_accept(file, address, size, flags);
    if (client < 0 || !is_refused(&accepts_left, fault_number))
        return client;
    close(client);
    errno = fault_number;
    return -1;
}

int bind(int file, const struct sockaddr *address, socklen_t size) {
    if (!next_bind)
        next_bind = (int (*)(int, const struct sockaddr *, socklen_t))dlsym(RTLD_NEXT, "bind");
    return is_refused(&binds_left, fault_number) ? -1 : next_bind(file, address, size);
}

int connect(int file, const struct sockaddr *address, socklen_t size) {
    if (!next_connect)
        next_connect = (int (*)(int, const struct sockaddr *, socklen_t))dlsym(RTLD_NEXT, "connect");
    return is_refused(&connects_left, fault_number) ? -1 : next_connect(file, address, size);
}

int pthread_create(pthread_t *thread, const pthread_attr_t *kind, void *(*run)(void *), void *argument) {
    if (!next_thread)
        next_thread = (int (*)(pthread_t *, const pthread_attr_t *, void *(*)(void *), void *))dlsym(
            RTLD_NEXT, "pthread_create");
    return is_refused(&threads_left, EAGAIN) ? EAGAIN : next_thread(thread, kind, run, argument);
}
