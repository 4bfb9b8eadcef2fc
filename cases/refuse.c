// A library that is loaded in front of the C library, and refuses a program one call:
//
//   LD_PRELOAD=refuse.so REFUSE_KIND=KIND REFUSE_NUMBER=N REFUSED=FILE PROGRAM WORD..
//
// Of the calls of a kind the N-th fails, counted from 1, as it would where there is no memory or a device fails. FILE
// is made where that call came. The file that STARTED names gets a byte for each thread that was started. KIND is one of
// these, by its first letter:
//
//   memory     malloc, calloc, realloc
//   input      read of standard input
//   output     write, writev on standard output
//   frames     open, flock and ftruncate of mrpc.wire, and write, writev on it
//   links      socket, bind, listen, connect, accept, accept4: what opens a connection
//   sends      write, writev, send on a socket
//   receives   read, recv of a socket
#define _GNU_SOURCE
#include <dlfcn.h>
#include <errno.h>
#include <fcntl.h>
#include <pthread.h>
#include <stdarg.h>
#include <stddef.h>
#include <stdlib.h>
#include <string.h>
#include <sys/socket.h>
#include <sys/stat.h>
#include <sys/syscall.h>
#include <sys/uio.h>
#include <unistd.h>

void *__libc_malloc(size_t);
void *__libc_calloc(size_t, size_t);
void *__libc_realloc(void *, size_t);

static char kind;
static long left;
static const char *mark, *threads;

// What the loader and the C library allocate before isn't the program's.
__attribute__((constructor)) static void begin(void) {
    const char *number = getenv("REFUSE_NUMBER"), *which = getenv("REFUSE_KIND");
    mark = getenv("REFUSED");
    left = number ? atol(number) : 0;
    kind = which && mark ? which[0] : 0;
    threads = getenv("STARTED");
}

static void append(const char *path, size_t count) {
    long file = syscall(SYS_openat, AT_FDCWD, path, O_WRONLY | O_CREAT | O_APPEND, 0600);
    if (file < 0) return;
    syscall(SYS_write, file, "x", count);
    syscall(SYS_close, file);
}

static int is_refused(char which, int error) {
    if (which != kind || __atomic_sub_fetch(&left, 1, __ATOMIC_RELAXED) != 0) return 0;
    append(mark, 0);
    errno = error;
    return 1;
}

void *malloc(size_t size) {
    return is_refused('m', ENOMEM) ? NULL : __libc_malloc(size);
}

void *calloc(size_t count, size_t size) {
    return is_refused('m', ENOMEM) ? NULL : __libc_calloc(count, size);
}

void *realloc(void *old, size_t size) {
    return is_refused('m', ENOMEM) ? NULL : __libc_realloc(old, size);
}

int pthread_create(pthread_t *thread, const pthread_attr_t *how, void *(*body)(void *), void *given) {
    int (*create)(pthread_t *, const pthread_attr_t *, void *(*)(void *), void *) = dlsym(RTLD_NEXT, "pthread_create");
    int error = create(thread, how, body, given);
    if (error == 0 && threads) append(threads, 1);
    return error;
}

static int is_socket(int file) {
    struct stat about;
    return fstat(file, &about) == 0 && S_ISSOCK(about.st_mode);
}

static int is_read_refused(int file) {
    if (file == STDIN_FILENO) return is_refused('i', EIO);
    return kind == 'r' && is_socket(file) && is_refused('r', ECONNRESET);
}

ssize_t read(int file, void *bytes, size_t count) {
    return is_read_refused(file) ? -1 : syscall(SYS_read, file, bytes, count);
}

ssize_t recv(int file, void *bytes, size_t count, int flags) {
    return is_read_refused(file) ? -1 : syscall(SYS_recvfrom, file, bytes, count, flags, NULL, NULL);
}

static int is_write_refused(int file) {
    if (file == STDOUT_FILENO) return is_refused('o', ENOSPC);
    if (kind == 's') return is_socket(file) && is_refused('s', ECONNRESET);
    return kind == 'f' && file > STDERR_FILENO && !is_socket(file) && is_refused('f', ENOSPC);
}

ssize_t write(int file, const void *bytes, size_t count) {
    return is_write_refused(file) ? -1 : syscall(SYS_write, file, bytes, count);
}

ssize_t writev(int file, const struct iovec *parts, int count) {
    return is_write_refused(file) ? -1 : syscall(SYS_writev, file, parts, count);
}

ssize_t send(int file, const void *bytes, size_t count, int flags) {
    return is_write_refused(file) ? -1 : syscall(SYS_sendto, file, bytes, count, flags, NULL, 0);
}

int socket(int family, int type, int protocol) {
    return is_refused('l', EMFILE) ? -1 : syscall(SYS_socket, family, type, protocol);
}

int bind(int file, const struct sockaddr *address, socklen_t length) {
    return is_refused('l', EADDRINUSE) ? -1 : syscall(SYS_bind, file, address, length);
}

int listen(int file, int most) {
    return is_refused('l', EADDRINUSE) ? -1 : syscall(SYS_listen, file, most);
}

int connect(int file, const struct sockaddr *address, socklen_t length) {
    return is_refused('l', ECONNREFUSED) ? -1 : syscall(SYS_connect, file, address, length);
}

int accept4(int file, struct sockaddr *address, socklen_t *length, int flags) {
    return is_refused('l', EMFILE) ? -1 : syscall(SYS_accept4, file, address, length, flags);
}

int accept(int file, struct sockaddr *address, socklen_t *length) {
    return accept4(file, address, length, 0);
}

int open(const char *path, int flags, ...) {
    va_list more;
    va_start(more, flags);
    int mode = flags & (O_CREAT | O_TMPFILE) ? va_arg(more, int) : 0;
    va_end(more);
    if (strstr(path, "mrpc.wire") && is_refused('f', EACCES)) return -1;
    return syscall(SYS_openat, AT_FDCWD, path, flags, mode);
}

int flock(int file, int how) {
    return is_refused('f', EWOULDBLOCK) ? -1 : syscall(SYS_flock, file, how);
}

int ftruncate(int file, off_t length) {
    return is_refused('f', EIO) ? -1 : syscall(SYS_ftruncate, file, length);
}
