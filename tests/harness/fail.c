// A library to run a program with (LD_PRELOAD), whose calls of the system fail at times.
//
// FAILS has the failures, parted by blanks: `CALL FIRST LAST ERRNO` lets the calls FIRST to LAST (from 1)
// of CALL fail with that number of an error, without being made. CALL is sendto, recvfrom, read, write,
// epoll_wait or flock; of `read` and `write` those of standard input and output alone are counted. With 0
// in the place of ERRNO the call is made, with one byte less than it was given.
#include <errno.h>
#include <stdio.h>
#include <stdlib.h>
#include <string.h>
#include <sys/socket.h>
#include <sys/syscall.h>
#include <unistd.h>

enum call { SENDTO, RECVFROM, READ, WRITE, EPOLL_WAIT, FLOCK, CALLS };

static const char *const names[CALLS] = {"sendto", "recvfrom", "read", "write", "epoll_wait", "flock"};
static long made[CALLS];

enum outcome { PASSES, FAILS, IN_PART };

// Whether this call is one of those that fail; `errno` then says how.
static enum outcome outcome(enum call call) {
    const char *rest = getenv("FAILS");
    char name[16];
    long first, last;
    int error, length;
    made[call] += 1;
    while (rest && sscanf(rest, "%15s %ld %ld %d%n", name, &first, &last, &error, &length) == 4) {
        if (strcmp(name, names[call]) == 0 && first <= made[call] && made[call] <= last) {
            errno = error;
            return error ? FAILS : IN_PART;
        }
        rest += length;
    }
    return PASSES;
}

// Whether this call fails; `length` is how many bytes it is given.
static int fails(enum call call, size_t *length) {
    enum outcome found = outcome(call);
    *length -= found == IN_PART && *length > 1;
    return found == FAILS;
}

ssize_t sendto(int at, const void *bytes, size_t length, int flags, const struct sockaddr *to, socklen_t size) {
    return fails(SENDTO, &length) ? -1 : syscall(SYS_sendto, at, bytes, length, flags, to, size);
}

ssize_t recvfrom(int at, void *bytes, size_t length, int flags, struct sockaddr *from, socklen_t *size) {
    return fails(RECVFROM, &length) ? -1 : syscall(SYS_recvfrom, at, bytes, length, flags, from, size);
}

ssize_t read(int file, void *bytes, size_t length) {
    return file == 0 && fails(READ, &length) ? -1 : syscall(SYS_read, file, bytes, length);
}

ssize_t write(int file, const void *bytes, size_t length) {
    return file == 1 && fails(WRITE, &length) ? -1 : syscall(SYS_write, file, bytes, length);
}

struct epoll_event;

int epoll_wait(int at, struct epoll_event *events, int most, int wait) {
    return outcome(EPOLL_WAIT) == FAILS ? -1 : syscall(SYS_epoll_wait, at, events, most, wait);
}

int flock(int file, int operation) {
    return outcome(FLOCK) == FAILS ? -1 : syscall(SYS_flock, file, operation);
}
