// A library to run a program with (LD_PRELOAD), which refuses it one growth of its memory.
//
// REFUSED is the number of that growth, from 1 on; 0 refuses none. The number of growths that the
// program asked for is kept in the first 8 bytes of the file that COUNTED names; the next 8 have what
// that number was when the program first sent or received a datagram, or -1 where it did neither.
#include <errno.h>
#include <fcntl.h>
#include <stdint.h>
#include <stdlib.h>
#include <sys/mman.h>
#include <sys/socket.h>
#include <sys/syscall.h>
#include <unistd.h>

extern void *__libc_malloc(size_t);
extern void *__libc_calloc(size_t, size_t);
extern void *__libc_realloc(void *, size_t);

static int64_t uncounted[2];
static int64_t *count = uncounted;
static int64_t refused;

__attribute__((constructor)) static void begin(void) {
    const char *number = getenv("REFUSED");
    const char *name = getenv("COUNTED");
    int file = name ? open(name, O_RDWR) : -1;
    refused = number ? atoll(number) : 0;
    if (file >= 0) {
        void *kept = mmap(NULL, 16, PROT_READ | PROT_WRITE, MAP_SHARED, file, 0);
        if (kept != MAP_FAILED)
            count = kept;
        close(file);
    }
    count[0] = 0;
    count[1] = -1;
}

static int is_refused(void) {
    count[0] += 1;
    if (count[0] != refused)
        return 0;
    errno = ENOMEM;
    return 1;
}

void *malloc(size_t size) { return is_refused() ? NULL : __libc_malloc(size); }

void *calloc(size_t number, size_t size) { return is_refused() ? NULL : __libc_calloc(number, size); }

void *realloc(void *block, size_t size) { return is_refused() ? NULL : __libc_realloc(block, size); }

static void mark(void) {
    if (count[1] < 0)
        count[1] = count[0];
}

ssize_t sendto(int at, const void *bytes, size_t length, int flags, const struct sockaddr *to, socklen_t size) {
    mark();
    return syscall(SYS_sendto, at, bytes, length, flags, to, size);
}

ssize_t recvfrom(int at, void *bytes, size_t length, int flags, struct sockaddr *from, socklen_t *size) {
    mark();
    return syscall(SYS_recvfrom, at, bytes, length, flags, from, size);
}
