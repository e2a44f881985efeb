// A library to run a program with (LD_PRELOAD) that notes what the program writes and sends, in its
// order.
//
// ORDER names the file of the notes, a line for each call that was made: `sent`, or `wrote FILE` and
// the bytes up to the first LF, of files that are standard output or are beyond standard error.
#include <fcntl.h>
#include <stdio.h>
#include <stdlib.h>
#include <string.h>
#include <sys/socket.h>
#include <sys/syscall.h>
#include <unistd.h>

static void note(const char *line, int length) {
    static int notes = -1;
    if (notes < 0) {
        notes = open(getenv("ORDER"), O_WRONLY | O_CREAT | O_APPEND | O_CLOEXEC, 0600);
    }
    syscall(SYS_write, notes, line, length);
}

ssize_t sendto(int at, const void *bytes, size_t length, int flags, const struct sockaddr *to, socklen_t size) {
    ssize_t sent = syscall(SYS_sendto, at, bytes, length, flags, to, size);
    note("sent\n", 5);
    return sent;
}

ssize_t write(int file, const void *bytes, size_t length) {
    char line[256];
    ssize_t written = syscall(SYS_write, file, bytes, length);
    if (file == 1 || file > 2) {
        const char *end = memchr(bytes, '\n', length);
        int shown = end ? (int)(end - (const char *)bytes) : (int)length;
        note(line, snprintf(line, sizeof line, "wrote %d %.*s\n", file, shown > 200 ? 200 : shown, (const char *)bytes));
    }
    return written;
}
