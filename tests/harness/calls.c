// A library to run a program with (LD_PRELOAD), which counts the program's calls of the allocator: each that
// asks for a block, resizes one or gives one back.
//
// The file that COUNTED names gets two numbers of 8 bytes for each read of standard input and each write to
// standard output, as far as there is room: 0 or 1, and how many calls had been made before it; behind the
// last of them there is a -1 where the file was filled with those.
#include <fcntl.h>
#include <stdint.h>
#include <stdlib.h>
#include <sys/mman.h>
#include <sys/stat.h>
#include <sys/syscall.h>
#include <unistd.h>

extern void *__libc_malloc(size_t);
extern void *__libc_calloc(size_t, size_t);
extern void *__libc_realloc(void *, size_t);
extern void *__libc_memalign(size_t, size_t);
extern void __libc_free(void *);

static int64_t calls;
static int64_t *notes;
static size_t room;

__attribute__((constructor)) static void begin(void) {
    const char *name = getenv("COUNTED");
    int file = name ? open(name, O_RDWR) : -1;
    struct stat told;
    if (file >= 0 && fstat(file, &told) == 0) {
        void *kept = mmap(NULL, told.st_size, PROT_READ | PROT_WRITE, MAP_SHARED, file, 0);
        if (kept != MAP_FAILED) {
            notes = kept;
            room = told.st_size / sizeof *notes / 2;
        }
        close(file);
    }
    calls = 0;
}

static void note(int file) {
    if (room == 0)
        return;
    *notes++ = file;
    *notes++ = calls;
    room -= 1;
}

void *malloc(size_t size) {
    calls += 1;
    return __libc_malloc(size);
}

void *calloc(size_t number, size_t size) {
    calls += 1;
    return __libc_calloc(number, size);
}

void *realloc(void *block, size_t size) {
    calls += 1;
    return __libc_realloc(block, size);
}

void *memalign(size_t alignment, size_t size) {
    calls += 1;
    return __libc_memalign(alignment, size);
}

void *aligned_alloc(size_t alignment, size_t size) { return memalign(alignment, size); }

int posix_memalign(void **block, size_t alignment, size_t size) {
    *block = memalign(alignment, size);
    return *block ? 0 : 12;
}

void free(void *block) {
    calls += 1;
    __libc_free(block);
}

ssize_t read(int file, void *bytes, size_t length) {
    if (file == 0)
        note(file);
    return syscall(SYS_read, file, bytes, length);
}

ssize_t write(int file, const void *bytes, size_t length) {
    if (file == 1)
        note(file);
    return syscall(SYS_write, file, bytes, length);
}
