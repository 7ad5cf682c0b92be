/* Tells how much memory a program holds that is its own, for one that is started with this library loaded before the C
 * library's:
 *   cc -shared -fPIC -O1 -o pages.so pages.c
 *   LD_PRELOAD=./pages.so PAGES_TOLD=FILE program ..
 * FILE holds the most bytes of anonymous pages that were seen, eight bytes, however the program ends. They are looked at before
 * memory is asked for, moved or given back, each time that it is a page or more and else each 64th time, and at each read and
 * write. So the pages of the program's file don't count, nor what was asked for and never written to. */
#define _GNU_SOURCE
#include <errno.h>
#include <fcntl.h>
#include <malloc.h>
#include <stdatomic.h>
#include <stdlib.h>
#include <string.h>
#include <sys/mman.h>
#include <unistd.h>

void *__libc_malloc(size_t);
void *__libc_calloc(size_t, size_t);
void *__libc_realloc(void *, size_t);
void *__libc_memalign(size_t, size_t);
void __libc_free(void *);
ssize_t __read(int, void *, size_t);
ssize_t __write(int, const void *, size_t);

static atomic_long here, *most = &here;
static atomic_uint calls;

static void look(void) {
    char text[2048];
    int kept = errno, file = open("/proc/self/smaps_rollup", O_RDONLY);
    size_t size = 0;
    for (ssize_t count; file >= 0 && (count = __read(file, text + size, sizeof text - 1 - size)) > 0;) size += count;
    if (file >= 0) close(file);
    text[size] = 0;
    char *line = strstr(text, "Anonymous:");
    long now = line ? 1024 * atol(line + strlen("Anonymous:")) : 0, before = *most;
    while (now > before && !atomic_compare_exchange_weak(most, &before, now)) {}
    errno = kept;
}

static void look_for(size_t size) {
    if (size >= 4096 || calls++ % 64 == 0) look();
}

static size_t size_of(void *block) { return block ? malloc_usable_size(block) : 0; }

void *malloc(size_t size) { return look_for(size), __libc_malloc(size); }
void *calloc(size_t count, size_t size) { return look_for(size), __libc_calloc(count, size); }
void *realloc(void *block, size_t size) { return look_for(size_of(block)), __libc_realloc(block, size); }
void *memalign(size_t line, size_t size) { return look_for(size), __libc_memalign(line, size); }
void *aligned_alloc(size_t line, size_t size) { return memalign(line, size); }
void free(void *block) { look_for(size_of(block)), __libc_free(block); }

int posix_memalign(void **block, size_t line, size_t size) {
    *block = memalign(line, size);
    return *block ? 0 : ENOMEM;
}

ssize_t read(int file, void *bytes, size_t size) {
    ssize_t count = __read(file, bytes, size);
    look();
    return count;
}

ssize_t write(int file, const void *bytes, size_t size) { return look(), __write(file, bytes, size); }

__attribute__((constructor)) static void start(void) {
    const char *name = getenv("PAGES_TOLD");
    int file = name ? open(name, O_RDWR | O_CREAT | O_TRUNC, 0600) : -1;
    if (file < 0 || ftruncate(file, sizeof *most)) _exit(99);
    void *told = mmap(NULL, sizeof *most, PROT_READ | PROT_WRITE, MAP_SHARED, file, 0);
    if (told == MAP_FAILED || close(file)) _exit(99);
    most = told;
    look();
}
