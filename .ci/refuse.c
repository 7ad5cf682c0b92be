/* Lets requests for memory be refused, those of a program that is started with this library loaded before the C library's:
 *   cc -shared -fPIC -O1 -o refuse.so refuse.c
 *   LD_PRELOAD=./refuse.so REFUSE_FROM=N REFUSE_TO=N REFUSE_AGAIN=N REFUSE_TOLD=FILE program ..
 * Requests are counted from 1, those of all threads together, from where `main` begins to where it returns. Those from
 * REFUSE_FROM to REFUSE_TO and that of REFUSE_AGAIN answer null; what the loader and the C library ask for before and after
 * isn't counted. FILE holds the counts of requests and of those refused, eight bytes each, however the program ends. */
#define _GNU_SOURCE
#include <dlfcn.h>
#include <errno.h>
#include <fcntl.h>
#include <stdatomic.h>
#include <stddef.h>
#include <stdlib.h>
#include <sys/mman.h>
#include <unistd.h>

void *__libc_malloc(size_t);
void *__libc_calloc(size_t, size_t);
void *__libc_realloc(void *, size_t);
void *__libc_memalign(size_t, size_t);

struct counts {
    atomic_long asked, refused;
};

static atomic_int counting;
static struct counts *counts;
static long from, to, again;
static int (*program)(int, char **, char **);

static int refuse(void) {
    if (!counting) return 0;
    long number = ++counts->asked;
    if ((number < from || number > to) && number != again) return 0;
    counts->refused++;
    errno = ENOMEM;
    return 1;
}

void *malloc(size_t size) { return refuse() ? NULL : __libc_malloc(size); }
void *calloc(size_t count, size_t size) { return refuse() ? NULL : __libc_calloc(count, size); }
void *realloc(void *block, size_t size) { return refuse() ? NULL : __libc_realloc(block, size); }
void *memalign(size_t line, size_t size) { return refuse() ? NULL : __libc_memalign(line, size); }
void *aligned_alloc(size_t line, size_t size) { return memalign(line, size); }

int posix_memalign(void **block, size_t line, size_t size) {
    if (refuse()) return ENOMEM;
    *block = __libc_memalign(line, size);
    return *block ? 0 : ENOMEM;
}

static int counted(int count, char **words, char **environment) {
    if (!getenv("REFUSE_FROM") || !getenv("REFUSE_TO") || !getenv("REFUSE_AGAIN") || !getenv("REFUSE_TOLD")) _exit(99);
    int file = open(getenv("REFUSE_TOLD"), O_RDWR | O_CREAT | O_TRUNC, 0600);
    if (file < 0 || ftruncate(file, sizeof *counts)) _exit(99);
    counts = mmap(NULL, sizeof *counts, PROT_READ | PROT_WRITE, MAP_SHARED, file, 0);
    if (counts == MAP_FAILED || close(file)) _exit(99);
    from = atol(getenv("REFUSE_FROM"));
    to = atol(getenv("REFUSE_TO"));
    again = atol(getenv("REFUSE_AGAIN"));
    counting = 1;
    int status = program(count, words, environment);
    counting = 0;
    return status;
}

int __libc_start_main(int (*main)(int, char **, char **), int count, char **words, void (*init)(void), void (*fini)(void),
                      void (*loader_fini)(void), void *stack) {
    int (*start)(int (*)(int, char **, char **), int, char **, void (*)(void), void (*)(void), void (*)(void), void *) =
        (void *)dlsym(RTLD_NEXT, "__libc_start_main");
    program = main;
    return start(counted, count, words, init, fini, loader_fini, stack);
}
