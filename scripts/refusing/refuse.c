/* Refuses one call of a program that is linked dynamically with the GNU C library. It is put before that library by
 * LD_PRELOAD, and the program is built as it always is.
 *
 * REFUSE_RECORD names a file of sizeof(struct record) bytes, in which the calls are counted. It is mapped, so that it
 * says what happened also where the program was killed.
 * REFUSE_CALL is "growth", "read" or "write", REFUSE_NUMBER which one of them, from 1. REFUSE_WAY is "fail"; for a
 * read or a write also "one": it gets one byte; for a write also "none": it answers 0. Without REFUSE_CALL nothing
 * is refused.
 *
 * Calls are counted from the program's main on, and until it returns: what the loader and the C library ask for
 * before and after isn't the program's. For that the function that calls main is replaced, too. The counters serve one
 * thread.
 */
#define _GNU_SOURCE
#include <dlfcn.h>
#include <errno.h>
#include <fcntl.h>
#include <stdarg.h>
#include <stdint.h>
#include <stdlib.h>
#include <string.h>
#include <sys/mman.h>
#include <sys/syscall.h>
#include <unistd.h>

enum { GROWTH, READ, WRITE, CALLS };
enum { FAIL, ONE, NONE };
enum { NAME = 4096, DESCRIPTORS = 64, OUT = 1, ERR = 2 };

/* scripts/refusing/runs.py reads it by this layout. */
struct record {
    uint64_t started;       /* 1 once main was called */
    uint64_t counts[CALLS]; /* calls so far */
    uint64_t opens;         /* files that were to be opened so far, absent ones too */
    uint64_t refused;       /* 1 once the call was refused; what follows says how things stood then */
    uint64_t opens_before;
    uint64_t descriptor; /* of the refused read or write */
    uint64_t taken[2];   /* bytes that the output and the error output had taken */
    char name[NAME];     /* of the file of the refused read, as it was opened */
};

void *__libc_malloc(size_t);
void *__libc_calloc(size_t, size_t);
void *__libc_realloc(void *, size_t);
void *__libc_memalign(size_t, size_t);

static struct record *record;
static int counting;
static int refused_call = CALLS;
static int way = FAIL;
static uint64_t refused_number;
static uint64_t taken[2];
static char names[DESCRIPTORS][NAME];

/* Counts a call, and says whether it is the one to refuse. */
static int is_refused(int call, int descriptor)
{
    if (!counting)
        return 0;
    record->counts[call] += 1;
    if (call != refused_call || record->counts[call] != refused_number)
        return 0;
    record->refused = 1;
    record->opens_before = record->opens;
    record->descriptor = (uint64_t)descriptor;
    memcpy(record->taken, taken, sizeof taken);
    if (descriptor >= 0 && descriptor < DESCRIPTORS)
        memcpy(record->name, names[descriptor], NAME);
    return 1;
}

/* Counts a growth; one that is refused sets what the C library would set. */
static int is_refused_growth(void)
{
    if (!is_refused(GROWTH, 0))
        return 0;
    errno = ENOMEM;
    return 1;
}

void *malloc(size_t size)
{
    return is_refused_growth() ? NULL : __libc_malloc(size);
}

void *calloc(size_t count, size_t size)
{
    return is_refused_growth() ? NULL : __libc_calloc(count, size);
}

void *realloc(void *block, size_t size)
{
    return is_refused_growth() ? NULL : __libc_realloc(block, size);
}

void *aligned_alloc(size_t alignment, size_t size)
{
    return is_refused_growth() ? NULL : __libc_memalign(alignment, size);
}

void *memalign(size_t alignment, size_t size)
{
    return is_refused_growth() ? NULL : __libc_memalign(alignment, size);
}

int posix_memalign(void **block, size_t alignment, size_t size)
{
    void *found;

    if (is_refused(GROWTH, 0))
        return ENOMEM;
    found = __libc_memalign(alignment, size);
    if (!found)
        return ENOMEM;
    *block = found;
    return 0;
}

/* Opens a file and keeps its name, for the record of a refused read. */
static int open_named(const char *name, int flags, mode_t mode)
{
    int descriptor = (int)syscall(SYS_openat, AT_FDCWD, name, flags, mode);

    if (counting)
        record->opens += 1;
    if (descriptor >= 0 && descriptor < DESCRIPTORS) {
        memset(names[descriptor], 0, NAME);
        strncpy(names[descriptor], name, NAME - 1);
    }
    return descriptor;
}

int open(const char *name, int flags, ...)
{
    va_list rest;
    mode_t mode;

    va_start(rest, flags);
    mode = flags & O_CREAT ? va_arg(rest, mode_t) : 0;
    va_end(rest);
    return open_named(name, flags, mode);
}

int open64(const char *, int, ...) __attribute__((alias("open")));

ssize_t read(int descriptor, void *bytes, size_t size)
{
    if (is_refused(READ, descriptor)) {
        if (way == FAIL) {
            errno = EIO;
            return -1;
        }
        size = size > 1 ? 1 : size;
    }
    return syscall(SYS_read, descriptor, bytes, size);
}

ssize_t write(int descriptor, const void *bytes, size_t size)
{
    ssize_t count;

    if (is_refused(WRITE, descriptor)) {
        if (way == FAIL) {
            errno = EIO;
            return -1;
        }
        if (way == NONE)
            return 0;
        size = size > 1 ? 1 : size;
    }
    count = syscall(SYS_write, descriptor, bytes, size);
    if (counting && count > 0 && (descriptor == OUT || descriptor == ERR))
        taken[descriptor - OUT] += (uint64_t)count;
    return count;
}

/* The place of a word in a list that ends by NULL; that of the NULL for another word, or none. */
static int place_of(const char *word, const char *const *list)
{
    int place = 0;

    while (list[place] && (!word || strcmp(word, list[place]) != 0))
        place += 1;
    return place;
}

/* Maps the record and reads what to refuse; ends the process where there is no record. */
static void begin(void)
{
    static const char *const calls[] = {"growth", "read", "write", NULL};
    static const char *const ways[] = {"fail", "one", "none", NULL};
    const char *path = getenv("REFUSE_RECORD");
    const char *number = getenv("REFUSE_NUMBER");
    int file = path ? (int)syscall(SYS_openat, AT_FDCWD, path, O_RDWR, 0) : -1;

    record = mmap(NULL, sizeof *record, PROT_READ | PROT_WRITE, MAP_SHARED, file, 0);
    if (record == MAP_FAILED)
        _exit(125);
    close(file);
    memset(record, 0, sizeof *record);
    refused_call = place_of(getenv("REFUSE_CALL"), calls);
    way = place_of(getenv("REFUSE_WAY"), ways);
    refused_number = number ? strtoull(number, NULL, 10) : 0;
    record->started = 1;
}

static int (*program_main)(int, char **, char **);

static int counted_main(int count, char **words, char **environment)
{
    int status;

    begin();
    counting = 1;
    status = program_main(count, words, environment);
    counting = 0;
    return status;
}

typedef int start(int (*)(int, char **, char **), int, char **, void (*)(void), void (*)(void), void (*)(void),
                  void *);

int __libc_start_main(int (*entry)(int, char **, char **), int count, char **words, void (*first)(void),
                      void (*last)(void), void (*loader)(void), void *stack)
{
    start *real = (start *)dlsym(RTLD_NEXT, "__libc_start_main");

    program_main = entry;
    return real(counted_main, count, words, first, last, loader, stack);
}
