/* Preloaded with a program: count its calls to the system, and make one of them fail, once. The environment says which:
     FAIL_KIND    the kind of calls: memory, thread, open, read or write
     FAIL_CALL    the number of the call that fails, from 1 on; 0 for none
     FAIL_LASTING 1 if all later calls of this kind fail, too
     FAIL_WAY     the number of the error with which the call fails; 0 for a write that writes no byte
     FAIL_PIECE   the most bytes that each read or write of this kind transfers; 0 for no limit
     FAIL_SCRIPT  the path of a script: its reads are counted like those of standard input, and its opening is counted
     FAIL_COUNTS  a file of zeros, as long as struct counts, where the counts are kept
   Only reads of standard input and of the script, and writes to standard output, are counted; all others are passed on.
   To start a thread, the program first allocates a block and hands it to the new thread. Such an allocation is known by the place in the
   program that makes the call. The counts have these places, and the place of the allocation that failed. */
#define _GNU_SOURCE
#include <dlfcn.h>
#include <errno.h>
#include <fcntl.h>
#include <pthread.h>
#include <stdarg.h>
#include <stdlib.h>
#include <string.h>
#include <sys/auxv.h>
#include <sys/mman.h>
#include <sys/syscall.h>
#include <sys/uio.h>
#include <unistd.h>

enum kind { MEMORY, THREAD, OPEN, READ, WRITE, KINDS };

enum { PLACES = 16 };

struct counts {
    long calls[KINDS];
    long bytes[KINDS];
    long failed;          /* the number of calls that were made to fail */
    long starting;        /* 1 if the first of them was made while a thread was started */
    long place;           /* the place in the program that made this call: its distance from the program's entry */
    long starts[PLACES];  /* the places that allocate the blocks of threads; 0 after the last */
};

/* The C library's own allocator, under names that this library does not replace. */
extern void *__libc_malloc(size_t), *__libc_calloc(size_t, size_t), *__libc_realloc(void *, size_t), *__libc_memalign(size_t, size_t);

static const char *const names[KINDS] = {"memory", "thread", "open", "read", "write"};
static struct counts *counts;
static int failing = KINDS, way, script = -1;   /* the kind that fails, its error, and the descriptor of the script */
static long number, piece, lasting;
static const char *script_path;
static int (*real_create)(pthread_t *, const pthread_attr_t *, void *(*)(void *), void *);
static __thread int starting;
static __thread void *last_block;
static __thread long last_place;

static long number_in(const char *name) {
    const char *value = getenv(name);
    return value ? atol(value) : 0;
}

__attribute__((constructor)) static void begin(void) {
    const char *kind = getenv("FAIL_KIND"), *path = getenv("FAIL_COUNTS");
    for (int i = 0; kind && i < KINDS; i++)
        if (!strcmp(kind, names[i])) failing = i;
    number = number_in("FAIL_CALL"), way = number_in("FAIL_WAY"), piece = number_in("FAIL_PIECE"), lasting = number_in("FAIL_LASTING");
    script_path = getenv("FAIL_SCRIPT");
    real_create = (int (*)(pthread_t *, const pthread_attr_t *, void *(*)(void *), void *))dlsym(RTLD_NEXT, "pthread_create");
    int file = path ? (int)syscall(SYS_openat, AT_FDCWD, path, O_RDWR | O_CLOEXEC) : -1;
    if (file < 0) return;
    void *kept = (void *)syscall(SYS_mmap, NULL, sizeof *counts, PROT_READ | PROT_WRITE, MAP_SHARED, file, 0L);
    syscall(SYS_close, file);
    if (kept != MAP_FAILED) counts = kept;      /* from here on calls are counted */
}

/* Return the place in the program that a call returns to. */
static long place_of(void *where) { return (long)where - (long)getauxval(AT_ENTRY); }

/* Count a call of a kind, and return whether it must fail. */
static int fails(enum kind kind, long place) {
    if (!counts) return 0;
    long now = __atomic_add_fetch(&counts->calls[kind], 1, __ATOMIC_SEQ_CST);
    if ((int)kind != failing || number == 0 || now < number || (now > number && !lasting)) return 0;
    __atomic_add_fetch(&counts->failed, 1, __ATOMIC_SEQ_CST);
    if (now == number) counts->starting = starting, counts->place = place;
    errno = way;
    return 1;
}

static size_t at_most(enum kind kind, size_t asked) {
    return (int)kind == failing && piece > 0 && asked > (size_t)piece ? (size_t)piece : asked;
}

static ssize_t count_bytes(enum kind kind, ssize_t count) {
    if (counts && count > 0) __atomic_add_fetch(&counts->bytes[kind], count, __ATOMIC_SEQ_CST);
    return count;
}

/* Note the last block that this thread has allocated, and the place that did. Return the block. */
static void *note_block(void *block, long place) {
    last_block = block, last_place = place;
    return block;
}

/* A thread is being started with a block. If it is the last block that this thread has allocated, note the place that allocated it. */
static void note_start(void *block) {
    if (!counts || !block || block != last_block) return;
    for (int i = 0; i < PLACES; i++) {
        long none = 0;
        if (__atomic_compare_exchange_n(&counts->starts[i], &none, last_place, 0, __ATOMIC_SEQ_CST, __ATOMIC_SEQ_CST)) return;
        if (none == last_place) return;
    }
}

#define PLACE place_of(__builtin_return_address(0))
void *malloc(size_t size) { return fails(MEMORY, PLACE) ? NULL : note_block(__libc_malloc(size), PLACE); }
void *calloc(size_t items, size_t size) { return fails(MEMORY, PLACE) ? NULL : note_block(__libc_calloc(items, size), PLACE); }
void *realloc(void *old, size_t size) { return fails(MEMORY, PLACE) ? NULL : __libc_realloc(old, size); }
void *aligned_alloc(size_t unit, size_t size) { return fails(MEMORY, PLACE) ? NULL : note_block(__libc_memalign(unit, size), PLACE); }
void *memalign(size_t unit, size_t size) { return fails(MEMORY, PLACE) ? NULL : note_block(__libc_memalign(unit, size), PLACE); }

int posix_memalign(void **made, size_t unit, size_t size) {
    void *got = fails(MEMORY, PLACE) ? NULL : __libc_memalign(unit, size);
    if (!got) return ENOMEM;
    *made = note_block(got, PLACE);
    return 0;
}

/* The program's own mappings. Mappings that the C library makes for itself do not call this function. */
void *mmap(void *place, size_t size, int rights, int flags, int file, off_t from) {
    if (flags & MAP_ANONYMOUS && fails(MEMORY, PLACE)) return MAP_FAILED;
    return (void *)syscall(SYS_mmap, place, size, rights, flags, file, from);
}
void *mmap64(void *, size_t, int, int, int, off_t) __attribute__((alias("mmap")));

int pthread_create(pthread_t *thread, const pthread_attr_t *how, void *(*what)(void *), void *with) {
    if (fails(THREAD, PLACE)) return way;
    note_start(with);
    starting = 1;
    int ended = real_create(thread, how, what, with);
    starting = 0;
    return ended;
}

int open(const char *path, int flags, ...) {
    va_list more;
    va_start(more, flags);
    int rights = flags & (O_CREAT | __O_TMPFILE) ? va_arg(more, int) : 0;
    va_end(more);
    int is_script = script_path && !strcmp(path, script_path);
    if (is_script && fails(OPEN, PLACE)) return -1;
    int file = (int)syscall(SYS_openat, AT_FDCWD, path, flags, rights);
    if (is_script) script = file;
    return file;
}
int open64(const char *, int, ...) __attribute__((alias("open")));

ssize_t read(int file, void *bytes, size_t size) {
    if (file != 0 && (file < 0 || file != script)) return syscall(SYS_read, file, bytes, size);
    if (fails(READ, PLACE)) return way ? -1 : 0;
    return count_bytes(READ, syscall(SYS_read, file, bytes, at_most(READ, size)));
}
ssize_t __read(int, void *, size_t) __attribute__((alias("read")));

ssize_t write(int file, const void *bytes, size_t size) {
    if (file != 1) return syscall(SYS_write, file, bytes, size);
    if (fails(WRITE, PLACE)) return way ? -1 : 0;
    return count_bytes(WRITE, syscall(SYS_write, file, bytes, at_most(WRITE, size)));
}
ssize_t __write(int, const void *, size_t) __attribute__((alias("write")));

ssize_t readv(int file, const struct iovec *pieces, int count) {
    if (file != 0 && (file < 0 || file != script)) return syscall(SYS_readv, file, pieces, count);
    if (piece > 0 && count > 0) return read(file, pieces[0].iov_base, pieces[0].iov_len);
    if (fails(READ, PLACE)) return way ? -1 : 0;
    return count_bytes(READ, syscall(SYS_readv, file, pieces, count));
}

ssize_t writev(int file, const struct iovec *pieces, int count) {
    if (file != 1) return syscall(SYS_writev, file, pieces, count);
    if (piece > 0 && count > 0) return write(file, pieces[0].iov_base, pieces[0].iov_len);
    if (fails(WRITE, PLACE)) return way ? -1 : 0;
    return count_bytes(WRITE, syscall(SYS_writev, file, pieces, count));
}
