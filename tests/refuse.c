// Preloaded into the program: refuses requests for memory and threads, fails, shortens or interrupts reads and writes, and delays.
//
// The environment gives the numbers of the calls, counted from 1 and from the start of the program:
//   REFUSE_MEMORY, REFUSE_MEMORY_LAST   the first and the last request for memory that is refused (the last is the first if unset)
//   FAIL_READ, FAIL_WRITE, FAIL_FILE    the read of standard input, write of standard output, or read of another file that fails, once
//   FAIL_WITH                           the error; 0: a write returns 0
//   READ_MOST, WRITE_MOST               the most bytes that a read of standard input gives, a write of standard output takes
//   REFUSE_WARM_UP                      1: workers get no memory as they start
//   REFUSE_THREAD                       the thread that can't be started
//   DELAY_MEMORY                        milliseconds that each request for memory takes on another thread than the first
//   HOLD_MEMORY                         no number, but a file: these requests wait while it exists
//   HOLD_ONE                            1: only the first of them does
//   COUNTS                              a file to which the counts are written: memory, reads, writes, other reads, threads
#define _GNU_SOURCE
#include <dlfcn.h>
#include <errno.h>
#include <fcntl.h>
#include <pthread.h>
#include <stdatomic.h>
#include <stddef.h>
#include <stdlib.h>
#include <sys/mman.h>
#include <sys/syscall.h>
#include <sys/types.h>
#include <sys/uio.h>
#include <time.h>
#include <unistd.h>

void *__libc_malloc(size_t size);
void *__libc_calloc(size_t count, size_t size);
void *__libc_realloc(void *block, size_t size);
void *__libc_memalign(size_t alignment, size_t size);

enum { MEMORY, READS, WRITES, FILES, THREADS, COUNTED };

// firm_hall's, in workers.rt.
enum { WARM_BYTES = 120 * 1024 };

static atomic_ulong unshared[COUNTED];
static atomic_ulong *counts = unshared;
static unsigned long refuse_first, refuse_last, fail_read, fail_write, fail_file, fail_with, read_most, write_most;
static unsigned long refuse_warm_up, refuse_thread, delay_memory, hold_one;
static const char *hold_memory;
static atomic_int has_held;
static int is_ready;

static unsigned long number(const char *name) {
    const char *text = getenv(name);
    return text ? strtoul(text, NULL, 10) : 0;
}

__attribute__((constructor)) static void begin(void) {
    refuse_first = number("REFUSE_MEMORY");
    refuse_last = getenv("REFUSE_MEMORY_LAST") ? number("REFUSE_MEMORY_LAST") : refuse_first;
    fail_read = number("FAIL_READ");
    fail_write = number("FAIL_WRITE");
    fail_file = number("FAIL_FILE");
    fail_with = number("FAIL_WITH");
    read_most = number("READ_MOST");
    write_most = number("WRITE_MOST");
    refuse_warm_up = number("REFUSE_WARM_UP");
    refuse_thread = number("REFUSE_THREAD");
    delay_memory = number("DELAY_MEMORY");
    hold_memory = getenv("HOLD_MEMORY");
    hold_one = number("HOLD_ONE");
    const char *path = getenv("COUNTS");
    int file = path ? open(path, O_RDWR | O_CREAT | O_TRUNC, 0600) : -1;
    if (file >= 0 && ftruncate(file, sizeof unshared) == 0) {
        // Shared with the file, so that the counts are there however the program ends.
        void *shared = mmap(NULL, sizeof unshared, PROT_READ | PROT_WRITE, MAP_SHARED, file, 0);
        if (shared != MAP_FAILED) counts = shared;
    }
    if (file >= 0) close(file);
    is_ready = 1;
}

static unsigned long count(int what) {
    return atomic_fetch_add(&counts[what], 1) + 1;
}

static int is_first_thread(void) {
    return syscall(SYS_gettid) == getpid();
}

static void rest(unsigned long milliseconds) {
    struct timespec delay = {milliseconds / 1000, milliseconds % 1000 * 1000000};
    nanosleep(&delay, NULL);
}

static int is_refused(void) {
    if (!is_ready) return 0;
    if ((delay_memory != 0 || hold_memory != NULL) && !is_first_thread()) {
        int holds = hold_memory != NULL && !(atomic_exchange(&has_held, 1) && hold_one);
        while (holds && access(hold_memory, F_OK) == 0) rest(50);
        rest(delay_memory);
    }
    unsigned long place = count(MEMORY);
    if (refuse_first == 0 || place < refuse_first || place > refuse_last) return 0;
    errno = ENOMEM;
    return 1;
}

// Whether this is a worker's first request, at its start. Such a request races with those of the first thread,
// so it is neither counted nor delayed.
static _Thread_local int has_warmed_up __attribute__((tls_model("initial-exec")));

static int is_warm_up(size_t size) {
    if (size != WARM_BYTES || is_first_thread() || has_warmed_up) return 0;
    return has_warmed_up = 1;
}

void *malloc(size_t size) {
    if (is_warm_up(size)) return refuse_warm_up ? NULL : __libc_malloc(size);
    return is_refused() ? NULL : __libc_malloc(size);
}

void *calloc(size_t number, size_t size) {
    return is_refused() ? NULL : __libc_calloc(number, size);
}

void *realloc(void *block, size_t size) {
    return is_refused() ? NULL : __libc_realloc(block, size);
}

void *memalign(size_t alignment, size_t size) {
    return is_refused() ? NULL : __libc_memalign(alignment, size);
}

void *aligned_alloc(size_t alignment, size_t size) {
    return memalign(alignment, size);
}

int posix_memalign(void **block, size_t alignment, size_t size) {
    void *found = memalign(alignment, size);
    if (found == NULL) return ENOMEM;
    *block = found;
    return 0;
}

static size_t at_most(size_t wanted, unsigned long most) {
    return most != 0 && most < wanted ? most : wanted;
}

static ssize_t failed(void) {
    if (fail_with == 0) return 0;
    errno = (int)fail_with;
    return -1;
}

ssize_t read(int file, void *buffer, size_t size) {
    int is_input = file == STDIN_FILENO;
    unsigned long place = count(is_input ? READS : FILES);
    if (place == (is_input ? fail_read : fail_file)) return failed();
    return syscall(SYS_read, file, buffer, is_input ? at_most(size, read_most) : size);
}

ssize_t write(int file, const void *buffer, size_t size) {
    if (file != STDOUT_FILENO) return syscall(SYS_write, file, buffer, size);
    if (count(WRITES) == fail_write) return failed();
    return syscall(SYS_write, file, buffer, at_most(size, write_most));
}

ssize_t __write(int file, const void *buffer, size_t size) {
    return write(file, buffer, size);
}

ssize_t readv(int file, const struct iovec *parts, int number) {
    return number > 0 ? read(file, parts[0].iov_base, parts[0].iov_len) : 0;
}

ssize_t writev(int file, const struct iovec *parts, int number) {
    return number > 0 ? write(file, parts[0].iov_base, parts[0].iov_len) : 0;
}

int pthread_create(pthread_t *thread, const pthread_attr_t *attributes, void *(*run)(void *), void *argument) {
    static int (*start)(pthread_t *, const pthread_attr_t *, void *(*)(void *), void *);
    if (start == NULL) *(void **)&start = dlsym(RTLD_NEXT, "pthread_create");
    if (is_ready && count(THREADS) == refuse_thread) return EAGAIN;
    return start(thread, attributes, run, argument);
}
