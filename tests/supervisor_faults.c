// Preloaded into a supervisor: a call fails, hangs or is the last one, as the environment says.
//   NO_FORK   seconds from its start for which no process can be created
//   HANGS     if set, its command's folder is on a hung disk
//   FULL      number of the first syncs of a file that fail, as on a full disk
//   SLOW      seconds of the first sync of a file; its forked child runs before it goes on itself
//   STOPS     if set, it stops itself once it has claimed its run
//   STORM     microseconds before it reaps an ended process
//   KILL_AT   number of the call, of those below, before which it is killed
#define _GNU_SOURCE
#include <dlfcn.h>
#include <errno.h>
#include <fcntl.h>
#include <signal.h>
#include <stdlib.h>
#include <sys/wait.h>
#include <time.h>
#include <unistd.h>

static int calls, syncs;
static pid_t supervisor;
static time_t began;

static int number(const char *name) {
    const char *text = getenv(name);
    return text == NULL ? 0 : atoi(text);
}

__attribute__((constructor)) static void begin(void) {
    supervisor = getpid();
    began = time(NULL);
}

static void count(void) {
    if (getpid() == supervisor && ++calls == number("KILL_AT")) raise(SIGKILL);
}

#define REAL(name) ((typeof(&name)) dlsym(RTLD_NEXT, #name))

pid_t fork(void) {
    count();
    if (time(NULL) < began + number("NO_FORK")) {
        errno = EAGAIN;
        return -1;
    }
    pid_t child = REAL(fork)();
    if (child > 0 && number("SLOW") > 0) sleep(1);
    return child;
}

pid_t wait4(pid_t pid, int *status, int options, struct rusage *used) {
    if (number("STORM") > 0) usleep(number("STORM"));
    return REAL(wait4)(pid, status, options, used);
}

int chdir(const char *path) {
    while (getenv("HANGS") != NULL) pause();
    return REAL(chdir)(path);
}

int fsync(int file) {
    count();
    if (syncs == 0) sleep(number("SLOW"));
    if (syncs++ < number("FULL")) {
        errno = ENOSPC;
        return -1;
    }
    return REAL(fsync)(file);
}

ssize_t write(int file, const void *bytes, size_t size) {
    count();
    return REAL(write)(file, bytes, size);
}

int linkat(int from, const char *old, int to, const char *new, int flags) {
    count();
    int result = REAL(linkat)(from, old, to, new, flags);
    if (getenv("STOPS") != NULL) raise(SIGSTOP);
    return result;
}

int renameat(int from, const char *old, int to, const char *new) {
    count();
    return REAL(renameat)(from, old, to, new);
}

int unlinkat(int folder, const char *name, int flags) {
    count();
    return REAL(unlinkat)(folder, name, flags);
}

int mkfifoat(int folder, const char *name, mode_t mode) {
    count();
    return REAL(mkfifoat)(folder, name, mode);
}
