// Runs one command of an agent, and outlives the agent: `firm-supervisor FOLDER`, with a request on standard input.
//
// It is the parent of all processes of the run, those too whose own parent has ended. It returns once none is left, and
// has synced their exit status by then. The agent's side of all this, and the forms of the files, are in supervisor.py:
// in the run's folder are `process`, by which it claims the run, `lease`, a named pipe with longer leases, `output` and
// `status`. Standard output is closed once the run is claimed. SIGTERM asks for its end.
#define _GNU_SOURCE
#include <errno.h>
#include <fcntl.h>
#include <ftw.h>
#include <grp.h>
#include <linux/keyctl.h>
#include <math.h>
#include <poll.h>
#include <signal.h>
#include <stdarg.h>
#include <stdbool.h>
#include <stdint.h>
#include <stdio.h>
#include <stdlib.h>
#include <string.h>
#include <sys/prctl.h>
#include <sys/resource.h>
#include <sys/signalfd.h>
#include <sys/stat.h>
#include <sys/syscall.h>
#include <sys/timerfd.h>
#include <sys/wait.h>
#include <time.h>
#include <unistd.h>

#define LOOK_SECONDS 0.02   // between two looks at processes that are being ended
#define FULL_SECONDS 1.0    // between two tries to fork, and to write a status on a full disk
#define NEAR_SECONDS 1e-3   // earlier than any moment that is waited for, and one that a timer can have
#define FAR_SECONDS 4e9     // later than any
enum {
    NOT_CLAIMED = 1,        // exit status of this program
    NOT_STARTED = 127,      // a shell's status for a command that does not exist
    CANNOT_START = 126,     // and for one that can't be run
    SHOWN_BYTES = 200,      // of a word in a message
    MANY_ENDED = 64,        // processes that are taken in before the time is looked at
    MAX_FILES = 65536,      // that may be open, where they have to be closed one by one
    MAX_GROUPS = 65536,     // of a user, as the kernel has it
    PIPE_BYTES = 65536,     // that a pipe holds
    TEXT_BYTES = 8192,      // of a small file
};

struct fault {
    int status;             // of the run; 0: the command was started
    char text[1024];
};

struct run {
    // The request.
    const char *folder_path, *claim, *boot, *group_path, *user, *directory, *output;
    double until, limit, grace;
    char **environment, **command;
    // Descriptors, -1 for none: the folder, the cgroup, the lease's pipe, the run's own output, and what is waited for.
    int folder, group, lease, log, signals, timer, report;
    pid_t child;            // 0 until it is forked
    bool has_ended;         // the command, with the status
    bool is_behind;         // more processes may have ended than were taken in
    int status;             // minus the signal's number where a signal ended it
    bool is_asked;          // its end was asked for while it ran
    const char *over;       // what has ended it: its lease, its limit of time or of memory
    double began, kill_at;
    long long max_rss;      // bytes, of the largest process that has ended
    double cpu_seconds;     // of all that have ended
    struct fault fault;
};

static double now(void) {
    struct timespec time;
    clock_gettime(CLOCK_BOOTTIME, &time);  // no one sets it, and it goes on while the host sleeps
    return time.tv_sec + time.tv_nsec / 1e9;
}

static double earlier(double one, double other) {
    return one < other ? one : other;
}

static void rest(double seconds) {
    struct timespec time = {.tv_sec = seconds, .tv_nsec = (seconds - (long) seconds) * 1e9};
    nanosleep(&time, NULL);
}

// Files.

// Reads a small file; an empty text stands for none.
static const char *read_file(int folder, const char *name, char text[static TEXT_BYTES]) {
    int file = openat(folder, name, O_RDONLY | O_CLOEXEC);
    ssize_t size = file < 0 ? 0 : read(file, text, TEXT_BYTES - 1);
    if (file >= 0) close(file);
    text[size < 0 ? 0 : size] = '\0';
    return text;
}

static bool put(int folder, const char *name, const char *text) {
    int file = openat(folder, name, O_WRONLY | O_CLOEXEC);
    bool is_put = file >= 0 && write(file, text, strlen(text)) >= 0;
    int fault = errno;
    if (file >= 0) close(file);
    errno = fault;
    return is_put;
}

static bool write_synced(int folder, const char *name, const char *text, size_t size) {
    int file = openat(folder, name, O_WRONLY | O_CREAT | O_TRUNC | O_NOFOLLOW | O_CLOEXEC, 0644);
    if (file < 0) return false;
    ssize_t written = write(file, text, size);
    int fault = written < 0 ? errno : (size_t) written < size ? ENOSPC : fsync(file) ? errno : 0;
    close(file);
    errno = fault;
    return fault == 0;
}

static bool sync_names(int folder, const char *name) {
    int file = openat(folder, name, O_RDONLY | O_DIRECTORY | O_CLOEXEC);
    bool is_synced = file >= 0 && fsync(file) == 0;
    if (file >= 0) close(file);
    return is_synced;
}

// JSON with a checksum.

// A text that grows; it ends as an object with the CRC-32 of itself without that field.
struct text {
    char *bytes;
    size_t size;
    FILE *file;
};

static struct text *begin_text(struct text *text) {
    text->file = open_memstream(&text->bytes, &text->size);
    if (text->file == NULL) abort();
    return text;
}

static void add_string(FILE *file, const char *string) {
    if (string == NULL) {
        fputs("null", file);
        return;
    }
    fputc('"', file);
    for (; *string != '\0'; string++) {
        unsigned char byte = *string;
        if (byte < ' ' || byte == '"' || byte == '\\' || byte == 127) fprintf(file, "\\u%04x", byte);
        else fputc(byte, file);
    }
    fputc('"', file);
}

static void seal(struct text *text) {
    fflush(text->file);
    uint32_t sum = ~0u;
    for (size_t at = 0; at < text->size; at++) {
        sum ^= (unsigned char) text->bytes[at];
        for (int bit = 0; bit < 8; bit++) sum = sum >> 1 ^ (sum & 1 ? 0xEDB88320u : 0);
    }
    fseek(text->file, -1, SEEK_END);
    fprintf(text->file, ", \"sum\": \"%08x\"}\n", ~sum);
    fclose(text->file);
}

// The claim and the status.

static unsigned long long own_start(void) {
    char text[TEXT_BYTES];
    const char *at = strrchr(read_file(AT_FDCWD, "/proc/self/stat", text), ')');  // a name may have anything
    for (int field = 0; at != NULL && field < 20; field++) at = strchr(at + 1, ' ');
    return at == NULL ? 0 : strtoull(at, NULL, 10);
}

// Claims the run; of many that try only one succeeds.
static bool claim(const struct run *run) {
    struct text text;
    char draft[32];
    FILE *file = begin_text(&text)->file;
    fprintf(file, "{\"pid\": %d, \"start\": %llu, \"boot\": \"%s\", %s}", getpid(), own_start(), run->boot, run->claim);
    seal(&text);
    snprintf(draft, sizeof draft, "claim.%d", getpid());
    bool is_claimed = write_synced(run->folder, draft, text.bytes, text.size)
                      && linkat(run->folder, draft, run->folder, "process", 0) == 0;
    if (!is_claimed && errno != EEXIST) perror("firm-supervisor: process");
    unlinkat(run->folder, draft, 0);
    free(text.bytes);
    return is_claimed;
}

static void add_number(FILE *file, const char *name, bool is_known, int places, double value) {
    if (is_known) fprintf(file, ", \"%s\": %.*f", name, places, value);
    else fprintf(file, ", \"%s\": null", name);
}

// Writes how the run ended. A disk that is full is waited for: the work is done, and must not be done again.
static void write_status(const struct run *run) {
    struct text text;
    bool has_run = run->fault.status == 0;
    FILE *file = begin_text(&text)->file;
    fprintf(file, "{\"status\": %d, ", has_run ? run->status : run->fault.status);
    fprintf(file, "\"asked\": %s, \"fault\": ", has_run && run->is_asked ? "true" : "false");
    add_string(file, has_run ? NULL : run->fault.text);
    fputs(", \"over\": ", file);
    add_string(file, has_run ? run->over : NULL);
    add_number(file, "seconds", has_run, 3, now() - run->began);
    add_number(file, "max_rss", has_run, 0, run->max_rss);
    add_number(file, "cpu_seconds", has_run, 3, run->cpu_seconds);
    fputs("}", file);
    seal(&text);
    while (!(write_synced(run->folder, "status.new", text.bytes, text.size)
             && renameat(run->folder, "status.new", run->folder, "status") == 0
             && sync_names(run->folder, ".") && sync_names(run->folder, ".."))  // else a power cut could undo it
           && errno != ENOENT)  // the folder was removed
        rest(FULL_SECONDS);
    free(text.bytes);
}

// The cgroup.

static int remove_folder(const char *path, const struct stat *found, int kind, struct FTW *place) {
    (void) found, (void) place;
    if (kind == FTW_DP) rmdir(path);
    return 0;
}

// Takes in what the run has used: as its cgroup counts that, else by wait4.
static void count_group(struct run *run) {
    char text[TEXT_BYTES], *end;
    const char *row = strstr(read_file(run->group, "memory.events", text), "\noom_kill ");
    if (run->over == NULL && run->status != 0 && row != NULL && strtoll(row + 10, NULL, 10) > 0) run->over = "memory";
    long long peak = strtoll(read_file(run->group, "memory.peak", text), &end, 10);
    if (end != text) run->max_rss = peak;
    row = strstr(read_file(run->group, "cpu.stat", text), "usage_usec ");
    if (row != NULL) run->cpu_seconds = strtoll(row + 11, NULL, 10) / 1e6;
}

// Kills all that is in the cgroup until nothing is, and removes it.
static void end_group(const struct run *run) {
    char text[TEXT_BYTES];
    if (run->group < 0) return;
    while (strstr(read_file(run->group, "cgroup.events", text), "populated 1") != NULL) {
        put(run->group, "cgroup.kill", "1");
        rest(LOOK_SECONDS);
    }
    nftw(run->group_path, remove_folder, 16, FTW_DEPTH | FTW_PHYS | FTW_MOUNT);
}

// The command's own process, until it is the command.

_Noreturn static void fail(int report, int status, const char *format, ...) {
    struct fault fault = {.status = status};
    va_list words;
    va_start(words, format);
    vsnprintf(fault.text, sizeof fault.text, format, words);
    va_end(words);
    if (write(report, &fault, sizeof fault) < 0) perror("firm-supervisor");
    _exit(status);
}

// A word for a message, cut between letters where it is long.
static const char *shown(const char *word) {
    static char text[SHOWN_BYTES + 4];
    size_t size = strnlen(word, SHOWN_BYTES + 1);
    if (size <= SHOWN_BYTES) return word;
    for (size = SHOWN_BYTES; size > 0 && ((unsigned char) word[size] & 0xC0) == 0x80;) size--;
    snprintf(text, sizeof text, "%.*s ..", (int) size, word);
    return text;
}

// Becomes a user, given as the numbers of the user, its group and all its groups.
static void become_user(const char *user, int report) {
    static gid_t groups[MAX_GROUPS];
    size_t count = 0;
    char *at;
    uid_t number = strtoul(user, &at, 10);
    gid_t group = strtoul(at, &at, 10);
    while (*at != '\0' && count < MAX_GROUPS) groups[count++] = strtoul(at, &at, 10);
    // A process may read all keys of its session, and this one's may be root's, or of other users' commands. A kernel
    // or a container may give no process any.
    bool has_left = syscall(SYS_keyctl, KEYCTL_JOIN_SESSION_KEYRING, NULL) >= 0 || errno == ENOSYS || errno == EPERM;
    if (!has_left || setgroups(count, groups) || setgid(group) || setuid(number))
        fail(report, CANNOT_START, "can't become the user %u: %s", number, strerror(errno));
}

// Opens the command's own output, with no other rights than the command has.
static void open_output(const char *path, int report) {
    // A named pipe without a reader is refused: it would hold the run up where no lease and no limit ends it.
    int file = open(path, O_WRONLY | O_CREAT | O_APPEND | O_NOCTTY | O_NONBLOCK | O_CLOEXEC, 0644);
    if (file < 0 || fcntl(file, F_SETFL, O_APPEND) < 0 || dup2(file, 1) < 0 || dup2(file, 2) < 0)
        fail(report, CANNOT_START, "%s: %s", shown(path), strerror(errno));
}

_Noreturn static void become_command(const struct run *run, int report, pid_t supervisor) {
    sigset_t none;
    sigemptyset(&none);
    setpgid(0, 0);
    sigprocmask(SIG_SETMASK, &none, NULL);
    signal(SIGPIPE, SIG_DFL);
    signal(SIGXFSZ, SIG_DFL);
    if (run->group >= 0 && !put(run->group, "cgroup.procs", "0"))
        fail(report, CANNOT_START, "can't enter its cgroup: %s", strerror(errno));
    if (*run->user != '\0') become_user(run->user, report);
    prctl(PR_SET_PDEATHSIG, SIGKILL);  // nobody else keeps it within its lease
    if (getppid() != supervisor) fail(report, CANNOT_START, "its supervisor was killed");
    if (chdir(run->directory) < 0 && errno == ENOENT)
        fail(report, CANNOT_START, "no such folder: %s", shown(run->directory));
    if (chdir(run->directory) < 0) fail(report, CANNOT_START, "%s: %s", shown(run->directory), strerror(errno));
    if (*run->output != '\0') open_output(run->output, report);
    environ = run->environment;
    execvp(run->command[0], run->command);
    const char *name = shown(run->command[0]);
    if (errno != ENOENT) fail(report, CANNOT_START, "%s: %s", name, strerror(errno));
    if (strchr(name, '/') != NULL && access(run->command[0], F_OK) == 0)
        fail(report, CANNOT_START, "%s: its interpreter is not there", name);
    fail(report, NOT_STARTED, "no such command: %s", name);
}

// The run.

// Takes in longer leases.
static void hear(struct run *run) {
    static char text[PIPE_BYTES + 1];
    ssize_t size = read(run->lease, text, PIPE_BYTES);
    text[size < 0 ? 0 : size] = '\0';
    char *at = text, *end = text;
    for (double until = strtod(at, &end); end != at; until = strtod(at = end, &end))
        if (until > run->until) run->until = until;
}

// What ends the run now, NULL for nothing.
static const char *over(struct run *run) {
    double time = now();
    if (time >= run->until) hear(run);
    return time >= run->until ? "lease" : time >= run->began + run->limit ? "timeout" : NULL;
}

// Waits for a signal, for what the command's process reports before it is the command, and to a time; whether the end
// is asked for.
static bool wait_until(struct run *run, double time) {
    time = time < NEAR_SECONDS ? NEAR_SECONDS : earlier(time, FAR_SECONDS);
    struct itimerspec at = {.it_value = {.tv_sec = time, .tv_nsec = (time - (long long) time) * 1e9}};
    timerfd_settime(run->timer, TFD_TIMER_ABSTIME, &at, NULL);
    struct pollfd files[] = {{run->signals, POLLIN, 0}, {run->timer, POLLIN, 0}, {run->report, POLLIN, 0}};
    poll(files, 3, -1);
    if (run->report >= 0 && files[2].revents != 0) {
        if (read(run->report, &run->fault, sizeof run->fault) < (ssize_t) sizeof run->fault) run->fault.status = 0;
        close(run->report);
        run->report = -1;
    }
    bool is_asked = false;
    struct signalfd_siginfo heard;
    while (read(run->signals, &heard, sizeof heard) == sizeof heard) is_asked |= heard.ssi_signo == SIGTERM;
    return is_asked;
}

// Sends a signal to the command's group, while it surely has its number, and to each other child; deeper ones become
// children. One may have taken another user's rights.
static void send_all(const struct run *run, int number) {
    char name[64];
    int child;
    pid_t group = run->has_ended ? 0 : run->child;
    if (group > 0) kill(-group, number);
    snprintf(name, sizeof name, "/proc/self/task/%d/children", getpid());
    FILE *file = fopen(name, "re");
    while (file != NULL && fscanf(file, "%d", &child) == 1)
        if (getpgid(child) != group) kill(child, number);
    if (file != NULL) fclose(file);
}

// Has all processes end. If the host slept past the lease, the grace began with its end: the task may run elsewhere.
static void begin_end(struct run *run) {
    if (run->kill_at < INFINITY) return;
    hear(run);
    run->kill_at = earlier(now(), run->until) + run->grace;
    send_all(run, SIGTERM);
}

// Takes in processes that have ended, but not all of a storm of them, which could put off the run's end for ever.
// Returns whether any are left.
static bool reap(struct run *run) {
    int status;
    struct rusage used;
    pid_t pid = 0;
    for (int count = 0; count < MANY_ENDED && (pid = wait4(-1, &status, WNOHANG, &used)) > 0; count++) {
        if (used.ru_maxrss * 1024LL > run->max_rss) run->max_rss = used.ru_maxrss * 1024LL;
        run->cpu_seconds += used.ru_utime.tv_sec + used.ru_stime.tv_sec;  // with those of processes it has waited for
        run->cpu_seconds += (used.ru_utime.tv_usec + used.ru_stime.tv_usec) / 1e6;
        if (pid == run->child) {
            run->has_ended = true;
            run->status = WIFSIGNALED(status) ? -WTERMSIG(status) : WEXITSTATUS(status);
            begin_end(run);  // of what it has left
        }
    }
    run->is_behind = pid > 0;
    return pid >= 0;
}

// Forks the command's process, once the system has room for one; false where the run is to end before. Its claim may
// have waited for a disk until its lease was over.
static bool start(struct run *run) {
    int ends[2];
    pid_t supervisor = getpid();
    if (pipe2(ends, O_CLOEXEC) < 0) {
        run->fault.status = CANNOT_START;
        snprintf(run->fault.text, sizeof run->fault.text, "pipe: %s", strerror(errno));
        return false;
    }
    for (bool is_asked = false;; is_asked = wait_until(run, now() + FULL_SECONDS)) {
        run->over = is_asked ? NULL : over(run);
        if (is_asked || run->over != NULL) {
            run->is_asked = true;
            run->status = -SIGKILL;
            return false;
        }
        if ((run->child = fork()) >= 0) break;
    }
    if (run->child == 0) become_command(run, ends[1], supervisor);
    close(ends[1]);
    run->report = ends[0];
    return true;
}

// Returns once no process of the run is left.
static void supervise(struct run *run) {
    while (reap(run)) {
        bool is_ending = run->kill_at < INFINITY;
        double next = is_ending ? run->kill_at : earlier(run->until, run->began + run->limit);
        if (now() >= run->kill_at) {
            if (run->group >= 0) put(run->group, "cgroup.kill", "1");
            send_all(run, SIGKILL);
            next = now() + LOOK_SECONDS;
        }
        bool is_asked = wait_until(run, run->is_behind ? 0 : next);
        const char *what = is_asked || is_ending ? NULL : over(run);
        if ((is_asked || what != NULL) && reap(run) && !run->has_ended) {
            run->is_asked = true;
            if (run->over == NULL) run->over = what;
            if (run->report >= 0) kill(run->child, SIGKILL);  // it waits for a disk, as of its folder
            begin_end(run);
        }
    }
    if (run->report >= 0) wait_until(run, 0);  // its last words
    if (run->group >= 0) count_group(run);
}

// Reads the request: words, each with a zero byte after it.
static bool read_request(struct run *run) {
    size_t size = 0, room = 0, count = 0;
    char *text = NULL;
    for (ssize_t got = 1; got > 0; size += got > 0 ? got : 0) {
        if (size == room && (text = realloc(text, room += PIPE_BYTES)) == NULL) return false;
        got = read(0, text + size, room - size);
    }
    for (size_t at = 0; at < size; at++) count += text[at] == '\0';
    char **words = calloc(count + 2, sizeof *words);
    if (words == NULL || count < 11 || text[size - 1] != '\0') return false;
    for (size_t at = 0, word = 0; word < count; at += strlen(text + at) + 1) words[word++] = text + at;
    run->claim = words[0], run->boot = words[1];
    run->until = strtod(words[2], NULL), run->limit = strtod(words[3], NULL), run->grace = strtod(words[4], NULL);
    run->group_path = words[5], run->user = words[6], run->directory = words[7], run->output = words[8];
    size_t variables = strtoul(words[9], NULL, 10);
    if (variables > count - 11) return false;
    memmove(words, words + 10, variables * sizeof *words);  // with an end of its own
    words[variables] = NULL;
    run->environment = words, run->command = words + 10 + variables;
    return true;
}

// Makes the lease's pipe and the output, before the claim: so whoever finds that can extend the lease, and where one
// can't be made the run is not begun. Of several that try, each opens the same ones.
static bool open_files(struct run *run) {
    const char *name = "lease";
    if (mkfifoat(run->folder, name, 0600) == 0 || errno == EEXIST)
        run->lease = openat(run->folder, name, O_RDWR | O_NONBLOCK | O_NOFOLLOW | O_CLOEXEC);
    if (run->lease >= 0) {
        name = "output";
        run->log = openat(run->folder, name, O_WRONLY | O_CREAT | O_APPEND | O_NOFOLLOW | O_CLOEXEC, 0644);
    }
    if (run->log < 0) fprintf(stderr, "firm-supervisor: %s: %s\n", name, strerror(errno));
    return run->log >= 0;
}

// Gives the output to the command, and closes standard output; a fault says that it can't be the user's, as past a
// quota of the disk.
static void give_files(struct run *run) {
    int null = open("/dev/null", O_RDWR | O_CLOEXEC);
    if (*run->user != '\0' && fchown(run->log, strtoul(run->user, NULL, 10), -1) < 0) {
        run->fault.status = CANNOT_START;
        snprintf(run->fault.text, sizeof run->fault.text, "output: %s", strerror(errno));
    }
    dup2(null, 0);
    dup2(run->log, 1);
    dup2(run->log, 2);
}

static void block_signals(struct run *run) {
    sigset_t heard;
    sigemptyset(&heard);
    for (const int *number = (int[]){SIGCHLD, SIGTERM, 0}; *number != 0; number++) {
        signal(*number, SIG_DFL);  // one that is ignored would never come
        sigaddset(&heard, *number);
    }
    signal(SIGPIPE, SIG_IGN);
    signal(SIGXFSZ, SIG_IGN);  // a limit of files' sizes is to be a fault like others
    sigprocmask(SIG_BLOCK, &heard, NULL);
    run->signals = signalfd(-1, &heard, SFD_NONBLOCK | SFD_CLOEXEC);
    run->timer = timerfd_create(CLOCK_BOOTTIME, TFD_NONBLOCK | TFD_CLOEXEC);
}

// Closes what the agent's own parent left open, which is not for the command, and has a standard error in any case:
// else another file would have its number.
static void settle_descriptors(void) {
    if (syscall(SYS_close_range, 3u, ~0u, 0u) < 0)  // as in a container that does not know it
        for (int file = 3; file < MAX_FILES; file++) close(file);
    if (fcntl(2, F_GETFD) < 0) open("/dev/null", O_WRONLY);
}

int main(int count, char **words) {
    static struct run run = {.group = -1, .lease = -1, .log = -1, .report = -1, .kill_at = INFINITY};
    settle_descriptors();
    if (count != 2 || !read_request(&run) || (run.folder = open(words[1], O_RDONLY | O_DIRECTORY | O_CLOEXEC)) < 0) {
        fprintf(stderr, "firm-supervisor: it is firm-agent's, which gives it a run's folder and a request\n");
        return 2;
    }
    setsid();
    block_signals(&run);
    prctl(PR_SET_CHILD_SUBREAPER, 1);
    if (*run.group_path != '\0') run.group = open(run.group_path, O_RDONLY | O_DIRECTORY | O_CLOEXEC);
    if (run.signals < 0 || run.timer < 0 || (*run.group_path != '\0' && run.group < 0) || now() >= run.until
        || !open_files(&run) || !claim(&run)) {
        end_group(&run);
        return NOT_CLAIMED;
    }
    run.began = now();
    give_files(&run);
    if (run.fault.status == 0 && start(&run)) supervise(&run);
    end_group(&run);
    unlinkat(run.folder, "lease", 0);
    write_status(&run);
    return 0;
}
