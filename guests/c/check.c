// What a guest in C is given, by picolibc (-DPICOLIBC) or by musl, checked from within: a line "ok NAME" for each part,
// "WRONG NAME" else. It is to be /c in the tree, with A=1 in its environment.
//
// /c errors prints the names of the errors that picolibc has; /c NAME, where close fails so by injection, its name.
#include <assert.h>
#include <errno.h>
#include <fcntl.h>
#include <signal.h>
#include <stdio.h>
#include <stdlib.h>
#include <string.h>
#include <sys/stat.h>
#include <sys/time.h>
#include <sys/wait.h>
#include <time.h>
#include <unistd.h>
#ifdef PICOLIBC
#include "names.h" // {"EPERM", EPERM}, .. of picolibc's errno.h
int lstat(const char *, struct stat *); // which it doesn't declare
#else
#include <poll.h>
#include <pthread.h>
#include <spawn.h>
#include <sys/mman.h>
#include <sys/uio.h>
static const struct { const char *name; int number; } names[] = {{"", 0}};
#endif

static void tell(const char *name, int right) { printf("%s %s\n", right ? "ok" : "WRONG", name); }
#define OK(name, condition) tell(name, condition)
#define FAILS(name, expression, error) (errno = 0, tell(name, (expression) == -1 && errno == error))

static volatile int got;
static void on(int n) { got = n; }
static volatile int *const volatile nowhere = (int *)16;
static _Thread_local int local = 7;

static void files(void) {
    struct stat st;
    char b[32] = {0};
    int f = open("/f", O_RDWR | O_CREAT | O_EXCL, 0600);
    OK("open O_CREAT|O_EXCL", f == 3);
    FAILS("O_EXCL again: EEXIST", open("/f", O_WRONLY | O_CREAT | O_EXCL, 0600), EEXIST);
    FAILS("ENOENT", open("/none", O_RDONLY), ENOENT);
    OK("write", write(f, "hello world", 11) == 11);
    OK("lseek, read", lseek(f, 6, SEEK_SET) == 6 && read(f, b, 32) == 5 && !strcmp(b, "world"));
    OK("ftruncate, fstat", ftruncate(f, 5) == 0 && fstat(f, &st) == 0 && st.st_size == 5 && S_ISREG(st.st_mode));
    OK("stat, lstat", stat("/f", &st) == 0 && st.st_size == 5 && lstat("/f", &st) == 0);
    OK("access", access("/f", R_OK) == 0);
    FAILS("stat: ENOENT", stat("/g", &st), ENOENT);
    FAILS("access: ENOENT", access("/g", F_OK), ENOENT);
    int a = open("/f", O_WRONLY | O_APPEND);
    OK("O_APPEND", write(a, "!", 1) == 1 && stat("/f", &st) == 0 && st.st_size == 6);
    FAILS("read of O_WRONLY: EBADF", read(a, b, 1), EBADF);
    OK("O_TRUNC", close(open("/f", O_WRONLY | O_TRUNC)) == 0 && stat("/f", &st) == 0 && st.st_size == 0);
    OK("creat", close(creat("/g", 0644)) == 0);
    OK("dup", dup(f) == 5 && close(5) == 0);
    OK("dup2", dup2(f, 9) == 9 && dup2(9, 9) == 9 && close(9) == 0);
    FAILS("dup2 of a closed one: EBADF", dup2(40, 40), EBADF);
    OK("close", close(f) == 0 && close(a) == 0);
    FAILS("close again: EBADF", close(f), EBADF);
#ifdef PICOLIBC
    OK("isatty", isatty(1));
#endif
    OK("isatty of a file", !isatty(open("/t", O_CREAT | O_RDWR, 0644)));
}

static void directories(void) {
    char b[32] = {0};
    OK("mkdir, chdir, getcwd", mkdir("/d", 0755) == 0 && chdir("/d") == 0 && getcwd(b, sizeof b) && !strcmp(b, "/d"));
    errno = 0;
    OK("getcwd: ERANGE", !getcwd(b, 2) && errno == ERANGE);
    OK("a relative path, openat", close(openat(AT_FDCWD, "h", O_CREAT | O_WRONLY, 0644)) == 0 && !access("/d/h", F_OK));
    FAILS("rmdir: ENOTEMPTY", rmdir("/d"), ENOTEMPTY);
    OK("unlink", unlink("h") == 0 && chdir("/") == 0 && unlink("/g") == 0);
    OK("unlinkat", unlinkat(AT_FDCWD, "/d", AT_REMOVEDIR) == 0);
    FAILS("unlink of a directory: EISDIR", (mkdir("/e", 0755), unlink("/e")), EISDIR);
    OK("rmdir, remove", rmdir("/e") == 0 && remove("/f") == 0);
    char name[300];
    memset(name, 'n', sizeof name - 1);
    name[sizeof name - 1] = 0;
    FAILS("ENAMETOOLONG", open(name, O_RDONLY), ENAMETOOLONG);
}

static void streams(void) {
    char line[32];
    struct stat st;
    FILE *f = fopen("/s", "w");
    OK("fopen, fprintf, fclose", f && fprintf(f, "%d %s\n", 5, "five") == 7 && fclose(f) == 0);
    f = fopen("/s", "r");
    OK("fgets", f && fgets(line, sizeof line, f) && !strcmp(line, "5 five\n"));
    OK("feof", !fgets(line, sizeof line, f) && feof(f) && fclose(f) == 0);
    OK("fopen a", (f = fopen("/s", "a")) && fputs("more\n", f) >= 0 && fclose(f) == 0);
    OK("its size", stat("/s", &st) == 0 && st.st_size == 12);
    errno = 0;
    OK("fopen: ENOENT", !fopen("/nowhere/x", "w") && errno == ENOENT);
    OK("strerror", !strcmp(strerror(ENOTEMPTY), "Directory not empty"));
    char *m = malloc(100000);
    OK("malloc, realloc", m && (m = realloc(m, 200000)) && (free(m), 1));
    OK("sscanf", sscanf("12 ab", "%*d %31s", line) == 1 && !strcmp(line, "ab"));
    OK("floating point", snprintf(line, sizeof line, "%.3f", 1.0 / 3) == 5 && !strcmp(line, "0.333"));
}

// Each signal but the two that nobody catches.
static int each_comes_as_itself(void) {
    int all = 1;
    for (int i = 1; i < 32; i++) {
        if (i == SIGKILL || i == SIGSTOP) continue;
        got = 0;
        int right = signal(i, on) == SIG_DFL && raise(i) == 0 && got == i && signal(i, SIG_DFL) == on;
        if (!right) { all = 0; printf("signal %d: %d\n", i, got); }
    }
    return all;
}

static void signals(void) {
    struct sigaction act = {.sa_handler = on}, old;
    sigset_t set, was;
    OK("sigaction, raise", sigaction(SIGUSR1, &act, NULL) == 0 && raise(SIGUSR1) == 0 && got == SIGUSR1);
    OK("sigaction's old", sigaction(SIGUSR1, NULL, &old) == 0 && old.sa_handler == on);
    OK("signal, kill", signal(SIGUSR2, on) == SIG_DFL && kill(getpid(), SIGUSR2) == 0 && got == SIGUSR2);
    OK("signal's old", signal(SIGUSR2, SIG_DFL) == on);
    sigemptyset(&set); sigaddset(&set, SIGCHLD); sigaddset(&set, SIGUSR1); got = 0;
    OK("sigprocmask", sigprocmask(SIG_BLOCK, &set, &was) == 0 && !sigismember(&was, SIGCHLD));
    OK("a blocked signal", raise(SIGUSR1) == 0 && got == 0);
    OK("sigprocmask's old", sigprocmask(SIG_BLOCK, NULL, &was) == 0 && sigismember(&was, SIGUSR1)
        && sigismember(&was, SIGCHLD) && !sigismember(&was, SIGSTOP));
    OK("an unblocked signal", sigprocmask(SIG_UNBLOCK, &set, NULL) == 0 && got == SIGUSR1);
    FAILS("sigaction of SIGKILL: EINVAL", sigaction(SIGKILL, &act, NULL), EINVAL);
    FAILS("kill: ESRCH", kill(4000, 0), ESRCH);
    signal(SIGUSR1, SIG_DFL);
    OK("each signal comes as itself", each_comes_as_itself());
}

// How a child that runs `f` ended.
static int child(void (*f)(void)) {
    int word = -1;
    fflush(stdout);
    pid_t pid = fork();
    if (!pid) { f(); _exit(0); }
    return waitpid(pid, &word, 0) == pid ? word : -1;
}
static int killed_by(int word, int number) { return WIFSIGNALED(word) && WTERMSIG(word) == number; }
static void aborts(void) { abort(); }
static void asserts(void) { close(2); assert(!"this"); }
static void raises(void) { raise(SIGUSR2); }
static void faults(void) { *nowhere = 1; }
static void bus(void) { kill(getpid(), SIGBUS); }
static void exits(void) { exit(300); }
static void ignores(void) { signal(SIGUSR2, SIG_IGN); raise(SIGUSR2); _exit(7); }
static void executes(void) { execl("/c", "/c", "argument", "two words", (char *)0); _exit(9); }
static void executes_by_path(void) { setenv("PATH", "/none:/", 1); execlp("c", "c", "path", (char *)0); _exit(9); }
static void handled_and_aborts(void) { signal(SIGABRT, on); abort(); }

static void ends(void) {
    OK("fork, wait, exit", child(exits) == (300 & 255) << 8);
    OK("abort", killed_by(child(aborts), SIGABRT));
    OK("abort with a handler", child(handled_and_aborts) != 0);
    OK("assert", killed_by(child(asserts), SIGABRT));
    OK("raise SIGUSR2", killed_by(child(raises), SIGUSR2));
    OK("WTERMSIG is SIGBUS", killed_by(child(bus), SIGBUS));
    OK("SIGSEGV", killed_by(child(faults), SIGSEGV));
    OK("SIG_IGN", child(ignores) == 7 << 8);
    OK("execl", child(executes) == 3 << 8);
    OK("execlp", child(executes_by_path) == 2 << 8);
    FAILS("execve: ENOENT", execv("/none", (char *[]){"none", NULL}), ENOENT);
    FAILS("wait: ECHILD", wait(NULL), ECHILD);
}

// A child that signals its parent when this waits.
static pid_t signals_later(int descriptor) {
    pid_t parent = getpid(), pid = fork();
    if (pid) return pid;
    for (int i = 0; i < 300; i++) getppid();
    kill(parent, SIGUSR1);
    if (descriptor >= 0) write(descriptor, "y", 1);
    _exit(getppid() == parent ? 0 : 1);
}

static void processes(void) {
    int pipe_ends[2], word;
    char c;
    OK("pipe", pipe(pipe_ends) == 0);
    pid_t pid = fork();
    if (!pid) { raise(SIGSTOP); _exit(4); }
    OK("WUNTRACED", waitpid(pid, &word, WUNTRACED) == pid && WIFSTOPPED(word) && WSTOPSIG(word) == SIGSTOP);
    OK("SIGCONT", kill(pid, SIGCONT) == 0 && waitpid(pid, &word, 0) == pid && WEXITSTATUS(word) == 4);
    struct sigaction act = {.sa_handler = on};
    sigaction(SIGUSR1, &act, NULL);
    pid = signals_later(-1);
    FAILS("EINTR", read(pipe_ends[0], &c, 1), EINTR);
    OK("waitpid", waitpid(pid, &word, 0) == pid && word == 0);
    act.sa_flags = SA_RESTART;
    sigaction(SIGUSR1, &act, NULL);
    pid = signals_later(pipe_ends[1]);
    OK("SA_RESTART", read(pipe_ends[0], &c, 1) == 1 && c == 'y' && wait(NULL) == pid);
    close(pipe_ends[0]);
    signal(SIGPIPE, SIG_IGN);
    FAILS("EPIPE", write(pipe_ends[1], "z", 1), EPIPE);
    FAILS("WNOHANG: ECHILD", waitpid(-1, NULL, WNOHANG), ECHILD);
}

#ifdef PICOLIBC
static void others(void) { // what the kit makes up, and errors of a kernel without the call
    struct stat st;
    char b[8];
    OK("strerror of an error without a name", !strcmp(strerror(2117), "Linux error 117"));
    int f = open("/v", O_RDWR | O_CREAT, 0644);
    OK("pwrite", pwrite(f, "abcd", 4, 2) == 4 && lseek(f, 0, SEEK_CUR) == 0);
    OK("pread", pread(f, b, 8, 3) == 3 && !memcmp(b, "bcd", 3) && lseek(f, 0, SEEK_CUR) == 0);
    OK("fsync, fdatasync, chmod", fsync(f) == 0 && fdatasync(f) == 0 && chmod("/v", 0600) == 0 && close(f) == 0);
    OK("rename", rename("/v", "/w") == 0 && access("/v", F_OK) == -1 && stat("/w", &st) == 0 && st.st_size == 6);
    OK("rename to itself", rename("/w", "w") == 0 && rename("w", ".//x/../w") == 0 && stat("/w", &st) == 0
        && st.st_size == 6);
    FAILS("rename: ENOENT", rename("/v", "/w"), ENOENT);
    FAILS("rename of a directory: EXDEV", (mkdir("/i", 0755), rename("/i", "/j")), EXDEV);
    OK("truncate", truncate("/w", 2) == 0 && stat("/w", &st) == 0 && st.st_size == 2);
    FAILS("link: EPERM", link("/w", "/x"), EPERM);
    FAILS("readlink: EINVAL", readlink("/w", b, 8), EINVAL);
    OK("time: -1", time(NULL) == -1);
}
#else
static void made_of_others(void) {
    struct stat st, su;
    char a[8] = {0}, b[8] = {0};
    int f = open("/v", O_RDWR | O_CREAT | O_TRUNC | O_CLOEXEC, 0644);
    OK("writev", writev(f, (struct iovec[]){{"abc", 3}, {"", 0}, {"defg", 4}}, 3) == 7);
    OK("pread", pread(f, a, 2, 2) == 2 && !strcmp(a, "cd"));
    OK("pwrite", pwrite(f, "X", 1, 0) == 1 && lseek(f, 0, SEEK_CUR) == 7 && lseek(f, 0, SEEK_SET) == 0);
    OK("readv", readv(f, (struct iovec[]){{a, 3}, {b, 7}}, 2) == 7 && !memcmp(a, "Xbc", 3) && !strcmp(b, "defg"));
    OK("rename", rename("/v", "/w") == 0 && access("/v", F_OK) == -1 && stat("/w", &st) == 0 && st.st_size == 7);
    OK("truncate", truncate("/w", 2) == 0 && stat("/w", &st) == 0 && st.st_size == 2);
    OK("fsync, chmod", fsync(f) == 0 && chmod("/w", 0600) == 0);
    OK("two files' numbers", stat("/s", &su) == 0 && st.st_ino != su.st_ino);
    OK("a file's number", stat("./w", &su) == 0 && st.st_ino == su.st_ino && fstat(open("//w", 0), &su) == 0
        && st.st_ino == su.st_ino);
    OK("a number in a directory", mkdir("/i", 0755) == 0 && chdir("/i") == 0 && stat("../w", &su) == 0
        && st.st_ino == su.st_ino && close(creat("w", 0644)) == 0 && stat("w", &su) == 0 && st.st_ino != su.st_ino
        && chdir("..") == 0);
    OK("F_GETFD, F_SETFD", fcntl(f, F_GETFD) == FD_CLOEXEC && fcntl(f, F_SETFD, 0) == 0 && fcntl(f, F_GETFD) == 0);
    OK("F_DUPFD", fcntl(f, F_DUPFD, 20) == 20);
    OK("F_GETFL", (fcntl(20, F_GETFL) & O_ACCMODE) == O_RDWR && close(20) == 0);
    char *path = realpath("/i/../w", NULL);
    OK("realpath", path && !strcmp(path, "/w") && !realpath("/none", NULL));
    FAILS("opendir's open: EISDIR", open("/", O_RDONLY | O_DIRECTORY), EISDIR);
    FAILS("O_DIRECTORY of a file: ENOTDIR", open("/w", O_RDONLY | O_DIRECTORY), ENOTDIR);
    FAILS("open of a bad address: EFAULT", open((const char *)8, O_RDONLY), EFAULT);
    FAILS("link: EPERM", link("/w", "/x"), EPERM);
    time_t now = time(NULL);
    OK("time, sleep", now > 1600000000 && sleep(3) == 0 && time(NULL) >= now + 3);
}

static void keeps_a_descriptor(void) { // but not the one whose FD_CLOEXEC is set
    int kept = open("/w", O_RDONLY | O_CLOEXEC), closed = open("/w", O_RDONLY);
    if (kept != 30 && (dup2(kept, 30) != 30 || fcntl(30, F_SETFD, 0) != 0)) _exit(9);
    if (dup2(closed, 31) != 31 || fcntl(31, F_SETFD, FD_CLOEXEC) != 0) _exit(8);
    execl("/c", "/c", "descriptors", (char *)0);
    _exit(9);
}
static void raises_abort(void) { execl("/c", "/c", "raise", (char *)0); _exit(9); }
static void resets(void) {
    struct sigaction act = {.sa_handler = on, .sa_flags = SA_RESETHAND};
    sigaction(SIGUSR1, &act, 0);
    raise(SIGUSR1);
    raise(SIGUSR1);
}

static void *runs(void *nothing) { return nothing; }

static void memory(void) {
    pthread_t thread;
    char *pages = mmap(NULL, 8192, PROT_NONE, MAP_PRIVATE | MAP_ANONYMOUS, -1, 0);
    OK("mmap", pages != MAP_FAILED);
    OK("mprotect", mprotect(pages, 8192, PROT_READ | PROT_WRITE) == 0 && (pages[1] = 1) == 1);
    FAILS("mmap of a file: EINVAL", (long)mmap(NULL, 4096, PROT_READ, MAP_SHARED, 0, 0), EINVAL);
    OK("pthread_create: EAGAIN", pthread_create(&thread, NULL, runs, NULL) == EAGAIN);
}

static void programs(void) {
    pid_t pid;
    int word;
    char *path[] = {"c", "path", NULL};
    OK("posix_spawn", posix_spawn(&pid, "/c", NULL, NULL, path, environ) == 0);
    OK("its end", waitpid(pid, &word, 0) == pid && word == 2 << 8);
    OK("posix_spawn: ENOENT", posix_spawn(&pid, "/none", NULL, NULL, path, environ) == ENOENT);
    OK("FD_CLOEXEC", child(keeps_a_descriptor) == 5 << 8);
    OK("abort after exec", killed_by(child(raises_abort), SIGABRT));
    OK("SA_RESETHAND", killed_by(child(resets), SIGUSR1));
}

static void waits(void) {
    sigset_t set, none;
    sigemptyset(&none); sigemptyset(&set); sigaddset(&set, SIGUSR1);
    struct sigaction act = {.sa_handler = on, .sa_flags = SA_RESTART};
    sigaction(SIGUSR1, &act, NULL);
    sigprocmask(SIG_BLOCK, &set, NULL);
    raise(SIGUSR1); got = 0;
    FAILS("sigsuspend, of a pending signal", sigsuspend(&none), EINTR);
    OK("its mask", got == SIGUSR1 && sigprocmask(SIG_BLOCK, NULL, &none) == 0 && sigismember(&none, SIGUSR1));
    got = 0; sigemptyset(&none); fflush(stdout);
    pid_t pid = signals_later(-1);
    FAILS("sigsuspend, of one that comes", sigsuspend(&none), EINTR);
    OK("its handler", got == SIGUSR1 && wait(NULL) == pid);
    sigprocmask(SIG_SETMASK, &none, NULL);
    signals_later(-1);
    FAILS("pause", pause(), EINTR);
    wait(NULL);
}

static void others(void) { made_of_others(); memory(); programs(); waits(); }
#endif

// What the program does where it is executed by itself, or asked for errors.
static int with_words(int argc, char **argv) {
    if (!strcmp(argv[1], "argument")) return argc > 2 && !strcmp(argv[2], "two words") ? 3 : 9;
    if (!strcmp(argv[1], "path")) return 2;
    if (!strcmp(argv[1], "descriptors")) return dup(30) >= 0 && dup(31) == -1 && errno == EBADF ? 5 : 9;
    if (!strcmp(argv[1], "raise")) abort();
    int asked = !strcmp(argv[1], "errors");
    errno = 0;
    if (!asked) close(0);
    for (unsigned i = 0; i < sizeof names / sizeof *names; i++)
        if (asked || (names[i].number == errno && !strcmp(names[i].name, argv[1]))) puts(names[i].name);
    return 0;
}

int main(int argc, char **argv, char **envp) {
    if (argc > 1) return with_words(argc, argv);
    setvbuf(stdout, NULL, _IOLBF, 0); // to musl the console is no terminal
    OK("environ, getenv", envp == environ && getenv("A") && !strcmp(getenv("A"), "1") && !getenv("B"));
    OK("setenv", setenv("B", "3", 1) == 0 && !strcmp(getenv("B"), "3"));
    OK("thread-local", local == 7 && (local = 8) == 8);
    files();
    directories();
    streams();
    signals();
    ends();
    processes();
    others();
    return 0;
}
