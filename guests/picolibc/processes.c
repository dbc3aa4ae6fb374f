// Processes.
#include <errno.h>
#include <stdarg.h>
#include <stdlib.h>
#include <string.h>
#include <sys/wait.h>
#include <unistd.h>
#include "linux.h"

#define LINUX_SIGCHLD 17
#define CONTINUED 0xffff // the wait word of a child that SIGCONT continued

void _exit(int code) { for (;;) LINUX(exit_group, code); }
pid_t getpid(void) { return LINUX(getpid); }
pid_t getppid(void) { return LINUX(getppid); }
pid_t fork(void) { return LINUX(clone, LINUX_SIGCHLD); }
pid_t vfork(void) { return fork(); }

// A wait word with the signal's number in picolibc's way.
static int word_of_linux(int word) {
    if ((word & 0xff) == 0x7f) return signal_of_linux(word >> 8) << 8 | 0x7f;
    if (word != CONTINUED && word & 0x7f) return signal_of_linux(word & 0x7f);
    return word;
}

pid_t waitpid(pid_t pid, int *word, int options) {
    int found = 0;
    pid_t child = LINUX(wait4, pid, word ? &found : 0, options, 0);
    if (child > 0 && word) *word = word_of_linux(found);
    return child;
}
pid_t wait(int *word) { return waitpid(-1, word, 0); }

int execve(const char *path, char *const *argv, char *const *envp) { return LINUX(execve, path, argv, envp); }
int execv(const char *path, char *const *argv) { return execve(path, argv, environ); }

int execvp(const char *file, char *const *argv) {
    char path[4096];
    if (strchr(file, '/')) return execv(file, argv);
    errno = ENOENT;
    for (const char *place = getenv("PATH"); place && *place; place += *place == ':') {
        size_t length = strcspn(place, ":");
        if (length + strlen(file) + 2 <= sizeof path) {
            memcpy(path, place, length);
            path[length] = '/';
            strcpy(path + length + (length > 0), file); // an empty part is the working directory
            execv(path, argv);
            if (errno != ENOENT && errno != ENOTDIR) return -1;
        }
        place += length;
    }
    return -1;
}

// The arguments after `first` up to a null pointer, counted, and then laid out.
static size_t count_of(va_list rest) {
    size_t count = 1;
    while (va_arg(rest, char *)) count++;
    return count;
}
static void lay_out(char **argv, const char *first, size_t count, va_list rest) {
    argv[0] = (char *)first;
    for (size_t i = 1; i <= count; i++) argv[i] = va_arg(rest, char *);
}

int execl(const char *path, const char *first, ...) {
    va_list rest, again;
    va_start(rest, first);
    va_copy(again, rest);
    size_t count = count_of(rest);
    char *argv[count + 1];
    lay_out(argv, first, count, again);
    va_end(again);
    va_end(rest);
    return execv(path, argv);
}

int execlp(const char *file, const char *first, ...) {
    va_list rest, again;
    va_start(rest, first);
    va_copy(again, rest);
    size_t count = count_of(rest);
    char *argv[count + 1];
    lay_out(argv, first, count, again);
    va_end(again);
    va_end(rest);
    return execvp(file, argv);
}
