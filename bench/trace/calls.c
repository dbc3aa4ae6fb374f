/* The baseline: the same calls of a program of this machine, for strace(1) to trace. */
#include <string.h>
#include <sys/syscall.h>
#include <unistd.h>

int main(int count, char **words) {
    int writes = count > 1 && strcmp(words[1], "write") == 0;
    for (int i = 0; i < 100000; i++) {
        if (writes) {
            if (write(1, "hi\n", 3) != 3) return 1;
        } else {
            syscall(SYS_getpid);
        }
    }
    return 0;
}
