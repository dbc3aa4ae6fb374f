/* The baseline: the same calls of a program of this machine, for strace(1) to make fail one by one. */
#include <unistd.h>

int main(void) {
    for (int i = 0; i < 1000; i++) {
        ssize_t written = write(1, "x", 1);
        (void)written;
    }
    return 0;
}
