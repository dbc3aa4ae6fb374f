// Does what a shell does for `echo one >/f; echo two`: standard output is kept, led to the file, and led back. That it was
// led back isn't checked, as in dash 0.5.12: where dup2 fails, the rest of the output goes into the file.
#include <fcntl.h>
#include <stdio.h>
#include <string.h>
#include <unistd.h>

static int echo(const char *words) {
    ssize_t length = strlen(words);
    return write(1, words, length) == length ? 0 : 1;
}

int main(void) {
    int file = open("/f", O_WRONLY | O_CREAT | O_TRUNC, 0666);
    if (file < 0) { perror("/f"); return 2; }
    int kept = dup(1);
    if (kept < 0 || dup2(file, 1) < 0) { perror("redirect"); return 2; }
    close(file);
    int status = echo("one\n");
    dup2(kept, 1);
    close(kept);
    return echo("two\n") | status;
}
