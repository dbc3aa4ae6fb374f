// A child reads what its parent writes into a pipe, and writes it in capitals.
#include <ctype.h>
#include <stdio.h>
#include <string.h>
#include <sys/wait.h>
#include <unistd.h>

static int shout(int from) {
    char byte;
    ssize_t count;
    while ((count = read(from, &byte, 1)) == 1) putchar(toupper(byte));
    putchar('\n');
    return count == 0 && fflush(stdout) == 0 ? 0 : 1;
}

int main(int argc, char **argv) {
    int ends[2], word;
    if (pipe(ends) != 0) { perror("pipe"); return 1; }
    pid_t child = fork();
    if (child < 0) { perror("fork"); return 1; }
    if (child == 0) { close(ends[1]); return shout(ends[0]); }
    close(ends[0]);
    for (int i = 1; i < argc; i++)
        if (write(ends[1], argv[i], strlen(argv[i])) < 0) { perror("write"); return 1; }
    close(ends[1]);
    if (waitpid(child, &word, 0) < 0) { perror("waitpid"); return 1; }
    printf("the child ended with %d\n", WIFEXITED(word) ? WEXITSTATUS(word) : -1);
    return 0;
}
