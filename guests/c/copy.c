// Copies one file to another by stdio, and checks every call as a careful program does.
#include <stdio.h>

int main(int argc, char **argv) {
    if (argc != 3) { fprintf(stderr, "usage: copy FROM TO\n"); return 2; }
    FILE *from = fopen(argv[1], "r");
    if (!from) { perror(argv[1]); return 1; }
    FILE *to = fopen(argv[2], "w");
    if (!to) { perror(argv[2]); return 1; }
    char room[256];
    size_t count;
    while ((count = fread(room, 1, sizeof room, from)) > 0)
        if (fwrite(room, 1, count, to) != count) { perror(argv[2]); return 1; }
    if (ferror(from)) { perror(argv[1]); return 1; }
    if (fclose(to) != 0) { perror(argv[2]); return 1; }
    if (printf("done\n") < 0 || fflush(stdout) != 0) { perror("standard output"); return 1; }
    return 0;
}
