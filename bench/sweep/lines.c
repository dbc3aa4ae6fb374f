/* Writes 20,000 lines to a file by stdio, and reads and counts them: 788 calls with musl. */
#include <stdio.h>

enum { LINES = 20000 };

static int written(void) {
    FILE *file = fopen("/lines", "w");
    if (file == NULL) {
        return 0;
    }
    for (int line = 0; line < LINES; line++) {
        fputs("a line of twenty by\n", file);
    }
    return fclose(file) == 0;
}

static int counted(void) {
    char line[64];
    int lines = 0;
    FILE *file = fopen("/lines", "r");
    if (file == NULL) {
        return 0;
    }
    while (fgets(line, sizeof line, file) != NULL) {
        lines++;
    }
    fclose(file);
    return lines;
}

int main(void) {
    if (!written() || counted() != LINES) {
        puts("not all lines");
        return 1;
    }
    puts("all lines");
    return 0;
}
