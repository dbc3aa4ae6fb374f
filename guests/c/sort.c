// Sorts the lines of its input: a list of strings that malloc gives.
#include <stdio.h>
#include <stdlib.h>
#include <string.h>

struct line { struct line *next; char text[]; };

int main(void) {
    struct line *first = NULL;
    char room[256];
    while (fgets(room, sizeof room, stdin)) {
        struct line *line = malloc(sizeof *line + strlen(room) + 1);
        if (!line) { perror("sort"); return 1; }
        strcpy(line->text, room);
        struct line **place = &first;
        while (*place && strcmp((*place)->text, line->text) <= 0) place = &(*place)->next;
        line->next = *place;
        *place = line;
    }
    while (first) {
        struct line *next = first->next;
        fputs(first->text, stdout);
        free(first);
        first = next;
    }
    return 0;
}
