/* Paths, by which files are numbered. */
#include <limits.h>
#include <string.h>
#include "girmolet.h"

/* A working directory is known by the program's own chdir, from the root on. */
static char directory[PATH_MAX] = "/";

/* Writes to `to` the path from the root, without dots; there are no links that could lead elsewhere. */
static void from_root(char *to, const char *path)
{
    size_t length = 0;
    if (*path != '/' && directory[1]) {
        length = strlen(directory);
        memcpy(to, directory, length);
    }
    while (*path) {
        size_t part = strcspn(path, "/");
        if (part == 2 && path[0] == '.' && path[1] == '.') {
            while (length > 0 && to[--length] != '/');
        } else if (part > 0 && !(part == 1 && path[0] == '.') && length + part + 2 < PATH_MAX) {
            to[length++] = '/';
            memcpy(to + length, path, part);
            length += part;
        }
        path += part + (path[part] == '/');
    }
    if (length == 0) to[length++] = '/';
    to[length] = 0;
}

/* A number for st_ino, odd, of a path. */
unsigned long __girmolet_number_of(const char *path)
{
    char whole[PATH_MAX];
    unsigned long number = 5381;
    from_root(whole, path);
    for (const char *p = whole; *p; p++) number = number * 33 ^ (unsigned char)*p;
    return number << 1 | 1;
}

long __girmolet_chdir(const char *path)
{
    char whole[PATH_MAX];
    long result = CALL(chdir, path);
    if (result < 0) return result;
    from_root(whole, path);
    strcpy(directory, whole);
    return 0;
}
