/* Reading lines of any length. */
#include <errno.h>
#include <stdio.h>
#include <stdlib.h>

static int has_room(char **line, size_t *room, size_t length) {
    if (*line && length + 2 <= *room)
        return 1;
    char *larger = realloc(*line, 2 * length + 64);
    if (larger == NULL)
        return 0;
    *line = larger;
    *room = 2 * length + 64;
    return 1;
}

ssize_t getdelim(char **line, size_t *room, int last, FILE *f) {
    size_t length = 0;
    int c;
    while ((c = getc(f)) != EOF) {
        if (!has_room(line, room, length))
            return -1;
        (*line)[length++] = (char)c;
        if (c == last)
            break;
    }
    if (length == 0)
        return -1;
    (*line)[length] = 0;
    return (ssize_t)length;
}

ssize_t getline(char **line, size_t *room, FILE *f) { return getdelim(line, room, '\n', f); }
