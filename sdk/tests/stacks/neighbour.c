/* A correct program. An array that is cleared is over the next thread's stack, if this one's stack is too small. */
#include <assert.h>
#include <pthread.h>
#include <stdio.h>
#include <string.h>

static int length_of(const char *text) {
    char copy[1536];
    memset(copy, 0, sizeof copy);
    strncpy(copy, text, sizeof copy - 1);
    return (int)strlen(copy);
}

static void *reader(void *text) {
    char line[1024];
    memset(line, 'x', sizeof line);
    snprintf(line, sizeof line, "%s", (char *)text);
    int length = length_of(line);
    assert(strcmp(line, text) == 0);
    assert(length == 3);
    return NULL;
}

int main(void) {
    pthread_t threads[2];
    for (int i = 0; i < 2; i++)
        pthread_create(&threads[i], NULL, reader, "one");
    for (int i = 0; i < 2; i++)
        pthread_join(threads[i], NULL);
    return 0;
}
