/* Two threads cut texts by strtok, which has one place of its own. The bug is in line 14. */
#include <assert.h>
#include <pthread.h>
#include <string.h>

static int words[2];

static void *count(void *which) {
    char text[16];
    strcpy(text, "a b c");
    char *rest = text, *next;
    int n = 0;
#ifndef MENDED
    for (next = strtok(text, " "); next; next = strtok(NULL, " "))
#else
    for (next = strtok_r(text, " ", &rest); next; next = strtok_r(NULL, " ", &rest))
#endif
        n++;
    (void)rest;
    words[(int)(long)which] = n;
    return NULL;
}

int main(void) {
    pthread_t t[2];
    for (long i = 0; i < 2; i++)
        pthread_create(&t[i], NULL, count, (void *)i);
    for (int i = 0; i < 2; i++)
        pthread_join(t[i], NULL);
    assert(words[0] == 3 && words[1] == 3);
    return 0;
}
