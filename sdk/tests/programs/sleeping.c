/* Sleeps for two seconds, by each of the ways. */
#include <assert.h>
#include <stdio.h>
#include <sys/time.h>
#include <time.h>
#include <unistd.h>

int main(void) {
    struct timeval before, after;
    struct timespec span = {0, 500000000}, now;
    time_t begun = time(NULL);
    gettimeofday(&before, NULL);
    sleep(1);
    usleep(500000);
    nanosleep(&span, NULL);
    gettimeofday(&after, NULL);
    clock_gettime(CLOCK_REALTIME, &now);
    long passed = (after.tv_sec - before.tv_sec) * 1000000L + after.tv_usec - before.tv_usec;
    assert(passed >= 2000000 && passed < 3000000 && time(NULL) - begun >= 1 && now.tv_sec >= after.tv_sec);
    printf("slept\n");
    return 0;
}
