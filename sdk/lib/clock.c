/* Time. An event of the machine is a microsecond, or as many as delorean-cc --event-time says, and all clocks are the same. Whoever sleeps
   asks the clock until it is time. */
#include "kernel.h"
#include "wait.h"

#include <errno.h>
#include <sys/time.h>
#include <unistd.h>

enum { MILLION = 1000000 };

extern const unsigned __event_time; /* microseconds of an event: a divisor of a million */

/* In events. */
static unsigned now(void) { return kernel(0, 0, 0, CALL_CLOCK); }
static unsigned second(void) { return MILLION / __event_time; }
static unsigned rest_of_second(unsigned events) { return events % second() * __event_time; }

int clock_gettime(clockid_t clock, struct timespec *t) {
    unsigned n = now();
    (void)clock;
    t->tv_sec = n / second();
    t->tv_nsec = (long)(rest_of_second(n) * 1000);
    return 0;
}

int clock_getres(clockid_t clock, struct timespec *t) {
    (void)clock;
    if (t)
        *t = (struct timespec){0, (long)__event_time * 1000};
    return 0;
}

int timespec_get(struct timespec *t, int base) { return clock_gettime(CLOCK_REALTIME, t) == 0 ? base : 0; }

int gettimeofday(struct timeval *t, void *zone) {
    unsigned n = now();
    (void)zone;
    t->tv_sec = n / second();
    t->tv_usec = (suseconds_t)rest_of_second(n);
    return 0;
}

time_t time(time_t *t) {
    time_t seconds = now() / second();
    if (t)
        *t = seconds;
    return seconds;
}

clock_t clock(void) { return (clock_t)now() * __event_time; }

static int is_before(unsigned n, const struct timespec *t) {
    time_t seconds = n / second();
    return seconds != t->tv_sec ? seconds < t->tv_sec : (long)(rest_of_second(n) * 1000) < t->tv_nsec;
}

int __past(const struct timespec *until) { return !is_before(now(), until); }

static void sleep_for(unsigned microseconds) {
    unsigned begun = now(), events = (microseconds + __event_time - 1) / __event_time;
    WAIT_WHILE(now() - begun < events);
}

int usleep(useconds_t span) {
    sleep_for(span);
    return 0;
}

unsigned sleep(unsigned seconds) {
    while (seconds-- > 0)
        sleep_for(MILLION);
    return 0;
}

int nanosleep(const struct timespec *span, struct timespec *left) {
    if (span->tv_sec < 0 || span->tv_nsec < 0 || span->tv_nsec >= 1000000000) {
        errno = EINVAL;
        return -1;
    }
    sleep((unsigned)span->tv_sec);
    sleep_for((unsigned)(span->tv_nsec + 999) / 1000);
    if (left)
        *left = (struct timespec){0, 0};
    return 0;
}

int clock_nanosleep(clockid_t clock, int flags, const struct timespec *t, struct timespec *left) {
    (void)clock;
    if (flags == 0)
        return nanosleep(t, left) ? errno : 0;
    WAIT_WHILE(!__past(t));
    return 0;
}
