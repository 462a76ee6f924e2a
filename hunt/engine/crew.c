#define _POSIX_C_SOURCE 200809L
#include "crew.h"

#include "machine.h"

#include <pthread.h>
#include <sched.h>
#include <stdio.h>
#include <stdlib.h>
#include <string.h>
#include <time.h>

static uint32_t size = 1, started = 1;
static _Thread_local uint32_t number;
static pthread_mutex_t lock = PTHREAD_MUTEX_INITIALIZER;
static pthread_cond_t begins = PTHREAD_COND_INITIALIZER, is_done = PTHREAD_COND_INITIALIZER;
static void (*present)(void); /* what is done together, the how manieth it is, and how many are at it */
static uint64_t times;
static uint32_t at_it;

void set_crew(uint32_t wanted) { size = wanted < 1 ? 1 : wanted > MOST_OF_CREW ? MOST_OF_CREW : wanted; }

uint32_t crew_size(void) { return size; }

uint32_t crew_number(void) { return number; }

static void *take_part(void *given) {
    number = (uint32_t)(uintptr_t)given;
    uint64_t done = 0;
    pthread_mutex_lock(&lock);
    for (;;) {
        while (times == done || number >= size)
            pthread_cond_wait(&begins, &lock);
        done = times;
        pthread_mutex_unlock(&lock);
        present();
        pthread_mutex_lock(&lock);
        if (--at_it == 0)
            pthread_cond_signal(&is_done);
    }
    return NULL;
}

static void start_others(void) {
    for (; started < size; started++) {
        pthread_t thread;
        if (pthread_create(&thread, NULL, take_part, (void *)(uintptr_t)started) != 0)
            fail("no thread for the search");
    }
}

void together(void (*work)(void)) {
    if (size == 1) {
        work();
        return;
    }
    pthread_mutex_lock(&lock);
    present = work;
    at_it = size - 1;
    times++;
    pthread_mutex_unlock(&lock);
    start_others();
    pthread_cond_broadcast(&begins);
    work();
    pthread_mutex_lock(&lock);
    while (at_it > 0)
        pthread_cond_wait(&is_done, &lock);
    pthread_mutex_unlock(&lock);
}

/* ---------------------------------------------------------------- locks */

void spin_lock(atomic_flag *flag) {
    if (size == 1)
        return;
    for (int tries = 1; atomic_flag_test_and_set_explicit(flag, memory_order_acquire); tries++)
        if (tries % 64 == 0)
            sched_yield();
}

void spin_unlock(atomic_flag *flag) { atomic_flag_clear_explicit(flag, memory_order_release); }

/* ---------------------------------------------------------------- delays */

static const char *delays(void) {
    static const char *_Atomic text;
    if (text == NULL)
        text = getenv("DELOREAN_SEARCH_DELAYS") ? getenv("DELOREAN_SEARCH_DELAYS") : "";
    return text;
}

static uint64_t drawn(void) {
    static _Thread_local uint64_t state;
    if (state == 0)
        state = 0x9E3779B97F4A7C15u * (number + 1);
    state ^= state << 13;
    state ^= state >> 7;
    state ^= state << 17;
    return state;
}

static void wait_for(const char *microseconds) {
    bool mostly_less = microseconds[0] == '+';
    uint64_t us = strtoull(microseconds + mostly_less, NULL, 10);
    if (mostly_less)
        us = drawn() % 8 == 0 ? drawn() % (us + 1) : 0;
    struct timespec t = {.tv_sec = (time_t)(us / 1000000), .tv_nsec = (long)(us % 1000000 * 1000)};
    if (us > 0)
        nanosleep(&t, NULL);
}

void delay(const char *point) {
    const char *at = delays();
    if (*at == 0)
        return;
    for (size_t length = strlen(point); *at != 0;) {
        bool is_here = strncmp(at, point, length) == 0 && at[length] == ':';
        const char *who = is_here ? at + length + 1 : at;
        if (is_here && (*who == '*' || strtoul(who, NULL, 10) == number) && strchr(who, ':'))
            wait_for(strchr(who, ':') + 1);
        at += strcspn(at, ",");
        at += *at == ',';
    }
}
