/* stdin, stdout and stderr, as the C library's functions see them. */
#include "program.h"

#include <stdio.h>
#include <unistd.h>

static int put_one(char c, FILE *f) {
    (void)f;
    __put(&c, 1);
    return (unsigned char)c;
}

static int get_one(FILE *f) {
    unsigned char c;
    (void)f;
    return read(STDIN_FILENO, &c, 1) == 1 ? c : _FDEV_EOF;
}

static FILE output = FDEV_SETUP_STREAM(put_one, NULL, NULL, _FDEV_SETUP_WRITE);
static FILE errors = FDEV_SETUP_STREAM(put_one, NULL, NULL, _FDEV_SETUP_WRITE);
static FILE input = FDEV_SETUP_STREAM(NULL, get_one, NULL, _FDEV_SETUP_READ);
FILE *const stdin = &input, *const stdout = &output, *const stderr = &errors;
