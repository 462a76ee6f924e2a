#define _POSIX_C_SOURCE 200809L
#include "saved.h"

#include "ends.h"
#include "loops.h"
#include "seen.h"
#include "segments.h"
#include "sharing.h"

#include <stdio.h>
#include <stdlib.h>
#include <string.h>
#include <unistd.h>

enum { LONGEST_LINE = 512, LONGEST_NAME = 4096 };
#define NO_CHECK 0xCBF29CE484222325u

static char line[LONGEST_LINE] = "\n";
static FILE *file;
static bool saves, is_good;
static uint64_t check; /* of all bytes since the line, to notice damage */

void begin_saved_with(const char *text) { snprintf(line, sizeof line, "%s\n", text); }

static uint64_t checked(uint64_t so_far, const uint8_t *bytes, size_t length) {
    for (size_t j = 0; j < length; j++)
        so_far = (so_far ^ bytes[j]) * 0x100000001B3u;
    return so_far;
}

/* ---------------------------------------------------------------- each thing, written or read */

static void pass(void *what, size_t length) {
    if (length == 0 || !is_good)
        return;
    is_good = (saves ? fwrite(what, 1, length, file) : fread(what, 1, length, file)) == length;
    if (is_good)
        check = checked(check, what, length);
}

static uint64_t pass_number(uint64_t number) {
    pass(&number, sizeof number);
    return is_good ? number : 0;
}

static void pass_list(struct list *l) {
    uint64_t count = pass_number(l->count);
    for (uint64_t j = 0; j < count; j++) {
        uint32_t item = saves ? l->items[j] : 0;
        pass(&item, sizeof item);
        if (!saves)
            push(l, item);
    }
}

static void pass_items(void) {
    uint64_t count = pass_number(item_count());
    for (uint64_t j = 0; j < count; j++) {
        struct item item = {.parent = 0};
        if (saves)
            item = item_of((uint32_t)j);
        pass(&item, sizeof item);
        if (!saves)
            add_item(item);
    }
}

static void write_entry(struct hash entry) { pass(&entry, sizeof entry); }

static void pass_states(void) {
    uint64_t count = pass_number(seen_count());
    if (saves)
        each_seen(write_entry);
    for (uint64_t j = 0; !saves && j < count; j++) {
        struct hash entry = {0, 0};
        pass(&entry, sizeof entry);
        if (is_good)
            put_seen(entry);
    }
}

/* The words of which something is known, and a word beyond the last one. */
static void pass_words(uint32_t size) {
    struct known { uint32_t address, touchers, is_place; } k;
    for (uint32_t at = 0; saves && at < size; at += 4) {
        k = (struct known){at, toucher_word(at), is_made_place(at)};
        if (k.touchers || k.is_place)
            pass(&k, sizeof k);
    }
    k = (struct known){size, 0, 0};
    for (pass(&k, sizeof k); !saves && is_good && k.address < size; pass(&k, sizeof k)) {
        put_toucher_word(k.address, k.touchers);
        if (k.is_place)
            put_place(k.address);
    }
}

static void pass_facts(void) {
    uint64_t count = pass_number(fact_count());
    for (uint64_t j = 0; j < count; j++) {
        struct fact fact;
        memset(&fact, 0, sizeof fact);
        if (saves)
            fact = fact_of(j);
        pass(&fact, sizeof fact);
        if (!saves)
            put_fact(&fact);
    }
}

static void pass_ends(void) {
    uint64_t count = pass_number(end_count());
    for (uint64_t j = 0; j < count; j++) {
        uint32_t forced = 0;
        const char *text = saves ? end_text(j, &forced) : "";
        uint64_t length = pass_number(strlen(text));
        char *copy = room(length + 1, 1);
        memcpy(copy, text, saves ? length : 0);
        pass(&forced, sizeof forced);
        pass(copy, length);
        if (!saves)
            put_end(copy, forced);
        free(copy);
    }
}

static void pass_told(struct stand *s) {
    s->told_length = pass_number(s->told_length);
    if (!saves)
        s->told = room(s->told_length + 1, 1);
    pass(s->told, s->told_length);
}

static void pass_all(struct stand *s, uint32_t memory_size) {
    pass(&s->tally, sizeof s->tally);
    s->tries = pass_number(s->tries);
    pass(&s->seconds, sizeof s->seconds);
    s->of_bound = pass_number(s->of_bound);
    pass_words(memory_size);
    pass_items();
    pass_list(&s->left);
    pass_list(&s->later);
    pass_states();
    pass_facts();
    pass_ends();
    pass_told(s);
}

/* ---------------------------------------------------------------- the file */

bool save_stand(const char *name, const struct stand *s, uint32_t memory_size) {
    char fresh[LONGEST_NAME + 8];
    struct stand copy = *s;
    snprintf(fresh, sizeof fresh, "%s.new", name);
    file = fopen(fresh, "wb");
    if (file == NULL)
        return false;
    saves = true;
    check = NO_CHECK;
    is_good = fputs(line, file) >= 0;
    pass_all(&copy, memory_size);
    uint64_t sum_of_all = check;
    pass(&sum_of_all, sizeof sum_of_all);
    is_good = fflush(file) == 0 && fsync(fileno(file)) == 0 && is_good;
    is_good = fclose(file) == 0 && is_good && rename(fresh, name) == 0;
    if (!is_good)
        unlink(fresh);
    return is_good;
}

static bool skip_line(void) {
    int c;
    while ((c = fgetc(file)) != EOF && c != '\n')
        ;
    return c == '\n';
}

/* Whether its last number is the check of all before. */
static bool is_whole(void) {
    uint8_t bytes[1 << 16];
    uint64_t kept = 0;
    size_t held = 0, got;
    check = NO_CHECK;
    while ((got = fread(bytes + held, 1, sizeof bytes - held, file)) > 0) {
        held += got;
        size_t sure = held > sizeof kept ? held - sizeof kept : 0;
        check = checked(check, bytes, sure);
        memmove(bytes, bytes + sure, held - sure);
        held -= sure;
    }
    memcpy(&kept, bytes, sizeof kept);
    return held == sizeof kept && kept == check;
}

static _Noreturn void refuse(void) {
    printf("damaged\n");
    fflush(stdout);
    exit(3);
}

void take_stand(const char *name, struct stand *s, uint32_t memory_size) {
    file = fopen(name, "rb");
    if (file == NULL || !skip_line() || !is_whole())
        refuse();
    rewind(file);
    saves = false;
    is_good = skip_line();
    pass_all(s, memory_size);
    fclose(file);
    if (!is_good)
        refuse();
}
