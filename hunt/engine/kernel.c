#include "inside.h"
#include "sharing.h"

#include <string.h>

static uint8_t random_byte(struct machine *m) {
    uint64_t state = m->devices.random;
    m->devices.random = state * 6364136223846793005u + (2 << 1 | 1);
    uint32_t mixed_ = (uint32_t)((state >> 18 ^ state) >> 27), turn = (uint32_t)(state >> 59);
    return (uint8_t)(mixed_ >> turn | mixed_ << (-turn & 31));
}

/* What a step wants from outside. */
struct need {
    bool any;
    uint32_t kind, channel, buffer, length;
};

static struct need need_of(const struct machine *m, const struct thread *t, struct next next) {
    if (next.kind == DEVICE_LOAD)
        return (struct need){.any = true, .kind = next.address == MOMENT_WORD ? MOMENT_LOAD : INPUT_LOAD};
    if (next.kind != CALL)
        return (struct need){.any = false};
    uint32_t call = t->x[17], first = t->x[10], second = t->x[11], third = t->x[12];
    struct need n = {.any = true, .kind = call};
    if (call == CLOCK)
        return n;
    if (call == WRITE || call == READ) {
        n.channel = first;
        n.buffer = second;
        n.length = third < LONGEST ? third : LONGEST;
    } else if (call == RANDOM) {
        n.buffer = first;
        n.length = second < LONGEST ? second : LONGEST;
    } else
        n.any = false;
    if ((uint64_t)n.buffer + n.length > m->setup->size)
        n.any = false;
    return n;
}

static bool fits(struct need n, const struct answer *a) {
    if (a->kind != n.kind)
        return false;
    bool refused = a->result == NOTHING_NOW || a->result == REFUSED;
    switch (n.kind) {
    case WRITE: return a->length == 0 && (a->result <= n.length || refused);
    case READ: return refused ? a->length == 0 : a->result <= n.length && a->length == a->result;
    case RANDOM: return a->result == n.length && a->length == n.length;
    default: return a->length == 0;
    }
}

/* The next answer that was handed in for this thread, if it fits. */
static bool take_answer(struct machine *m, uint32_t number, struct need n, struct answer *got) {
    for (size_t j = 0; j < m->setup->answer_count; j++) {
        struct answer *a = &m->setup->answers[j];
        if (a->used || (a->thread != ANYONE && a->thread != number))
            continue;
        if (!fits(n, a))
            return false;
        a->used = 1;
        m->answers_taken = sum(m->answers_taken, mixed(j, 5));
        *got = *a;
        return true;
    }
    return false;
}

static uint32_t input_left(const struct machine *m) { return m->setup->input_length - m->devices.input_at; }

static void take_input(struct machine *m, struct answer *a, uint32_t length) {
    uint32_t count = length < input_left(m) ? length : input_left(m);
    memcpy(a->bytes, m->setup->input + m->devices.input_at, count);
    m->devices.input_at += count;
    a->length = (uint16_t)count;
}

static void take_pipe(struct machine *m, struct answer *a, uint32_t pipe, uint32_t length) {
    struct devices *d = &m->devices;
    uint32_t count = length < d->held[pipe] ? length : d->held[pipe];
    memcpy(a->bytes, d->pipe[pipe], count);
    memmove(d->pipe[pipe], d->pipe[pipe] + count, d->held[pipe] - count);
    d->held[pipe] -= (uint16_t)count;
    a->length = (uint16_t)count;
}

static uint32_t put_pipe(struct machine *m, uint32_t pipe, uint32_t buffer, uint32_t length) {
    struct devices *d = &m->devices;
    uint32_t free = PIPE_ROOM - d->held[pipe], count = length < free ? length : free;
    memcpy(d->pipe[pipe] + d->held[pipe], m->memory + buffer, count);
    d->held[pipe] += (uint16_t)count;
    return count;
}

static void ask_devices(struct machine *m, struct need n, struct answer *a) {
    *a = (struct answer){.kind = (uint8_t)n.kind, .bytes = a->bytes};
    uint8_t *none = a->bytes;
    switch (n.kind) {
    case CLOCK:
    case MOMENT_LOAD:
        a->result = ++m->devices.reads_of_clock * m->setup->tick;
        return;
    case INPUT_LOAD:
        take_input(m, a, 1);
        a->result = a->length ? a->bytes[0] : 0xFFFFFFFF;
        a->length = 0;
        return;
    case RANDOM:
        for (uint32_t j = 0; j < n.length; j++)
            none[j] = random_byte(m);
        a->length = (uint16_t)n.length;
        a->result = n.length;
        return;
    case WRITE:
        if (n.channel > CONSOLE_CHANNEL) {
            a->result = REFUSED;
            return;
        }
        a->result = n.channel == CONSOLE_CHANNEL ? n.length : put_pipe(m, n.channel, n.buffer, n.length);
        if (a->result == 0 && n.length > 0)
            a->result = NOTHING_NOW;
        return;
    default:
        if (n.channel > INPUT_CHANNEL || n.channel == CONSOLE_CHANNEL) {
            a->result = REFUSED;
            return;
        }
        if (n.channel == INPUT_CHANNEL)
            take_input(m, a, n.length);
        else
            take_pipe(m, a, n.channel, n.length);
        a->result = a->length == 0 && n.length > 0 ? NOTHING_NOW : a->length;
    }
}

static void put_console(struct machine *m, const uint8_t *bytes, uint32_t length) {
    struct devices *d = &m->devices;
    if (d->console_length + length > m->console_room) {
        m->console_room = 2 * (d->console_length + length) + 256;
        m->console = more_room(m->console, m->console_room, 1);
    }
    for (uint32_t j = 0; j < length; j++) {
        m->console[d->console_length++] = bytes[j];
        d->console = chained(d->console, bytes[j] + 1u);
    }
}

static void stop_thread(struct machine *m, struct thread *t, uint32_t status, uint32_t code) {
    t->status = status;
    t->code = code;
    m->ended |= 1ull << (t - m->threads);
    happened(m);
}

static void outside_call(struct machine *m, uint32_t number, struct next next, struct served *served) {
    static _Thread_local uint8_t bytes[LONGEST];
    struct thread *t = &m->threads[number];
    struct need n = need_of(m, t, next);
    uint32_t context = context_of(m, number);
    if (!n.any) {
        t->x[10] = BAD_BUFFER;
        t->pc += 4;
        return;
    }
    struct devices before = m->devices;
    struct answer a = {.bytes = bytes};
    bool told = take_answer(m, number, n, &a);
    if (!told)
        ask_devices(m, n, &a);
    served->answered = true;
    served->answer = a;
    if (next.kind == DEVICE_LOAD) {
        put_register(t, code_at(m, t->pc)->rd, a.result);
        served->loads = true;
        served->load_address = next.address;
        served->load_value = a.result;
    } else
        t->x[10] = a.result;
    if (n.kind == WRITE) {
        for (uint32_t j = 0; j < n.length; j++)
            note_load(context, n.buffer + j);
        served->channel = n.channel;
        served->output = m->memory + n.buffer;
        served->output_length = a.result <= n.length ? a.result : 0;
        if (n.channel == CONSOLE_CHANNEL)
            put_console(m, served->output, served->output_length);
    }
    if (n.kind == READ || n.kind == RANDOM)
        put_bytes(m, context, n.buffer, a.bytes, a.length);
    if (told || memcmp(&before, &m->devices, sizeof before) != 0) {
        happened(m);
    }
    t->pc += 4;
}

static uint32_t spawn(struct machine *m, uint32_t number) {
    struct thread *t = &m->threads[number];
    if (m->thread_count >= m->setup->most_threads || t->x[10] % 4)
        return REFUSED;
    uint32_t child = m->thread_count++;
    struct thread *c = &m->threads[child];
    memset(c, 0, sizeof *c);
    c->pc = t->x[10];
    c->x[2] = t->x[11];
    c->x[10] = t->x[12];
    c->reservation = NO_RESERVATION;
    happened(m);
    return child;
}

static uint32_t request(struct machine *m, const struct thread *t) {
    uint32_t buffer = t->x[10], length = t->x[11] < LONGEST ? t->x[11] : LONGEST;
    if (buffer % 4 || (uint64_t)buffer + 4 + length > m->setup->size)
        return BAD_BUFFER;
    if (m->requested)
        return REFUSED;
    m->requested = true;
    m->request_buffer = buffer;
    m->request_length = length;
    happened(m);
    return 0;
}

static uint32_t has_ended(struct machine *m, uint32_t number) {
    uint32_t other = m->threads[number].x[10];
    if (other >= m->thread_count)
        return REFUSED;
    return m->threads[other].status != LIVE;
}

static void inner_call(struct machine *m, uint32_t number) {
    struct thread *t = &m->threads[number];
    uint32_t call = t->x[17], result = UNKNOWN;
    if (call == IRET && t->masked) {
        t->pc = t->saved_pc;
        t->x[10] = t->saved_a0;
        t->x[11] = t->saved_a1;
        t->saved_pc = t->saved_a0 = t->saved_a1 = 0;
        t->masked = 0;
        return;
    }
    t->pc += 4;
    switch (call) {
    case EXIT: stop_thread(m, t, EXITED, t->x[10]); return;
    case SPAWN: result = spawn(m, number); break;
    case HANDLER:
        result = t->x[10] % 4 ? REFUSED : 0;
        if (result == 0)
            t->handler = t->x[10];
        break;
    case IRET: result = REFUSED; break;
    case REQUEST: result = request(m, t); break;
    case SELF: result = number; break;
    case YIELD: result = 0; break;
    case HAS_ENDED: result = has_ended(m, number); break;
    }
    t->x[10] = result;
}

/* The next instruction of the thread, which is a serial one. */
void serve(struct machine *m, uint32_t number, struct next next, struct served *served) {
    struct thread *t = &m->threads[number];
    *served = (struct served){.loads = false};
    m->time++;
    switch (next.kind) {
    case FAULT: stop_thread(m, t, FAULTED, next.cause); break;
    case BREAK: stop_thread(m, t, FAULTED, 3); break;
    case DEVICE_LOAD: outside_call(m, number, next, served); break;
    case DEVICE_STORE: {
        static _Thread_local uint8_t byte;
        byte = (uint8_t)t->x[code_at(m, t->pc)->rs2];
        served->channel = CONSOLE_CHANNEL;
        served->output = &byte;
        served->output_length = 1;
        put_console(m, &byte, 1);
        happened(m);
        t->pc += 4;
        break;
    }
    default:
        if (t->x[17] >= WRITE && t->x[17] <= CLOCK)
            outside_call(m, number, next, served);
        else
            inner_call(m, number);
    }
    end_chunk(t);
}

/* Does the outstanding request, with the data that were handed in, or with bytes of the input; how many they were. */
uint32_t do_request(struct machine *m) {
    uint32_t length = input_left(m) < m->request_length ? input_left(m) : m->request_length;
    const uint8_t *data = m->setup->input + m->devices.input_at;
    if (m->dmas_done < m->setup->dma_count && m->setup->dmas[m->dmas_done].length <= m->request_length) {
        data = m->setup->dmas[m->dmas_done].bytes;
        length = m->setup->dmas[m->dmas_done].length;
    } else
        m->devices.input_at += length;
    uint8_t count[4] = {(uint8_t)length, (uint8_t)(length >> 8), 0, 0};
    m->dmas_done++;
    m->time++;
    put_bytes(m, BY_DMA, m->request_buffer, count, 4);
    put_bytes(m, BY_DMA, m->request_buffer + 4, data, length);
    m->requested = false;
    m->request_buffer = m->request_length = 0;
    happened(m);
    return length;
}
