/* The run program of the twin in ordinary C: reads a run file from standard input and prints a line for each operation. */
#include "twin.h"

#include <stdio.h>
#include <string.h>

enum { LONGEST_FILE = 32768, JOURNAL = 65280, LONGEST_LINE = 33 };

/* A run file that is being read. */
struct input { const uint8_t *at, *end; };

/* The next n bytes, or null past the end. */
static const uint8_t *take(struct input *in, size_t n)
{
    const uint8_t *p = in->at;
    if ((size_t)(in->end - p) < n)
        return NULL;
    in->at += n;
    return p;
}

static bool take16(struct input *in, unsigned *v)
{
    const uint8_t *p = take(in, 2);
    if (p)
        *v = p[0] << 8 | p[1];
    return p;
}

/* Settings and memory into m; the operations to *ops and *count. False if the file is malformed. */
static bool load(struct machine *m, struct input in, const uint8_t **ops, unsigned *count)
{
    unsigned settings, ram_top, pieces;
    if (!take16(&in, &settings) || settings < 2 || settings > 3 || !take16(&in, &ram_top))
        return false;
    m->ram_top = ram_top;
    m->manual = true;
    if (settings == 3) {
        const uint8_t *flag = take(&in, 1);
        if (!flag || *flag > 1)
            return false;
        m->manual = *flag;
    }
    if (!take16(&in, &pieces))
        return false;
    while (pieces-- > 0) {
        unsigned address, length;
        if (!take16(&in, &address) || !take16(&in, &length) || address + length > MEMORY_SIZE)
            return false;
        const uint8_t *bytes = take(&in, length);
        if (!bytes)
            return false;
        memcpy(m->memory + address, bytes, length);
    }
    if (!take16(&in, count) || !(*ops = take(&in, *count)) || in.at != in.end)
        return false;
    for (unsigned i = 0; i < *count; i++)
        if ((*ops)[i] > 5)
            return false;
    return true;
}

static int operate(struct machine *m, uint8_t op)
{
    switch (op) {
    case 0: return machine_step(m, true);
    case 1: return machine_interrupt(m, IRQ, true);
    case 2: return machine_interrupt(m, FIRQ, true);
    case 3: return machine_interrupt(m, NMI, true);
    case 4: return machine_reset(m, true);
    default: return machine_undo(m);
    }
}

static char *put_decimal(char *out, uint64_t v)
{
    char digits[20];
    int n = 0;
    do
        digits[n++] = '0' + v % 10;
    while (v /= 10);
    while (n > 0)
        *out++ = digits[--n];
    return out;
}

static char *put_hex(char *out, unsigned v, int digits)
{
    while (digits-- > 0)
        *out++ = "0123456789ABCDEF"[v >> 4 * digits & 15];
    return out;
}

/* Answer, PC, CC, cycles. */
static char *put_line(char *out, int answer, const struct cpu *c)
{
    out = put_decimal(out, answer);
    *out++ = ' ';
    out = put_hex(out, c->pc, 4);
    *out++ = ' ';
    out = put_hex(out, c->cc, 2);
    *out++ = ' ';
    out = put_decimal(out, c->cycles);
    *out++ = '\n';
    return out;
}

int main(void)
{
    static uint8_t file[LONGEST_FILE + 1], memory[MEMORY_SIZE], journal[JOURNAL];
    static char text[LONGEST_FILE * LONGEST_LINE];
    struct machine m = {
        .cpu.cc = I | F, .memory = memory, .memory_size = sizeof memory,
        .journal = journal, .journal_size = sizeof journal,
    };
    const uint8_t *ops;
    unsigned count;
    size_t length = fread(file, 1, sizeof file, stdin);
    if (length > LONGEST_FILE || !load(&m, (struct input){ file, file + length }, &ops, &count)) {
        printf("%d\n", MALFORMED);
        return 0;
    }
    char *end = text;
    for (unsigned i = 0; i < count; i++) {
        int answer = operate(&m, ops[i]);
        end = put_line(end, answer, &m.cpu);
    }
    fwrite(text, 1, end - text, stdout);
    return 0;
}
