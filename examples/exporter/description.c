#include "description.h"
#include <errno.h>
#include <stdarg.h>
#include <stdio.h>
#include <stdlib.h>
#include <string.h>

enum { MOST_TEXT = 1 << 20, MOST_WORDS = MOST_BUCKETS + 8, MOST_NAME = 200 };

void fault(const char *path, size_t line, const char *words, ...) {
    va_list rest;
    va_start(rest, words);
    fflush(stdout);
    fprintf(stderr, "exporter: %s:", path);
    if (line) fprintf(stderr, "%zu:", line);
    fputc(' ', stderr);
    vfprintf(stderr, words, rest);
    fputc('\n', stderr);
    va_end(rest);
    exit(2);
}

static void *must(void *memory) {
    if (!memory) {
        fputs("exporter: no memory is left\n", stderr);
        exit(2);
    }
    return memory;
}

uint8_t *contents(const char *path, size_t most, size_t *length, const char *from, size_t line) {
    FILE *file = fopen(path, "rb");
    if (!file) fault(from, line, "cannot read %s: %s", path, strerror(errno));
    uint8_t *bytes = must(malloc(most + 1));
    *length = fread(bytes, 1, most + 1, file);
    if (ferror(file)) fault(from, line, "cannot read %s: %s", path, strerror(errno));
    fclose(file);
    if (*length > most) fault(from, line, "%s has more than %zu bytes", path, most);
    return bytes;
}

/* The bytes of the character at the start of a text of UTF-8, or 0 where it is none: too long a form, a surrogate, past 10FFFF. */
static size_t character(const uint8_t *t, size_t left) {
    if (t[0] < 0x80) return 1;
    size_t n = t[0] >= 0xF0 ? 4 : t[0] >= 0xE0 ? 3 : 2;
    if (t[0] < 0xC2 || t[0] > 0xF4 || n > left) return 0;
    for (size_t i = 1; i < n; i++)
        if ((t[i] & 0xC0) != 0x80) return 0;
    bool bad = (t[0] == 0xE0 && t[1] < 0xA0) || (t[0] == 0xED && t[1] > 0x9F) || (t[0] == 0xF0 && t[1] < 0x90) || (t[0] == 0xF4 && t[1] > 0x8F);
    return bad ? 0 : n;
}

/* ---- a line's words */

typedef struct Line {
    const char *path;
    size_t number;
    char *words[MOST_WORDS];
    bool quoted[MOST_WORDS];
    size_t count;
} Line;

/* Takes a text in quotes, whose escapes are \\, \" and \n, in place; `from` is after the first quote. What follows the last is returned. */
static char *unquote(const Line *line, char *from) {
    char *to = from;
    while (*from != '"') {
        if (!*from) fault(line->path, line->number, "a text in quotes has no end");
        if (*from == '\\') {
            from++;
            if (*from != '\\' && *from != '"' && *from != 'n') fault(line->path, line->number, "after \\ in a text comes \\, \" or n");
            *to++ = *from == 'n' ? '\n' : *from;
            from++;
        } else {
            *to++ = *from++;
        }
    }
    from++;
    *to = 0;
    return from;
}

static bool blank(char c) {
    return c == ' ' || c == '\t';
}

static void split(Line *line, char *at) {
    line->count = 0;
    for (;;) {
        while (blank(*at)) at++;
        if (!*at || *at == '#') return;
        if (line->count == MOST_WORDS) fault(line->path, line->number, "more than %d words", MOST_WORDS);
        bool quoted = line->quoted[line->count] = *at == '"';
        char *word = line->words[line->count++] = quoted ? at + 1 : at;
        if (quoted) at = unquote(line, word);
        while (!quoted && *at && !blank(*at) && *at != '#') at++;
        if (*at && !blank(*at) && *at != '#') fault(line->path, line->number, "a blank is missing after a text in quotes");
        char stop = *at;
        *at = 0;
        if (!blank(stop)) return;
        at++;
    }
}

/* ---- what a word says */

static uint64_t number(const Line *line, const char *word, unsigned base, uint64_t least, uint64_t most, const char *what) {
    uint64_t n = 0;
    const char *at = word;
    for (; *at; at++) {
        unsigned digit = *at >= '0' && *at <= '9'   ? (unsigned)(*at - '0')
                         : *at >= 'A' && *at <= 'F' ? (unsigned)(*at - 'A' + 10)
                         : *at >= 'a' && *at <= 'f' ? (unsigned)(*at - 'a' + 10)
                                                    : 99;
        if (digit >= base) fault(line->path, line->number, "%s is a %s number, and not %s", what, base == 16 ? "hexadecimal" : "decimal", word);
        if (n > most) break;
        n = n * base + digit;
    }
    if (at == word || n < least || n > most)
        fault(line->path, line->number, base == 16 ? "%s is from %llX to %llX, and not %s" : "%s is from %llu to %llu, and not %s", what,
              (unsigned long long)least, (unsigned long long)most, word);
    return n;
}

static bool letter(char c) {
    return (c >= 'a' && c <= 'z') || (c >= 'A' && c <= 'Z') || c == '_';
}

static char *copy(const char *text) {
    return strcpy(must(malloc(strlen(text) + 1)), text);
}

/* A name of a metric, with colons, or of a label, without. */
static char *name(const Line *line, const char *word, bool colons, const char *what) {
    bool good = *word && strlen(word) <= MOST_NAME;
    for (const char *at = word; *at; at++)
        good = good && (letter(*at) || (colons && *at == ':') || (at > word && *at >= '0' && *at <= '9'));
    if (!good) fault(line->path, line->number, "%s has letters, digits and _, no digit first, and not %s", what, word);
    return copy(word);
}

static Place place(const Line *line, const char *at, const char *bytes, unsigned most, size_t times) {
    Place p = {(uint16_t)number(line, at, 16, 0, 0xFFFF, "an address"), (unsigned)number(line, bytes, 10, 1, most, "the count of bytes")};
    if (p.at + p.bytes * times > DOORHAWSER_MEMORY) fault(line->path, line->number, "what lies from %s on reaches past FFFF", at);
    return p;
}

/* ---- lines */

static void takes(const Line *line, size_t least, size_t most, const char *words) {
    if (line->count - 1 < least || line->count - 1 > most) fault(line->path, line->number, "%s is followed by %s", line->words[0], words);
}

static void once(const Line *line, bool before) {
    if (before) fault(line->path, line->number, "a second %s", line->words[0]);
}

static void label(Description *d, const Line *line) {
    takes(line, 2, 2, "a name and a value");
    char *n = name(line, line->words[1], false, "a label");
    if (!strncmp(n, "__", 2) || !strcmp(n, "le") || !strcmp(n, "controller")) fault(line->path, line->number, "the label %s is taken", n);
    for (size_t i = 0; i < d->label_count; i++)
        if (!strcmp(d->labels[i].name, n)) fault(line->path, line->number, "a second label %s", n);
    if (d->label_count == MOST_LABELS) fault(line->path, line->number, "more than %d labels", MOST_LABELS);
    d->labels[d->label_count++] = (Label){n, copy(line->words[2])};
}

static void interrupt(Description *d, const Line *line) {
    static const char *const names[] = {[DOORHAWSER_IRQ] = "irq", [DOORHAWSER_FIRQ] = "firq", [DOORHAWSER_NMI] = "nmi"};
    takes(line, 2, 2, "irq, firq or nmi, and the cycles from one to the next");
    size_t which = 0;
    while (which < 3 && strcmp(names[which], line->words[1])) which++;
    if (which == 3) fault(line->path, line->number, "an interrupt is irq, firq or nmi, and not %s", line->words[1]);
    once(line, d->every[which]);
    d->every[which] = number(line, line->words[2], 10, 100, 1000000000, "the count of cycles");
}

static void settings(Description *d, const Line *line) {
    takes(line, 1, 1, "one word");
    const char *word = line->words[1];
    if (!strcmp(line->words[0], "ram_top")) {
        once(line, d->has_ram_top);
        d->has_ram_top = true;
        d->settings.ram_top = (uint16_t)number(line, word, 16, 0, 0xFFFF, "ram_top");
    } else {
        once(line, d->has_flags);
        d->has_flags = true;
        if (strcmp(word, "manual") && strcmp(word, "bought")) fault(line->path, line->number, "flags are manual or bought, and not %s", word);
        d->settings.flags = *word == 'm' ? DOORHAWSER_MANUAL : DOORHAWSER_BOUGHT;
    }
}

static void firmware(Description *d, const Line *line) {
    takes(line, 1, 1, "a file");
    once(line, d->firmware);
    const char *word = line->words[1], *slash = strrchr(d->path, '/');
    size_t folder = *word != '/' && slash ? (size_t)(slash - d->path) + 1 : 0;
    if (!*word) fault(line->path, line->number, "firmware is followed by a file");
    d->firmware_line = line->number;
    d->firmware = must(malloc(folder + strlen(word) + 1));
    memcpy(d->firmware, d->path, folder);
    strcpy(d->firmware + folder, word);
}

static void metric(Description *d, const Line *line, Kind kind) {
    takes(line, 2, 2, "a name and a text in quotes");
    if (!line->quoted[2]) fault(line->path, line->number, "the help stands in quotes");
    if (d->metric_count == MOST_METRICS) fault(line->path, line->number, "more than %d metrics", MOST_METRICS);
    char *n = name(line, line->words[1], true, "a metric");
    if (!strncmp(n, "doorhawser_", 11)) fault(line->path, line->number, "names with doorhawser_ are the exporter's own");
    for (size_t i = 0; i < d->metric_count; i++)
        if (!strcmp(d->metrics[i].name, n)) fault(line->path, line->number, "a second metric %s", n);
    d->metrics[d->metric_count++] = (Metric){.kind = kind, .name = n, .help = copy(line->words[2]), .line = line->number};
}

static void buckets(Metric *m, const Line *line) {
    takes(line, 3, 3, "an address, how many there are, and the bytes of each");
    once(line, m->buckets);
    m->buckets = (unsigned)number(line, line->words[2], 10, 1, MOST_BUCKETS, "the count of buckets");
    m->value = place(line, line->words[1], line->words[3], 4, m->buckets);
}

/* `bounds every 20`, `bounds every 20 open` or the numbers themselves, one for each bucket, or for each but the last. */
static void bounds(Metric *m, const Line *line) {
    if (!m->buckets) fault(line->path, line->number, "bounds come after buckets");
    once(line, m->bounds);
    bool every = line->count > 1 && !strcmp(line->words[1], "every"), open = line->count == 4 && !strcmp(line->words[3], "open");
    if (every && line->count != 3 && !open) fault(line->path, line->number, "bounds every is followed by a number, and then open or nothing");
    m->bounded = every ? m->buckets - (open ? 1 : 0) : (unsigned)(line->count - 1);
    if (m->bounded != m->buckets && m->bounded + 1 != m->buckets)
        fault(line->path, line->number, "%u bounds for %u buckets: each has one, or each but the last", m->bounded, m->buckets);
    m->bounds = must(malloc((m->bounded + 1) * sizeof *m->bounds));
    uint64_t step = every ? number(line, line->words[2], 10, 1, 1000000000 / MOST_BUCKETS, "the width of a bucket") : 0;
    for (unsigned i = 0; i < m->bounded; i++) {
        m->bounds[i] = every ? step * (i + 1) : number(line, line->words[1 + i], 10, 0, 1000000000, "a bound");
        if (i && m->bounds[i] <= m->bounds[i - 1]) fault(line->path, line->number, "the bound %s is not above the one before it", line->words[1 + i]);
    }
}

static void sum(Metric *m, const Line *line) {
    once(line, m->has_sum);
    m->has_sum = true;
    if (line->count == 2 && !strcmp(line->words[1], "lowest")) return;
    takes(line, 2, 2, "lowest, or an address and a count of bytes");
    m->sum = place(line, line->words[1], line->words[2], 8, 1);
}

static void value(Metric *m, const Line *line) {
    takes(line, 2, 2, "an address and a count of bytes");
    once(line, m->value.bytes);
    m->value = place(line, line->words[1], line->words[2], 8, 1);
}

static void scale(Metric *m, const Line *line) {
    takes(line, 1, 1, "a number, or two with / between them");
    once(line, m->under);
    char *slash = strchr(line->words[1], '/');
    if (slash) *slash = 0;
    m->over = number(line, line->words[1], 10, 1, 1000000, "a scale's number");
    m->under = slash ? number(line, slash + 1, 10, 1, 1000000, "a scale's number") : 1;
}

/* A line of the metric that the last histogram, gauge or counter began; false where it is none. */
static bool of_metric(Description *d, const Line *line) {
    static const struct {
        const char *word;
        bool histogram, single;
        void (*read)(Metric *, const Line *);
    } lines[] = {
        {"buckets", true, false, buckets}, {"bounds", true, false, bounds}, {"sum", true, false, sum},
        {"value", false, true, value},     {"scale", true, true, scale},
    };
    for (size_t i = 0; i < sizeof lines / sizeof *lines; i++) {
        if (strcmp(lines[i].word, line->words[0])) continue;
        Metric *m = d->metric_count ? &d->metrics[d->metric_count - 1] : NULL;
        const char *above = !lines[i].single ? "histogram" : lines[i].histogram ? "metric" : "gauge or counter";
        if (!m || !(m->kind == HISTOGRAM ? lines[i].histogram : lines[i].single))
            fault(line->path, line->number, "%s stands below a %s", lines[i].word, above);
        lines[i].read(m, line);
        return true;
    }
    return false;
}

static void of_controller(Description *d, const Line *line) {
    const char *word = line->words[0];
    if (!strcmp(word, "histogram")) {
        metric(d, line, HISTOGRAM);
    } else if (!strcmp(word, "gauge")) {
        metric(d, line, GAUGE);
    } else if (!strcmp(word, "counter")) {
        metric(d, line, COUNTER);
    } else if (!strcmp(word, "controller")) {
        takes(line, 1, 1, "a name");
        once(line, d->controller);
        d->controller = copy(line->words[1]);
    } else if (!strcmp(word, "firmware")) {
        firmware(d, line);
    } else if (!strcmp(word, "ram_top") || !strcmp(word, "flags")) {
        settings(d, line);
    } else if (!strcmp(word, "label")) {
        label(d, line);
    } else if (!strcmp(word, "interrupt")) {
        interrupt(d, line);
    } else if (!strcmp(word, "run")) {
        takes(line, 1, 1, "a count of cycles");
        once(line, d->run);
        d->run = number(line, line->words[1], 10, 1, 1000000000000, "the count of cycles");
    } else {
        fault(line->path, line->number, "no line begins with %s", word);
    }
}

/* What is left out is a fault, or has its value. */
static void complete(Description *d) {
    if (!d->controller) fault(d->path, 0, "no line says controller");
    if (!d->firmware) fault(d->path, 0, "no line says firmware");
    if (!d->has_ram_top) d->settings.ram_top = 0xFFFF;
    if (!d->has_flags) d->settings.flags = DOORHAWSER_MANUAL;
    static const doorhawser_range all[DOORHAWSER_RANGES] = DOORHAWSER_ALL_ALLOWED;
    memcpy(d->settings.profile, all, sizeof all);
    if (!d->run) d->run = 1000000;
    for (size_t i = 0; i < d->metric_count; i++) {
        Metric *m = &d->metrics[i];
        if (m->kind == HISTOGRAM && (!m->buckets || !m->bounds || !m->has_sum))
            fault(d->path, m->line, "the histogram %s has no line %s", m->name, !m->buckets ? "buckets" : !m->bounds ? "bounds" : "sum");
        if (!m->value.bytes) fault(d->path, m->line, "%s has no line value", m->name);
        if (!m->under) m->over = m->under = 1;
    }
}

Description *describe(const char *path) {
    Description *d = must(calloc(1, sizeof *d));
    Line *line = must(calloc(1, sizeof *line));
    size_t length;
    char *text = (char *)contents(path, MOST_TEXT, &length, path, 0), *at = text;
    d->path = line->path = path;
    text[length] = 0;
    for (line->number = 1; at < text + length; line->number++) {
        char *end = memchr(at, '\n', (size_t)(text + length - at));
        if (!end) end = text + length;
        for (char *c = at; c < end;) {
            size_t n = character((uint8_t *)c, (size_t)(end - c));
            if (!n || !*c) fault(path, line->number, "a byte that is no UTF-8, or zero");
            c += n;
        }
        *end = 0;
        if (end > at && end[-1] == '\r') end[-1] = 0;
        split(line, at);
        if (line->count && !of_metric(d, line)) of_controller(d, line);
        at = end + 1;
    }
    complete(d);
    free(line);
    free(text);
    return d;
}
