#include "exposition.h"
#include <stdlib.h>
#include <string.h>

/* ---- numbers and texts */

/* A number as Prometheus writes it, Go's shortest %g: the fewest digits that read back as it, with an exponent below -4 and from 6 on. */
static void put_number(FILE *out, double n) {
    char text[32];
    int digits = 1;
    do snprintf(text, sizeof text, "%.*e", digits - 1, n);
    while (strtod(text, NULL) != n && digits++ < 17);
    int exponent = atoi(strchr(text, 'e') + 1);
    if (exponent < -4 || exponent >= 6) fputs(text, out);
    else fprintf(out, "%.*f", digits - 1 > exponent ? digits - 1 - exponent : 0, n);
}

/* With \ and line feed escaped, and in a label " as well. */
static void put_escaped(FILE *out, const char *text, bool label) {
    for (; *text; text++) {
        if (*text == '\n') fputs("\\n", out);
        else if (*text == '\\' || (label && *text == '"')) fprintf(out, "\\%c", *text);
        else fputc(*text, out);
    }
}

static void put_head(FILE *out, const char *name, const char *help, const char *type) {
    fprintf(out, "# HELP %s ", name);
    put_escaped(out, help, false);
    fprintf(out, "\n# TYPE %s %s\n", name, type);
}

/* A name and the labels of its controller; the braces stay open. */
static void put_series(FILE *out, const char *name, const char *suffix, const Description *d) {
    fprintf(out, "%s%s{controller=\"", name, suffix);
    put_escaped(out, d->controller, true);
    for (size_t i = 0; i < d->label_count; i++) {
        fprintf(out, "\",%s=\"", d->labels[i].name);
        put_escaped(out, d->labels[i].value, true);
    }
    fputc('"', out);
}

static void put_value(FILE *out, double value) {
    fputs("} ", out);
    put_number(out, value);
    fputc('\n', out);
}

/* ---- a controller's metrics */

/* In the metric's unit. Bounds and scales are small enough for an exact product, so 20 by 1000 is the number nearest to 0.02. */
static double scaled(const Metric *m, double n) {
    return n * (double)m->over / (double)m->under;
}

static void put_histogram(FILE *out, const Twin *t, const Metric *m) {
    uint64_t count = 0;
    double lowest = 0;
    for (unsigned i = 0; i < m->buckets; i++) {
        uint64_t here = twin_number(t, (Place){(uint16_t)(m->value.at + i * m->value.bytes), m->value.bytes});
        count += here;
        if (i) lowest += (double)here * (double)m->bounds[i - 1];
        if (i >= m->bounded) break;
        put_series(out, m->name, "_bucket", t->from);
        fputs(",le=\"", out);
        put_number(out, scaled(m, (double)m->bounds[i]));
        fprintf(out, "\"} %llu\n", (unsigned long long)count);
    }
    put_series(out, m->name, "_bucket", t->from);
    fprintf(out, ",le=\"+Inf\"} %llu\n", (unsigned long long)count);
    put_series(out, m->name, "_sum", t->from);
    put_value(out, scaled(m, m->sum.bytes ? (double)twin_number(t, m->sum) : lowest));
    put_series(out, m->name, "_count", t->from);
    fprintf(out, "} %llu\n", (unsigned long long)count);
}

static void put_metric(FILE *out, const Twin *t, const Metric *m) {
    if (m->kind == HISTOGRAM) {
        put_histogram(out, t, m);
    } else {
        put_series(out, m->name, "", t->from);
        put_value(out, scaled(m, (double)twin_number(t, m->value)));
    }
}

static const Metric *find(const Description *d, const char *name) {
    for (size_t i = 0; i < d->metric_count; i++)
        if (!strcmp(d->metrics[i].name, name)) return &d->metrics[i];
    return NULL;
}

/* ---- what is said of every twin */

static double up(const Twin *t) { return t->answer ? 0 : 1; }
static double answer(const Twin *t) { return (double)t->answer; }
static double waiting(const Twin *t) { return t->twin.wait; }
static double cycles(const Twin *t) { return (double)t->twin.cycles; }
static double instructions(const Twin *t) { return (double)t->twin.instructions; }
static double clock_seconds(const Twin *t) { return (double)twin_clock(t) / 1e6; }
static double behind_seconds(const Twin *t) { return (double)t->behind / 1e6; }
static double device_writes(const Twin *t) { return (double)t->device_writes; }

static const struct {
    const char *name, *type, *help;
    double (*of)(const Twin *);
} common[] = {
    {"doorhawser_twin_up", "gauge", "1 while the twin runs or waits, 0 once a call was refused; its other metrics are then left out.", up},
    {"doorhawser_twin_answer", "gauge", "The number with which a call was refused, 0 while none was.", answer},
    {"doorhawser_twin_waiting", "gauge", "0 running, 1 in CWAI, 2 in SYNC.", waiting},
    {"doorhawser_twin_cycles_total", "counter", "Cycles of the executed instructions.", cycles},
    {"doorhawser_twin_instructions_total", "counter", "Executed instructions.", instructions},
    {"doorhawser_twin_clock_seconds_total", "counter", "Time of the twin at 1 MHz, with the time that it waits.", clock_seconds},
    {"doorhawser_twin_behind_seconds", "gauge", "How far the twin's clock is behind the time of day.", behind_seconds},
    {"doorhawser_twin_device_writes_total", "counter", "Bytes written to devices; none is attached.", device_writes},
};

/* ---- all */

static const char *const types[] = {[GAUGE] = "gauge", [COUNTER] = "counter", [HISTOGRAM] = "histogram"};

/* One metric of all twins that have it: the lines of a name stand together. */
static void put_family(FILE *out, const Twin *const *twins, size_t count, const Metric *first) {
    put_head(out, first->name, first->help, types[first->kind]);
    for (size_t i = 0; i < count; i++) {
        const Metric *m = find(twins[i]->from, first->name);
        if (m && !twins[i]->answer) put_metric(out, twins[i], m);
    }
}

void exposition(FILE *out, const Twin *const *twins, size_t count) {
    for (size_t i = 0; i < count; i++) {
        const Description *d = twins[i]->from;
        for (size_t k = 0; k < d->metric_count; k++) {
            bool before = false;
            for (size_t j = 0; j < i && !before; j++) before = find(twins[j]->from, d->metrics[k].name);
            if (!before) put_family(out, twins, count, &d->metrics[k]);
        }
    }
    for (size_t k = 0; k < sizeof common / sizeof *common; k++) {
        put_head(out, common[k].name, common[k].help, common[k].type);
        for (size_t i = 0; i < count; i++) {
            put_series(out, common[k].name, "", twins[i]->from);
            put_value(out, common[k].of(twins[i]));
        }
    }
}

/* ---- whether descriptions go together */

static const char *value_of(const Description *d, const char *name) {
    for (size_t i = 0; i < d->label_count; i++)
        if (!strcmp(d->labels[i].name, name)) return d->labels[i].value;
    return ""; /* to Prometheus a label that is empty is one that is not there */
}

static bool labels_within(const Description *a, const Description *b) {
    for (size_t i = 0; i < a->label_count; i++)
        if (strcmp(a->labels[i].value, value_of(b, a->labels[i].name))) return false;
    return true;
}

static bool same_labels(const Description *a, const Description *b) {
    return !strcmp(a->controller, b->controller) && labels_within(a, b) && labels_within(b, a);
}

/* A histogram's series have names of their own, which no other metric may have. */
static bool is_series_of(const char *name, const Metric *histogram) {
    static const char *const suffixes[] = {"_bucket", "_sum", "_count"};
    size_t n = strlen(histogram->name);
    if (histogram->kind != HISTOGRAM || strncmp(name, histogram->name, n)) return false;
    for (int i = 0; i < 3; i++)
        if (!strcmp(name + n, suffixes[i])) return true;
    return false;
}

static void check_pair(const Description *a, const Metric *m, const Description *b, const Metric *other) {
    if (is_series_of(m->name, other) || is_series_of(other->name, m))
        fault(a->path, m->line, "%s and %s, %s line %zu, name the same series", m->name, other->name, b->path, other->line);
    if (strcmp(m->name, other->name)) return;
    if (m->kind != other->kind) fault(a->path, m->line, "%s is a %s in %s line %zu", m->name, types[other->kind], b->path, other->line);
    if (strcmp(m->help, other->help)) fault(a->path, m->line, "%s has another help in %s line %zu", m->name, b->path, other->line);
}

void exposition_check(const Twin *const *twins, size_t count) {
    for (size_t i = 0; i < count; i++) {
        const Description *a = twins[i]->from;
        for (size_t j = 0; j <= i; j++) {
            const Description *b = twins[j]->from;
            if (i != j && same_labels(a, b)) fault(a->path, 0, "the controller %s has the same labels as in %s", a->controller, b->path);
            for (size_t k = 0; k < a->metric_count; k++)
                for (size_t l = 0; l < b->metric_count; l++)
                    if (i != j || l < k) check_pair(a, &a->metrics[k], b, &b->metrics[l]);
        }
    }
}
