/*
 * A 6809 twin in ordinary C, the peer of tools/bench: step, interrupt, reset and undo with a journal, by the rules that the proved twin
 * keeps (document 01 and requests [2], [3], [5], [6], [8] and [9] without its drop). It is written for speed, and nothing of it is proved.
 * A call changes the machine in place. The state before it is kept for the journal's record, and put back on a refusal.
 */
#include "twin.h"

#include <string.h>

#define likely(x) __builtin_expect(!!(x), 1)
#define unlikely(x) __builtin_expect(!!(x), 0)
#define always_inline inline __attribute__((always_inline))
#define out_of_line __attribute__((noinline))           /* keeps rare or shared code out of the big switch */

enum { LONGEST = 5 };           /* bytes in an instruction */

/* ------------------------------------------------------------------ bytes and words */

/* Big-endian in memory and journal; both hosts are little-endian. */
static inline uint16_t get16(const uint8_t *p)
{
    uint16_t v;
    memcpy(&v, p, sizeof v);
    return __builtin_bswap16(v);
}

static inline uint64_t get64(const uint8_t *p)
{
    uint64_t v;
    memcpy(&v, p, sizeof v);
    return __builtin_bswap64(v);
}

static inline void put16(uint8_t *p, uint16_t v)
{
    v = __builtin_bswap16(v);
    memcpy(p, &v, sizeof v);
}

static inline void put64(uint8_t *p, uint64_t v)
{
    v = __builtin_bswap64(v);
    memcpy(p, &v, sizeof v);
}

static inline uint16_t get_d(const struct cpu *c) { return c->a << 8 | c->b; }

static inline void set_d(struct cpu *c, uint16_t v)
{
    c->a = v >> 8;
    c->b = v;
}

/* ------------------------------------------------------------------ memory map */

static inline uint8_t read8(const struct machine *m, uint16_t at)
{
    return m->memory[at >= 0xFFE0 ? at - 0x4000 : at];
}

static out_of_line uint16_t read16_high(const struct machine *m, uint16_t at)
{
    return read8(m, at) << 8 | read8(m, at + 1);
}

/* The low byte of a word at FFFF is at 0000. */
static inline uint16_t read16(const struct machine *m, uint16_t at)
{
    if (likely(at < 0xFFDF))
        return get16(m->memory + at);
    return read16_high(m, at);
}

/* Stores v at a place and its old byte in the entry e. */
static inline void store_at(uint8_t *memory, uint8_t *e, uint16_t place, uint8_t v)
{
    put16(e, place);
    e[2] = memory[place];
    memory[place] = v;
}

static inline void store(struct machine *m, uint16_t place, uint8_t v)
{
    store_at(m->memory, m->stores.entry[m->stores.count++], place, v);
}

/* A write at FF00 or above. */
static out_of_line void write8_high(struct machine *m, uint16_t at, uint8_t v, bool system)
{
    if (at >= 0xFFE0) {
        if (at <= m->ram_top || system)
            store(m, at - 0x4000, v);
    } else if (at <= 0xFF3F || at >= 0xFFC0) {
        unsigned n = m->report.count++;
        m->report.write[n].address = at;
        m->report.write[n].value = v;
    }
}

static inline void write8(struct machine *m, uint16_t at, uint8_t v, bool system)
{
    if (unlikely(at >= 0xFF00))
        write8_high(m, at, v, system);
    else if (at <= m->ram_top || system)
        store(m, at, v);
}

static out_of_line void write16_split(struct machine *m, uint16_t at, uint16_t v)
{
    write8(m, at, v >> 8, false);
    write8(m, at + 1, v, false);
}

static inline void write16(struct machine *m, uint16_t at, uint16_t v)
{
    if (unlikely(at >= 0xFEFF || at >= m->ram_top)) {
        write16_split(m, at, v);
        return;
    }
    unsigned n = m->stores.count;
    m->stores.count = n + 2;
    store_at(m->memory, m->stores.entry[n], at, v >> 8);
    store_at(m->memory, m->stores.entry[n + 1], at + 1, v);
}

static void put_back(uint8_t *memory, const struct stores *s)
{
    for (int i = s->count; i-- > 0;)
        memory[get16(s->entry[i])] = s->entry[i][2];
}

/* ------------------------------------------------------------------ flags and arithmetic */

static const uint8_t nz[256] = { [0] = Z, [0x80 ... 0xFF] = N };

static inline uint8_t nz16(uint16_t v) { return (v >> 12 & N) | (v == 0 ? Z : 0); }

static inline void flags(struct cpu *c, uint8_t mask, uint8_t set) { c->cc = (c->cc & ~mask) | set; }

static inline uint8_t logic8(struct cpu *c, uint8_t v)
{
    flags(c, N | Z | V, nz[v]);
    return v;
}

static inline uint16_t logic16(struct cpu *c, uint16_t v)
{
    flags(c, N | Z | V, nz16(v));
    return v;
}

static inline uint8_t add8_carry(struct cpu *c, uint8_t a, uint8_t b, unsigned carry)
{
    unsigned r = a + b + carry;
    flags(c, H | N | Z | V | C,
          ((a ^ b ^ r) & 0x10) << 1 | nz[r & 255] | ((a ^ r) & (b ^ r) & 0x80) >> 6 | r >> 8);
    return r;
}

static inline uint8_t sub8_borrow(struct cpu *c, uint8_t a, uint8_t b, unsigned borrow)
{
    unsigned r = a - b - borrow;
    flags(c, N | Z | V | C, nz[r & 255] | ((a ^ b) & (a ^ r) & 0x80) >> 6 | (r >> 8 & C));
    return r;
}

static inline uint8_t add8(struct cpu *c, uint8_t a, uint8_t b) { return add8_carry(c, a, b, 0); }
static inline uint8_t sub8(struct cpu *c, uint8_t a, uint8_t b) { return sub8_borrow(c, a, b, 0); }

/* As bought, a carry that overflows the first operand alone sets V whatever the sum does. */
static inline uint8_t adc8(struct cpu *c, bool manual, uint8_t a, uint8_t b)
{
    unsigned carry = c->cc & C;
    uint8_t r = add8_carry(c, a, b, carry);
    if (!manual && carry && a == 0x7F)
        c->cc |= V;
    return r;
}

static inline uint8_t sbc8(struct cpu *c, bool manual, uint8_t a, uint8_t b)
{
    unsigned borrow = c->cc & C;
    uint8_t r = sub8_borrow(c, a, b, borrow);
    if (!manual && borrow && a == 0x80)
        c->cc |= V;
    return r;
}

static inline uint16_t add16(struct cpu *c, uint16_t a, uint16_t b)
{
    unsigned r = a + b;
    flags(c, N | Z | V | C, nz16(r) | ((a ^ r) & (b ^ r) & 0x8000) >> 14 | r >> 16);
    return r;
}

static inline uint16_t sub16(struct cpu *c, uint16_t a, uint16_t b)
{
    unsigned r = a - b;
    flags(c, N | Z | V | C, nz16(r) | ((a ^ b) & (a ^ r) & 0x8000) >> 14 | (r >> 16 & C));
    return r;
}

static inline uint8_t neg(struct cpu *c, bool manual, uint8_t v) { return (void)manual, sub8(c, 0, v); }

static inline uint8_t com(struct cpu *c, bool manual, uint8_t v)
{
    (void)manual;
    c->cc |= C;
    return logic8(c, ~v);
}

static inline uint8_t shift_right(struct cpu *c, uint8_t v, uint8_t top)
{
    uint8_t r = v >> 1 | top;
    flags(c, N | Z | C, nz[r] | (v & C));
    return r;
}

static inline uint8_t lsr(struct cpu *c, bool manual, uint8_t v) { return (void)manual, shift_right(c, v, 0); }
static inline uint8_t asr(struct cpu *c, bool manual, uint8_t v) { return (void)manual, shift_right(c, v, v & 0x80); }
static inline uint8_t ror(struct cpu *c, bool manual, uint8_t v) { return (void)manual, shift_right(c, v, c->cc << 7); }

static inline uint8_t shift_left(struct cpu *c, uint8_t v, uint8_t low)
{
    uint8_t r = v << 1 | low;
    flags(c, N | Z | V | C, nz[r] | ((v ^ v << 1) & 0x80) >> 6 | v >> 7);
    return r;
}

static inline uint8_t asl(struct cpu *c, bool manual, uint8_t v) { return (void)manual, shift_left(c, v, 0); }
static inline uint8_t rol(struct cpu *c, bool manual, uint8_t v) { return (void)manual, shift_left(c, v, c->cc & C); }

static inline uint8_t dec(struct cpu *c, bool manual, uint8_t v)
{
    uint8_t r = v - 1;
    flags(c, N | Z | V, nz[r] | (v == (manual ? 0x80 : 0x00) ? V : 0));
    return r;
}

static inline uint8_t inc(struct cpu *c, bool manual, uint8_t v)
{
    uint8_t r = v + 1;
    flags(c, N | Z | V, nz[r] | (v == (manual ? 0x7F : 0xFF) ? V : 0));
    return r;
}

static inline uint8_t tst(struct cpu *c, bool manual, uint8_t v) { return (void)manual, logic8(c, v); }

static inline uint8_t clr(struct cpu *c, bool manual, uint8_t v)
{
    (void)manual, (void)v;
    flags(c, N | Z | V | C, Z);
    return 0;
}

static out_of_line void daa(struct cpu *c)
{
    unsigned low = c->a & 15, high = c->a >> 4, r = c->a;
    if (c->cc & H || low > 9)
        r += 0x06;
    if (c->cc & C || high > 9 || (high > 8 && low > 9))
        r += 0x60;
    c->a = r;
    flags(c, N | Z, nz[c->a] | (r > 255 ? C : 0));          /* C once set stays; V is kept */
}

static void mul(struct cpu *c)
{
    uint16_t r = c->a * c->b;
    set_d(c, r);
    flags(c, Z | C, (r == 0 ? Z : 0) | (r >> 7 & C));
}

static void sex(struct cpu *c)
{
    c->a = c->b & 0x80 ? 0xFF : 0;
    flags(c, N | Z, nz[c->b]);
}

/* ------------------------------------------------------------------ registers by code (TFR, EXG) */

static uint16_t get_register(const struct cpu *c, unsigned code)
{
    switch (code) {
    case 0: return get_d(c);
    case 5: return c->pc;
    case 8: return c->a;
    case 9: return c->b;
    case 10: return c->cc;
    case 11: return c->dp;
    default: return c->index[code - 1];
    }
}

static void set_register(struct cpu *c, unsigned code, uint16_t v)
{
    switch (code) {
    case 0: set_d(c, v); break;
    case 5: c->pc = v; break;
    case 8: c->a = v; break;
    case 9: c->b = v; break;
    case 10: c->cc = v; break;
    case 11: c->dp = v; break;
    default: c->index[code - 1] = v; break;
    }
    if (code == 4)
        c->armed = true;
}

static out_of_line int transfer(struct cpu *c, uint8_t post, bool exchange)
{
    unsigned from = post >> 4, to = post & 15;
    const unsigned known = 0x0F3F;
    if (!(known >> from & known >> to & 1) || (from ^ to) & 8)
        return BAD_CODE;
    uint16_t v = get_register(c, from), w = get_register(c, to);
    set_register(c, to, v);
    if (exchange)
        set_register(c, from, w);
    return DONE;
}

/* ------------------------------------------------------------------ stacks */

/* The pushes of a list. Plain: every byte is known to be stored where it is addressed. */
static always_inline uint16_t push_each(struct machine *m, uint8_t list, uint16_t p, uint16_t other, bool system, bool plain)
{
    const struct cpu *c = &m->cpu;
    uint8_t *memory = m->memory, *e = m->stores.entry[0];               /* a call pushes before it stores anything else */

#define PUSH_AT(at, v) do { \
        if (plain) { store_at(memory, e, at, v); e += 3; } \
        else write8(m, at, v, system); \
    } while (0)
#define PUSH8(v) do { p -= 1; PUSH_AT(p, v); } while (0)
#define PUSH16(v) do { uint16_t v_ = (v); p -= 2; PUSH_AT(p, v_ >> 8); PUSH_AT(p + 1, v_); } while (0)

    if (list & 0x80) PUSH16(c->pc);
    if (list & 0x40) PUSH16(other);
    if (list & 0x20) PUSH16(c->y);
    if (list & 0x10) PUSH16(c->x);
    if (list & 0x08) PUSH8(c->dp);
    if (list & 0x04) PUSH8(c->b);
    if (list & 0x02) PUSH8(c->a);
    if (list & 0x01) PUSH8(c->cc);
    return p;
}

static inline unsigned named(uint8_t list)
{
    static const uint8_t bits[16] = { 0, 1, 1, 2, 1, 2, 2, 3, 1, 2, 2, 3, 2, 3, 3, 4 };
    return bits[list & 15] + 2 * bits[list >> 4];
}

/* PSHS, PSHU and frames: sp is the pointer in use, other the pointer that can be pushed. PSHS and PSHU bill a cycle a byte. */
static out_of_line int push_list(struct machine *m, uint8_t list, uint16_t *sp, uint16_t other, bool system)
{
    unsigned size = named(list), p = *sp;
    if (unlikely(p < size))
        return LOW_STACK;
    if (!system)
        m->cpu.cycles += size;
    if (likely(p <= 0xFF00 && (system || p <= m->ram_top + 1u))) {
        *sp = push_each(m, list, p, other, system, true);
        m->stores.count = size;
    } else {
        *sp = push_each(m, list, p, other, system, false);
    }
    return DONE;
}

static inline uint16_t pull16(const struct machine *m, uint16_t *sp)
{
    uint16_t v = read16(m, *sp);
    *sp += 2;
    return v;
}

/* The bytes pulled. */
static out_of_line unsigned pull_list(struct machine *m, uint8_t list, uint16_t *sp, uint16_t *other)
{
    struct cpu *c = &m->cpu;
    uint16_t p = *sp, start = p;
    if (likely(p <= 0xFFE0 - 12)) {                                     /* nothing is mapped */
        const uint8_t *from = m->memory + p, *first = from;
        if (list & 0x01) c->cc = *from++;
        if (list & 0x02) c->a = *from++;
        if (list & 0x04) c->b = *from++;
        if (list & 0x08) c->dp = *from++;
        if (list & 0x10) c->x = get16(from), from += 2;
        if (list & 0x20) c->y = get16(from), from += 2;
        if (list & 0x40) *other = get16(from), from += 2;
        if (list & 0x80) c->pc = get16(from), from += 2;
        *sp = p + (from - first);
        return from - first;
    }
    if (list & 0x01) c->cc = read8(m, p++);
    if (list & 0x02) c->a = read8(m, p++);
    if (list & 0x04) c->b = read8(m, p++);
    if (list & 0x08) c->dp = read8(m, p++);
    if (list & 0x10) c->x = pull16(m, &p);
    if (list & 0x20) c->y = pull16(m, &p);
    if (list & 0x40) *other = pull16(m, &p);
    if (list & 0x80) c->pc = pull16(m, &p);
    *sp = p;
    return (uint16_t)(p - start);
}

static out_of_line void rti(struct machine *m)
{
    struct cpu *c = &m->cpu;
    c->cc = read8(m, c->s++);
    c->cycles += c->cc & E ? 9 : 0;
    pull_list(m, c->cc & E ? 0xFE : 0x80, &c->s, &c->u);
}

static inline int call(struct machine *m, uint16_t to)
{
    struct cpu *c = &m->cpu;
    if (c->s < 2)
        return LOW_STACK;
    c->s -= 2;
    write16(m, c->s, c->pc);
    c->pc = to;
    return DONE;
}

/* ------------------------------------------------------------------ interrupts */

/* PC U Y X DP B A CC with E set; or PC and CC with E clear. */
static int stack_all(struct machine *m)
{
    m->cpu.cc |= E;
    return push_list(m, 0xFF, &m->cpu.s, m->cpu.u, true);
}

static int stack_two(struct machine *m)
{
    m->cpu.cc &= ~E;
    return push_list(m, 0x81, &m->cpu.s, 0, true);
}

static int take_vector(struct machine *m, uint16_t vector, uint8_t mask)
{
    uint16_t to = read16_high(m, vector);
    if (read8(m, to) == 0)
        return ZERO_VECTOR;
    m->cpu.cc |= mask;
    m->cpu.pc = to;
    return DONE;
}

static out_of_line int software_interrupt(struct machine *m, uint16_t vector, uint8_t mask)
{
    int answer = stack_all(m);
    return answer ? answer : take_vector(m, vector, mask);
}

static int serve(struct machine *m, enum interrupt kind)
{
    static const struct { uint16_t vector; uint8_t mask, blocker; } kinds[] = {
        [IRQ] = { 0xFFF8, I, I }, [FIRQ] = { 0xFFF6, I | F, F }, [NMI] = { 0xFFFC, I | F, 0 },
    };
    struct cpu *c = &m->cpu;
    bool stacked = c->wait == IN_CWAI;
    if (c->wait == IN_SYNC)
        c->wait = RUNNING;
    if (c->cc & kinds[kind].blocker || (kind == NMI && !c->armed))
        return DONE;
    if (!stacked) {
        int answer = kind == FIRQ ? stack_two(m) : stack_all(m);
        if (answer)
            return answer;
    }
    c->wait = RUNNING;
    return take_vector(m, kinds[kind].vector, kinds[kind].mask);
}

/* ------------------------------------------------------------------ addressing */

/*
 * The bytes at pc, where some of them may be mapped (FFE0 up) or missing (past FFFF, given as zero). Decoding goes
 * on with the zeros: whoever then refuses asks `refuse`, and whoever doesn't meets the check of the next address.
 */
static out_of_line const uint8_t *fetch_high(const struct machine *m, unsigned pc, uint8_t *bytes)
{
    for (unsigned i = 0; i < LONGEST; i++)
        bytes[i] = pc + i <= 0xFFFF ? read8(m, pc + i) : 0;
    return bytes;
}

/* A refusal while decoding: a missing byte (end is the address after the last one used) comes before it. */
static inline int refuse(unsigned end, int answer) { return end > 0x10000 ? PAST_TOP : answer; }

/* The manual's cycles of a post-byte from 80 on, by its low five bits. */
static const uint8_t extra[32] = {
    2, 3, 2, 3, 0, 1, 1, 0, 1, 4, 0, 4, 1, 5, 0, 0, 0, 6, 0, 6, 3, 4, 4, 0, 4, 7, 0, 7, 4, 8, 0, 5,
};

/* The post-byte is at post, and next is the address after it. Sets PC; the effective address, or minus the answer. */
static out_of_line int indexed(struct machine *m, const uint8_t *post, unsigned next)
{
    struct cpu *c = &m->cpu;
    unsigned pb = *post++;
    uint16_t *reg = &c->index[pb >> 5 & 3];
    uint16_t ea = *reg;

    if (pb < 0x80) {
        ea += (pb & 15) - (pb & 16);
        c->cycles += 1;
    } else {
        c->cycles += extra[pb & 0x1F];
        switch (pb & 0x1F) {
        case 0x00: *reg += 1; break;
        case 0x01: case 0x11: *reg += 2; break;
        case 0x02: *reg = ea -= 1; break;
        case 0x03: case 0x13: *reg = ea -= 2; break;
        case 0x04: case 0x14: break;
        case 0x05: case 0x15: ea += (int8_t)c->b; break;
        case 0x06: case 0x16: ea += (int8_t)c->a; break;
        case 0x08: case 0x18: ea += (int8_t)*post; next += 1; break;
        case 0x09: case 0x19: ea += get16(post); next += 2; break;
        case 0x0B: case 0x1B: ea += get_d(c); break;
        case 0x0C: case 0x1C: next += 1; ea = next + (int8_t)*post; break;
        case 0x0D: case 0x1D: next += 2; ea = next + get16(post); break;
        case 0x1F:
            if (pb == 0x9F) {
                next += 2, ea = get16(post);
                break;
            }                                           /* fall through */
        case 0x0F: return -refuse(next, BAD_8F);
        default: return -refuse(next, BAD_POST);        /* 87, 8A, 8E; indirect ,R+ and ,-R */
        }
        if (pb & 0x10)
            ea = read16(m, ea);
    }
    if (unlikely(next > 0xFFFF))
        return -PAST_TOP;
    c->pc = next;
    return ea;
}

/* ------------------------------------------------------------------ step */

/* In the switch, code points at the opcode byte (the second one after a prefix) and at is its address. */

#define NEXT(size, cyc) do { \
        if (unlikely(at + (size) > 0xFFFF)) \
            return PAST_TOP; \
        c->pc = at + (size); \
        c->cycles += (cyc); \
    } while (0)
#define IMM8(cyc) do { NEXT(2, cyc); v = code[1]; } while (0)
#define IMM16(cyc) do { NEXT(3, cyc); w = get16(code + 1); } while (0)
#define DIRECT(cyc) do { NEXT(2, cyc); ea = c->dp << 8 | code[1]; } while (0)
#define EXTENDED(cyc) do { NEXT(3, cyc); ea = get16(code + 1); } while (0)
#define INDEXED(cyc) do { \
        ea = indexed(m, code + 1, at + 2); \
        if (unlikely(ea < 0)) \
            return -ea; \
        c->cycles += (cyc); \
    } while (0)
#define TRY(call) do { \
        int answer_ = (call); \
        if (unlikely(answer_)) \
            return answer_; \
    } while (0)

/* NEG to CLR: direct, A, B, indexed, extended. */
#define MODIFY(low, op) \
    case 0x00 + low: DIRECT(6); write8(m, ea, op(c, m->manual, read8(m, ea)), false); break; \
    case 0x40 + low: NEXT(1, 2); c->a = op(c, m->manual, c->a); break; \
    case 0x50 + low: NEXT(1, 2); c->b = op(c, m->manual, c->b); break; \
    case 0x60 + low: INDEXED(6); write8(m, ea, op(c, m->manual, read8(m, ea)), false); break; \
    case 0x70 + low: EXTENDED(7); write8(m, ea, op(c, m->manual, read8(m, ea)), false); break;

/* The four columns of an operation on the byte v or the word w, of a store, of a jump. */
#define BYTES(base, what) \
    case base: IMM8(2); what; break; \
    case base + 0x10: DIRECT(4); v = read8(m, ea); what; break; \
    case base + 0x20: INDEXED(4); v = read8(m, ea); what; break; \
    case base + 0x30: EXTENDED(5); v = read8(m, ea); what; break;
#define WORDS(base, imm, mem, what) \
    case base: IMM16(imm); what; break; \
    case base + 0x10: DIRECT(mem); w = read16(m, ea); what; break; \
    case base + 0x20: INDEXED(mem); w = read16(m, ea); what; break; \
    case base + 0x30: EXTENDED((mem) + 1); w = read16(m, ea); what; break;
#define TO_MEMORY(base, cyc, what) \
    case base + 0x10: DIRECT(cyc); what; break; \
    case base + 0x20: INDEXED(cyc); what; break; \
    case base + 0x30: EXTENDED((cyc) + 1); what; break;
#define STORE8(value) write8(m, ea, logic8(c, value), false)
#define STORE16(value) write16(m, ea, logic16(c, value))

#define BRANCH(op, condition) case op: NEXT(2, 3); if (condition) c->pc += (int8_t)code[1]; break;
#define LONG_BRANCH(op, condition) case op: NEXT(3, 5); if (condition) c->pc += get16(code + 1), c->cycles += 1; break;
#define CONDITIONS(B) \
    B(0x21, false) \
    B(0x22, !(c->cc & (C | Z)))         B(0x23, c->cc & (C | Z)) \
    B(0x24, !(c->cc & C))               B(0x25, c->cc & C) \
    B(0x26, !(c->cc & Z))               B(0x27, c->cc & Z) \
    B(0x28, !(c->cc & V))               B(0x29, c->cc & V) \
    B(0x2A, !(c->cc & N))               B(0x2B, c->cc & N) \
    B(0x2C, !less(c))                   B(0x2D, less(c)) \
    B(0x2E, !(c->cc & Z || less(c)))    B(0x2F, c->cc & Z || less(c))

static inline bool less(const struct cpu *c) { return (c->cc >> 3 ^ c->cc >> 1) & 1; }

static always_inline int execute(struct machine *m)
{
    struct cpu *c = &m->cpu;
    unsigned at = c->pc;
    int ea, w;
    uint8_t v, high[LONGEST];
    const uint8_t *code = m->memory + at;
    if (unlikely(at > 0xFFE0 - LONGEST))
        code = fetch_high(m, at, high);
    c->instructions++;

    switch (*code) {
    MODIFY(0x00, neg)
    MODIFY(0x03, com)
    MODIFY(0x04, lsr)
    MODIFY(0x06, ror)
    MODIFY(0x07, asr)
    MODIFY(0x08, asl)
    MODIFY(0x09, rol)
    MODIFY(0x0A, dec)
    MODIFY(0x0C, inc)
    MODIFY(0x0F, clr)
    case 0x0D: DIRECT(6); tst(c, m->manual, read8(m, ea)); break;
    case 0x4D: NEXT(1, 2); tst(c, m->manual, c->a); break;
    case 0x5D: NEXT(1, 2); tst(c, m->manual, c->b); break;
    case 0x6D: INDEXED(6); tst(c, m->manual, read8(m, ea)); break;
    case 0x7D: EXTENDED(7); tst(c, m->manual, read8(m, ea)); break;
    case 0x0E: DIRECT(3); c->pc = ea; break;
    case 0x6E: INDEXED(3); c->pc = ea; break;
    case 0x7E: EXTENDED(4); c->pc = ea; break;

    case 0x12: NEXT(1, 2); break;
    case 0x13: NEXT(1, 4); c->wait = IN_SYNC; break;
    case 0x16: NEXT(3, 5); c->pc += get16(code + 1); break;
    case 0x17: NEXT(3, 9); TRY(call(m, c->pc + get16(code + 1))); break;
    case 0x19: NEXT(1, 2); daa(c); break;
    case 0x1A: IMM8(3); c->cc |= v; break;
    case 0x1C: IMM8(3); c->cc &= v; break;
    case 0x1D: NEXT(1, 2); sex(c); break;
    case 0x1E: IMM8(8); TRY(transfer(c, v, true)); break;
    case 0x1F: IMM8(6); TRY(transfer(c, v, false)); break;
    BRANCH(0x20, true)
    CONDITIONS(BRANCH)
    case 0x30: INDEXED(4); c->x = ea; flags(c, Z, ea == 0 ? Z : 0); break;
    case 0x31: INDEXED(4); c->y = ea; flags(c, Z, ea == 0 ? Z : 0); break;
    case 0x32: INDEXED(4); c->s = ea; c->armed = true; break;
    case 0x33: INDEXED(4); c->u = ea; break;
    case 0x34: IMM8(5); TRY(push_list(m, v, &c->s, c->u, false)); break;
    case 0x35: IMM8(5); c->cycles += pull_list(m, v, &c->s, &c->u); break;
    case 0x36: IMM8(5); TRY(push_list(m, v, &c->u, c->s, false)); break;
    case 0x37: IMM8(5); c->cycles += pull_list(m, v, &c->u, &c->s); c->armed |= v >> 6 & 1; break;
    case 0x39: NEXT(1, 5); c->pc = pull16(m, &c->s); break;
    case 0x3A: NEXT(1, 3); c->x += c->b; break;
    case 0x3B: NEXT(1, 6); rti(m); break;
    case 0x3C: IMM8(20); c->cc &= v; TRY(stack_all(m)); c->wait = IN_CWAI; break;
    case 0x3D: NEXT(1, 11); mul(c); break;
    case 0x3F: NEXT(1, 19); TRY(software_interrupt(m, 0xFFFA, I | F)); break;

    BYTES(0x80, c->a = sub8(c, c->a, v))
    BYTES(0x81, sub8(c, c->a, v))
    BYTES(0x82, c->a = sbc8(c, m->manual, c->a, v))
    BYTES(0x84, c->a = logic8(c, c->a & v))
    BYTES(0x85, logic8(c, c->a & v))
    BYTES(0x86, c->a = logic8(c, v))
    BYTES(0x88, c->a = logic8(c, c->a ^ v))
    BYTES(0x89, c->a = adc8(c, m->manual, c->a, v))
    BYTES(0x8A, c->a = logic8(c, c->a | v))
    BYTES(0x8B, c->a = add8(c, c->a, v))
    BYTES(0xC0, c->b = sub8(c, c->b, v))
    BYTES(0xC1, sub8(c, c->b, v))
    BYTES(0xC2, c->b = sbc8(c, m->manual, c->b, v))
    BYTES(0xC4, c->b = logic8(c, c->b & v))
    BYTES(0xC5, logic8(c, c->b & v))
    BYTES(0xC6, c->b = logic8(c, v))
    BYTES(0xC8, c->b = logic8(c, c->b ^ v))
    BYTES(0xC9, c->b = adc8(c, m->manual, c->b, v))
    BYTES(0xCA, c->b = logic8(c, c->b | v))
    BYTES(0xCB, c->b = add8(c, c->b, v))
    WORDS(0x83, 4, 6, set_d(c, sub16(c, get_d(c), w)))
    WORDS(0xC3, 4, 6, set_d(c, add16(c, get_d(c), w)))
    WORDS(0x8C, 4, 6, sub16(c, c->x, w))
    WORDS(0x8E, 3, 5, c->x = logic16(c, w))
    WORDS(0xCC, 3, 5, set_d(c, logic16(c, w)))
    WORDS(0xCE, 3, 5, c->u = logic16(c, w))
    TO_MEMORY(0x87, 4, STORE8(c->a))
    TO_MEMORY(0xC7, 4, STORE8(c->b))
    TO_MEMORY(0x8F, 5, STORE16(c->x))
    TO_MEMORY(0xCD, 5, STORE16(get_d(c)))
    TO_MEMORY(0xCF, 5, STORE16(c->u))
    TO_MEMORY(0x8D, 7, TRY(call(m, ea)))
    case 0x8D: NEXT(2, 7); TRY(call(m, c->pc + (int8_t)code[1])); break;

    case 0x10:
        code++, at++;
        switch (*code) {
        CONDITIONS(LONG_BRANCH)
        case 0x3F: NEXT(1, 20); TRY(software_interrupt(m, 0xFFF4, 0)); break;
        WORDS(0x83, 5, 7, sub16(c, get_d(c), w))
        WORDS(0x8C, 5, 7, sub16(c, c->y, w))
        WORDS(0x8E, 4, 6, c->y = logic16(c, w))
        WORDS(0xCE, 4, 6, c->s = logic16(c, w); c->armed = true)
        TO_MEMORY(0x8F, 6, STORE16(c->y))
        TO_MEMORY(0xCF, 6, STORE16(c->s))
        default: return refuse(at + 1, BAD_OPCODE);
        }
        break;

    case 0x11:
        code++, at++;
        switch (*code) {
        case 0x3F: NEXT(1, 20); TRY(software_interrupt(m, 0xFFF2, 0)); break;
        WORDS(0x83, 5, 7, sub16(c, c->u, w))
        WORDS(0x8C, 5, 7, sub16(c, c->s, w))
        default: return refuse(at + 1, BAD_OPCODE);
        }
        break;

    default:
        return BAD_OPCODE;
    }
    return DONE;
}

/* ------------------------------------------------------------------ calls and the journal */

/* 1, 12, 2; and clears what the last call left. */
static inline int begin(struct machine *m, bool recorded, bool waiting)
{
    m->report.count = 0;
    m->stores.count = 0;
    if (unlikely(m->memory_size != MEMORY_SIZE))
        return BAD_MEMORY;
    if (recorded && unlikely(m->used > m->journal_size || m->records == UINT64_MAX))
        return BAD_JOURNAL;
    return unlikely(waiting) ? WAITING : DONE;
}

/* The machine, the count, the entries, and the record's length as its last byte. */
static out_of_line void write_record(uint8_t *restrict record, const struct cpu *restrict c, const struct stores *restrict s, unsigned size)
{
    record[0] = c->a;
    record[1] = c->b;
    put16(record + 2, c->x);
    put16(record + 4, c->y);
    put16(record + 6, c->u);
    put16(record + 8, c->s);
    put16(record + 10, c->pc);
    record[12] = c->dp;
    record[13] = c->cc;
    record[14] = c->wait;
    record[15] = c->armed;
    put64(record + 16, c->cycles);
    put64(record + 24, c->instructions);
    memcpy(record + HEADER, s, 1 + 3 * s->count);
    record[size - 1] = size;
}

/* 10 where the record does not fit, judged last. */
static inline int finish(struct machine *m, bool recorded, const struct cpu *before, int answer)
{
    if (recorded && likely(answer == DONE)) {
        unsigned size = HEADER + 2 + 3 * m->stores.count;
        if (likely(size <= m->journal_size - m->used)) {
            write_record(m->journal + m->used, before, &m->stores, size);
            m->used += size;
            m->records++;
            return DONE;
        }
        answer = JOURNAL_FULL;
    }
    if (unlikely(answer != DONE)) {
        m->cpu = *before;
        put_back(m->memory, &m->stores);
        m->report.count = 0;
    }
    return answer;
}

int machine_step(struct machine *m, bool recorded)
{
    int answer = begin(m, recorded, m->cpu.wait != RUNNING);
    if (unlikely(answer))
        return answer;
    const struct cpu before = m->cpu;
    return finish(m, recorded, &before, execute(m));
}

int machine_interrupt(struct machine *m, enum interrupt kind, bool recorded)
{
    int answer = begin(m, recorded, false);
    if (answer)
        return answer;
    const struct cpu before = m->cpu;
    return finish(m, recorded, &before, serve(m, kind));
}

int machine_reset(struct machine *m, bool recorded)
{
    int answer = begin(m, recorded, false);
    if (answer)
        return answer;
    const struct cpu before = m->cpu;
    m->cpu = (struct cpu){ .cc = I | F, .pc = read16_high(m, 0xFFFE),
                           .cycles = before.cycles, .instructions = before.instructions };
    return finish(m, recorded, &before, DONE);
}

int machine_undo(struct machine *m)
{
    m->report.count = 0;
    if (m->memory_size != MEMORY_SIZE)
        return BAD_MEMORY;
    if (m->used > m->journal_size)
        return BAD_JOURNAL;
    if (m->records == 0)
        return NO_RECORD;
    if (m->used == 0)
        return BAD_JOURNAL;
    unsigned size = m->journal[m->used - 1];
    if (size < HEADER + 2 || size > m->used)
        return BAD_JOURNAL;
    const uint8_t *r = m->journal + m->used - size;
    if (r[14] > IN_SYNC || r[15] > 1 || r[HEADER] > MAX_WRITES || size != HEADER + 2 + 3u * r[HEADER])
        return BAD_JOURNAL;
    struct stores stores = { .count = r[HEADER] };
    memcpy(stores.entry, r + HEADER + 1, 3 * stores.count);
    put_back(m->memory, &stores);
    m->cpu = (struct cpu){
        .a = r[0], .b = r[1], .x = get16(r + 2), .y = get16(r + 4), .u = get16(r + 6), .s = get16(r + 8),
        .pc = get16(r + 10), .dp = r[12], .cc = r[13], .wait = r[14], .armed = r[15],
        .cycles = get64(r + 16), .instructions = get64(r + 24),
    };
    m->used -= size;
    m->records--;
    return DONE;
}
