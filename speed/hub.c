/*
 * A plain hub in C11, written from document 01, as document 02 changes it, and
 * the readings only: what the bench's speed is measured against, and compared
 * with on the same lines.
 *
 * Standard input: the bench's lines.  Standard output: the bench's output.
 * As `hub port` it speaks the frames of docs/PORT-OTHER.md instead, and can stand in
 * for the proved program behind the socket.
 * Time is exact: a tick is a millionth of a carrier period, so that one
 * microsecond is freq ticks.  Nothing is rounded but the moment of completion,
 * and a lamp's level where it is shown.
 */
#include <stddef.h>
#include <stdint.h>
#include <string.h>
#include <stdlib.h>
#include <errno.h>
#include <unistd.h>

typedef unsigned char u8;
typedef uint32_t u32;
typedef uint64_t u64;

enum {
    CONNECTIONS = 8,
    PORTS = 3,
    PAIRS = 260,
    LETTERS = 15,
    LINE_MAX_BYTES = 4096,
    NUMBER_DIGITS = 6,
    BENCH_DIGITS = 10,
    /* enough of a bench line to judge it: number, space, one byte too many */
    KEEP = BENCH_DIGITS + 1 + LINE_MAX_BYTES + 1,
    BLOCK = 65536
};

#define TICKS 1000000u               /* ticks in a carrier period */
#define WAIT_MAX 1000000000u
#define PERCENT 100000u              /* a lamp with ramp r moves r parts of it in a microsecond */
#define FULL (100 * PERCENT)
#define NONE 0xFFFFFFFFu             /* not a number, or out of range */

enum mode { IR, SENSOR, IR_BLASTER, LED_LIGHTING, MODES };
enum { UNREAD = -1, NOBODY = -1 };

struct command {
    u32 id, freq, repeat, offset;    /* repeat as capped */
    u32 n;                           /* pairs */
    u32 periods;                     /* of all pairs together */
    u32 pair[PAIRS];                 /* on << 16 | off */
};

/* Only a change of its target is written down: the level follows from what has passed since. */
struct lamp {
    u64 since;
    u32 from;                        /* its exact level then, in parts of a percent */
    u32 target, ramp;
};

struct connector {
    enum mode mode;
    int contact;                     /* UNREAD, 0 or 1 */
    struct lamp lamp;                /* all 0 in the other modes */
    int busy;
    int owner;                       /* connection or NOBODY */
    u64 lead, tail;                  /* periods before and from the offset on */
    u64 at;                          /* ticks done */
    u64 copies;                      /* copies in all; total = lead + copies * tail */
    struct command cmd;
};

static struct connector conn[PORTS + 1];   /* 1 to 3 */
static int relay[PORTS + 1];
static u64 now;                      /* microseconds that have passed */
static struct command scratch;

static const char *const mode_name[MODES] = { "IR", "SENSOR", "IR_BLASTER", "LED_LIGHTING" };
static const u8 mode_len[MODES] = { 2, 6, 10, 12 };

/* ---------------------------------------------------------------- output */

static char out[BLOCK];
static size_t out_n;

static void flush(void)
{
    size_t done = 0;
    while (done < out_n) {
        ssize_t k = write(1, out + done, out_n - done);
        if (k < 0) {
            if (errno == EINTR)
                continue;
            _exit(1);
        }
        done += (size_t)k;
    }
    out_n = 0;
}

/* room for one bench line's whole output, which is well under 512 bytes */
static inline void room(void)
{
    if (out_n > sizeof out - 512)
        flush();
}

static inline void put(const char *s, size_t n)
{
    memcpy(out + out_n, s, n);
    out_n += n;
}
#define PUT(s) put(s, sizeof(s) - 1)

static inline void put_char(char c) { out[out_n++] = c; }

static void put_number(u64 v)
{
    char b[20];
    size_t i = sizeof b;
    do {
        b[--i] = (char)('0' + v % 10);
        v /= 10;
    } while (v);
    put(b + i, sizeof b - i);
}

static inline void put_asker(u32 c)
{
    put_char((char)('0' + c));
    put_char(' ');
}

static void put_error(u32 c, u32 m, u32 p, u32 number)
{
    put_asker(c);
    PUT("ERR_");
    put_char((char)('0' + m));
    put_char(':');
    put_char((char)('0' + p));
    PUT(",0");
    put_char((char)('0' + number / 10));
    put_char((char)('0' + number % 10));
    put_char('\n');
}

static void put_state(u32 c, u32 m, u32 p, int s)
{
    put_asker(c);
    PUT("state,");
    put_char((char)('0' + m));
    put_char(':');
    put_char((char)('0' + p));
    put_char(',');
    put_char((char)('0' + s));
    put_char('\n');
}

static void put_mode(u32 c, u32 p)
{
    put_asker(c);
    PUT("IR,1:");
    put_char((char)('0' + p));
    put_char(',');
    put(mode_name[conn[p].mode], mode_len[conn[p].mode]);
    put_char('\n');
}

static void put_stop(u32 c, u32 p)
{
    put_asker(c);
    PUT("stopir,1:");
    put_char((char)('0' + p));
    put_char('\n');
}

/* ----------------------------------------------------------------- lamps */

/* The exact level: it goes up or down to the target, and stops there. */
static u32 exact_level(const struct lamp *l)
{
    u64 passed = now - l->since;
    u32 goal = l->target * PERCENT;
    /* a ramp of 1 goes everywhere while FULL microseconds pass; one of 0 is at its target */
    u32 most = passed < FULL ? (u32)passed * l->ramp : FULL;
    if (l->from < goal)
        return goal - l->from > most ? l->from + most : goal;
    return l->from - goal > most ? l->from - most : goal;
}

static inline u32 level(const struct lamp *l) { return exact_level(l) / PERCENT; }

static void turn(struct lamp *l, u32 target, u32 ramp)
{
    l->from = ramp ? exact_level(l) : target * PERCENT;
    l->since = now;
    l->target = target;
    l->ramp = ramp;
}

static void put_lamp(u32 c, u32 p)
{
    const struct lamp *l = &conn[p].lamp;
    put_asker(c);
    PUT("LED_LIGHTING,1:");
    put_char((char)('0' + p));
    put_char(',');
    put_number(level(l));
    put_char(',');
    put_number(l->target);
    put_char('\n');
}

/* --------------------------------------------------------------- reading */

static inline int is_digit(u8 b) { return (u8)(b - '0') <= 9; }
static inline int is_letter(u8 b) { return (u8)(b - 'A') <= 25; }

/*
 * A line is s..e, and the byte at e is its LF: so what looks at a byte need
 * not look for the end first.
 */

/* The end of the field that starts at s: its comma or the line's end. */
static inline const u8 *field_end(const u8 *s, const u8 *e)
{
    while (s < e && *s != ',')
        s++;
    return s;
}

/* The digits at *s as a number; NONE if there are none or over 6. */
static inline u32 digits(const u8 **s)
{
    const u8 *t = *s;
    u32 v = 0;
    while (is_digit(*t))
        v = v * 10 + (u32)(*t++ - '0');
    size_t n = (size_t)(t - *s);
    *s = t;
    return n == 0 || n > NUMBER_DIGITS ? NONE : v;
}

/* The field behind the comma at *s, whole, as a number; else NONE. */
static u32 next_number(const u8 **s, const u8 *e)
{
    if (*s < e)
        ++*s;
    u32 v = digits(s);
    return *s == e || **s == ',' ? v : NONE;
}

#define ONES 0x0101010101010101u     /* a 1 in each byte of a word */

/* Of eight bytes, the lowest that is not 32 to 126 has its top bit set here; none has if all are. */
static inline u64 out_of_range(const u8 *s)
{
    u64 w;
    memcpy(&w, s, 8);
    return w | (w - 32 * ONES) | (w + ONES);
}

/* Whether all bytes are 32 to 126; eight at a time, the last eight again. */
static int printable(const u8 *s, size_t n)
{
    u64 bad = 0;
    if (n < 8) {
        for (size_t i = 0; i < n; i++)
            if ((u8)(s[i] - 32) > 94)
                return 0;
        return 1;
    }
    for (size_t i = 0; i < n - 8; i += 8)
        bad |= out_of_range(s + i);
    bad |= out_of_range(s + n - 8);
    return (bad & 128 * ONES) == 0;
}

/* The letters of the first pairs: each pair that has none yet gets the next. */
struct letters {
    u32 n;                           /* letters given */
    u32 seen;                        /* pairs looked at */
    u32 pair[LETTERS];
};

static void learn(struct letters *l, const u32 *pair, u32 n)
{
    for (; l->seen < n && l->n < LETTERS; l->seen++) {
        u32 i = 0;
        while (i < l->n && l->pair[i] != pair[l->seen])
            i++;
        if (i == l->n)
            l->pair[l->n++] = pair[l->seen];
    }
    l->seen = n;
}

static inline u32 periods_of(u32 pair) { return (pair >> 16) + (pair & 0xFFFF); }

/*
 * Reads the code s..e into scratch (freq is there already).
 * Answers 0 or the number of the first fault from the left.
 * It stands apart from its caller so that its loops have the registers.
 */
static __attribute__((noinline)) u32 read_code(const u8 *s, const u8 *e)
{
    const u32 freq = scratch.freq;
    u32 least = (freq + 12499) / 12500;
    u32 *const pair = scratch.pair;
    u32 n = 0, periods = 0;
    struct letters l = { 0, 0, { 0 } };

    if (least < 4)
        least = 4;
    if (is_letter(*s))
        return 22;                    /* no pair has a letter yet */

    for (;;) {
        /* A spelled pair must begin here, not at a letter. */
        if (!is_digit(*s))
            return 9;
        if (n == PAIRS)
            return 20;
        u32 on = digits(&s);
        if (on < least || on > 50000)
            return 9;
        if (*s != ',')
            return s == e ? 10 : is_letter(*s) ? 21 : 9;
        s++;
        if (!is_digit(*s))
            return is_letter(*s) ? 21 : 9;
        u32 off = digits(&s);
        if (off < least || off > 50000)
            return 9;
        pair[n++] = on << 16 | off;
        periods += on + off;

        if (*s == ',') {
            s++;                      /* a spelled pair must follow */
            continue;
        }
        if (s == e)
            break;
        if (!is_letter(*s))
            return 9;
        learn(&l, pair, n);
        for (u32 i; (i = (u32)(*s - 'A')) < l.n; s++) {
            if (n == PAIRS)
                return 20;
            pair[n++] = l.pair[i];
            periods += periods_of(l.pair[i]);
        }
        if (is_letter(*s))
            return n == PAIRS ? 20 : 22;
        l.seen = n;
        if (s == e)
            break;
        /* a digit begins the next spelled pair, all else is 009 */
    }
    scratch.n = n;
    scratch.periods = periods;
    return 0;
}

/* -------------------------------------------------------------- requests */

static inline int is_sender(const struct connector *k)
{
    return k->mode != SENSOR && k->mode != LED_LIGHTING;
}

static void start(struct connector *k, u32 c)
{
    u32 before = (scratch.offset - 1) / 2;
    u64 lead = 0;
    for (u32 i = 0; i < before; i++)
        lead += periods_of(scratch.pair[i]);
    k->busy = 1;
    k->owner = (int)c;
    k->lead = lead;
    k->tail = scratch.periods - lead;
    k->at = 0;
    k->copies = scratch.repeat;
    memcpy(&k->cmd, &scratch, offsetof(struct command, pair) + scratch.n * sizeof scratch.pair[0]);
}

static int same_command(const struct command *a, const struct command *b)
{
    return a->id == b->id && a->freq == b->freq && a->repeat == b->repeat
        && a->offset == b->offset && a->n == b->n
        && memcmp(a->pair, b->pair, a->n * sizeof a->pair[0]) == 0;
}

/*
 * The total becomes copies finished plus repeat.  The tails of finished copies
 * are taken off both sides, so the copy in hand is again the first one.
 */
static void renew(struct connector *k)
{
    u64 lead = k->lead * TICKS, tail = k->tail * TICKS;
    if (k->at >= lead)
        k->at = lead + (k->at - lead) % tail;
    k->copies = k->cmd.repeat;
}

static void do_sendir(u32 c, u32 p, const u8 *s, const u8 *e)
{
    struct connector *k = &conn[p];
    u32 fault = 0, v;

    if (!is_sender(k)) {
        put_error(c, 1, p, 13);
        return;
    }
    v = next_number(&s, e);
    if (v > 65535) { fault = 4; goto refuse; }
    scratch.id = v;
    v = next_number(&s, e);
    if (v < 15000 || v > 500000) { fault = 5; goto refuse; }
    scratch.freq = v;
    v = next_number(&s, e);
    if (v < 1 || v > 999999) { fault = 6; goto refuse; }
    scratch.repeat = v > 20 ? 20 : v;
    v = next_number(&s, e);
    if (v < 1 || v > 383 || v % 2 == 0) { fault = 7; goto refuse; }
    scratch.offset = v;
    if (s < e)
        s++;
    fault = read_code(s, e);
    if (fault == 0 && scratch.offset > 2 * scratch.n - 1)
        fault = 7;
    if (fault)
        goto refuse;

    if (!k->busy)
        start(k, c);
    else if (k->owner != (int)c) {
        put_asker(c);
        PUT("busyIR,1:");
        put_char((char)('0' + p));
        put_char(',');
        put_number(scratch.id);
        put_char('\n');
    } else if (same_command(&k->cmd, &scratch))
        renew(k);
    else
        start(k, c);
    return;

refuse:
    put_error(c, 1, p, fault);
}

static void do_set_ir(u32 c, u32 p, const u8 *s, const u8 *e)
{
    struct connector *k = &conn[p];
    if (s < e)
        s++;
    const u8 *f = s;
    s = field_end(s, e);
    size_t len = (size_t)(s - f);
    int m;
    for (m = 0; m < MODES; m++)
        if (len == mode_len[m] && memcmp(f, mode_name[m], len) == 0)
            break;
    if (m == MODES)
        put_error(c, 1, p, 23);
    else if (m == IR_BLASTER && p != 3)
        put_error(c, 1, p, 14);
    else if (s < e)
        put_error(c, 0, 0, 17);
    else if (k->busy)
        put_error(c, 1, p, 29);
    else {
        if (k->mode != (enum mode)m) {
            k->mode = (enum mode)m;
            k->contact = UNREAD;
            k->lamp = (struct lamp){ 0 };
        }
        put_mode(c, p);
    }
}

static void do_set_lamp(u32 c, u32 p, const u8 *s, const u8 *e)
{
    u32 target = next_number(&s, e);
    u32 ramp = next_number(&s, e);
    if (conn[p].mode != LED_LIGHTING || target < 1 || target > 100 || ramp > 10)
        put_error(c, 1, p, 23);
    else if (s < e)
        put_error(c, 0, 0, 17);
    else {
        turn(&conn[p].lamp, target, ramp);
        put_lamp(c, p);
    }
}

static void do_get_lamp(u32 c, u32 p, const u8 *s, const u8 *e)
{
    if (conn[p].mode != LED_LIGHTING)
        put_error(c, 1, p, 23);
    else if (s < e)
        put_error(c, 0, 0, 17);
    else
        put_lamp(c, p);
}

static void do_setstate(u32 c, u32 p, const u8 *s, const u8 *e)
{
    u32 v = next_number(&s, e);
    if (v > 1)
        put_error(c, 2, p, 23);
    else if (s < e)
        put_error(c, 0, 0, 17);
    else {
        relay[p] = (int)v;
        put_state(c, 2, p, (int)v);
    }
}

static void do_stopir(u32 c, u32 p)
{
    struct connector *k = &conn[p];
    if (!is_sender(k)) {
        put_error(c, 1, p, 13);
        return;
    }
    put_stop(c, p);
    if (k->busy) {
        if (k->owner != NOBODY && k->owner != (int)c)
            put_stop((u32)k->owner, p);
        k->busy = 0;
        k->owner = NOBODY;
    }
}

static void do_getstate(u32 c, u32 m, u32 p)
{
    if (m == 2)
        put_state(c, 2, p, relay[p]);
    else if (conn[p].mode != SENSOR)
        put_error(c, 1, p, 18);
    else if (conn[p].contact == UNREAD)
        put_error(c, 1, p, 28);
    else
        put_state(c, 1, p, conn[p].contact);
}

enum name {
    UNKNOWN, GETDEVICES, GETVERSION, SET_IR, GET_IR, SETSTATE, GETSTATE, SENDIR, STOPIR, SET_LAMP, GET_LAMP
};

static enum name read_name(const u8 *s, size_t n)
{
#define IS(text) (memcmp(s, text, sizeof(text) - 1) == 0)
    switch (n) {
    case 6:
        if (IS("sendir")) return SENDIR;
        if (IS("set_IR")) return SET_IR;
        if (IS("get_IR")) return GET_IR;
        if (IS("stopir")) return STOPIR;
        break;
    case 8:
        if (IS("getstate")) return GETSTATE;
        if (IS("setstate")) return SETSTATE;
        break;
    case 10:
        if (IS("getdevices")) return GETDEVICES;
        if (IS("getversion")) return GETVERSION;
        break;
    case 16:
        if (IS("set_LED_LIGHTING")) return SET_LAMP;
        if (IS("get_LED_LIGHTING")) return GET_LAMP;
        break;
    }
#undef IS
    return UNKNOWN;
}

/* What is asked of a connector or relay; s is at the comma after its address, or at the line's end. */
static void ask(enum name name, u32 c, u32 m, u32 p, const u8 *s, const u8 *e)
{
    switch (name) {
    case SENDIR:
        do_sendir(c, p, s, e);
        return;
    case SET_IR:
        do_set_ir(c, p, s, e);
        return;
    case SETSTATE:
        do_setstate(c, p, s, e);
        return;
    case SET_LAMP:
        do_set_lamp(c, p, s, e);
        return;
    case GET_LAMP:
        do_get_lamp(c, p, s, e);
        return;
    default:
        break;
    }
    if (s < e) {
        put_error(c, 0, 0, 17);
        return;
    }
    if (name == STOPIR)
        do_stopir(c, p);
    else if (name == GETSTATE)
        do_getstate(c, m, p);
    else
        put_mode(c, p);
}

/* One request line of connection c (0 to 7), without its LF or CR, which stands behind it. */
static void request(u32 c, const u8 *s, size_t n)
{
    const u8 *e = s + n, *f;

    if (n > LINE_MAX_BYTES) {
        put_error(c, 0, 0, 15);
        return;
    }
    f = s;
    s = field_end(s, e);
    enum name name = read_name(f, (size_t)(s - f));
    if (name == UNKNOWN || !printable(f, n)) {
        put_error(c, 0, 0, 1);
        return;
    }

    if (name == GETDEVICES || name == GETVERSION) {
        if (s < e)
            put_error(c, 0, 0, 17);
        else if (name == GETVERSION) {
            put_asker(c);
            PUT("LH-01\n");
        } else {
            put_asker(c);
            PUT("device,0,0 ETHERNET\n");
            put_asker(c);
            PUT("device,1,3 IR\n");
            put_asker(c);
            PUT("device,2,3 RELAY\n");
            put_asker(c);
            PUT("endlistdevices\n");
        }
        return;
    }

    /* the address: digits, colon, digits, and then a comma or the end */
    if (s < e)
        s++;
    f = s;
    u32 m = digits(&s);
    if (s == f || *s != ':') {
        put_error(c, 0, 0, 17);
        return;
    }
    f = ++s;
    u32 p = digits(&s);
    if (s == f || (s < e && *s != ',')) {
        put_error(c, 0, 0, 17);
        return;
    }
    if (name == GETSTATE ? (m != 1 && m != 2) : m != (name == SETSTATE ? 2u : 1u)) {
        put_error(c, 0, 0, 2);
        return;
    }
    if (p < 1 || p > PORTS) {
        put_error(c, 0, 0, 3);
        return;
    }

    ask(name, c, m, p, s, e);
}

/* ----------------------------------------------------------------- calls */

/* Microseconds until a busy connector has done all of its periods. */
static inline u64 due(const struct connector *k)
{
    u64 left = (k->lead + k->copies * k->tail) * TICKS - k->at;
    return (left + k->cmd.freq - 1) / k->cmd.freq;
}

struct completions {
    u32 n;
    u64 moment[PORTS];
    u32 port[PORTS];
};

/* Lets n microseconds pass: what completes in them, by moment and then by port. */
static inline void pass(u64 n, struct completions *all)
{
    now += n;
    all->n = 0;
    for (u32 p = 1; p <= PORTS; p++) {
        struct connector *k = &conn[p];
        if (!k->busy)
            continue;
        u64 left = (k->lead + k->copies * k->tail) * TICKS - k->at;
        if (left > n * k->cmd.freq) {
            k->at += n * k->cmd.freq;
            continue;
        }
        u64 when = due(k);
        u32 i = all->n++;
        while (i > 0 && all->moment[i - 1] > when) {
            all->moment[i] = all->moment[i - 1];
            all->port[i] = all->port[i - 1];
            i--;
        }
        all->moment[i] = when;
        all->port[i] = p;
    }
}

static inline void put_complete(u32 p)
{
    PUT("completeir,1:");
    put_char((char)('0' + p));
    put_char(',');
    put_number(conn[p].cmd.id);
}

static inline void complete(u32 p)
{
    conn[p].busy = 0;
    conn[p].owner = NOBODY;
}

static void do_wait(u64 n)
{
    struct completions all;

    pass(n, &all);
    for (u32 i = 0; i < all.n; i++) {
        u32 p = all.port[i];
        int owner = conn[p].owner;
        put_char('@');
        put_number(all.moment[i]);
        put_char(' ');
        put_char(owner == NOBODY ? '-' : (char)('0' + owner));
        put_char(' ');
        put_complete(p);
        put_char('\n');
        complete(p);
    }
}

static void do_close(u32 c)
{
    for (u32 p = 1; p <= PORTS; p++)
        if (conn[p].owner == (int)c)
            conn[p].owner = NOBODY;
}

/* Whether the reading is taken. */
static int do_reading(u64 p, u64 value)
{
    if (p < 1 || p > PORTS || conn[p].mode != SENSOR || value > 1)
        return 0;
    conn[p].contact = (int)value;
    return 1;
}

static void refuse(const char *number)
{
    put_char('!');
    put(number, strlen(number));
    put_char('\n');
}

/* ----------------------------------------------------------------- bench */

/* A bench number of 1 to 10 digits at *s; 0 if there is none. */
static int bench_number(const u8 **s, const u8 *e, u64 *v)
{
    const u8 *b = *s, *t = b;
    u64 x = 0;
    while (t < e && is_digit(*t)) {
        if (t - b == BENCH_DIGITS)
            return 0;
        x = x * 10 + (u64)(*t - '0');
        t++;
    }
    *s = t;
    *v = x;
    return t != b;
}

static inline int bench_space(const u8 **s, const u8 *e)
{
    if (*s == e || **s != ' ')
        return 0;
    ++*s;
    return 1;
}

/* One bench line without its LF, which stands behind it. Flat, so that the frames, which call the same parts, cost
   it nothing. */
__attribute__((flatten)) static void bench_line(const u8 *s, size_t n)
{
    const u8 *e = s + n;
    u64 a, b;

    room();
    if (n == 0)
        goto other;
    if (is_digit(*s)) {
        if (!bench_number(&s, e, &a) || !bench_space(&s, e))
            goto other;
        if (a >= CONNECTIONS)
            refuse("102");
        else
            request((u32)a, s, (size_t)(e - s));
        return;
    }
    u8 kind = *s++;
    if (kind != 'r' && kind != 'x' && kind != 'w')
        goto other;
    if (!bench_space(&s, e) || !bench_number(&s, e, &a))
        goto other;
    if (kind == 'r' && (!bench_space(&s, e) || !bench_number(&s, e, &b)))
        goto other;
    if (s != e)
        goto other;
    if (kind == 'w') {
        if (a > WAIT_MAX)
            refuse("103");
        else
            do_wait(a);
    } else if (kind == 'x') {
        if (a >= CONNECTIONS)
            refuse("102");
        else
            do_close((u32)a);
    } else if (!do_reading(a, b))
        refuse("104");
    return;
other:
    refuse("");
}

static u8 block[BLOCK];
static u8 kept[KEEP + 1];           /* the start of a line begun in an earlier block, and an LF */

/* What is to be read next into block, after all before it is answered; 0 at the input's end. */
static size_t next_block(void)
{
    for (;;) {
        flush();
        ssize_t got = read(0, block, sizeof block);
        if (got >= 0)
            return (size_t)got;
        if (errno != EINTR)
            _exit(1);
    }
}

static void bench(void)
{
    size_t kept_n = 0, got;
    int partial = 0;                 /* bytes of an unfinished line have been read */

    while ((got = next_block()) > 0) {
        const u8 *s = block, *e = block + got;
        while (s < e) {
            const u8 *lf = memchr(s, '\n', (size_t)(e - s));
            const u8 *stop = lf ? lf : e;
            size_t n = (size_t)(stop - s);
            if (lf && !partial) {
                bench_line(s, n);
            } else {
                /* what is cut off changes nothing: the line is 015, !102 or ! */
                if (n > KEEP - kept_n)
                    n = KEEP - kept_n;
                memcpy(kept + kept_n, s, n);
                kept_n += n;
                partial = 1;
                if (lf) {
                    kept[kept_n] = '\n';
                    bench_line(kept, kept_n);
                    kept_n = 0;
                    partial = 0;
                }
            }
            s = lf ? lf + 1 : e;
        }
    }
    if (partial)
        refuse("");
}

/* ------------------------------------------------------------------ port */

enum { HEAD = 4, NOBODY_THERE = 255, REPLY_BYTES = 256 };

/* The start of each connection's unfinished line, one byte more than a line may have, and a CR. */
static struct unfinished {
    size_t n;
    u8 byte[LINE_MAX_BYTES + 2];
} unfinished[CONNECTIONS];

static void put_head(char kind, u32 c, size_t n)
{
    put_char(kind);
    put_char((char)c);
    put_char((char)(n >> 8));
    put_char((char)n);
}

static void put_4(u64 v)
{
    for (int shift = 24; shift >= 0; shift -= 8)
        put_char((char)(v >> shift));
}

static void frame_refusal(u32 c, u32 number)
{
    put_head('!', c, 2);
    put_char((char)(number >> 8));
    put_char((char)number);
}

/* The bench's lines `c reply` as frames; those of one connection in a row are one. */
static void frame_replies(const char *said, size_t n)
{
    size_t head = 0;
    int to = NOBODY;

    for (size_t i = 0; i < n; i++) {
        if (said[i] - '0' != to) {
            to = said[i] - '0';
            head = out_n;
            put_head('b', (u32)to, 0);
        }
        for (i += 2; said[i] != '\n'; i++)
            put_char(said[i]);
        put_char('\r');
        out[head + 3] = (char)(out_n - head - HEAD);
    }
}

static void frame_connector(u32 c, u32 p)
{
    const struct connector *k = &conn[p];
    u32 id = k->busy ? k->cmd.id : 0;
    put_head('s', c, 7);
    put_char(1);
    put_char((char)p);
    put_char((char)k->mode);
    put_char((char)k->busy);
    put_char((char)(id >> 8));
    put_char((char)id);
    put_char((char)k->lamp.target);
}

static void frame_relay(u32 c, u32 p)
{
    put_head('s', c, 3);
    put_char(2);
    put_char((char)p);
    put_char((char)relay[p]);
}

/*
 * How the connector or relay is that a line was carried out on. Where it was
 * one, the reply to a set_IR, set_LED_LIGHTING, stopir or setstate names it
 * (the other requests begin with g), and a line without a reply is a sendir
 * that was taken.
 */
static void frame_state(u32 c, const u8 *line, const char *said, size_t n)
{
    const char *reply = said + 2;
#define NAMED(text) (memcmp(reply, text, sizeof(text) - 1) == 0)
#define PORT(text) ((u32)(reply[sizeof(text) - 1] - '0'))
    if (n == 0) {
        while (*line++ != ':')
            ;
        frame_connector(c, digits(&line));
    } else if (line[0] != 's') {
        return;
    } else if (NAMED("IR,1:")) {
        frame_connector(c, PORT("IR,1:"));
    } else if (NAMED("LED_LIGHTING,1:")) {
        frame_connector(c, PORT("LED_LIGHTING,1:"));
    } else if (NAMED("stopir,1:")) {
        frame_connector(c, PORT("stopir,1:"));
    } else if (NAMED("state,2:")) {
        frame_relay(c, PORT("state,2:"));
    }
#undef NAMED
#undef PORT
}

/* One line without its CR, which stands behind it. */
static void port_line(u32 c, const u8 *s, size_t n)
{
    char said[REPLY_BYTES];

    room();
    size_t from = out_n;
    request(c, s, n);
    size_t said_n = out_n - from;
    memcpy(said, out + from, said_n);
    out_n = from;
    frame_replies(said, said_n);
    frame_state(c, s, said, said_n);
}

/* Bytes of a piece: whole lines as they stand, a line that is cut from its parts. */
static void port_bytes(u32 c, const u8 *s, const u8 *e)
{
    struct unfinished *u = &unfinished[c];
    while (s < e) {
        const u8 *cr = memchr(s, '\r', (size_t)(e - s));
        size_t n = (size_t)((cr ? cr : e) - s);
        if (cr && u->n == 0) {
            port_line(c, s, n);
        } else {
            /* what is cut off changes nothing: the line is 015 */
            if (n > LINE_MAX_BYTES + 1 - u->n)
                n = LINE_MAX_BYTES + 1 - u->n;
            memcpy(u->byte + u->n, s, n);
            u->n += n;
            if (cr) {
                u->byte[u->n] = '\r';
                port_line(c, u->byte, u->n);
                u->n = 0;
            }
        }
        s = cr ? cr + 1 : e;
    }
}

static void port_wait(u64 n)
{
    struct completions all;

    pass(n, &all);
    for (u32 i = 0; i < all.n; i++) {
        u32 p = all.port[i];
        int owner = conn[p].owner;
        size_t head = out_n;
        put_head('f', owner == NOBODY ? NOBODY_THERE : (u32)owner, 0);
        put_4(all.moment[i]);
        put_complete(p);
        put_char('\r');
        out[head + 3] = (char)(out_n - head - HEAD);
        complete(p);
    }
}

/* The carrier is on where the periods done lie in an on count, its start included and its end not. */
static int carrier(const struct connector *k)
{
    u64 lead = k->lead * TICKS, at = k->at, end = 0;

    if (!k->busy)
        return 0;
    if (at >= lead)
        at = lead + (at - lead) % (k->tail * TICKS);
    for (u32 i = 0; i < k->cmd.n; i++) {
        end += (u64)(k->cmd.pair[i] >> 16) * TICKS;
        if (at < end)
            return 1;
        end += (u64)(k->cmd.pair[i] & 0xFFFF) * TICKS;
        if (at < end)
            return 0;
    }
    return 0;
}

static void port_due(void)
{
    u64 next = WAIT_MAX + 1;
    for (u32 p = 1; p <= PORTS; p++)
        if (conn[p].busy && due(&conn[p]) < next)
            next = due(&conn[p]);
    put_head('d', 0, next <= WAIT_MAX ? 4 : 0);
    if (next <= WAIT_MAX)
        put_4(next);
}

static void port_carriers(void)
{
    put_head('c', 0, PORTS);
    for (u32 p = 1; p <= PORTS; p++)
        put_char((char)carrier(&conn[p]));
}

static void port_levels(void)
{
    put_head('l', 0, PORTS);
    for (u32 p = 1; p <= PORTS; p++)
        put_char((char)level(&conn[p].lamp));
}

static void port_close(u32 c)
{
    if (c >= CONNECTIONS) {
        frame_refusal(c, 102);
        return;
    }
    unfinished[c].n = 0;
    do_close(c);
}

static void port_reading(u32 p, u32 value)
{
    if (!do_reading(p, value))
        frame_refusal(p, 104);
}

static void port_wait_or_refuse(u32 c, const u8 *s)
{
    u64 n = (u64)s[0] << 24 | (u64)s[1] << 16 | (u64)s[2] << 8 | s[3];
    if (n > WAIT_MAX)
        frame_refusal(c, 103);
    else
        port_wait(n);
}

/* A whole frame other than a piece, with its bytes, as many as its kind has. */
static void port_call(u8 kind, u32 c, const u8 *s)
{
    room();
    switch (kind) {
    case 'x':
        port_close(c);
        break;
    case 'r':
        port_reading(c, s[0]);
        break;
    case 'w':
        port_wait_or_refuse(c, s);
        break;
    case 'c':
        port_carriers();
        break;
    case 'l':
        port_levels();
        break;
    default:
        port_due();
    }
}

enum fate { PIECE, CALL, PASSED_OVER };

/* The frame in hand. */
static struct {
    u8 head[HEAD];
    size_t head_n;
    enum fate fate;
    size_t left;                     /* of its bytes, those still to come */
    size_t n;                        /* of a call's, those that came */
    u8 byte[4];
} frame;

static int fits(u8 kind, size_t n)
{
    switch (kind) {
    case 'x': case 'c': case 'l': case 'd':
        return n == 0;
    case 'r':
        return n == 1;
    case 'w':
        return n == 4;
    default:
        return 0;
    }
}

/* What a frame's head says of it; what it is refused for is told at once. */
static enum fate judge(u8 kind, u32 c, size_t n)
{
    if (kind == 'b' ? c < CONNECTIONS : fits(kind, n))
        return kind == 'b' ? PIECE : CALL;
    room();
    frame_refusal(c, kind == 'b' ? 102 : 0);
    return PASSED_OVER;
}

static const u8 *take_head(const u8 *s, const u8 *e)
{
    while (s < e && frame.head_n < HEAD)
        frame.head[frame.head_n++] = *s++;
    if (frame.head_n == HEAD) {
        frame.left = (size_t)frame.head[2] << 8 | frame.head[3];
        frame.n = 0;
        frame.fate = judge(frame.head[0], frame.head[1], frame.left);
    }
    return s;
}

/* Takes what was read of the frame's bytes. */
static const u8 *take_bytes(const u8 *s, const u8 *e)
{
    size_t n = (size_t)(e - s) < frame.left ? (size_t)(e - s) : frame.left;
    frame.left -= n;
    if (frame.fate == PIECE)
        port_bytes(frame.head[1], s, s + n);
    else if (frame.fate == CALL)
        for (size_t i = 0; i < n; i++)
            frame.byte[frame.n++] = s[i];
    return s + n;
}

static void port(void)
{
    size_t got;
    while ((got = next_block()) > 0) {
        const u8 *s = block, *e = block + got;
        while (s < e) {
            if (frame.head_n < HEAD)
                s = take_head(s, e);
            if (frame.head_n < HEAD)
                break;
            s = take_bytes(s, e);
            if (frame.left > 0)
                break;
            if (frame.fate == CALL)
                port_call(frame.head[0], frame.head[1], frame.byte);
            frame.head_n = 0;
        }
    }
}

int main(int argc, char **argv)
{
    for (u32 p = 1; p <= PORTS; p++) {
        conn[p].mode = IR;
        conn[p].contact = UNREAD;
        conn[p].owner = NOBODY;
    }
    if (argc > 1 && strcmp(argv[1], "port") == 0)
        port();
    else
        bench();
    flush();
    return 0;
}
