#include <string.h>
#include "generate.h"
#include "plain.h"

#define COUNT(list) (sizeof (list) / sizeof (list)[0])
#define ONE_OF(list) ((list)[below(COUNT(list))])

enum { GETUSER = 0x34, SETUSER, GETGROUP, SETGROUP, GETPRIOR, SETPRIOR, GETPROC, LOCK = 0x3E, UNLOCK, SIGNAL, KILL,
       SLEEP, ALARM, PAUSE, EXIT = 0x46, FSHELL = 0x48, INDIRECT = 0x51 };
enum { PAPER_HEADER = 12, EVENT = 20, MOST_SEQUENCES = 64, MOST_TRIES = 100 };
enum { LOCK_SHARED, LOCK_UNSHARED, TRY_SHARED, TRY_UNSHARED }; /* D2 of a lock */

/* The first bytes of a sequence of the paper. */
struct name {
    uint16_t number, len;
};

struct band {
    uint16_t pid[PROCESSES];
    size_t count;
};

/* What the drawn events of a paper are like. Shares are of 100; an odd event comes once in so many. */
static struct {
    const uint8_t *own;      /* the calls about the caller itself */
    size_t own_count;
    unsigned own_share, signal_share, signals, unlocks; /* signals of 10 are not kill, unlocks of 12 are not lock */
    unsigned ticks, takes, reports;
    unsigned processes, named, longest, odd, stray;
    int careful, silent;     /* keeps someone awake; registers that a call does not name hold 0 */
} habit;

static uint64_t chance;
static struct state st;
static struct answer last;
static uint8_t sequences[MOST_SEQUENCES][SEQ];
static size_t sequence_count, wanted, written;
static uint16_t number_turn; /* of call numbers, directly and by indirect */
static uint8_t kind_turn;
static uint8_t *events;
static int astray; /* has the plain model come to what cannot be? Then nothing more is drawn by it. */

/* ---- chance ---- */

void generate_seed(uint64_t seed)
{
    chance = seed;
    number_turn = kind_turn = 0;
}

uint64_t generate_draw(void)
{
    uint64_t z = chance += 0x9E3779B97F4A7C15;

    z = (z ^ z >> 30) * 0xBF58476D1CE4E5B9;
    z = (z ^ z >> 27) * 0x94D049BB133111EB;
    return z ^ z >> 31;
}

uint16_t generate_below(size_t n)
{
    return (uint16_t)(generate_draw() % n);
}

int generate_one_in(size_t n)
{
    return generate_below(n) == 0;
}

static uint64_t draw(void)
{
    return generate_draw();
}

static uint16_t below(size_t n)
{
    return generate_below(n);
}

static int one_in(size_t n)
{
    return generate_one_in(n);
}

static uint16_t between(size_t least, size_t most)
{
    return (uint16_t)(least + below(most - least + 1));
}

static uint16_t edge16(void)
{
    static const uint16_t edges[] = {0, 1, 2, 3, 4, 7, 8, 16, 17, 127, 128, 255, 256, 257, 32767, 32768, 65535};

    return one_in(4) ? (uint16_t)draw() : ONE_OF(edges);
}

static uint32_t edge32(void)
{
    static const uint32_t edges[] = {0, 1, 2, 3, 16, 17, 40, 41, 255, 256, 65535, 65536, 65537, 65538, 0x7FFFFFFF,
                                     0x80000000, 0xFFFFFFD7, 0xFFFFFFD8, 0xFFFFFFFE, 0xFFFFFFFF};

    return one_in(4) ? (uint32_t)draw() : ONE_OF(edges);
}

static uint32_t draw_address(void)
{
    static const uint32_t addresses[] = {2, 3, 1000, 2000, 0x12345678, 0xFFFFFFFF};

    return ONE_OF(addresses);
}

/* ---- writing ---- */

static void put16(uint8_t *at, size_t n)
{
    at[0] = (uint8_t)(n >> 8);
    at[1] = (uint8_t)n;
}

static void put32(uint8_t *at, uint32_t n)
{
    put16(at, n >> 16);
    put16(at + 2, n);
}

static void put_event(uint8_t *at, const struct event *ev, uint16_t number)
{
    at[0] = ev->kind;
    at[1] = ev->call;
    put16(at + 2, ev->caller);
    put16(at + 4, ev->d0);
    put16(at + 6, ev->d1);
    put16(at + 8, ev->d2);
    put32(at + 10, ev->d3);
    put32(at + 14, ev->a0);
    put16(at + 18, number);
}

/* Header and sequences around the events. Returns the paper's length. */
static size_t put_around(uint8_t *paper)
{
    const size_t start = PAPER_HEADER + EVENT * wanted, end = start + SEQ * sequence_count;
    const size_t header[] = {1, wanted, PAPER_HEADER, sequence_count, start, end};

    for (size_t i = 0; i < COUNT(header); i++)
        put16(paper + 2 * i, header[i]);
    memcpy(paper + start, sequences, SEQ * sequence_count);
    return end;
}

static int full(void)
{
    return written == wanted || astray;
}

static void set_sequence(struct event *ev, uint16_t number)
{
    ev->named = number != 0;
    if (ev->named)
        memcpy(ev->seq, sequences[number - 1], SEQ);
}

static const struct process *find_in(const struct state *s, uint16_t pid)
{
    for (int i = 0; i < s->live; i++)
        if (s->process[i].pid == pid)
            return &s->process[i];
    return NULL;
}

static int state_can_be(const struct state *s)
{
    if (s->live < 1 || s->live > PROCESSES || s->rows > ROWS)
        return 0;
    for (int i = 0; i < s->rows; i++)
        if (s->row[i].len > SEQ || !find_in(s, s->row[i].owner))
            return 0;
    return 1;
}

static int answer_can_be(const struct answer *an)
{
    return an->kind == REFUSED ? an->number >= R_BADSTATE && an->number <= R_NOTLOCKED
                               : an->kind < REFUSED && an->number == 0;
}

int generate_play(struct state *s, const struct event *ev, struct answer *an)
{
    state_event(s, ev, an);
    return state_can_be(s) && answer_can_be(an);
}

static int play(struct state *s, struct event *ev, uint16_t number, struct answer *an)
{
    set_sequence(ev, number);
    return generate_play(s, ev, an);
}

/* Plays an event and writes it, unless the paper has all its events. */
static void act(struct event *ev, uint16_t number)
{
    struct state after = st;

    if (full())
        return;
    if (play(&after, ev, number, &last))
        st = after;
    else
        astray = 1;
    put_event(events + EVENT * written++, ev, number);
}

/* ---- who is there ---- */

static int awake(const struct process *p)
{
    return p->sleep == SLEEP_NONE;
}

static int able(const struct process *p)
{
    return awake(p) && p->pending == 0;
}

static const struct process *find(uint16_t pid)
{
    return find_in(&st, pid);
}

static int is_able(uint16_t pid)
{
    const struct process *p = find(pid);

    return p && able(p);
}

static int someone_awake(const struct state *s)
{
    for (int i = 0; i < s->live; i++)
        if (awake(&s->process[i]))
            return 1;
    return 0;
}

static int someone_wakes_soon(const struct state *s)
{
    for (int i = 0; i < s->live; i++)
        if (s->process[i].sleep == SLEEP_TIMED && s->process[i].seconds < 9)
            return 1;
    return 0;
}

static int someone_trapped(void)
{
    for (int i = 0; i < st.live; i++)
        if (st.process[i].pending)
            return 1;
    return 0;
}

static const struct row *draw_row_of(uint16_t owner)
{
    const struct row *fit[ROWS];
    size_t n = 0;

    for (int i = 0; i < st.rows; i++)
        if (st.row[i].owner == owner)
            fit[n++] = &st.row[i];
    return n ? fit[below(n)] : NULL;
}

/* A sequence that begins with the row's; more than one may. */
static struct name name_of(const struct row *r)
{
    size_t first = below(sequence_count);

    for (size_t i = 0; i < sequence_count; i++) {
        size_t n = (first + i) % sequence_count;

        if (memcmp(sequences[n], r->seq, r->len) == 0)
            return (struct name){(uint16_t)(n + 1), r->len};
    }
    return (struct name){0, r->len};
}

/* ---- drawing an event ---- */

static uint8_t draw_kind(void)
{
    unsigned n = below(100);

    if (one_in(10 * habit.odd))
        return (uint8_t)draw();
    if (!someone_awake(&st) && !one_in(10))
        return EV_TICK;
    if (someone_trapped() && one_in(8))
        return EV_TAKE;
    if (n < habit.ticks)
        return EV_TICK;
    n -= habit.ticks;
    return n < habit.takes ? EV_TAKE : n < habit.takes + habit.reports ? EV_REPORT : EV_CALL;
}

static uint16_t draw_caller(int trapped)
{
    uint16_t fit[PROCESSES];
    size_t n = 0;

    if (one_in(3 * habit.odd))
        return edge16();
    for (int i = 0; i < st.live; i++)
        if (awake(&st.process[i]) && (st.process[i].pending != 0) == trapped)
            fit[n++] = st.process[i].pid;
    return n && !one_in(habit.odd + 10) ? fit[below(n)] : st.process[below(st.live)].pid;
}

static uint8_t draw_call(void)
{
    unsigned n = below(100);

    if (one_in(habit.odd))
        return (uint8_t)(one_in(8) ? draw() : below(0x58));
    if (st.live < habit.processes && one_in(3))
        return FSHELL;
    if (one_in(60))
        return one_in(2) ? FSHELL : EXIT;
    if (n < habit.own_share)
        return habit.own[below(habit.own_count)];
    if (n < habit.own_share + habit.signal_share)
        return below(10) < habit.signals ? SIGNAL : KILL;
    return below(12) < habit.unlocks ? UNLOCK : LOCK;
}

/* Draws length and sequence of a lock or unlock, returns the sequence number. */
static uint16_t draw_sequence(struct event *ev, int own)
{
    const struct row *r = own ? draw_row_of(ev->caller) : NULL;
    struct name name;

    if (r) {
        name = name_of(r);
    } else {
        name.number = sequence_count ? between(1, habit.named) : 0;
        name.len = between(1, habit.longest);
    }
    ev->d3 = name.len;
    return name.number;
}

/* Often one with a trap pending, that it may get a second. */
static uint16_t draw_victim(void)
{
    const struct process *p = &st.process[below(st.live)];

    for (int i = 0; i < st.live && one_in(2); i++)
        if (st.process[i].pending)
            p = &st.process[i];
    return one_in(8) ? below(40) : p->pid;
}

/* Draws the registers that the call names, returns the sequence number. */
static uint16_t draw_arguments(struct event *ev, uint8_t call)
{
    static const uint32_t priorities[] = {0, 1, 20, 40, 41, (uint32_t)-1, (uint32_t)-40, (uint32_t)-41};
    static const uint32_t ids[] = {0, 0, 0, 7, 8, 65535, 65536};
    static const uint16_t masks[] = {0, 0, 16, 127, 127, 128, 255, 256};

    switch (call) {
    case LOCK: ev->d2 = below(4); return draw_sequence(ev, one_in(12));
    case UNLOCK: return draw_sequence(ev, !one_in(12));
    case SIGNAL: ev->d2 = between(1, 7); ev->a0 = one_in(3) ? below(2) : draw_address(); break;
    case KILL: ev->d2 = between(1, 7); ev->d3 = draw_victim(); break;
    case FSHELL: ev->d1 = ONE_OF(masks); ev->d2 = below(256); break;
    case SLEEP: case ALARM: ev->d3 = below(5); break;
    case GETUSER: case GETGROUP: ev->d2 = below(3); break;
    case SETUSER: case SETGROUP: ev->d1 = below(3); ev->d2 = below(4); ev->d3 = ONE_OF(ids); break;
    case SETPRIOR: ev->d3 = ONE_OF(priorities); break;
    default: break;
    }
    return habit.silent ? 0 : below(sequence_count + 1);
}

/* Registers that the call does not name hold anything, or 0. */
static void draw_registers(struct event *ev)
{
    memset(ev, 0, sizeof *ev);
    if (habit.silent)
        return;
    ev->d0 = edge16();
    ev->d1 = edge16();
    ev->d2 = edge16();
    ev->d3 = edge32();
    ev->a0 = edge32();
}

static void set_call(struct event *ev, uint8_t call, size_t indirect_once_in)
{
    ev->call = one_in(indirect_once_in) ? INDIRECT : call;
    if (ev->call == INDIRECT)
        ev->d0 = call;
}

/* Returns the sequence number. */
static uint16_t draw_event(struct event *ev)
{
    uint8_t call = draw_call();

    draw_registers(ev);
    ev->kind = draw_kind();
    if (ev->kind != EV_TICK || !habit.silent)
        ev->caller = draw_caller(ev->kind == EV_TAKE);
    if (ev->kind != EV_CALL && habit.silent)
        return 0;
    set_call(ev, call, 12);
    if (ev->call == INDIRECT && one_in(10))
        ev->d0 = edge16();
    return one_in(habit.odd) ? below(sequence_count + 1) : draw_arguments(ev, call);
}

/* Does process 1 sleep for good, or is no one awake or soon awake? */
static int stuck(const struct state *s)
{
    const struct process *first = &s->process[0];

    return first->sleep == SLEEP_PAUSE || first->seconds > 9 || !(someone_awake(s) || someone_wakes_soon(s));
}

static int worth(const struct answer *an)
{
    static const uint8_t kept_one_in[] = {0, 1, 8, 16, 2, 4, 3, 1, 1, 4, 4, 4, 1, 2, 4}; /* by refusal number */

    return an->kind != REFUSED || one_in(kept_one_in[an->number]);
}

/* Would the event be dull? Few refusals are kept; in a careful paper, nothing that leaves the model stuck. */
static int dull(struct event *ev, uint16_t number)
{
    struct state after = st;
    struct answer an;

    if (!play(&after, ev, number, &an))
        return 0;
    return !worth(&an) || (habit.careful && an.kind != REFUSED && stuck(&after));
}

static void draw_one(void)
{
    struct event ev;
    uint16_t number;
    int tries = MOST_TRIES;

    do
        number = draw_event(&ev);
    while (dull(&ev, number) && --tries);
    act(&ev, number);
}

/* ---- what a paper is like ---- */

/* Few different bytes, zero among them: so many sequences begin alike. */
static void draw_like_sequences(size_t count)
{
    static const uint8_t letters[] = {'A', 'A', 'A', 'B', 0, 255};

    sequence_count = count;
    for (size_t i = 0; i < SEQ * count; i++)
        sequences[i / SEQ][i % SEQ] = ONE_OF(letters);
}

/* The first two bytes tell them apart. */
static void draw_unlike_sequences(size_t count)
{
    draw_like_sequences(count);
    for (size_t i = 0; i < count; i++) {
        sequences[i][0] = (uint8_t)('A' + i / 8);
        sequences[i][1] = (uint8_t)('A' + i % 8);
    }
}

static void draw_mixed_habit(void)
{
    static const uint8_t own[] = {GETUSER, SETUSER, SETUSER, GETGROUP, SETGROUP, GETPRIOR, SETPRIOR, SETPRIOR,
                                  GETPROC, SLEEP, SLEEP, ALARM, ALARM, PAUSE};
    static const uint8_t named[] = {1, 2, 3, 5, 8, 64}, longest[] = {1, 2, 3, 16};

    draw_like_sequences(one_in(16) ? 0 : one_in(8) ? MOST_SEQUENCES : between(1, MOST_SEQUENCES));
    memset(&habit, 0, sizeof habit);
    habit.own = own;
    habit.own_count = COUNT(own);
    habit.own_share = 25;
    habit.signal_share = 20;
    habit.signals = between(3, 8);
    habit.unlocks = between(1, 7);
    habit.ticks = 7;
    habit.takes = 3;
    habit.reports = 4;
    habit.processes = between(2, 17);
    habit.named = ONE_OF(named);
    if (habit.named > sequence_count)
        habit.named = (unsigned)sequence_count;
    habit.longest = ONE_OF(longest);
    habit.odd = 30;
    habit.stray = 50;
    habit.careful = !one_in(20);
}

static void draw_light_habit(void)
{
    static const uint8_t own[] = {GETUSER, GETUSER, SETUSER, SETUSER, GETGROUP, GETGROUP, SETGROUP, SETGROUP, GETPRIOR,
                                  GETPRIOR, SETPRIOR, SETPRIOR, GETPROC, GETPROC, ALARM, SLEEP};

    draw_mixed_habit();
    draw_unlike_sequences(one_in(8) ? 0 : between(2, 6));
    habit.own = own;
    habit.own_count = COUNT(own);
    habit.own_share = 75;
    habit.signal_share = 14;
    habit.signals = 7;
    habit.unlocks = 4;
    habit.ticks = 7;
    habit.reports = 9;
    habit.processes = between(2, 5);
    habit.named = (unsigned)sequence_count;
    habit.longest = 2;
    habit.odd = 80;
    habit.careful = habit.silent = 1;
}

static void draw_locks_habit(void)
{
    draw_mixed_habit();
    draw_unlike_sequences(MOST_SEQUENCES);
    habit.own_share = 4;
    habit.signal_share = 3;
    habit.unlocks = between(3, 5);
    habit.ticks = 2;
    habit.takes = 1;
    habit.reports = 2;
    habit.processes = between(10, 16);
    habit.named = between(8, 24);
    habit.longest = 2;
    habit.odd = 100;
    habit.careful = 1;
}

static void draw_story_habit(void)
{
    draw_mixed_habit();
    draw_unlike_sequences(between(32, MOST_SEQUENCES));
    habit.named = 8;
    habit.longest = 3;
    habit.careful = 1;
}

/* ---- calls in a story: who asks what is told, the rest is drawn ---- */

static struct event asked(uint16_t caller, uint8_t call)
{
    struct event ev;

    if (one_in(habit.stray))
        draw_one();
    draw_registers(&ev);
    ev.kind = EV_CALL;
    ev.caller = caller;
    set_call(&ev, call, 12);
    return ev;
}

static void ask(uint16_t caller, uint8_t call)
{
    struct event ev = asked(caller, call);

    act(&ev, below(sequence_count + 1));
}

static void ask_lock(uint16_t caller, uint16_t kind, struct name name)
{
    struct event ev = asked(caller, LOCK);

    ev.d2 = kind;
    ev.d3 = name.len;
    act(&ev, name.number);
}

static void ask_unlock(uint16_t caller, struct name name)
{
    struct event ev = asked(caller, UNLOCK);

    ev.d3 = name.len;
    act(&ev, name.number);
}

static void ask_seconds(uint16_t caller, uint8_t call, uint32_t seconds)
{
    struct event ev = asked(caller, call);

    ev.d3 = seconds;
    act(&ev, below(sequence_count + 1));
}

static void ask_signal(uint16_t caller, uint16_t signal, uint32_t reaction)
{
    struct event ev = asked(caller, SIGNAL);

    ev.d2 = signal;
    ev.a0 = reaction;
    act(&ev, 0);
}

static void ask_kill(uint16_t caller, uint16_t signal, uint16_t to)
{
    struct event ev = asked(caller, KILL);

    ev.d2 = signal;
    ev.d3 = to;
    act(&ev, 0);
}

static void ask_fshell(uint16_t caller, uint16_t masked, uint16_t ignored)
{
    struct event ev = asked(caller, FSHELL);

    ev.d1 = masked;
    ev.d2 = ignored;
    act(&ev, 0);
}

static void happen(uint8_t kind, uint16_t caller)
{
    struct event ev;

    draw_registers(&ev);
    ev.kind = kind;
    ev.caller = caller;
    act(&ev, below(sequence_count + 1));
}

static void tick(void)
{
    happen(EV_TICK, edge16());
}

/* ---- bands and names ---- */

static void swap(uint16_t *a, uint16_t *b)
{
    uint16_t c = *a;

    *a = *b;
    *b = c;
}

/* Some or all of those that are able, in any order; process 1 stays out of it. */
static struct band gather(size_t most)
{
    struct band b = {{0}, 0};

    for (int i = 1; i < st.live; i++)
        if (able(&st.process[i]))
            b.pid[b.count++] = st.process[i].pid;
    for (size_t i = b.count; i > 1; i--)
        swap(&b.pid[i - 1], &b.pid[below(i)]);
    if (b.count > most)
        b.count = most;
    return b;
}

/* Two after each other begin alike and differ in length; all differ. */
static struct name name_at(size_t i)
{
    return (struct name){(uint16_t)(i / 2 % sequence_count + 1), (uint16_t)(2 + i % 2)};
}

static uint16_t someone_able(void)
{
    uint16_t fit[PROCESSES];
    size_t n = 0;

    for (int i = 0; i < st.live; i++)
        if (able(&st.process[i]))
            fit[n++] = st.process[i].pid;
    return n ? fit[below(n)] : 0;
}

/* One who may kill the process and will not end by it, or 0. */
static uint16_t killer_of(const struct process *to)
{
    for (int i = 0; i < st.live; i++) {
        const struct process *p = &st.process[i];

        if (p != to && able(p) && (p->user[0] == 0 || p->user[0] == to->user[0]))
            return p->pid;
    }
    return 0;
}

static void take_all(void)
{
    for (int i = 0; i < st.live && !full(); i++)
        while (st.process[i].pending && !full())
            happen(EV_TAKE, st.process[i].pid);
}

static void ask_child(uint16_t parent)
{
    static const uint16_t masks[] = {0, 0, 127, 127, 16, 255};
    uint16_t masked = ONE_OF(masks);

    ask_fshell(parent, masked, below(256));
}

static void breed(int processes)
{
    while (st.live < processes && !full()) {
        uint16_t parent = is_able(1) && !one_in(4) ? 1 : someone_able();

        if (parent)
            ask_child(parent);
        else
            tick();
    }
}

static void release(const struct process *owner)
{
    const struct row *r = draw_row_of(owner->pid);

    if (!r)
        return;
    if (owner->pid != 1 && one_in(12))
        ask(owner->pid, EXIT);
    else
        ask_unlock(owner->pid, name_of(r));
}

/* The owner of a row drawn gives it up, or is made to. */
static void give_up_one(void)
{
    const struct process *owner = find(st.row[below(st.rows)].owner);
    uint16_t killer = killer_of(owner);

    if (able(owner))
        release(owner);
    else if (owner->pending)
        happen(EV_TAKE, owner->pid);
    else if (killer && owner->pid != 1 && one_in(20))
        ask_kill(killer, SIG_KILL, owner->pid);
    else if (owner->sleep != SLEEP_LOCK)
        tick();
}

/* Until the table is empty, or nearly always. */
static void give_up(void)
{
    for (int tries = 400; st.rows && !full() && tries; tries--)
        give_up_one();
}

/* ---- chains ---- */

static void lock_own(const struct band *b, size_t first)
{
    for (size_t i = 0; i < b->count; i++)
        ask_lock(b->pid[i], one_in(4) ? LOCK_SHARED : LOCK_UNSHARED, name_at(first + i));
}

/* Each but the last asks for what the next holds, from the front or, for long searches, from the back. */
static void link_up(const struct band *b, size_t first)
{
    int forward = one_in(4);

    for (size_t n = 1; n < b->count; n++) {
        size_t i = forward ? n - 1 : b->count - 1 - n;

        ask_lock(b->pid[i], LOCK_UNSHARED, name_at(first + i + 1));
    }
}

/* The one at the end asks for what those before it hold, the more often the longer the chain. */
static void ask_back(const struct band *b, size_t end, size_t first)
{
    for (size_t n = between(1, end); n; n--) {
        size_t to = one_in(3) ? 0 : below(end);

        ask_lock(b->pid[end], one_in(6) ? TRY_UNSHARED : LOCK_UNSHARED, name_at(first + to));
    }
}

/* From the end: ask back, let go, and so on with the one that is granted. */
static void unwind(const struct band *b, size_t first)
{
    for (size_t end = b->count - 1; end > 0 && !full(); end--) {
        if (is_able(b->pid[end]))
            ask_back(b, end, first);
        if (is_able(b->pid[end]))
            ask_unlock(b->pid[end], name_at(first + end));
        if (one_in(8))
            return;
    }
}

static void put_first_in_front(struct band *b)
{
    if (!is_able(1) || b->count == PROCESSES)
        return;
    memmove(b->pid + 1, b->pid, b->count * sizeof b->pid[0]);
    b->pid[0] = 1;
    b->count++;
}

static void chain_up(void)
{
    size_t first = below(2 * sequence_count);
    struct band b;

    breed(one_in(3) ? PROCESSES : between(4, PROCESSES));
    b = gather(one_in(3) ? PROCESSES : between(3, PROCESSES));
    if (one_in(2))
        put_first_in_front(&b);
    if (b.count < 2)
        return;
    lock_own(&b, first);
    link_up(&b, first);
    unwind(&b, first);
    give_up();
}

/* ---- traps ---- */

static uint16_t draw_trap_signal(void)
{
    static const uint16_t signals[] = {1, 2, 4, 5, 6, 7};

    return ONE_OF(signals);
}

static void ask_trap(uint16_t pid)
{
    uint16_t signal = draw_trap_signal();

    ask_signal(pid, signal, draw_address());
}

/* A signal that the process traps, or 0. */
static uint16_t trapped_signal(const struct process *p)
{
    for (uint16_t s = 1; s <= SIGNALS; s++)
        if (p->reaction[s - 1] > IGNORE)
            return s;
    return 0;
}

static void set_traps(const struct band *b)
{
    for (size_t i = 0; i < b->count; i++)
        if (one_in(2))
            ask_trap(b->pid[i]);
}

/* A call of one with a trap pending, and the trap taken. */
static void call_and_take(uint16_t pid)
{
    if (one_in(3))
        ask(pid, (uint8_t)draw());
    if (one_in(2))
        happen(EV_TAKE, pid);
}

/* Several traps for one process, some of them twice. */
static void trap_often(void)
{
    struct band b = gather(1);
    const struct process *p = find(b.pid[0]);
    uint16_t killer = p ? killer_of(p) : 0;

    if (!killer)
        return;
    for (size_t n = between(2, 6); n; n--)
        ask_trap(b.pid[0]);
    for (size_t n = between(3, 8); n; n--) {
        p = find(b.pid[0]);
        if (p && trapped_signal(p) && one_in(2))
            ask_kill(killer, trapped_signal(p), b.pid[0]);
        else if (p)
            ask_kill(killer, draw_trap_signal(), b.pid[0]);
        call_and_take(b.pid[0]);
    }
    take_all();
}

/* ---- queues ---- */

static void join_queue(const struct band *b, struct name name, size_t shared_once_in)
{
    for (size_t i = 0; i < b->count; i++) {
        uint16_t unshared = !one_in(shared_once_in);

        if (one_in(12))
            ask_lock(b->pid[i], (uint16_t)(TRY_SHARED + unshared), name);
        ask_lock(b->pid[i], unshared, name);
    }
}

/* A lock sleeper gets a signal that it traps, or else, seldom, one that ends it. */
static void pull_out(void)
{
    const struct process *p = &st.process[below(st.live)];
    uint16_t signal = trapped_signal(p), killer = killer_of(p), pid = p->pid;

    if (p->sleep != SLEEP_LOCK || !killer)
        return;
    if (signal)
        ask_kill(killer, signal, pid);
    else if (pid != 1 && one_in(3))
        ask_kill(killer, SIG_KILL, pid);
}

static void drain_queue(struct name name)
{
    for (size_t n = between(4, 50); n && st.rows && !full(); n--) {
        uint16_t caller = someone_able();

        pull_out();
        if (caller > 1 && one_in(6))
            ask_lock(caller, below(2), name);
        else if (st.rows)
            give_up_one();
        if (one_in(3))
            happen(EV_REPORT, someone_able());
    }
    take_all();
}

static void queue_up(void)
{
    struct name name = name_at(below(2 * sequence_count));
    struct band b;

    breed(one_in(2) ? PROCESSES : between(6, PROCESSES));
    b = gather(PROCESSES);
    set_traps(&b);
    if (one_in(2))
        ask_lock(1, below(2), name);
    join_queue(&b, name, between(1, 5));
    drain_queue(name);
    if (one_in(2))
        give_up();
}

/* ---- rings ---- */

/* All but the last, in any order. */
static void link_any(const struct band *b, size_t first)
{
    size_t start = below(b->count - 1);

    for (size_t n = 1; n < b->count; n++) {
        size_t i = (n + start) % (b->count - 1);

        ask_lock(b->pid[i], LOCK_UNSHARED, name_at(first + i + 1));
    }
}

/* What would close the ring, in some ways, and what nearly would. */
static void close_ring(const struct band *b, size_t first)
{
    static const uint16_t kinds[] = {TRY_UNSHARED, TRY_SHARED, LOCK_UNSHARED, LOCK_SHARED, LOCK_UNSHARED};
    uint16_t end = b->pid[b->count - 1];

    for (size_t n = between(1, 3); n && is_able(end); n--) {
        size_t to = one_in(4) ? below(b->count) : 0;

        if (one_in(5))
            to = b->count + below(3);
        ask_lock(end, ONE_OF(kinds), name_at(first + to));
    }
}

static void ring_up(void)
{
    size_t first = below(2 * sequence_count);

    breed(between(7, PROCESSES));
    for (size_t n = between(1, 3); n && !full(); n--) {
        struct band b = gather(between(2, 6));

        if (b.count < 2)
            break;
        lock_own(&b, first);
        link_any(&b, first);
        close_ring(&b, first);
        first += b.count + below(2);
    }
    give_up();
}

/* ---- full tables ---- */

/* Without waiting, by anyone. */
static void fill_rows(size_t first)
{
    for (size_t n = 0; st.rows < ROWS && n < 3 * ROWS && !full(); n++) {
        uint16_t caller = someone_able();

        if (!caller)
            tick();
        else
            ask_lock(caller, one_in(3) ? TRY_SHARED : TRY_UNSHARED, name_at(first + n));
    }
}

/* A new one, one that would wait, one conditionally, one that it has, one that it has not, and one too long. */
static void ask_of_full_table(uint16_t caller, struct name other, size_t beyond)
{
    const struct row *r = draw_row_of(caller);
    struct name own = r ? name_of(r) : other;

    switch (below(7)) {
    case 0: ask_lock(caller, below(4), name_at(beyond)); break;
    case 1: ask_lock(caller, LOCK_UNSHARED, other); break;
    case 2: ask_lock(caller, TRY_UNSHARED, other); break;
    case 3: ask_lock(caller, below(4), own); break;
    case 4: ask_unlock(caller, name_at(beyond)); break;
    case 5: ask_lock(caller, below(6), (struct name){other.number, 17}); break;
    default: release(find(caller)); break;
    }
}

static void fill_table(void)
{
    size_t first = below(2 * sequence_count);
    struct band b = gather(2);

    if (b.count == 2) {
        lock_own(&b, first);
        link_up(&b, first); /* the first now waits for the second */
    }
    fill_rows(first + 2);
    for (size_t n = between(5, 25); n && b.count == 2 && !full(); n--) {
        uint16_t caller = one_in(3) ? b.pid[1] : someone_able();

        if (is_able(caller))
            ask_of_full_table(caller, name_at(first), first + 2 * sequence_count - 1);
        fill_rows(first + 2);
    }
    give_up();
}

static void fill_places(void)
{
    static const uint16_t masks[] = {0, 127, 255, 256, 65535};

    breed(PROCESSES);
    for (size_t n = between(1, 6); n && !full(); n--) {
        uint16_t caller = someone_able(), masked = ONE_OF(masks);

        if (caller)
            ask_fshell(caller, masked, ONE_OF(masks));
        if (caller > 1 && one_in(2) && is_able(caller))
            ask(caller, EXIT);
    }
}

/* PIDs are never used again: so they grow, here beyond a byte. */
static void come_and_go(void)
{
    for (int n = 270; n && !full(); n--) {
        if (!is_able(1))
            tick();
        ask_fshell(1, 0, 0);
        if (last.kind == DONE)
            ask_kill(1, SIG_KILL, (uint16_t)last.d3);
    }
}

static void fill_up(void)
{
    if (written == 0 && wanted > 700) {
        come_and_go();
    } else if (one_in(4)) {
        fill_places();
    } else {
        breed(between(3, PROCESSES));
        fill_table();
    }
    take_all();
}

/* ---- alarms ---- */

static void set_alarms(const struct band *b, size_t first, uint32_t due)
{
    for (size_t i = 0; i < b->count; i++) {
        if (!one_in(3))
            ask_signal(b->pid[i], SIG_ALARM, one_in(2) ? ABORT : draw_address());
        if (one_in(2))
            ask_lock(b->pid[i], below(2), name_at(first + i / 2));
        if (!one_in(5))
            ask_seconds(b->pid[i], ALARM, due);
    }
}

/* Some wait for others' locks, some sleep until the alarm or a little longer. */
static void lie_down(const struct band *b, size_t first, uint32_t due)
{
    for (size_t i = 0; i < b->count; i++) {
        if (!is_able(b->pid[i]))
            continue;
        switch (below(6)) {
        case 0: ask_seconds(b->pid[i], SLEEP, due); break;
        case 1: ask_seconds(b->pid[i], SLEEP, due + below(3)); break;
        case 2: ask(b->pid[i], PAUSE); break;
        case 3: break;
        default: ask_lock(b->pid[i], LOCK_UNSHARED, name_at(first + below(b->count) / 2)); break;
        }
    }
}

static void sort_three(struct band *b)
{
    if (b->pid[0] > b->pid[1])
        swap(&b->pid[0], &b->pid[1]);
    if (b->pid[1] > b->pid[2])
        swap(&b->pid[1], &b->pid[2]);
    if (b->pid[0] > b->pid[1])
        swap(&b->pid[0], &b->pid[1]);
}

/* The alarm ends the first, which hands its lock to those whose alarm comes next in the same tick. */
static void hand_over(uint32_t due)
{
    struct band b = gather(3);
    struct name name = name_at(below(2 * sequence_count));

    if (b.count < 3)
        return;
    sort_three(&b);
    for (size_t i = 0; i < b.count; i++) {
        ask_signal(b.pid[i], SIG_ALARM, i == 0 || one_in(2) ? ABORT : draw_address());
        ask_seconds(b.pid[i], ALARM, due);
        ask_lock(b.pid[i], i && one_in(2) ? LOCK_SHARED : LOCK_UNSHARED, name);
    }
}

static void report_some(void)
{
    for (int i = 0; i < st.live && !full(); i++)
        if (awake(&st.process[i]) && one_in(2))
            happen(EV_REPORT, st.process[i].pid);
}

static void alarm_all(void)
{
    size_t first = below(2 * sequence_count);
    uint32_t due = between(1, 3);
    struct band b;

    breed(between(5, PROCESSES));
    if (one_in(3))
        trap_often();
    if (one_in(3))
        hand_over(due);
    b = gather(PROCESSES);
    set_alarms(&b, first, due);
    lie_down(&b, first, due);
    for (uint32_t n = 0; n <= due && !full(); n++)
        tick();
    report_some();
    take_all();
    if (one_in(3))
        give_up();
}

/* ---- edges ---- */

enum { D1 = 1, D2, D3, A0 };

/* The first and last values that a register may have, those beyond, and some that fewer bits would take for good. */
static const struct {
    uint8_t call, reg;
    uint32_t value[4];
} limits[] = {
    {GETUSER, D2, {0, 2, 3, 256}}, {GETGROUP, D2, {0, 2, 3, 256}},
    {SETUSER, D1, {0, 2, 3, 256}}, {SETUSER, D2, {0, 3, 4, 259}}, {SETUSER, D3, {0, 65535, 65536, 0x80000000}},
    {SETGROUP, D1, {0, 2, 3, 256}}, {SETGROUP, D2, {0, 3, 4, 259}}, {SETGROUP, D3, {0, 65535, 65536, 0x80000000}},
    {SETPRIOR, D3, {0, 40, 41, 65535}}, {SETPRIOR, D3, {(uint32_t)-1, (uint32_t)-40, (uint32_t)-41, 0x80000000}},
    {LOCK, D2, {0, 3, 4, 256}}, {LOCK, D2, {1, 2, 65535, 257}}, {LOCK, D3, {0, 1, 16, 17}},
    {LOCK, D3, {256, 257, 65536, 65537}}, {UNLOCK, D3, {0, 1, 16, 17}}, {UNLOCK, D3, {256, 257, 65536, 65537}},
    {SIGNAL, D2, {0, 1, 2, 3}}, {SIGNAL, D2, {4, 7, 8, 257}}, {SIGNAL, A0, {0, 1, 2, 65536}},
    {KILL, D2, {0, 1, 7, 8}}, {KILL, D2, {3, 257, 259, 65535}}, {KILL, D3, {0, 1, 2, 65535}},
    {KILL, D3, {65536, 65537, 65538, 0xFFFFFFFF}}, {FSHELL, D1, {0, 255, 256, 65535}},
    {FSHELL, D2, {0, 255, 256, 65535}}, {SLEEP, D3, {0, 1, 65536, 0xFFFFFFFF}}, {ALARM, D3, {0, 1, 65536, 0xFFFFFFFF}}};

static void set_register(struct event *ev, unsigned reg, uint32_t value)
{
    switch (reg) {
    case D1: ev->d1 = (uint16_t)value; break;
    case D2: ev->d2 = (uint16_t)value; break;
    case D3: ev->d3 = value; break;
    default: ev->a0 = value; break;
    }
}

static void play_edge(struct event *ev, uint16_t number)
{
    struct state after = st;
    struct answer an;

    if (!play(&after, ev, number, &an) || an.kind == REFUSED || !stuck(&after))
        act(ev, number);
    else
        tick();
}

static void start_call(struct event *ev, uint16_t caller, uint8_t call)
{
    draw_registers(ev);
    ev->kind = EV_CALL;
    ev->caller = caller;
    set_call(ev, call, 3);
}

/* One register at an edge, the others as the call wants them. */
static void edge_limit(uint16_t caller)
{
    size_t i = below(COUNT(limits));
    struct event ev;
    uint16_t number;

    start_call(&ev, caller, limits[i].call);
    number = draw_arguments(&ev, limits[i].call);
    set_register(&ev, limits[i].reg, ONE_OF(limits[i].value));
    play_edge(&ev, number);
}

static const uint8_t modelled[] = {GETUSER, SETUSER, GETGROUP, SETGROUP, GETPRIOR, SETPRIOR, GETPROC, LOCK, LOCK, LOCK,
                                   UNLOCK, UNLOCK, SIGNAL, KILL, SLEEP, ALARM, PAUSE, EXIT, FSHELL};

/* One register holds anything, or the sequence is another or none. */
static void edge_any(uint16_t caller)
{
    uint8_t call = ONE_OF(modelled);
    struct event ev;
    uint16_t number, reg = between(D1, A0);

    start_call(&ev, caller, call);
    number = draw_arguments(&ev, call);
    if (one_in(2))
        set_register(&ev, reg, reg == D1 || reg == D2 ? edge16() : edge32());
    else if (one_in(2))
        number = below(3);
    play_edge(&ev, number);
}

/* One who gives up its privilege and then asks for what is the privileged ones'. */
static void edge_privilege(uint16_t caller)
{
    struct event ev;
    uint16_t child;

    start_call(&ev, caller, SETUSER);
    ev.d1 = 0;
    ev.d2 = 3;
    ev.d3 = 7;
    play_edge(&ev, 0);
    ask_fshell(caller, 0, 0);
    child = (uint16_t)last.d3;
    for (size_t n = between(2, 6); n && is_able(caller); n--)
        one_in(2) ? edge_limit(caller) : ask_kill(caller, SIG_ALARM, draw_victim());
    ask_kill(caller, SIG_KILL, child);
    start_call(&ev, caller, SETUSER); /* back, by the login id */
    ev.d1 = 0;
    ev.d2 = 1;
    play_edge(&ev, 0);
}

/* All call numbers in turn, directly and by indirect. */
static void edge_number(uint16_t caller)
{
    struct event ev;

    start_call(&ev, caller, (uint8_t)(number_turn / 2));
    ev.call = number_turn % 2 ? INDIRECT : (uint8_t)(number_turn / 2);
    if (ev.call == INDIRECT)
        ev.d0 = number_turn / 2;
    number_turn = (uint16_t)((number_turn + 1) % 512);
    play_edge(&ev, below(sequence_count + 1));
}

/* By indirect, an unlisted number whose low byte is that of a modelled call, or of another. */
static void edge_beyond(uint16_t caller)
{
    uint8_t call = one_in(2) ? ONE_OF(modelled) : (uint8_t)below(INDIRECT);
    struct event ev;
    uint16_t number;

    start_call(&ev, caller, INDIRECT);
    number = draw_arguments(&ev, call);
    ev.d0 = (uint16_t)(0x100 + call);
    play_edge(&ev, number);
}

/* All kinds in turn, and any call number, of anyone: some sleep, and some are no one. */
static void edge_caller(void)
{
    uint16_t caller = one_in(2) ? edge16() : st.process[below(st.live)].pid;
    struct event ev;

    start_call(&ev, caller, (uint8_t)draw());
    if (!one_in(3))
        ev.kind = kind_turn++;
    if (one_in(4))
        ev.d0 = edge16();
    play_edge(&ev, below(sequence_count + 1));
}

static void go_to_edges(void)
{
    uint16_t caller = someone_able();

    if (st.live < 4)
        breed(between(4, 8));
    if (!caller)
        tick();
    else if (one_in(40))
        edge_privilege(caller);
    else if (one_in(6))
        edge_caller();
    else if (one_in(4))
        edge_number(caller);
    else if (one_in(20))
        edge_beyond(caller);
    else
        one_in(2) ? edge_limit(caller) : edge_any(caller);
    if (one_in(50))
        trap_often();
    if (one_in(25))
        take_all();
    if (one_in(30))
        give_up();
}

/* ---- papers ---- */

static const struct {
    const char *name;
    void (*habit)(void), (*part)(void);
} themes[GENERATE_THEMES] = {
    {"light", draw_light_habit, draw_one}, {"mixed", draw_mixed_habit, draw_one}, {"locks", draw_locks_habit, draw_one},
    {"chains", draw_story_habit, chain_up}, {"queues", draw_story_habit, queue_up},
    {"rings", draw_story_habit, ring_up}, {"full", draw_story_habit, fill_up},
    {"alarms", draw_story_habit, alarm_all}, {"edges", draw_story_habit, go_to_edges}};

const char *generate_name(enum generate_theme theme)
{
    return themes[theme].name;
}

/* A part that finds no one able writes nothing. */
static void play_part(void (*part)(void))
{
    size_t before = written;

    part();
    if (written == before)
        draw_one();
}

size_t generate_paper(enum generate_theme theme, size_t count, uint8_t *paper)
{
    state_fresh(&st);
    astray = !state_can_be(&st);
    events = paper + PAPER_HEADER;
    wanted = count;
    written = 0;
    themes[theme].habit();
    while (!full())
        play_part(themes[theme].part);
    return astray ? 0 : put_around(paper);
}
