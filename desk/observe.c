#include <inttypes.h>
#include <stdio.h>
#include <string.h>
#include "brinefeather.h"
#include "generate.h"
#include "observe.h"
#include "plain.h"

#define COUNT(list) (sizeof (list) / sizeof (list)[0])
#define SAW(situation, condition) do { if (condition) observe_saw(OBSERVE_##situation); } while (0)

enum { GETUSER = 0x34, SETUSER, GETGROUP, SETGROUP, GETPRIOR, SETPRIOR, GETPROC, LOCK = 0x3E, UNLOCK, SIGNAL, KILL,
       SLEEP, ALARM, PAUSE, EXIT = 0x46, FSHELL = 0x48, INDIRECT = 0x51, NO_CALL = 0x10000 };
enum { PAPER_HEADER = 12, EVENT = 20, D1 = 1, D2, D3 };

/* One event: the state before and after it, who called what, and, of a lock, its row. */
struct scene {
    struct state before, after;
    struct event ev;
    struct answer an;
    unsigned call;                /* the one meant by an indirect; NO_CALL if it was not looked at */
    const struct process *caller; /* before the event, or none */
    struct row row;
};

static struct scene now;
static unsigned most_live;
static uint8_t direct[256], indirect[256], kinds[256]; /* numbers seen */
static uint64_t answers[4], refusals[R_NOTLOCKED + 1], situations[OBSERVE_COUNT];

static struct {
    unsigned number;
    const char *name;
    int has_badcall;
    uint64_t direct, indirect, badcall;
} calls[] = {
    {GETUSER, "getuser", 1, 0, 0, 0}, {SETUSER, "setuser", 1, 0, 0, 0}, {GETGROUP, "getgroup", 1, 0, 0, 0},
    {SETGROUP, "setgroup", 1, 0, 0, 0}, {GETPRIOR, "getprior", 0, 0, 0, 0}, {SETPRIOR, "setprior", 1, 0, 0, 0},
    {GETPROC, "getproc", 0, 0, 0, 0}, {LOCK, "lock", 1, 0, 0, 0}, {UNLOCK, "unlock", 1, 0, 0, 0},
    {SIGNAL, "signal", 1, 0, 0, 0}, {KILL, "kill", 1, 0, 0, 0}, {SLEEP, "sleep", 0, 0, 0, 0},
    {ALARM, "alarm", 0, 0, 0, 0}, {PAUSE, "pause", 0, 0, 0, 0}, {EXIT, "exit", 1, 0, 0, 0},
    {FSHELL, "fshell", 1, 0, 0, 0}};

/* The last value that a register may have, and the one beyond it, seen where nothing else is wrong. */
static struct {
    unsigned call, reg;
    uint32_t inside, outside;
    uint64_t in, out;
} edges[] = {
    {GETUSER, D2, 2, 3, 0, 0}, {GETGROUP, D2, 2, 3, 0, 0},
    {SETUSER, D1, 2, 3, 0, 0}, {SETUSER, D2, 3, 4, 0, 0}, {SETUSER, D3, 65535, 65536, 0, 0},
    {SETGROUP, D1, 2, 3, 0, 0}, {SETGROUP, D2, 3, 4, 0, 0}, {SETGROUP, D3, 65535, 65536, 0, 0},
    {SETPRIOR, D3, 40, 41, 0, 0}, {SETPRIOR, D3, (uint32_t)-40, (uint32_t)-41, 0, 0},
    {LOCK, D2, 3, 4, 0, 0}, {LOCK, D3, 1, 0, 0, 0}, {LOCK, D3, 16, 17, 0, 0},
    {UNLOCK, D3, 1, 0, 0, 0}, {UNLOCK, D3, 16, 17, 0, 0},
    {SIGNAL, D2, 1, 0, 0, 0}, {SIGNAL, D2, 2, 3, 0, 0}, {SIGNAL, D2, 4, 3, 0, 0}, {SIGNAL, D2, 7, 8, 0, 0},
    {KILL, D2, 1, 0, 0, 0}, {KILL, D2, 7, 8, 0, 0}, {KILL, D3, 2, 1, 0, 0}, {KILL, D3, 65535, 65536, 0, 0},
    {KILL, D3, 2, 65538, 0, 0}, {FSHELL, D1, 255, 256, 0, 0}, {FSHELL, D2, 255, 256, 0, 0}};

void observe_saw(enum observe_situation situation)
{
    situations[situation]++;
}

/* ---- states ---- */

static unsigned bits(unsigned mask)
{
    unsigned n = 0;

    for (; mask; mask &= mask - 1)
        n++;
    return n;
}

static const struct process *find(const struct state *st, uint32_t pid)
{
    for (int i = 0; i < st->live; i++)
        if (st->process[i].pid == pid)
            return &st->process[i];
    return NULL;
}

static struct answer would(const struct state *st, const struct event *ev)
{
    struct state copy = *st;
    struct answer an;

    state_event(&copy, ev, &an);
    return an;
}

static int alike(const struct row *a, const struct row *b)
{
    return a->len == b->len && memcmp(a->seq, b->seq, a->len) == 0;
}

static int conflict(const struct row *a, const struct row *b)
{
    return alike(a, b) && a->owner != b->owner && (a->kind == UNSHARED || b->kind == UNSHARED);
}

/* The owners, by place, of the rows among the first so many that conflict with r. */
static unsigned owners_ahead(const struct state *st, const struct row *r, int ahead)
{
    unsigned owners = 0;

    for (int i = 0; i < ahead; i++)
        if (conflict(r, &st->row[i]))
            owners |= 1u << (find(st, st->row[i].owner) - st->process);
    return owners;
}

static int waits(const struct state *st, int at)
{
    return owners_ahead(st, &st->row[at], at) != 0;
}

static unsigned rows_of(const struct state *st, uint16_t owner)
{
    unsigned n = 0;

    for (int i = 0; i < st->rows; i++)
        n += st->row[i].owner == owner;
    return n;
}

/* The owners one link further. */
static unsigned next_owners(const struct state *st, unsigned owners)
{
    unsigned next = 0;

    for (int i = 0; i < st->rows; i++)
        if (owners >> (find(st, st->row[i].owner) - st->process) & 1)
            next |= owners_ahead(st, &st->row[i], i);
    return next;
}

/* The chains from a new row, shortest ways: links to the furthest owner, links back to the caller (0: none). */
struct chains {
    unsigned longest, back;
};

static struct chains follow(const struct state *st, const struct row *r)
{
    const unsigned caller = 1u << (find(st, r->owner) - st->process);
    unsigned owners = owners_ahead(st, r, st->rows);
    unsigned opened = 0;
    struct chains c = {0, 0};

    while (owners & ~opened) {
        c.longest++;
        opened |= owners;
        if (owners & caller && !c.back)
            c.back = c.longest;
        owners = next_owners(st, owners);
    }
    return c;
}

/* ---- locks ---- */

static void read_row(void)
{
    memset(&now.row, 0, sizeof now.row);
    now.row.owner = now.ev.caller;
    now.row.kind = now.ev.d2 & 1 ? UNSHARED : SHARED;
    now.row.len = (uint8_t)(now.ev.d3 <= SEQ ? now.ev.d3 : SEQ);
    memcpy(now.row.seq, now.ev.seq, now.row.len);
}

static unsigned waiters_for(const struct row *r)
{
    unsigned n = 0;

    for (int i = 0; i < now.after.rows; i++)
        n += alike(r, &now.after.row[i]) && waits(&now.after, i);
    return n;
}

/* Is every row that stands against the new one itself a waiter? */
static int behind_waiters(void)
{
    for (int i = 0; i < now.before.rows; i++)
        if (conflict(&now.row, &now.before.row[i]) && !waits(&now.before, i))
            return 0;
    return 1;
}

static void see_waiting_lock(void)
{
    const unsigned queue = waiters_for(&now.row);
    const struct chains c = follow(&now.before, &now.row);

    SAW(QUEUE_5, queue >= 5);
    SAW(QUEUE_15, queue == 15);
    SAW(BEHIND_WAITER, now.row.kind == SHARED && behind_waiters());
    SAW(CHAIN_2, c.longest >= 2);
    SAW(CHAIN_10, c.longest >= 10);
    SAW(CHAIN_15, c.longest == 15);
}

static void see_held_lock(void)
{
    const struct state *st = &now.after;

    for (int i = 0; i < now.before.rows; i++) {
        const struct row *r = &now.before.row[i];
        uint8_t shorter = r->len < now.row.len ? r->len : now.row.len;

        if (r->owner == now.row.owner || waits(st, i))
            continue;
        SAW(SHARED_TWO, alike(r, &now.row));
        SAW(SHORTER, r->len != now.row.len && memcmp(r->seq, now.row.seq, shorter) == 0);
    }
}

/* Is there a ring of caller, a waiter that owns nothing but the row it waits for, and a third? */
static int ring_by_waiter(void)
{
    const struct state *st = &now.before;
    const unsigned ahead = owners_ahead(st, &now.row, st->rows), caller = 1u << (now.caller - st->process);

    for (int i = 0; i < st->live; i++)
        if (ahead >> i & 1 && st->process[i].sleep == SLEEP_LOCK && rows_of(st, st->process[i].pid) == 1
            && next_owners(st, next_owners(st, 1u << i)) & caller)
            return 1;
    return 0;
}

static void see_deadlock(void)
{
    const struct chains c = follow(&now.before, &now.row);

    SAW(RING_2, c.back == 2);
    SAW(RING_3, c.back == 3);
    SAW(RING_4, c.back == 4);
    SAW(RING_5, c.back == 5);
    SAW(RING_6, c.back == 6);
    SAW(RING_7, c.back >= 7);
    SAW(RING_16, c.back == 16);
    SAW(BY_WAITER, c.back == 3 && ring_by_waiter());
    SAW(TABLE_DEADLOCK, now.before.rows == ROWS);
}

static void see_locked(void)
{
    struct event ev = now.ev;

    ev.d2 &= 1;
    SAW(TRY_RING, would(&now.before, &ev).number == R_DEADLOCK);
    SAW(TABLE_LOCKED, now.before.rows == ROWS);
}

static void see_new_row(void)
{
    SAW(ROWS_32, now.after.rows == ROWS);
    if (now.an.kind == ASLEEP)
        see_waiting_lock();
    else
        see_held_lock();
}

static void see_lock(void)
{
    const int against = owners_ahead(&now.before, &now.row, now.before.rows) != 0;

    switch (now.an.number) {
    case 0: see_new_row(); break;
    case R_DEADLOCK: see_deadlock(); break;
    case R_LOCKED: see_locked(); break;
    case R_LCKTABLE: SAW(TABLE_WAIT, against); SAW(TABLE_FREE, !against); break;
    case R_HELD: SAW(TABLE_HELD, now.before.rows == ROWS); SAW(HELD_LOCKED, against && now.ev.d2 > 1); break;
    default: break;
    }
}

/* ---- processes ---- */

static void see_reaction(uint32_t parent, uint32_t child, int masked)
{
    SAW(CHILD_TRAP, !masked && parent > IGNORE && child == ABORT);
    SAW(CHILD_IGNORES, !masked && parent == IGNORE && child == IGNORE);
    SAW(MASK_ABORT, masked && parent == IGNORE && child == ABORT);
    SAW(MASK_IGNORE, masked && parent != IGNORE && child == IGNORE);
}

static void see_fshell(void)
{
    const unsigned kill_bit = 1u << (SIG_KILL - 1);

    SAW(MASK_16, now.an.number == R_BADCALL && now.before.live == PROCESSES);
    if (now.an.kind == REFUSED)
        return;
    SAW(LIVE_16, now.after.live == PROCESSES);
    SAW(PLACE_AGAIN, now.before.live < most_live);
    SAW(PID_256, now.an.d3 > 255);
    SAW(MASK_KILL, now.ev.d1 & now.ev.d2 & kill_bit);
    for (int s = 0; s < SIGNALS; s++)
        see_reaction(now.caller->reaction[s], now.after.process[now.after.live - 1].reaction[s], now.ev.d1 >> s & 1);
}

static int unprivileged(void)
{
    return now.caller->user[0] != 0;
}

/* By indirect, a number above 255. */
static void see_beyond(void)
{
    struct event ev = now.ev;
    struct answer an;

    ev.d0 &= 255;
    an = would(&now.before, &ev);
    SAW(BEYOND_CALL, now.an.number == R_BADCALL && an.kind != REFUSED);
    SAW(BEYOND_LISTED, now.an.number == R_BADCALL && an.number == R_NOTMODELLED);
}

/* A kill of a PID above 65,535. */
static void see_beyond_pid(void)
{
    struct event ev = now.ev;

    ev.d3 &= 65535;
    SAW(BEYOND_PID, now.an.number == R_BADCALL && would(&now.before, &ev).kind != REFUSED);
}

static void see_kill(void)
{
    const struct process *to = find(&now.before, now.ev.d3);

    if (now.ev.d3 > 65535)
        see_beyond_pid();
    SAW(PRIV_KILL, now.an.number == R_PRIV);
    SAW(FIRST_NOPROC, now.an.number == R_NOPROC && unprivileged());
    if (now.an.kind == REFUSED || !to || now.ev.d2 < 1 || now.ev.d2 > SIGNALS)
        return;
    SAW(KILL_SELF, now.an.kind == ENDED);
    SAW(KILL_GRANT, now.an.kind == DONE && now.an.ended && now.an.woken);
    SAW(KILL_SLEEPER, now.an.ended && to->sleep != SLEEP_NONE);
    SAW(KILL_EQUAL, unprivileged() && to != now.caller && now.an.ended);
    SAW(TRAP_SELF, to == now.caller && to->reaction[now.ev.d2 - 1] > IGNORE);
    SAW(TRAP_AGAIN, to->pending >> (now.ev.d2 - 1) & 1);
}

static void see_set(void)
{
    const int privileged_only = now.call == SETPRIOR ? now.ev.d3 >> 31 != 0 : now.ev.d2 == 3;

    SAW(PRIV_USER, now.call == SETUSER && now.an.number == R_PRIV);
    SAW(PRIV_GROUP, now.call == SETGROUP && now.an.number == R_PRIV);
    SAW(PRIV_PRIOR, now.call == SETPRIOR && now.an.number == R_PRIV);
    SAW(FIRST_ARGUMENT, now.an.number == R_BADCALL && privileged_only && unprivileged());
}

static void see_other_call(void)
{
    SAW(EXIT_GRANT, now.call == EXIT && now.an.woken);
    SAW(OLD_TRAP, now.call == SIGNAL && now.an.a0 > IGNORE);
    SAW(ALARM_NEW, now.call == ALARM && now.caller->alarm && now.ev.d3 && now.ev.d3 != now.caller->alarm);
    SAW(ALARM_OFF, now.call == ALARM && now.caller->alarm && !now.ev.d3);
    SAW(SLEEP_0, now.call == SLEEP && now.an.kind == DONE);
}

static void see_call(void)
{
    switch (now.call) {
    case NO_CALL: break;
    case LOCK: see_lock(); break;
    case FSHELL: see_fshell(); break;
    case KILL: see_kill(); break;
    case SETUSER: case SETGROUP: case SETPRIOR: see_set(); break;
    default: now.call > 255 ? see_beyond() : see_other_call(); break;
    }
}

/* ---- what happens to each process ---- */

static int granted_now(const struct process *old, const struct process *new)
{
    return old->sleep == SLEEP_LOCK && new && new->sleep == SLEEP_NONE && new->wake == WAKE_GRANTED;
}

static int trapped_out_now(const struct process *old, const struct process *new)
{
    return old->sleep == SLEEP_LOCK && new && new->sleep == SLEEP_NONE && new->wake == WAKE_SIGNAL;
}

static unsigned count_granted(void)
{
    unsigned n = 0;

    for (int i = 0; i < now.before.live; i++)
        n += (unsigned)granted_now(&now.before.process[i], find(&now.after, now.before.process[i].pid));
    return n;
}

/* The owners that stood against the process's waiting row before the event, by place. */
static unsigned owners_against(int place)
{
    unsigned owners = 0;

    for (int i = 0; i < now.before.rows; i++)
        if (now.before.row[i].owner == now.before.process[place].pid)
            owners |= owners_ahead(&now.before, &now.before.row[i], i);
    return owners;
}

static void see_end_in_tick(int place)
{
    const struct process *old = &now.before.process[place];
    const unsigned before_it = now.an.ended & ((1u << place) - 1);

    SAW(TICK_TIME_END, old->sleep == SLEEP_TIMED && old->seconds == 1);
    SAW(TICK_GRANT_END, old->sleep == SLEEP_LOCK && (owners_against(place) & ~before_it) == 0);
}

static void see_tick_of(int place, const struct process *new)
{
    const struct process *old = &now.before.process[place];
    const int trapped = new->pending & ~old->pending;

    SAW(TICK_GRANT, granted_now(old, new) && owners_against(place) & now.an.ended);
    SAW(TICK_TIME_TRAP, trapped && old->sleep == SLEEP_TIMED && new->wake == WAKE_TIME);
    SAW(TICK_GRANT_TRAP, trapped && granted_now(old, new));
}

static void see_trap(const struct process *old, const struct process *new)
{
    SAW(TRAP_WAITER, trapped_out_now(old, new));
    SAW(TRAP_GRANT, trapped_out_now(old, new) && !now.an.ended && count_granted());
    SAW(TRAP_TIMED, old->sleep == SLEEP_TIMED && new->wake == WAKE_SIGNAL && new->left);
    SAW(TRAP_PAUSE, old->sleep == SLEEP_PAUSE);
    SAW(TRAP_AWAKE, old->sleep == SLEEP_NONE);
}

static void see_process(int place)
{
    const struct process *old = &now.before.process[place], *new = find(&now.after, old->pid);

    if (new && new->pending & ~old->pending)
        see_trap(old, new);
    if (now.ev.kind != EV_TICK)
        return;
    if (new)
        see_tick_of(place, new);
    else
        see_end_in_tick(place);
}

static unsigned count_trapped(void)
{
    unsigned n = 0;

    for (int i = 0; i < now.before.live; i++) {
        const struct process *new = find(&now.after, now.before.process[i].pid);

        n += new && new->pending & ~now.before.process[i].pending;
    }
    return n;
}

static int all_asleep(void)
{
    for (int i = 0; i < now.after.live; i++)
        if (now.after.process[i].sleep == SLEEP_NONE)
            return 0;
    return 1;
}

static void see_all_processes(void)
{
    for (int i = 0; i < now.before.live; i++)
        see_process(i);
    SAW(GRANT_TWO, count_granted() >= 2);
    SAW(FIRST_ASLEEP, now.after.process[0].sleep != SLEEP_NONE);
    SAW(ALL_ASLEEP, all_asleep());
}

/* ---- other events, and the order of refusals ---- */

static void see_event_kind(void)
{
    const struct answer *an = &now.an;

    if (an->kind == REFUSED)
        return;
    SAW(TICK_ENDS_2, now.ev.kind == EV_TICK && bits(an->ended) >= 2);
    SAW(TICK_ENDS_3, now.ev.kind == EV_TICK && bits(an->ended) >= 3);
    SAW(TICK_TRAP_TWO, now.ev.kind == EV_TICK && count_trapped() >= 2);
    SAW(TAKE_LOWEST, now.ev.kind == EV_TAKE && now.caller && bits(now.caller->pending) >= 2);
    SAW(TAKE_NONE, now.ev.kind == EV_TAKE && an->d3 == 0);
    SAW(REPORT_NEVER, now.ev.kind == EV_REPORT && an->a0 == WAKE_NEVER);
    SAW(REPORT_GRANTED, now.ev.kind == EV_REPORT && an->a0 == WAKE_GRANTED);
    SAW(REPORT_SIGNAL, now.ev.kind == EV_REPORT && an->a0 == WAKE_SIGNAL && an->d3 == 0);
    SAW(REPORT_LEFT, now.ev.kind == EV_REPORT && an->a0 == WAKE_SIGNAL && an->d3 != 0);
    SAW(REPORT_TIME, now.ev.kind == EV_REPORT && an->a0 == WAKE_TIME);
}

static void see_order(void)
{
    const int unlisted = now.ev.kind == EV_CALL && now.ev.call > 0x56;

    SAW(FIRST_KIND, (now.ev.kind < EV_CALL || now.ev.kind > EV_REPORT) && !now.caller);
    SAW(FIRST_CALLER, unlisted && now.an.number == R_BADCALLER);
    SAW(FIRST_SLEEP, unlisted && now.an.number == R_ASLEEP);
    SAW(FIRST_TRAP, unlisted && now.an.number == R_TRAP);
}

/* ---- calls and edges ---- */

static void count_numbers(void)
{
    kinds[now.ev.kind] = 1;
    if (now.call == NO_CALL)
        return;
    direct[now.ev.call] = 1;
    if (now.ev.call == INDIRECT && now.call < 256)
        indirect[now.call] = 1;
}

static void count_call(void)
{
    for (size_t i = 0; i < COUNT(calls); i++) {
        if (calls[i].number != now.call)
            continue;
        calls[i].badcall += now.an.number == R_BADCALL;
        calls[i].direct += now.an.kind != REFUSED && now.ev.call != INDIRECT;
        calls[i].indirect += now.an.kind != REFUSED && now.ev.call == INDIRECT;
    }
}

static uint32_t get_register(const struct event *ev, unsigned reg)
{
    return reg == D1 ? ev->d1 : reg == D2 ? ev->d2 : ev->d3;
}

static void set_register(struct event *ev, unsigned reg, uint32_t value)
{
    switch (reg) {
    case D1: ev->d1 = (uint16_t)value; break;
    case D2: ev->d2 = (uint16_t)value; break;
    default: ev->d3 = value; break;
    }
}

/* Would the call not be badcall with that value there? */
static int good_with(unsigned reg, uint32_t value)
{
    struct event ev = now.ev;

    set_register(&ev, reg, value);
    return would(&now.before, &ev).number != R_BADCALL;
}

static void count_edges(void)
{
    for (size_t i = 0; i < COUNT(edges); i++) {
        uint32_t value = get_register(&now.ev, edges[i].reg);

        if (edges[i].call != now.call)
            continue;
        if (value == edges[i].inside)
            edges[i].in += !good_with(edges[i].reg, edges[i].outside) && now.an.number != R_BADCALL;
        if (value == edges[i].outside)
            edges[i].out += good_with(edges[i].reg, edges[i].inside) && now.an.number == R_BADCALL;
    }
}

/* ---- papers ---- */

static uint16_t get16(const uint8_t *at)
{
    return (uint16_t)(at[0] << 8 | at[1]);
}

static uint32_t get32(const uint8_t *at)
{
    return (uint32_t)get16(at) << 16 | get16(at + 2);
}

static void read_event(const uint8_t *paper, const uint8_t *at)
{
    struct event *ev = &now.ev;
    uint16_t number = get16(at + 18);

    memset(ev, 0, sizeof *ev);
    ev->kind = at[0];
    ev->call = at[1];
    ev->caller = get16(at + 2);
    ev->d0 = get16(at + 4);
    ev->d1 = get16(at + 6);
    ev->d2 = get16(at + 8);
    ev->d3 = get32(at + 10);
    ev->a0 = get32(at + 14);
    ev->named = number != 0;
    if (ev->named)
        memcpy(ev->seq, paper + get16(paper + 8) + SEQ * (number - 1u), SEQ);
}

/* The call that the model looked at. */
static unsigned call_made(void)
{
    if (now.ev.kind != EV_CALL || !now.caller || now.caller->sleep != SLEEP_NONE || now.caller->pending)
        return NO_CALL;
    return now.ev.call == INDIRECT ? now.ev.d0 : now.ev.call;
}

static int observe_event(void)
{
    now.before = now.after;
    if (!generate_play(&now.after, &now.ev, &now.an))
        return 0;
    now.caller = find(&now.before, now.ev.caller);
    now.call = call_made();
    answers[now.an.kind]++;
    refusals[now.an.number]++;
    if (now.call == LOCK)
        read_row();
    count_numbers();
    count_call();
    count_edges();
    see_call();
    see_event_kind();
    see_order();
    see_all_processes();
    if (now.after.live > most_live)
        most_live = now.after.live;
    return 1;
}

int observe_paper(const uint8_t *paper)
{
    const unsigned events = get16(paper + 2), sequences = get16(paper + 6);

    SAW(EVENTS_1, events == 1);
    SAW(EVENTS_1000, events == 1000);
    SAW(SEQUENCES_0, sequences == 0);
    SAW(SEQUENCES_64, sequences == 64);
    state_fresh(&now.after);
    most_live = 1;
    for (unsigned i = 0; i < events; i++) {
        read_event(paper, paper + PAPER_HEADER + EVENT * i);
        if (!observe_event())
            return 0;
    }
    return 1;
}

/* ---- printing: each returns how many were not reached ---- */

static unsigned missed(uint64_t n)
{
    if (n == 0)
        printf("   NOT REACHED");
    putchar('\n');
    return n == 0;
}

static unsigned print_answers(void)
{
    static const char *const kind[] = {"done", "now asleep", "caller ended", "refused"};
    unsigned n = 0;

    for (size_t i = 0; i < COUNT(kind); i++) {
        printf("%10" PRIu64 "  answer %zu %s", answers[i], i, kind[i]);
        n += missed(answers[i]);
    }
    printf("%10s  refusal 1 %s (no paper leads there)\n", "-", brinefeather_refusal_name(R_BADSTATE));
    for (unsigned i = R_BADCALLER; i < COUNT(refusals); i++) {
        printf("%10" PRIu64 "  refusal %u %s", refusals[i], i, brinefeather_refusal_name(i));
        n += missed(refusals[i]);
    }
    return n;
}

static unsigned print_numbers(const uint8_t *seen, const char *what)
{
    unsigned n = 0;

    for (int i = 0; i < 256; i++)
        n += seen[i];
    printf("%10u  %s of 256", n, what);
    return missed(n == 256);
}

static unsigned print_calls(void)
{
    unsigned n = 0;

    for (size_t i = 0; i < COUNT(calls); i++) {
        printf("%10" PRIu64 "  %Xh %s, not refused; by indirect %" PRIu64, calls[i].direct, calls[i].number,
               calls[i].name, calls[i].indirect);
        if (calls[i].has_badcall)
            printf("; badcall %" PRIu64, calls[i].badcall);
        n += missed(calls[i].direct && calls[i].indirect && (calls[i].badcall || !calls[i].has_badcall));
    }
    return n;
}

static const char *call_name(unsigned number)
{
    for (size_t i = 0; i < COUNT(calls); i++)
        if (calls[i].number == number)
            return calls[i].name;
    return "";
}

static unsigned print_edges(void)
{
    unsigned n = 0;

    for (size_t i = 0; i < COUNT(edges); i++) {
        printf("%10" PRIu64 "  edge: %s with %" PRId32 " in D%u; badcall with %" PRId32 " there: %" PRIu64, edges[i].in,
               call_name(edges[i].call), (int32_t)edges[i].inside, edges[i].reg, (int32_t)edges[i].outside,
               edges[i].out);
        n += missed(edges[i].in && edges[i].out);
    }
    return n;
}

static unsigned print_situations(void)
{
#define OBSERVE_TEXT(name, text) text,
    static const char *const texts[] = {OBSERVE_SITUATIONS(OBSERVE_TEXT)};
#undef OBSERVE_TEXT
    unsigned n = 0;

    for (size_t i = 0; i < COUNT(texts); i++) {
        printf("%10" PRIu64 "  %s", situations[i], texts[i]);
        n += missed(situations[i]);
    }
    printf("%10s  a trap address replaced while pending (cannot be: the signal is ignored by then, and no call that "
           "would change this is let in)\n", "-");
    printf("%10s  nomemory for the next PID 65,536 (cannot be: 1,000 events do not get there)\n", "-");
    return n;
}

unsigned observe_print(void)
{
    unsigned n = print_answers();

    n += print_numbers(kinds, "event kinds");
    n += print_numbers(direct, "call numbers");
    n += print_numbers(indirect, "call numbers by indirect");
    n += print_calls();
    n += print_edges();
    return n + print_situations();
}
