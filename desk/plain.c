#include <string.h>
#include "plain.h"

void state_fresh(struct state *st)
{
    struct process *p = &st->process[0];

    memset(st, 0, sizeof *st);
    st->next_pid = 2;
    st->live = 1;
    p->pid = 1;
    for (int s = 1; s <= SIGNALS; s++)
        p->reaction[s - 1] = s == SIG_KILL ? ABORT : IGNORE;
}

static int find(const struct state *st, uint32_t pid)
{
    for (int i = 0; i < st->live; i++)
        if (st->process[i].pid == pid)
            return i;
    return -1;
}

static void refuse(struct answer *an, int number)
{
    an->kind = REFUSED;
    an->number = (uint8_t)number;
}

static int privileged(const struct process *p)
{
    return p->user[0] == 0;
}

/* ---- locks ---- */

static int same_seq(const struct row *a, const struct row *b)
{
    return a->len == b->len && memcmp(a->seq, b->seq, SEQ) == 0;
}

static int conflict(const struct row *a, const struct row *b)
{
    return a->owner != b->owner
        && (a->kind == UNSHARED || b->kind == UNSHARED)
        && same_seq(a, b);
}

/* Does r conflict with one of the first `ahead` rows? */
static int waits(const struct state *st, const struct row *r, int ahead)
{
    for (int i = 0; i < ahead; i++)
        if (conflict(r, &st->row[i]))
            return 1;
    return 0;
}

static int own_row(const struct state *st, const struct row *r)
{
    for (int i = 0; i < st->rows; i++)
        if (st->row[i].owner == r->owner && same_seq(&st->row[i], r))
            return i;
    return -1;
}

static int waiting_row(const struct state *st, uint16_t owner)
{
    for (int i = st->rows - 1; i >= 0; i--)
        if (st->row[i].owner == owner && waits(st, &st->row[i], i))
            return i;
    return -1;
}

static void remove_row(struct state *st, int at)
{
    st->rows--;
    memmove(&st->row[at], &st->row[at + 1],
            (size_t)(st->rows - at) * sizeof st->row[0]);
    memset(&st->row[st->rows], 0, sizeof st->row[0]);
}

static void remove_rows_of(struct state *st, uint16_t owner)
{
    int n = 0;

    for (int i = 0; i < st->rows; i++)
        if (st->row[i].owner != owner) {
            if (n != i)
                st->row[n] = st->row[i];
            n++;
        }
    memset(&st->row[n], 0, (size_t)(st->rows - n) * sizeof st->row[0]);
    st->rows = (uint8_t)n;
}

static void wake(struct state *st, int at, int reason, struct answer *an)
{
    struct process *p = &st->process[at];

    p->left = reason == WAKE_SIGNAL ? p->seconds : 0;
    p->seconds = 0;
    p->sleep = SLEEP_NONE;
    p->wake = (uint8_t)reason;
    an->woken |= (uint16_t)(1u << at);
}

/* Rows have gone: wake every lock sleeper that no longer has a waiting row. */
static void grant(struct state *st, struct answer *an)
{
    for (int i = 0; i < st->live; i++)
        if (st->process[i].sleep == SLEEP_LOCK
            && waiting_row(st, st->process[i].pid) < 0)
            wake(st, i, WAKE_GRANTED, an);
}

/*
 * Depth first over owners: does row r, behind the first `ahead` rows, lead to
 * `caller`?  Owners already opened are bits of *opened.
 */
static int leads_to(const struct state *st, const struct row *r, int ahead,
                    uint16_t caller, uint16_t *opened)
{
    for (int i = 0; i < ahead; i++) {
        uint16_t owner = st->row[i].owner;
        int p, w;

        if (!conflict(r, &st->row[i]))
            continue;
        if (owner == caller)
            return 1;
        p = find(st, owner);
        if (*opened >> p & 1)
            continue;
        *opened |= (uint16_t)(1u << p);
        if (st->process[p].sleep != SLEEP_LOCK)
            continue;
        w = waiting_row(st, owner);
        if (leads_to(st, &st->row[w], w, caller, opened))
            return 1;
    }
    return 0;
}

/* ---- ends and signals ---- */

/*
 * An ended process leaves a zeroed place behind, so that positions, and with
 * them the mask bits, hold until the event is over; close_gaps then moves up.
 */
static void end_process(struct state *st, int at, struct answer *an)
{
    struct process *p = &st->process[at];
    uint8_t rows = st->rows;

    remove_rows_of(st, p->pid);
    memset(p, 0, sizeof *p);
    an->ended |= (uint16_t)(1u << at);
    if (st->rows != rows)
        grant(st, an);
}

static void close_gaps(struct state *st, struct answer *an)
{
    int n = 0;

    if (!an->ended)
        return;
    for (int i = 0; i < st->live; i++)
        if (!(an->ended >> i & 1)) {
            if (n != i)
                st->process[n] = st->process[i];
            n++;
        }
    memset(&st->process[n], 0, (size_t)(st->live - n) * sizeof st->process[0]);
    st->live = (uint8_t)n;
    an->woken &= (uint16_t)~an->ended;
}

static void deliver(struct state *st, int at, int sig, struct answer *an)
{
    struct process *p = &st->process[at];
    uint32_t reaction = p->reaction[sig - 1];

    if (reaction == IGNORE)
        return;
    if (reaction == ABORT) {
        end_process(st, at, an);
        return;
    }
    p->pending |= (uint8_t)(1u << (sig - 1));
    p->address[sig - 1] = reaction;
    p->reaction[sig - 1] = IGNORE;
    if (p->sleep == SLEEP_LOCK) {
        int w = waiting_row(st, p->pid);

        wake(st, at, WAKE_SIGNAL, an);
        remove_row(st, w);
        grant(st, an);
    } else if (p->sleep != SLEEP_NONE) {
        wake(st, at, WAKE_SIGNAL, an);
    }
}

static void tick(struct state *st, struct answer *an)
{
    for (int i = 0; i < st->live; i++)
        if (st->process[i].sleep == SLEEP_TIMED && --st->process[i].seconds == 0)
            wake(st, i, WAKE_TIME, an);
    for (int i = 0; i < st->live; i++)
        if (st->process[i].alarm && --st->process[i].alarm == 0)
            deliver(st, i, SIG_ALARM, an);
    close_gaps(st, an);
}

static void take(struct process *p, struct answer *an)
{
    for (int s = 0; s < SIGNALS; s++)
        if (p->pending >> s & 1) {
            an->d3 = (uint32_t)s + 1;
            an->a0 = p->address[s];
            p->pending &= (uint8_t)~(1u << s);
            p->address[s] = 0;
            return;
        }
}

/* ---- calls ---- */

static void get_id(const uint16_t *id, const struct event *ev, struct answer *an)
{
    if (ev->d2 > 2)
        refuse(an, R_BADCALL);
    else
        an->d3 = id[ev->d2];
}

static void set_id(const struct process *p, uint16_t *id,
                   const struct event *ev, struct answer *an)
{
    if (ev->d1 > 2 || ev->d2 > 3 || (ev->d2 == 3 && ev->d3 > 0xFFFF))
        refuse(an, R_BADCALL);
    else if (ev->d2 == 3 && !privileged(p))
        refuse(an, R_PRIV);
    else
        id[ev->d1] = ev->d2 == 3 ? (uint16_t)ev->d3 : id[ev->d2];
}

static void call_setprior(struct process *p, const struct event *ev,
                          struct answer *an)
{
    int negative = (ev->d3 >> 31) != 0;

    if (negative ? ev->d3 < (uint32_t)-40 : ev->d3 > 40)
        refuse(an, R_BADCALL);
    else if (negative && !privileged(p))
        refuse(an, R_PRIV);
    else
        p->priority = ev->d3;
}

static int read_row(const struct event *ev, struct row *r)
{
    if (ev->d3 < 1 || ev->d3 > SEQ || !ev->named)
        return 0;
    memset(r, 0, sizeof *r);
    r->owner = ev->caller;
    r->len = (uint8_t)ev->d3;
    memcpy(r->seq, ev->seq, ev->d3);
    return 1;
}

static void call_lock(struct state *st, struct process *p,
                      const struct event *ev, struct answer *an)
{
    struct row r;
    uint16_t opened = 0;
    int wait;

    if (ev->d2 > 3 || !read_row(ev, &r)) {
        refuse(an, R_BADCALL);
        return;
    }
    r.kind = ev->d2 & 1 ? UNSHARED : SHARED;
    if (own_row(st, &r) >= 0) {
        refuse(an, R_HELD);
        return;
    }
    wait = waits(st, &r, st->rows);
    if (wait && ev->d2 & 2) {
        refuse(an, R_LOCKED);
        return;
    }
    if (wait && leads_to(st, &r, st->rows, r.owner, &opened)) {
        refuse(an, R_DEADLOCK);
        return;
    }
    if (st->rows == ROWS) {
        refuse(an, R_LCKTABLE);
        return;
    }
    st->row[st->rows++] = r;
    if (wait) {
        p->sleep = SLEEP_LOCK;
        an->kind = ASLEEP;
    }
}

static void call_unlock(struct state *st, const struct event *ev,
                        struct answer *an)
{
    struct row r;
    int at;

    if (!read_row(ev, &r)) {
        refuse(an, R_BADCALL);
    } else if ((at = own_row(st, &r)) < 0) {
        refuse(an, R_NOTLOCKED);
    } else {
        remove_row(st, at);
        grant(st, an);
    }
}

static void call_signal(struct process *p, const struct event *ev,
                        struct answer *an)
{
    if (ev->d2 < 1 || ev->d2 > SIGNALS || ev->d2 == SIG_KILL || p->pid == 1) {
        refuse(an, R_BADCALL);
    } else {
        an->a0 = p->reaction[ev->d2 - 1];
        p->reaction[ev->d2 - 1] = ev->a0;
    }
}

static void call_kill(struct state *st, int at, const struct event *ev,
                      struct answer *an)
{
    const struct process *p = &st->process[at];
    int to;

    if (ev->d2 < 1 || ev->d2 > SIGNALS || ev->d3 < 2 || ev->d3 > 0xFFFF) {
        refuse(an, R_BADCALL);
    } else if ((to = find(st, ev->d3)) < 0) {
        refuse(an, R_NOPROC);
    } else if (!privileged(p) && p->user[0] != st->process[to].user[0]) {
        refuse(an, R_PRIV);
    } else {
        deliver(st, to, ev->d2, an);
        if (an->ended >> at & 1)
            an->kind = ENDED;
        close_gaps(st, an);
    }
}

static void call_fshell(struct state *st, const struct process *p,
                        const struct event *ev, struct answer *an)
{
    struct process *c;

    if (ev->d1 > 255 || ev->d2 > 255) {
        refuse(an, R_BADCALL);
        return;
    }
    if (st->live == PROCESSES || st->next_pid == 65536) {
        refuse(an, R_NOMEMORY);
        return;
    }
    c = &st->process[st->live++];       /* a free place is all zero */
    c->pid = (uint16_t)st->next_pid++;
    memcpy(c->user, p->user, sizeof c->user);
    memcpy(c->group, p->group, sizeof c->group);
    c->priority = p->priority;
    for (int s = 0; s < SIGNALS; s++) {
        if (s == SIG_KILL - 1)
            c->reaction[s] = ABORT;
        else if (ev->d1 >> s & 1)
            c->reaction[s] = ev->d2 >> s & 1 ? IGNORE : ABORT;
        else
            c->reaction[s] = p->reaction[s] == IGNORE ? IGNORE : ABORT;
    }
    an->d3 = c->pid;
}

static void call_sleep(struct process *p, const struct event *ev,
                       struct answer *an)
{
    if (ev->d3) {
        p->sleep = SLEEP_TIMED;
        p->seconds = ev->d3;
        an->kind = ASLEEP;
    }
}

static void call_exit(struct state *st, int at, struct answer *an)
{
    if (st->process[at].pid == 1) {
        refuse(an, R_BADCALL);
    } else {
        end_process(st, at, an);
        close_gaps(st, an);
        an->kind = ENDED;
    }
}

static int listed(unsigned n)
{
    return n <= 0x0E || (n >= 0x10 && n <= 0x19) || n == 0x1B || n == 0x1C
        || (n >= 0x20 && n <= 0x29) || (n >= 0x30 && n <= 0x3A)
        || (n >= 0x3E && n <= 0x49) || n == 0x4B || n == 0x4C || n == 0x4E
        || (n >= 0x50 && n <= 0x56);
}

static void call(struct state *st, int at, unsigned number,
                 const struct event *ev, struct answer *an)
{
    struct process *p = &st->process[at];

    switch (number) {
    case 0x34: get_id(p->user, ev, an); break;
    case 0x35: set_id(p, p->user, ev, an); break;
    case 0x36: get_id(p->group, ev, an); break;
    case 0x37: set_id(p, p->group, ev, an); break;
    case 0x38: an->d3 = p->priority; break;
    case 0x39: call_setprior(p, ev, an); break;
    case 0x3A: an->d3 = p->pid; break;
    case 0x3E: call_lock(st, p, ev, an); break;
    case 0x3F: call_unlock(st, ev, an); break;
    case 0x40: call_signal(p, ev, an); break;
    case 0x41: call_kill(st, at, ev, an); break;
    case 0x42: call_sleep(p, ev, an); break;
    case 0x43: p->alarm = ev->d3; break;
    case 0x44:
        p->sleep = SLEEP_PAUSE;
        an->kind = ASLEEP;
        break;
    case 0x46: call_exit(st, at, an); break;
    case 0x48: call_fshell(st, p, ev, an); break;
    case 0x51: refuse(an, R_BADCALL); break;    /* only an indirect 51h comes here */
    default: refuse(an, listed(number) ? R_NOTMODELLED : R_BADCALL); break;
    }
}

/* A call, take or report of the process at that place. */
static void event_at(struct state *st, int at, const struct event *ev,
                     struct answer *an)
{
    struct process *p = &st->process[at];

    if (p->sleep != SLEEP_NONE) {
        refuse(an, R_ASLEEP);
        return;
    }
    switch (ev->kind) {
    case EV_CALL:
        if (p->pending)
            refuse(an, R_TRAP);
        else
            call(st, at, ev->call == 0x51 ? ev->d0 : ev->call, ev, an);
        break;
    case EV_TAKE:
        take(p, an);
        break;
    case EV_REPORT:
        an->a0 = p->wake;
        an->d3 = p->left;
        break;
    }
}

void state_event(struct state *st, const struct event *ev, struct answer *an)
{
    int at;

    memset(an, 0, sizeof *an);
    if (ev->kind < EV_CALL || ev->kind > EV_REPORT) {
        refuse(an, R_BADCALL);
        return;
    }
    if (ev->kind == EV_TICK) {
        tick(st, an);
        return;
    }
    at = find(st, ev->caller);
    if (at < 0)
        refuse(an, R_BADCALLER);
    else
        event_at(st, at, ev, an);
}

/* ---- paper, sheet, key and mark ---- */

enum { VERSION = 1, MOST_EVENTS = 1000, MOST_SEQUENCES = 64, MOST_ANSWERS = 1000 };
enum { PAPER_HEADER = 12, EVENT = 20, SEQUENCE_NUMBER = 18, SHEET_HEADER = 6, ANSWER = 16 };

struct paper {
    size_t events, sequences;
    const uint8_t *event, *sequence;
};

static uint16_t read_two(const uint8_t *b)
{
    return (uint16_t)(b[0] << 8 | b[1]);
}

static uint32_t read_four(const uint8_t *b)
{
    return (uint32_t)read_two(b) << 16 | read_two(b + 2);
}

static void write_two(uint8_t *b, uint16_t n)
{
    b[0] = (uint8_t)(n >> 8);
    b[1] = (uint8_t)n;
}

static void write_four(uint8_t *b, uint32_t n)
{
    write_two(b, (uint16_t)(n >> 16));
    write_two(b + 2, (uint16_t)n);
}

static uint16_t sequence_number(const struct paper *p, size_t at)
{
    return read_two(p->event + EVENT * at + SEQUENCE_NUMBER);
}

/* A refusal that has the offset of a field. */
static uint64_t refused_at(uint64_t number, size_t offset)
{
    return number + 65536 * (uint64_t)offset;
}

/* For the fields of a header, two bytes each, in file order: 0, or the refusal at the first that breaks its rule. */
static uint64_t first_broken(uint64_t number, const int *keeps_its_rule, size_t fields)
{
    for (size_t i = 0; i < fields; i++)
        if (!keeps_its_rule[i])
            return refused_at(number, 2 * i);
    return 0;
}

/* 0, or the refusal at the first sequence number that breaks its rule. */
static uint64_t first_broken_event(const struct paper *p)
{
    for (size_t i = 0; i < p->events; i++)
        if (sequence_number(p, i) > p->sequences)
            return refused_at(R_BADPAPER, PAPER_HEADER + EVENT * i + SEQUENCE_NUMBER);
    return 0;
}

/* 0, or the refusal. A header that keeps all rules says where events and sequences are. */
static uint64_t read_paper_header(const uint8_t *file, size_t len, struct paper *p)
{
    const size_t events = read_two(file + 2), sequences = read_two(file + 6);
    const size_t sequence_offset = PAPER_HEADER + EVENT * events, length = sequence_offset + SEQ * sequences;
    const int keeps_its_rule[] = {
        read_two(file) == VERSION,
        events <= MOST_EVENTS,
        read_two(file + 4) == PAPER_HEADER,
        sequences <= MOST_SEQUENCES,
        read_two(file + 8) == sequence_offset,
        read_two(file + 10) == length && len == length
    };
    const uint64_t refusal = first_broken(R_BADPAPER, keeps_its_rule, PAPER_HEADER / 2);

    if (refusal)
        return refusal;
    p->events = events;
    p->sequences = sequences;
    p->event = file + PAPER_HEADER;
    p->sequence = file + sequence_offset;
    return 0;
}

/* 0, or the refusal. */
static uint64_t read_paper(const uint8_t *file, size_t len, struct paper *p)
{
    uint64_t refusal;

    if (len < PAPER_HEADER)
        return refused_at(R_BADPAPER, len);
    refusal = read_paper_header(file, len, p);
    if (!refusal)
        refusal = first_broken_event(p);
    if (refusal)
        return refusal;
    return p->events == 0 ? R_BLANK : 0;
}

/* 0, or the refusal. *answers is how many the sheet has. */
static uint64_t read_sheet(const uint8_t *file, size_t len, size_t *answers)
{
    int whole, keeps_its_rule[SHEET_HEADER / 2];

    if (len < SHEET_HEADER)
        return refused_at(R_BADSHEET, len);
    *answers = read_two(file + 2);
    whole = len == SHEET_HEADER + ANSWER * *answers;
    keeps_its_rule[0] = read_two(file) == VERSION;
    keeps_its_rule[1] = *answers <= MOST_ANSWERS && whole;
    keeps_its_rule[2] = read_two(file + 4) == SHEET_HEADER;
    return first_broken(R_BADSHEET, keeps_its_rule, SHEET_HEADER / 2);
}

static void read_event(const struct paper *p, size_t at, struct event *ev)
{
    const uint8_t *b = p->event + EVENT * at;
    uint16_t number = sequence_number(p, at);

    memset(ev, 0, sizeof *ev);
    ev->kind = b[0];
    ev->call = b[1];
    ev->caller = read_two(b + 2);
    ev->d0 = read_two(b + 4);
    ev->d1 = read_two(b + 6);
    ev->d2 = read_two(b + 8);
    ev->d3 = read_four(b + 10);
    ev->a0 = read_four(b + 14);
    ev->named = number != 0;
    if (ev->named)
        memcpy(ev->seq, p->sequence + SEQ * (number - 1u), SEQ);
}

static void write_answer(uint8_t *b, const struct answer *an)
{
    b[0] = an->kind;
    b[1] = an->number;
    write_two(b + 2, an->woken);
    write_two(b + 4, an->ended);
    write_two(b + 6, 0);
    write_four(b + 8, an->d3);
    write_four(b + 12, an->a0);
}

/* Plays event `at` and writes its answer's 16 bytes. */
static void play(struct state *st, const struct paper *p, size_t at, uint8_t *answer)
{
    struct event ev;
    struct answer an;

    read_event(p, at, &ev);
    state_event(st, &ev, &an);
    write_answer(answer, &an);
}

static uint64_t count_right(const struct paper *p, const uint8_t *answers, size_t count)
{
    struct state st;
    uint64_t right = 0;

    state_fresh(&st);
    for (size_t i = 0; i < p->events && i < count; i++) {
        uint8_t answer[ANSWER];

        play(&st, p, i, answer);
        right += memcmp(answers + ANSWER * i, answer, ANSWER) == 0;
    }
    return right;
}

uint64_t plain_mark(const uint8_t *paper, size_t paper_len, const uint8_t *sheet, size_t sheet_len)
{
    struct paper p;
    size_t answers;
    uint64_t missing, surplus;
    uint64_t refusal = read_paper(paper, paper_len, &p);

    if (!refusal)
        refusal = read_sheet(sheet, sheet_len, &answers);
    if (refusal)
        return refusal;
    missing = p.events > answers ? p.events - answers : 0;
    surplus = answers > p.events ? answers - p.events : 0;
    return (uint64_t)p.events << 48 | count_right(&p, sheet + SHEET_HEADER, answers) << 32 | missing << 16 | surplus;
}

uint64_t plain_key(const uint8_t *paper, size_t paper_len, uint8_t *key, size_t key_len)
{
    struct paper p;
    struct state st;
    uint64_t refusal = read_paper(paper, paper_len, &p);

    if (refusal)
        return refusal;
    if (key_len < SHEET_HEADER + ANSWER * p.events)
        return R_NOROOM;
    write_two(key, VERSION);
    write_two(key + 2, (uint16_t)p.events);
    write_two(key + 4, SHEET_HEADER);
    state_fresh(&st);
    for (size_t i = 0; i < p.events; i++)
        play(&st, &p, i, key + SHEET_HEADER + ANSWER * i);
    return SHEET_HEADER + ANSWER * p.events;
}

/* ---- writing a paper ---- */

/* A paper taken to pieces: each call takes the old one out of the buffer, adds the item and lays out the whole anew. */
struct pieces {
    size_t events, sequences;
    uint8_t event[MOST_EVENTS][EVENT], sequence[MOST_SEQUENCES][SEQ];
};

/* Bytes past the item's end are 0. */
static void read_item(uint8_t *piece, size_t size, const uint8_t *item, size_t len)
{
    memset(piece, 0, size);
    if (len > 0)
        memcpy(piece, item, len < size ? len : size);
}

/* Does the buffer begin with a paper of the writer's counts? A paper with no events is one, though it is blank. */
static int read_old_paper(uint64_t writer, const uint8_t *buffer, size_t room, struct paper *old)
{
    const size_t events = writer >> 16 & 0xFFFF, sequences = writer & 0xFFFF;
    const size_t length = PAPER_HEADER + EVENT * events + SEQ * sequences;
    uint64_t refusal;

    if (room < length)
        return 0;
    refusal = read_paper(buffer, length, old);
    if (refusal != 0 && refusal != R_BLANK)
        return 0;
    return old->events == events && old->sequences == sequences;
}

/* 0, or the refusal. With both counts 0 it is the first call, and the buffer may hold anything. */
static uint64_t take_to_pieces(uint64_t writer, const uint8_t *buffer, size_t room, struct pieces *p)
{
    struct paper old = {0, 0, buffer, buffer};

    p->events = p->sequences = 0;
    if ((writer & 0xFFFFFFFF) == 0)
        return 0;
    if (!read_old_paper(writer, buffer, room, &old))
        return R_BADPAPER;
    p->events = old.events;
    p->sequences = old.sequences;
    memcpy(p->event, old.event, EVENT * old.events);
    memcpy(p->sequence, old.sequence, SEQ * old.sequences);
    return 0;
}

/* The new writer, or noroom. */
static uint64_t lay_out(const struct pieces *p, uint8_t *buffer, size_t room)
{
    const size_t sequence_offset = PAPER_HEADER + EVENT * p->events, length = sequence_offset + SEQ * p->sequences;

    if (length > room)
        return R_NOROOM;
    write_two(buffer, VERSION);
    write_two(buffer + 2, (uint16_t)p->events);
    write_two(buffer + 4, PAPER_HEADER);
    write_two(buffer + 6, (uint16_t)p->sequences);
    write_two(buffer + 8, (uint16_t)sequence_offset);
    write_two(buffer + 10, (uint16_t)length);
    memcpy(buffer + PAPER_HEADER, p->event, EVENT * p->events);
    memcpy(buffer + sequence_offset, p->sequence, SEQ * p->sequences);
    return (uint64_t)length << 32 | (uint64_t)p->events << 16 | p->sequences;
}

uint64_t plain_add_sequence(uint64_t writer, uint8_t *paper, size_t paper_len,
                            const uint8_t *sequence, size_t sequence_len)
{
    struct pieces p;
    uint64_t refusal = take_to_pieces(writer, paper, paper_len, &p);

    if (refusal)
        return refusal;
    if (p.events > 0)
        return R_ORDER;
    if (p.sequences == MOST_SEQUENCES)
        return R_FULL;
    read_item(p.sequence[p.sequences], SEQ, sequence, sequence_len);
    p.sequences++;
    return lay_out(&p, paper, paper_len);
}

uint64_t plain_add_event(uint64_t writer, uint8_t *paper, size_t paper_len,
                         const uint8_t *event, size_t event_len)
{
    struct pieces p;
    uint8_t new[EVENT];
    uint64_t refusal = take_to_pieces(writer, paper, paper_len, &p);

    if (refusal)
        return refusal;
    read_item(new, EVENT, event, event_len);
    if (read_two(new + SEQUENCE_NUMBER) > p.sequences)
        return R_ORDER;
    if (p.events == MOST_EVENTS)
        return R_FULL;
    memcpy(p.event[p.events], new, EVENT);
    p.events++;
    return lay_out(&p, paper, paper_len);
}
