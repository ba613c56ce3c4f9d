/* Worked cases (a) to (k) of document 01, further cases, broken files (request 1 of document 02), papers written item
   by item (request 3), and a random walk that tests soundness, refusals, masks and a slow second reading of the lock
   rules. */
#include <stdio.h>
#include <string.h>
#include "plain.h"

enum { A = 2, B, C, D };

static struct state st;
static struct answer a;
static struct event e;
static int bad, done;

static int check_(int ok, int line, const char *what)
{
    done++;
    if (!ok) {
        bad++;
        printf("line %d failed: %s; answer %u %u woken %u ended %u d3 %lu a0 %lu\n", line, what, a.kind, a.number,
               a.woken, a.ended, (unsigned long)a.d3, (unsigned long)a.a0);
    }
    return ok;
}
#define check(c) check_((c), __LINE__, #c)

static int is(int kind, int number, int woken, int ended, uint32_t d3, uint32_t a0)
{
    return a.kind == kind && a.number == number && a.woken == woken && a.ended == ended && a.d3 == d3 && a.a0 == a0;
}
#define refused(n) is(REFUSED, n, 0, 0, 0, 0)
#define plain() is(DONE, 0, 0, 0, 0, 0)
#define asleep() is(ASLEEP, 0, 0, 0, 0, 0)

/* ---- events ---- */

/* A refused event leaves the state as it was. */
static void play(void)
{
    struct state before = st;

    state_event(&st, &e, &a);
    if (a.kind == REFUSED)
        check(memcmp(&before, &st, sizeof st) == 0);
}

static void ev(int kind, int call, int caller, int d1, int d2, uint32_t d3, uint32_t a0)
{
    memset(&e, 0, sizeof e);
    e.kind = (uint8_t)kind;
    e.call = (uint8_t)call;
    e.caller = (uint16_t)caller;
    e.d1 = (uint16_t)d1;
    e.d2 = (uint16_t)d2;
    e.d3 = d3;
    e.a0 = a0;
    play();
}

static void c3(int call, int caller, int d2, uint32_t d3, uint32_t a0)
{
    ev(1, call, caller, 0, d2, d3, a0);
}

static void indirect(int caller, int d0)
{
    memset(&e, 0, sizeof e);
    e.kind = 1;
    e.call = 0x51;
    e.caller = (uint16_t)caller;
    e.d0 = (uint16_t)d0;
    play();
}

static void lk(int call, int caller, int d2, const char *s, uint32_t len)
{
    memset(&e, 0, sizeof e);
    e.kind = 1;
    e.call = (uint8_t)call;
    e.caller = (uint16_t)caller;
    e.d2 = (uint16_t)d2;
    e.d3 = len;
    e.named = s != NULL;
    if (s)
        memcpy(e.seq, s, strlen(s) > SEQ ? SEQ : strlen(s));
    play();
}

static void lock(int caller, int d2, const char *s)
{
    lk(0x3E, caller, d2, s, (uint32_t)strlen(s));
}

static void unlock(int caller, const char *s)
{
    lk(0x3F, caller, 9, s, (uint32_t)strlen(s));
}

static void tick(void)
{
    ev(2, 0, 999, 0, 0, 0, 0);
}

static void take(int c)
{
    ev(3, 0xFF, c, 0, 0, 0, 0);
}

static void report(int c)
{
    ev(4, 0xFF, c, 0, 0, 0, 0);
}

/* Process 1 and n children, PIDs 2.. */
static void begin(int n)
{
    state_fresh(&st);
    for (int i = 0; i < n; i++)
        ev(1, 0x48, 1, 0, 0, 0, 0);
}

/* ---- cases ---- */

static void cases_abc(void)
{
    begin(0);
    c3(0x3A, 1, 0, 0, 0); check(is(DONE, 0, 0, 0, 1, 0));
    begin(4); check(is(DONE, 0, 0, 0, 5, 0));
    lk(0x3E, A, 1, "x", 0); check(refused(R_BADCALL));
    lk(0x3E, A, 1, "x", 17); check(refused(R_BADCALL));
    lk(0x3E, A, 1, "x", 1); check(plain());
    lk(0x3E, A, 1, "0123456789abcdef", 16); check(plain());
    lk(0x3E, A, 1, NULL, 1); check(refused(R_BADCALL));
    lk(0x3E, A, 4, "q", 1); check(refused(R_BADCALL));
    lk(0x3F, A, 1, NULL, 1); check(refused(R_BADCALL));
    lk(0x3F, A, 1, "x", 17); check(refused(R_BADCALL));
    lk(0x3F, A, 1, "z", 1); check(refused(R_NOTLOCKED));
}

static void cases_defg(void)
{
    begin(4);
    lock(A, 0, "x"); check(plain());
    lock(B, 0, "x"); check(plain()); check(st.rows == 2);
    lock(C, 1, "x"); check(asleep());
    lock(D, 0, "x"); check(asleep());
    lock(1, 2, "x"); check(refused(R_LOCKED));
    unlock(A, "x"); check(plain());
    unlock(B, "x"); check(is(DONE, 0, 1 << 3, 0, 0, 0));
    check(st.process[3].sleep == SLEEP_NONE && st.process[4].sleep == SLEEP_LOCK);
    report(C); check(is(DONE, 0, 0, 0, 0, WAKE_GRANTED));
    report(D); check(refused(R_ASLEEP));
    unlock(C, "x"); check(is(DONE, 0, 1 << 4, 0, 0, 0));
}

static void cases_hi(void)
{
    begin(4);
    lock(A, 1, "x"); check(plain());
    lock(B, 1, "y"); check(plain());
    lock(A, 1, "y"); check(asleep());
    lock(B, 3, "x"); check(refused(R_LOCKED));
    lock(B, 1, "x"); check(refused(R_DEADLOCK));
    lock(B, 0, "x"); check(refused(R_DEADLOCK));
    lock(B, 1, "y"); check(refused(R_HELD));
    lock(B, 0, "y"); check(refused(R_HELD));
    lock(C, 1, "x"); check(asleep());          /* waits, no chain back */
    lock(D, 1, "x"); check(asleep());          /* behind a waiting neighbour */
    unlock(B, "y"); check(is(DONE, 0, 1 << 1, 0, 0, 0));
}

/* A ring of three, one through a waiter that holds nothing of its own, and a sound state with a ring already in it,
   where the search must still end. */
static void rings(void)
{
    begin(4);
    lock(A, 1, "x"); lock(B, 1, "y"); lock(C, 1, "z");
    lock(A, 1, "y"); check(asleep());
    lock(B, 1, "z"); check(asleep());
    lock(C, 1, "x"); check(refused(R_DEADLOCK));
    begin(4);
    lock(A, 0, "x"); lock(B, 1, "y"); lock(C, 1, "x"); check(asleep());
    lock(A, 1, "y"); check(asleep());
    lock(B, 0, "x"); check(refused(R_DEADLOCK)); /* B -> C -> A -> B */
    begin(4);
    lock(A, 1, "x"); lock(B, 1, "y"); lock(A, 1, "y");
    st.row[3] = st.row[0]; st.row[3].owner = B; st.rows = 4;
    st.process[2].sleep = SLEEP_LOCK;
    lock(C, 1, "x"); check(asleep());
}

static void lengths_differ(void)
{
    begin(4);
    lock(A, 1, "AB"); lock(B, 1, "ABC"); check(plain());
    lock(C, 1, "A"); check(plain());
    lk(0x3E, D, 1, "AB", 3); check(plain());   /* "AB" and a zero byte */
}

static void case_j(void)
{
    begin(1);
    c3(0x39, A, 0, (uint32_t)-40, 0); check(plain());
    c3(0x38, A, 0, 0, 0); check(is(DONE, 0, 0, 0, (uint32_t)-40, 0));
    ev(1, 0x35, A, 0, 3, 7, 0); check(plain());
    c3(0x39, A, 0, (uint32_t)-1, 0); check(refused(R_PRIV));
    c3(0x39, A, 0, 41, 0); check(refused(R_BADCALL));
    c3(0x39, A, 0, (uint32_t)-41, 0); check(refused(R_BADCALL));
    c3(0x39, A, 0, 0xFFFF, 0); check(refused(R_BADCALL));
    c3(0x39, A, 0, 0x80000000u, 0); check(refused(R_BADCALL));
    c3(0x39, A, 0, 40, 0); check(plain());
}

static void case_k(void)
{
    begin(1);
    c3(0x40, A, 5, 0, 0x1234); check(is(DONE, 0, 0, 0, 0, IGNORE));
    c3(0x43, A, 0, 1, 0); check(plain());
    c3(0x42, A, 0, 1, 0); check(asleep());
    tick(); check(is(DONE, 0, 1 << 1, 0, 0, 0));
    report(A); check(is(DONE, 0, 0, 0, 0, WAKE_TIME));
    c3(0x3A, A, 0, 0, 0); check(refused(R_TRAP));
    take(A); check(is(DONE, 0, 0, 0, 5, 0x1234));
    take(A); check(plain());
    c3(0x40, A, 5, 0, 0); check(is(DONE, 0, 0, 0, 0, IGNORE));
}

static void ids(void)
{
    begin(1);
    ev(1, 0x35, A, 1, 3, 65536, 0); check(refused(R_BADCALL));
    ev(1, 0x35, A, 1, 3, 65535, 0); check(plain());
    ev(1, 0x35, A, 3, 0, 0, 0); check(refused(R_BADCALL));
    ev(1, 0x35, A, 0, 4, 0, 0); check(refused(R_BADCALL));
    ev(1, 0x35, A, 0, 1, 70000, 0); check(plain());     /* D3 not read */
    c3(0x34, A, 0, 0, 0); check(is(DONE, 0, 0, 0, 65535, 0));
    c3(0x34, A, 3, 0, 0); check(refused(R_BADCALL));
    ev(1, 0x37, A, 0, 3, 1, 0); check(refused(R_PRIV));
    ev(1, 0x35, A, 0, 2, 0, 0); check(plain());
    ev(1, 0x37, A, 2, 3, 9, 0); check(plain());
    c3(0x36, A, 2, 0, 0); check(is(DONE, 0, 0, 0, 9, 0));
}

static void order(void)
{
    begin(1);
    ev(5, 0, 77, 0, 0, 0, 0); check(refused(R_BADCALL));
    ev(0, 0, 77, 0, 0, 0, 0); check(refused(R_BADCALL));
    ev(1, 0x0F, 77, 0, 0, 0, 0); check(refused(R_BADCALLER));
    ev(1, 0x0F, A, 0, 0, 0, 0); check(refused(R_BADCALL));
    ev(1, 0x33, A, 0, 0, 0, 0); check(refused(R_NOTMODELLED));
    ev(1, 0x51, A, 0, 0, 0, 0); check(refused(R_NOTMODELLED));   /* D0 0 */
    indirect(A, 0x51); check(refused(R_BADCALL));
    indirect(A, 0x13A); check(refused(R_BADCALL));
    indirect(A, 0x3A); check(is(DONE, 0, 0, 0, A, 0));
}

/* 15+10+2+10+11+12+2+1+7 = 70 listed, 17 of them modelled; indirect of D0 0 answers 6 too; 9 modelled calls answer 5 to
   D2 255, D3 0 here. */
static void classes(void)
{
    int n5 = 0, n6 = 0;

    for (int i = 0; i < 256; i++) {
        begin(0);
        ev(1, i, 1, 0, 255, 0, 0);
        n6 += a.number == R_NOTMODELLED;
        n5 += a.number == R_BADCALL;
    }
    check(n6 == 70 - 17 + 1);
    check(n5 == 256 - 70 + 9);
}

static void signal_arguments(void)
{
    begin(3);
    c3(0x40, 1, 5, 0, 0); check(refused(R_BADCALL));
    c3(0x40, A, 3, 0, 0); check(refused(R_BADCALL));
    c3(0x40, A, 0, 0, 0); check(refused(R_BADCALL));
    c3(0x40, A, 8, 0, 0); check(refused(R_BADCALL));
    c3(0x46, 1, 0, 0, 0); check(refused(R_BADCALL));
    c3(0x41, A, 3, 1, 0); check(refused(R_BADCALL));
    c3(0x41, A, 3, 65536, 0); check(refused(R_BADCALL));
    c3(0x41, A, 0, B, 0); check(refused(R_BADCALL));
    c3(0x41, A, 3, 9, 0); check(refused(R_NOPROC));
}

static void kills(void)
{
    begin(3);
    c3(0x40, B, 7, 0, 50); c3(0x40, B, 1, 0, 60);
    c3(0x42, B, 0, 10, 0); check(asleep());
    tick(); tick(); tick();
    c3(0x41, A, 7, B, 0); check(is(DONE, 0, 1 << 2, 0, 0, 0));
    c3(0x41, A, 1, B, 0); check(plain());
    report(B); check(is(DONE, 0, 0, 0, 7, WAKE_SIGNAL));
    take(B); check(is(DONE, 0, 0, 0, 1, 60));
    take(B); check(is(DONE, 0, 0, 0, 7, 50));
    c3(0x44, B, 0, 0, 0); check(asleep());
    c3(0x41, A, 7, B, 0); check(plain());               /* ignored now */
    ev(1, 0x35, C, 0, 3, 4, 0);
    c3(0x41, C, 3, B, 0); check(refused(R_PRIV));
    c3(0x41, A, 3, B, 0); check(is(DONE, 0, 0, 1 << 2, 0, 0));
    check(st.live == 3 && st.process[2].pid == C);
    c3(0x41, C, 3, C, 0); check(is(ENDED, 0, 0, 1 << 2, 0, 0));
    ev(1, 0x48, 1, 0, 0, 0, 0); check(is(DONE, 0, 0, 0, 5, 0));
}

/* Exit frees rows; a trapped lock sleeper loses its waiting row only. */
static void rows_go(void)
{
    begin(4);
    c3(0x40, C, 6, 0, 99);
    lock(C, 1, "k"); lock(A, 0, "x"); lock(C, 1, "x"); lock(D, 0, "x");
    check(asleep());
    c3(0x41, 1, 6, C, 0); check(is(DONE, 0, 1 << 3 | 1 << 4, 0, 0, 0));
    check(st.rows == 3 && st.row[0].owner == C && st.row[1].owner == A
          && st.row[2].owner == D);
    lock(B, 1, "x"); check(asleep());
    c3(0x46, A, 0, 0, 0); check(is(ENDED, 0, 0, 1 << 1, 0, 0));
    c3(0x46, D, 0, 0, 0); check(is(ENDED, 0, 1 << 1, 1 << 3, 0, 0));
}

/* A is aborted, B granted, then B's own alarm traps it: it keeps its lock. C is granted, then aborted: only in the
   ended mask. */
static void one_tick(void)
{
    begin(3);
    c3(0x40, A, 5, 0, 0); c3(0x40, B, 5, 0, 77); c3(0x40, C, 5, 0, 0);
    c3(0x43, A, 0, 1, 0); c3(0x43, B, 0, 1, 0); c3(0x43, C, 0, 1, 0);
    lock(A, 1, "x"); lock(B, 0, "x"); lock(C, 0, "x"); check(asleep());
    tick(); check(is(DONE, 0, 1 << 2, 1 << 1 | 1 << 3, 0, 0));
    check(st.live == 2 && st.rows == 1 && st.row[0].owner == B);
    report(B); check(is(DONE, 0, 0, 0, 0, WAKE_GRANTED));
}

/* The seconds left are those after this tick's. */
static void seconds_left(void)
{
    begin(1);
    c3(0x40, A, 5, 0, 77); c3(0x43, A, 0, 2, 0); c3(0x42, A, 0, 5, 0);
    tick(); check(plain());
    tick(); check(is(DONE, 0, 2, 0, 0, 0));
    report(A); check(is(DONE, 0, 0, 0, 3, WAKE_SIGNAL));
    begin(0);
    c3(0x42, 1, 0, 0, 0); check(plain());
    c3(0x43, 1, 0, 1, 0); c3(0x44, 1, 0, 0, 0); check(asleep());
    tick(); check(plain()); check(st.process[0].alarm == 0);
}

static void children(void)
{
    static const uint32_t want[SIGNALS] = {0, 0, 0, 1, 1, 0, 1};
    const struct process *p = &st.process[2];

    begin(1);
    c3(0x40, A, 1, 0, 500); c3(0x40, A, 2, 0, 0); c3(0x40, A, 5, 0, 501);
    c3(0x39, A, 0, (uint32_t)-3, 0); ev(1, 0x35, A, 1, 3, 8, 0);
    ev(1, 0x48, A, 256, 0, 0, 0); check(refused(R_BADCALL));
    ev(1, 0x48, A, 0, 256, 0, 0); check(refused(R_BADCALL));
    ev(1, 0x48, A, 0xF4, 0xD4, 0, 0); check(is(DONE, 0, 0, 0, 3, 0));
    check(memcmp(p->reaction, want, sizeof want) == 0);
    check(p->priority == (uint32_t)-3 && p->user[1] == 8);
}

static void no_memory(void)
{
    begin(15); check(is(DONE, 0, 0, 0, 16, 0));
    ev(1, 0x48, 1, 0, 0, 0, 0); check(refused(R_NOMEMORY));
    begin(0); st.next_pid = 65535;
    ev(1, 0x48, 1, 0, 0, 0, 0); check(is(DONE, 0, 0, 0, 65535, 0));
    ev(1, 0x48, 1, 0, 0, 0, 0); check(refused(R_NOMEMORY));
}

static void full_table(void)
{
    begin(2);
    for (int i = 0; i < 32; i++) {
        char s[3] = { (char)('a' + i / 8), (char)('a' + i % 8), 0 };
        lock(A, 1, s); check(plain());
    }
    lock(B, 1, "new"); check(refused(R_LCKTABLE));
    lock(B, 3, "aa"); check(refused(R_LOCKED));
    lock(B, 1, "aa"); check(refused(R_LCKTABLE));
    lock(A, 1, "aa"); check(refused(R_HELD));
}

static void cases(void)
{
    cases_abc();
    cases_defg();
    cases_hi();
    rings();
    lengths_differ();
    case_j();
    case_k();
    ids();
    order();
    classes();
    signal_arguments();
    kills();
    rows_go();
    one_tick();
    seconds_left();
    children();
    no_memory();
    full_table();
}

/* ---- files: where a broken one is told to be broken ---- */

enum { UNTOUCHED = 0xA5 };

struct file {
    uint8_t bytes[21037]; /* one more than the longest paper */
    size_t len;
};

/* A field of a file, the value that is put there, and so many bytes that are put behind the file. */
struct slip {
    uint16_t at, value, behind;
};

static struct file paper, sheet;

static void put(struct file *f, size_t at, size_t value)
{
    f->bytes[at] = (uint8_t)(value >> 8);
    f->bytes[at + 1] = (uint8_t)value;
}

static void make(struct file *f, const struct slip *s)
{
    put(f, s->at, s->value);
    f->len += s->behind;
}

static void lay_paper(size_t events, size_t sequences)
{
    const size_t start = 12 + 20 * events, end = start + 16 * sequences;
    const size_t header[] = {1, events, 12, sequences, start, end};

    memset(&paper, 0, sizeof paper);
    for (size_t i = 0; i < 6; i++)
        put(&paper, 2 * i, header[i]);
    paper.len = end;
}

static void lay_sheet(size_t answers)
{
    memset(&sheet, 0, sizeof sheet);
    put(&sheet, 0, 1);
    put(&sheet, 2, answers);
    put(&sheet, 4, 6);
    sheet.len = 6 + 16 * answers;
}

/* The marker's number; the key writer's must be the same if it is the paper that is refused, and no byte written. */
static uint64_t told(void)
{
    static uint8_t key[16006];
    uint64_t marked, written;

    memset(key, UNTOUCHED, sizeof key);
    marked = plain_mark(paper.bytes, paper.len, sheet.bytes, sheet.len);
    written = plain_key(paper.bytes, paper.len, key, sizeof key);
    if (marked % 65536 == R_BADPAPER || marked % 65536 == R_BLANK)
        check(written == marked && key[0] == UNTOUCHED && memcmp(key, key + 1, sizeof key - 1) == 0);
    return marked;
}

static int tells(uint64_t number, size_t offset)
{
    const uint64_t n = told(), wanted = number + 65536 * (uint64_t)offset;

    if (n != wanted)
        printf("told %016llX, and %016llX is right\n", (unsigned long long)n, (unsigned long long)wanted);
    return n == wanted;
}

/* A paper of 3 events and 2 sequences; an event's sequence number may be 0, 1 or 2. */
static void good_files(void)
{
    lay_paper(3, 2);
    put(&paper, 30, 1);
    put(&paper, 70, 2);
    lay_sheet(3);
}

static void no_slip(void)
{
    good_files();
    check(told() == 0x0003000000000000u); /* events of kind 0 are refused, so no answer of zeros is right */
    put(&paper, 50, 2);
    check(told() == 0x0003000000000000u);
    lay_paper(1000, 64);
    put(&paper, 20010, 64);
    check(told() == 0x03E8000003E50000u);
}

/* A count that keeps its own rule breaks that of the field which is worked out from it. */
static void slips_in_a_paper(void)
{
    static const struct {
        struct slip slip;
        uint16_t told;
    } slips[] = {
        {{0, 0, 0}, 0}, {{0, 2, 0}, 0}, {{0, 256, 0}, 0}, {{0, 65535, 0}, 0},
        {{2, 1001, 0}, 2}, {{2, 32768, 0}, 2}, {{2, 65535, 0}, 2},
        {{2, 0, 0}, 8}, {{2, 2, 0}, 8}, {{2, 4, 0}, 8}, {{2, 1000, 0}, 8},
        {{4, 0, 0}, 4}, {{4, 11, 0}, 4}, {{4, 13, 0}, 4}, {{4, 32, 0}, 4},
        {{6, 65, 0}, 6}, {{6, 65535, 0}, 6},
        {{6, 0, 0}, 10}, {{6, 1, 0}, 10}, {{6, 3, 0}, 10}, {{6, 64, 0}, 10},
        {{8, 0, 0}, 8}, {{8, 12, 0}, 8}, {{8, 71, 0}, 8}, {{8, 73, 0}, 8},
        {{10, 0, 0}, 10}, {{10, 103, 0}, 10}, {{10, 105, 0}, 10}, {{10, 104, 1}, 10}, {{10, 105, 1}, 10},
        {{30, 3, 0}, 30}, {{30, 256, 0}, 30}, {{50, 3, 0}, 50}, {{70, 3, 0}, 70}, {{70, 65535, 0}, 70}};

    for (size_t i = 0; i < sizeof slips / sizeof slips[0]; i++) {
        good_files();
        make(&paper, &slips[i].slip);
        check(tells(R_BADPAPER, slips[i].told));
    }
}

/* In file order. Where the count of events is wrong, so is what is worked out from it. */
static void two_slips_in_a_paper(void)
{
    static const struct slip slips[] = {{0, 2, 0}, {2, 1001, 0}, {4, 13, 0}, {6, 65, 0}, {8, 71, 0}, {10, 105, 0},
                                        {10, 104, 1}, {30, 3, 0}, {50, 4, 0}, {70, 65535, 0}};

    for (size_t i = 0; i < 100; i++) {
        const struct slip *one = &slips[i / 10], *two = &slips[i % 10];

        good_files();
        make(&paper, one);
        make(&paper, two);
        check(tells(R_BADPAPER, one < two ? one->at : two->at));
    }
}

static void slips_in_a_sheet(void)
{
    static const struct {
        struct slip slip;
        uint16_t told;
    } slips[] = {
        {{0, 0, 0}, 0}, {{0, 2, 0}, 0}, {{0, 256, 0}, 0}, {{2, 0, 0}, 2}, {{2, 2, 0}, 2}, {{2, 4, 0}, 2},
        {{2, 1001, 0}, 2}, {{2, 65535, 0}, 2}, {{2, 3, 1}, 2}, {{2, 3, 16}, 2},
        {{4, 0, 0}, 4}, {{4, 5, 0}, 4}, {{4, 7, 0}, 4}, {{4, 22, 0}, 4}};

    for (size_t i = 0; i < sizeof slips / sizeof slips[0]; i++) {
        good_files();
        make(&sheet, &slips[i].slip);
        check(tells(R_BADSHEET, slips[i].told));
    }
}

static void two_slips_in_a_sheet(void)
{
    static const struct slip slips[] = {{0, 2, 0}, {2, 1001, 0}, {2, 3, 1}, {4, 7, 0}};

    for (size_t i = 0; i < 16; i++) {
        const struct slip *one = &slips[i / 4], *two = &slips[i % 4];

        good_files();
        make(&sheet, one);
        make(&sheet, two);
        check(tells(R_BADSHEET, one < two ? one->at : two->at));
    }
}

/* The length of what is too short for a header is told, whatever stands in it. */
static void short_papers(int bytes)
{
    for (size_t len = 0; len < 12; len++) {
        good_files();
        if (bytes >= 0)
            memset(paper.bytes, bytes, len);
        paper.len = len;
        check(tells(R_BADPAPER, len));
    }
}

static void short_sheets(int bytes)
{
    for (size_t len = 0; len < 6; len++) {
        good_files();
        if (bytes >= 0)
            memset(sheet.bytes, bytes, len);
        sheet.len = len;
        check(tells(R_BADSHEET, len));
    }
}

static void short_files(void)
{
    enum { AS_THEY_ARE = -1 };

    short_papers(AS_THEY_ARE);
    short_papers(0);
    short_papers(255);
    short_sheets(AS_THEY_ARE);
    short_sheets(0);
    short_sheets(255);
    good_files();
    check(plain_mark(NULL, 0, sheet.bytes, sheet.len) == R_BADPAPER);
    check(plain_mark(paper.bytes, paper.len, NULL, 0) == R_BADSHEET);
}

static void wrong_lengths(void)
{
    good_files();
    paper.len -= 1; check(told() == 655375);    /* 15 + 65,536 x 10 */
    paper.len += 2; check(told() == 655375);
    paper.len = 12; check(tells(R_BADPAPER, 10));
    good_files();
    sheet.len -= 16; check(told() == 131089);   /* an answer short: 17 + 65,536 x 2 */
    sheet.len += 15; check(told() == 131089);   /* a byte short */
    sheet.len += 2; check(told() == 131089);    /* a byte over */
    sheet.len = 6; check(tells(R_BADSHEET, 2));
}

static void limits(void)
{
    lay_sheet(0);
    lay_paper(1001, 0); check(tells(R_BADPAPER, 2));    /* nothing else is wrong */
    lay_paper(1, 65); check(tells(R_BADPAPER, 6));
    lay_paper(1000, 64); put(&paper, 20010, 65); check(told() == 1311375375);   /* 15 + 65,536 x 20,010 */
    lay_paper(1000, 0); put(&paper, 20010, 1); check(tells(R_BADPAPER, 20010));
    put(&paper, 19990, 1); check(tells(R_BADPAPER, 19990));
    put(&paper, 30, 1); check(tells(R_BADPAPER, 30));
    good_files();
    lay_sheet(1001); check(tells(R_BADSHEET, 2));
}

/* Badpaper, blank, badsheet or noroom; the second and the last have no offset. */
static void order_of_files(void)
{
    uint8_t key[53];

    good_files();
    check(plain_key(paper.bytes, paper.len, key, 53) == R_NOROOM);
    check(plain_key(paper.bytes, paper.len, key, 0) == R_NOROOM);
    put(&paper, 70, 3);
    check(plain_key(paper.bytes, paper.len, key, 0) == R_BADPAPER + 65536 * 70);
    put(&sheet, 0, 2); check(tells(R_BADPAPER, 70));
    lay_paper(0, 2); check(told() == R_BLANK);
    check(plain_key(paper.bytes, paper.len, key, 0) == R_BLANK);
    put(&paper, 4, 13); check(tells(R_BADPAPER, 4));
    lay_paper(0, 0); check(told() == R_BLANK);
    paper.len += 1; check(tells(R_BADPAPER, 10));
}

static void files(void)
{
    no_slip();
    slips_in_a_paper();
    two_slips_in_a_paper();
    slips_in_a_sheet();
    two_slips_in_a_sheet();
    short_files();
    wrong_lengths();
    limits();
    order_of_files();
}

/* ---- papers written item by item ---- */

static const uint8_t left_bin[16] = "LEFT BIN";
static const uint8_t tick_event[20] = {2}, names_1[20] = {[19] = 1}, names_2[20] = {[19] = 2};
static uint8_t desk[21100], desk_before[21100];
static uint64_t writer;
static size_t room;

/* An empty writer over a buffer of anything. */
static void clear_desk(size_t bytes)
{
    memset(desk, UNTOUCHED, sizeof desk);
    writer = 0;
    room = bytes;
}

/* Is the call refused, with no byte written? */
static int refuses(uint64_t number, uint64_t answer)
{
    return answer == number && memcmp(desk, desk_before, sizeof desk) == 0;
}

/* Are all bytes but the first so many as they were? */
static int leaves_rest(size_t length)
{
    return memcmp(desk + length, desk_before + length, sizeof desk - length) == 0;
}

static uint64_t add_sequence(const void *bytes, size_t len)
{
    memcpy(desk_before, desk, sizeof desk);
    return plain_add_sequence(writer, desk, room, bytes, len);
}

static uint64_t add_event(const void *bytes, size_t len)
{
    memcpy(desk_before, desk, sizeof desk);
    return plain_add_event(writer, desk, room, bytes, len);
}

static void add_many(size_t sequences, size_t events)
{
    for (size_t i = 0; i < sequences; i++)
        writer = add_sequence(left_bin, 16);
    for (size_t i = 0; i < events; i++)
        writer = add_event(names_1, sequences ? 20 : 0);
}

/* A sequence, an event that names it, and a tick: the sequence moves up twice. */
static void small_paper(void)
{
    static const uint8_t one[28] = {0, 1, 0, 0, 0, 12, 0, 1, 0, 12, 0, 28, 'L', 'E', 'F', 'T', ' ', 'B', 'I', 'N'};
    static const uint8_t two[48] = {0, 1, 0, 1, 0, 12, 0, 1, 0, 32, 0, 48, [31] = 1,
                                    'L', 'E', 'F', 'T', ' ', 'B', 'I', 'N'};
    static const uint8_t three[68] = {0, 1, 0, 2, 0, 12, 0, 1, 0, 52, 0, 68, [31] = 1, [32] = 2,
                                      [52] = 'L', 'E', 'F', 'T', ' ', 'B', 'I', 'N'};

    clear_desk(68);
    writer = add_sequence(left_bin, 16);
    check(writer == 0x0000001C00000001u && memcmp(desk, one, 28) == 0 && leaves_rest(28));
    writer = add_event(names_1, 20);
    check(writer == 0x0000003000010001u && memcmp(desk, two, 48) == 0 && leaves_rest(48));
    writer = add_event(tick_event, 20);
    check(writer == 0x0000004400020001u && memcmp(desk, three, 68) == 0 && leaves_rest(68));
    check(plain_mark(desk, 68, NULL, 0) == R_BADSHEET); /* so the paper is read */
}

/* Short, empty and overlong; what is missing is 0. */
static void lengths_of_items(void)
{
    static const uint8_t long_event[25] = {9, 9, 9, 9, 9, 9, 9, 9, 9, 9, 9, 9, 9, 9, 9, 9, 9, 9, 0, 2, 8, 8, 8, 8, 8};
    static const uint8_t wanted[100] = {0, 1, 0, 2, 0, 12, 0, 3, 0, 52, 0, 100,
                                        [32] = 9, 9, 9, 9, 9, 9, 9, 9, 9, 9, 9, 9, 9, 9, 9, 9, 9, 9, 0, 2,
                                        [52] = 'L', 'E', 'F', 'T', [68] = 'L', 'E', 'F', 'T', ' ', 'B', 'I', 'N'};
    uint8_t overlong[20] = "LEFT BIN";

    memset(overlong + 16, 7, 4);
    clear_desk(104);
    writer = add_sequence(left_bin, 4);
    writer = add_sequence(overlong, 20);
    writer = add_sequence(NULL, 0);
    writer = add_event(NULL, 0);
    writer = add_event(long_event, 25);
    check(writer == 0x0000006400020003u && memcmp(desk, wanted, 100) == 0 && leaves_rest(100));
    check(refuses(R_NOROOM, add_event(names_2, 20))); /* it may name 2 of 3 */
    writer = 0; check(add_event(names_2, 19) == 0x0000002000010000u); /* its last byte is missing: it names none */
}

static void refusals_of_the_writer(void)
{
    clear_desk(47);
    check(refuses(R_ORDER, add_event(names_1, 20)));
    writer = add_sequence(left_bin, 16);
    check(refuses(R_NOROOM, add_event(names_1, 20)));   /* a byte short */
    check(refuses(R_ORDER, add_event(names_2, 20)));    /* though there is no room */
    room = 48; check(add_event(names_1, 20) == 0x0000003000010001u);
    writer = 0x00010001;                                /* the length is not read */
    check(refuses(R_ORDER, add_sequence(left_bin, 16)));
    check(refuses(R_NOROOM, add_event(tick_event, 20)));
    desk[31] = 2; check(refuses(R_BADPAPER, add_sequence(left_bin, 16)));
    desk[31] = 0; check(refuses(R_ORDER, add_sequence(left_bin, 16)));
    room = 47; check(refuses(R_BADPAPER, add_event(tick_event, 20)));
    clear_desk(0);
    check(plain_add_sequence(0, NULL, 0, NULL, 0) == R_NOROOM);
    check(plain_add_event(0, NULL, 0, NULL, 0) == R_NOROOM);
    check(plain_add_event(1, NULL, 0, NULL, 0) == R_BADPAPER);
    clear_desk(31); check(refuses(R_NOROOM, add_event(tick_event, 20)));
    clear_desk(27); check(refuses(R_NOROOM, add_sequence(left_bin, 16)));
}

/* Any paper of the counts will do: only the header and the sequence numbers have a rule. */
static void changed_buffers(void)
{
    uint8_t laid_out[84];

    clear_desk(200);
    add_many(2, 2);
    memcpy(laid_out, desk, 84);
    for (size_t at = 0; at < 84; at++) {
        desk[at] ^= 0x80;
        if (at < 12 || at / 2 == 15 || at / 2 == 25)
            check(refuses(R_BADPAPER, add_event(names_1, 20)));
        else
            check(add_event(names_1, 20) == 0x0000006800030002u
                  && desk[at < 52 ? at : at + 20] == (laid_out[at] ^ 0x80));
        memcpy(desk, laid_out, 84);
    }
    writer = 0x00000003; check(refuses(R_BADPAPER, add_sequence(left_bin, 16)));    /* other counts */
    writer = 0x00020001; check(refuses(R_BADPAPER, add_event(tick_event, 20)));
    writer = 0xFFFFFFFF; check(refuses(R_BADPAPER, add_event(tick_event, 20)));
    writer = 0; check(add_event(tick_event, 20) == 0x0000002000010000u);            /* over the old paper */
}

/* A paper of 4 events and one of 5 sequences are 92 bytes long. */
static void same_length(void)
{
    clear_desk(200);
    add_many(5, 0);
    check(writer == 0x0000005C00000005u);
    writer = 0x0000005C00040000u;
    check(refuses(R_BADPAPER, add_event(tick_event, 20)));
}

static void limits_of_the_writer(void)
{
    clear_desk(21036);
    add_many(64, 0);
    check(writer == 0x0000040C00000040u);
    check(refuses(R_FULL, add_sequence(left_bin, 16)));
    add_many(0, 1);
    check(refuses(R_ORDER, add_sequence(left_bin, 16)));    /* though it is full */
    add_many(0, 999);
    check(writer == 0x0000522C03E80040u && memcmp(desk + 20012, left_bin, 16) == 0);
    check(refuses(R_FULL, add_event(tick_event, 20)));      /* though there is no room */
    check(refuses(R_ORDER, add_event((const uint8_t[20]){[19] = 65}, 20)));
    desk[20011] = 65;
    check(refuses(R_BADPAPER, add_event(tick_event, 20)));
    lay_paper(1, 65);                                       /* nothing is wrong but that it has too many */
    memcpy(desk, paper.bytes, paper.len);
    writer = 0x00010041; check(refuses(R_BADPAPER, add_sequence(left_bin, 16)));
}

static void writers(void)
{
    small_paper();
    lengths_of_items();
    refusals_of_the_writer();
    changed_buffers();
    same_length();
    limits_of_the_writer();
}

/* ---- soundness ---- */

static int same(const struct row *p, const struct row *q)
{
    return p->len == q->len && !memcmp(p->seq, q->seq, p->len);
}

static int clash(const struct row *p, const struct row *q)
{
    return same(p, q) && p->owner != q->owner && !(p->kind == SHARED && q->kind == SHARED);
}

static int clashes_ahead(const struct row *rows, int at)
{
    for (int q = 0; q < at; q++)
        if (clash(&rows[at], &rows[q]))
            return 1;
    return 0;
}

static int waiting_rows(const struct state *s, uint16_t owner)
{
    int n = 0;

    for (int r = 0; r < s->rows; r++)
        n += s->row[r].owner == owner && clashes_ahead(s->row, r);
    return n;
}

static int sound_sleep(const struct state *s, const struct process *p)
{
    int waiting = waiting_rows(s, p->pid);

    return waiting <= 1 && (waiting == 1) == (p->sleep == SLEEP_LOCK) && p->sleep <= 3 && p->wake <= 3
        && (p->sleep == SLEEP_TIMED) == (p->seconds != 0) && !(p->wake != WAKE_SIGNAL && p->left)
        && !(p->sleep && p->pending);
}

static int sound_signals(const struct process *p)
{
    if (p->pending & ~0x7Bu || p->reaction[SIG_KILL - 1] != ABORT)
        return 0;
    for (int k = 0; k < SIGNALS; k++)
        if ((!(p->pending >> k & 1) && p->address[k]) || (p->pid == 1 && k != SIG_KILL - 1 && p->reaction[k] != IGNORE))
            return 0;
    return 1;
}

static int sound_process(const struct state *s, int at)
{
    static const struct process none;
    const struct process *p = &s->process[at];

    if (at >= s->live)
        return memcmp(p, &none, sizeof none) == 0;
    if (p->pid >= s->next_pid || (at ? p->pid <= p[-1].pid : p->pid != 1))
        return 0;
    return sound_sleep(s, p) && sound_signals(p) && (int32_t)p->priority >= -40 && (int32_t)p->priority <= 40;
}

static int has_process(const struct state *s, uint16_t pid)
{
    for (int i = 0; i < s->live; i++)
        if (s->process[i].pid == pid)
            return 1;
    return 0;
}

static int sound_row(const struct state *s, int at)
{
    static const struct row none;
    const struct row *w = &s->row[at];

    if (at >= s->rows)
        return memcmp(w, &none, sizeof none) == 0;
    if (!has_process(s, w->owner) || w->len < 1 || w->len > SEQ)
        return 0;
    if (memcmp(w->seq + w->len, none.seq, (size_t)(SEQ - w->len)) != 0)
        return 0;
    for (int q = 0; q < at; q++)
        if (s->row[q].owner == w->owner && same(&s->row[q], w))
            return 0;
    return 1;
}

static int sound(const struct state *s)
{
    int ok = s->live >= 1 && s->live <= PROCESSES && s->rows <= ROWS && s->next_pid <= 65536;

    for (int i = 0; ok && i < PROCESSES; i++)
        ok = sound_process(s, i);
    for (int r = 0; ok && r < ROWS; r++)
        ok = sound_row(s, r);
    return ok;
}

/* ---- chains, by closure over rows: which of conflict, owner, row lead back to the new one ---- */

static struct row all[ROWS + 1];
static int count, reach[ROWS + 1][ROWS + 1];

/* Row r clashes with row q: it leads to the waiting rows of q's owner. */
static void link_rows(int r, int q)
{
    for (int t = 0; t < count; t++)
        if (all[t].owner == all[q].owner && clashes_ahead(all, t))
            reach[r][t] = 1;
}

static void link_all(int r)
{
    for (int q = 0; q < r; q++)
        if (clash(&all[r], &all[q]))
            link_rows(r, q);
}

static void close_over(int k)
{
    for (int i = 0; i < count; i++)
        for (int j = 0; j < count; j++)
            reach[i][j] |= reach[i][k] && reach[k][j];
}

static int chain(const struct state *s, const struct row *new)
{
    memcpy(all, s->row, sizeof s->row);
    all[s->rows] = *new;
    count = s->rows + 1;
    memset(reach, 0, sizeof reach);
    for (int r = 0; r < count; r++)
        link_all(r);
    for (int k = 0; k < count; k++)
        close_over(k);
    return reach[count - 1][count - 1];
}

/* ---- random walk ---- */

static uint32_t seed = 12345;

static uint32_t rnd(uint32_t n)
{
    seed = seed * 1664525u + 1013904223u;
    return (seed >> 16) % n;
}

static uint8_t draw_call(void)
{
    static const uint8_t t[] = {0x3E, 0x3E, 0x3E, 0x3E, 0x3E, 0x3E, 0x3E, 0x3E, 0x3F, 0x3F, 0x35, 0x37, 0x39,
                                0x40, 0x40, 0x41, 0x42, 0x43, 0x43, 0x44, 0x46, 0x48, 0x48, 0x48, 0x48, 0x51};

    return t[rnd(sizeof t)];
}

static void draw_caller(void)
{
    uint32_t r = rnd(100), at = rnd(st.live);

    e.kind = (uint8_t)(r < 85 ? 1 : r < 92 ? 2 : r < 98 ? 3 : 4);
    for (int k = 0; k < 6 && st.process[at].sleep; k++)
        at = rnd(st.live);
    e.caller = st.process[at].pid;
    e.call = draw_call();
    if (e.caller == 1 && (e.call == 0x44 || e.call == 0x3E))
        e.call = 0x48;
    e.d0 = draw_call();
    if (e.caller == 1 && e.d0 == 0x44)
        e.d0 = 0x48;
}

static void draw_registers(void)
{
    e.d1 = (uint16_t)rnd(4);
    e.d2 = (uint16_t)rnd(4);
    e.d3 = 1 + rnd(3);
    e.a0 = rnd(4);
    if (e.call == 0x41) {
        e.d2 = (uint16_t)(1 + rnd(7));
        e.d3 = st.process[rnd(st.live)].pid;
    }
    if (e.call == 0x40)
        e.d2 = rnd(2) ? 5 : (uint16_t)(1 + rnd(7));
    e.named = 1;
    e.seq[0] = (uint8_t)(65 + rnd(5));
    e.seq[1] = 65;
}

/* The masks, as the two states tell them. */
static int masks_right(const struct state *before)
{
    unsigned woken = 0, ended = 0;

    for (int k = 0; k < before->live; k++) {
        int f = 0;

        while (f < st.live && st.process[f].pid != before->process[k].pid)
            f++;
        if (f == st.live)
            ended |= 1u << k;
        else if (before->process[k].sleep && !st.process[f].sleep)
            woken |= 1u << k;
    }
    return woken == a.woken && ended == a.ended;
}

/* Deadlock exactly when the slow reading finds a chain. */
static int chain_right(const struct state *before)
{
    unsigned call = e.call == 0x51 ? e.d0 : e.call;
    struct row w;

    if (e.kind != 1 || call != 0x3E || e.d2 > 1
        || !(a.kind == ASLEEP || a.number == R_DEADLOCK || a.number == R_LCKTABLE))
        return 1;
    memset(&w, 0, sizeof w);
    w.owner = e.caller;
    w.kind = (uint8_t)e.d2;
    w.len = (uint8_t)e.d3;
    memcpy(w.seq, e.seq, e.d3);
    return chain(before, &w) == (a.number == R_DEADLOCK);
}

static int walk_one(void)
{
    struct state before = st;

    memset(&e, 0, sizeof e);
    draw_caller();
    draw_registers();
    state_event(&st, &e, &a);
    return check(sound(&st)) && check(masks_right(&before)) && check(chain_right(&before))
        && check(a.kind != REFUSED || memcmp(&before, &st, sizeof st) == 0);
}

static void walk(int n)
{
    unsigned seen[16] = {0}, kinds[4] = {0};
    int i = 0;

    for (int ok = 1; ok && i < n; i += ok) {
        if (i % 2000 == 0)
            state_fresh(&st);
        ok = walk_one();
        kinds[a.kind]++;
        seen[a.number]++;
    }
    check(i == n);
    printf("walk: kinds %u %u %u %u; refusals", kinds[0], kinds[1], kinds[2], kinds[3]);
    for (int k = 1; k < 15; k++)
        printf(" %d:%u", k, seen[k]);
    printf("\n");
}

int main(void)
{
    cases();
    files();
    writers();
    walk(200000);
    printf("plain-test: %d checks, %d failed\n", done, bad);
    return bad != 0;
}
