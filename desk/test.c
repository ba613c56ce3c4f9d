/*
 * Holds the four routines of brinefeather.h to document 01 and to requests 1 and 3 of document 02, the offsets and the
 * paper writer. The bytes below, and what should come of them, were worked out by hand from their rules. Every call is
 * made twice: the files between guard bytes, and then with nothing behind them, where a memory checker sees a read too
 * far.
 */
#include <inttypes.h>
#include <limits.h>
#include <stdio.h>
#include <stdlib.h>
#include <string.h>
#include "brinefeather.h"

#define COUNT(list) (sizeof (list) / sizeof (list)[0])
#define MARK(total, right, missing, surplus) 0x##total##right##missing##surplus##u
#define WRITER(length, events, sequences) 0x##length##events##sequences##u
#define BADPAPER_AT(offset) (BRINEFEATHER_BADPAPER + UINT64_C(65536) * (offset))
#define BADSHEET_AT(offset) (BRINEFEATHER_BADSHEET + UINT64_C(65536) * (offset))

#define ZERO16 "00000000 00000000 00000000 00000000 "
#define EXAMPLE_EVENTS "01 3A 0001 " ZERO16 "02 00 0000 " ZERO16 /* getproc from process 1, a tick */
#define EXAMPLE "0001 0002 000C 0000 0034 0034 " EXAMPLE_EVENTS
#define PID_1 "00 00 0000 0000 0000 00000001 00000000 " /* getproc from process 1: done, its PID in D3 */
#define EXAMPLE_ANSWERS PID_1 ZERO16                    /* no one sleeps: a tick is done, and that is all */
#define EXAMPLE_KEY "0001 0002 0006 " EXAMPLE_ANSWERS
#define NO_ANSWERS "0001 0000 0006 "
#define BLANK "0001 0000 000C 0000 000C 000C "
#define BLANK_SEQUENCES "0001 0000 000C 0002 000C 002C " ZERO16 ZERO16
#define BAD_PAPER "0002 0002 000C 0000 0034 0034 " EXAMPLE_EVENTS
#define BAD_SHEET "0002 0000 0006 "
#define ONE_BLANK "0001 0001 0006 " ZERO16
#define PAPER_OFF(offset, header) \
    {"paper header off", header, header " " EXAMPLE_EVENTS, EXAMPLE_KEY, BADPAPER_AT(offset)}
#define SHEET_OFF(offset, header) \
    {"sheet header off", header, EXAMPLE, header " " EXAMPLE_ANSWERS, BADSHEET_AT(offset)}

/* One event that names sequence `number` of two. */
#define NAMES(event, number) "0001 0001 000C 0002 0020 0040 " event " 0000 0000 0000 00000000 00000000 " number \
    ZERO16 ZERO16

/* Limits: so many ticks that have that sequence number, so many sequences and answers. */
#define TICKS(times, number) "02 00 0000 0000 0000 0000 00000000 00000000 " number " *" times ":20 "
#define SEQUENCES(times) ZERO16 "*" times ":16 "
#define FULL_HEADER "0001 03E8 000C 0040 4E2C 522C "
#define FULL FULL_HEADER TICKS("1000", "0040") SEQUENCES("64")
#define THOUSAND "0001 03E8 0006 " ZERO16 "*1000:16 "

/* Two processes and a conflict. Three bytes of either sequence are ABC; four are ABCX and ABCY. */
#define CONFLICT "0001 000A 000C 0002 00D4 00F4 " \
    "01 48 0001 0000 0000 0000 00000000 00000000 0000 " /* fshell: process 2 */ \
    "01 3E 0001 0000 0000 0001 00000003 00000000 0001 " /* 1 locks ABC unshared */ \
    "01 3E 0002 0000 0000 0003 00000003 00000000 0002 " /* 2 would, conditionally: locked */ \
    "01 3E 0002 0000 0000 0002 00000004 00000000 0002 " /* 2 locks ABCY, which is not ABC */ \
    "01 3E 0002 0000 0000 0001 00000003 00000000 0001 " /* 2 waits for ABC */ \
    "01 3E 0001 0000 0000 0003 00000004 00000000 0001 " /* 1 locks ABCX, which is not ABCY */ \
    "01 3F 0001 0000 0000 0000 00000003 00000000 0001 " /* 1 unlocks ABC: the one at position 1 wakes */ \
    "04 00 0002 0000 0000 0000 00000000 00000000 0000 " /* wake report: granted */ \
    "01 46 0002 0000 0000 0000 00000000 00000000 0000 " /* exit: the one at position 1 ends */ \
    "01 3A 0002 0000 0000 0000 00000000 00000000 0000 " /* a call from no live process */ \
    "41424358 58585858 58585858 58585858 41424359 59595959 59595959 59595959 "
#define CONFLICT_KEY "0001 000A 0006 " \
    "00 00 0000 0000 0000 00000002 00000000 " ZERO16 "03 0B 0000 0000 0000 00000000 00000000 " ZERO16 \
    "01 00 0000 0000 0000 00000000 00000000 " ZERO16 \
    "00 00 0002 0000 0000 00000000 00000000 00 00 0000 0000 0000 00000000 00000001 " \
    "02 00 0000 0002 0000 00000000 00000000 03 02 0000 0000 0000 00000000 00000000 "

/* All four bytes of D3 and A0. */
#define TRAP "0001 0008 000C 0000 00AC 00AC " \
    "01 39 0001 0000 0000 0000 FFFFFFFF 00000000 0000 " /* priority -1, privileged */ \
    "01 38 0001 0000 0000 0000 00000000 00000000 0000 " /* getprior */ \
    "01 48 0001 0000 00FF 0000 00000000 00000000 0000 " /* fshell: process 2, every reaction abort */ \
    "01 40 0002 0000 0000 0005 00000000 12345678 0000 " /* it traps signal 5, which was abort */ \
    "01 43 0002 0000 0000 0000 00000001 00000000 0000 " /* alarm in one second */ \
    "01 44 0002 0000 0000 0000 00000000 00000000 0000 " /* pause */ \
    "02 00 0000 0000 0000 0000 00000000 00000000 0000 " /* tick: the trap wakes position 1 */ \
    "03 00 0002 0000 0000 0000 00000000 00000000 0000 " /* take */
#define TRAP_KEY "0001 0008 0006 " ZERO16 "00 00 0000 0000 0000 FFFFFFFF 00000000 " \
    "00 00 0000 0000 0000 00000002 00000000 " ZERO16 ZERO16 "01 00 0000 0000 0000 00000000 00000000 " \
    "00 00 0002 0000 0000 00000000 00000000 00 00 0000 0000 0000 00000005 12345678 "

/* The README's paper by hand, and what it is after each call of the writer. */
#define TABLE "5441424C 45000000 00000000 00000000 "
#define FSHELL "01 48 0001 0000 0000 0000 00000000 00000000 0000 "
#define LOCK_2 "01 3E 0002 0000 0000 0001 00000005 00000000 0001 " /* unshared */
#define TRY_1 "01 3E 0001 0000 0000 0003 00000005 00000000 0001 "  /* unshared conditional */
#define LOCK_1 "01 3E 0001 0000 0000 0001 00000005 00000000 0001 "
#define UNLOCK_2 "01 3F 0002 0000 0000 0000 00000005 00000000 0001 "
#define REPORT_1 "04 00 0001 0000 0000 0000 00000000 00000000 0000 "
#define HAND_0 "0001 0000 000C 0001 000C 001C " TABLE
#define HAND_1 "0001 0001 000C 0001 0020 0030 " FSHELL TABLE
#define HAND_2 "0001 0002 000C 0001 0034 0044 " FSHELL LOCK_2 TABLE
#define HAND_3 "0001 0003 000C 0001 0048 0058 " FSHELL LOCK_2 TRY_1 TABLE
#define HAND_4 "0001 0004 000C 0001 005C 006C " FSHELL LOCK_2 TRY_1 LOCK_1 TABLE
#define HAND_5 "0001 0005 000C 0001 0070 0080 " FSHELL LOCK_2 TRY_1 LOCK_1 UNLOCK_2 TABLE
#define HAND_6 "0001 0006 000C 0001 0084 0094 " FSHELL LOCK_2 TRY_1 LOCK_1 UNLOCK_2 REPORT_1 TABLE
#define TICK "02 00 0000 0000 0000 0000 00000000 00000000 0000 "
#define TICK_NAMES(number) "02 00 0000 0000 0000 0000 00000000 00000000 " number " "
#define ONE_TICK "0001 0001 000C 0000 0020 0020 " TICK

/* Three sequences, no two bytes of them alike: an event moves them up by less than they are long. */
#define THREE "01020304 05060708 090A0B0C 0D0E0F10 11121314 15161718 191A1B1C 1D1E1F20 " \
    "21222324 25262728 292A2B2C 2D2E2F30 "

/* Papers at the limits. */
#define SEQUENCES_63 "0001 0000 000C 003F 000C 03FC " SEQUENCES("63")
#define SEQUENCES_64 "0001 0000 000C 0040 000C 040C " SEQUENCES("64")
#define SEQUENCES_65 "0001 0000 000C 0041 000C 041C " SEQUENCES("65")
/* Every byte another one, as the rows of forms/specs/Cases.antt have it: two events, two sequences. */
#define FIRST_OF_TWO "11 12 1314 1516 1718 191A 1B1C1D1E 1F202122 0002 "
#define TWO_SEQUENCES "41414141 41414141 41414141 41414141 51525354 55565758 595A5B5C 5D5E5F60 "
#define TWO_EVENTS "0001 0002 000C 0002 0034 0054 " FIRST_OF_TWO TICK TWO_SEQUENCES
#define TICK_AND_64 "0001 0001 000C 0040 0020 0420 " TICK SEQUENCES("64")
#define EVENTS_999 "0001 03E7 000C 0040 4E18 5218 " TICKS("999", "0040") SEQUENCES("64")
#define EVENTS_1001 "0001 03E9 000C 0040 4E40 5240 " TICKS("1001", "0040") SEQUENCES("64")

enum { GUARD = 256, STORE = 90000, ENOUGH = 22000 };

/* Bytes to lend, and what stands behind them. No bytes is a buffer to fill; of length 0, a null pointer. */
struct file {
    const uint8_t *bytes;
    size_t len, behind;
};

struct area {
    uint8_t *then, *now;
    size_t start, size;
};

static uint8_t paper_store[STORE], sheet_store[STORE], key_store[2][STORE], wanted_store[STORE], item_store[STORE];
static const char *group = "";
static char fault[200];
static unsigned checks, wrong;

static void begin(const char *name)
{
    if (strcmp(group, name) == 0)
        return;
    if (group[0])
        printf("%s %s%s%s\n", fault[0] ? "FAIL" : "ok", group, fault[0] ? ": " : "", fault);
    fflush(stdout);
    group = name;
    fault[0] = '\0';
}

static void check(const char *what, uint64_t is, uint64_t should)
{
    checks++;
    if (is == should)
        return;
    wrong++;
    if (!fault[0])
        snprintf(fault, sizeof fault, "%s: %016" PRIX64 " and not %016" PRIX64, what, is, should);
}

/* "*1000:20" makes the 20 bytes before it a thousand times 20. */
static struct file hex(const char *text, uint8_t *store)
{
    struct file f = {text ? store : NULL, 0, 0};
    unsigned byte, times, size;

    memset(store, 0, STORE);
    for (int used = 0; text && *text; text += used)
        if (sscanf(text, "*%u:%u %n", &times, &size, &used) == 2)
            for (; times > 1; times--, f.len += size)
                memcpy(store + f.len, store + f.len - size, size);
        else if (sscanf(text, "%2x %n", &byte, &used) == 1)
            store[f.len++] = (uint8_t)byte;
        else
            abort();
    return f;
}

static uint8_t *lend(struct area *a, const struct file *f, int again)
{
    size_t tail = again && f->bytes ? 0 : GUARD;

    a->start = GUARD + checks % 8; /* so that every alignment has its turn */
    a->size = a->start + f->len + tail;
    a->then = malloc(2 * a->size);
    if (!a->then)
        abort();
    a->now = a->then + a->size;
    memset(a->now, again ? 0x5A : 0xA5, a->size);
    if (f->bytes)
        memcpy(a->now + a->start, f->bytes, f->len + (tail ? f->behind : 0));
    memcpy(a->then, a->now, a->size);
    return f->len || f->bytes ? a->now + a->start : NULL;
}

/* Only the first `written` bytes may have been written. */
static void take_back(const struct area *a, size_t written, const char *what)
{
    size_t after = a->start + written;

    check(what, memcmp(a->now, a->then, a->start) == 0, 1);
    check(what, memcmp(a->now + after, a->then + after, a->size - after) == 0, 1);
    free(a->then);
}

static uint64_t mark(const struct file *paper, const struct file *sheet)
{
    uint64_t n[2];

    for (int again = 0; again < 2; again++) {
        struct area p, s;
        const uint8_t *paper_bytes = lend(&p, paper, again), *sheet_bytes = lend(&s, sheet, again);

        n[again] = brinefeather_mark(paper_bytes, paper->len, sheet_bytes, sheet->len);
        take_back(&p, 0, "the paper and its guards as they were");
        take_back(&s, 0, "the sheet and its guards as they were");
    }
    check("the same mark again", n[1], n[0]);
    return n[0];
}

/* The buffer's bytes differ from call to call, so a byte of the key that is not written shows. */
static uint64_t key(const struct file *paper, const struct file *room, struct file *written)
{
    uint64_t n[2];

    for (int again = 0; again < 2; again++) {
        struct area p, k;
        const uint8_t *paper_bytes = lend(&p, paper, again);
        uint8_t *key_bytes = lend(&k, room, again);

        n[again] = brinefeather_key(paper_bytes, paper->len, key_bytes, room->len);
        *written = (struct file){key_store[0], brinefeather_refused(n[again]) ? 0 : n[again], 0};
        check("a key within its buffer", written->len <= room->len, 1);
        if (written->len > room->len)
            written->len = 0;
        memcpy(key_store[again], k.now + k.start, written->len);
        take_back(&p, 0, "the paper and its guards as they were");
        take_back(&k, written->len, "all but the key as it was");
    }
    check("the same length again", n[1], n[0]);
    check("the same key again", memcmp(key_store[0], key_store[1], written->len) == 0, 1);
    return n[0];
}

/* The numbers that refusals of files have, and those up to 26 of document 02, each with every offset of a paper. */
static void refusals_apart(void)
{
    static const unsigned numbers[] = {15, 16, 17, 18, 20, 23, 24, 25, 26};

    begin("a refusal taken apart");
    for (unsigned i = 0; i < COUNT(numbers) * 20011; i++) {
        const unsigned number = numbers[i / 20011], offset = i % 20011;
        const uint64_t n = number + UINT64_C(65536) * offset;

        check("the refusal number", brinefeather_refused(n), number);
        check("its offset", brinefeather_offset(n), offset);
        check("perfect, refused", brinefeather_perfect(n) != 0, 0);
    }
}

static void not_refused(const char *what, uint64_t n)
{
    check(what, brinefeather_refused(n), 0);
    check(what, brinefeather_offset(n), 0);
}

static void key_lengths_apart(void)
{
    begin("a key's length taken apart");
    for (size_t events = 1; events <= 1000; events++)
        not_refused("a key's length", brinefeather_key_length(events));
    check("the longest key", brinefeather_key_length(1000), BRINEFEATHER_LONGEST_KEY);
}

/* A paper with one sequence has 28 bytes: so much may a routine return that writes papers (document 02). */
static void paper_lengths_apart(void)
{
    begin("a paper's length taken apart");
    for (uint64_t length = 28; length <= BRINEFEATHER_LONGEST_PAPER; length++)
        not_refused("a paper's length", length);
}

static void marks_apart(void)
{
    const uint64_t n = MARK(03E8,0001,0002,FFFF);

    begin("a mark taken apart");
    for (uint64_t counts = 0; counts <= 1000 * 1000; counts += 7)
        not_refused("a mark", (1 + counts / 1000) << 48 | counts % 1000 << 16 | counts % 27);
    not_refused("the least mark", MARK(0001,0000,0000,0000));
    not_refused("one that ends as badpaper does", MARK(0001,0001,0000,000F));
    check("total", brinefeather_total(n), 1000);
    check("right", brinefeather_right(n), 1);
    check("missing", brinefeather_missing(n), 2);
    check("surplus", brinefeather_surplus(n), 65535);
    check("perfect", brinefeather_perfect(MARK(0002,0002,0000,0000)) != 0, 1);
    check("perfect with a surplus", brinefeather_perfect(MARK(0002,0002,0000,0001)) != 0, 0);
    check("perfect with a wrong answer", brinefeather_perfect(MARK(0002,0001,0000,0000)) != 0, 0);
}

/* Every writer that there can be. Of the first, with nothing given yet, it is 0. */
static void writers_apart(void)
{
    begin("a writer taken apart");
    for (uint64_t counts = 1; counts < 1001 * 65; counts++) {
        const uint64_t events = counts / 65, sequences = counts % 65, length = 12 + 20 * events + 16 * sequences;
        const uint64_t n = length << 32 | events << 16 | sequences;

        not_refused("a writer", n);
        check("its paper's length", brinefeather_paper_length(n), length);
        check("its paper's events", brinefeather_paper_events(n), events);
        check("its paper's sequences", brinefeather_paper_sequences(n), sequences);
        check("perfect, a writer", brinefeather_perfect(n) != 0, 0);
    }
    not_refused("the first writer", 0);
    check("the longest paper", brinefeather_paper_length(WRITER(522C,03E8,0040)), BRINEFEATHER_LONGEST_PAPER);
}

static void refusal_names(void)
{
    static const char *const wanted[] = {"unknown", "badstate", "badcaller", "asleep", "trap", "badcall", "notmodelled",
                                         "priv", "noproc", "nomemory", "held", "locked", "deadlock", "lcktable",
                                         "notlocked", "badpaper", "blank", "badsheet", "noroom", "unknown", "full",
                                         "unknown", "unknown", "unknown", "unknown", "unknown", "order", "unknown"};

    begin("names of refusals");
    for (unsigned i = 0; i < COUNT(wanted); i++)
        check(wanted[i], strcmp(brinefeather_refusal_name(i), wanted[i]) == 0, 1);
    check("no refusal", strcmp(brinefeather_refusal_name(UINT_MAX), "unknown") == 0, 1);
}

static const struct {
    const char *group, *what, *paper, *sheet;
    uint64_t mark;
} marks[] = {
    {"example", "document 01's paper and sheet", EXAMPLE, NO_ANSWERS, MARK(0002,0000,0002,0000)},
    {"key as sheet", "the example's", EXAMPLE, EXAMPLE_KEY, MARK(0002,0002,0000,0000)},
    {"key as sheet", "two processes, a conflict", CONFLICT, CONFLICT_KEY, MARK(000A,000A,0000,0000)},
    {"key as sheet", "a trap", TRAP, TRAP_KEY, MARK(0008,0008,0000,0000)},
    {"answers over", "one", EXAMPLE, "0001 0003 0006 " EXAMPLE_ANSWERS ZERO16, MARK(0002,0002,0000,0001)},
    {"answers over", "two", EXAMPLE, "0001 0004 0006 " ZERO16 ZERO16 ZERO16 PID_1, MARK(0002,0001,0000,0002)},
    {"answers missing", "the last", EXAMPLE, "0001 0001 0006 " PID_1, MARK(0002,0001,0001,0000)},
    {"answers missing", "the last, first wrong", EXAMPLE, ONE_BLANK, MARK(0002,0000,0001,0000)},
    {"wrong place", "right answers", EXAMPLE, "0001 0002 0006 " ZERO16 PID_1, MARK(0002,0000,0000,0000)},
    {"zero field not zero", "legal, not right", EXAMPLE, /* its bytes are among the 16 that must agree */
        "0001 0002 0006 " PID_1 "00 00 0000 0000 0001 00000000 00000000", MARK(0002,0001,0000,0000)},
    {"empty files", "null paper", NULL, NO_ANSWERS, BADPAPER_AT(0)},
    {"empty files", "empty paper", "", NO_ANSWERS, BADPAPER_AT(0)},
    {"empty files", "null sheet", EXAMPLE, NULL, BADSHEET_AT(0)},
    {"empty files", "empty sheet", EXAMPLE, "", BADSHEET_AT(0)},
    {"empty files", "null both", NULL, NULL, BADPAPER_AT(0)},
    {"blank paper", "no sequences", BLANK, NO_ANSWERS, BRINEFEATHER_BLANK},
    {"blank paper", "two sequences", BLANK_SEQUENCES, EXAMPLE_KEY, BRINEFEATHER_BLANK},
    {"blank paper", "not sound in all else", "0001 0000 000C 0000 000C 000D ", NO_ANSWERS, BADPAPER_AT(10)},
    PAPER_OFF(0, "0000 0002 000C 0000 0034 0034"), PAPER_OFF(0, "0002 0002 000C 0000 0034 0034"),
    /* a legal number of events that is not theirs: what hangs on it breaks, the sequence offset or the length */
    PAPER_OFF(8, "0001 0001 000C 0000 0034 0034"), PAPER_OFF(8, "0001 0003 000C 0000 0034 0034"),
    PAPER_OFF(10, "0001 0001 000C 0000 0020 0020"), PAPER_OFF(10, "0001 0003 000C 0000 0048 0048"),
    PAPER_OFF(4, "0001 0002 000B 0000 0034 0034"), PAPER_OFF(4, "0001 0002 000D 0000 0034 0034"),
    PAPER_OFF(10, "0001 0002 000C 0001 0034 0034"), PAPER_OFF(10, "0001 0002 000C 0001 0034 0044"),
    PAPER_OFF(8, "0001 0002 000C 0000 0033 0034"), PAPER_OFF(8, "0001 0002 000C 0000 0035 0034"),
    PAPER_OFF(10, "0001 0002 000C 0000 0034 0033"), PAPER_OFF(10, "0001 0002 000C 0000 0034 0035"),
    {"another length", "a byte over, and the header says so", "0001 0002 000C 0000 0034 0035 " EXAMPLE_EVENTS "00 ",
        NO_ANSWERS, BADPAPER_AT(10)},
    {"another length", "a byte over, and another version", "0000 0002 000C 0000 0034 0034 " EXAMPLE_EVENTS "00 ",
        NO_ANSWERS, BADPAPER_AT(0)},
    {"short and of another version", "a paper", "0002 0000 000C 0000 000C 00 ", NO_ANSWERS, BADPAPER_AT(11)},
    {"short and of another version", "a sheet", EXAMPLE, "0002 0000 00 ", BADSHEET_AT(5)},
    PAPER_OFF(8, "0001 0002 000C 0000 0035 0035"),
    /* right modulo 65,536; little-endian */
    PAPER_OFF(2, "0001 4002 000C 0000 0034 0034"), PAPER_OFF(6, "0001 0002 000C 1000 0034 0034"),
    PAPER_OFF(0, "0100 0200 0C00 0000 3400 3400"),
    SHEET_OFF(0, "0000 0002 0006"), SHEET_OFF(0, "0002 0002 0006"), SHEET_OFF(2, "0001 0001 0006"),
    SHEET_OFF(2, "0001 0003 0006"), SHEET_OFF(4, "0001 0002 0005"), SHEET_OFF(4, "0001 0002 0007"),
    SHEET_OFF(2, "0001 1002 0006"), SHEET_OFF(0, "0100 0200 0600"), SHEET_OFF(2, "0001 0003 0007"),
    {"sequence number", "the count", NAMES("02 00 0000", "0002 "), ONE_BLANK, MARK(0001,0001,0000,0000)},
    {"sequence number", "one above, in a call", NAMES("01 3E 0001", "0003 "), ONE_BLANK, BADPAPER_AT(30)},
    {"sequence number", "one above, in a tick", NAMES("02 00 0000", "0003 "), ONE_BLANK, BADPAPER_AT(30)},
    {"sequence number", "256, in an event of no kind", NAMES("09 00 0000", "0100 "), ONE_BLANK, BADPAPER_AT(30)},
    {"order of refusals", "bad paper, bad sheet", BAD_PAPER, BAD_SHEET, BADPAPER_AT(0)},
    {"order of refusals", "bad paper, good sheet", BAD_PAPER, EXAMPLE_KEY, BADPAPER_AT(0)},
    {"order of refusals", "blank paper, bad sheet", BLANK, BAD_SHEET, BRINEFEATHER_BLANK},
    {"order of refusals", "blank paper, null sheet", BLANK_SEQUENCES, NULL, BRINEFEATHER_BLANK},
    {"order of refusals", "good paper, bad sheet", EXAMPLE, BAD_SHEET, BADSHEET_AT(0)},
    {"limits", "1000 events, 64 sequences, 1000 answers", FULL, THOUSAND, MARK(03E8,03E8,0000,0000)},
    {"limits", "998 answers over", EXAMPLE, THOUSAND, MARK(0002,0001,0000,03E6)},
    {"limits", "1000 answers missing", FULL, NO_ANSWERS, MARK(03E8,0000,03E8,0000)},
    {"limits", "1001 answers", FULL, "0001 03E9 0006 " ZERO16 "*1001:16 ", BADSHEET_AT(2)},
    {"limits", "1001 events", "0001 03E9 000C 0040 4E40 5240 " TICKS("1001", "0040") SEQUENCES("64"), THOUSAND,
        BADPAPER_AT(2)},
    {"limits", "65 sequences", "0001 03E8 000C 0041 4E2C 523C " TICKS("1000", "0040") SEQUENCES("65"), THOUSAND,
        BADPAPER_AT(6)},
    {"limits", "65 of 64", FULL_HEADER TICKS("1000", "0041") SEQUENCES("64"), THOUSAND, BADPAPER_AT(30)},
    {"limits", "65 of 64, in the last event", FULL_HEADER TICKS("999", "0040") TICKS("1", "0041") SEQUENCES("64"),
        THOUSAND, BADPAPER_AT(20010)},
    {"limits", "blank, 64 sequences", "0001 0000 000C 0040 000C 040C " SEQUENCES("64"), NO_ANSWERS, BRINEFEATHER_BLANK},
    {"limits", "blank, 65 sequences", "0001 0000 000C 0041 000C 041C " SEQUENCES("65"), NO_ANSWERS, BADPAPER_AT(6)},
};

static const struct {
    const char *what, *paper, *key;
    uint64_t length;
} keys[] = {
    {"the example's", EXAMPLE, EXAMPLE_KEY, 38},
    {"two processes, a conflict", CONFLICT, CONFLICT_KEY, 166},
    {"a trap", TRAP, TRAP_KEY, 134},
    {"a tick that names a sequence", NAMES("02 00 0000", "0002 "), ONE_BLANK, 22},
    {"the longest", FULL, THOUSAND, 16006},
};

enum item { SEQUENCE, EVENT };

/* A call of the writer: what the buffer holds before it, and the paper that it begins with after it; none if refused. */
static const struct {
    const char *group, *what;
    enum item kind;
    uint64_t writer;
    const char *buffer, *item;
    uint64_t wanted;
    const char *paper;
} accepted[] = {
    {"paper by hand", "its sequence", SEQUENCE, 0, "", "5441424C 45", WRITER(001C,0000,0001), HAND_0},
    {"paper by hand", "event 1", EVENT, WRITER(001C,0000,0001), HAND_0, FSHELL, WRITER(0030,0001,0001), HAND_1},
    {"paper by hand", "event 2", EVENT, WRITER(0030,0001,0001), HAND_1, LOCK_2, WRITER(0044,0002,0001), HAND_2},
    {"paper by hand", "event 3", EVENT, WRITER(0044,0002,0001), HAND_2, TRY_1, WRITER(0058,0003,0001), HAND_3},
    {"paper by hand", "event 4", EVENT, WRITER(0058,0003,0001), HAND_3, LOCK_1, WRITER(006C,0004,0001), HAND_4},
    {"paper by hand", "event 5", EVENT, WRITER(006C,0004,0001), HAND_4, UNLOCK_2, WRITER(0080,0005,0001), HAND_5},
    {"paper by hand", "event 6", EVENT, WRITER(0080,0005,0001), HAND_5, REPORT_1, WRITER(0094,0006,0001), HAND_6},
    {"three sequences", "the third", SEQUENCE, WRITER(002C,0000,0002),
        "0001 0000 000C 0002 000C 002C 01020304 05060708 090A0B0C 0D0E0F10 11121314 15161718 191A1B1C 1D1E1F20 ",
        "21222324 25262728 292A2B2C 2D2E2F30", WRITER(003C,0000,0003), "0001 0000 000C 0003 000C 003C " THREE},
    {"three sequences", "event 1", EVENT, WRITER(003C,0000,0003), "0001 0000 000C 0003 000C 003C " THREE, LOCK_2,
        WRITER(0050,0001,0003), "0001 0001 000C 0003 0020 0050 " LOCK_2 THREE},
    {"three sequences", "event 2", EVENT, WRITER(0050,0001,0003), "0001 0001 000C 0003 0020 0050 " LOCK_2 THREE,
        TICK_NAMES("0003"), WRITER(0064,0002,0003), "0001 0002 000C 0003 0034 0064 " LOCK_2 TICK_NAMES("0003") THREE},
    {"first call", "an event, no sequence", EVENT, 0, "", TICK, WRITER(0020,0001,0000), ONE_TICK},
    {"first call", "over an old paper", EVENT, 0, HAND_6, TICK, WRITER(0020,0001,0000), ONE_TICK},
    {"first call", "over an old paper of version 2", SEQUENCE, 0, BAD_PAPER, TABLE, WRITER(001C,0000,0001), HAND_0},
    {"first call", "whatever the upper half", SEQUENCE, WRITER(FFFFFFFF,0000,0000), HAND_6, TABLE,
        WRITER(001C,0000,0001), HAND_0},
    {"upper half of the writer", "0", EVENT, WRITER(0000,0001,0001), HAND_1, LOCK_2, WRITER(0044,0002,0001), HAND_2},
    {"upper half of the writer", "all ones", EVENT, WRITER(FFFFFFFF,0001,0001), HAND_1, LOCK_2, WRITER(0044,0002,0001),
        HAND_2},
    {"upper half of the writer", "another length", EVENT, WRITER(001C,0001,0001), HAND_1, LOCK_2,
        WRITER(0044,0002,0001), HAND_2},
    {"upper half of the writer", "15 for a paper of 15 sequences", SEQUENCE, BRINEFEATHER_BADPAPER,
        "0001 0000 000C 000F 000C 00FC " SEQUENCES("15"), TABLE, WRITER(010C,0000,0010),
        "0001 0000 000C 0010 000C 010C " SEQUENCES("15") TABLE},
    {"items", "null sequence", SEQUENCE, 0, "", NULL, WRITER(001C,0000,0001), "0001 0000 000C 0001 000C 001C " ZERO16},
    {"items", "empty sequence", SEQUENCE, 0, "", "", WRITER(001C,0000,0001), "0001 0000 000C 0001 000C 001C " ZERO16},
    {"items", "a byte", SEQUENCE, WRITER(001C,0000,0001), HAND_0, "41", WRITER(002C,0000,0002),
        "0001 0000 000C 0002 000C 002C " TABLE "41000000 00000000 00000000 00000000"},
    {"items", "15 bytes", SEQUENCE, 0, "", "01020304 05060708 090A0B0C 0D0E0F", WRITER(001C,0000,0001),
        "0001 0000 000C 0001 000C 001C 01020304 05060708 090A0B0C 0D0E0F00"},
    {"items", "17 bytes", SEQUENCE, 0, "", "01020304 05060708 090A0B0C 0D0E0F10 11", WRITER(001C,0000,0001),
        "0001 0000 000C 0001 000C 001C 01020304 05060708 090A0B0C 0D0E0F10"},
    {"items", "null event", EVENT, 0, "", NULL, WRITER(0020,0001,0000),
        "0001 0001 000C 0000 0020 0020 00 00 0000 " ZERO16},
    {"items", "empty event", EVENT, WRITER(001C,0000,0001), HAND_0, "", WRITER(0030,0001,0001),
        "0001 0001 000C 0001 0020 0030 00 00 0000 " ZERO16 TABLE},
    {"items", "a tick of one byte", EVENT, 0, "", "02", WRITER(0020,0001,0000), ONE_TICK},
    {"items", "19 bytes, the number's lower byte missing", EVENT, 0, "",
        "01020304 05060708 090A0B0C 0D0E0F10 1112 00", WRITER(0020,0001,0000),
        "0001 0001 000C 0000 0020 0020 01020304 05060708 090A0B0C 0D0E0F10 1112 0000"},
    {"items", "21 bytes", EVENT, WRITER(001C,0000,0001), HAND_0, "FFFFFFFF FFFFFFFF FFFFFFFF FFFFFFFF FFFF 0001 FF",
        WRITER(0030,0001,0001), "0001 0001 000C 0001 0020 0030 FFFFFFFF FFFFFFFF FFFFFFFF FFFFFFFF FFFF 0001 " TABLE},
    {"items", "a thousand bytes", EVENT, 0, "", TICK "*50:20", WRITER(0020,0001,0000), ONE_TICK},
    {"sequence number", "the last sequence", EVENT, WRITER(040C,0000,0040), SEQUENCES_64, TICK_NAMES("0040"),
        WRITER(0420,0001,0040), "0001 0001 000C 0040 0020 0420 " TICK_NAMES("0040") SEQUENCES("64")},
    {"limits", "sequence 64", SEQUENCE, WRITER(03FC,0000,003F), SEQUENCES_63, ZERO16, WRITER(040C,0000,0040),
        SEQUENCES_64},
    {"limits", "event 1000", EVENT, WRITER(5218,03E7,0040), EVENTS_999, TICK_NAMES("0040"), WRITER(522C,03E8,0040),
        FULL},
    {"two and two", "the last name given", EVENT, WRITER(0054,0002,0002), TWO_EVENTS, TICK_NAMES("0002"),
        WRITER(0068,0003,0002), "0001 0003 000C 0002 0048 0068 " FIRST_OF_TWO TICK TICK_NAMES("0002") TWO_SEQUENCES},
    {"refusal as writer", "18, of a paper of 18 sequences", SEQUENCE, BRINEFEATHER_NOROOM,
        "0001 0000 000C 0012 000C 012C " SEQUENCES("18"), ZERO16, WRITER(013C,0000,0013),
        "0001 0000 000C 0013 000C 013C " SEQUENCES("19")},
    {"refusal as writer", "26, of a paper of 26 sequences", EVENT, BRINEFEATHER_ORDER,
        "0001 0000 000C 001A 000C 01AC " SEQUENCES("26"), TICK, WRITER(01C0,0001,001A),
        "0001 0001 000C 001A 0020 01C0 " TICK SEQUENCES("26")},
    {"changed buffer", "another sequence, another event", EVENT, WRITER(0044,0002,0001),
        "0001 0002 000C 0001 0034 0044 " REPORT_1 TICK_NAMES("0001") "FFFFFFFF FFFFFFFF FFFFFFFF FFFFFFFF ", FSHELL,
        WRITER(0058,0003,0001), "0001 0003 000C 0001 0048 0058 " REPORT_1 TICK_NAMES("0001") FSHELL
        "FFFFFFFF FFFFFFFF FFFFFFFF FFFFFFFF "},
};

/* With room for anything, if no room is given. */
static const struct {
    const char *group, *what;
    enum item kind;
    uint64_t writer;
    const char *buffer;
    size_t room;
    const char *item;
    unsigned wanted;
} refused[] = {
    {"order", "a sequence after an event", SEQUENCE, WRITER(0030,0001,0001), HAND_1, 0, TABLE, BRINEFEATHER_ORDER},
    {"order", "a sequence after an event, none before", SEQUENCE, WRITER(0020,0001,0000), ONE_TICK, 0, TABLE,
        BRINEFEATHER_ORDER},
    {"order", "an event names 1 of none", EVENT, 0, "", 0, TICK_NAMES("0001"), BRINEFEATHER_ORDER},
    {"order", "an event names 2 of 1", EVENT, WRITER(001C,0000,0001), HAND_0, 0, TICK_NAMES("0002"), BRINEFEATHER_ORDER},
    {"order", "an event names 256 of 1", EVENT, WRITER(0030,0001,0001), HAND_1, 0, TICK_NAMES("0100"),
        BRINEFEATHER_ORDER},
    {"order", "the number's upper byte only", EVENT, WRITER(001C,0000,0001), HAND_0, 0,
        "02000000 00000000 00000000 00000000 0000 01", BRINEFEATHER_ORDER},
    {"order", "an event names 65,535 of 64", EVENT, WRITER(040C,0000,0040), SEQUENCES_64, 0, TICK_NAMES("FFFF"),
        BRINEFEATHER_ORDER},
    {"full", "sequence 65", SEQUENCE, WRITER(040C,0000,0040), SEQUENCES_64, 0, TABLE, BRINEFEATHER_FULL},
    {"full", "event 1001", EVENT, WRITER(522C,03E8,0040), FULL, 0, TICK, BRINEFEATHER_FULL},
    {"noroom", "a null buffer, a sequence", SEQUENCE, 0, NULL, 0, TABLE, BRINEFEATHER_NOROOM},
    {"noroom", "a null buffer, an event", EVENT, 0, NULL, 0, TICK, BRINEFEATHER_NOROOM},
    {"noroom", "the buffer is just the old paper's", EVENT, WRITER(0030,0001,0001), HAND_1, 48, TICK,
        BRINEFEATHER_NOROOM},
    {"badpaper", "a null buffer", EVENT, WRITER(0000,0001,0000), NULL, 0, TICK, BRINEFEATHER_BADPAPER},
    {"badpaper", "anything in the buffer", EVENT, WRITER(0030,0001,0001), "", 0, TICK, BRINEFEATHER_BADPAPER},
    {"badpaper", "an event more than the writer's", EVENT, WRITER(0030,0001,0001), HAND_2, 0, TICK,
        BRINEFEATHER_BADPAPER},
    {"badpaper", "an event fewer than the writer's", EVENT, WRITER(0058,0003,0001), HAND_2, 0, TICK,
        BRINEFEATHER_BADPAPER},
    {"badpaper", "the counts changed round", EVENT, WRITER(0034,0001,0002), HAND_2, 0, TICK, BRINEFEATHER_BADPAPER},
    {"badpaper", "5 sequences, and the writer's 4 events are as long", EVENT, WRITER(005C,0004,0000),
        "0001 0000 000C 0005 000C 005C " SEQUENCES("5"), 0, TICK, BRINEFEATHER_BADPAPER},
    {"badpaper", "4 events, and the writer's 5 sequences are as long", SEQUENCE, WRITER(005C,0000,0005),
        "0001 0004 000C 0000 005C 005C " TICKS("4", "0000"), 0, TABLE, BRINEFEATHER_BADPAPER},
    {"badpaper", "a blank paper", SEQUENCE, WRITER(001C,0000,0001), BLANK, 0, TABLE, BRINEFEATHER_BADPAPER},
    {"badpaper", "65 sequences, all else sound", SEQUENCE, WRITER(041C,0000,0041), SEQUENCES_65, 0, TABLE,
        BRINEFEATHER_BADPAPER},
    {"badpaper", "1001 events, all else sound", EVENT, WRITER(5240,03E9,0040), EVENTS_1001, 0, TICK,
        BRINEFEATHER_BADPAPER},
    {"badpaper", "the most that a writer can say", EVENT, UINT64_MAX, FULL, 0, TICK, BRINEFEATHER_BADPAPER},
    {"badpaper", "the first event's sequence number", EVENT, WRITER(522C,03E8,0040),
        FULL_HEADER TICKS("1", "0041") TICKS("999", "0040") SEQUENCES("64"), 0, TICK, BRINEFEATHER_BADPAPER},
    {"badpaper", "the last event's sequence number", EVENT, WRITER(522C,03E8,0040),
        FULL_HEADER TICKS("999", "0040") TICKS("1", "0041") SEQUENCES("64"), 0, TICK, BRINEFEATHER_BADPAPER},
    {"two and two", "a name not given", EVENT, WRITER(0054,0002,0002), TWO_EVENTS, 0, TICK_NAMES("0003"),
        BRINEFEATHER_ORDER},
    {"two and two", "a name not given, into a full buffer", EVENT, WRITER(0054,0002,0002), TWO_EVENTS, 84,
        TICK_NAMES("0003"), BRINEFEATHER_ORDER},
    {"two and two", "a sequence more than the writer's", EVENT, WRITER(0044,0002,0001), TWO_EVENTS, 0, TICK,
        BRINEFEATHER_BADPAPER},
    {"two and two", "a sequence fewer than the writer's", EVENT, WRITER(0064,0002,0003), TWO_EVENTS, 0, TICK,
        BRINEFEATHER_BADPAPER},
    {"refusal as writer", "15", EVENT, BRINEFEATHER_BADPAPER, HAND_1, 0, TICK, BRINEFEATHER_BADPAPER},
    {"refusal as writer", "18", EVENT, BRINEFEATHER_NOROOM, HAND_1, 0, TICK, BRINEFEATHER_BADPAPER},
    {"refusal as writer", "20", SEQUENCE, BRINEFEATHER_FULL, SEQUENCES_64, 0, TABLE, BRINEFEATHER_BADPAPER},
    {"refusal as writer", "26", SEQUENCE, BRINEFEATHER_ORDER, HAND_1, 0, TABLE, BRINEFEATHER_BADPAPER},
    {"refusal as writer", "badpaper at 10", EVENT, BADPAPER_AT(10), HAND_1, 0, TICK, BRINEFEATHER_BADPAPER},
    {"two at once", "15 and 26, a sequence", SEQUENCE, WRITER(0034,0002,0000), BAD_PAPER, 0, TABLE,
        BRINEFEATHER_BADPAPER},
    {"two at once", "15 and 26, an event", EVENT, WRITER(0034,0002,0000), BAD_PAPER, 0, TICK_NAMES("0009"),
        BRINEFEATHER_BADPAPER},
    {"two at once", "15 and 20, a sequence", SEQUENCE, WRITER(040C,0000,0040),
        "0002 0000 000C 0040 000C 040C " SEQUENCES("64"), 0, TABLE, BRINEFEATHER_BADPAPER},
    {"two at once", "15 and 20, an event", EVENT, WRITER(522C,03E8,0040),
        FULL_HEADER TICKS("999", "0040") TICKS("1", "0041") SEQUENCES("64"), 0, TICK, BRINEFEATHER_BADPAPER},
    {"two at once", "15 and 18, an event", EVENT, WRITER(0034,0002,0000), BAD_PAPER, 52, TICK, BRINEFEATHER_BADPAPER},
    {"two at once", "15 and 18, a sequence", SEQUENCE, WRITER(001C,0000,0001), "0001 0000 000C 0001 000C 001D " TABLE,
        28, TABLE, BRINEFEATHER_BADPAPER},
    {"two at once", "26 and 20, a sequence", SEQUENCE, WRITER(0420,0001,0040), TICK_AND_64, 0, TABLE,
        BRINEFEATHER_ORDER},
    {"two at once", "26 and 20, an event", EVENT, WRITER(522C,03E8,0040), FULL, 0, TICK_NAMES("0041"),
        BRINEFEATHER_ORDER},
    {"two at once", "26 and 18, a sequence after an event into a full buffer", SEQUENCE, WRITER(0030,0001,0001), HAND_1,
        48, TABLE, BRINEFEATHER_ORDER},
    {"two at once", "26 and 18, an event", EVENT, WRITER(0030,0001,0001), HAND_1, 48, TICK_NAMES("0002"),
        BRINEFEATHER_ORDER},
    {"two at once", "26 and 18, a null buffer", EVENT, 0, NULL, 0, TICK_NAMES("0001"), BRINEFEATHER_ORDER},
    {"two at once", "20 and 18, event 1001 without room", EVENT, WRITER(522C,03E8,0040), FULL, 21036, TICK,
        BRINEFEATHER_FULL},
    {"two at once", "20 and 18, sequence 65 without room", SEQUENCE, WRITER(040C,0000,0040), SEQUENCES_64, 1036, TABLE,
        BRINEFEATHER_FULL},
    {"three at once", "26, 20 and 18, a sequence", SEQUENCE, WRITER(0420,0001,0040), TICK_AND_64, 1056, TABLE,
        BRINEFEATHER_ORDER},
    {"three at once", "26, 20 and 18, an event", EVENT, WRITER(522C,03E8,0040), FULL, 21036, TICK_NAMES("0041"),
        BRINEFEATHER_ORDER},
    {"all four at once", "an event", EVENT, WRITER(522C,03E8,0040),
        FULL_HEADER TICKS("999", "0040") TICKS("1", "0041") SEQUENCES("64"), 21036, TICK_NAMES("0041"),
        BRINEFEATHER_BADPAPER},
};

/* A paper that was written is read: its events are the writer's, or it has none yet. */
static void read_back(const struct file *paper, uint64_t writer)
{
    const struct file sheet = hex(NO_ANSWERS, sheet_store);
    const uint64_t events = brinefeather_paper_events(writer), n = mark(paper, &sheet);

    check("the writer's length", brinefeather_paper_length(writer), paper->len);
    check("the paper read", n, events ? events << 48 | events << 16 : BRINEFEATHER_BLANK);
}

struct call {
    enum item kind;
    uint64_t writer;
    struct file holds, item;
};

static struct call read_call(enum item kind, uint64_t writer, const char *holds, const char *item)
{
    return (struct call){kind, writer, hex(holds, paper_store), hex(item, item_store)};
}

/* What stands in the buffer behind what it holds: from byte to byte and from call to call something else. */
static void fill_behind(size_t held, int again)
{
    for (size_t i = held; i < ENOUGH; i++)
        paper_store[i] = (uint8_t)(again ? 251 * i + 7 : 37 * i + 101);
}

/* Only the wanted paper may be written. */
static void add(const char *what, const struct call *c, size_t room, uint64_t number, const struct file *wanted)
{
    for (int again = 0; again < 2; again++) {
        const struct file buffer = {c->holds.bytes, room, 0};
        struct area b, i;
        const uint8_t *item = lend(&i, &c->item, again);
        uint8_t *paper;
        uint64_t n;

        fill_behind(c->holds.len, again);
        paper = lend(&b, &buffer, again);
        n = c->kind == EVENT ? brinefeather_add_event(c->writer, paper, room, item, c->item.len)
                             : brinefeather_add_sequence(c->writer, paper, room, item, c->item.len);
        check(what, n, number);
        check(what, memcmp(b.now + b.start, wanted->bytes, wanted->len) == 0, 1);
        take_back(&i, 0, "the item and its guards as they were");
        take_back(&b, wanted->len, "all but the paper as it was");
    }
}

static void refuse(const char *what, const struct call *c, size_t room, unsigned number)
{
    static const struct file none = {wanted_store, 0, 0};

    add(what, c, room, number, &none);
}

/* In a buffer one byte short, exactly long enough, and longer. */
static void play_accepted(void)
{
    for (size_t i = 0; i < COUNT(accepted); i++) {
        const struct call c = read_call(accepted[i].kind, accepted[i].writer, accepted[i].buffer, accepted[i].item);
        const struct file wanted = hex(accepted[i].paper, wanted_store);

        begin(accepted[i].group);
        refuse("one byte short", &c, wanted.len - 1, BRINEFEATHER_NOROOM);
        add(accepted[i].what, &c, wanted.len, accepted[i].wanted, &wanted);
        add(accepted[i].what, &c, wanted.len + 1, accepted[i].wanted, &wanted);
        add(accepted[i].what, &c, ENOUGH, accepted[i].wanted, &wanted);
        read_back(&wanted, accepted[i].wanted);
    }
}

static void play_refused(void)
{
    for (size_t i = 0; i < COUNT(refused); i++) {
        const struct call c = read_call(refused[i].kind, refused[i].writer, refused[i].buffer, refused[i].item);
        const size_t enough = refused[i].buffer ? ENOUGH : 0;

        begin(refused[i].group);
        refuse(refused[i].what, &c, refused[i].room ? refused[i].room : enough, refused[i].wanted);
    }
}

/* A buffer shorter than the writer's paper does not begin with it, though the bytes are there. */
static void buffers_too_short(void)
{
    const struct call c = read_call(EVENT, WRITER(0044,0002,0001), HAND_2, TICK);

    begin("buffer shorter than the paper");
    for (size_t room = 0; room < 68 + 20; room++)
        refuse("without room", &c, room, room < 68 ? BRINEFEATHER_BADPAPER : BRINEFEATHER_NOROOM);
}

/* Badpaper and blank come before anything about the sheet or the buffer. */
static void check_no_key(const struct file *paper, uint64_t refusal)
{
    static const size_t room[] = {0, 5, 38, 16006};
    struct file written;

    for (size_t i = 0; i < COUNT(room); i++)
        check("no key", key(paper, &(struct file){NULL, room[i], 0}, &written), refusal);
}

static void play_marks(void)
{
    for (size_t i = 0; i < COUNT(marks); i++) {
        const struct file paper = hex(marks[i].paper, paper_store), sheet = hex(marks[i].sheet, sheet_store);
        const unsigned refusal = (unsigned)marks[i].mark & 0xFFFF;

        begin(marks[i].group);
        check(marks[i].what, mark(&paper, &sheet), marks[i].mark);
        if (refusal == BRINEFEATHER_BADPAPER || refusal == BRINEFEATHER_BLANK)
            check_no_key(&paper, marks[i].mark);
    }
}

/* In every room: none (a null pointer too), one byte short, exactly its own, more. The longest not in all of them. */
static void play_keys(void)
{
    begin("keys");
    for (size_t i = 0; i < COUNT(keys); i++) {
        const struct file paper = hex(keys[i].paper, paper_store), wanted = hex(keys[i].key, wanted_store);
        struct file written, room = {NULL, wanted.len < 200 ? 0 : wanted.len - 20, 0};

        check("empty buffer", key(&paper, &(struct file){wanted_store, 0, 0}, &written), BRINEFEATHER_NOROOM);
        for (; room.len < wanted.len; room.len++)
            check("short of room", key(&paper, &room, &written), BRINEFEATHER_NOROOM);
        for (; room.len < wanted.len + 20; room.len++) {
            check(keys[i].what, key(&paper, &room, &written), keys[i].length);
            check(keys[i].what, memcmp(written.bytes, wanted.bytes, wanted.len) == 0, 1);
        }
    }
}

static void flip(uint8_t *bytes, size_t bit)
{
    bytes[bit / 8] ^= (uint8_t)(1u << bit % 8);
}

static void wrong_bits(void)
{
    const struct file paper = hex(EXAMPLE, paper_store), sheet = hex(EXAMPLE_KEY, sheet_store);

    begin("one bit of an answer wrong");
    for (size_t bit = 8 * 6; bit < 8 * sheet.len; bit++) {
        flip(sheet_store, bit);
        check("of two", mark(&paper, &sheet), MARK(0002,0001,0000,0000));
        flip(sheet_store, bit);
    }
}

/* Every proper prefix, with the rest behind it; one byte over, and 65,536. */
static void paper_lengths(const char *name, const char *text)
{
    const struct file sheet = hex(NO_ANSWERS, sheet_store), whole = hex(text, paper_store);

    begin(name);
    for (size_t len = 0; len <= whole.len + 65536; len += len == whole.len + 1 ? 65535 : 1) {
        const struct file paper = {paper_store, len, len < whole.len ? whole.len - len : 0};

        if (len == whole.len)
            continue;
        check("another length", mark(&paper, &sheet), BADPAPER_AT(len < 12 ? len : 10));
        check_no_key(&paper, BADPAPER_AT(len < 12 ? len : 10));
    }
}

static void sheet_lengths(const char *name, const char *text)
{
    const struct file paper = hex(EXAMPLE, paper_store), whole = hex(text, sheet_store);

    begin(name);
    for (size_t len = 0; len <= whole.len + 65536; len += len == whole.len + 1 ? 65535 : 1) {
        const struct file sheet = {sheet_store, len, len < whole.len ? whole.len - len : 0};

        if (len != whole.len)
            check("another length", mark(&paper, &sheet), BADSHEET_AT(len < 6 ? len : 2));
    }
}

static unsigned number_at(const uint8_t *file, size_t at)
{
    return (unsigned)file[at] << 8 | file[at + 1];
}

static void put_number(uint8_t *file, size_t at, unsigned number)
{
    file[at] = (uint8_t)(number >> 8);
    file[at + 1] = (uint8_t)number;
}

/* Two fields broken, or twice the same: the first in file order is told. 65,535 breaks the rule of every field. */
static void break_two(const struct file *paper, const struct file *sheet, uint8_t *store, size_t first, size_t second)
{
    const unsigned then[] = {number_at(store, first), number_at(store, second)};

    put_number(store, first, 65535);
    put_number(store, second, 65535);
    if (store == sheet_store)
        check("two fields of a sheet", mark(paper, sheet), BADSHEET_AT(first));
    else {
        check("two fields of a paper", mark(paper, sheet), BADPAPER_AT(first));
        check_no_key(paper, BADPAPER_AT(first));
    }
    put_number(store, second, then[1]);
    put_number(store, first, then[0]);
}

static size_t paper_field(size_t i)
{
    return i < 6 ? 2 * i : 12 + 20 * (i - 6) + 18;
}

static void two_of_paper(void)
{
    const struct file paper = hex(CONFLICT, paper_store), sheet = hex(CONFLICT_KEY, sheet_store);
    const size_t fields = 6 + 10;

    begin("each field of a paper broken, and each two");
    for (size_t pair = 0; pair < fields * fields; pair++)
        if (pair / fields <= pair % fields)
            break_two(&paper, &sheet, paper_store, paper_field(pair / fields), paper_field(pair % fields));
}

static void two_of_sheet(void)
{
    const struct file paper = hex(CONFLICT, paper_store), sheet = hex(CONFLICT_KEY, sheet_store);

    begin("each field of a sheet broken, and each two");
    for (size_t pair = 0; pair < 3 * 3; pair++)
        if (pair / 3 <= pair % 3)
            break_two(&paper, &sheet, sheet_store, 2 * (pair / 3), 2 * (pair % 3));
}

/* A paper with one bit flipped in this byte. A count that is legal still breaks the field that hangs on it. */
static uint64_t flipped(const uint8_t *paper, size_t at, size_t events, uint64_t sound)
{
    const size_t field = at / 2 * 2;
    const unsigned number = number_at(paper, field);

    if (field == 2)
        return BADPAPER_AT(number > 1000 ? 2 : 8);
    if (field == 6)
        return BADPAPER_AT(number > 64 ? 6 : 10);
    if (field < 12)
        return BADPAPER_AT(field);
    if (at < 12 + 20 * events && (field - 12) % 20 == 18 && number > number_at(paper, 6))
        return BADPAPER_AT(field);
    return sound;
}

/* Each bit of a header counts, and what is no header and no sequence number is not layout. */
static void flipped_bits(const char *name, const char *text, size_t events, uint64_t sound)
{
    const struct file paper = hex(text, paper_store), sheet = hex(NO_ANSWERS, sheet_store), room = {NULL, 166, 0};
    struct file written;

    begin(name);
    for (size_t bit = 0; bit < 8 * paper.len; bit++) {
        uint64_t m, k, wanted;

        flip(paper_store, bit);
        wanted = flipped(paper_store, bit / 8, events, sound);
        m = mark(&paper, &sheet);
        k = key(&paper, &room, &written);
        check("by its place", brinefeather_refused(m) ? m : 0, wanted);
        check("key by mark", k, wanted ? wanted : brinefeather_key_length(brinefeather_total(m)));
        flip(paper_store, bit);
    }
}

/* One bit changed between two calls: layout must not be, events and sequences may be, and stay changed. */
static void changed_bits(void)
{
    const struct call c = read_call(EVENT, WRITER(0058,0003,0001), HAND_3, LOCK_1);

    begin("one bit of the buffer changed between two calls");
    for (size_t bit = 0; bit < 8 * c.holds.len; bit++) {
        const struct file wanted = hex(HAND_4, wanted_store);

        flip(paper_store, bit);
        if (flipped(paper_store, bit / 8, 3, 0))
            refuse("layout", &c, ENOUGH, BRINEFEATHER_BADPAPER);
        else {
            flip(wanted_store, bit < 8 * 72 ? bit : bit + 8 * 20); /* the sequence moves up */
            add("no layout", &c, ENOUGH, WRITER(006C,0004,0001), &wanted);
        }
        flip(paper_store, bit);
    }
}

int main(void)
{
    refusals_apart();
    key_lengths_apart();
    paper_lengths_apart();
    marks_apart();
    writers_apart();
    refusal_names();
    play_marks();
    play_keys();
    play_accepted();
    play_refused();
    buffers_too_short();
    changed_bits();
    wrong_bits();
    two_of_paper();
    two_of_sheet();
    paper_lengths("paper cut or lengthened", EXAMPLE);
    sheet_lengths("sheet cut or lengthened", NO_ANSWERS);
    sheet_lengths("key as sheet cut or lengthened", EXAMPLE_KEY);
    flipped_bits("one bit of the example flipped", EXAMPLE, 2, 0);
    flipped_bits("one bit of a conflict flipped", CONFLICT, 10, 0);
    flipped_bits("one bit of a blank paper flipped", BLANK_SEQUENCES, 0, BRINEFEATHER_BLANK);
    begin("");
    printf("vectors: %u checks, %u wrong\n", checks, wrong);
    return wrong != 0;
}
