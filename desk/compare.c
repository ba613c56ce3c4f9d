/*
 * Plays generated papers, their sheets and damaged files through the archive's routines and through the plain ones, has
 * each paper written by both (compare-writer.c), and compares every byte. Usage: compare PAPERS SEED. Fails too when an
 * answer, refusal, call, edge or situation that can be reached was not: 600 papers reach all of them. Either maker may
 * be wrong, so nothing that a routine returns is taken for a length here, nor for an offset unless the file is long
 * enough.
 */
#include <inttypes.h>
#include <stdio.h>
#include <stdlib.h>
#include <string.h>
#include "brinefeather.h"
#include "compare.h"
#include "generate.h"
#include "observe.h"
#include "plain.h"

#define COUNT(list) (sizeof (list) / sizeof (list)[0])
#define ONE_OF(list) ((list)[below(COUNT(list))])

enum { PAPER_HEADER = 12, EVENT = 20, SHEET_HEADER = 6, ANSWER = 16, MOST = 1000 };
enum { MOST_SEQUENCES = 64, OVER = 65536, STORE = BRINEFEATHER_LONGEST_PAPER + OVER + 24 };
enum { GUARD = 64, BEHIND = BRINEFEATHER_LONGEST_KEY }; /* around a buffer; a whole key fits behind it */
enum { SHEETS = 2, DAMAGED_PAPERS = 6 }; /* of each paper; a damaged sheet comes with each */
enum { OWN_LENGTH = 1 }; /* in a list of fields, which all have even offsets */

struct file {
    uint8_t bytes[STORE];
    size_t len;
};

static const char *kind; /* of the paper that is played */
static uint64_t refusals[BRINEFEATHER_REFUSALS + 1], papers, events_played, damaged, items_written, different;

/* ---- chance and files ---- */

static uint64_t draw(void)
{
    return generate_draw();
}

static uint16_t below(size_t n)
{
    return generate_below(n);
}

static int one_in(size_t n)
{
    return generate_one_in(n);
}

static unsigned get16(const uint8_t *at)
{
    return at[0] * 256u + at[1];
}

static void put16(uint8_t *at, size_t n)
{
    at[0] = (uint8_t)(n >> 8);
    at[1] = (uint8_t)n;
}

static size_t event_count(const struct file *paper)
{
    return get16(paper->bytes + 2);
}

static void copy(struct file *to, const struct file *from)
{
    memcpy(to->bytes, from->bytes, from->len);
    to->len = from->len;
}

static void put_sheet_header(struct file *sheet, size_t answers)
{
    put16(sheet->bytes, 1);
    put16(sheet->bytes + 2, answers);
    put16(sheet->bytes + 4, SHEET_HEADER);
    sheet->len = SHEET_HEADER + ANSWER * answers;
}

/* The first so many events of a paper, with all its sequences. */
static void keep_events(struct file *paper, size_t events)
{
    const size_t old_start = get16(paper->bytes + 8), size = get16(paper->bytes + 10) - old_start;
    const size_t start = PAPER_HEADER + EVENT * events;

    put16(paper->bytes + 2, events);
    put16(paper->bytes + 8, start);
    put16(paper->bytes + 10, start + size);
    memmove(paper->bytes + start, paper->bytes + old_start, size);
    paper->len = start + size;
}

/* ---- the two side by side ---- */

void compare_differ(const char *what, uint64_t ours, uint64_t plains)
{
    if (different++ < 20)
        printf("DIFFERENT paper %" PRIu64 " (%s), %s: %016" PRIX64 ", plain %016" PRIX64 "\n", papers, kind, what,
               ours, plains);
}

static uint8_t *block(size_t len)
{
    uint8_t *bytes = malloc(len ? len : 1);

    if (!bytes)
        abort();
    return bytes;
}

/* A copy with nothing behind it, so that a memory checker sees a read too far. Empty may be a null pointer. */
static uint8_t *lend(const struct file *f)
{
    uint8_t *bytes = f->len || one_in(2) ? block(f->len) : NULL;

    if (bytes)
        memcpy(bytes, f->bytes, f->len);
    return bytes;
}

static void take_back(const char *what, uint8_t *bytes, const struct file *f)
{
    if (bytes && memcmp(bytes, f->bytes, f->len) != 0)
        compare_differ(what, 0, 1);
    free(bytes);
}

void compare_count_refusal(uint64_t n)
{
    const unsigned number = brinefeather_refused(n);

    if (number < COUNT(refusals))
        refusals[number]++;
}

static void saw(enum observe_situation situation, int condition)
{
    if (condition)
        observe_saw(situation);
}

/* Beside a paper that is good. */
static int bad_sheet(const struct file *sheet)
{
    static const uint8_t good[PAPER_HEADER + EVENT] = {0, 1, 0, 1, 0, 12, 0, 0, 0, 32, 0, 32, 2};

    return brinefeather_refused(plain_mark(good, sizeof good, sheet->bytes, sheet->len)) == R_BADSHEET;
}

/* ---- where files are broken ---- */

static size_t length_by_counts(const struct file *paper)
{
    return PAPER_HEADER + EVENT * event_count(paper) + SEQ * get16(paper->bytes + 6);
}

/* Makes the field there keep its rule, if the rest of the file says how: of a count it does not. */
static int mend(struct file *paper, size_t at)
{
    const size_t length = length_by_counts(paper);

    if (at == 2 || at == 6 || at > paper->len - 2)
        return 0;
    switch (at) {
    case 0: put16(paper->bytes, 1); break;
    case 4: put16(paper->bytes + 4, PAPER_HEADER); break;
    case 8: put16(paper->bytes + 8, PAPER_HEADER + EVENT * event_count(paper)); break;
    case 10: put16(paper->bytes + 10, length); paper->len = paper->len > length ? length : paper->len; break;
    default: put16(paper->bytes + at, 0); break;
    }
    return 1;
}

/* Is another field broken, behind the one that was told? Then that one is told when the first has been mended. */
static void see_two_broken(const struct file *paper, size_t at)
{
    static struct file mended;
    uint64_t n;
    size_t next;

    copy(&mended, paper);
    if (!mend(&mended, at))
        return;
    n = plain_mark(mended.bytes, mended.len, NULL, 0);
    next = brinefeather_offset(n);
    if (brinefeather_refused(n) != R_BADPAPER || next <= at)
        return;
    saw(OBSERVE_PAPER_TWO, next < PAPER_HEADER);
    saw(OBSERVE_PAPER_VERSION_LENGTH, at == 0 && next == 10);
    saw(OBSERVE_PAPER_HEADER_EVENT, at < 10 && next >= PAPER_HEADER);
    saw(OBSERVE_PAPER_LENGTH_EVENT, at == 10 && next >= PAPER_HEADER);
    saw(OBSERVE_PAPER_TWO_EVENTS, at >= PAPER_HEADER);
}

/* Told at 10. */
static void see_broken_length(const struct file *paper)
{
    const size_t length = length_by_counts(paper), field = get16(paper->bytes + 10);

    saw(OBSERVE_PAPER_LENGTH, field != length && paper->len == length);
    saw(OBSERVE_PAPER_COUNTS, field != length && paper->len == field);
    saw(OBSERVE_PAPER_CUT, field == length && paper->len < length);
    saw(OBSERVE_PAPER_LONG, field == length && paper->len > length);
    saw(OBSERVE_PAPER_OVER, field == length && paper->len == length + OVER);
}

static void see_broken_event(const struct file *paper, size_t at)
{
    const size_t events = event_count(paper);

    saw(OBSERVE_PAPER_EVENT, at < PAPER_HEADER + EVENT * events);
    saw(OBSERVE_PAPER_LAST_EVENT, events > 1 && at + 2 == PAPER_HEADER + EVENT * events);
    saw(OBSERVE_PAPER_EVENT_1000, events == MOST && at == 20010);
}

static void see_broken_paper(const struct file *paper, size_t at)
{
    if (paper->len < PAPER_HEADER) {
        saw(OBSERVE_PAPER_SHORT, at == paper->len);
        saw(OBSERVE_PAPER_SHORT_VERSION, at == paper->len && at > 1 && get16(paper->bytes) != 1);
        return;
    }
    saw(OBSERVE_PAPER_VERSION, at == 0);
    saw(OBSERVE_PAPER_EVENTS, at == 2);
    saw(OBSERVE_PAPER_EVENT_OFFSET, at == 4);
    saw(OBSERVE_PAPER_SEQUENCES, at == 6);
    saw(OBSERVE_PAPER_SEQUENCE_OFFSET, at == 8);
    if (at == 10)
        see_broken_length(paper);
    if (at >= PAPER_HEADER)
        see_broken_event(paper, at);
    see_two_broken(paper, at);
}

static void see_broken_sheet(const struct file *sheet, size_t at)
{
    const size_t answers = get16(sheet->bytes + 2), length = SHEET_HEADER + ANSWER * answers;
    const int other_length = sheet->len != length, other_offset = get16(sheet->bytes + 4) != SHEET_HEADER;

    if (sheet->len < SHEET_HEADER) {
        saw(OBSERVE_SHEET_SHORT, at == sheet->len);
        saw(OBSERVE_SHEET_SHORT_VERSION, at == sheet->len && at > 1 && get16(sheet->bytes) != 1);
        return;
    }
    saw(OBSERVE_SHEET_VERSION, at == 0);
    saw(OBSERVE_SHEET_RANGE, at == 2 && answers > MOST);
    saw(OBSERVE_SHEET_RANGE_ONLY, at == 2 && answers > MOST && !other_length);
    saw(OBSERVE_SHEET_CUT, at == 2 && answers <= MOST && sheet->len < length);
    saw(OBSERVE_SHEET_LONG, at == 2 && answers <= MOST && sheet->len > length);
    saw(OBSERVE_SHEET_OVER, at == 2 && answers <= MOST && sheet->len == length + OVER);
    saw(OBSERVE_SHEET_OFFSET, at == 4);
    saw(OBSERVE_SHEET_VERSION_LENGTH, at == 0 && other_length);
    saw(OBSERVE_SHEET_VERSION_OFFSET, at == 0 && other_offset);
    saw(OBSERVE_SHEET_LENGTH_OFFSET, at == 2 && answers <= MOST && other_offset);
}

static void see_refusal(uint64_t n, const struct file *paper, const struct file *sheet)
{
    const unsigned number = brinefeather_refused(n);

    saw(OBSERVE_BAD_BOTH, number == R_BADPAPER && bad_sheet(sheet));
    saw(OBSERVE_BLANK_SHEET, number == R_BLANK && bad_sheet(sheet));
    if (number == R_BADPAPER)
        see_broken_paper(paper, brinefeather_offset(n));
    if (number == R_BADSHEET)
        see_broken_sheet(sheet, brinefeather_offset(n));
}

static void see_mark(uint64_t mark)
{
    const unsigned total = brinefeather_total(mark), right = brinefeather_right(mark);
    const unsigned missing = brinefeather_missing(mark), surplus = brinefeather_surplus(mark);

    saw(OBSERVE_PERFECT, brinefeather_perfect(mark));
    saw(OBSERVE_NONE_RIGHT, right == 0 && missing < total);
    saw(OBSERVE_MISSING, missing != 0);
    saw(OBSERVE_SURPLUS, surplus != 0);
    saw(OBSERVE_RIGHT_SURPLUS, right == total && surplus != 0);
    saw(OBSERVE_EMPTY_SHEET, missing == total);
}

static uint64_t compare_marks(const char *what, const struct file *paper, const struct file *sheet)
{
    uint8_t *p = lend(paper), *s = lend(sheet);
    uint64_t ours = brinefeather_mark(p, paper->len, s, sheet->len);
    uint64_t plains = plain_mark(p, paper->len, s, sheet->len);

    if (ours != plains)
        compare_differ(what, ours, plains);
    take_back("paper written", p, paper);
    take_back("sheet written", s, sheet);
    compare_count_refusal(plains);
    if (brinefeather_refused(plains))
        see_refusal(plains, paper, sheet);
    else
        see_mark(plains);
    return ours;
}

static int all(const uint8_t *bytes, size_t len, uint8_t value)
{
    for (size_t i = 0; i < len; i++)
        if (bytes[i] != value)
            return 0;
    return 1;
}

/* Are the bytes around the buffer, and those of the buffer after a key of n bytes, as they were? */
static int kept(const uint8_t *area, size_t room, uint64_t n, uint8_t guard)
{
    size_t written = brinefeather_refused(n) ? 0 : (size_t)n;

    return all(area, GUARD, guard) && written <= room && all(area + GUARD + written, room - written + BEHIND, guard);
}

static void show(const char *what, const uint8_t *bytes, size_t len)
{
    printf("    %s", what);
    for (size_t i = 0; i < len; i++)
        printf("%s%02X", i % 4 ? "" : " ", bytes[i]);
    putchar('\n');
}

/* The event and its two answers, if the byte is of an answer. */
static void show_event(const struct file *paper, const uint8_t *ours, const uint8_t *plains, size_t size, size_t at)
{
    const size_t start = GUARD + SHEET_HEADER, event = at < start ? MOST : (at - start) / ANSWER;

    if (event >= event_count(paper) || start + ANSWER * (event + 1) > size || different > 20)
        return;
    show("event ", paper->bytes + PAPER_HEADER + EVENT * event, EVENT);
    show("answer", ours + start + ANSWER * event, ANSWER);
    show("plain ", plains + start + ANSWER * event, ANSWER);
}

static void compare_bytes(const char *what, const struct file *paper, const uint8_t *ours, const uint8_t *plains,
                          size_t size)
{
    char place[100];
    size_t i = 0;

    while (i < size && ours[i] == plains[i])
        i++;
    if (i == size)
        return;
    snprintf(place, sizeof place, "%s, byte %zu of guard %d and buffer", what, i, GUARD);
    compare_differ(place, ours[i], plains[i]);
    show_event(paper, ours, plains, size, i);
}

static void see_key(uint64_t length, size_t room)
{
    const int no_room = room < brinefeather_key_length(1);

    saw(OBSERVE_BAD_ROOM, brinefeather_refused(length) == R_BADPAPER && no_room);
    saw(OBSERVE_BLANK_ROOM, brinefeather_refused(length) == R_BLANK && no_room);
}

/* The key is all that the plain routine leaves in its buffer. */
static void compare_keys(const char *what, const struct file *paper, size_t room, struct file *key)
{
    const size_t size = GUARD + room + BEHIND;
    const uint8_t guard = (uint8_t)draw();
    uint8_t *p = lend(paper), *ours = block(size), *plains = block(size);
    uint64_t our_length, plain_length;

    memset(ours, guard, size);
    memset(plains, guard, size);
    our_length = brinefeather_key(p, paper->len, room || one_in(2) ? ours + GUARD : NULL, room);
    plain_length = plain_key(p, paper->len, plains + GUARD, room);
    if (our_length != plain_length)
        compare_differ(what, our_length, plain_length);
    compare_bytes(what, paper, ours, plains, size);
    if (!kept(ours, room, our_length, guard))
        compare_differ("a byte beside the key written", our_length, plain_length);
    take_back("paper written", p, paper);
    compare_count_refusal(plain_length);
    see_key(plain_length, room);
    key->len = room;
    memcpy(key->bytes, plains + GUARD, room);
    free(ours);
    free(plains);
}

/* ---- damage ---- */

static void flip_bit(uint8_t *bytes, size_t len)
{
    size_t at = below(len);

    bytes[at] ^= (uint8_t)(1u << below(8));
}

/* By a little, to anything, or by what 16 bits do not see. */
static void damage_length(struct file *f)
{
    size_t old = f->len, step = 1u + below(24);

    switch (below(5)) {
    case 0: f->len = below(one_in(2) ? f->len : PAPER_HEADER + 1); break;
    case 1: f->len -= f->len < step ? f->len : step; break;
    case 2: f->len += 1; break;
    case 3: f->len += step; break;
    default: f->len += OVER; break;
    }
    for (size_t i = old; i < f->len; i++)
        f->bytes[i] = (uint8_t)draw();
}

static void damage_header(struct file *f, size_t header)
{
    static const uint16_t numbers[] = {0, 1, 2, 5, 6, 7, 11, 12, 13, 63, 64, 65, 999, 1000, 1001, 32768, 65535};
    uint8_t *at = f->bytes + 2 * below(header / 2);

    if (one_in(2))
        flip_bit(f->bytes, header);
    else if (one_in(2))
        put16(at, ONE_OF(numbers));
    else
        put16(at, get16(at) + (one_in(2) ? 1u : 65535u));
}

/* A number of the header, or the sequence number of an event, often that of the last. */
static void damage_number(struct file *paper, size_t events)
{
    uint8_t *event = paper->bytes + PAPER_HEADER + EVENT * (one_in(4) ? events - 1 : below(events));

    switch (below(3)) {
    case 0: damage_header(paper, PAPER_HEADER); break;
    case 1: put16(event + 18, get16(paper->bytes + 6) + below(3)); break;
    default: put16(event + 18, one_in(2) ? 65535 : draw()); break;
    }
}

static void flip_events(struct file *paper, size_t events)
{
    for (unsigned n = 1u + below(20); n; n--)
        flip_bit(paper->bytes + PAPER_HEADER, EVENT * events);
}

static void damage_paper(struct file *paper, size_t events)
{
    switch (below(6)) {
    case 0: keep_events(paper, one_in(4) ? 0 : below(events)); return; /* fewer events, or blank */
    case 1: flip_events(paper, events); return; /* other events, seldom another layout */
    case 2: damage_length(paper); break;
    default: damage_number(paper, events); break;
    }
    if (one_in(3))
        damage_number(paper, events);
}

static void damage_sheet(struct file *sheet)
{
    if (one_in(2))
        damage_header(sheet, SHEET_HEADER);
    else
        damage_length(sheet);
    if (one_in(3))
        damage_header(sheet, SHEET_HEADER);
}

static void damage_answers(struct file *sheet, size_t answers)
{
    for (unsigned n = 1u + below(one_in(2) ? 4 : 400); n; n--)
        flip_bit(sheet->bytes + SHEET_HEADER, ANSWER * answers);
}

static void lengthen_sheet(struct file *sheet, size_t from, size_t to)
{
    for (size_t i = SHEET_HEADER + ANSWER * from; i < SHEET_HEADER + ANSWER * to; i++)
        sheet->bytes[i] = (uint8_t)draw();
    put_sheet_header(sheet, to);
}

/* ---- a paper's play ---- */

static void play_sheets(const struct file *paper, const struct file *key, size_t events)
{
    static struct file sheet;

    if (!brinefeather_perfect(compare_marks("key as sheet", paper, key)))
        compare_differ("key as sheet not perfect", 0, 0);
    for (int i = 0; i < SHEETS; i++) {
        copy(&sheet, key);
        damage_answers(&sheet, events);
        compare_marks("other answers", paper, &sheet);
        put_sheet_header(&sheet, one_in(8) ? 0 : below(events));
        compare_marks("shorter sheet", paper, &sheet);
        copy(&sheet, key);
        lengthen_sheet(&sheet, events, events + below(MOST + 2 - events));
        compare_marks("longer sheet", paper, &sheet);
        copy(&sheet, key);
        damage_sheet(&sheet);
        compare_marks("damaged sheet", paper, &sheet);
        damaged++;
    }
}

static size_t draw_room(size_t enough)
{
    switch (below(6)) {
    case 0: return below(enough);
    case 1: return below(SHEET_HEADER + ANSWER + 1);
    default: return enough;
    }
}

static void play_damaged_papers(const struct file *paper, const struct file *key, size_t events)
{
    static struct file other, other_key, sheet;

    for (int i = 0; i < DAMAGED_PAPERS; i++) {
        copy(&other, paper);
        damage_paper(&other, events);
        compare_keys("key of a damaged paper", &other, draw_room(key->len), &other_key);
        compare_marks("damaged paper", &other, key);
        copy(&sheet, key);
        damage_sheet(&sheet);
        compare_marks("damaged paper and sheet", &other, &sheet);
        damaged += 2;
    }
}

static void play_paper(enum generate_theme theme, size_t events)
{
    static struct file paper, key, none;
    const size_t enough = brinefeather_key_length(events);

    kind = generate_name(theme);
    paper.len = generate_paper(theme, events, paper.bytes);
    if (paper.len == 0 || !observe_paper(paper.bytes)) {
        compare_differ("not played: the plain model comes to what cannot be", 0, 0);
        return;
    }
    compare_keys("key", &paper, enough, &key);
    compare_keys("key, more room", &paper, enough + 1u + below(99), &none);
    compare_keys("key, one byte short", &paper, enough - 1, &none);
    compare_keys("key, short", &paper, below(enough), &none);
    compare_keys("key, no room", &paper, 0, &none);
    play_sheets(&paper, &key, events);
    play_damaged_papers(&paper, &key, events);
    items_written += compare_writers(paper.bytes);
    events_played += events;
}

/* ---- files made by hand ---- */

/* Events and sequences of zeros. */
static void lay_out(struct file *paper, size_t events, size_t sequences)
{
    const size_t start = PAPER_HEADER + EVENT * events, end = start + SEQ * sequences;
    const size_t header[] = {1, events, PAPER_HEADER, sequences, start, end};

    memset(paper->bytes, 0, end);
    for (size_t i = 0; i < COUNT(header); i++)
        put16(paper->bytes + 2 * i, header[i]);
    paper->len = end;
}

/* The most that a paper may have, and one more, where nothing else is wrong. */
static void play_limits(void)
{
    static const struct {
        const char *what;
        size_t events, sequences, last_names;
    } limits[] = {{"1,000 events and 64 sequences", MOST, MOST_SEQUENCES, MOST_SEQUENCES},
                  {"1,001 events", MOST + 1, 0, 0}, {"65 sequences", 1, MOST_SEQUENCES + 1, 0},
                  {"sequence 65 of 64 in event 1,000", MOST, MOST_SEQUENCES, MOST_SEQUENCES + 1}};
    static struct file paper, sheet, none;

    kind = "limits";
    put_sheet_header(&sheet, 0);
    for (size_t i = 0; i < COUNT(limits); i++) {
        lay_out(&paper, limits[i].events, limits[i].sequences);
        put16(paper.bytes + PAPER_HEADER + EVENT * limits[i].events - 2, limits[i].last_names);
        compare_keys(limits[i].what, &paper, brinefeather_key_length(limits[i].events), &none);
        compare_marks(limits[i].what, &paper, &sheet);
    }
}

/* Breaks the field there, or the file's own length. */
static void break_field(struct file *f, size_t at)
{
    if (at == OWN_LENGTH)
        f->len++;
    else
        put16(f->bytes + at, 65535);
}

/* Each field of a paper broken, and each two. */
static void play_broken_papers(const struct file *sheet)
{
    static const size_t fields[] = {0, 2, 4, 6, 8, 10, OWN_LENGTH, 30, 50, 70};
    static struct file paper, none;

    for (size_t i = 0; i < COUNT(fields) * COUNT(fields); i++) {
        lay_out(&paper, 3, 2);
        break_field(&paper, fields[i / COUNT(fields)]);
        break_field(&paper, fields[i % COUNT(fields)]);
        compare_keys("fields of a paper", &paper, brinefeather_key_length(3), &none);
        compare_marks("fields of a paper", &paper, sheet);
    }
}

/* Each field of a sheet broken, and each two. */
static void play_broken_sheets(const struct file *paper)
{
    static const size_t fields[] = {0, 2, OWN_LENGTH, 4};
    static struct file sheet;

    for (size_t i = 0; i < COUNT(fields) * COUNT(fields); i++) {
        put_sheet_header(&sheet, 1);
        break_field(&sheet, fields[i / COUNT(fields)]);
        break_field(&sheet, fields[i % COUNT(fields)]);
        compare_marks("fields of a sheet", paper, &sheet);
    }
}

static void play_short_papers(struct file *paper, const struct file *sheet)
{
    static struct file none;

    for (paper->len = 0; paper->len < PAPER_HEADER; paper->len++) {
        compare_keys("short paper", paper, brinefeather_key_length(1), &none);
        compare_marks("short paper", paper, sheet);
    }
}

static void play_short_sheets(const struct file *paper, struct file *sheet)
{
    for (sheet->len = 0; sheet->len < SHEET_HEADER; sheet->len++)
        compare_marks("short sheet", paper, sheet);
}

/* Short files have every length below a header's. First they begin as they should, then nothing is right there. */
static void play_broken_files(void)
{
    static struct file paper, sheet, cut;

    kind = "broken files";
    lay_out(&paper, 1, 0);
    put_sheet_header(&sheet, 0);
    play_broken_papers(&sheet);
    play_broken_sheets(&paper);
    copy(&cut, &paper);
    play_short_papers(&cut, &sheet);
    copy(&cut, &sheet);
    play_short_sheets(&paper, &cut);
    memset(cut.bytes, 255, PAPER_HEADER);
    play_short_papers(&cut, &sheet);
    play_short_sheets(&paper, &cut);
}

/* ---- the whole ---- */

/* The first paper of each theme has 1,000 events, the second 1; most others have 20 to 400, fewer the likelier. */
static size_t draw_length(void)
{
    if (papers < 2 * GENERATE_THEMES)
        return papers < GENERATE_THEMES ? MOST : 1;
    switch (below(20)) {
    case 0: return 1u + below(20);
    case 1: return 400u + below(MOST - 399);
    default: return 20u + below(1u + below(381));
    }
}

/* Returns how many of the files' refusals were not reached. */
static unsigned print_refusals(void)
{
    static const unsigned numbers[] = {R_BADPAPER, R_BLANK, R_BADSHEET, R_NOROOM, R_FULL, R_ORDER};
    unsigned missed = 0;

    for (size_t n = 0; n < COUNT(numbers); n++) {
        const unsigned i = numbers[n];

        printf("%10" PRIu64 "  refusal %u %s%s\n", refusals[i], i, brinefeather_refusal_name(i),
               refusals[i] ? "" : "   NOT REACHED");
        missed += refusals[i] == 0;
    }
    return missed;
}

int main(int argc, char **argv)
{
    unsigned long wanted = argc == 3 ? strtoul(argv[1], NULL, 10) : 0;
    unsigned missed;

    if (wanted == 0) {
        fprintf(stderr, "usage: compare PAPERS SEED\n");
        return 2;
    }
    generate_seed(strtoull(argv[2], NULL, 10));
    setvbuf(stdout, NULL, _IOLBF, 0); /* what was found stands there, should a wrong routine end the program */
    for (; papers < wanted; papers++)
        play_paper((enum generate_theme)(papers % GENERATE_THEMES), draw_length());
    play_limits();
    play_broken_files();
    kind = "edges of the writer";
    compare_writer_edges();
    missed = observe_print();
    missed += print_refusals();
    printf("compare: %" PRIu64 " papers, %" PRIu64 " events, %" PRIu64 " damaged files, %" PRIu64 " items written, "
           "%" PRIu64 " different, %u not reached\n", papers, events_played, damaged, items_written, different, missed);
    return different != 0 || missed != 0;
}
