/*
 * The part of compare that writes papers. Each call is made in two buffers that hold the same, by the archive's routine
 * in one and by the plain one in the other: then both must have returned the same number and hold the same bytes. Either
 * may be wrong, so the writer that is handed on, and the length that a paper should have, are counted here.
 */
#include <stdlib.h>
#include <string.h>
#include "brinefeather.h"
#include "compare.h"
#include "generate.h"
#include "observe.h"
#include "plain.h"

#define COUNT(list) (sizeof (list) / sizeof (list)[0])
#define ONE_OF(list) ((list)[below(COUNT(list))])

enum { PAPER_HEADER = 12, EVENT = 20, SEQUENCE_NUMBER = 18, MOST = 1000, MOST_SEQUENCES = 64 };
enum { GUARD = 64, MORE = 100, AREA = GUARD + BRINEFEATHER_LONGEST_PAPER + 2 * MORE + GUARD };
enum { LONGEST_ITEM = 32, SPOILED = 8 }; /* so many spoiled calls, about, come in between, and so many at the end */

struct counts {
    size_t events, sequences;
};

struct call {
    int is_event;
    uint64_t writer;
    size_t room;
    uint8_t item[LONGEST_ITEM];
    size_t len; /* of the item */
};

/* The two buffers between their guards, what they held before the call, and what they hold when it is not spoiled. */
static uint8_t our_area[AREA], plain_area[AREA], before[AREA], unspoiled[AREA];
static size_t used; /* of each area: the guards and the buffer */
static uint64_t calls;

static uint16_t below(size_t n)
{
    return generate_below(n);
}

static int one_in(size_t n)
{
    return generate_one_in(n);
}

static size_t get16(const uint8_t *at)
{
    return (size_t)at[0] << 8 | at[1];
}

static void put16(uint8_t *at, size_t n)
{
    at[0] = (uint8_t)(n >> 8);
    at[1] = (uint8_t)n;
}

static void draw_bytes(uint8_t *bytes, size_t len)
{
    uint64_t eight = 0;

    for (size_t i = 0; i < len; i++) {
        eight = i % 8 ? eight >> 8 : generate_draw();
        bytes[i] = (uint8_t)eight;
    }
}

static size_t length_of(struct counts c)
{
    return PAPER_HEADER + EVENT * c.events + SEQ * c.sequences;
}

static struct counts counts_of(uint64_t writer)
{
    return (struct counts){writer >> 16 & 0xFFFF, writer & 0xFFFF};
}

static struct counts with_item(const struct call *c)
{
    const struct counts old = counts_of(c->writer);

    return (struct counts){old.events + (c->is_event ? 1 : 0), old.sequences + (c->is_event ? 0 : 1)};
}

/* With nothing given yet it is 0. */
static uint64_t writer_of(struct counts c)
{
    const uint64_t counts = (uint64_t)c.events << 16 | c.sequences;

    return counts ? (uint64_t)length_of(c) << 32 | counts : 0;
}

/* The number of the sequence that the item names; bytes past its end are 0. */
static size_t named(const struct call *c)
{
    const size_t high = c->len > SEQUENCE_NUMBER ? c->item[SEQUENCE_NUMBER] : 0;
    const size_t low = c->len > SEQUENCE_NUMBER + 1 ? c->item[SEQUENCE_NUMBER + 1] : 0;

    return c->is_event ? high << 8 | low : 0;
}

/* ---- what is met ---- */

static void saw(enum observe_situation situation, int condition)
{
    if (condition)
        observe_saw(situation);
}

static int is_first(const struct call *c)
{
    return (c->writer & 0xFFFFFFFF) == 0;
}

static int out_of_order(const struct call *c)
{
    const struct counts old = counts_of(c->writer);

    return c->is_event ? named(c) > old.sequences : old.events > 0;
}

static int is_full(const struct call *c)
{
    const struct counts old = counts_of(c->writer);

    return c->is_event ? old.events == MOST : old.sequences == MOST_SEQUENCES;
}

static int has_no_room(const struct call *c)
{
    return c->room < length_of(with_item(c));
}

/* Are the six numbers of a header those of these counts? */
static int is_header_of(const uint8_t *header, struct counts c)
{
    const size_t numbers[] = {1, c.events, PAPER_HEADER, c.sequences, PAPER_HEADER + EVENT * c.events, length_of(c)};

    for (size_t i = 0; i < COUNT(numbers); i++)
        if (get16(header + 2 * i) != numbers[i])
            return 0;
    return 1;
}

/* The buffer is as long as the writer's paper, and the header is not of its counts. */
static void see_other_header(const uint8_t *paper, struct counts wanted)
{
    const struct counts found = {get16(paper + 2), get16(paper + 6)};
    const int sound = found.events <= MOST && found.sequences <= MOST_SEQUENCES && is_header_of(paper, found);

    saw(OBSERVE_WRITE_HEADER, !sound && found.events == wanted.events && found.sequences == wanted.sequences);
    saw(OBSERVE_WRITE_COUNTS, sound);
    saw(OBSERVE_WRITE_SAME_LENGTH, sound && length_of(found) == length_of(wanted));
}

static void see_bad_buffer(const struct call *c)
{
    const struct counts old = counts_of(c->writer);
    const uint8_t *paper = before + GUARD;
    const int beyond = old.events > MOST || old.sequences > MOST_SEQUENCES;

    saw(OBSERVE_WRITE_SHORT, c->room < length_of(old));
    if (c->room < length_of(old))
        return;
    if (!is_header_of(paper, old)) {
        see_other_header(paper, old);
        return;
    }
    saw(OBSERVE_WRITE_BEYOND, beyond);
    saw(OBSERVE_WRITE_EVENT, !beyond);
    if (old.events > 1)
        saw(OBSERVE_WRITE_LAST_EVENT, !beyond && get16(paper + PAPER_HEADER + EVENT * old.events - 2) > old.sequences);
}

static void see_badpaper(const struct call *c)
{
    const uint64_t writer = c->writer;

    saw(OBSERVE_WRITE_BAD_ORDER, out_of_order(c));
    saw(OBSERVE_WRITE_BAD_FULL, is_full(c));
    saw(OBSERVE_WRITE_BAD_ROOM, has_no_room(c) && c->room >= length_of(counts_of(writer)));
    saw(OBSERVE_WRITE_REFUSAL, writer == R_BADPAPER || writer == R_ORDER || writer == R_FULL || writer == R_NOROOM);
    see_bad_buffer(c);
}

static void see_order(const struct call *c)
{
    saw(OBSERVE_ORDER_SEQUENCE, !c->is_event);
    saw(OBSERVE_ORDER_EVENT, c->is_event && named(c) == counts_of(c->writer).sequences + 1);
    saw(OBSERVE_ORDER_FIRST, c->is_event && is_first(c));
    saw(OBSERVE_ORDER_FULL_SEQUENCE, !c->is_event && is_full(c));
    saw(OBSERVE_ORDER_FULL_EVENT, c->is_event && is_full(c));
    saw(OBSERVE_ORDER_ROOM_SEQUENCE, !c->is_event && has_no_room(c));
    saw(OBSERVE_ORDER_ROOM_EVENT, c->is_event && has_no_room(c));
}

static void see_full(const struct call *c)
{
    saw(OBSERVE_SEQUENCE_65, !c->is_event);
    saw(OBSERVE_EVENT_1001, c->is_event);
    saw(OBSERVE_FULL_ROOM_SEQUENCE, !c->is_event && has_no_room(c));
    saw(OBSERVE_FULL_ROOM_EVENT, c->is_event && has_no_room(c));
}

static void see_noroom(const struct call *c)
{
    saw(OBSERVE_ONE_SHORT, c->room + 1 == length_of(with_item(c)));
    saw(OBSERVE_NO_MORE_ROOM, !is_first(c) && c->room == length_of(counts_of(c->writer)));
    saw(OBSERVE_NO_BUFFER, c->room == 0);
}

static void see_written(const struct call *c)
{
    const struct counts old = counts_of(c->writer), new = with_item(c);
    const size_t whole = c->is_event ? EVENT : SEQ;

    saw(OBSERVE_WRITE_FIRST, is_first(c));
    saw(OBSERVE_WRITE_EXACT, c->room == length_of(new));
    saw(OBSERVE_SEQUENCE_64, !c->is_event && new.sequences == MOST_SEQUENCES);
    saw(OBSERVE_EVENT_1000, c->is_event && new.events == MOST);
    saw(OBSERVE_WRITE_LONGEST, length_of(new) == BRINEFEATHER_LONGEST_PAPER);
    saw(OBSERVE_WRITE_MOVE, c->is_event && old.sequences > 1);
    saw(OBSERVE_NAMES_LAST, c->is_event && old.sequences > 0 && named(c) == old.sequences);
    saw(OBSERVE_SHORT_ITEM, c->len > 0 && c->len < whole);
    saw(OBSERVE_LONG_ITEM, c->len > whole);
    saw(OBSERVE_NO_ITEM, c->len == 0);
    saw(OBSERVE_OTHER_UPPER, c->writer >> 32 != writer_of(old) >> 32);
}

static void see_call(const struct call *c, uint64_t n)
{
    switch (brinefeather_refused(n)) {
    case R_BADPAPER: see_badpaper(c); break;
    case R_ORDER: see_order(c); break;
    case R_FULL: see_full(c); break;
    case R_NOROOM: see_noroom(c); break;
    default: see_written(c); break;
    }
}

/* ---- a call in both ---- */

static uint64_t add(const struct call *c, uint8_t *area, const uint8_t *item, int plain)
{
    uint8_t *paper = c->room || one_in(2) ? area + GUARD : NULL;

    if (plain)
        return c->is_event ? plain_add_event(c->writer, paper, c->room, item, c->len)
                           : plain_add_sequence(c->writer, paper, c->room, item, c->len);
    return c->is_event ? brinefeather_add_event(c->writer, paper, c->room, item, c->len)
                       : brinefeather_add_sequence(c->writer, paper, c->room, item, c->len);
}

/* Nothing is written but the new paper from the start of the buffer, and by a refused call nothing at all. */
static int kept(const struct call *c, uint64_t n)
{
    const size_t length = length_of(with_item(c)), behind = GUARD + length;

    if (brinefeather_refused(n))
        return memcmp(our_area, before, used) == 0;
    return length <= c->room && memcmp(our_area, before, GUARD) == 0
        && memcmp(our_area + behind, before + behind, used - behind) == 0;
}

/* The item has nothing behind it, so that a memory checker sees a read too far. Empty may be a null pointer. */
static uint64_t add_in_both(const char *what, const struct call *c)
{
    uint8_t *item = c->len || one_in(2) ? malloc(c->len ? c->len : 1) : NULL;
    uint64_t ours, plains;

    if (item)
        memcpy(item, c->item, c->len);
    memcpy(before, our_area, used);
    ours = add(c, our_area, item, 0);
    plains = add(c, plain_area, item, 1);
    if (ours != plains)
        compare_differ(what, ours, plains);
    if (memcmp(our_area, plain_area, used) != 0)
        compare_differ("the papers written", ours, plains);
    if (!kept(c, ours))
        compare_differ("a byte beside the paper written", ours, plains);
    if (item && memcmp(item, c->item, c->len) != 0)
        compare_differ("item written", ours, plains);
    free(item);
    compare_count_refusal(plains);
    see_call(c, plains);
    calls++;
    return ours;
}

/* ---- spoiled calls ---- */

/* Other counts, more or fewer, as long as these, or a refusal; or only another upper half, which is not read. */
static void spoil_writer(struct call *c)
{
    static const uint64_t others[] = {0, 1, 0x10000, 15, 18, 20, 26, 655375, 0xFFFF, 0xFFFF0000, 0xFFFFFFFF};

    switch (below(7)) {
    case 0: c->writer = ONE_OF(others); break;
    case 1: c->writer += one_in(2) ? 1 : 0x10000; break;
    case 2: c->writer -= one_in(2) ? 1 : 0x10000; break;
    case 3: c->writer = (c->writer & 0xFFFF) << 16 | (c->writer >> 16 & 0xFFFF); break;
    case 4: c->writer += 0x40000 - 5; break; /* 4 events are as long as 5 sequences */
    case 5: c->writer ^= UINT64_C(1) << below(32); break;
    default: c->writer = generate_draw() << 32 | (c->writer & 0xFFFFFFFF); break;
    }
}

/* Another length, with anything over; or another sequence, a little or far above those that there are, or the last. */
static void spoil_item(struct call *c)
{
    const size_t sequences = counts_of(c->writer).sequences, old = c->len;

    switch (below(4)) {
    case 0: c->len = below(LONGEST_ITEM + 1); break;
    case 1: c->len = one_in(2) ? 0 : SEQUENCE_NUMBER + below(4); break;
    case 2: put16(c->item + SEQUENCE_NUMBER, sequences + below(3)); break;
    default: put16(c->item + SEQUENCE_NUMBER, one_in(2) ? 256u + sequences : generate_draw()); break;
    }
    if (c->len > old)
        draw_bytes(c->item + old, c->len - old);
}

/* Just enough and one byte short; just the old paper and one byte short of that; none; any. All within the buffer. */
static void spoil_room(struct call *c)
{
    const size_t new = length_of(with_item(c)), old = length_of(counts_of(c->writer)), whole = c->room;

    switch (below(6)) {
    case 0: c->room = new; break;
    case 1: c->room = new - 1; break;
    case 2: c->room = old; break;
    case 3: c->room = old - 1; break;
    case 4: c->room = one_in(2) ? 0 : below(PAPER_HEADER + EVENT); break;
    default: c->room = below(whole + 1); break;
    }
    if (c->room > whole)
        c->room = whole;
}

/* Changes a byte of a paper of these counts, in both: of its header, an event's sequence number, or any. */
static void spoil_buffer(const struct call *c)
{
    const struct counts old = counts_of(c->writer);
    size_t at = below(PAPER_HEADER);

    if (length_of(old) > c->room)
        return;
    if (one_in(2))
        at = below(length_of(old));
    else if (old.events && one_in(2))
        at = PAPER_HEADER + EVENT * (one_in(2) ? old.events - 1 : below(old.events)) + SEQUENCE_NUMBER + below(2);
    our_area[GUARD + at] ^= (uint8_t)(1u << below(8));
    plain_area[GUARD + at] = our_area[GUARD + at];
}

static void spoil(struct call *c)
{
    switch (below(5)) {
    case 0: spoil_writer(c); break;
    case 1: spoil_item(c); break;
    case 2: spoil_room(c); break;
    case 3: spoil_buffer(c); break;
    default: c->is_event = !c->is_event; c->len = c->is_event ? EVENT : SEQ; break;
    }
}

/* One thing is spoiled, or two. Then all is as it was. */
static void try_spoiled(const struct call *right)
{
    struct call c = *right;
    uint64_t n;

    memcpy(unspoiled, our_area, used);
    spoil(&c);
    if (one_in(2))
        spoil(&c);
    n = add_in_both("spoiled call", &c);
    saw(OBSERVE_WRITE_CHANGED, !brinefeather_refused(n) && !is_first(&c) && memcmp(before, unspoiled, used) != 0);
    memcpy(our_area, unspoiled, used);
    memcpy(plain_area, unspoiled, used);
}

/* ---- a paper, item by item ---- */

/* Anything in a buffer of so many bytes and around it, in both the same. */
static void clear_buffers(size_t room)
{
    used = GUARD + room + GUARD;
    draw_bytes(our_area, used);
    memcpy(plain_area, our_area, used);
}

/* The call that adds item i of the paper to those ahead of it, sequences first. */
static struct call right_call(const uint8_t *paper, size_t i, size_t room)
{
    const size_t sequences = get16(paper + 6), start = get16(paper + 8);
    struct call c = {i >= sequences, 0, room, {0}, i >= sequences ? EVENT : SEQ};

    if (c.is_event) {
        c.writer = writer_of((struct counts){i - sequences, sequences});
        memcpy(c.item, paper + PAPER_HEADER + EVENT * (i - sequences), EVENT);
    } else {
        c.writer = writer_of((struct counts){0, i});
        memcpy(c.item, paper + start + SEQ * i, SEQ);
    }
    return c;
}

/* A tick more than the paper has. */
static struct call one_more(const uint8_t *paper, size_t room)
{
    const struct counts c = {get16(paper + 2), get16(paper + 6)};

    return (struct call){1, writer_of(c), room, {EV_TICK}, EVENT};
}

static void write_paper(const char *what, const uint8_t *paper, size_t room)
{
    const struct counts whole = {get16(paper + 2), get16(paper + 6)};
    const size_t items = whole.events + whole.sequences;
    const struct call more = one_more(paper, room);

    clear_buffers(room);
    for (size_t i = 0; i < items; i++) {
        const struct call c = right_call(paper, i, room);
        uint64_t n;

        if (one_in(1 + items / SPOILED))
            try_spoiled(&c);
        n = add_in_both(what, &c);
        if (n != writer_of(with_item(&c)))
            compare_differ("not the writer that it should be", n, writer_of(with_item(&c)));
    }
    if (memcmp(our_area + GUARD, paper, length_of(whole)) != 0)
        compare_differ("another paper than the one given", 0, 0);
    for (int i = 0; i < SPOILED; i++)
        try_spoiled(&more);
}

uint64_t compare_writers(const uint8_t *paper)
{
    static uint8_t written[BRINEFEATHER_LONGEST_PAPER];
    const size_t length = get16(paper + 10);

    calls = 0;
    write_paper("paper written", paper, length + 1u + below(MORE));
    memcpy(written, our_area + GUARD, length);
    if (memcmp(written, paper, length) == 0)
        write_paper("paper written again", written, length);
    return calls;
}

/* ---- edges ---- */

/* What the buffer holds, and what the writer says; where they differ it must be told. */
static const struct {
    struct counts holds, says;
} edges[] = {{{0, 0}, {0, 0}}, {{0, 1}, {0, 1}}, {{1, 0}, {1, 0}}, {{2, 3}, {2, 3}}, {{3, 2}, {0, 0}},
             {{0, 63}, {0, 63}}, {{0, 64}, {0, 64}}, {{0, 65}, {0, 65}}, {{1, 64}, {1, 64}}, {{1, 65}, {1, 65}},
             {{999, 64}, {999, 64}}, {{1000, 0}, {1000, 0}}, {{1000, 64}, {1000, 64}}, {{1001, 64}, {1001, 64}},
             {{2, 1}, {1, 1}}, {{1, 1}, {2, 1}}, {{0, 5}, {4, 0}}, {{4, 0}, {0, 5}}, {{2, 3}, {2, 67}},
             {{2, 3}, {1026, 3}}}; /* 67 and 1,026 are 3 and 2 to whoever reads fewer bits */

/* A paper of these counts in both buffers; each byte that has no rule differs from its neighbours. */
static void lay_out(struct counts c, size_t room)
{
    uint8_t *paper = our_area + GUARD;
    const size_t numbers[] = {1, c.events, PAPER_HEADER, c.sequences, PAPER_HEADER + EVENT * c.events, length_of(c)};

    clear_buffers(room);
    for (size_t i = PAPER_HEADER; i < length_of(c); i++)
        paper[i] = (uint8_t)(37 * i);
    for (size_t i = 0; i < COUNT(numbers); i++)
        put16(paper + 2 * i, numbers[i]);
    for (size_t i = 0; i < c.events; i++)
        put16(paper + PAPER_HEADER + EVENT * i + SEQUENCE_NUMBER, c.sequences);
    memcpy(plain_area, our_area, used);
}

enum { HEADER_NUMBERS = PAPER_HEADER / 2, SOUND = HEADER_NUMBERS, LAST_NAMES_MORE, OTHER_SEQUENCE, DAMAGES };

/* Breaks a number of the header, nothing, the last event's sequence number, or, which breaks nothing, the last byte. */
static void damage(struct counts c, size_t how)
{
    uint8_t *paper = our_area + GUARD;

    if (how < HEADER_NUMBERS)
        put16(paper + 2 * how, get16(paper + 2 * how) + 1);
    else if (how == LAST_NAMES_MORE && c.events > 0)
        put16(paper + PAPER_HEADER + EVENT * c.events - 2, c.sequences + 1);
    else if (how == OTHER_SEQUENCE && c.sequences > 0)
        paper[length_of(c) - 1] ^= 0xFF;
    memcpy(plain_area, our_area, used);
}

/*
 * Of these counts: an item of either kind, an event naming none, the last, or one too many; in five rooms. In the first
 * the item has bytes over and the writer another upper half, which are not read; in the second some items are short.
 */
static struct call edge_call(struct counts says, size_t way)
{
    const size_t old = length_of(says), room = way / 4 % 5;
    struct call c = {way % 4 > 0, writer_of(says), 0, {EV_TICK, 'A', 'B', 'C', 'D'}, way % 4 ? EVENT : SEQ};
    const size_t new = length_of(with_item(&c)), rooms[] = {new + 1, new, new - 1, old, old - 1};

    c.room = rooms[room];
    put16(c.item + SEQUENCE_NUMBER, way % 4 == 1 ? 0 : way % 4 == 2 ? says.sequences : says.sequences + 1);
    memset(c.item + EVENT, 'E', LONGEST_ITEM - EVENT);
    if (room == 0) {
        c.len = LONGEST_ITEM;
        c.writer ^= 0xFFFFFFFF00000000;
    } else if (room == 1 && way % 4 < 2)
        c.len = 5;
    return c;
}

void compare_writer_edges(void)
{
    enum { WAYS = 4 * 5 };

    for (size_t i = 0; i < COUNT(edges) * DAMAGES * WAYS; i++) {
        const struct counts holds = edges[i / WAYS / DAMAGES].holds, says = edges[i / WAYS / DAMAGES].says;
        const size_t longer = length_of(holds) > length_of(says) ? length_of(holds) : length_of(says);
        const struct call c = edge_call(says, i % WAYS);

        lay_out(holds, longer + MORE);
        damage(holds, i / WAYS % DAMAGES);
        add_in_both("edge", &c);
    }
}
