/*
 * Brinefeather marks exam sheets: a paper asks what each of its events does to a small model of the Cromix-Plus
 * process, signal and lock calls, a sheet gives a trainee's answers, and a key gives the right ones. And it writes
 * papers, item by item.
 *
 * Link with libbrinefeather.a, for x86-64: -lbrinefeather, or by pkg-config brinefeather. (In the repository it is
 * target/staticlib/libbrinefeather.a, by `make archive`; `make install` installs it.) The four routines keep nothing
 * between calls, allocate nothing, and may be called from any thread with 8 KB of stack left (less than 5,000 bytes were
 * measured, of the two that mark and write keys).
 * What the events mean and what is answered to them, document 01 says (01-scope.md).
 *
 * A paper is 12 bytes of header, then its events, 20 bytes each, then its sequences, 16 bytes each, and nothing more.
 * A sheet is 6 bytes of header, then its answers, 16 bytes each, and nothing more. A key is a sheet with the right
 * answer to each event of a paper, in order. All numbers are big-endian. Sizes in bytes, where not 1:
 *
 *   event    kind, call, caller (2), D0 (2), D1 (2), D2 (2), D3 (4), A0 (4), sequence number (2)
 *   answer   kind, number, woken (2), ended (2), zero (2), D3 (4), A0 (4)
 *
 * These fields, of 16 bits each, have a rule. A file that breaks one is refused, never corrected, and the refusal tells
 * the offset of the first field, in this order, that breaks its rule. A file too short for its header is refused too:
 * its offset is the file's length, 0 to 11 for a paper and 0 to 5 for a sheet. e, s and a are what the counts say.
 *
 *   paper    offset         field                         rule
 *            0              version                       1
 *            2              event count, e                0 to 1000
 *            4              where the events start        12
 *            6              sequence count, s             0 to 64
 *            8              where the sequences start     12 + 20e
 *            10             length                        12 + 20e + 16s, and the file is as long as that
 *            12 + 20i + 18  sequence number of event i    0 (none) to s; i is from 0 to e - 1
 *
 *   sheet    0              version                       1
 *            2              answer count, a               0 to 1000, and the file is 6 + 16a bytes long
 *            4              where the answers start       6
 */
#ifndef BRINEFEATHER_H
#define BRINEFEATHER_H

#include <stddef.h>
#include <stdint.h>

#ifdef __cplusplus
extern "C" {
#endif

/*
 * It rises with each release that adds a routine or a refusal, or changes what a routine returns. Compile again what was
 * compiled with another: the functions below are compiled into your program. Those of version 1 know no offsets, those
 * of version 2 take a writer for a refusal.
 */
#define BRINEFEATHER_VERSION 3

/*
 * The refusals of files. Those below 15 are of events: a sheet and a key have them, the routines do not return them.
 * 19 and 21 to 25 are kept for later.
 */
enum brinefeather_refusal {
    BRINEFEATHER_BADPAPER = 15, /* the paper's layout is off; has an offset, but not when a paper is written */
    BRINEFEATHER_BLANK = 16,    /* the paper is sound in all else, but has no events */
    BRINEFEATHER_BADSHEET = 17, /* the sheet's layout is off; has an offset */
    BRINEFEATHER_NOROOM = 18,   /* the buffer is shorter than the key, or than the paper with the new item */
    BRINEFEATHER_FULL = 20,     /* the paper has 64 sequences already, or 1000 events */
    BRINEFEATHER_ORDER = 26,    /* a sequence after an event, or an event that names a sequence not given */
    BRINEFEATHER_REFUSALS = 26  /* they are numbered from 1 to this */
};

/* Lengths of the longest legal files. To tell a longer file from one of these, read one byte more. */
enum {
    BRINEFEATHER_LONGEST_PAPER = 21036, /* 12 + 20 x 1000 + 16 x 64 */
    BRINEFEATHER_LONGEST_SHEET = 16006, /* 6 + 16 x 1000 */
    BRINEFEATHER_LONGEST_KEY = 16006
};

/*
 * Marks a sheet. Returns total, right, missing and surplus in 16 bits each, total highest:
 *
 *   total     the events of the paper, at least 1
 *   right     the places, up to total, where all 16 bytes of the sheet's answer and the key's agree
 *   missing   total less the sheet's answers, or 0
 *   surplus   the sheet's answers less total, or 0
 *
 * or else a refusal, the first that applies of badpaper, blank, badsheet: blank is its number alone, the other two are
 * their number plus 65,536 times the offset of the field that is broken. Do not compare what is returned with a number:
 * brinefeather_refused tells whether it is a refusal and which, brinefeather_offset where the file is broken.
 *
 * Neither file is written. A null pointer with length 0 is an empty file (and so refused, with offset 0); each pointer
 * must otherwise lead to at least as many readable bytes as its length says. The two may overlap.
 */
uint64_t brinefeather_mark(const uint8_t *paper, size_t paper_len, const uint8_t *sheet, size_t sheet_len);

/*
 * Writes the key of a paper into a buffer of key_len bytes. Returns the key's length, 6 + 16 x events (at least 22),
 * having written exactly that many bytes from the start of the buffer and none after; or else a refusal, having written
 * no byte, the first that applies of badpaper, blank, noroom: badpaper is its number plus 65,536 times the offset, the
 * same as brinefeather_mark returns for that paper, the other two are their number alone. brinefeather_refused and
 * brinefeather_offset take it apart.
 *
 * The paper is not written. A null pointer with length 0 is an empty paper, or a buffer with no room. The buffer must
 * not share bytes with the paper, and is the call's alone while it runs. A buffer of BRINEFEATHER_LONGEST_KEY bytes
 * has room for every key.
 */
uint64_t brinefeather_key(const uint8_t *paper, size_t paper_len, uint8_t *key, size_t key_len);

/*
 * Write a paper, an item with each call: first its sequences, then its events. After each accepted call the buffer
 * begins with a whole paper, header and all, of what was given so far, the new item last of its kind; no byte behind it
 * is touched. (With no event yet it is a paper that brinefeather_mark refuses as blank.) A buffer of
 * BRINEFEATHER_LONGEST_PAPER bytes has room for every paper.
 *
 * An accepted call returns the writer, to be handed to the next call: the length of the paper x 2^32 + its events x
 * 65,536 + its sequences. The first call has the writer 0, and does not look at what the buffer holds. (To go on with a
 * paper that lies there already, the writer is its events x 65,536 + its sequences: the length is not read.)
 *
 * A refused call writes no byte and returns the number of the first refusal that applies, never with an offset. Test for
 * it after each call, and keep the old writer then: with it you may go on, after badpaper once the buffer is as it was.
 * A refusal that is handed on as the writer is told as badpaper, but not if the paper has no event and just that many
 * sequences (15, 18 or 26): then the call goes on, and the item that was refused is missing.
 *
 *   badpaper  the counts of the writer are not both 0, and the buffer does not begin with a paper of these counts that
 *             keeps all rules above; so it was changed since the last call, or is another
 *   order     a sequence after an event, or an event whose sequence number is above the paper's sequences
 *   full      sequence 65, or event 1001
 *   noroom    with the new item the paper would be longer than the buffer
 *
 * Of a sequence 16 bytes are read and of an event 20, laid out as in a paper: bytes that the item is short of are 0,
 * bytes over are not read. So {2} is a tick. Kinds, calls and registers are not looked at, as a paper may hold any. A
 * null pointer with length 0 is an empty item, or a buffer with no room. The item is not written, and must not share
 * bytes with the buffer, which is the call's alone while it runs. A call takes time by the paper's length.
 */
uint64_t brinefeather_add_sequence(uint64_t writer, uint8_t *paper, size_t paper_len, const uint8_t *sequence,
                                   size_t sequence_len);
uint64_t brinefeather_add_event(uint64_t writer, uint8_t *paper, size_t paper_len, const uint8_t *event,
                                size_t event_len);

/* The length of the key of a paper with that many events. */
static inline size_t brinefeather_key_length(size_t events)
{
    return 6 + 16 * events;
}

/*
 * For what any routine returned: the refusal number alone, without its offset, or 0 when it was not refused. The two
 * never meet. A refusal is a number below 28, but of these routines never 22, plus 65,536 times its offset, which is at most 20,010: in
 * all it is less than 2^32. What is not refused is
 *
 *   a key's length   22, or from 28 to 65,535
 *   a writer         from 28 x 2^32 (the shortest paper that is written has one sequence) to less than 2^47
 *   a mark           2^48 or more (its total is at least 1)
 *
 * and these do not meet each other either. For the writer 0, of the first call, it is 0 too.
 */
static inline unsigned brinefeather_refused(uint64_t n)
{
    const unsigned low = (unsigned)n & 0xFFFF;

    if (n >> 32)
        return 0;
    return n >> 16 || (low < 28 && low != 22) ? low : 0;
}

/*
 * For the same: the offset of the first field that breaks its rule, or the length of a file too short for its header.
 * Badpaper and badsheet have an offset, which may be 0. For other refusals, and when it was not refused, it is 0. So it
 * is, and means nothing, for badpaper from a call that writes a paper: there it is your buffer that was changed.
 */
static inline unsigned brinefeather_offset(uint64_t n)
{
    return brinefeather_refused(n) ? (unsigned)(n >> 16) : 0;
}

/* The name of a refusal number, as in documents 01 and 02: "badpaper" for 15. "unknown" for a number that is none. */
static inline const char *brinefeather_refusal_name(unsigned number)
{
    static const char *const names[] = {"unknown", "badstate", "badcaller", "asleep", "trap", "badcall", "notmodelled",
                                        "priv", "noproc", "nomemory", "held", "locked", "deadlock", "lcktable",
                                        "notlocked", "badpaper", "blank", "badsheet", "noroom", "unknown", "full",
                                        "unknown", "unknown", "unknown", "unknown", "unknown", "order"};

    return names[number <= BRINEFEATHER_REFUSALS ? number : 0];
}

/* For what brinefeather_mark returned and brinefeather_refused did not take. */
static inline unsigned brinefeather_total(uint64_t n)
{
    return (unsigned)(n >> 48);
}

static inline unsigned brinefeather_right(uint64_t n)
{
    return (unsigned)(n >> 32) & 0xFFFF;
}

static inline unsigned brinefeather_missing(uint64_t n)
{
    return (unsigned)(n >> 16) & 0xFFFF;
}

static inline unsigned brinefeather_surplus(uint64_t n)
{
    return (unsigned)n & 0xFFFF;
}

/* Is right the total, and surplus 0? Not so for a refusal number. */
static inline int brinefeather_perfect(uint64_t n)
{
    return !brinefeather_refused(n) && brinefeather_right(n) == brinefeather_total(n) && brinefeather_surplus(n) == 0;
}

/* For a writer, that is, what an accepted call that writes a paper returned: the paper's length, events, sequences. */
static inline size_t brinefeather_paper_length(uint64_t writer)
{
    return (size_t)(writer >> 32);
}

static inline unsigned brinefeather_paper_events(uint64_t writer)
{
    return (unsigned)(writer >> 16) & 0xFFFF;
}

static inline unsigned brinefeather_paper_sequences(uint64_t writer)
{
    return (unsigned)writer & 0xFFFF;
}

#ifdef __cplusplus
}
#endif

#endif
