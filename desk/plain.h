/*
 * Document 01 in plain C, in place, with requests 1 and 3 of document 02 (where a file is broken; a paper writer): the
 * model of the process, signal and lock calls, and paper, sheet, key and mark over it. Written from the documents by
 * helpers who had not seen the Rattle code of it. (The one of reader and marker had seen parts of the design notes;
 * those of requests 1 and 3 were given their reading: the fields and their order; what the writer is and returns.)
 * The four plain_.. are as the four routines of brinefeather.h.
 */
#ifndef PLAIN_H
#define PLAIN_H

#include <stddef.h>
#include <stdint.h>

enum { PROCESSES = 16, ROWS = 32, SIGNALS = 7, SEQ = 16 };

enum { EV_CALL = 1, EV_TICK, EV_TAKE, EV_REPORT };
enum { DONE, ASLEEP, ENDED, REFUSED };
enum {
    R_BADSTATE = 1, R_BADCALLER, R_ASLEEP, R_TRAP, R_BADCALL, R_NOTMODELLED,
    R_PRIV, R_NOPROC, R_NOMEMORY, R_HELD, R_LOCKED, R_DEADLOCK, R_LCKTABLE,
    R_NOTLOCKED, R_BADPAPER, R_BLANK, R_BADSHEET, R_NOROOM, R_FULL = 20,
    R_ORDER = 26
};
enum { SLEEP_NONE, SLEEP_PAUSE, SLEEP_LOCK, SLEEP_TIMED };
enum { WAKE_NEVER, WAKE_GRANTED, WAKE_SIGNAL, WAKE_TIME };
enum { ABORT, IGNORE };                 /* a reaction above 1 is a trap address */
enum { SIG_KILL = 3, SIG_ALARM = 5 };
enum { SHARED, UNSHARED };

struct process {
    uint16_t pid;
    uint16_t user[3], group[3];         /* effective, login, program */
    uint8_t  pending;                   /* signal s is bit s-1 */
    uint8_t  sleep, wake;
    uint32_t priority;                  /* 32-bit two's complement */
    uint32_t alarm;
    uint32_t seconds;                   /* left of a timed sleep */
    uint32_t left;                      /* left when a signal ended it */
    uint32_t reaction[SIGNALS];         /* signal s is at s-1 */
    uint32_t address[SIGNALS];
};

struct row {
    uint16_t owner;                     /* PID */
    uint8_t  kind, len;
    uint8_t  seq[SEQ];                  /* zeros after len */
};

struct state {
    uint32_t next_pid;
    uint8_t  live, rows;
    struct process process[PROCESSES];
    struct row row[ROWS];
};

struct event {
    uint8_t  kind, call;
    uint16_t caller, d0, d1, d2;
    uint32_t d3, a0;
    uint8_t  named;
    uint8_t  seq[SEQ];
};

struct answer {
    uint8_t  kind, number;
    uint16_t woken, ended;
    uint32_t d3, a0;
};

void state_fresh(struct state *st);
void state_event(struct state *st, const struct event *ev, struct answer *an);

uint64_t plain_mark(const uint8_t *paper, size_t paper_len, const uint8_t *sheet, size_t sheet_len);
uint64_t plain_key(const uint8_t *paper, size_t paper_len, uint8_t *key, size_t key_len);

uint64_t plain_add_sequence(uint64_t writer, uint8_t *paper, size_t paper_len,
                            const uint8_t *sequence, size_t sequence_len);
uint64_t plain_add_event(uint64_t writer, uint8_t *paper, size_t paper_len,
                         const uint8_t *event, size_t event_len);

#endif
