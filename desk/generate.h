/*
 * Draws legal papers, each of one theme. The plain model is played beside the drawing, so that most events come from
 * live processes that are awake. One seed gives the same papers on every machine.
 */
#ifndef GENERATE_H
#define GENERATE_H

#include <stddef.h>
#include <stdint.h>

enum generate_theme {
    GENERATE_LIGHT,  /* an easy exam: few processes, mostly calls about the caller itself */
    GENERATE_MIXED,  /* all calls */
    GENERATE_LOCKS,  /* many processes, most events lock or unlock, many rows */
    GENERATE_CHAINS, /* chains of up to 15 links, asked for a way back again and again */
    GENERATE_QUEUES, /* up to 15 waiters for one sequence, and every way out of a queue */
    GENERATE_RINGS,  /* rings of 2 to 6 owners that a request would close, and some that it would not */
    GENERATE_FULL,   /* 32 rows, 16 processes */
    GENERATE_ALARMS, /* several alarms due in one tick */
    GENERATE_EDGES,  /* each register at the edges of its range, all call numbers and event kinds */
    GENERATE_THEMES
};

const char *generate_name(enum generate_theme theme);

/* Chance: a number, one below n (at most 65,536), and true once in n times. */
void generate_seed(uint64_t seed);
uint64_t generate_draw(void);
uint16_t generate_below(size_t n);
int generate_one_in(size_t n);

/* Plays an event on the plain model. Returns 0 if the state or the answer is one that cannot be: the model is wrong. */
struct state;
struct event;
struct answer;
int generate_play(struct state *s, const struct event *ev, struct answer *an);

/*
 * Writes a legal paper with exactly that many events, 0 to 1,000, and returns its length, or 0 if the plain model comes
 * to what cannot be. The paper has room for BRINEFEATHER_LONGEST_PAPER bytes.
 */
size_t generate_paper(enum generate_theme theme, size_t events, uint8_t *paper);

#endif
