/*
 * Nanoseconds an event of the archive's mark and key and of the plain ones, timed in turns; the stack that each needs.
 * Usage: bench [--quick] [--check]. Prints lines for bench.sh and plot.awk:
 *
 *   cost KIND EVENTS ROUTINE OURS PLAIN RATIO     nanoseconds an event
 *   growth KIND ROUTINE FROM OURS PLAIN           cost at 1,000 events by that at FROM events (1 is flat)
 *   stack ROUTINE OURS PLAIN                      bytes
 *   bar NAME MEASURED BAR yes|no KIND..           the kinds that are held to it
 *
 * With --check the exit status is 1 if a bar is missed.
 */
#define _POSIX_C_SOURCE 200809L
#include <pthread.h>
#include <stdint.h>
#include <stdio.h>
#include <stdlib.h>
#include <string.h>
#include <time.h>
#include "brinefeather.h"
#include "generate.h"
#include "plain.h"

#define COUNT(list) (sizeof(list) / sizeof(list)[0])

enum { DRAWN = 4, STORY = DRAWN, KINDS, SIZES = 3, MOST_PAPERS = 8 }; /* kinds: four are drawn, the fifth is a story */
enum { HEADER = 12, EVENT = 20, STORY_EVENTS = 10, PAINT = 0xA5, STACK = 1 << 20 };
enum routine { MARK, KEY, ROUTINES };
enum maker { OURS, PLAIN, MAKERS };

static const double ratio_bar = 1.5, stack_bar = 6000.0, growth_bar = 1.1;
static const size_t sizes[SIZES] = {10, 100, 1000}, papers_of[SIZES] = {8, 4, 2};
static const char *const routine_name[ROUTINES] = {"mark", "key"};

struct sample {
    size_t paper_len, key_len;
    uint8_t paper[BRINEFEATHER_LONGEST_PAPER], key[BRINEFEATHER_LONGEST_KEY];
};

/* Papers of one kind and size. */
struct batch {
    size_t events, papers;
    struct sample sample[MOST_PAPERS];
};

static struct batch batches[KINDS][SIZES];
static double cost[KINDS][SIZES][ROUTINES][MAKERS];
static double stack_used[ROUTINES][MAKERS];
static volatile uint64_t answered; /* so that no call is left out */
static double slice = 0.01;
static unsigned turns = 15;

/* ---- the routines ---- */

static uint64_t mark(enum maker by, const struct sample *s)
{
    return by == OURS ? brinefeather_mark(s->paper, s->paper_len, s->key, s->key_len)
                      : plain_mark(s->paper, s->paper_len, s->key, s->key_len);
}

static uint64_t write_key(enum maker by, const struct sample *s, uint8_t *key)
{
    return by == OURS ? brinefeather_key(s->paper, s->paper_len, key, BRINEFEATHER_LONGEST_KEY)
                      : plain_key(s->paper, s->paper_len, key, BRINEFEATHER_LONGEST_KEY);
}

static void play(enum routine r, enum maker by, const struct sample *s)
{
    static uint8_t key[BRINEFEATHER_LONGEST_KEY];

    answered = answered + (r == MARK ? mark(by, s) : write_key(by, s, key));
}

static void play_batch(enum routine r, enum maker by, const struct batch *b)
{
    for (size_t i = 0; i < b->papers; i++)
        play(r, by, &b->sample[i]);
}

/* ---- papers ---- */

static const char *kind_name(size_t kind)
{
    return kind == STORY ? "story" : generate_name((enum generate_theme)kind);
}

static void put16(uint8_t *at, size_t n)
{
    at[0] = (uint8_t)(n >> 8);
    at[1] = (uint8_t)n;
}

/*
 * Ten events after which only the next PID is another: process 1 and a new child lock A and B crosswise. The child's
 * PID stands as 2, and grows by one with each telling.
 */
static size_t tell_story(size_t events, uint8_t *paper)
{
    static const struct {
        uint8_t kind, call, caller, d2, length, sequence;
    } story[STORY_EVENTS] = {
        {1, 0x48, 1, 0, 0, 0}, /* fshell: the child */
        {1, 0x3E, 1, 1, 1, 1}, /* 1 locks A */
        {1, 0x3E, 2, 1, 1, 2}, /* the child locks B */
        {1, 0x3E, 2, 1, 1, 1}, /* the child waits for A */
        {1, 0x3E, 1, 1, 1, 2}, /* 1 asks for B: deadlock */
        {2, 0x00, 0, 0, 0, 0}, /* tick */
        {1, 0x3F, 1, 0, 1, 1}, /* 1 unlocks A: the child wakes */
        {4, 0x00, 2, 0, 0, 0}, /* its wake report */
        {1, 0x3A, 1, 0, 0, 0}, /* getproc */
        {1, 0x46, 2, 0, 0, 0}, /* the child exits, its rows go */
    };
    const size_t header[] = {1, events, HEADER, 2, HEADER + EVENT * events, HEADER + EVENT * events + 2 * 16};

    memset(paper, 0, header[5]);
    for (size_t i = 0; i < COUNT(header); i++)
        put16(paper + 2 * i, header[i]);
    for (size_t i = 0; i < events; i++) {
        uint8_t *at = paper + HEADER + EVENT * i;
        size_t n = i % STORY_EVENTS;

        at[0] = story[n].kind;
        at[1] = story[n].call;
        put16(at + 2, story[n].caller == 2 ? 2 + i / STORY_EVENTS : story[n].caller);
        put16(at + 8, story[n].d2);
        put16(at + 12, story[n].length);
        put16(at + 18, story[n].sequence);
    }
    memset(paper + header[4], 'A', 16);
    memset(paper + header[4] + 16, 'B', 16);
    return header[5];
}

/* The key is written by the plain routine; ours must write the same, and both find it perfect. */
static int complete(struct sample *s)
{
    static uint8_t ours[BRINEFEATHER_LONGEST_KEY];
    uint64_t n = write_key(PLAIN, s, s->key);

    if (brinefeather_refused(n) || write_key(OURS, s, ours) != n || memcmp(ours, s->key, (size_t)n) != 0)
        return 0;
    s->key_len = (size_t)n;
    return brinefeather_perfect(mark(OURS, s)) && mark(OURS, s) == mark(PLAIN, s);
}

static void draw_batch(size_t kind, size_t size)
{
    struct batch *b = &batches[kind][size];

    b->events = sizes[size];
    b->papers = kind == STORY ? 1 : papers_of[size];
    for (size_t i = 0; i < b->papers; i++) {
        struct sample *s = &b->sample[i];

        generate_seed(1000 * kind + 100 * size + i + 1);
        s->paper_len = kind == STORY ? tell_story(b->events, s->paper)
                                     : generate_paper((enum generate_theme)kind, b->events, s->paper);
        if (!complete(s)) {
            printf("different: %s, %zu events, paper %zu: ours and plain do not give one key and mark\n",
                   kind_name(kind), b->events, i + 1);
            exit(1);
        }
    }
}

/* ---- time ---- */

/* Processor time of this process: what others do on the machine counts little. */
static double now(void)
{
    struct timespec t;

    clock_gettime(CLOCK_PROCESS_CPUTIME_ID, &t);
    return (double)t.tv_sec + (double)t.tv_nsec * 1e-9;
}

static double time_rounds(enum routine r, enum maker by, const struct batch *b, unsigned long rounds)
{
    double start = now();

    for (unsigned long i = 0; i < rounds; i++)
        play_batch(r, by, b);
    return now() - start;
}

static unsigned long rounds_for_slice(enum routine r, enum maker by, const struct batch *b)
{
    unsigned long rounds = 1;

    while (time_rounds(r, by, b, rounds) < slice / 2)
        rounds *= 2;
    return rounds * 2;
}

static void time_batch(enum routine r, const struct batch *b, double best[MAKERS])
{
    unsigned long rounds[MAKERS];

    for (enum maker by = OURS; by < MAKERS; by++) {
        rounds[by] = rounds_for_slice(r, by, b);
        best[by] = 1e99;
    }
    for (unsigned i = 0; i < turns * MAKERS; i++) {
        enum maker by = (enum maker)(i % MAKERS);
        double took = time_rounds(r, by, b, rounds[by]) * 1e9 / (double)(rounds[by] * b->papers * b->events);

        best[by] = took < best[by] ? took : best[by];
    }
}

/* ---- stack ---- */

struct errand {
    int bare;
    enum routine routine;
    enum maker by;
};

static _Alignas(4096) uint8_t thread_stack[STACK];

static void *run_errand(void *given)
{
    const struct errand *e = given;

    for (size_t i = 0; !e->bare && i < KINDS * SIZES; i++)
        play_batch(e->routine, e->by, &batches[i / SIZES][i % SIZES]);
    return NULL;
}

/* Bytes of a painted stack, from its top, down to the deepest one that a thread wrote. */
static size_t depth(struct errand e)
{
    pthread_attr_t attr;
    pthread_t thread;
    size_t clean = 0;

    memset(thread_stack, PAINT, STACK);
    if (pthread_attr_init(&attr) != 0 || pthread_attr_setstack(&attr, thread_stack, STACK) != 0
        || pthread_create(&thread, &attr, run_errand, &e) != 0 || pthread_join(thread, NULL) != 0) {
        puts("no thread with a stack of its own");
        exit(1);
    }
    pthread_attr_destroy(&attr);
    while (clean < STACK && thread_stack[clean] == PAINT)
        clean++;
    return STACK - clean;
}

static void measure_stack(void)
{
    size_t bare = depth((struct errand){.bare = 1});

    for (enum routine r = MARK; r < ROUTINES; r++)
        for (enum maker by = OURS; by < MAKERS; by++) {
            size_t used = depth((struct errand){.routine = r, .by = by});

            stack_used[r][by] = used > bare ? (double)(used - bare) : 0;
        }
}

/* ---- what is said ---- */

static double ratio(size_t kind, size_t size, enum routine r)
{
    return cost[kind][size][r][OURS] / cost[kind][size][r][PLAIN];
}

static double growth(size_t kind, enum routine r, enum maker by, size_t from, size_t to)
{
    return cost[kind][to][r][by] / cost[kind][from][r][by];
}

static double larger(double a, double b)
{
    return a > b ? a : b;
}

static double worst_ratio(void)
{
    double worst = 0;

    for (size_t i = 0; i < DRAWN * SIZES * ROUTINES; i++)
        worst = larger(worst, ratio(i / ROUTINES / SIZES, i / ROUTINES % SIZES, (enum routine)(i % ROUTINES)));
    return worst;
}

static double worst_growth(void)
{
    double worst = 0;

    for (enum routine r = MARK; r < ROUTINES; r++)
        worst = larger(worst, larger(growth(STORY, r, OURS, 0, 1), growth(STORY, r, OURS, 0, 2)));
    return worst;
}

/* A bar that is held to the kinds from one up to, and without, another. */
static int say_bar(const char *name, double measured, double bar, size_t from, size_t to)
{
    printf("bar %s %.2f %.2f %s", name, measured, bar, measured <= bar ? "yes" : "no");
    for (size_t kind = from; kind < to; kind++)
        printf(" %s", kind_name(kind));
    putchar('\n');
    return measured <= bar;
}

static void measure_costs(void)
{
    for (size_t i = 0; i < KINDS * SIZES * ROUTINES; i++) {
        size_t kind = i / ROUTINES / SIZES, size = i / ROUTINES % SIZES;
        enum routine r = (enum routine)(i % ROUTINES);
        double *c = cost[kind][size][r];

        time_batch(r, &batches[kind][size], c);
        printf("cost %s %zu %s %.1f %.1f %.2f\n", kind_name(kind), sizes[size], routine_name[r], c[OURS], c[PLAIN],
               ratio(kind, size, r));
        fflush(stdout);
    }
}

static void say_growth(void)
{
    for (size_t i = 0; i < KINDS * ROUTINES * (SIZES - 1); i++) {
        size_t from = i % (SIZES - 1), kind = i / (SIZES - 1) / ROUTINES;
        enum routine r = (enum routine)(i / (SIZES - 1) % ROUTINES);

        printf("growth %s %s %zu %.2f %.2f\n", kind_name(kind), routine_name[r], sizes[from],
               growth(kind, r, OURS, from, SIZES - 1), growth(kind, r, PLAIN, from, SIZES - 1));
    }
}

static int say_bars(void)
{
    double deepest = larger(stack_used[MARK][OURS], stack_used[KEY][OURS]);
    int kept = 1;

    for (enum routine r = MARK; r < ROUTINES; r++)
        printf("stack %s %.0f %.0f\n", routine_name[r], stack_used[r][OURS], stack_used[r][PLAIN]);
    kept &= say_bar("ratio", worst_ratio(), ratio_bar, 0, DRAWN);
    kept &= say_bar("stack", deepest, stack_bar, 0, KINDS);
    kept &= say_bar("growth", worst_growth(), growth_bar, STORY, KINDS);
    return kept;
}

int main(int argc, char **argv)
{
    int check = 0;

    for (int i = 1; i < argc; i++)
        if (strcmp(argv[i], "--check") == 0) {
            check = 1;
        } else if (strcmp(argv[i], "--quick") == 0) {
            slice = 0.005;
            turns = 7;
        } else {
            fprintf(stderr, "usage: bench [--quick] [--check]\n");
            return 2;
        }
    for (size_t i = 0; i < KINDS * SIZES; i++)
        draw_batch(i / SIZES, i % SIZES);
    measure_costs();
    measure_stack();
    say_growth();
    return !say_bars() && check;
}
