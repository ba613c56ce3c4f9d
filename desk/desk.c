/* desk PAPER [SHEET...]: marks each sheet against the paper, prints a line for each and one for all. See desk(1). */
#include <errno.h>
#include <stdio.h>
#include <string.h>
#include "brinefeather.h"
#include "place.h"

enum { ALL_MARKED = 0, SHEET_REFUSED = 1, PAPER_REFUSED = 2, WRONG_USAGE = 64, NOT_PRINTED = 74 };

struct paper {
    uint8_t bytes[BRINEFEATHER_LONGEST_PAPER + 1];
    size_t len;
};

struct sheet {
    uint8_t bytes[BRINEFEATHER_LONGEST_SHEET + 1];
    size_t len;
};

struct sums {
    unsigned long sheets, marked, perfect, refused, right;
};

static size_t unreadable(const char *name)
{
    const int why = errno;

    fflush(stdout);
    fprintf(stderr, "desk: %s: %s (it counts as empty)\n", name, strerror(why));
    return 0;
}

static size_t read_file(const char *name, uint8_t *bytes, size_t room)
{
    FILE *file = fopen(name, "rb");
    size_t len;

    if (!file)
        return unreadable(name);
    len = fread(bytes, 1, room, file);
    if (ferror(file))
        len = unreadable(name);
    fclose(file);
    return len;
}

/* What mark prints of it, and then in words. */
static void print_refusal(const char *name, uint64_t refusal, const uint8_t *file, size_t len)
{
    const unsigned number = brinefeather_refused(refusal);

    printf("%s: refused %u", name, number);
    if (place_is_told(number))
        printf(" %u", brinefeather_offset(refusal));
    fputs(" (", stdout);
    place_print(stdout, refusal, file, len);
    puts(")");
}

/* 0 for a paper that is not refused: then the empty sheet is, since the paper comes before the sheet. */
static uint64_t paper_refusal(const struct paper *paper)
{
    const uint64_t refusal = brinefeather_mark(paper->bytes, paper->len, NULL, 0);

    return brinefeather_refused(refusal) == BRINEFEATHER_BADSHEET ? 0 : refusal;
}

static void print_mark(const char *name, uint64_t mark)
{
    printf("%s: total %u right %u missing %u surplus %u perfect %s\n", name, brinefeather_total(mark),
           brinefeather_right(mark), brinefeather_missing(mark), brinefeather_surplus(mark),
           brinefeather_perfect(mark) ? "yes" : "no");
}

static void mark_sheet(const struct paper *paper, const char *name, struct sums *sums)
{
    static struct sheet sheet;
    uint64_t mark;

    sheet.len = read_file(name, sheet.bytes, sizeof sheet.bytes);
    mark = brinefeather_mark(paper->bytes, paper->len, sheet.bytes, sheet.len);
    sums->sheets++;
    if (brinefeather_refused(mark)) {
        sums->refused++;
        print_refusal(name, mark, sheet.bytes, sheet.len);
        return;
    }
    sums->marked++;
    sums->perfect += brinefeather_perfect(mark) ? 1 : 0;
    sums->right += brinefeather_right(mark);
    print_mark(name, mark);
}

static int mark_all(const struct paper *paper, char **names)
{
    struct sums sums = {0, 0, 0, 0, 0};

    for (; *names; names++)
        mark_sheet(paper, *names, &sums);
    printf("all: sheets %lu marked %lu perfect %lu refused %lu right %lu\n", sums.sheets, sums.marked, sums.perfect,
           sums.refused, sums.right);
    return sums.refused ? SHEET_REFUSED : ALL_MARKED;
}

static int run_desk(const char *name, char **sheet_names)
{
    static struct paper paper;
    uint64_t refusal;

    paper.len = read_file(name, paper.bytes, sizeof paper.bytes);
    refusal = paper_refusal(&paper);
    if (!refusal)
        return mark_all(&paper, sheet_names);
    print_refusal(name, refusal, paper.bytes, paper.len);
    return PAPER_REFUSED;
}

int main(int argc, char **argv)
{
    int status;

    if (argc < 2) {
        fprintf(stderr, "usage: desk PAPER [SHEET...]\n");
        return WRONG_USAGE;
    }
    status = run_desk(argv[1], argv + 2);
    errno = 0; /* it stays 0 if an earlier write failed and this one does not */
    if (fflush(stdout) == 0 && !ferror(stdout))
        return status;
    fprintf(stderr, "desk: not all could be printed%s%s\n", errno ? ": " : "", errno ? strerror(errno) : "");
    return NOT_PRINTED;
}
