/*
 * What the refusal of a file means, in words, for desk, transcribe and the demo: which field is broken, what it holds
 * and what it may hold. The head of brinefeather.h lists the fields. The place is the one that the marker gave: it is
 * not looked for here.
 */
#ifndef PLACE_H
#define PLACE_H

#include <stdio.h>
#include "brinefeather.h"

enum { PLACE_PAPER_HEADER = 12, PLACE_EVENT = 20, PLACE_SEQUENCE = 16, PLACE_SHEET_HEADER = 6, PLACE_ANSWER = 16 };

static inline unsigned place_number(const uint8_t *file, size_t at)
{
    return (unsigned)file[at] << 8 | file[at + 1];
}

static inline const char *place_plural(size_t n)
{
    return n == 1 ? "" : "s";
}

static inline void place_short(FILE *out, const char *what, size_t header, size_t len)
{
    if (len == 0)
        fprintf(out, "the file is empty; a %s has at least %zu bytes", what, header);
    else
        fprintf(out, "the file has only %zu byte%s; a %s has at least %zu", len, place_plural(len), what, header);
}

/* Of a file longer than the longest legal one, a program may have read a part only. */
static inline void place_length(FILE *out, size_t len, size_t longest)
{
    if (len > longest)
        fprintf(out, "more than %zu", longest);
    else
        fprintf(out, "%zu", len);
}

static inline void place_paper_length(FILE *out, const uint8_t *paper, size_t len)
{
    const unsigned events = place_number(paper, 2), sequences = place_number(paper, 6);

    fprintf(out, "the length is %u in the header and ", place_number(paper, 10));
    place_length(out, len, BRINEFEATHER_LONGEST_PAPER);
    fprintf(out, " in the file; with %u event%s and %u sequence%s it must be %u", events, place_plural(events),
            sequences, place_plural(sequences), PLACE_PAPER_HEADER + PLACE_EVENT * events + PLACE_SEQUENCE * sequences);
}

static inline void place_event(FILE *out, const uint8_t *paper, size_t at)
{
    const size_t event = (at - PLACE_PAPER_HEADER) / PLACE_EVENT;

    fprintf(out, "event %zu names sequence %u, the paper has %u", event + 1, place_number(paper, at),
            place_number(paper, 6));
}

static inline void place_in_paper(FILE *out, const uint8_t *paper, size_t len, size_t at)
{
    const unsigned events = len < PLACE_PAPER_HEADER ? 0 : place_number(paper, 2);

    if (len < PLACE_PAPER_HEADER)
        place_short(out, "paper", PLACE_PAPER_HEADER, len);
    else if (at == 0)
        fprintf(out, "the version is %u; it must be 1", place_number(paper, at));
    else if (at == 2)
        fprintf(out, "the event count is %u; it must be from 0 to 1000", events);
    else if (at == 4)
        fprintf(out, "the header says that the events start at %u; they must start at %d", place_number(paper, at),
                PLACE_PAPER_HEADER);
    else if (at == 6)
        fprintf(out, "the sequence count is %u; it must be from 0 to 64", place_number(paper, at));
    else if (at == 8)
        fprintf(out, "the header says that the sequences start at %u; with %u event%s they must start at %u",
                place_number(paper, at), events, place_plural(events), PLACE_PAPER_HEADER + PLACE_EVENT * events);
    else if (at == 10)
        place_paper_length(out, paper, len);
    else
        place_event(out, paper, at);
}

static inline void place_answer_count(FILE *out, unsigned answers, size_t len)
{
    if (answers > 1000) {
        fprintf(out, "the answer count is %u; it must be from 0 to 1000", answers);
        return;
    }
    fputs("the file has ", out);
    place_length(out, len, BRINEFEATHER_LONGEST_SHEET);
    fprintf(out, " bytes; with %u answer%s it must have %u", answers, place_plural(answers),
            PLACE_SHEET_HEADER + PLACE_ANSWER * answers);
}

static inline void place_in_sheet(FILE *out, const uint8_t *sheet, size_t len, size_t at)
{
    if (len < PLACE_SHEET_HEADER)
        place_short(out, "sheet", PLACE_SHEET_HEADER, len);
    else if (at == 0)
        fprintf(out, "the version is %u; it must be 1", place_number(sheet, at));
    else if (at == 2)
        place_answer_count(out, place_number(sheet, at), len);
    else
        fprintf(out, "the header says that the answers start at %u; they must start at %d", place_number(sheet, at),
                PLACE_SHEET_HEADER);
}

/* Badpaper and badsheet have an offset. */
static inline int place_is_told(unsigned number)
{
    return number == BRINEFEATHER_BADPAPER || number == BRINEFEATHER_BADSHEET;
}

/* For a refusal that brinefeather_mark returned of this file: of the paper, or for badsheet of the sheet. */
static inline void place_print(FILE *out, uint64_t refusal, const uint8_t *file, size_t len)
{
    const unsigned number = brinefeather_refused(refusal), offset = brinefeather_offset(refusal);

    fprintf(out, "%s: ", brinefeather_refusal_name(number));
    if (number == BRINEFEATHER_BADPAPER)
        place_in_paper(out, file, len, offset);
    else if (number == BRINEFEATHER_BADSHEET)
        place_in_sheet(out, file, len, offset);
    else
        fputs("the paper has no events", out);
    if (place_is_told(number))
        fprintf(out, " (offset %u)", offset);
}

#endif
