/*
 * Draws papers and sheets for transcribe-test.sh. Usage: transcribe-test FOLDER COUNT SEED writes FOLDER/paper1,
 * FOLDER/sheet1 and so on. Odd ones are a generated paper and its key, even ones have anything that the layout allows.
 * FOLDER/broken1 is one of the two broken, so that it is neither a paper nor a sheet, and FOLDER/places1 says where.
 */
#include <stdio.h>
#include <stdlib.h>
#include <string.h>
#include "brinefeather.h"
#include "generate.h"
#include "plain.h"

#define COUNT(list) (sizeof (list) / sizeof (list)[0])
#define ONE_OF(list) ((list)[generate_below(COUNT(list))])

enum { PAPER_HEADER = 12, EVENT = 20, SHEET_HEADER = 6, ANSWER = 16, MOST = 1000, MOST_SEQUENCES = 64 };
enum { LOCK = 0x3E, SEQUENCE_NUMBER = 18 };

enum { MORE = 40 }; /* bytes, at most, that a broken file has behind it */

static uint8_t paper[BRINEFEATHER_LONGEST_PAPER], sheet[BRINEFEATHER_LONGEST_SHEET];
static uint8_t broken[BRINEFEATHER_LONGEST_PAPER + MORE];

static void put16(uint8_t *at, size_t n)
{
    at[0] = (uint8_t)(n >> 8);
    at[1] = (uint8_t)n;
}

static void put_header(uint8_t *file, const size_t *numbers, size_t count)
{
    for (size_t i = 0; i < count; i++)
        put16(file + 2 * i, numbers[i]);
}

/* Many zeros, so that some fields are all zero. */
static void draw_bytes(uint8_t *bytes, size_t len)
{
    const int sparse = generate_one_in(2);

    for (size_t i = 0; i < len; i++)
        bytes[i] = sparse && !generate_one_in(4) ? 0 : (uint8_t)generate_draw();
}

static void draw_sequence(uint8_t *sequence)
{
    static const char *const texts[] = {"TABLE", "TABLE", "TABLE2", "LEFT BIN", "shared", "unshared", "conditional",
                                        "each", "1", "0x41", "-1", "12h", "#1", "S=1", "a:b", "a,b", "\"A\"", " ", "A ",
                                        "SIXTEEN LETTERS!", "\x7F", "\xC3\x9F", "=", ".", "tick"};
    const char *text = ONE_OF(texts);

    memset(sequence, 0, SEQ);
    if (generate_one_in(3))
        draw_bytes(sequence, SEQ);
    else
        memcpy(sequence, text, strlen(text));
}

/* Lock or unlock of a whole sequence, mostly, as its words would say it. */
static void draw_lock(uint8_t *event, const uint8_t *sequences, size_t count)
{
    const size_t number = 1u + generate_below(count);
    size_t len = 0;

    while (len < SEQ && sequences[SEQ * (number - 1) + len])
        len++;
    memset(event, 0, EVENT);
    event[0] = EV_CALL;
    event[1] = (uint8_t)(LOCK + generate_below(2));
    event[3] = (uint8_t)generate_below(5);
    event[9] = (uint8_t)generate_below(5);
    event[13] = (uint8_t)(len + (generate_one_in(8) ? 1 : 0));
    event[5] = (uint8_t)generate_one_in(16);
    event[17] = (uint8_t)generate_one_in(16);
    put16(event + 18, number);
}

static void draw_event(uint8_t *event, const uint8_t *sequences, size_t count)
{
    if (count && generate_one_in(3)) {
        draw_lock(event, sequences, count);
        return;
    }
    draw_bytes(event, EVENT);
    if (!generate_one_in(4))
        event[0] = (uint8_t)(1 + generate_below(4));
    put16(event + 18, generate_below(count + 1));
}

static size_t draw_wild_paper(void)
{
    const size_t events = generate_one_in(10) ? 0 : generate_below(generate_one_in(5) ? MOST + 1 : 40);
    const size_t sequences = generate_below(generate_one_in(3) ? MOST_SEQUENCES + 1 : 8);
    const size_t start = PAPER_HEADER + EVENT * events, end = start + SEQ * sequences;
    const size_t numbers[] = {1, events, PAPER_HEADER, sequences, start, end};

    put_header(paper, numbers, COUNT(numbers));
    for (size_t i = 0; i < sequences; i++)
        draw_sequence(paper + start + SEQ * i);
    for (size_t i = 0; i < events; i++)
        draw_event(paper + PAPER_HEADER + EVENT * i, paper + start, sequences);
    return end;
}

static size_t draw_wild_sheet(void)
{
    const size_t answers = generate_below(generate_one_in(5) ? MOST + 1 : 40);
    const size_t numbers[] = {1, answers, SHEET_HEADER};

    put_header(sheet, numbers, COUNT(numbers));
    for (size_t i = 0; i < answers; i++) {
        uint8_t *answer = sheet + SHEET_HEADER + ANSWER * i;

        draw_bytes(answer, ANSWER);
        if (!generate_one_in(4))
            answer[0] = (uint8_t)generate_below(4);
        if (!generate_one_in(4))
            put16(answer + 6, 0);
        if (answer[0] != REFUSED && !generate_one_in(4))
            answer[1] = 0;
    }
    return SHEET_HEADER + ANSWER * answers;
}

/* ---- broken files ---- */

static uint64_t refused_as_paper(const uint8_t *file, size_t len)
{
    const uint64_t n = plain_mark(file, len, NULL, 0);

    return brinefeather_refused(n) == BRINEFEATHER_BADPAPER ? n : 0;
}

static uint64_t refused_as_sheet(const uint8_t *file, size_t len)
{
    static const uint8_t tick[PAPER_HEADER + EVENT] = {0, 1, 0, 1, 0, 12, 0, 0, 0, 32, 0, 32, EV_TICK};
    const uint64_t n = plain_mark(tick, sizeof tick, file, len);

    return brinefeather_refused(n) ? n : 0;
}

/* A number a little off, or any. */
static void break_number(size_t at)
{
    const size_t number = (size_t)broken[at] << 8 | broken[at + 1];

    put16(broken + at, generate_one_in(2) ? number + generate_below(5) - 2 : generate_below(65536));
}

static size_t break_length(size_t len)
{
    switch (generate_below(4)) {
    case 0: return generate_below(PAPER_HEADER);
    case 1: return generate_below(len + 1);
    case 2: return len - (len > 0);
    default: return len + 1 + generate_below(MORE / 2);
    }
}

/* A number of the header, the length, or a sequence number if it is a paper. Returns the length. */
static size_t break_once(size_t len)
{
    const size_t events = len < PAPER_HEADER ? 0 : (len - PAPER_HEADER) / EVENT;

    if (generate_one_in(3))
        return break_length(len);
    if (events > 0 && generate_one_in(2))
        break_number(PAPER_HEADER + EVENT * (size_t)generate_below(events) + SEQUENCE_NUMBER);
    else
        break_number(2u * generate_below(PAPER_HEADER / 2));
    return len;
}

/* Leaves a file that is refused as a paper and as a sheet. Returns its length. */
static size_t draw_broken(const uint8_t *file, size_t whole)
{
    size_t len;

    do {
        memcpy(broken, file, whole);
        len = break_once(whole);
        len = generate_one_in(2) ? break_once(len) : len;
    } while (!refused_as_paper(broken, len) || !refused_as_sheet(broken, len));
    return len;
}

/* ---- all of it ---- */

static void save(const char *folder, const char *name, unsigned number, const uint8_t *bytes, size_t len)
{
    char path[4096];
    FILE *out;

    snprintf(path, sizeof path, "%s/%s%u", folder, name, number);
    out = fopen(path, "wb");
    if (!out || fwrite(bytes, 1, len, out) != len || fclose(out) != 0) {
        fprintf(stderr, "%s: cannot be written\n", path);
        exit(EXIT_FAILURE);
    }
}

/* The places are two lines, as "badpaper 10" and "badsheet 4". */
static void save_broken(const char *folder, unsigned number, const uint8_t *file, size_t whole)
{
    const size_t len = draw_broken(file, whole);
    char text[40] = "";
    const int text_len = snprintf(text, sizeof text, "badpaper %u\nbadsheet %u\n",
                                  brinefeather_offset(refused_as_paper(broken, len)),
                                  brinefeather_offset(refused_as_sheet(broken, len)));

    save(folder, "broken", number, broken, len);
    save(folder, "places", number, (const uint8_t *)text, (size_t)text_len);
}

int main(int count, char **words)
{
    if (count != 4)
        return EXIT_FAILURE;
    generate_seed(strtoull(words[3], NULL, 10));
    for (unsigned i = 1; i <= strtoul(words[2], NULL, 10); i++) {
        size_t paper_len, sheet_len;

        if (i % 2 == 1) {
            paper_len = generate_paper((enum generate_theme)(i / 2 % GENERATE_THEMES), 1u + generate_below(200), paper);
            sheet_len = (size_t)plain_key(paper, paper_len, sheet, sizeof sheet);
        } else {
            paper_len = draw_wild_paper();
            sheet_len = draw_wild_sheet();
        }
        save(words[1], "paper", i, paper, paper_len);
        save(words[1], "sheet", i, sheet, sheet_len);
        if (i % 3 == 0)
            save_broken(words[1], i, sheet, sheet_len);
        else
            save_broken(words[1], i, paper, paper_len);
    }
    return EXIT_SUCCESS;
}
