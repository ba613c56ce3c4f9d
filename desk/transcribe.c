/*
 * Writes papers and sheets from text, and shows them as text: desk/man/transcribe.1 and examples/README.md say how the
 * lines read. Every paper and sheet that is laid out right can be shown, and what was shown gives the same bytes again.
 * The archive's routines lay out papers, and say whether a file is laid out right.
 */
#include <ctype.h>
#include <stdarg.h>
#include <stddef.h>
#include <stdint.h>
#include <stdio.h>
#include <stdlib.h>
#include <string.h>
#include "brinefeather.h"
#include "place.h"

#define COUNT(list) (sizeof (list) / sizeof (list)[0])
#define BYTE_ORDER_MARK "\xEF\xBB\xBF" /* some editors begin a text with it */

enum { PAPER_HEADER = 12, EVENT = 20, SEQUENCE = 16, SHEET_HEADER = 6, ANSWER = 16 };
enum { MOST = 1000, LONGEST = BRINEFEATHER_LONGEST_PAPER };
enum { EVENT_COUNT = 1, ANSWER_COUNT = 1, SEQUENCE_COUNT = 3, SEQUENCE_START = 4, PAPER_LENGTH = 5 }; /* of a header */
enum { MOST_COMPLAINTS = 20 };
enum { CALL = 1, TICK, TAKE, REPORT };
enum { DONE, ASLEEP, ENDED, REFUSED };
enum { LOCK = 0x3E, UNLOCK = 0x3F };
enum { SHARED = 0, UNSHARED = 1, CONDITIONAL = 2 };

/* Where a field stands in its record, and how many bytes it has. */
struct field {
    const char *name;
    size_t at, size;
};

enum { D0, D1, D2, D3, A0, S };
static const struct field registers[] = {{"D0", 4, 2}, {"D1", 6, 2}, {"D2", 8, 2}, {"D3", 10, 4}, {"A0", 14, 4},
                                         {"S", 18, 2}};
static const struct field call_field = {"call", 1, 1}, caller_field = {"caller", 2, 2};

enum { ANSWER_D3, ANSWER_A0, WOKEN, ENDED_MASK };
static const struct field results[] = {{"D3", 8, 4}, {"A0", 12, 4}, {"woken", 2, 2}, {"ended", 4, 2}};
static const struct field zero_field = {"zero", 6, 2};

static const struct {
    const char *name;
    uint8_t number;
} calls[] = {{"getuser", 0x34}, {"setuser", 0x35}, {"getgroup", 0x36}, {"setgroup", 0x37}, {"getprior", 0x38},
             {"setprior", 0x39}, {"getproc", 0x3A}, {"lock", LOCK}, {"unlock", UNLOCK}, {"signal", 0x40},
             {"kill", 0x41}, {"sleep", 0x42}, {"alarm", 0x43}, {"pause", 0x44}, {"exit", 0x46}, {"fshell", 0x48},
             {"indirect", 0x51}};
static const char *const event_kinds[] = {NULL, NULL, "tick", "take", "report"};
static const char *const answer_kinds[] = {"done", "asleep", "ended", "refused"};

/* What a text gave so far, or what a file holds. The writer lays a paper out; before its first call it is empty. */
static struct {
    uint8_t bytes[LONGEST];
    uint64_t writer;
    size_t place; /* of the last event of the text */
} paper = {{0, 1, 0, 0, 0, PAPER_HEADER, 0, 0, 0, PAPER_HEADER, 0, PAPER_HEADER}, 0, 0};
static struct {
    uint8_t answer[MOST][ANSWER];
    size_t answers;
} sheet;

/*
 * The line that is read, and where in it. After a complaint the rest of the line is not judged; the lines after it are,
 * but nothing will be written.
 */
static struct {
    const char *file, *at;
    unsigned number, complaints;
    int bad;
} line;

struct word {
    char text[48];
    int quoted;
};

/* A line that is made. */
struct made {
    char text[512];
    size_t len;
};

/* ---- numbers in records ---- */

static uint32_t get(const uint8_t *record, struct field f)
{
    uint32_t n = 0;

    for (size_t i = 0; i < f.size; i++)
        n = n << 8 | record[f.at + i];
    return n;
}

static void put(uint8_t *record, struct field f, uint32_t n)
{
    for (size_t i = f.size; i-- > 0; n >>= 8)
        record[f.at + i] = (uint8_t)n;
}

/* A header is a row of 16-bit numbers. */
static uint32_t header(const uint8_t *file, size_t i)
{
    return get(file, (struct field){"header", 2 * i, 2});
}

static void put_header(uint8_t *file, const size_t *numbers, size_t count)
{
    for (size_t i = 0; i < count; i++)
        put(file, (struct field){"header", 2 * i, 2}, (uint32_t)numbers[i]);
}

static size_t event_count(void)
{
    return header(paper.bytes, EVENT_COUNT);
}

static size_t sequence_count(void)
{
    return header(paper.bytes, SEQUENCE_COUNT);
}

static const uint8_t *event_at(size_t i)
{
    return paper.bytes + PAPER_HEADER + EVENT * i;
}

static const uint8_t *sequence_at(size_t i)
{
    return paper.bytes + header(paper.bytes, SEQUENCE_START) + SEQUENCE * i;
}

/* ---- words of a line ---- */

#if defined __GNUC__
__attribute__((format(printf, 1, 2)))
#endif
static void complain(const char *format, ...)
{
    va_list more;

    if (line.bad)
        return;
    line.bad = 1;
    if (++line.complaints > MOST_COMPLAINTS)
        return;
    fprintf(stderr, "%s: line %u: ", line.file, line.number);
    va_start(more, format);
    vfprintf(stderr, format, more);
    va_end(more);
    fputc('\n', stderr);
}

static int is_gap(char c)
{
    return c == ' ' || c == '\t';
}

static int at_end(void)
{
    while (is_gap(*line.at))
        line.at++;
    return *line.at == '\0' || *line.at == '#';
}

static int ends_word(char c, const char *stops)
{
    return c == '\0' || is_gap(c) || strchr(stops, c) != NULL;
}

/* The next word, up to a gap or one of the stops, or what stands in quotes; empty at the line's end. */
static struct word read_word(const char *stops)
{
    struct word w = {{0}, 0};
    size_t n = 0;

    if (at_end())
        return w;
    w.quoted = *line.at == '"';
    line.at += w.quoted;
    while (w.quoted ? *line.at != '\0' && *line.at != '"' : !ends_word(*line.at, stops)) {
        if (n + 1 < sizeof w.text)
            w.text[n++] = *line.at;
        line.at++;
    }
    if (w.quoted && *line.at == '\0')
        complain("the quotation mark is not closed");
    else
        line.at += w.quoted;
    if (n + 1 == sizeof w.text)
        complain("'%.20s..' is too long", w.text);
    return w;
}

static int is(const struct word *w, const char *text)
{
    return !w->quoted && strcmp(w->text, text) == 0;
}

/* Reads the next word if it is this one. */
static int next_is(const char *text)
{
    const char *before = line.at;
    struct word w = read_word(":=");

    if (is(&w, text))
        return 1;
    line.at = before;
    return 0;
}

static int next_sign_is(char sign)
{
    if (at_end() || *line.at != sign)
        return 0;
    line.at++;
    return 1;
}

/* The value of a digit in the base, or the base. */
static int digit(char c, int base)
{
    const char *const digits = "0123456789abcdef", *found = strchr(digits, tolower((unsigned char)c));
    const ptrdiff_t n = found ? found - digits : base;

    return c != '\0' && n < base ? (int)n : base;
}

static int digits_of(const char *digits, size_t len, int base, int64_t *value)
{
    *value = 0;
    if (len == 0 || len > 10)
        return 0;
    for (size_t i = 0; i < len; i++) {
        if (digit(digits[i], base) == base)
            return 0;
        *value = *value * base + digit(digits[i], base);
    }
    return 1;
}

/* Decimal, perhaps negative, or hex as 0x1F or 1Fh. Is it a number? */
static int number_of(const char *text, int64_t *value)
{
    const size_t len = strlen(text);
    int found;

    if (strncmp(text, "0x", 2) == 0)
        return digits_of(text + 2, len - 2, 16, value);
    if (len > 1 && text[len - 1] == 'h')
        return digits_of(text, len - 1, 16, value);
    if (text[0] != '-')
        return digits_of(text, len, 10, value);
    found = digits_of(text + 1, len - 1, 10, value);
    *value = -*value;
    return found;
}

static uint32_t read_number(const char *what, int64_t least, int64_t most)
{
    struct word w = read_word(":=,");
    int64_t value = 0;

    if (w.text[0] == '\0')
        complain("%s is missing", what);
    else if (w.quoted || !number_of(w.text, &value))
        complain("%s is '%s', which is no number", what, w.text);
    else if (value < least || value > most)
        complain("%s is %s; it must be from %lld to %lld", what, w.text, (long long)least, (long long)most);
    return line.bad ? 0 : (uint32_t)value;
}

static void expect_end(void)
{
    struct word w;

    if (at_end())
        return;
    w = read_word("");
    complain("'%s' is too much here", w.text);
}

/* A line may begin with its place, as in "3: done". After a wrong one the count goes on from there. */
static void read_place(const char *what, size_t *count)
{
    const char *before = line.at;
    struct word w = read_word(":=");
    int64_t value;

    if (w.quoted || !number_of(w.text, &value) || !next_sign_is(':')) {
        line.at = before;
        return;
    }
    if (value == (int64_t)*count + 1)
        return;
    complain("this is %s %zu, not %s", what, *count + 1, w.text);
    if (value >= 1 && value <= MOST)
        *count = (size_t)value - 1;
}

/* ---- sequences ---- */

static int is_text(char c)
{
    return c >= ' ' && c <= '~' && c != '"';
}

/* How long the text of a sequence is; 0 if it has to be written in hex. */
static size_t text_length(const uint8_t *sequence)
{
    size_t len = 0;

    while (len < SEQUENCE && is_text((char)sequence[len]))
        len++;
    for (size_t i = len; i < SEQUENCE; i++)
        if (sequence[i] != 0)
            return 0;
    return len;
}

/* The number of the first sequence with this text, or 0. */
static size_t number_named(const char *text)
{
    uint8_t sequence[SEQUENCE] = {0};
    const size_t len = strlen(text);

    if (len == 0 || len > SEQUENCE)
        return 0;
    memcpy(sequence, text, len);
    for (size_t i = 0; i < sequence_count(); i++)
        if (memcmp(sequence_at(i), sequence, SEQUENCE) == 0)
            return i + 1;
    return 0;
}

static void read_hex_bytes(uint8_t *bytes, const char *digits)
{
    const size_t len = strlen(digits);

    if (len == 0 || len % 2 != 0 || len > 2 * SEQUENCE) {
        complain("a sequence in hex has two digits for each of its 1 to %d bytes", SEQUENCE);
        return;
    }
    for (size_t i = 0; i < len; i++) {
        int n = digit(digits[i], 16);

        if (n == 16)
            complain("'%c' is no hex digit", digits[i]);
        bytes[i / 2] = (uint8_t)(bytes[i / 2] * 16 + n);
    }
}

static void read_text_bytes(uint8_t *bytes, const char *text)
{
    const size_t len = strlen(text);

    if (len == 0 || len > SEQUENCE) {
        complain("a sequence has 1 to %d characters", SEQUENCE);
        return;
    }
    for (size_t i = 0; i < len; i++)
        if (!is_text(text[i]))
            complain("a sequence with such a character is written in hex, as 0x5441424C45 for TABLE");
    memcpy(bytes, text, len);
}

/* Takes what the writer returned: the new writer, or a refusal, which is told in words. */
static void take_writer(uint64_t n, const char *out_of_order, const char *full)
{
    const unsigned number = brinefeather_refused(n);

    if (number == 0)
        paper.writer = n;
    else if (number == BRINEFEATHER_ORDER)
        complain("%s", out_of_order);
    else if (number == BRINEFEATHER_FULL)
        complain("%s", full);
    else
        complain("the paper does not take it (%s)", brinefeather_refusal_name(number));
}

static void read_sequence(void)
{
    struct word w = read_word("");
    uint8_t bytes[SEQUENCE] = {0};

    if (!w.quoted && strncmp(w.text, "0x", 2) == 0)
        read_hex_bytes(bytes, w.text + 2);
    else
        read_text_bytes(bytes, w.text);
    expect_end();
    if (!line.bad)
        take_writer(brinefeather_add_sequence(paper.writer, paper.bytes, sizeof paper.bytes, bytes, SEQUENCE),
                    "sequences stand before the events", "a paper has at most 64 sequences");
}

/* ---- an event from its line ---- */

static void set_register(uint8_t *event, unsigned *given, unsigned r, uint32_t value)
{
    if (*given >> r & 1)
        complain("%s is given twice", registers[r].name);
    *given |= 1u << r;
    put(event, registers[r], value);
}

/* Its number, or its text; a number in hex begins with a digit here. */
static uint32_t read_sequence_name(void)
{
    struct word w = read_word("");
    int64_t value = 0;

    if (w.quoted || isalpha((unsigned char)w.text[0]) || !number_of(w.text, &value)) {
        value = (int64_t)number_named(w.text);
        if (value == 0)
            complain("no sequence is named '%s'", w.text);
    } else if (value < 0 || value > (int64_t)sequence_count())
        complain("there is no sequence %s: the paper has %zu", w.text, sequence_count());
    return (uint32_t)value;
}

static void read_register(uint8_t *event, unsigned *given)
{
    struct word w = read_word("=");
    unsigned r = 0;

    while (r < COUNT(registers) && !is(&w, registers[r].name))
        r++;
    if (r == COUNT(registers))
        complain("no register is named '%s'", w.text);
    else if (!next_sign_is('='))
        complain("%s wants a value, as %s=1", w.text, w.text);
    else if (r == S)
        set_register(event, given, r, read_sequence_name());
    else {
        const int64_t range = (int64_t)1 << 8 * registers[r].size;

        set_register(event, given, r, read_number(w.text, -range / 2, range - 1));
    }
}

static int register_next(void)
{
    const char *before = line.at;
    int found;

    read_word("=");
    found = *line.at == '=';
    line.at = before;
    return found;
}

static void read_lock_name(uint8_t *event, unsigned *given)
{
    struct word w = read_word("");
    const size_t number = number_named(w.text);

    if (number == 0)
        complain("no sequence is named '%s'", w.text);
    set_register(event, given, D3, (uint32_t)strlen(w.text));
    set_register(event, given, S, (uint32_t)number);
}

static void choose(int *sharing, int choice)
{
    if (*sharing >= 0 && *sharing != choice)
        complain("shared and unshared do not go together");
    *sharing = choice;
}

/* "unshared conditional TABLE" and the like, in place of D2, D3 and S. */
static void read_lock_words(uint8_t *event, unsigned *given)
{
    int conditional = 0, sharing = -1;

    for (;;) {
        if (next_is("conditional"))
            conditional = CONDITIONAL;
        else if (next_is("shared"))
            choose(&sharing, SHARED);
        else if (next_is("unshared"))
            choose(&sharing, UNSHARED);
        else
            break;
    }
    if (sharing >= 0)
        set_register(event, given, D2, (uint32_t)(sharing + conditional));
    if (!at_end() && !register_next())
        read_lock_name(event, given);
    if (sharing < 0 && (conditional || (event[call_field.at] == LOCK && *given)))
        complain("say shared or unshared");
}

static void read_call_number(uint8_t *event)
{
    put(event, call_field, read_number("the call's number", 0, 255));
}

static void read_call(uint8_t *event, const struct word *w, unsigned *given)
{
    size_t i = 0;

    while (i < COUNT(calls) && !is(w, calls[i].name))
        i++;
    event[0] = CALL;
    if (is(w, "call"))
        read_call_number(event);
    else if (w->text[0] == '\0')
        complain("a call is missing");
    else if (i == COUNT(calls))
        complain("no call is named '%s'", w->text);
    else
        event[call_field.at] = calls[i].number;
    if (event[call_field.at] == LOCK || event[call_field.at] == UNLOCK)
        read_lock_words(event, given);
}

/* Kind and call. */
static void read_deed(uint8_t *event, unsigned *given)
{
    struct word w = read_word(":=");
    uint8_t kind = TICK;

    while (kind <= REPORT && !is(&w, event_kinds[kind]))
        kind++;
    if (kind > REPORT && !is(&w, "kind")) {
        read_call(event, &w, given);
        return;
    }
    event[0] = kind <= REPORT ? kind : (uint8_t)read_number("the kind", 0, 255);
    if (next_is("call"))
        read_call_number(event);
}

/* For a line that is wrong an empty event is added, so that the lines after it are judged as they would be. */
static void add_event(uint8_t *event)
{
    if (line.bad)
        memset(event, 0, EVENT);
    take_writer(brinefeather_add_event(paper.writer, paper.bytes, sizeof paper.bytes, event, EVENT),
                "it names a sequence that the paper does not have", "a paper has at most 1000 events");
    paper.place++;
}

static void read_event(void)
{
    uint8_t event[EVENT] = {0};
    unsigned given = 0;
    int named;

    read_place("event", &paper.place);
    named = next_is("process");
    if (named) {
        put(event, caller_field, read_number("the process", 0, 65535));
        if (!next_sign_is(':'))
            complain("a colon is missing after the process, as in process 2: take");
    }
    read_deed(event, &given);
    if (!named && (event[0] == CALL || event[0] == TAKE || event[0] == REPORT))
        complain("it is not said which process, as in process 2: take");
    while (!line.bad && !at_end())
        read_register(event, &given);
    add_event(event);
}

static void read_paper_line(void)
{
    if (next_is("sequence"))
        read_sequence();
    else
        read_event();
}

/* ---- an answer from its line ---- */

static uint32_t read_positions(const char *what)
{
    uint32_t mask = 0;

    do
        mask |= 1u << read_number(what, 0, 15);
    while (!line.bad && next_sign_is(','));
    return mask;
}

static void read_result(uint8_t *answer, unsigned *given)
{
    struct word w = read_word("=");
    unsigned r = 0;

    while (r < COUNT(results) && !is(&w, results[r].name))
        r++;
    if (r == COUNT(results))
        complain("an answer has no '%s'", w.text);
    else if (!next_sign_is('='))
        complain("%s wants a value, as %s=1", w.text, w.text);
    else if (*given >> r & 1)
        complain("%s is given twice", w.text);
    else if (r == WOKEN || r == ENDED_MASK)
        put(answer, results[r], read_positions("a position"));
    else
        put(answer, results[r], read_number(w.text, INT32_MIN, UINT32_MAX));
    *given |= 1u << r;
}

/* Those that are kept for later have none. */
static int has_refusal_name(unsigned number)
{
    return strcmp(brinefeather_refusal_name(number), brinefeather_refusal_name(0)) != 0;
}

static uint8_t read_refusal(void)
{
    const char *before = line.at;
    struct word w = read_word(":=");
    int64_t value;

    for (uint8_t i = 1; i <= BRINEFEATHER_REFUSALS; i++)
        if (has_refusal_name(i) && is(&w, brinefeather_refusal_name(i)))
            return i;
    line.at = before;
    if (w.text[0] != '\0' && !number_of(w.text, &value))
        complain("no refusal is named '%s'", w.text);
    return (uint8_t)read_number("the refusal", 0, 255);
}

static void read_raw_answer(uint8_t *answer)
{
    for (size_t i = 0; i < ANSWER; i++) {
        struct word w = read_word("");

        if (strlen(w.text) != 2 || digit(w.text[0], 16) == 16 || digit(w.text[1], 16) == 16)
            complain("byte %zu of %d must be two hex digits", i + 1, ANSWER);
        answer[i] = (uint8_t)(digit(w.text[0], 16) * 16 + digit(w.text[1], 16));
    }
}

static void read_answer_words(uint8_t *answer, const struct word *w)
{
    unsigned given = 0;
    uint8_t kind = DONE;

    while (kind < COUNT(answer_kinds) && !is(w, answer_kinds[kind]))
        kind++;
    if (kind == COUNT(answer_kinds))
        complain("no answer is named '%s'; the answers are done, asleep, ended, refused", w->text);
    answer[0] = kind;
    if (kind == REFUSED)
        answer[1] = read_refusal();
    while (!line.bad && !at_end())
        read_result(answer, &given);
}

static void read_answer(void)
{
    uint8_t answer[ANSWER] = {0};
    struct word w;

    read_place("answer", &sheet.answers);
    w = read_word(":=");
    if (is(&w, "bytes"))
        read_raw_answer(answer);
    else
        read_answer_words(answer, &w);
    expect_end();
    if (sheet.answers == MOST)
        complain("a sheet has at most %d answers", MOST);
    else
        memcpy(sheet.answer[sheet.answers++], answer, ANSWER);
}

/* ---- a text ---- */

/* The next line without its end, in line.at. Is there one? */
static int next_line(FILE *in, char *text, size_t room)
{
    size_t n = 0;
    int c, strange = 0;

    line.at = text;
    line.bad = 0;
    line.number++;
    while ((c = getc(in)) != EOF && c != '\n') {
        strange |= (iscntrl(c) && c != '\t' && c != '\r') || n + 1 == room;
        text[n] = (char)c;
        n += n + 1 < room;
    }
    n -= n > 0 && text[n - 1] == '\r';
    text[n] = '\0';
    if (line.number == 1 && strncmp(text, BYTE_ORDER_MARK, strlen(BYTE_ORDER_MARK)) == 0)
        line.at += strlen(BYTE_ORDER_MARK);
    if (strange)
        complain("the line is too long, or this is no text");
    return c != EOF || n > 0;
}

/* Reads each line that is not empty. Was there no complaint? */
static int read_text(const char *name, void (*read_line)(void))
{
    char text[1024];
    FILE *in = fopen(name, "r");
    int failed = !in;

    line.file = name;
    while (in && next_line(in, text, sizeof text))
        if (!line.bad && !at_end())
            read_line();
    if (in) {
        failed = ferror(in);
        fclose(in);
    }
    if (failed)
        fprintf(stderr, "%s: cannot be read\n", name);
    if (line.complaints > MOST_COMPLAINTS)
        fprintf(stderr, "%s: %u lines are wrong\n", name, line.complaints);
    return !failed && line.complaints == 0;
}

/* ---- files ---- */

static size_t make_sheet(uint8_t *file)
{
    const size_t numbers[] = {1, sheet.answers, SHEET_HEADER};

    put_header(file, numbers, COUNT(numbers));
    memcpy(file + SHEET_HEADER, sheet.answer, ANSWER * sheet.answers);
    return SHEET_HEADER + ANSWER * sheet.answers;
}

static int write_file(const char *name, const uint8_t *file, size_t len)
{
    FILE *out = fopen(name, "wb");
    int written = out && fwrite(file, 1, len, out) == len;

    if (out && fclose(out) != 0)
        written = 0;
    if (!written)
        fprintf(stderr, "%s: cannot be written\n", name);
    return written;
}

/* Reads one byte more than the longest file has. */
static int load(const char *name, uint8_t *file, size_t *len)
{
    FILE *in = fopen(name, "rb");
    int failed = 1;

    if (in) {
        *len = fread(file, 1, LONGEST + 1, in);
        failed = ferror(in);
        fclose(in);
    }
    if (failed)
        fprintf(stderr, "%s: cannot be read\n", name);
    return !failed;
}

/* ---- is a file laid out right? ---- */

static uint64_t refusal_at(unsigned number, size_t offset)
{
    return number + ((uint64_t)offset << 16);
}

/* 0 for a paper, blank or not, else its refusal. */
static uint64_t paper_refusal(const uint8_t *file, size_t len)
{
    const uint64_t n = brinefeather_mark(file, len, NULL, 0);

    return brinefeather_refused(n) == BRINEFEATHER_BADPAPER ? n : 0;
}

/* 0 for a sheet, else its refusal: that beside a paper which is good. */
static uint64_t sheet_refusal(const uint8_t *file, size_t len)
{
    static const uint8_t good[PAPER_HEADER + EVENT] = {0, 1, 0, 1, 0, 12, 0, 0, 0, 32, 0, 32, TICK};
    const uint64_t n = brinefeather_mark(good, sizeof good, file, len);

    return brinefeather_refused(n) ? n : 0;
}

/* Takes a paper, or a sheet, that is laid out right. */
static void take_paper(const uint8_t *file)
{
    memcpy(paper.bytes, file, header(file, PAPER_LENGTH));
}

static void take_sheet(const uint8_t *file)
{
    sheet.answers = header(file, ANSWER_COUNT);
    memcpy(sheet.answer, file + SHEET_HEADER, ANSWER * sheet.answers);
}

static void tell_place(const char *name, uint64_t refusal, const uint8_t *file, size_t len)
{
    fprintf(stderr, "%s: ", name);
    place_print(stderr, refusal, file, len);
    fputc('\n', stderr);
}

/* ---- lines that are shown ---- */

#if defined __GNUC__
__attribute__((format(printf, 2, 3)))
#endif
static void append(struct made *m, const char *format, ...)
{
    va_list more;
    int n;

    va_start(more, format);
    n = vsnprintf(m->text + m->len, sizeof m->text - m->len, format, more);
    va_end(more);
    if (n < 0 || (size_t)n >= sizeof m->text - m->len)
        abort();
    m->len += (size_t)n;
}

/* Does the text need no quotation marks? */
static int is_simple(const char *text)
{
    if (!isalpha((unsigned char)text[0]) || strcmp(text, "shared") == 0 || strcmp(text, "unshared") == 0
        || strcmp(text, "conditional") == 0)
        return 0;
    for (size_t i = 0; text[i]; i++)
        if (!isalnum((unsigned char)text[i]) && !strchr("-_.", text[i]))
            return 0;
    return 1;
}

static void show_text(struct made *m, const uint8_t *sequence)
{
    char text[SEQUENCE + 1] = {0};

    memcpy(text, sequence, text_length(sequence));
    append(m, is_simple(text) ? "%s" : "\"%s\"", text);
}

static void show_sequence(struct made *m, const uint8_t *sequence)
{
    size_t len = SEQUENCE;

    append(m, "sequence ");
    if (text_length(sequence) > 0) {
        show_text(m, sequence);
        return;
    }
    while (len > 1 && sequence[len - 1] == 0)
        len--;
    append(m, "0x");
    for (size_t i = 0; i < len; i++)
        append(m, "%02X", sequence[i]);
}

/* Is this the first sequence with a text of its own? Then its text tells which it is. */
static int has_name(uint32_t number)
{
    char text[SEQUENCE + 1] = {0};

    if (number == 0)
        return 0;
    memcpy(text, sequence_at(number - 1), text_length(sequence_at(number - 1)));
    return number_named(text) == number;
}

/* Priorities read best with their sign, addresses in hex. */
static void show_number(struct made *m, const char *name, uint32_t value)
{
    if (strcmp(name, "A0") == 0 && value > 9)
        append(m, " %s=0x%X", name, value);
    else if (strcmp(name, "D3") == 0 && value >= UINT32_MAX - 39)
        append(m, " %s=-%u", name, UINT32_MAX - value + 1);
    else
        append(m, " %s=%u", name, value);
}

static void show_registers(struct made *m, const uint8_t *event)
{
    for (size_t r = D0; r <= S; r++) {
        uint32_t value = get(event, registers[r]);

        if (value == 0)
            continue;
        if (r == S && has_name(value)) {
            append(m, " S=");
            show_text(m, sequence_at(value - 1));
        } else
            show_number(m, registers[r].name, value);
    }
}

/* Are the registers of a lock or unlock just those that its words give? */
static int has_words(const uint8_t *event)
{
    const uint32_t number = get(event, registers[S]);

    return event[0] == CALL && (event[call_field.at] == LOCK || event[call_field.at] == UNLOCK) && has_name(number)
        && get(event, registers[D3]) == text_length(sequence_at(number - 1)) && get(event, registers[D2]) <= 3
        && get(event, registers[D0]) == 0 && get(event, registers[D1]) == 0 && get(event, registers[A0]) == 0;
}

static void show_words(struct made *m, const uint8_t *event)
{
    const uint32_t sharing = get(event, registers[D2]);

    if (event[call_field.at] == LOCK || sharing != SHARED)
        append(m, sharing & UNSHARED ? " unshared" : " shared");
    append(m, sharing & CONDITIONAL ? " conditional " : " ");
    show_text(m, sequence_at(get(event, registers[S]) - 1));
}

static void show_call(struct made *m, uint8_t call)
{
    size_t i = 0;

    while (i < COUNT(calls) && calls[i].number != call)
        i++;
    if (i < COUNT(calls))
        append(m, "%s", calls[i].name);
    else
        append(m, "call %02Xh", call);
}

static void show_deed(struct made *m, const uint8_t *event)
{
    const uint8_t kind = event[0];

    if (kind == CALL) {
        show_call(m, event[call_field.at]);
        return;
    }
    if (kind >= TICK && kind <= REPORT)
        append(m, "%s", event_kinds[kind]);
    else
        append(m, "kind %u", kind);
    if (event[call_field.at] != 0)
        append(m, " call %02Xh", event[call_field.at]);
}

static void show_event(struct made *m, const uint8_t *event)
{
    const uint32_t caller = get(event, caller_field);

    if (caller != 0 || event[0] == CALL || event[0] == TAKE || event[0] == REPORT)
        append(m, "process %u: ", caller);
    show_deed(m, event);
    if (has_words(event))
        show_words(m, event);
    else
        show_registers(m, event);
}

static void show_positions(struct made *m, const char *name, uint32_t mask)
{
    const char *before = "";

    if (mask == 0)
        return;
    append(m, " %s=", name);
    for (unsigned i = 0; i < 16; i++)
        if (mask >> i & 1) {
            append(m, "%s%u", before, i);
            before = ",";
        }
}

static void show_results(struct made *m, const uint8_t *answer)
{
    for (size_t r = ANSWER_D3; r <= ANSWER_A0; r++)
        if (get(answer, results[r]) != 0)
            show_number(m, results[r].name, get(answer, results[r]));
    for (size_t r = WOKEN; r <= ENDED_MASK; r++)
        show_positions(m, results[r].name, get(answer, results[r]));
}

static void show_raw_answer(struct made *m, const uint8_t *answer)
{
    append(m, "bytes");
    for (size_t i = 0; i < ANSWER; i++)
        append(m, " %02X", answer[i]);
}

static void show_answer(struct made *m, const uint8_t *answer)
{
    const uint8_t kind = answer[0], number = answer[1];

    if (kind > REFUSED || get(answer, zero_field) != 0 || (kind != REFUSED && number != 0)) {
        show_raw_answer(m, answer);
        return;
    }
    append(m, "%s", answer_kinds[kind]);
    if (kind == REFUSED && has_refusal_name(number))
        append(m, " %s", brinefeather_refusal_name(number));
    else if (kind == REFUSED)
        append(m, " %u", number);
    show_results(m, answer);
}

/* ---- the five uses ---- */

static void print_line(void (*show)(struct made *, const uint8_t *), const uint8_t *record)
{
    struct made m = {{0}, 0};

    show(&m, record);
    puts(m.text);
}

static void print_paper(void)
{
    for (size_t i = 0; i < sequence_count(); i++)
        print_line(show_sequence, sequence_at(i));
    for (size_t i = 0; i < event_count(); i++)
        print_line(show_event, event_at(i));
}

static void print_sheet(void)
{
    for (size_t i = 0; i < sheet.answers; i++)
        print_line(show_answer, sheet.answer[i]);
}

static int use_text(const char *text, const char *file, int is_paper)
{
    static uint8_t bytes[BRINEFEATHER_LONGEST_SHEET];

    if (!read_text(text, is_paper ? read_paper_line : read_answer))
        return 0;
    if (is_paper)
        return write_file(file, paper.bytes, header(paper.bytes, PAPER_LENGTH));
    return write_file(file, bytes, make_sheet(bytes));
}

static int show_file(const char *name)
{
    static uint8_t bytes[LONGEST + 1];
    size_t len = 0;

    if (!load(name, bytes, &len))
        return 0;
    if (!paper_refusal(bytes, len)) {
        take_paper(bytes);
        print_paper();
    } else if (!sheet_refusal(bytes, len)) {
        take_sheet(bytes);
        print_sheet();
    } else {
        fprintf(stderr, "%s: is laid out neither as a paper nor as a sheet\n", name);
        tell_place(name, paper_refusal(bytes, len), bytes, len);
        tell_place(name, sheet_refusal(bytes, len), bytes, len);
        return 0;
    }
    return 1;
}

/* The longest event, so that the answers stand below each other. */
static int event_width(void)
{
    size_t width = strlen("(no event)");

    for (size_t i = 0; i < event_count(); i++) {
        struct made m = {{0}, 0};

        show_event(&m, event_at(i));
        if (m.len > width)
            width = m.len;
    }
    return (int)width;
}

static void print_side_by_side(void)
{
    const int width = event_width();

    for (size_t i = 0; i < event_count() || i < sheet.answers; i++) {
        struct made event = {{0}, 0}, answer = {{0}, 0};

        if (i < event_count())
            show_event(&event, event_at(i));
        if (i < sheet.answers)
            show_answer(&answer, sheet.answer[i]);
        printf("%3zu  %-*s  %s\n", i + 1, width, event.len ? event.text : "(no event)",
               answer.len ? answer.text : "(no answer)");
    }
}

/* Reads a file. Is it laid out right? If not, standard error says where. */
static int load_right(const char *name, uint64_t (*refusal_of)(const uint8_t *, size_t), uint8_t *file)
{
    size_t len = 0;
    uint64_t refusal;

    if (!load(name, file, &len))
        return 0;
    refusal = refusal_of(file, len);
    if (refusal)
        tell_place(name, refusal, file, len);
    return !refusal;
}

static int show_both(const char *paper_name, const char *sheet_name)
{
    static uint8_t bytes[LONGEST + 1];

    if (!load_right(paper_name, paper_refusal, bytes))
        return 0;
    take_paper(bytes);
    if (!load_right(sheet_name, sheet_refusal, bytes))
        return 0;
    take_sheet(bytes);
    print_side_by_side();
    return 1;
}

/* What mark and key print behind "refused": 15 and an offset, 16, or 17 and an offset. 0 if it is something else. */
static uint64_t printed_refusal(char **numbers, int count)
{
    int64_t number, offset = 0;

    if (!number_of(numbers[0], &number) || (count > 1 && !number_of(numbers[1], &offset)))
        return 0;
    if (number < BRINEFEATHER_BADPAPER || number > BRINEFEATHER_BADSHEET || offset < 0 || offset > LONGEST)
        return 0;
    return place_is_told((unsigned)number) == (count > 1) ? refusal_at((unsigned)number, (size_t)offset) : 0;
}

/* 0 for a file that mark and key take as a paper, or as a sheet if the number is badsheet; else its refusal. */
static uint64_t file_refusal(const uint8_t *file, size_t len, unsigned number)
{
    const uint64_t refusal = number == BRINEFEATHER_BADSHEET ? sheet_refusal(file, len) : paper_refusal(file, len);

    if (refusal || number == BRINEFEATHER_BADSHEET)
        return refusal;
    return header(file, EVENT_COUNT) == 0 ? BRINEFEATHER_BLANK : 0;
}

/* A refusal that is not the file's would get false words. */
static int explain(uint64_t refusal, const char *name)
{
    static uint8_t bytes[LONGEST + 1];
    size_t len = 0;
    uint64_t found;

    if (!load(name, bytes, &len))
        return 0;
    found = file_refusal(bytes, len, brinefeather_refused(refusal));
    if (found == refusal) {
        place_print(stdout, refusal, bytes, len);
        putchar('\n');
        return 1;
    }
    fprintf(stderr, "%s: that is not this file's refusal; %s\n", name, found ? "this is:" : "it has none");
    if (found)
        tell_place(name, found, bytes, len);
    return 0;
}

static int usage(void)
{
    fputs("usage: transcribe paper TEXT FILE\n       transcribe sheet TEXT FILE\n"
          "       transcribe show FILE\n       transcribe show PAPER SHEET\n"
          "       transcribe refused NUMBER [OFFSET] FILE\n", stderr);
    return 0;
}

int main(int count, char **words)
{
    int well;

    if (count == 4 && strcmp(words[1], "paper") == 0)
        well = use_text(words[2], words[3], 1);
    else if (count == 4 && strcmp(words[1], "sheet") == 0)
        well = use_text(words[2], words[3], 0);
    else if (count == 3 && strcmp(words[1], "show") == 0)
        well = show_file(words[2]);
    else if (count == 4 && strcmp(words[1], "show") == 0)
        well = show_both(words[2], words[3]);
    else if ((count == 4 || count == 5) && strcmp(words[1], "refused") == 0 && printed_refusal(words + 2, count - 3))
        well = explain(printed_refusal(words + 2, count - 3), words[count - 1]);
    else
        well = usage();
    if (fflush(stdout) != 0 || ferror(stdout))
        well = 0;
    return well ? EXIT_SUCCESS : EXIT_FAILURE;
}
