/* Marks three sheets of a small paper: a blank one, its key, and the key cut short. It prints
   "0 of 2 right", "2 of 2 right" and "refused 17 (badsheet), offset 2". */
#include <stdio.h>
#include <brinefeather.h>

static void print_mark(const uint8_t *paper, size_t paper_len,
                       const uint8_t *sheet, size_t sheet_len)
{
    uint64_t n = brinefeather_mark(paper, paper_len, sheet, sheet_len);
    unsigned number = brinefeather_refused(n);

    if (number == 0)
        printf("%u of %u right\n", brinefeather_right(n), brinefeather_total(n));
    else if (number == BRINEFEATHER_BLANK)
        puts("the paper has no events");
    else
        printf("refused %u (%s), offset %u\n", number, brinefeather_refusal_name(number),
               brinefeather_offset(n));
}

int main(void)
{
    static const uint8_t paper[52] = {0, 1, 0, 2, 0, 12, 0, 0, 0, 52, 0, 52, /* two events: */
                                      [12] = 1, 0x3A, 0, 1, [32] = 2}; /* getproc by 1, a tick */
    static const uint8_t blank[6] = {0, 1, 0, 0, 0, 6};
    static uint8_t key[BRINEFEATHER_LONGEST_KEY];
    uint64_t length = brinefeather_key(paper, sizeof paper, key, sizeof key);

    if (brinefeather_refused(length))
        return 1;
    print_mark(paper, sizeof paper, blank, sizeof blank);
    print_mark(paper, sizeof paper, key, (size_t)length);
    print_mark(paper, sizeof paper, key, (size_t)length - 1);
    return 0;
}
