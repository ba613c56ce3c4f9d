/* Builds a small paper: two arms and one table, the README's paper by hand. It writes the file
   "paper" and prints "148 bytes, 6 events, 1 sequence". */
#include <stdio.h>
#include <brinefeather.h>

static int save(const uint8_t *paper, size_t len)
{
    FILE *file = fopen("paper", "wb");
    int saved = file && fwrite(paper, 1, len, file) == len;

    return file && fclose(file) == 0 && saved;
}

int main(void)
{
    static const uint8_t table[] = {'T', 'A', 'B', 'L', 'E'}; /* bytes that are missing are 0 */
    static const uint8_t events[6][20] = {
        {1, 0x48, 0, 1},                             /* process 1: fshell */
        {1, 0x3E, 0, 2, [9] = 1, [13] = 5, [19] = 1}, /* process 2: lock unshared TABLE */
        {1, 0x3E, 0, 1, [9] = 3, [13] = 5, [19] = 1}, /* process 1: lock unshared conditional TABLE */
        {1, 0x3E, 0, 1, [9] = 1, [13] = 5, [19] = 1}, /* process 1: lock unshared TABLE */
        {1, 0x3F, 0, 2, [13] = 5, [19] = 1},          /* process 2: unlock TABLE */
        {4, 0, 0, 1}};                               /* process 1: report */
    static uint8_t paper[BRINEFEATHER_LONGEST_PAPER];
    uint64_t writer = brinefeather_add_sequence(0, paper, sizeof paper, table, sizeof table);

    for (int i = 0; i < 6 && !brinefeather_refused(writer); i++)
        writer = brinefeather_add_event(writer, paper, sizeof paper, events[i], sizeof events[i]);
    if (brinefeather_refused(writer)) {
        printf("refused: %s\n", brinefeather_refusal_name(brinefeather_refused(writer)));
        return 1;
    }
    printf("%zu bytes, %u events, %u sequence\n", brinefeather_paper_length(writer),
           brinefeather_paper_events(writer), brinefeather_paper_sequences(writer));
    return save(paper, brinefeather_paper_length(writer)) ? 0 : 1;
}
