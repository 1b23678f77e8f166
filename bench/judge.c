/* Judges standard input as a trace file and prints the line of docs/JUDGE.md: the program `judge`, in C over the same judge. */
#include "kavlugtai.h"
#include <inttypes.h>
#include <stdio.h>

/* One byte more than the longest trace file has, so that a longer one is seen to be too long. */
static uint8_t bytes[49169];

int main(void) {
    static const char *const kinds[] = {"compliant", "unlawful", "damaged", "refused"};
    static const int numbers[] = {1, 3, 3, 1};
    uint64_t answer[KAVLUGTAI_ENTRIES];
    size_t length = fread(bytes, 1, sizeof bytes, stdin);
    if (ferror(stdin) || !kavlugtai_judge(bytes, length, answer, KAVLUGTAI_ENTRIES)) {
        return 1;
    }
    fputs(kinds[answer[0]], stdout);
    for (int k = 1; k <= numbers[answer[0]]; k++) {
        printf(" %" PRIu64, answer[k]);
    }
    return putchar('\n') == EOF;
}
