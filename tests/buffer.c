/* Writes the whole buffer as it is after the verdict on the sheet on standard input: buffer [CUT]. Without a cut all heard messages count. Each byte
 * was ee before. */
#include "zuwendryk.h"
#include <stdio.h>
#include <stdlib.h>
#include <string.h>

int main(int argc, char **argv) {
    static uint8_t sheet[ZUWENDRYK_LONGEST_SHEET + 1], buffer[ZUWENDRYK_BUFFER(ZUWENDRYK_MOST_RUNGS)];
    size_t len = fread(sheet, 1, sizeof sheet, stdin);
    uint32_t cut = argc > 1 ? (uint32_t)strtoul(argv[1], NULL, 10) : sheet[6] * 256u + sheet[7];
    memset(buffer, 0xee, sizeof buffer);
    if (zuwendryk_verdict(sheet, len, cut, ZUWENDRYK_MOST_RUNGS, buffer, sizeof buffer) < ZUWENDRYK_REACHED) return 1;
    return fwrite(buffer, 1, sizeof buffer, stdout) != sizeof buffer || fflush(stdout);
}
