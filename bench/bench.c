/* Measures the library for C: the time of a work as a ratio to that of a copy of the same bytes.
 *
 *   bench load [PAGES]              one stream: sent, loaded, and loaded into a block
 *   bench multi [PAGES]             several channels: a round sent, with a thread for each
 *   bench sockets [PAGES]           several channels: a round written to sockets, without copies
 *   bench transfer [PAGES [RUNS]]   several channels: a guest moved over sockets into a block, and
 *                                   received alone
 *   bench load_multi [PAGES]        several channels: the round loaded, and loaded into a block
 *   bench mapped [PAGES]            a file with mapped-ram: loaded into a block, beside plain reads
 *   bench hostile                   what hostile streams cost: nanoseconds and memory for each byte
 *
 * The guest has PAGES (262144) pages of 4096 bytes. A transfer has the medians of RUNS (5), the
 * others the least time of five. docs/build/BENCHMARKS.md has figures. No test compares one.
 * Without a word it prints its usage. Status 3: it can't go on, and says why.
 */
#include "yardstick.h"
#include <stdio.h>
#include <stdlib.h>
#include <string.h>

int main(int count, char **words) {
    const char *word = count > 1 ? words[1] : "";
    uint64_t pages = count > 2 ? strtoull(words[2], NULL, 10) : 1 << 18;
    uint64_t runs = count > 3 ? strtoull(words[3], NULL, 10) : 5;
    setvbuf(stdout, NULL, _IOLBF, 0);
    if (strcmp(word, "load") == 0) run_load(pages);
    else if (strcmp(word, "multi") == 0) run_multi(pages);
    else if (strcmp(word, "sockets") == 0) run_sockets(pages);
    else if (strcmp(word, "transfer") == 0) run_transfer(pages, runs > 0 ? runs : 1);
    else if (strcmp(word, "load_multi") == 0) run_load_multi(pages);
    else if (strcmp(word, "mapped") == 0) run_mapped(pages);
    else if (strcmp(word, "hostile") == 0) run_hostile();
    else
        printf("usage: bench load|multi|sockets|load_multi|mapped [PAGES], "
               "bench transfer [PAGES [RUNS]], or bench hostile\n");
    if (fflush(stdout) == 0 && !ferror(stdout)) return 0;
    perror("standard output");
    return 3;
}
