/* Loads the stream of a guest of one block, and writes its second page to standard output. */
#include <stdio.h>
#include <stdlib.h>
#include <zimgasol.h>

enum { PAGE = 4096, MOST = 1 << 18 }; /* the most pages that the guest may have */

int main(void) {
    static uint8_t piece[1 << 17]; /* more than stands before the first page */
    const zimgasol_settings settings = {.zero_blocks = 1, .whole_rounds = 1};
    zimgasol_table table = {0};
    zimgasol_load load = {0};
    zimgasol_block block;
    zimgasol_fault fault;
    zimgasol_fed fed;
    uint64_t at;
    size_t len = fread(piece, 1, sizeof piece, stdin);
    zimgasol_status status =
        zimgasol_table_of_stream(&table, PAGE, ZIMGASOL_FRAME_RAM, piece, len, &at);
    if (status != ZIMGASOL_DONE) return 3;
    status = zimgasol_table_block(&table, 0, &block);
    if (status != ZIMGASOL_DONE || block.pages < 2 || block.pages > MOST) return 3;
    zimgasol_buffer ram = {calloc(block.pages, PAGE), block.pages * PAGE};
    if (ram.bytes == NULL) return 3;
    status = zimgasol_load_new(&load, &table, piece, 0, 0, &settings);
    for (; status == ZIMGASOL_DONE && len > 0; len = fread(piece, 1, sizeof piece, stdin))
        status = zimgasol_load_feed(&load, &ram, 1, ZIMGASOL_MAIN, piece, len, &fed);
    if (status == ZIMGASOL_DONE) status = zimgasol_load_end(&load, ZIMGASOL_MAIN);
    if (status == ZIMGASOL_DONE) status = zimgasol_load_verdict(&load, &fault);
    if (status != ZIMGASOL_DONE) fprintf(stderr, "%s\n", zimgasol_status_text(status));
    else if (fwrite(ram.bytes + PAGE, 1, PAGE, stdout) != PAGE || fflush(stdout) != 0) return 3;
    zimgasol_load_free(&load);
    zimgasol_table_free(&table);
    free(ram.bytes);
    return status != ZIMGASOL_DONE;
}
