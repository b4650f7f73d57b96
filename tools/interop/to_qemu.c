/* Sends the memory of a machine `none` to QEMU over connections.
 *
 *   to_qemu IMAGE FD ..
 *
 * IMAGE is the memory of block `ram`. Each FD is a connection that the program inherits: that of a
 * single stream, or those of a main stream and its channels. The first round has all pages, and
 * every fifth of them with other bytes; the second one has these pages as they are in IMAGE. Status
 * 3: the program can't go on.
 */
#define _POSIX_C_SOURCE 200809L
#include "zimgasol.h"
#include <stdio.h>
#include <stdlib.h>
#include <string.h>
#include <sys/socket.h>
#include <unistd.h>

enum { PAGE = 4096, PACKET = 128, SECTION = 64, MOST = 1 + 255, CHANGED = 5 };

static zimgasol_send sender;
static zimgasol_worker workers[MOST];
static int connections[MOST];
static size_t channels;
static uint8_t *image;
static uint64_t pages;
static bool is_second; /* whether the second round is sent */

static void die(const char *what) {
    fprintf(stderr, "%s\n", what);
    exit(3);
}

static void check(zimgasol_status status) {
    if (status != ZIMGASOL_DONE && status != ZIMGASOL_RUNNING) die(zimgasol_status_text(status));
}

static void send_all(size_t source, const uint8_t *bytes, size_t len) {
    while (len > 0) {
        ssize_t sent = send(connections[source], bytes, len, MSG_NOSIGNAL);
        if (sent < 0) die("a connection is lost");
        bytes += sent;
        len -= (size_t)sent;
    }
}

static void drain_main(void) {
    uint8_t out[16 * PAGE];
    size_t len;
    while ((len = zimgasol_send_drain(&sender, ZIMGASOL_MAIN, out, sizeof out)) > 0)
        send_all(ZIMGASOL_MAIN, out, len);
}

static void drain_worker(size_t j) {
    uint8_t out[16 * PAGE];
    size_t len;
    while ((len = zimgasol_worker_drain(&workers[j], out, sizeof out)) > 0)
        send_all(ZIMGASOL_CHANNEL(j), out, len);
}

static void read_image(const char *name) {
    FILE *file = fopen(name, "rb");
    if (file == NULL || fseek(file, 0, SEEK_END) != 0) die("no image");
    pages = (uint64_t)ftell(file) / PAGE;
    rewind(file);
    image = malloc(pages * PAGE);
    if (image == NULL || fread(image, PAGE, pages, file) != pages) die("no image");
    fclose(file);
}

static bool is_sent(uint64_t page) {
    return !is_second || page % CHANGED == 0;
}

/* Copies a page as the round has it. */
static void copy_page(uint64_t page, uint8_t *copy) {
    uint8_t other = !is_second && page % CHANGED == 0 ? 0x5A : 0;
    for (size_t i = 0; i < PAGE; i++) copy[i] = image[page * PAGE + i] ^ other;
}

/* Sends a round of a single stream, in sections. */
static void send_sections(void) {
    uint8_t copy[PAGE];
    for (uint64_t page = 0; page < pages;) {
        check(zimgasol_send_begin_round(&sender));
        for (size_t i = 0; page < pages && i < SECTION; page++) {
            if (!is_sent(page)) continue;
            copy_page(page, copy);
            check(zimgasol_send_put_page(&sender, 0, page, copy, PAGE));
            i++;
        }
        check(zimgasol_send_end_round(&sender));
        drain_main();
    }
}

/* Sends the next packet of a channel. Returns false at the end of its round. */
static bool send_packet(size_t j) {
    static uint8_t copies[PACKET][PAGE];
    zimgasol_lent contents[PACKET];
    zimgasol_batch batch;
    zimgasol_status status = zimgasol_worker_next(&workers[j], &batch);
    check(status);
    if (status == ZIMGASOL_RUNNING) {
        for (size_t i = 0; i < batch.count; i++) {
            copy_page(batch.pages[i], copies[i]);
            contents[i] = (zimgasol_lent){copies[i], PAGE};
        }
        check(zimgasol_worker_pack(&workers[j], contents, batch.count));
    }
    drain_worker(j);
    return status == ZIMGASOL_RUNNING;
}

/* Sends a round that was begun, a packet of each channel in turn. */
static void send_packets(void) {
    for (size_t j = 0; j < channels; j++) check(zimgasol_send_worker(&sender, &workers[j]));
    for (bool again = true; again;) {
        again = false;
        for (size_t j = 0; j < channels; j++) again = send_packet(j) || again;
    }
    for (size_t j = 0; j < channels; j++) check(zimgasol_send_give_back(&sender, &workers[j]));
    check(zimgasol_send_end_round(&sender));
    drain_main();
}

static void send_round(void) {
    if (channels == 0) {
        send_sections();
        return;
    }
    size_t len = (pages + 63) / 64;
    uint64_t *words = calloc(len, 8);
    if (words == NULL) die("no memory");
    for (uint64_t page = 0; page < pages; page++)
        words[page / 64] |= (uint64_t)is_sent(page) << page % 64;
    check(zimgasol_send_begin_round_bitmaps(&sender, &(zimgasol_bitmap){words, len}, 1));
    free(words);
    send_packets();
}

/* Makes the sender, and sends its first bytes. On channels a round without pages follows: QEMU
 * needs it. */
static void begin(void) {
    const zimgasol_block block = {"ram", pages};
    zimgasol_send_settings settings = {.channels = channels,
        .limit = PACKET,
        .named = 1,
        .name_len = 4,
        .name = "none"};
    zimgasol_table table = {0};
    size_t entry;
    check(zimgasol_table_new(&table, PAGE, &block, 1, &entry));
    check(zimgasol_send_new(&sender, &table, &settings));
    zimgasol_table_free(&table);
    drain_main();
    if (channels == 0) return;
    check(zimgasol_send_begin_round(&sender));
    send_packets();
}

int main(int argc, char **argv) {
    if (argc < 3 || argc - 2 > MOST) die("to_qemu IMAGE FD ..");
    for (int i = 2; i < argc; i++) connections[i - 2] = atoi(argv[i]);
    channels = (size_t)argc - 3;
    read_image(argv[1]);
    begin();
    send_round();
    is_second = true;
    send_round();
    check(zimgasol_send_finish(&sender, false));
    drain_main();
    zimgasol_send_free(&sender);
    for (size_t source = channels + 1; source-- > 0;) close(connections[source]); /* main last */
    free(image);
    return 0;
}
