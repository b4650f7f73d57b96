/* Sends all pages of a guest in one round on one channel, on two and on four, each with a worker on
 * a thread of its own: by a new sender, to the end of its streams, and by one that is kept and
 * drained after each round. */
#include "yardstick.h"
#include <stdio.h>

/* What is sent, and where. The sender and its streams are kept, or each run makes its own. */
typedef struct sending {
    guest *guest;
    zimgasol_send kept;
    streams to;
    uint64_t packing;
} sending;

/* Lowers the least time until all packets were made to that of the last round. */
static void note_packing(sending *s) {
    if (s->to.packing < s->packing) s->packing = s->to.packing;
}

static uint64_t send_to_the_end(void *of) {
    sending *s = of;
    send_multi(s->guest, &s->to);
    note_packing(s);
    uint64_t len = channels_len(&s->to);
    streams_free(&s->to);
    return len;
}

static uint64_t send_drained(void *of) {
    sending *s = of;
    streams_clear(&s->to);
    send_round(&s->kept, s->guest, &s->to);
    note_packing(s);
    return channels_len(&s->to);
}

/* Prints a time as a ratio to the copies and to that on one channel, how much of it the packets
 * took, and how many bytes were sent. */
static void put(const yardstick *copies, const measured *alone, const measured *found,
    uint64_t packing) {
    printf("%.2f by pages, %.2f at once, %.2f to one channel; packets %.2f by pages; "
           "%llu bytes sent\n",
        ratio(found->nanos, copies->by_pages), ratio(found->nanos, copies->at_once),
        ratio(found->nanos, alone->nanos), ratio(packing, copies->by_pages),
        (unsigned long long)found->answer);
}

static void report_sending(const char *name, guest *of, const yardstick *copies, bool keeps) {
    measured alone = {0};
    for (size_t i = 0; i < COUNTS; i++) {
        sending s = {of, {0}, {.count = channel_counts[i]}, UINT64_MAX};
        if (keeps) s.kept = multi_of(of, channel_counts[i]);
        measured found = best_of_five(keeps ? send_drained : send_to_the_end, &s);
        if (i == 0) alone = found;
        printf("  %-12s%zu: ", name, channel_counts[i]);
        put(copies, &alone, &found, s.packing);
        zimgasol_send_free(&s.kept);
        streams_free(&s.to);
    }
}

void run_multi(uint64_t pages) {
    guest sent = guest_of(pages);
    yardstick copies = yardstick_of(sent.len);
    put_title("a round sent on several channels", pages);
    for (size_t i = 0; i < KINDS; i++) {
        guest_fill(&sent, kinds[i].zero_tenths);
        printf("%s\n", kinds[i].name);
        report_sending("to the end,", &sent, &copies, false);
        report_sending("drained,", &sent, &copies, true);
    }
    guest_free(&sent);
}
