/* One whole job: cable bytes in, receiver, adapter, transmitter, cable bytes out, and a step back.
 *
 *     cc -Iinclude -o job examples/job.c target/staticlib/libsca.a
 *
 * The first frame enables the parallel lines, the second reads them. Between them the pins are sampled; at the end the
 * reading is taken back and done again, and is answered as before. */
#include <stdint.h>
#include <stdio.h>

#include "sca.h"

static uint8_t state[SCA_STATE_BYTES], journal[SCA_LARGE_JOURNAL_BYTES], receiver[SCA_RECEIVER_BYTES];

static const uint8_t enable_lines[] = {0x7E, 0x00, 0x00, 0x01, 0x00, 0x04, 0x02, 0x00, 0x04, 0x00, 0x00, 0x82, 0x87, 0x7E};
static const uint8_t read_lines[] = {0x7E, 0x00, 0x02, 0x02, 0x02, 0x01, 0x01, 0x00, 0x00, 0x00, 0x00, 0x39, 0xCB, 0x7E};

static void show(const char *what, const uint8_t *bytes, size_t length) {
    printf("%-11s", what);
    for (size_t at = 0; at < length; at++) printf("%02x", bytes[at]);
    printf("\n");
}

static void show_kept(const char *what) { printf("%-11s%u kept\n", what, sca_kept_in(sca_kept(journal, sizeof journal))); }

/* A body that came on the primary port: it is answered, and the answer goes out on the cable. */
static void answer(const uint8_t *body, size_t length) {
    uint8_t output[SCA_OUTPUT_LEAST], cable[SCA_CABLE_MOST];
    uint64_t result = sca_frame(state, sizeof state, journal, sizeof journal, SCA_PRIMARY, body, length, output, sizeof output);
    show("request", body, length);
    if (sca_number(result) == SCA_HAS_FRAME) {
        uint64_t sent = sca_transmit(output, sca_length(result), cable, sizeof cable);
        show("reply", output, sca_length(result));
        show("cable out", cable, sca_count(sent));
    }
}

/* Bytes that came on the cable: every frame in them is answered. */
static void hear(const uint8_t *cable, size_t length) {
    size_t start = 0;
    uint64_t result;
    show("cable in", cable, length);
    do {
        uint8_t body[SCA_OUTPUT_LEAST];
        result = sca_receive(receiver, sizeof receiver, cable, length, start, body, sizeof body);
        start += sca_consumed(result);
        if (sca_number(result) == SCA_HAS_FRAME) answer(body, sca_length(result));
    } while (sca_number(result) != SCA_NO_FRAME && !sca_refused(result));
}

int main(void) {
    uint8_t output[SCA_OUTPUT_LEAST];
    sca_create(state, sizeof state, 0x00000A);
    sca_empty(journal, sizeof journal);
    sca_receiver_new(receiver, sizeof receiver);

    hear(enable_lines, sizeof enable_lines);
    sca_sample(state, sizeof state, journal, sizeof journal, 0x12345678, SCA_SYSTEM_CLOCK, output, sizeof output);
    show_kept("pins");
    hear(read_lines, sizeof read_lines);
    show_kept("lines read");

    sca_step_back(state, sizeof state, journal, sizeof journal);
    show_kept("step back");
    hear(read_lines, sizeof read_lines);
    show_kept("again");
    return 0;
}
