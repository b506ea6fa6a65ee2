/* The control room and the chip, with a cable between them: no byte of a body or of a frame is written by hand.
 *
 *     cc -Iinclude -o control_room examples/control_room.c target/staticlib/libsca.a
 *
 * The first request enables the parallel lines, the second reads them. Between them the pins are sampled. Each goes
 * out on the cable and is answered by the chip; the reply comes back on the cable and is read as its answer. */
#include <stdint.h>
#include <stdio.h>

#include "sca.h"

static uint8_t record[SCA_RECORD_BYTES], room_receiver[SCA_RECEIVER_BYTES];
static uint8_t state[SCA_STATE_BYTES], journal[SCA_LARGE_JOURNAL_BYTES], chip_receiver[SCA_RECEIVER_BYTES];

static void show(const char *what, const uint8_t *bytes, size_t length) {
    printf("%-11s", what);
    for (size_t at = 0; at < length; at++) printf("%02x", bytes[at]);
    printf("\n");
}

/* A body goes over the cable to a receiver; the length of the body that arrives there. */
static size_t carry(const char *what, const uint8_t *body, size_t length, uint8_t *receiver, uint8_t *arrived) {
    uint8_t cable[SCA_CABLE_MOST];
    size_t count = sca_count(sca_transmit(body, length, cable, sizeof cable)), start = 0, arrived_length = 0;
    uint64_t result;
    show(what, cable, count);
    do {
        result = sca_receive(receiver, SCA_RECEIVER_BYTES, cable, count, start, arrived, SCA_OUTPUT_LEAST);
        start += sca_consumed(result);
        if (sca_number(result) == SCA_HAS_FRAME) arrived_length = sca_length(result);
    } while (sca_number(result) != SCA_NO_FRAME && !sca_refused(result));
    return arrived_length;
}

static void show_answer(const uint8_t *answer) {
    printf("%-11sTRN %02x CH %02x CMD %02x ", "answer", answer[0], answer[1], answer[2]);
    printf("ERR %02x LEN %u data %08lx\n", answer[3], answer[4], (unsigned long)sca_answer_data(answer));
}

/* A request of the control room's, up to its answer. */
static void ask(uint32_t channel, uint32_t command, uint32_t data) {
    uint8_t request[SCA_OUTPUT_LEAST], heard[SCA_OUTPUT_LEAST], reply[SCA_OUTPUT_LEAST], read[SCA_OUTPUT_LEAST];
    uint8_t answer[SCA_OUTPUT_LEAST];
    size_t length;
    uint64_t result = sca_request(record, sizeof record, channel, command, data, request, sizeof request);
    show("request", request, sca_length(result));
    length = carry("cable out", request, sca_length(result), chip_receiver, heard);

    result = sca_frame(state, sizeof state, journal, sizeof journal, SCA_PRIMARY, heard, length, reply, sizeof reply);
    show("reply", reply, sca_length(result));
    length = carry("cable in", reply, sca_length(result), room_receiver, read);

    result = sca_reply(record, sizeof record, read, length, answer, sizeof answer);
    if (sca_number(result) == SCA_HAS_FRAME && !sca_interrupt(result)) show_answer(answer);
}

int main(void) {
    uint8_t output[SCA_OUTPUT_LEAST];
    sca_record_new(record, sizeof record);
    sca_receiver_new(room_receiver, sizeof room_receiver);
    sca_create(state, sizeof state, 0x00000A);
    sca_empty(journal, sizeof journal);
    sca_receiver_new(chip_receiver, sizeof chip_receiver);

    ask(0x00, 0x02, 0x04000000); /* CRB: GPIO enabled */
    sca_sample(state, sizeof state, journal, sizeof journal, 0x12345678, SCA_SYSTEM_CLOCK, output, sizeof output);
    ask(0x02, 0x01, 0); /* DATAIN is read */
    return 0;
}
