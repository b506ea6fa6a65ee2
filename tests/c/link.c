/* The link as a C program sees it: the header's sizes and numbers against the library, and one round trip. */
#include <stdint.h>
#include <string.h>

#include "check.h"
#include "sca.h"

/* A receiver has exactly SCA_RECEIVER_BYTES; any other length is refused and stays as it is. */
static void receiver_size(void) {
    uint8_t bytes[2 * SCA_RECEIVER_BYTES + 1], before[sizeof bytes], output[SCA_OUTPUT_LEAST];
    int made = 1, read = 1;
    for (size_t length = 0; length <= sizeof bytes; length++) {
        unsigned number = length == SCA_RECEIVER_BYTES ? SCA_NO_FRAME : SCA_BAD_STATE;
        memset(bytes, 0xA5, sizeof bytes);
        memcpy(before, bytes, sizeof bytes);
        made &= sca_receiver_new(length ? bytes : NULL, length) == number;
        made &= (memcmp(bytes, before, sizeof bytes) == 0) == (number == SCA_BAD_STATE);
        made &= memcmp(bytes + length, before + length, sizeof bytes - length) == 0;

        memset(bytes, 0, sizeof bytes);
        memset(before, 0, sizeof before);
        read &= sca_receive(length ? bytes : NULL, length, NULL, 0, 0, output, sizeof output) == number;
        read &= memcmp(bytes, before, sizeof bytes) == 0;
    }
    check(made, "sca_receiver_new takes SCA_RECEIVER_BYTES and no other length");
    check(read, "sca_receive takes SCA_RECEIVER_BYTES and no other length");
}

static void transmitter_sizes(void) {
    uint8_t body[SCA_BODY_MOST + 4], output[2 * SCA_CABLE_MOST];
    int bodies = 1, outputs = 1, count = 1;
    memset(body, 0xFF, sizeof body);
    for (size_t length = 0; length <= sizeof body; length++) {
        int taken = SCA_BODY_LEAST <= length && length <= SCA_BODY_MOST;
        uint64_t result = sca_transmit(body, length, output, sizeof output);
        bodies &= sca_number(result) == (taken ? SCA_HAS_FRAME : SCA_BAD_BODY);
        bodies &= sca_refused(result) == !taken && (sca_count(result) > 0) == taken;
        count &= sca_count(result) <= SCA_CABLE_MOST;
    }
    for (size_t length = 0; length <= sizeof output; length++) {
        uint64_t result = sca_transmit(body, SCA_BODY_LEAST, length ? output : NULL, length);
        outputs &= sca_number(result) == (length < SCA_CABLE_MOST ? SCA_SHORT_OUTPUT : SCA_HAS_FRAME);
    }
    check(bodies, "sca_transmit takes bodies of SCA_BODY_LEAST to SCA_BODY_MOST");
    check(outputs, "sca_transmit asks for an output of SCA_CABLE_MOST");
    check(count, "sca_count is at most SCA_CABLE_MOST");
}

static void receiver_limits(void) {
    static uint8_t cable[SCA_INPUT_MOST + 1];
    uint8_t receiver[SCA_RECEIVER_BYTES], output[2 * SCA_OUTPUT_LEAST];
    uint64_t result;
    int outputs = 1;
    sca_receiver_new(receiver, sizeof receiver);
    result = sca_receive(receiver, sizeof receiver, cable, SCA_INPUT_MOST, 0, output, sizeof output);
    check(sca_number(result) == SCA_NO_FRAME && sca_consumed(result) == 8 * (size_t)SCA_INPUT_MOST && sca_length(result) == 0,
          "sca_receive reads SCA_INPUT_MOST bytes, all their bits");
    result = sca_receive(receiver, sizeof receiver, cable, SCA_INPUT_MOST + 1, 0, output, sizeof output);
    check(result == SCA_LONG_INPUT, "one byte more is SCA_LONG_INPUT");
    result = sca_receive(receiver, sizeof receiver, cable, 2, 16, output, sizeof output);
    check(result == SCA_NO_FRAME, "a start at the end reads no bit");
    result = sca_receive(receiver, sizeof receiver, cable, 2, 17, output, sizeof output);
    check(result == SCA_BAD_START, "one bit further is SCA_BAD_START");
    for (size_t length = 0; length <= sizeof output; length++) {
        result = sca_receive(receiver, sizeof receiver, cable, 2, 16, length ? output : NULL, length);
        outputs &= result == (length < SCA_OUTPUT_LEAST ? SCA_SHORT_OUTPUT : SCA_NO_FRAME);
    }
    check(outputs, "sca_receive asks for an output of SCA_OUTPUT_LEAST");
    memset(receiver, 0xFF, sizeof receiver);
    result = sca_receive(receiver, sizeof receiver, cable, 2, 0, output, sizeof output);
    check(result == SCA_BAD_STATE, "a receiver out of range is SCA_BAD_STATE");
}

static void round_trip(void) {
    static const uint8_t body[] = {0x00, 0x7E, 0xFF, 0xFF, 0x12, 0x34};
    uint8_t receiver[SCA_RECEIVER_BYTES], cable[SCA_CABLE_MOST], output[SCA_OUTPUT_LEAST];
    uint64_t sent, read, rest;
    size_t bits;
    memset(output, 0x55, sizeof output);
    sca_receiver_new(receiver, sizeof receiver);
    sent = sca_transmit(body, sizeof body, cable, sizeof cable);
    read = sca_receive(receiver, sizeof receiver, cable, sca_count(sent), 0, output, sizeof output);
    bits = sca_consumed(read);
    check(sca_transmit(body, sizeof body, cable, sizeof cable) == sent && sca_number(sent) == SCA_HAS_FRAME, "a frame is sent");
    check(sca_number(read) == SCA_HAS_FRAME && sca_length(read) == sizeof body && memcmp(output, body, sizeof body) == 0, "its body comes back");
    check(output[sizeof body] == 0x55 && output[sizeof output - 1] == 0x55, "the output after the body is unchanged");
    rest = sca_receive(receiver, sizeof receiver, cable, sca_count(sent), bits, output, sizeof output);
    check(sca_number(rest) == SCA_NO_FRAME && bits + sca_consumed(rest) == 8 * sca_count(sent), "the padding after it gives no answer");
}

/* A receiver's bytes as sca.h lists them: new, after a flag, and after 10100000 of a frame. */
static void receiver_bytes(void) {
    static const uint8_t cable[] = {0x7E, 0x05};
    uint8_t receiver[SCA_RECEIVER_BYTES], expected[SCA_RECEIVER_BYTES] = {0, 7}, output[SCA_OUTPUT_LEAST];
    int good;
    memset(receiver, 0xA5, sizeof receiver);
    sca_receiver_new(receiver, sizeof receiver);
    good = memcmp(receiver, expected, sizeof expected) == 0;
    sca_receive(receiver, sizeof receiver, cable, 1, 0, output, sizeof output);
    expected[0] = 1, expected[1] = 0;
    good &= memcmp(receiver, expected, sizeof expected) == 0;
    sca_receive(receiver, sizeof receiver, cable, 2, 8, output, sizeof output);
    expected[2] = 1, expected[3] = 8, expected[4] = 0x05;
    good &= memcmp(receiver, expected, sizeof expected) == 0;
    check(good, "the receiver's bytes are those that sca.h lists");
}

/* A frame that each of 21 to 24 drops, built from a good one. */
static unsigned answer(const uint8_t *cable, size_t length) {
    uint8_t receiver[SCA_RECEIVER_BYTES], output[SCA_OUTPUT_LEAST];
    sca_receiver_new(receiver, sizeof receiver);
    return sca_number(sca_receive(receiver, sizeof receiver, cable, length, 0, output, sizeof output));
}

static void dropped(void) {
    static const uint8_t longer[] = {0x7E, 0, 0, 0, 0, 0, 0, 0, 0, 0, 0, 0, 0, 0, 0, 0, 0, 0, 0, 0, 0x7E};
    static const uint8_t broken[] = {0x7E, 0, 0, 0, 0, 0xF8, 0x01};
    static const uint8_t wrong[] = {0x7E, 0, 0, 0, 0, 0x7E};
    static const uint8_t aborted[] = {0x7E, 0, 0, 0, 0, 0xFF};
    static const uint8_t idle[] = {0x7E, 0, 0, 0, 0xFF, 0x7E, 0x7E};
    check(answer(longer, sizeof longer) == SCA_LONG_CONTENT, "19 bytes of content are SCA_LONG_CONTENT");
    check(answer(broken, sizeof broken) == SCA_BROKEN_CONTENT, "34 bits of content are SCA_BROKEN_CONTENT");
    check(answer(wrong, sizeof wrong) == SCA_WRONG_FCS, "zeros for an FCS are SCA_WRONG_FCS");
    check(answer(aborted, sizeof aborted) == SCA_ABORTED, "seven ones after 32 bits are SCA_ABORTED");
    check(answer(idle, sizeof idle) == SCA_NO_FRAME, "seven ones after 24 bits, and flags, are passed over");
}

int main(void) {
    receiver_size();
    receiver_bytes();
    transmitter_sizes();
    receiver_limits();
    round_trip();
    dropped();
    return failures != 0;
}
