/* The adapter as a C program sees it: the header's sizes and numbers against the library, and document 01's listing. */
#include <stddef.h>
#include <stdint.h>
#include <string.h>

#include "check.h"
#include "sca.h"

enum { ID = 0x00000A };

/* The two sizes of a journal, in numbers: 2026-06 of the change requests. */
static const struct format {
    size_t bytes;
    unsigned slots; /* as many events are kept at most */
    uint8_t version;
} small = {17408, 64, 1}, large = {52224, 200, 2};

static const struct format *const formats[] = {&small, &large};

/* The one in use, and its journal at the front of the room. */
static const struct format *format = &small;
static size_t journal_length = 17408;
static uint8_t journal[SCA_LARGE_JOURNAL_BYTES + 1];

static uint8_t state[SCA_STATE_BYTES], output[SCA_OUTPUT_LEAST], batch_output[SCA_BATCH_LEAST];

static void use(const struct format *of) { format = of, journal_length = of->bytes; }

static uint8_t other_version(void) { return format == &small ? large.version : small.version; }

static void begin(void) {
    sca_create(state, sizeof state, ID);
    sca_empty(journal, journal_length);
}

static uint64_t frame(uint32_t port, const void *body, size_t length) {
    return sca_frame(state, sizeof state, journal, journal_length, port, body, length, output, sizeof output);
}

static uint64_t completion(const uint8_t *received, size_t length) {
    return sca_completion(state, sizeof state, journal, journal_length, received, length, output, sizeof output);
}

static uint64_t i2c_completion(uint32_t channel, uint32_t acknowledge, uint32_t line_low, const void *received, size_t length) {
    return sca_i2c_completion(state, sizeof state, journal, journal_length, channel, acknowledge, line_low, received, length, output,
                              sizeof output);
}

static uint64_t sample(uint32_t levels, uint32_t kind) {
    return sca_sample(state, sizeof state, journal, journal_length, levels, kind, output, sizeof output);
}

static uint64_t samples_in(size_t room, const struct sca_pin_sample *list, size_t count) {
    return sca_samples(state, sizeof state, journal, journal_length, list, count, batch_output, room);
}

static uint64_t samples(const struct sca_pin_sample *list, size_t count) { return samples_in(sizeof batch_output, list, count); }

static uint64_t upset(void) { return sca_upset(state, sizeof state, journal, journal_length, output, sizeof output); }

static uint64_t step_back(void) { return sca_step_back(state, sizeof state, journal, journal_length); }

static void sizes(void) {
    static uint8_t bytes[2 * SCA_STATE_BYTES], room[2 * SCA_OUTPUT_LEAST];
    int states = 1, outputs = 1, transfers = 1, transactions = 1, bodies = 1;
    for (size_t length = 0; length <= sizeof bytes; length++)
        states &= sca_create(bytes, length, ID) == (length == SCA_STATE_BYTES ? SCA_NO_FRAME : SCA_BAD_STATE);
    check(states, "a state is SCA_STATE_BYTES and no other length");
    check(sca_create(state, sizeof state, SCA_ID_MOST) == SCA_NO_FRAME && sca_create(state, sizeof state, SCA_ID_MOST + 1) == SCA_BAD_ID,
          "a chip ID is at most SCA_ID_MOST");
    for (size_t length = 0; length <= sizeof room; length++) {
        begin();
        outputs &= sca_upset(state, sizeof state, journal, journal_length, room, length) ==
                   (length < SCA_OUTPUT_LEAST ? SCA_SHORT_OUTPUT : SCA_NO_FRAME);
    }
    check(outputs, "an event asks for an output of SCA_OUTPUT_LEAST");
    begin();
    for (size_t length = 0; length <= sizeof room; length++) {
        transfers &= completion(room, length) == (length == SCA_TRANSFER_BYTES ? SCA_NOT_BUSY : SCA_BAD_ARGUMENT);
        transactions &= i2c_completion(SCA_I2C_FIRST, 1, 0, room, length) == (length <= SCA_I2C_MOST ? SCA_NOT_BUSY : SCA_BAD_ARGUMENT);
        bodies &= sca_refused(frame(SCA_PRIMARY, room, length)) == (length < SCA_BODY_LEAST || length > SCA_BODY_MOST);
    }
    check(transfers, "a transfer is SCA_TRANSFER_BYTES and no other length");
    check(transactions, "an I2C transaction brings at most SCA_I2C_MOST bytes");
    check(bodies, "a body is SCA_BODY_LEAST to SCA_BODY_MOST");
}

/* Emptying looks at the length alone, and writes seven bytes: mark, version, first slot 0, kept number 0. */
static void sizes_of_journals(void) {
    static uint8_t expected[sizeof journal];
    int refused = 1, made = 1;
    check(SCA_JOURNAL_BYTES == small.bytes && SCA_KEPT_MOST == small.slots && SCA_LARGE_JOURNAL_BYTES == large.bytes &&
              SCA_LARGE_KEPT_MOST == large.slots,
          "a small journal is 17,408 bytes and keeps 64, a large one is 52,224 and keeps 200");
    memset(journal, 0xEE, sizeof journal);
    memset(expected, 0xEE, sizeof expected);
    for (size_t length = 0; length <= sizeof journal; length++)
        if (length != small.bytes && length != large.bytes) refused &= sca_empty(journal, length) == SCA_BAD_JOURNAL;
    check(refused && memcmp(journal, expected, sizeof expected) == 0, "no journal has another length");
    for (unsigned other = 0; other <= 1; other++) {
        memset(journal, 0xEE, sizeof journal);
        memcpy(expected, other ? "SCJ\x02\x00\x00\x00" : "SCJ\x01\x00\x00\x00", 7);
        use(formats[other]);
        made &= sca_empty(journal, journal_length) == SCA_NO_FRAME && memcmp(journal, expected, sizeof expected) == 0;
        made &= sca_kept(journal, journal_length) == SCA_NO_FRAME;
    }
    use(&small);
    check(made, "an empty one has the version of its length");
}

static void sizes_of_batches(void) {
    static const struct sca_pin_sample list[SCA_SAMPLES_MOST + 2];
    static uint8_t room[SCA_BATCH_LEAST + 2];
    int counts = 1, outputs = 1;
    check(sizeof(struct sca_pin_sample) == 8 && offsetof(struct sca_pin_sample, levels) == 0 && offsetof(struct sca_pin_sample, kind) == 4,
          "a sample is 8 bytes, its levels at 0 and its kind at 4");
    begin();
    for (size_t count = 0; count <= SCA_SAMPLES_MOST + 2; count++)
        counts &= samples(list, count) == (count <= SCA_SAMPLES_MOST ? SCA_NO_FRAME : SCA_BAD_ARGUMENT);
    check(counts, "a batch is at most SCA_SAMPLES_MOST samples");
    for (size_t length = 0; length <= sizeof room; length++)
        outputs &= sca_samples(state, sizeof state, journal, journal_length, list, 1, room, length) ==
                   (length < SCA_BATCH_LEAST ? SCA_SHORT_OUTPUT : SCA_NO_FRAME);
    check(outputs && SCA_BATCH_LEAST == SCA_SAMPLES_MOST * SCA_REPLY_BYTES, "it asks for an output of SCA_BATCH_LEAST, a body for each");
}

static void kept(void) {
    int up = 1, down = 1;
    begin();
    for (unsigned event = 1; event <= format->slots + 6; event++) {
        uint64_t result;
        up &= upset() == SCA_NO_FRAME;
        result = sca_kept(journal, journal_length);
        up &= sca_number(result) == SCA_NO_FRAME;
        up &= sca_kept_in(result) == (event < format->slots ? event : format->slots);
    }
    check(up, "at most as many events are kept as there are slots");
    for (unsigned step = 0; step < format->slots; step++) down &= step_back() == SCA_NO_FRAME;
    check(down && step_back() == SCA_NONE_KEPT, "all of them are taken back, and one more is SCA_NONE_KEPT");
    journal[0] ^= 1;
    check(sca_kept(journal, journal_length) == SCA_BAD_JOURNAL && upset() == SCA_BAD_JOURNAL,
          "a journal without its mark is SCA_BAD_JOURNAL");
    state[0] = 8;
    check(upset() == SCA_BAD_STATE, "a send number of 8 is SCA_BAD_STATE");
}

static void numbers(void) {
    static const uint8_t received[SCA_TRANSFER_BYTES] = {1};
    begin();
    check(frame(SCA_PRIMARY, "\x01\x2F", 2) == SCA_OTHER_ADDRESS, "another address is SCA_OTHER_ADDRESS");
    check(frame(SCA_AUXILIARY, "\x00\x00", 2) == SCA_OTHER_PORT, "the other port is SCA_OTHER_PORT");
    check(frame(SCA_PRIMARY, "\x00\x01", 2) == SCA_OTHER_CONTROL, "an unknown control is SCA_OTHER_CONTROL");
    check(frame(SCA_PRIMARY, "\x00\x2F\x00", 3) == SCA_BAD_INFORMATION, "CONNECT with information is SCA_BAD_INFORMATION");
    check(frame(SCA_AUXILIARY + 1, "\x00\x2F", 2) == SCA_BAD_ARGUMENT, "a third port is SCA_BAD_ARGUMENT");
    check(frame(SCA_PRIMARY, "\x00", 1) == SCA_BAD_BODY, "a body of one byte is SCA_BAD_BODY");
    check(completion(received, sizeof received) == SCA_NOT_BUSY, "a completion without a GO is SCA_NOT_BUSY");
    check(i2c_completion(SCA_I2C_FIRST, 1, 0, NULL, 0) == SCA_NOT_BUSY && i2c_completion(SCA_I2C_LAST, 1, 0, NULL, 0) == SCA_NOT_BUSY,
          "an I2C completion without a start is SCA_NOT_BUSY");
    check(i2c_completion(SCA_I2C_FIRST - 1, 1, 0, NULL, 0) == SCA_BAD_ARGUMENT && i2c_completion(SCA_I2C_LAST + 1, 1, 0, NULL, 0) == SCA_BAD_ARGUMENT,
          "an I2C completion of another channel is SCA_BAD_ARGUMENT");
    check(sample(0, SCA_SYSTEM_CLOCK) == SCA_LINES_DISABLED, "a sample of disabled pins is SCA_LINES_DISABLED");
    check(sample(0, SCA_STROBE_FALLING + 1) == SCA_BAD_ARGUMENT, "a fourth edge kind is SCA_BAD_ARGUMENT");
}

/* Ports, edge kinds and I2C channels whose low byte, or low half, alone would do. */
static void wide_arguments(void) {
    static const uint32_t ports[] = {256, 257, 0x10000, 0x10001, 0x80000000, 0xFFFFFFFF};
    static const uint32_t kinds[] = {256, 257, 258, 0x10000, 0x10002, 0x80000000, 0xFFFFFFFF};
    static const uint32_t channels[] = {0x103, 0x112, 0x10003, 0x10012, 0x80000003, 0xFFFFFF12};
    static uint8_t was[sizeof journal];
    int port = 1, kind = 1, among = 1, channel = 1;
    begin();
    memcpy(was, journal, sizeof was);
    for (size_t at = 0; at < sizeof ports / sizeof ports[0]; at++) port &= frame(ports[at], "\x00\x2F", 2) == SCA_BAD_ARGUMENT;
    for (size_t at = 0; at < sizeof kinds / sizeof kinds[0]; at++) {
        struct sca_pin_sample list[3] = {{1, 0}, {1, 0}, {1, 0}};
        kind &= sample(1, kinds[at]) == SCA_BAD_ARGUMENT;
        list[at % 3].kind = kinds[at];
        among &= samples(list, 3) == SCA_BAD_ARGUMENT;
    }
    for (size_t at = 0; at < sizeof channels / sizeof channels[0]; at++)
        channel &= i2c_completion(channels[at], 1, 0, NULL, 0) == SCA_BAD_ARGUMENT;
    check(port, "ports over 255 are SCA_BAD_ARGUMENT");
    check(kind, "edge kinds over 255 are SCA_BAD_ARGUMENT");
    check(among, "one of them in a batch too");
    check(channel, "I2C channels over 255 are SCA_BAD_ARGUMENT");
    check(memcmp(was, journal, sizeof was) == 0 && sca_kept_in(sca_kept(journal, journal_length)) == 0, "and none of them is kept");
}

/* 6, 4, 1, 3, 2: each is asked for with all that come after it. */
static void order_of_refusals(void) {
    int ports = 1, kinds = 1, channels = 1;
    begin();
    ports &= frame(256, "\x00", 1) == SCA_BAD_ARGUMENT;
    ports &= sca_frame(state, sizeof state, journal, journal_length, 256, NULL, 0, output, 15) == SCA_SHORT_OUTPUT;
    kinds &= sca_sample(state, sizeof state, journal, journal_length, 0, 256, output, 15) == SCA_SHORT_OUTPUT;
    channels &= sca_i2c_completion(state, sizeof state, journal, journal_length, 256, 1, 0, NULL, 0, output, 15) == SCA_SHORT_OUTPUT;
    journal[3] = other_version();
    ports &= sca_frame(state, sizeof state, journal, journal_length, 256, NULL, 0, output, 15) == SCA_BAD_JOURNAL;
    kinds &= sca_sample(state, sizeof state, journal, journal_length, 0, 256, output, 15) == SCA_BAD_JOURNAL;
    channels &= sca_i2c_completion(state, sizeof state, journal, journal_length, 256, 1, 0, NULL, 0, output, 15) == SCA_BAD_JOURNAL;
    state[2] = 2;
    ports &= sca_frame(state, sizeof state, journal, journal_length, 256, NULL, 0, output, 15) == SCA_BAD_STATE;
    kinds &= sca_sample(state, sizeof state, journal, journal_length, 0, 256, output, 15) == SCA_BAD_STATE;
    channels &= sca_i2c_completion(state, sizeof state, journal, journal_length, 256, 1, 0, NULL, 0, output, 15) == SCA_BAD_STATE;
    check(ports, "port 256 is refused after 6, 4 and 1, and before 2");
    check(kinds, "edge kind 256 is refused after 6, 4 and 1");
    check(channels, "I2C channel 256 is refused after 6, 4 and 1");
}

static void version(void) {
    check(SCA_VERSION == (1 << 16 | 5 << 8 | 0) && sca_version() == SCA_VERSION, "the library is of the header's version, 1.5.0");
}

static void readers(void) {
    int refused = 1;
    uint64_t event = 0x010A00, reading = 0x080000021017, kept = 0x4011, sent = 0x1800, batch = 0x0012340100010A00;
    uint64_t kept_most = 0xC811;
    check(sca_number(event) == SCA_HAS_FRAME && sca_length(event) == 10 && sca_port(event) == SCA_AUXILIARY, "an event's result is read");
    check(sca_number(reading) == SCA_WRONG_FCS && sca_length(reading) == 16 && sca_consumed(reading) == 0x08000002, "a reading's");
    check(sca_number(kept) == SCA_NO_FRAME && sca_kept_in(kept) == 64, "a kept number's");
    check(sca_number(kept_most) == SCA_NO_FRAME && sca_kept_in(kept_most) == 200, "and that of a full large journal");
    check(sca_number(sent) == SCA_HAS_FRAME && sca_count(sent) == 24, "a transmission's");
    check(sca_number(batch) == SCA_HAS_FRAME && sca_length(batch) == 10 && sca_port(batch) == SCA_AUXILIARY && sca_frames(batch) == 256 &&
              sca_sum(batch) == 0x1234,
          "a batch's");
    for (unsigned number = 0; number <= 0xFF; number++)
        refused &= sca_refused(0x010A00 | number) == ((number >= 1 && number <= 10) || (number >= 31 && number <= 35));
    check(refused, "1 to 10 and 31 to 35 are refusals, and no other number is");
}

static void texts(void) {
    static const char none[] = "unknown number";
    int each = 1, others = 1, differ = 1;
    for (unsigned number = 0; number <= 0x1FF; number++) {
        int known = number <= 17 || (number >= 21 && number <= 24) || (number >= 31 && number <= 33) || number == 35;
        each &= !known || (strcmp(sca_text(number), none) != 0 && strlen(sca_text(number)) > 10);
        others &= known || strcmp(sca_text(number), none) == 0;
        for (unsigned other = 0; known && other < number; other++) differ &= strcmp(sca_text(number), sca_text(other)) != 0;
    }
    check(each, "each number has a text");
    check(differ, "no two numbers have the same");
    check(others, "what is no number is an unknown one");
    begin();
    check(strcmp(sca_text(sca_number(frame(256, "\x00\x2F", 2))),
                 "the port is not 0 or 1, the edge kind is over 2, the channel is not I2C, the completion is not 16 bytes (I2C: over 16), "
                 "or the batch is over 256 samples") == 0,
          "a result in words");
}

/* A request in sequence on port 0, with its place in the sequence for a TRN. */
static uint64_t request(unsigned place, uint8_t channel, uint8_t length, uint8_t command, uint32_t data) {
    uint8_t body[] = {0x00, (uint8_t)(2 * ((place - 1) % 8)), (uint8_t)place, channel, length, command,
                      (uint8_t)(data >> 16), (uint8_t)(data >> 24), (uint8_t)data, (uint8_t)(data >> 8)};
    return frame(SCA_PRIMARY, body, sizeof body);
}

/* The state's bytes as sca.h lists them. The values written are, where they can be, the places of their bytes in the state. */
static void state_bytes(void) {
    static const struct {
        uint8_t channel, length, command;
        uint32_t data;
    } writes[] = {
        {0x00, 4, 0x02, 0xFF000000}, {0x00, 4, 0x04, 0x06000000}, {0x00, 4, 0x06, 0xFF000000}, {0x15, 4, 0x10, 0x0000000C},
        {0x15, 4, 0x20, 0x0000000D}, {0x15, 4, 0x30, 0x0000000E}, {0x15, 4, 0x40, 0x0000000F}, {0x01, 6, 0x40, 0x00001514},
        {0x01, 6, 0x50, 0x00001716}, {0x01, 6, 0x60, 0x00000018}, {0x01, 6, 0x00, 0x1C1B1A19}, {0x01, 6, 0x10, 0x201F1E1D},
        {0x01, 6, 0x20, 0x24232221}, {0x01, 6, 0x30, 0x28272625}, {0x02, 4, 0x10, 0x2D2C2B2A}, {0x02, 4, 0x20, 0x35343332},
        {0x02, 4, 0x30, 0x39383736}, {0x02, 4, 0x40, 0x3D3C3B3A}, {0x02, 4, 0x70, 0x41403F3E}, {0x02, 4, 0x80, 0x45444342},
        {0x02, 4, 0x90, 0x49484746},
    };
    /* 22 replies and the open GO: send number 22 % 8, receive number 23 % 8. CRB without bit 0, CRD without bits 7 to 5. The sample of
     * ones by the system clock reaches the lines where neither DIRECTION nor CLKSEL is 1: all but 0x75747372. The upset counts one. */
    static const uint8_t expected[SCA_STATE_BYTES] = {
        0x06, 0x07, 0x00, 0x00, 0x01, 0xFE, 0x06, 0x1F, 0x01, 0x00, 0x00, 0x00, 0x0C, 0x0D, 0x0E, 0x0F, 0x10, 0x11, 0x12,
        0x00, 0x14, 0x15, 0x16, 0x17, 0x18, 0x19, 0x1A, 0x1B, 0x1C, 0x1D, 0x1E, 0x1F, 0x20, 0x21, 0x22, 0x23, 0x24, 0x25,
        0x26, 0x27, 0x28, 0x17, 0x2A, 0x2B, 0x2C, 0x2D, 0x8D, 0x8C, 0x8B, 0x8A, 0x32, 0x33, 0x34, 0x35, 0x36, 0x37, 0x38,
        0x39, 0x3A, 0x3B, 0x3C, 0x3D, 0x3E, 0x3F, 0x40, 0x41, 0x42, 0x43, 0x44, 0x45, 0x46, 0x47, 0x48, 0x49, 0x01,
    };
    static const uint8_t disabled[SCA_STATE_BYTES] = {
        [0] = 0x07, [4] = 0x01, [6] = 0x06, [7] = 0x1F, [8] = 0x01, [12] = 0x0C, [13] = 0x0D, [14] = 0x0E, [15] = 0x0F,
        [16] = 0x10, [17] = 0x11, [18] = 0x12,
    };
    unsigned place = 1;
    int done = 1;
    begin();
    sca_create(state, sizeof state, 0x121110);
    for (size_t at = 0; at < sizeof writes / sizeof writes[0]; at++, place++)
        done &= sca_length(request(place, writes[at].channel, writes[at].length, writes[at].command, writes[at].data)) == 10;
    done &= sample(0xFFFFFFFF, SCA_SYSTEM_CLOCK) == SCA_NO_FRAME;
    done &= sca_length(request(22, 0x02, 4, 0x60, 1)) == 10 && request(23, 0x01, 2, 0x72, 0) == SCA_NO_FRAME;
    done &= upset() == SCA_NO_FRAME && sca_length(frame(SCA_AUXILIARY, "\x00\xE3", 2)) == 2;
    check(done && memcmp(state, expected, sizeof expected) == 0, "the state's bytes are those that sca.h lists");
    done = sca_length(request(24, 0x00, 4, 0x02, 0)) == 10;
    check(done && memcmp(state, disabled, sizeof disabled) == 0, "a disabled SPI and GPIO hold zeros, and an open GO is dropped");
    done = sca_length(frame(SCA_PRIMARY, "\x00\xE3", 2)) == 2 && state[3] == 1 && state[4] == 1;
    check(done && memcmp(state + 5, disabled + 5, sizeof disabled - 5) == 0, "the loopback of each port has a byte of its own");
}

/* The bytes of master n, of channel 0x03 + n, are played to be their own places in the state, but for STATUS, TRN and CMD: an unknown code, a
 * start that ends in each way, MASK, CTRL, DATA, and a start that stays open. */
static void master_bytes(void) {
    static const uint8_t starts[][2] = {{0x82, 4}, {0x86, 4}, {0x8A, 6}, {0x8E, 4}, {0xC2, 2}, {0xC6, 2}, {0xCA, 2}};
    static const uint8_t status[] = {0x24, 0x28, 0x60, 0x68};
    static const uint8_t switches[] = {0xF8, 0xFF, 0x07};
    static uint8_t expected[SCA_STATE_BYTES];
    unsigned place = 1;
    int done = 1, disabled = 1;
    begin();
    memcpy(expected, state, sizeof expected);
    for (unsigned at = 0; at < 3; at++, place++) done &= sca_length(request(place, 0x00, 4, (uint8_t)(2 + 2 * at), (uint32_t)switches[at] << 24)) == 10;
    for (unsigned n = 0; n < 16; n++) {
        unsigned m = 75 + 21 * n;
        uint8_t channel = (uint8_t)(SCA_I2C_FIRST + n);
        const uint8_t *start = starts[n % 7];
        done &= sca_length(request(place++, channel, 0, 0xFF, 0)) == 10 && output[4] == 0x04;
        done &= request(place++, channel, 4, 0x82, 0) == SCA_NO_FRAME;
        done &= sca_length(i2c_completion(channel, !(n & 2), n & 1, NULL, 0)) == 10 && output[7] == status[n % 4];
        done &= sca_length(request(place++, channel, 1, 0x20, m << 24)) == 10;
        done &= sca_length(request(place++, channel, 1, 0x30, (m + 1) << 24)) == 10;
        for (unsigned word = 0; word < 4; word++) {
            unsigned low = m + 5 + 4 * word;
            uint32_t data = (low & 0xFF) | ((low + 1) & 0xFF) << 8 | ((low + 2) & 0xFF) << 16 | (uint32_t)((low + 3) & 0xFF) << 24;
            done &= sca_length(request(place++, channel, 4, (uint8_t)(0x40 + 0x10 * word), data)) == 10;
        }
        for (unsigned at = 0; at < 21; at++) expected[m + at] = (uint8_t)(m + at);
        expected[m + 2] = status[n % 4], expected[m + 3] = (uint8_t)place, expected[m + 4] = start[0];
        done &= request(place++, channel, start[1], start[0], 0) == SCA_NO_FRAME;
    }
    /* 3 replies, and 8 on each channel; 9 requests on each */
    expected[0] = 131 % 8, expected[1] = 147 % 8, expected[5] = 0xF8, expected[6] = 0xFF, expected[7] = 0x07;
    check(done && memcmp(state, expected, sizeof expected) == 0, "the masters' bytes are those that sca.h lists");
    for (unsigned at = 0; at < 3; at++, place++) {
        static const size_t from[] = {75, 180, 348, 411};
        disabled &= sca_length(request(place, 0x00, 4, (uint8_t)(2 + 2 * at), 0)) == 10;
        expected[0] = (expected[0] + 1) % 8, expected[1] = (expected[1] + 1) % 8, expected[5 + at] = 0;
        memset(expected + from[at], 0, from[at + 1] - from[at]);
        disabled &= memcmp(state, expected, sizeof expected) == 0;
    }
    check(disabled, "disabled masters hold zeros, those of CRB, of CRC and of CRD");
}

/* The journal's bytes as docs/JOURNAL.md lists them, after events of each kind. A row is the front of a slot: the tag, then the state's bytes
 * 0 to 15 as they were before the event. Behind it the registers that CRB, CRC or CRD switches, with tag 1, 2 or 3. */
static void record_bytes(void) {
    static const size_t group_bytes[] = {0, 160, 168, 63};
    static const uint8_t fronts[][17] = {
        {1},
        {2, 1, 1, 0, 0, 0, 0x0E},
        {3, 2, 2, 0, 0, 0, 0x0E, 0x55},
        {0, 3, 3, 0, 0, 0, 0x0E, 0x55, 0x09},
        {1, 4, 4, 0, 0, 0, 0x0E, 0x55, 0x09, 0, 0, 0, 0, 0, 0x77},
        {1, 5, 5, 0, 0, 0, 0x0E, 0x55, 0x09, 0, 0, 0, 0, 0, 0x77},
        {0, 5, 5, 0, 0, 0, 0x0E, 0x55, 0x09, 0, 0, 0, 0, 0, 0x77},
        {0, 5, 5, 0, 0, 0, 0x0E, 0x55, 0x09, 1, 0, 0, 0, 0, 0x77},
        {1, 5, 5, 0, 0, 1, 0x0E, 0x55, 0x09, 1, 0, 0, 0, 0, 0x77},
        {1, 5, 5, 0, 0, 1, 0x0E, 0x55, 0x09, 1, 0, 0, 0, 0, 0x77},
        {2, 6, 6, 0, 0, 1, 0x0E, 0x55, 0x09, 1, 0, 0, 0, 0, 0x77},
        {3, 7, 7, 0, 0, 1, 0x0E, 0x55, 0x09, 1, 0, 0, 0, 0, 0x77},
        {1, 0, 0, 0, 0, 1, 0x0E, 0x55, 0x09, 1, 0, 0, 0, 0, 0x77},
        {2, 0, 0, 0, 0, 1, 0x0E, 0x55, 0x09, 1, 0, 0, 0, 0, 0x77},
        {3, 0, 0, 0, 0, 1, 0x0E, 0x55, 0x09, 1, 0, 0, 0, 0, 0x77},
    };
    static const uint8_t received[SCA_TRANSFER_BYTES];
    static uint8_t expected[sizeof journal];
    int done = 1;
    memset(journal, 0xEE, sizeof journal);
    memset(expected, 0xEE, sizeof expected);
    begin();
    done &= sca_length(request(1, 0x00, 4, 0x02, 0x0E000000)) == 10 && sca_length(request(2, 0x00, 4, 0x04, 0x55000000)) == 10;
    done &= sca_length(request(3, 0x00, 4, 0x06, 0x09000000)) == 10 && sca_length(request(4, 0x15, 4, 0x20, 0x00000077)) == 10;
    done &= sca_length(request(5, 0x01, 6, 0x60, 0x00000099)) == 10 && sample(0x04030201, SCA_SYSTEM_CLOCK) == SCA_NO_FRAME;
    done &= upset() == SCA_NO_FRAME && sca_length(frame(SCA_AUXILIARY, "\x00\xE3", 2)) == 2;
    done &= completion(received, sizeof received) == SCA_NOT_BUSY;
    done &= sca_length(request(6, 0x03, 1, 0x20, 0xA1000000)) == 10 && sca_length(request(7, 0x08, 1, 0x20, 0xA2000000)) == 10;
    done &= sca_length(request(8, 0x10, 1, 0x20, 0xA3000000)) == 10 && i2c_completion(0x07, 1, 0, NULL, 0) == SCA_NOT_BUSY;
    done &= i2c_completion(0x0F, 1, 0, NULL, 0) == SCA_NOT_BUSY && i2c_completion(0x12, 1, 0, NULL, 0) == SCA_NOT_BUSY;
    memcpy(expected, "SCJ\x01\x00\x00\x0F", 7);
    expected[3] = format->version;
    for (size_t row = 0; row < sizeof fronts / sizeof fronts[0]; row++) {
        uint8_t *slot = expected + 1024 + 256 * row;
        memcpy(slot, fronts[row], sizeof fronts[row]);
        memset(slot + 17, 0, group_bytes[slot[0]]);
        if (slot[0] == 1 && row >= 5) slot[21] = 0x99; /* SS, the state's byte 24 */
        if (slot[0] == 1 && row >= 6) memcpy(slot + 43, "\x01\x02\x03\x04", 4); /* DATAIN, bytes 46 to 49 */
    }
    /* MASK of the first master of CRB, of CRC and of CRD: the state's bytes 75, 180 and 348 */
    expected[1024 + 256 * 12 + 17 + 55] = 0xA1, expected[1024 + 256 * 13 + 17] = 0xA2, expected[1024 + 256 * 14 + 17] = 0xA3;
    check(done && memcmp(journal, expected, sizeof expected) == 0, "the journal's bytes are those that docs/JOURNAL.md lists");
}

/* The bytes that hex digits spell. */
static size_t spelled(const char *digits, uint8_t *bytes) {
    static const char hex[] = "0123456789abcdef";
    size_t count = strlen(digits) / 2;
    for (size_t at = 0; at < count; at++)
        bytes[at] = (uint8_t)(16 * (strchr(hex, digits[2 * at]) - hex) + (strchr(hex, digits[2 * at + 1]) - hex));
    return count;
}

/* Document 01's listing. */
static void listing(void) {
    static const struct {
        const char *body, *sent;
        unsigned number, kept;
    } lines[] = {
        {"00000100040200040000", "00200100000200000000", SCA_HAS_FRAME, 1},
        {"00020202041034127856", "00420202000200000000", SCA_HAS_FRAME, 2},
        {"00040302011100000000", "00640302000434127856", SCA_HAS_FRAME, 3},
        {"00060401024100000000", "00860401200200000000", SCA_HAS_FRAME, 4},
        {"00060401024100000000", "008d", SCA_HAS_FRAME, 5},
        {NULL, "", SCA_NO_FRAME, 4},
        {NULL, "", SCA_NO_FRAME, 3},
        {"00060502011100000000", "00860502000434127856", SCA_HAS_FRAME, 4},
    };
    int good = 1;
    begin();
    for (size_t line = 0; line < sizeof lines / sizeof lines[0]; line++) {
        uint8_t body[SCA_BODY_MOST], sent[SCA_BODY_MOST];
        size_t count = spelled(lines[line].sent, sent);
        uint64_t result = lines[line].body ? frame(SCA_PRIMARY, body, spelled(lines[line].body, body)) : step_back();
        good &= sca_number(result) == lines[line].number && sca_port(result) == SCA_PRIMARY && sca_length(result) == count;
        good &= memcmp(output, sent, count) == 0;
        good &= sca_kept_in(sca_kept(journal, journal_length)) == lines[line].kept;
    }
    check(good, "document 01's listing");
}

/* A GO's reply and an interrupt, which no frame asks for at that moment. */
static void later_answers(void) {
    static const uint8_t received[SCA_TRANSFER_BYTES] = {0x78, 0x56, 0x34, 0x12};
    uint64_t result;
    begin();
    frame(SCA_PRIMARY, "\x00\x00\x01\x00\x04\x02\x00\x06\x00\x00", 10);
    frame(SCA_PRIMARY, "\x00\x02\x02\x02\x04\x30\xFF\xFF\xFF\xFF", 10);
    frame(SCA_PRIMARY, "\x00\x04\x03\x02\x04\x60\x00\x00\x01\x00", 10);
    check(frame(SCA_PRIMARY, "\x00\x06\x04\x01\x02\x72\x00\x00\x00\x00", 10) == SCA_NO_FRAME, "a GO gives SCA_NO_FRAME");
    result = completion(received, sizeof received);
    check(sca_number(result) == SCA_HAS_FRAME && sca_length(result) == 10 && memcmp(output, "\x00\x86\x04\x01\x00\x06\x34\x12\x78\x56", 10) == 0,
          "its completion gives the reply");
    check(sample(0, SCA_STROBE_RISING) == SCA_NO_FRAME, "a sample that changes no line gives SCA_NO_FRAME");
    check(sample(0x80000001, SCA_SYSTEM_CLOCK) == SCA_NO_FRAME, "so does one that fires no line");
    result = sample(0, SCA_SYSTEM_CLOCK);
    check(sca_number(result) == SCA_HAS_FRAME && memcmp(output, "\x00\x88\xFF\x02\x00\x04\x00\x80\x01\x00", 10) == 0,
          "a sample that fires gives the interrupt");
    result = frame(SCA_AUXILIARY, "\x00\x3F", 2);
    check(sca_number(result) == SCA_HAS_FRAME && sca_port(result) == SCA_AUXILIARY && memcmp(output, "\x00\x73", 2) == 0,
          "CONNECT is acknowledged on its own port");
}

/* A new adapter with the lines enabled, and these interrupts. */
static void armed(uint32_t intsel, uint32_t inttrig) {
    begin();
    request(1, 0x00, 4, 0x02, 0x04000000);
    request(2, 0x02, 4, 0x30, intsel);
    request(3, 0x02, 4, 0x40, inttrig);
    request(4, 0x02, 4, 0x60, 1);
}

/* Whether a sample gives this number and, with a frame, an interrupt of these lines. */
static int fires(uint32_t levels, uint32_t number, uint32_t lines) {
    uint8_t sent[] = {0xFF, 0x02, 0x00, 0x04, (uint8_t)(lines >> 16), (uint8_t)(lines >> 24), (uint8_t)lines, (uint8_t)(lines >> 8)};
    uint64_t result = sample(levels, SCA_SYSTEM_CLOCK);
    if (sca_number(result) != number) return 0;
    return number != SCA_HAS_FRAME || (sca_length(result) == 10 && memcmp(output + 2, sent, sizeof sent) == 0);
}

/* Which edge of a line interrupts: Table 9.7 of the manual, for each line alone, with INTENABLE 1. */
static void edges(void) {
    static const struct {
        uint32_t intsel, inttrig, rising, falling;
        const char *what;
    } rows[] = {
        {1, 0, SCA_NO_FRAME, SCA_HAS_FRAME, "with INTTRIG 0 a line interrupts on falling"},
        {1, 1, SCA_HAS_FRAME, SCA_NO_FRAME, "with INTTRIG 1 on rising"},
        {0, 0, SCA_NO_FRAME, SCA_NO_FRAME, "with INTSEL 0 on neither, INTTRIG being 0"},
        {0, 1, SCA_NO_FRAME, SCA_NO_FRAME, "or 1"},
    };
    for (size_t row = 0; row < sizeof rows / sizeof rows[0]; row++) {
        int good = 1;
        for (unsigned line = 0; line < 32; line++) {
            armed(rows[row].intsel << line, rows[row].inttrig << line);
            good &= fires((uint32_t)1 << line, rows[row].rising, (uint32_t)1 << line);
            good &= fires(0, rows[row].falling, (uint32_t)1 << line);
        }
        check(good, rows[row].what);
    }
    /* Lines 0 and 2 have INTTRIG 1, line 1 has 0, line 3 is not selected. */
    armed(0x7, 0x5);
    check(fires(0xC, SCA_HAS_FRAME, 0x4) && fires(0xB, SCA_HAS_FRAME, 0x1) && fires(0x8, SCA_HAS_FRAME, 0x2), "lines go each by its own INTTRIG");
    check(fires(0xA, SCA_NO_FRAME, 0) && state[62] == 0x2, "INTS stays where no line fires");
}

/* Whether a batch sent these bodies and no other, on this port, with this sum; nothing in it where there is none. */
static int sent_as(uint64_t result, const uint8_t (*sent)[SCA_REPLY_BYTES], size_t frames, uint32_t port, uint32_t sum) {
    int good = sca_frames(result) == frames && sca_port(result) == port && sca_sum(result) == sum;
    if (frames == 0) return result == SCA_NO_FRAME;
    good &= sca_number(result) == SCA_HAS_FRAME && sca_length(result) == SCA_REPLY_BYTES;
    return good && memcmp(batch_output, sent, frames * SCA_REPLY_BYTES) == 0;
}

static unsigned kept_now(void) { return sca_kept_in(sca_kept(journal, journal_length)); }

/* Both edges, by the system clock. Of lines 0, 9, 18, 27 and 31 all but the last are selected; 0 and 18 interrupt on rising, 9 and 27 on falling.
 * Four replies went out before, so that send and receive number are 4, and control is 2 * 4 + 32 * 4 = 0x88, then 2 more each time.
 *     levels      moved                          fire     INTS        D[23:16] [31:24] [7:0] [15:8]
 *     0x88040201  all five rise                  0, 18    0x00040001        04      00    01     00
 *     0x88040201  none                           none
 *     0x80040001  9, 27 fall                     9, 27    0x08000200        00      08    00     02
 *     0x00000001  18, 31 fall                    none
 *     0x08000200  0 falls, 9, 27 rise            none
 *     0x00040001  0, 18 rise, 9, 27 fall         all four 0x08040201        04      08    01     02
 * Three interrupts, of 2 + 2 + 4 lines. */
static void batch_of_edges(void) {
    static const struct sca_pin_sample list[] = {{0x88040201, 0}, {0x88040201, 0}, {0x80040001, 0}, {0x00000001, 0}, {0x08000200, 0}, {0x00040001, 0}};
    static const uint8_t sent[][SCA_REPLY_BYTES] = {{0x00, 0x88, 0xFF, 0x02, 0x00, 0x04, 0x04, 0x00, 0x01, 0x00},
                                                        {0x00, 0x8A, 0xFF, 0x02, 0x00, 0x04, 0x00, 0x08, 0x00, 0x02},
                                                        {0x00, 0x8C, 0xFF, 0x02, 0x00, 0x04, 0x04, 0x08, 0x01, 0x02}};
    static const uint8_t datain[] = {0x01, 0x00, 0x04, 0x00}, ints[] = {0x01, 0x02, 0x04, 0x08};
    armed(0x08040201, 0x00040001);
    check(sent_as(samples(list, 6), sent, 3, SCA_PRIMARY, 8), "a batch sends its interrupts in order, rising and falling lines each by INTTRIG");
    check(memcmp(state + 46, datain, 4) == 0 && memcmp(state + 62, ints, 4) == 0 && state[0] == 7 && state[1] == 4,
          "DATAIN, INTS and the link numbers are then those of the last sample");
    check(kept_now() == 4 + 6, "and each sample is kept, those that send nothing too");
}

/* The strobe. Line 0 goes by the system clock, 1 by the strobe rising (CLKSEL 1), 2 by the strobe falling (EDGESEL 1 too); line 3 is an output
 * (DIRECTION 1). All are selected and interrupt on rising. Seven replies went out before: control is 2 * 7 + 32 * 7 = 0xEE, and with the send
 * number at 0 again 0xE0.
 *     levels  kind            lines taken  fire
 *     0xF     strobe rising   1            1
 *     0xF     strobe falling  2            2
 *     0xF     strobe rising   1, as it is  none
 *     0x0     strobe falling  2 falls      none
 *     0xF     system clock    0            0
 *     0xF     strobe falling  2            2
 * Four interrupts of a line each. DATAIN is 0x7 then. */
static void batch_of_strobes(void) {
    static const struct sca_pin_sample list[] = {{0xF, SCA_STROBE_RISING}, {0xF, SCA_STROBE_FALLING}, {0xF, SCA_STROBE_RISING},
                                                 {0x0, SCA_STROBE_FALLING}, {0xF, SCA_SYSTEM_CLOCK}, {0xF, SCA_STROBE_FALLING}};
    static const uint8_t sent[][SCA_REPLY_BYTES] = {{0x00, 0xEE, 0xFF, 0x02, 0x00, 0x04, 0x00, 0x00, 0x02, 0x00},
                                                        {0x00, 0xE0, 0xFF, 0x02, 0x00, 0x04, 0x00, 0x00, 0x04, 0x00},
                                                        {0x00, 0xE2, 0xFF, 0x02, 0x00, 0x04, 0x00, 0x00, 0x01, 0x00},
                                                        {0x00, 0xE4, 0xFF, 0x02, 0x00, 0x04, 0x00, 0x00, 0x04, 0x00}};
    armed(0xF, 0xF);
    request(5, 0x02, 4, 0x80, 0x6);
    request(6, 0x02, 4, 0x90, 0x4);
    request(7, 0x02, 4, 0x20, 0x8);
    check(sent_as(samples(list, 6), sent, 4, SCA_PRIMARY, 4) && state[46] == 0x7, "samples of one batch go each by its own kind");
}

/* With INTENABLE 0 lines fire, but there is no interrupt, and none of them counts. With 1, from DATAIN 0xFF on, 0x0F makes lines 4 to 7 fall, which
 * interrupt on rising, and 0xFF makes them rise. Six replies went out before it: control is 2 * 6 + 32 * 6 = 0xCC. */
static void batch_not_enabled(void) {
    static const struct sca_pin_sample list[] = {{0xFF, 0}, {0x00, 0}, {0xFF, 0}}, later[] = {{0xFF, 0}, {0x0F, 0}, {0xFF, 0}};
    static const uint8_t sent[][SCA_REPLY_BYTES] = {{0x00, 0xCC, 0xFF, 0x02, 0x00, 0x04, 0x00, 0x00, 0xF0, 0x00}};
    armed(0xFFFFFFFF, 0xFFFFFFFF);
    request(5, 0x02, 4, 0x60, 0);
    check(sent_as(samples(list, 3), NULL, 0, 0, 0) && state[46] == 0xFF && state[62] == 0 && kept_now() == 5 + 3,
          "lines that fire with INTENABLE 0 send nothing, and a batch of them is SCA_NO_FRAME");
    request(6, 0x02, 4, 0x60, 1);
    check(sent_as(samples(later, 3), sent, 1, SCA_PRIMARY, 4), "with INTENABLE 1 those are counted that fire from then on");
}

/* After a CONNECT on port 1 both numbers are 0: control is 0, then 2. All lines interrupt on falling: 1 and 0, then 3 and 2. */
static void batch_on_port_1(void) {
    static const struct sca_pin_sample list[] = {{0xF, 0}, {0xC, 0}, {0x0, 0}};
    static const uint8_t sent[][SCA_REPLY_BYTES] = {{0x00, 0x00, 0xFF, 0x02, 0x00, 0x04, 0x00, 0x00, 0x03, 0x00},
                                                        {0x00, 0x02, 0xFF, 0x02, 0x00, 0x04, 0x00, 0x00, 0x0C, 0x00}};
    armed(0xF, 0x0);
    frame(SCA_AUXILIARY, "\x00\x2F", 2);
    check(sent_as(samples(list, 3), sent, 2, SCA_AUXILIARY, 4), "a batch's interrupts leave on the active port");
}

static uint8_t state_was[SCA_STATE_BYTES], journal_was[sizeof journal], batch_output_was[SCA_BATCH_LEAST];

static void note_all(void) {
    memset(batch_output, 0xA5, sizeof batch_output);
    memcpy(state_was, state, sizeof state), memcpy(journal_was, journal, sizeof journal), memcpy(batch_output_was, batch_output, sizeof batch_output);
}

static int all_as_noted(void) {
    return memcmp(state, state_was, sizeof state) == 0 && memcmp(journal, journal_was, sizeof journal) == 0 &&
           memcmp(batch_output, batch_output_was, sizeof batch_output) == 0;
}

/* GPIO disabled: alone each sample is 16 and kept; together they are 17, and each is kept. */
static void batch_disabled(void) {
    static const struct sca_pin_sample list[] = {{0xFF, 0}, {0x00, 1}, {0xFF, 2}};
    int back = 1;
    begin();
    note_all();
    check(samples(list, 3) == SCA_NO_FRAME && kept_now() == 3 && memcmp(state, state_was, sizeof state) == 0 && batch_output[0] == 0xA5,
          "a batch with GPIO disabled is SCA_NO_FRAME, and each of its samples is kept");
    check(sample(0xFF, 0) == SCA_LINES_DISABLED && kept_now() == 4, "where one alone is SCA_LINES_DISABLED");
    for (unsigned left = 4; left-- > 0;) back &= step_back() == SCA_NO_FRAME && kept_now() == left;
    check(back && step_back() == SCA_NONE_KEPT, "they are taken back one by one");
}

static void batch_of_none(void) {
    armed(0xFFFFFFFF, 0);
    note_all();
    check(samples(NULL, 0) == SCA_NO_FRAME && all_as_noted(), "a batch of none, NULL for its list, is SCA_NO_FRAME and changes nothing");
    check(samples_in(SCA_BATCH_LEAST - 1, NULL, 0) == SCA_SHORT_OUTPUT && all_as_noted(), "it is refused like any other");
}

/* Whether a batch is refused with this number, and changes nothing. */
static int refused_as(unsigned number, size_t room, const struct sca_pin_sample *list, size_t count) {
    note_all();
    return samples_in(room, list, count) == number && all_as_noted();
}

/* 6, 4, 1, 3: each is asked for with all that come after it. A list that is wrong in its first, a middle or its last kind, or one sample too long;
 * what is right in it would interrupt at every other sample. */
static void order_of_refused_batches(void) {
    static const size_t wrong_at[] = {0, 128, 255}, counts[] = {256, 256, 256, 257};
    int good = 1;
    for (size_t row = 0; row < 4; row++) {
        struct sca_pin_sample list[SCA_SAMPLES_MOST + 1];
        for (size_t at = 0; at <= SCA_SAMPLES_MOST; at++) list[at].levels = at % 2 ? 0 : 0xFFFFFFFF, list[at].kind = 0;
        armed(0xFFFFFFFF, 0);
        good &= sca_frames(samples(list, SCA_SAMPLES_MOST)) == 128;
        armed(0xFFFFFFFF, 0);
        if (row < 3) list[wrong_at[row]].kind = SCA_STROBE_FALLING + 1;
        good &= refused_as(SCA_BAD_ARGUMENT, SCA_BATCH_LEAST, list, counts[row]);
        good &= refused_as(SCA_SHORT_OUTPUT, SCA_BATCH_LEAST - 1, list, counts[row]);
        journal[3] = other_version();
        good &= refused_as(SCA_BAD_JOURNAL, SCA_BATCH_LEAST - 1, list, counts[row]);
        state[2] = 2;
        good &= refused_as(SCA_BAD_STATE, SCA_BATCH_LEAST - 1, list, counts[row]);
    }
    check(good, "a wrong kind anywhere in a batch, or one sample too many, is refused after 6, 4 and 1, before anything is done");
}

static unsigned ones(const uint8_t *bytes, size_t count) {
    unsigned sum = 0;
    for (size_t bit = 0; bit < 8 * count; bit++) sum += bytes[bit / 8] >> bit % 8 & 1;
    return sum;
}

/* Whether a batch leaves and sends what its samples do one by one, and is taken back sample by sample. */
static int as_one_by_one(const struct sca_pin_sample *list, size_t count, size_t least_frames) {
    static uint8_t before[SCA_SAMPLES_MOST][SCA_STATE_BYTES], batch_state[SCA_STATE_BYTES], batch_journal[sizeof journal];
    uint64_t result;
    size_t frames = 0;
    unsigned sum = 0, kept;
    int good = 1;
    note_all();
    result = samples(list, count);
    memcpy(batch_state, state, sizeof state), memcpy(batch_journal, journal, sizeof journal);
    memcpy(state, state_was, sizeof state), memcpy(journal, journal_was, sizeof journal);
    for (size_t at = 0; at < count; at++) {
        uint64_t one;
        memcpy(before[at], state, sizeof state);
        one = sample(list[at].levels, list[at].kind);
        good &= !sca_refused(one);
        if (sca_number(one) != SCA_HAS_FRAME) continue;
        good &= sca_length(one) == SCA_REPLY_BYTES && sca_port(one) == sca_port(result);
        memcpy(batch_output_was + frames++ * SCA_REPLY_BYTES, output, SCA_REPLY_BYTES);
        sum += ones(output + 6, 4);
    }
    good &= frames >= least_frames && sca_frames(result) == frames && sca_sum(result) == sum;
    good &= sca_number(result) == (frames ? SCA_HAS_FRAME : SCA_NO_FRAME) && sca_length(result) == (frames ? SCA_REPLY_BYTES : 0);
    memcpy(state_was, batch_state, sizeof state), memcpy(journal_was, batch_journal, sizeof journal);
    good &= all_as_noted();
    kept = kept_now();
    for (size_t step = 1; step <= count && step <= format->slots; step++)
        good &= step_back() == SCA_NO_FRAME && kept_now() == kept - step && memcmp(state, before[count - step], sizeof state) == 0;
    return good;
}

/* Sizes around those of the journal and of the batch, over lines that all interrupt, half on rising and half on falling; over lines of which some
 * do, by every kind; on port 1; and with GPIO disabled. Of the first all samples interrupt. */
static void batches_as_one_by_one(void) {
    static const size_t counts[] = {0, 1, 2, 63, 64, 65, 199, 200, 201, 255, 256};
    static struct sca_pin_sample swinging[SCA_SAMPLES_MOST], any[SCA_SAMPLES_MOST];
    int all = 1, some = 1, other_port = 1, disabled = 1;
    for (uint32_t at = 0; at < SCA_SAMPLES_MOST; at++) {
        swinging[at].levels = at % 2 ? 0 : 0xFFFFFFFF;
        any[at].levels = (at + 1) * 0x9E3779B9, any[at].kind = at % 5 % 3;
    }
    for (size_t row = 0; row < sizeof counts / sizeof counts[0]; row++) {
        size_t count = counts[row];
        armed(0xFFFFFFFF, 0x0000FFFF);
        all &= as_one_by_one(swinging, count, count);
        armed(0x00F00F0F, 0x00550055);
        request(5, 0x02, 4, 0x80, 0x0000FF00);
        request(6, 0x02, 4, 0x90, 0x0000F000);
        some &= as_one_by_one(any, count, count / 4);
        armed(0xFFFFFFFF, 0x0000FFFF);
        frame(SCA_AUXILIARY, "\x00\x2F", 2);
        other_port &= as_one_by_one(any, count, count / 4);
        begin();
        disabled &= as_one_by_one(any, count, 0);
    }
    check(all, "batches of 0 to 256 samples that all interrupt are their samples one by one, back again too");
    check(some, "of which some do, by every edge kind");
    check(other_port, "on port 1");
    check(disabled, "and with GPIO disabled");
}

/* Reads and writes on two masters at once, and a step back over each end. */
static void i2c_exchange(void) {
    int good = 1;
    begin();
    request(1, 0x00, 4, 0x02, 0x08000000);
    request(2, 0x00, 4, 0x06, 0x04000000);
    request(3, 0x03, 1, 0x30, 0x0C000000);
    good &= sca_length(request(4, 0x03, 4, 0x40, 0xAABBCCDD)) == 10 && memcmp(output, "\x00\x86\x04\x03\x00\x00\x00\x00\x00\x00", 10) == 0;
    check(good, "an I2C register is written");
    check(request(5, 0x03, 4, 0xDE, 0x50000000) == SCA_NO_FRAME && request(6, 0x12, 4, 0x86, 0x51000000) == SCA_NO_FRAME,
          "I2C starts give SCA_NO_FRAME");
    good = sca_length(request(7, 0x03, 0, 0x31, 0)) == 10 && memcmp(output, "\x00\xE8\x07\x03\x40\x02\x00\x00\x00\x00", 10) == 0;
    check(good, "a busy master answers 0x40");
    good = sca_length(i2c_completion(0x12, 1, 0, "\x99", 1)) == 10 && memcmp(output, "\x00\xEA\x06\x12\x00\x04\x99\x04\x00\x00", 10) == 0;
    check(good, "a read of one byte has it in its reply");
    good = sca_length(i2c_completion(0x03, 7, 0, "\x11\x22", 2)) == 10 && memcmp(output, "\x00\xEC\x05\x03\x00\x04\x00\x04\x00\x00", 10) == 0;
    good &= sca_length(request(8, 0x03, 0, 0x41, 0)) == 10 && memcmp(output, "\x00\x0E\x08\x03\x00\x04\x22\x11\xDD\x00", 10) == 0;
    check(good, "a read of three, of which two came, fills DATA with them and a zero");
    check(i2c_completion(0x03, 1, 0, NULL, 0) == SCA_NOT_BUSY, "and then there is no start open");
    for (unsigned step = 0; step < 3; step++) good &= step_back() == SCA_NO_FRAME;
    good &= sca_length(i2c_completion(0x03, 0, 9, "\x11\x22", 2)) == 10 && memcmp(output, "\x00\xEC\x05\x03\x00\x04\x00\x48\x00\x00", 10) == 0;
    good &= sca_length(request(8, 0x03, 0, 0x41, 0)) == 10 && memcmp(output, "\x00\x0E\x08\x03\x00\x04\xBB\xAA\xDD\xCC", 10) == 0;
    check(good, "taken back, it ends in another way, and DATA stays");
}

/* ---------------------------------------------------------------- journals of both sizes */

/* An event of a long run, known by its place n in it. Each leaves another state: every kind of record comes, and the
 * masters are switched off every other time, with something in them. The upsets tell the rounds of eight apart, the
 * link numbers and DATAIN the events of a round: from event 1 on GPIO is enabled. */
static uint64_t nth_event(unsigned n) {
    uint32_t switches = n / 8 % 2 ? 0 : 0xFF000000;
    unsigned due = state[1] + 1u; /* the receive number is that of the request due */
    switch (n % 8) {
    case 0: return upset();
    case 1: return request(due, 0x00, 4, 0x02, switches | 0x04000000);
    case 2: return request(due, 0x00, 4, 0x04, switches);
    case 3: return request(due, 0x00, 4, 0x06, switches);
    case 4: return request(due, 0x08, 1, 0x20, n << 24);
    case 5: return request(due, 0x12, 1, 0x20, n << 24);
    case 6: return sample(n * 0x9E3779B9u, SCA_SYSTEM_CLOCK);
    default: return request(due, 0x15, 4, 0x10, n);
    }
}

/* The tag of its record: CRB, CRC and CRD have 1, 2 and 3, a master that of the register that switches it, a sample
 * has 1. */
static uint8_t nth_tag(unsigned n) {
    static const uint8_t tags[] = {0, 1, 2, 3, 2, 3, 1, 0};
    return tags[n % 8];
}

enum { RUN_MOST = 800 };

/* Of a run: the state before each event, behind the last one too, and what each gave. */
static uint8_t states[RUN_MOST + 1][SCA_STATE_BYTES];
static uint64_t results[RUN_MOST];
static uint8_t outputs[RUN_MOST][SCA_OUTPUT_LEAST];

/* Plays the events of a run from one place up to another, and notes them. Whether each was done and left another
 * state. */
static int play(unsigned from, unsigned to) {
    int good = 1;
    memcpy(states[from], state, sizeof state);
    for (unsigned n = from; n < to; n++) {
        memset(output, 0xA5, sizeof output);
        results[n] = nth_event(n);
        memcpy(outputs[n], output, sizeof output);
        memcpy(states[n + 1], state, sizeof state);
        good &= !sca_refused(results[n]) && memcmp(states[n], states[n + 1], sizeof state) != 0;
    }
    return good;
}

/* Plays one of them again: whether it gives and leaves what was noted. */
static int played_again(unsigned n) {
    memset(output, 0xA5, sizeof output);
    return nth_event(n) == results[n] && memcmp(output, outputs[n], sizeof output) == 0 &&
           memcmp(state, states[n + 1], sizeof state) == 0;
}

/* Whether of so many events that were played just this many are kept, and are taken back down to the refusal: each
 * step leaves the state as it was before its event, and the refusal leaves all as it is. */
static int all_back(unsigned played, unsigned kept) {
    int good = kept_now() == kept;
    for (unsigned step = 1; step <= kept; step++) {
        good &= step_back() == SCA_NO_FRAME && kept_now() == kept - step;
        good &= memcmp(state, states[played - step], sizeof state) == 0;
    }
    note_all();
    return good && step_back() == SCA_NONE_KEPT && all_as_noted();
}

/* Up to the slots there are every event is kept; from then on each new one costs the oldest. */
static void taken_back(void) {
    const unsigned slots = format->slots;
    const struct {
        unsigned events, kept;
        const char *what;
    } rows[] = {
        {0, 0, "of no event none is taken back"},
        {1, 1, "one event is taken back"},
        {slots - 1, slots - 1, "one event under the slots: all are taken back, with the state as it was at each step"},
        {slots, slots, "as many as there are slots"},
        {slots + 1, slots, "one over: the oldest is given up, and all others are taken back"},
        {2 * slots - 1, slots, "one event before the ring is once round"},
        {2 * slots, slots, "the ring once round"},
        {2 * slots + 1, slots, "one event after it"},
        {3 * slots + 7, slots, "the ring twice round, and seven events"},
    };
    for (size_t row = 0; row < sizeof rows / sizeof rows[0]; row++) {
        begin();
        check(play(0, rows[row].events) && all_back(rows[row].events, rows[row].kept), rows[row].what);
    }
}

/* A record at the front of its slot, as docs/JOURNAL.md has it: of the state before the event. */
static void put_record(uint8_t *slot, uint8_t tag, const uint8_t *before) {
    static const size_t group_at[] = {20, 20, 180, 348}, group_bytes[] = {0, 160, 168, 63};
    slot[0] = tag;
    memcpy(slot + 1, before, 16);
    memcpy(slot + 17, before + group_at[tag], group_bytes[tag]);
}

/* Event n goes into slot n modulo the slots, and no byte changes but those of its record, of the first slot and of the
 * kept number. */
static void ring(void) {
    static uint8_t expected[sizeof journal];
    const unsigned slots = format->slots;
    int good = 1;
    memset(journal, 0xEE, sizeof journal);
    memset(expected, 0xEE, sizeof expected);
    begin();
    memcpy(expected, "SCJ", 3);
    expected[3] = format->version, expected[4] = 0;
    for (unsigned n = 0; n < 2 * slots + 3; n++) {
        good &= play(n, n + 1);
        put_record(expected + 1024 + 256 * (n % slots), nth_tag(n), states[n]);
        expected[5] = (uint8_t)(n < slots ? 0 : (n + 1) % slots);
        expected[6] = (uint8_t)(n < slots ? n + 1 : slots);
        good &= memcmp(journal, expected, sizeof expected) == 0;
    }
    check(good, "the ring goes round, every byte at every event");
}

/* A full journal is made empty by sca_empty and by a RESET: first slot and kept number are 0, and no other byte
 * changes. */
static void made_empty(void) {
    static uint8_t expected[sizeof journal];
    const unsigned slots = format->slots, played = slots + 1;
    for (unsigned reset = 0; reset <= 1; reset++) {
        int good;
        begin();
        good = play(0, played) && journal[5] == 1 && journal[6] == slots;
        memcpy(expected, journal, sizeof expected);
        expected[5] = expected[6] = 0;
        if (reset)
            good &= sca_length(frame(SCA_PRIMARY, "\x00\x8F", 2)) == 2;
        else
            good &= sca_empty(journal, journal_length) == SCA_NO_FRAME;
        good &= memcmp(journal, expected, sizeof expected) == 0 && kept_now() == 0 && step_back() == SCA_NONE_KEPT;
        check(good, reset ? "RESET empties a full journal too" : "sca_empty empties a full journal");
        check(play(played, 2 * played) && all_back(2 * played, slots), "then it keeps as many as before");
    }
}

/* 4 events enable GPIO; then come 256 samples in one batch, of which sample n has the levels n + 1: so DATAIN before
 * it is n. The 260 events leave the first slot at 260 modulo the slots. */
static void batch_over_the_ring(void) {
    static struct sca_pin_sample list[SCA_SAMPLES_MOST];
    int good = 1;
    for (uint32_t n = 0; n < SCA_SAMPLES_MOST; n++) list[n].levels = n + 1;
    armed(0, 0);
    good &= samples(list, SCA_SAMPLES_MOST) == SCA_NO_FRAME;
    good &= kept_now() == format->slots && journal[5] == 260 % format->slots;
    check(good, "of a batch of 256 samples as many are kept as there are slots");
    for (unsigned step = 1; step <= format->slots; step++) {
        unsigned n = SCA_SAMPLES_MOST - step;
        good &= step_back() == SCA_NO_FRAME && state[46] == n && state[47] == 0;
    }
    check(good && step_back() == SCA_NONE_KEPT, "and those are taken back one by one");
}

/* ---------------------------------------------------------------- sizes that do not agree */

static uint8_t second[SCA_LARGE_JOURNAL_BYTES + 1], second_was[sizeof second], output_was[SCA_OUTPUT_LEAST];

/* Bytes that differ from slot to slot and within a slot; of two salts no two bytes at the same place are alike. */
static void fill(uint8_t *bytes, size_t count, uint8_t salt) {
    for (size_t at = 0; at < count; at++) bytes[at] = (uint8_t)(37 * at + 101 * (at / 256) + salt);
}

static void note_lent(void) {
    note_all();
    fill(output, sizeof output, 3), fill(second, sizeof second, 5);
    memcpy(output_was, output, sizeof output), memcpy(second_was, second, sizeof second);
}

static int lent_as_noted(void) {
    return all_as_noted() && memcmp(output, output_was, sizeof output) == 0 &&
           memcmp(second, second_was, sizeof second) == 0;
}

static int is_4(uint64_t result) { return result == SCA_BAD_JOURNAL && lent_as_noted(); }

static uint64_t enlarge_into(size_t length) { return sca_enlarge(journal, journal_length, second, length); }

/* Whether each call that looks at a journal refuses this one with 4, and changes no byte of what is lent. */
static int refused_by_all(void) {
    static const struct sca_pin_sample list[3];
    static const uint8_t received[SCA_TRANSFER_BYTES];
    int good = 1;
    note_lent();
    good &= is_4(frame(SCA_PRIMARY, "\x00\x2F", 2)) && is_4(frame(SCA_PRIMARY, "\x00\x8F", 2));
    good &= is_4(request(state[1] + 1u, 0x00, 4, 0x02, 0xFF000000)) && is_4(completion(received, sizeof received));
    good &= is_4(i2c_completion(SCA_I2C_FIRST, 1, 0, NULL, 0)) && is_4(sample(1, SCA_SYSTEM_CLOCK));
    good &= is_4(samples(list, 3)) && is_4(samples(NULL, 0)) && is_4(upset());
    good &= is_4(step_back()) && is_4(sca_kept(journal, journal_length)) && is_4(enlarge_into(large.bytes));
    return good;
}

/* A journal of zeros with this header: its records are those of upsets of a new adapter. */
static void head(size_t length, const uint8_t version[2], uint8_t first, uint8_t kept) {
    sca_create(state, sizeof state, ID);
    memset(journal, 0, sizeof journal);
    memcpy(journal, "SCJ", 3);
    journal[3] = version[0], journal[4] = version[1], journal[5] = first, journal[6] = kept;
    journal_length = length;
}

/* Whether it is taken: its kept number is read, an event is kept, and the events are taken back to a new adapter's
 * state. */
static int taken(const struct format *of, unsigned first, unsigned kept) {
    uint64_t read = sca_kept(journal, journal_length);
    unsigned after = kept < of->slots ? kept + 1 : kept;
    int good = sca_number(read) == SCA_NO_FRAME && sca_kept_in(read) == kept;
    good &= upset() == SCA_NO_FRAME && kept_now() == after;
    good &= journal[5] == (kept < of->slots ? first : (first + 1) % of->slots);
    for (unsigned step = 0; step < after; step++) good &= step_back() == SCA_NO_FRAME && state[8] == 0;
    return good && step_back() == SCA_NONE_KEPT;
}

/* The length says which version, first slots and kept numbers there may be. */
static void mixed_headers(void) {
    static const struct {
        size_t length;
        uint8_t version[2], first, kept;
        int good;
    } rows[] = {
        {17408, {1, 0}, 0, 0, 1},     {17408, {1, 0}, 63, 64, 1},   {17408, {1, 0}, 64, 0, 0},
        {17408, {1, 0}, 64, 64, 0},   {17408, {1, 0}, 0, 65, 0},    {17408, {1, 0}, 63, 65, 0},
        {17408, {1, 0}, 199, 0, 0},   {17408, {1, 0}, 200, 0, 0},   {17408, {1, 0}, 0, 200, 0},
        {17408, {1, 0}, 0, 201, 0},   {17408, {1, 0}, 199, 200, 0}, {17408, {2, 0}, 0, 0, 0},
        {17408, {2, 0}, 63, 64, 0},   {17408, {2, 0}, 199, 200, 0}, {17408, {0, 0}, 0, 0, 0},
        {17408, {3, 0}, 0, 0, 0},     {17408, {0, 1}, 0, 0, 0},     {17408, {1, 1}, 0, 0, 0},
        {17408, {1, 2}, 0, 0, 0},     {52224, {2, 0}, 0, 0, 1},     {52224, {2, 0}, 63, 64, 1},
        {52224, {2, 0}, 64, 65, 1},   {52224, {2, 0}, 199, 200, 1}, {52224, {2, 0}, 200, 0, 0},
        {52224, {2, 0}, 0, 201, 0},   {52224, {2, 0}, 200, 200, 0}, {52224, {2, 0}, 199, 201, 0},
        {52224, {2, 0}, 255, 255, 0}, {52224, {1, 0}, 0, 0, 0},     {52224, {1, 0}, 63, 64, 0},
        {52224, {1, 0}, 199, 200, 0}, {52224, {0, 0}, 0, 0, 0},     {52224, {3, 0}, 0, 0, 0},
        {52224, {0, 2}, 0, 0, 0},     {52224, {2, 1}, 0, 0, 0},     {52224, {2, 2}, 0, 0, 0},
        {0, {1, 0}, 0, 0, 0},         {17407, {1, 0}, 0, 0, 0},     {17409, {1, 0}, 0, 0, 0},
        {17409, {2, 0}, 0, 0, 0},     {52223, {1, 0}, 0, 0, 0},     {52223, {2, 0}, 0, 0, 0},
        {52225, {2, 0}, 0, 0, 0},     {52225, {1, 0}, 0, 0, 0},
    };
    int granted = 1, refused = 1, marks = 1;
    for (size_t row = 0; row < sizeof rows / sizeof rows[0]; row++) {
        head(rows[row].length, rows[row].version, rows[row].first, rows[row].kept);
        if (rows[row].good)
            granted &= taken(rows[row].length == small.bytes ? &small : &large, rows[row].first, rows[row].kept);
        else
            refused &= refused_by_all();
        for (size_t at = 0; rows[row].good && at < 3; at++) {
            head(rows[row].length, rows[row].version, rows[row].first, rows[row].kept);
            journal[at] ^= 0x20;
            marks &= refused_by_all();
        }
    }
    check(granted, "a small journal has a first slot up to 63 and up to 64 kept, a large one up to 199 and up to 200");
    check(refused, "every call refuses other lengths, and a version, first slot or kept number not of the length");
    check(marks, "and either size without its mark");
}

/* Nothing but the version says that these are not what their length makes of them. */
static void cut_and_padded(void) {
    static uint8_t journal_of[sizeof journal];
    for (unsigned cut = 0; cut <= 1; cut++) {
        const struct format *made = cut ? &large : &small, *given = cut ? &small : &large;
        int good = 1;
        for (unsigned played = 0; played <= 64; played += 32)
            for (unsigned behind = 0; behind <= 0xFF; behind += 0xFF) {
                use(made);
                memset(journal, (int)behind, sizeof journal);
                begin();
                good &= play(0, played);
                memcpy(journal_of, journal, sizeof journal);
                journal_length = given->bytes;
                good &= refused_by_all() && memcmp(journal, journal_of, sizeof journal) == 0;
                use(made);
                good &= all_back(played, played);
            }
        check(good, cut ? "a large journal cut to 17,408 is refused" : "a small one padded to 52,224 is refused");
        use(given);
        good = sca_empty(journal, journal_length) == SCA_NO_FRAME && journal[3] == given->version;
        good &= play(0, given->slots + 1) && all_back(given->slots + 1, given->slots);
        check(good, "emptying goes by the length, and makes it a journal");
    }
}

/* ---------------------------------------------------------------- a small journal made large */

/* Whether second holds what it must: a header, and the slots of the events kept, the oldest in slot 0. Every other
 * byte is as it was. */
static int second_as_due(unsigned first, unsigned kept) {
    static uint8_t expected[sizeof second];
    memcpy(expected, second_was, sizeof expected);
    memcpy(expected, "\x53\x43\x4A\x02\x00\x00", 6);
    expected[6] = (uint8_t)kept;
    for (unsigned k = 0; k < kept; k++)
        memcpy(expected + 1024 + 256 * k, journal + 1024 + 256 * ((first + k) % 64), 256);
    return memcmp(second, expected, sizeof expected) == 0;
}

/* Whether it is enlarged just so, and nothing else is touched. */
static int enlarged(unsigned first, unsigned kept) {
    note_lent();
    return enlarge_into(large.bytes) == SCA_NO_FRAME && second_as_due(first, kept) && all_as_noted() &&
           memcmp(output, output_was, sizeof output) == 0;
}

/* Only the header is looked at: the slots hold what is no record. */
static void enlarged_bytes(void) {
    int good = 1;
    use(&small);
    for (unsigned first = 0; first <= 63; first++)
        for (unsigned kept = 0; kept <= 64; kept++) {
            fill(journal, sizeof journal, 1);
            memcpy(journal, "\x53\x43\x4A\x01\x00", 5);
            journal[5] = (uint8_t)first, journal[6] = (uint8_t)kept;
            good &= enlarged(first, kept);
        }
    check(good, "sca_enlarge at every first slot and kept number: each byte of second is due, and the journal stays");
}

/* 4 is for what is no small journal, whatever second is; then 1 for second. */
static void refused_enlargings(void) {
    static const size_t wrong[] = {0, 1, 17407, 17408, 17409, 52223, 52225};
    static const struct {
        size_t length;
        uint8_t version, first, kept;
    } others[] = {
        {0, 1, 0, 0},       {7, 1, 0, 0},      {17407, 1, 0, 0},     {17409, 1, 0, 0},  {17408, 2, 0, 0},
        {17408, 0, 0, 0},   {17408, 3, 0, 64}, {17408, 1, 64, 0},    {17408, 1, 0, 65}, {17408, 1, 199, 0},
        {17408, 1, 0, 200}, {52224, 2, 0, 0},  {52224, 2, 199, 200}, {52224, 1, 0, 0},  {52224, 1, 63, 64},
        {52223, 2, 0, 0},   {52225, 2, 0, 0},
    };
    const uint8_t version[2] = {1, 0};
    int fours = 1, ones = 1, null = 1;
    for (size_t row = 0; row < sizeof others / sizeof others[0]; row++) {
        const uint8_t other[2] = {others[row].version, 0};
        head(others[row].length, other, others[row].first, others[row].kept);
        note_lent();
        fours &= is_4(enlarge_into(large.bytes));
        for (size_t at = 0; at < sizeof wrong / sizeof wrong[0]; at++) fours &= is_4(enlarge_into(wrong[at]));
    }
    check(fours, "sca_enlarge of what is no small journal is SCA_BAD_JOURNAL, of a large one too, whatever second is");
    for (unsigned kept = 0; kept <= 64; kept += 32) {
        head(small.bytes, version, 63, (uint8_t)kept);
        note_lent();
        for (size_t at = 0; at < sizeof wrong / sizeof wrong[0]; at++)
            ones &= enlarge_into(wrong[at]) == SCA_SHORT_OUTPUT && lent_as_noted();
    }
    check(ones, "a second of any length but 52,224 is SCA_SHORT_OUTPUT");
    null &= is_4(sca_enlarge(NULL, 0, NULL, 0)) && is_4(sca_enlarge(NULL, 0, second, large.bytes));
    null &= sca_enlarge(journal, small.bytes, NULL, 0) == SCA_SHORT_OUTPUT && lent_as_noted();
    check(null, "and so with NULL for either");
}

/* A moment of a run, to come back to. */
static uint8_t moment_state[SCA_STATE_BYTES], moment_journal[sizeof journal];

static void note_moment(void) {
    memcpy(moment_state, state, sizeof state), memcpy(moment_journal, journal, sizeof journal);
}

static void back_to_moment(void) {
    use(&small);
    memcpy(state, moment_state, sizeof state), memcpy(journal, moment_journal, sizeof journal);
}

/* That moment again, with the enlarged journal. */
static void go_on_with_second(void) {
    back_to_moment();
    use(&large);
    memcpy(journal, second, sizeof journal);
}

/* Plays a small journal to this first slot, with as many events more than it keeps, and takes back all but these.
 * First + kept events are then played and not taken back. */
static int play_to(unsigned first, unsigned kept) {
    int good;
    use(&small);
    fill(journal, sizeof journal, 1);
    begin();
    good = play(0, 64 + first);
    for (unsigned step = 64; step > kept; step--) good &= step_back() == SCA_NO_FRAME;
    return good && journal[5] == first && journal[6] == kept;
}

static void enlarged_and_back(void) {
    int good = 1;
    for (unsigned first = 0; first <= 63; first++) {
        good &= play_to(first, 64);
        for (unsigned kept = 64;; kept--) {
            note_moment();
            good &= enlarged(first, kept) && all_back(first + kept, kept);
            go_on_with_second();
            good &= all_back(first + kept, kept);
            back_to_moment();
            if (kept == 0) break;
            good &= step_back() == SCA_NO_FRAME;
        }
    }
    check(good, "at each of them the enlarged journal takes back what the small one does, to the same states");
}

/* The same events after it, with the small journal and with the enlarged one: they give the same, and the kept number
 * goes up to 200. With 64 kept 136 more fill it. */
static void enlarged_and_on(void) {
    static const unsigned firsts[] = {0, 1, 62, 63}, kepts[] = {0, 1, 63, 64};
    static const unsigned mores[] = {1, 64, 135, 136, 137, 200, 201, 450};
    int same = 1, back = 1;
    for (unsigned at = 0; at < 4 * 4 * 8; at++) {
        unsigned first = firsts[at % 4], kept = kepts[at / 4 % 4], more = mores[at / 16], from = first + kept;
        same &= play_to(first, kept);
        note_moment();
        same &= enlarged(first, kept) && play(from, from + more);
        same &= kept_now() == (kept + more < 64 ? kept + more : 64);
        go_on_with_second();
        for (unsigned n = 0; n < more; n++)
            same &= played_again(from + n) && kept_now() == (kept + n + 1 < 200 ? kept + n + 1 : 200);
        back &= all_back(from + more, kept + more < 200 ? kept + more : 200);
    }
    check(same, "events after it give and leave the same as with the small one, and up to 200 are kept");
    check(back, "all of them are taken back, those from before the enlarging too");
}

/* 70 events leave first slot 6, which the oldest record has. A tag over 3 is none. */
static void enlarged_damaged(void) {
    int good = play_to(6, 64);
    journal[1024 + 256 * 6] = 4;
    note_moment();
    good &= enlarged(6, 64);
    check(good, "a damaged record is copied as it stands");
    go_on_with_second();
    for (unsigned step = 1; step <= 63; step++)
        good &= step_back() == SCA_NO_FRAME && memcmp(state, states[70 - step], sizeof state) == 0;
    note_all();
    good &= kept_now() == 1 && step_back() == SCA_BAD_JOURNAL && all_as_noted();
    check(good, "and refused by the step back that comes to it");
}

/* What second held, a full large journal, is gone; and what it becomes is made empty like any other. */
static void enlarged_over_another(void) {
    int good = 1;
    use(&large);
    begin();
    good &= play(0, 333);
    memcpy(second, journal, sizeof second);
    memcpy(second_was, second, sizeof second);
    good &= play_to(17, 5) && enlarge_into(large.bytes) == SCA_NO_FRAME && second_as_due(17, 5);
    note_moment();
    go_on_with_second();
    good &= all_back(22, 5);
    check(good, "a large journal that stood in the second buffer before leaves nothing behind");
    go_on_with_second();
    good &= sca_length(frame(SCA_PRIMARY, "\x00\x9F", 2)) == 2 && memcmp(journal, "SCJ\x02\x00\x00\x00", 7) == 0;
    good &= play(0, 201) && all_back(201, 200);
    check(good, "RESET empties what was enlarged, and it stays large");
}

static void use_size(int other) { use(formats[other]); }

/* What is done with a journal is done with one of each size. */
static void with_each_journal(void) {
    static void (*const tests[])(void) = {
        kept,
        taken_back,
        ring,
        made_empty,
        numbers,
        wide_arguments,
        order_of_refusals,
        record_bytes,
        listing,
        later_answers,
        edges,
        sizes_of_batches,
        batch_of_edges,
        batch_of_strobes,
        batch_not_enabled,
        batch_on_port_1,
        batch_disabled,
        batch_of_none,
        order_of_refused_batches,
        batches_as_one_by_one,
        batch_over_the_ring,
        i2c_exchange,
    };
    with_each_size(tests, sizeof tests / sizeof tests[0], use_size);
    use(&small);
}

int main(void) {
    version();
    sizes();
    sizes_of_journals();
    readers();
    texts();
    state_bytes();
    master_bytes();
    with_each_journal();
    mixed_headers();
    cut_and_padded();
    enlarged_bytes();
    refused_enlargings();
    enlarged_and_back();
    enlarged_and_on();
    enlarged_damaged();
    enlarged_over_another();
    return failures != 0;
}
