/* The control room as a C program sees it. Bodies, answers and records are worked out by hand, from document 01, the
 * requests 2026-01 and 2026-05 and docs/RECORD.md; the chip's, in the conversation at the end, too. */
#include <stdint.h>
#include <string.h>

#include "check.h"
#include "sca.h"

static uint8_t record[SCA_RECORD_BYTES], output[SCA_OUTPUT_LEAST];
static uint8_t record_was[SCA_RECORD_BYTES], output_was[SCA_OUTPUT_LEAST];

/* The bytes that pairs of hex digits spell; spaces part the fields for the reader alone. */
static size_t spelled(const char *text, uint8_t *bytes) {
    static const char hex[] = "0123456789abcdef";
    size_t digits = 0;
    for (; *text != '\0'; text++) {
        if (*text == ' ') continue;
        if (digits % 2 == 0) bytes[digits / 2] = 0;
        bytes[digits / 2] = (uint8_t)(16 * bytes[digits / 2] + (strchr(hex, *text) - hex));
        digits++;
    }
    return digits / 2;
}

/* ---- the record */

static void begin(void) { sca_record_new(record, sizeof record); }

/* A record of these bytes at the front, and zeros. */
static void set(const char *front) {
    memset(record, 0, sizeof record);
    spelled(front, record);
}

static int record_is(const char *front) {
    uint8_t due[SCA_RECORD_BYTES] = {0};
    spelled(front, due);
    return memcmp(record, due, sizeof due) == 0;
}

/* Opens every TRN, by hand, with one command; the frame number is 7. */
static void set_all(uint8_t channel, uint8_t command) {
    set("0700");
    for (size_t trn = 0x01; trn <= 0xFE; trn++) record[2 * trn] = channel, record[2 * trn + 1] = command;
}

/* ---- the calls, each with what it was lent noted before; the output is painted, so that each byte written shows */

static void note(void) {
    memset(output, 0xA5, sizeof output);
    memcpy(record_was, record, sizeof record), memcpy(output_was, output, sizeof output);
}

static uint64_t request(uint32_t channel, uint32_t command, uint32_t data) {
    note();
    return sca_request(record, sizeof record, channel, command, data, output, sizeof output);
}

static uint64_t reply_of(const uint8_t *body, size_t length) {
    note();
    return sca_reply(record, sizeof record, body, length, output, sizeof output);
}

static uint64_t reply(const char *body) {
    uint8_t bytes[32];
    size_t length = spelled(body, bytes);
    return reply_of(bytes, length);
}

static uint64_t command(uint32_t control) {
    note();
    return sca_command(record, sizeof record, control, output, sizeof output);
}

static int same_record(void) { return memcmp(record, record_was, sizeof record) == 0; }

/* Whether the output has these bytes at its front, and no other one has changed. */
static int output_is(uint64_t result, const char *bytes) {
    uint8_t due[SCA_OUTPUT_LEAST];
    size_t count;
    memcpy(due, output_was, sizeof due);
    count = spelled(bytes, due);
    return sca_number(result) == SCA_HAS_FRAME && sca_length(result) == count && memcmp(output, due, sizeof due) == 0;
}

static int wrote(uint64_t result, const char *bytes) { return !sca_interrupt(result) && output_is(result, bytes); }

/* An interrupt was read: it is told apart, and the record is as it was. */
static int interrupted(uint64_t result, const char *bytes) {
    return sca_interrupt(result) && output_is(result, bytes) && same_record();
}

/* Whether a call was refused with this number, and every byte is as it was. */
static int refused(uint64_t result, unsigned number) {
    return result == number && sca_refused(result) && same_record() && memcmp(output, output_was, sizeof output) == 0;
}

/* ---- sizes */

static void sizes(void) {
    static uint8_t bytes[2 * SCA_RECORD_BYTES + 1], due[sizeof bytes];
    uint8_t room[2 * SCA_OUTPUT_LEAST];
    int made = 1, outputs = 1;
    check(SCA_RECORD_BYTES == 510 && SCA_TRANSACTIONS_MOST == 254 && SCA_ANSWER_BYTES == 9 && SCA_REPLY_BYTES == 10 &&
              SCA_OUTPUT_LEAST == 16,
          "the sizes are those of docs/RECORD.md and of the request");
    for (size_t length = 0; length <= sizeof bytes; length++) {
        int right = length == 510;
        memset(bytes, 0xA5, sizeof bytes), memset(due, 0xA5, sizeof due);
        if (right) memset(due, 0, length);
        made &= sca_record_new(length ? bytes : NULL, length) == (right ? SCA_NO_FRAME : SCA_BAD_STATE);
        made &= memcmp(bytes, due, sizeof due) == 0;
    }
    check(made, "a new record is 510 zeros, whatever stood there; another length is SCA_BAD_STATE and stays");
    for (size_t length = 0; length <= sizeof room; length++) {
        unsigned number = length < 16 ? SCA_SHORT_OUTPUT : SCA_HAS_FRAME;
        uint8_t *lent = length ? room : NULL, body[] = {0x00, 0x20, 0x01, 0x02, 0x00, 0x04, 0x00, 0x00, 0x00, 0x00};
        begin();
        outputs &= sca_number(sca_request(record, sizeof record, 0x02, 0x01, 0, lent, length)) == number;
        outputs &= record_is(length < 16 ? "" : "0100 0201");
        set("0100 0201");
        outputs &= sca_number(sca_reply(record, sizeof record, body, sizeof body, lent, length)) == number;
        outputs &= record_is(length < 16 ? "0100 0201" : "0100");
        outputs &= sca_number(sca_command(record, sizeof record, SCA_CONNECT, lent, length)) == number;
    }
    check(outputs, "each call asks for an output of SCA_OUTPUT_LEAST");
}

/* ---- requests */

/* docs/RECORD.md, "A record, worked out". DATAIN is read: LEN 1; CRB is read: LEN 2. */
static void worked_out(void) {
    int good;
    memset(record, 0xA5, sizeof record);
    good = sca_record_new(record, sizeof record) == SCA_NO_FRAME && record_is("0000 0000 0000");
    good &= wrote(request(0x02, 0x01, 0), "0000 01 02 01 01 00000000") && record_is("0100 0201 0000");
    good &= wrote(request(0x00, 0x03, 0), "0002 02 00 02 03 00000000") && record_is("0200 0201 0003");
    good &= wrote(reply("0042 01 02 00 04 34127856"), "01 02 01 00 04 78563412") && record_is("0200 0000 0003");
    check(good, "the record that docs/RECORD.md works out");
    good = wrote(request(0x02, 0x01, 0), "0004 01 02 01 01 00000000") && record_is("0300 0201 0003");
    check(good, "and its next request takes TRN 0x01 again");
}

/* One after the other, none answered: TRN goes up from 0x01, control is 0x00 to 0x0E and again. The first four are in
 * document 01's listing. Data goes out as D[23:16], D[31:24], D[7:0], D[15:8], also what the command does not use. */
static void bodies(void) {
    static const struct {
        uint32_t channel, command, data;
        const char *body, *what;
    } rows[] = {
        {0x00, 0x02, 0x04000000, "0000 01 00 04 02 00040000", "CRB is written, LEN 4"},
        {0x02, 0x10, 0x12345678, "0002 02 02 04 10 34127856", "DATAOUT is written, LEN 4"},
        {0x02, 0x11, 0x00000000, "0004 03 02 01 11 00000000", "DATAOUT is read, LEN 1"},
        {0x01, 0x41, 0x00000000, "0006 04 01 02 41 00000000", "SPI CONTROL is read, LEN 2"},
        {0x00, 0x07, 0xFFFFFFFF, "0008 05 00 02 07 ffffffff", "CRD is read, LEN 2; its data goes out all the same"},
        {0x01, 0x40, 0x00001234, "000a 06 01 06 40 00003412", "SPI CONTROL is written, LEN 6"},
        {0x01, 0x30, 0x89ABCDEF, "000c 07 01 06 30 ab89efcd", "SPI DATA word 3 is written, LEN 6"},
        {0x01, 0x72, 0x00000000, "000e 08 01 02 72 00000000", "GO, LEN 2"},
        {0x01, 0x00, 0x01020304, "0000 09 01 06 00 02010403", "SPI DATA word 0 is written: CMD 0x00, LEN 6"},
        {0x02, 0x01, 0x00000000, "0002 0a 02 01 01 00000000", "DATAIN is read, LEN 1"},
        {0x02, 0x60, 0x00000001, "0004 0b 02 04 60 00000100", "INTENABLE is written, LEN 4"},
        {0x03, 0x30, 0x40000000, "0006 0c 03 01 30 00400000", "first master: CTRL is written, LEN 1"},
        {0x03, 0x31, 0x00000000, "0008 0d 03 00 31 00000000", "first master: CTRL is read, LEN 0"},
        {0x03, 0x11, 0x00000000, "000a 0e 03 00 11 00000000", "first master: STATUS is read, LEN 0"},
        {0x03, 0x40, 0xAABBCCDD, "000c 0f 03 04 40 bbaaddcc", "first master: DATA is written, LEN 4"},
        {0x03, 0x82, 0x50990000, "000e 10 03 04 82 99500000", "first master: a byte is written, LEN 4"},
        {0x03, 0xDE, 0x50000000, "0000 11 03 04 de 00500000", "first master: bytes are read, LEN 4"},
        {0x03, 0xC2, 0x50F00000, "0002 12 03 02 c2 f0500000", "first master: read-modify-write AND, LEN 2"},
        {0x12, 0x20, 0x0F000000, "0004 13 12 01 20 000f0000", "last master: MASK is written, LEN 1"},
        {0x12, 0x71, 0x00000000, "0006 14 12 00 71 00000000", "last master: DATA is read, LEN 0"},
        {0x12, 0x8A, 0x78513300, "0008 15 12 06 8a 51780033", "last master: a byte to 10 bits of address, LEN 6"},
        {0x12, 0x8E, 0x78510000, "000a 16 12 04 8e 51780000", "last master: a byte from 10 bits of address, LEN 4"},
        {0x12, 0xE2, 0x78510000, "000c 17 12 02 e2 51780000", "last master: bytes to 10 bits of address, LEN 2"},
        {0x12, 0xCA, 0x50FF0000, "000e 18 12 02 ca ff500000", "last master: read-modify-write XOR, LEN 2"},
        {0x0A, 0x86, 0x51000000, "0000 19 0a 04 86 00510000", "a master between: a byte is read, LEN 4"},
        {0x13, 0xF1, 0x00000000, "0002 1a 13 04 f1 00000000", "the SEU counter is read, LEN 4"},
        {0x13, 0xF0, 0x00000000, "0004 1b 13 04 f0 00000000", "the SEU counter is cleared, LEN 4"},
        {0x14, 0xD1, 0x00000000, "0006 1c 14 04 d1 00000000", "the chip ID is read, LEN 4"},
        {0x15, 0x10, 0x000000C8, "0008 1d 15 04 10 0000c800", "DAC A is written, LEN 4"},
        {0x15, 0x41, 0x00000000, "000a 1e 15 01 41 00000000", "DAC D is read, LEN 1"},
    };
    begin();
    for (size_t row = 0; row < sizeof rows / sizeof rows[0]; row++) {
        uint8_t due[SCA_RECORD_BYTES];
        uint64_t result;
        memcpy(due, record, sizeof due);
        due[0] = (uint8_t)((row + 1) % 8);
        due[2 * (row + 1)] = (uint8_t)rows[row].channel, due[2 * (row + 1) + 1] = (uint8_t)rows[row].command;
        result = request(rows[row].channel, rows[row].command, rows[row].data);
        check(wrote(result, rows[row].body) && memcmp(record, due, sizeof due) == 0, rows[row].what);
    }
    check(record_is("0600 0002 0210 0211 0141 0007 0140 0130 0172 0100 0201 0260 0330 0331 0311 0340 0382 03de 03c2"
                    "1220 1271 128a 128e 12e2 12ca 0a86 13f1 13f0 14d1 1510 1541"),
          "and all of them are open");
}

/* LEN of the requests: document 01's tables, and of 2026-01 for the masters. */
static const struct {
    uint8_t first, last, length;
    const char *commands;
} tables[] = {
    {0x00, 0x00, 4, "02 04 06"},
    {0x00, 0x00, 2, "03 05 07"},
    {0x01, 0x01, 6, "00 10 20 30 40 50 60"},
    {0x01, 0x01, 2, "01 11 21 31 41 51 61 72"},
    {0x02, 0x02, 4, "10 20 30 40 60 70 80 90"},
    {0x02, 0x02, 1, "01 11 21 31 41 61 71 81 91"},
    {0x03, 0x12, 1, "20 30"},
    {0x03, 0x12, 0, "11 21 31 41 51 61 71"},
    {0x03, 0x12, 4, "40 50 60 70 82 86 8e da de"},
    {0x03, 0x12, 6, "8a"},
    {0x03, 0x12, 2, "e2 e6 c2 c6 ca"},
    {0x13, 0x13, 4, "f0 f1"},
    {0x14, 0x14, 4, "d1"},
    {0x15, 0x15, 4, "10 20 30 40"},
    {0x15, 0x15, 1, "11 21 31 41"},
};

/* That LEN, or NONE, for each channel and command. */
enum { NONE = -1 };
static int asked[0x100][0x100];

static void read_tables(void) {
    for (unsigned channel = 0; channel <= 0xFF; channel++)
        for (unsigned code = 0; code <= 0xFF; code++) asked[channel][code] = NONE;
    for (size_t row = 0; row < sizeof tables / sizeof tables[0]; row++) {
        uint8_t codes[16];
        size_t count = spelled(tables[row].commands, codes);
        for (unsigned channel = tables[row].first; channel <= tables[row].last; channel++)
            for (size_t at = 0; at < count; at++) asked[channel][codes[at]] = tables[row].length;
    }
}

/* All 65,536. 6 of the controller, 15 of SPI, 17 of GPIO, 24 of each of the 16 masters, 2 of the SEU counter, 1 of the
 * ID and 8 of the DAC, so 433, are requests; the others are 35, and 6 in a record, but for 00 00: that TRN is free. */
static void every_command(void) {
    unsigned many = 0;
    int lengths = 1, others = 1, records = 1;
    for (unsigned channel = 0; channel <= 0xFF; channel++)
        for (unsigned code = 0; code <= 0xFF; code++) {
            int length = asked[channel][code], known = length != NONE, sound = known || (channel == 0 && code == 0);
            unsigned trn = 0x01 + (31 * channel + 7 * code) % 0xFE;
            uint64_t result;
            begin();
            result = request(channel, code, 0x11223344);
            if (known) {
                uint8_t due[] = {0x00, 0x00, 0x01, (uint8_t)channel, (uint8_t)length, (uint8_t)code};
                lengths &= sca_length(result) == 10 && memcmp(output, due, sizeof due) == 0;
                lengths &= memcmp(output + sizeof due, "\x22\x11\x44\x33", 4) == 0;
                lengths &= record[2] == channel && record[3] == code;
                many++;
            } else {
                others &= refused(result, SCA_NO_COMMAND);
            }
            begin();
            record[2 * trn] = (uint8_t)channel, record[2 * trn + 1] = (uint8_t)code;
            result = command(SCA_TEST);
            records &= sound ? wrote(result, "00e3") && same_record() : refused(result, SCA_BAD_STATE);
        }
    check(lengths && many == 433, "each of the 433 commands is written with the LEN of its table");
    check(others, "every other command of every channel is SCA_NO_COMMAND");
    check(records, "and an entry that is none of them, nor 00 00, is SCA_BAD_STATE");
}

/* Numbers of 32 bits whose low byte, or low half, alone would do. */
static void wide_commands(void) {
    static const uint32_t rows[][2] = {
        {0x103, 0x31}, {0x102, 0x01}, {0x100, 0x02}, {0x115, 0x11}, {0x10002, 0x01}, {0xFFFFFF02, 0x01},
        {0x00, 0x102}, {0x02, 0x101}, {0x01, 0x100}, {0x15, 0x111}, {0x02, 0x10001}, {0x02, 0xFFFFFF01},
        {0x102, 0x101}, {0xFFFFFFFF, 0xFFFFFFFF},
    };
    int good = 1;
    begin();
    for (size_t row = 0; row < sizeof rows / sizeof rows[0]; row++)
        good &= refused(request(rows[row][0], rows[row][1], 0), SCA_NO_COMMAND);
    for (unsigned bit = 8; bit < 32; bit++) {
        good &= refused(request((uint32_t)1 << bit | 0x02, 0x01, 0), SCA_NO_COMMAND);
        good &= refused(request(0x02, (uint32_t)1 << bit | 0x01, 0), SCA_NO_COMMAND);
    }
    check(good, "channels and commands over 0xFF are SCA_NO_COMMAND");
}

/* Each bit of D alone: out in the body, and back in the answer. */
static void places_of_data(void) {
    static const size_t in_body[] = {8, 9, 6, 7};
    int out = 1, in = 1;
    for (unsigned bit = 0; bit < 32; bit++) {
        uint8_t body[SCA_REPLY_BYTES] = {0x00, 0x00, 0x01, 0x02, 0x04, 0x10};
        uint8_t sent[SCA_REPLY_BYTES] = {0x00, 0x20, 0x01, 0x02, 0x00, 0x04};
        uint8_t answer[SCA_ANSWER_BYTES] = {0x01, 0x02, 0x10, 0x00, 0x04};
        body[in_body[bit / 8]] = sent[in_body[bit / 8]] = answer[5 + bit / 8] = (uint8_t)(1 << bit % 8);
        begin();
        out &= sca_length(request(0x02, 0x10, (uint32_t)1 << bit)) == 10 && memcmp(output, body, sizeof body) == 0;
        in &= sca_length(reply_of(sent, sizeof sent)) == 9 && memcmp(output, answer, sizeof answer) == 0;
        in &= sca_answer_data(output) == (uint32_t)1 << bit;
    }
    check(out, "each bit of the data has its place in the body");
    check(in, "and comes back in the answer, low byte first");
}

static void frame_numbers(void) {
    static const uint8_t controls[] = {0x00, 0x02, 0x04, 0x06, 0x08, 0x0A, 0x0C, 0x0E};
    int good = 1;
    begin();
    for (unsigned n = 0; n < 20; n++) {
        good &= sca_length(request(0x14, 0xD1, 0)) == 10 && output[1] == controls[n % 8] && output[2] == 0x01;
        good &= record[0] == (n + 1) % 8 && record[1] == 0;
        good &= sca_length(reply("0000 01 14 00 04 00000a00")) == 9 && record[0] == (n + 1) % 8;
        good &= refused(request(0x14, 0xD0, 0), SCA_NO_COMMAND);
    }
    check(good, "the frame number goes up modulo 8 with each request, and with nothing else");
}

static void lowest_free(void) {
    int good = 1;
    begin();
    good &= wrote(request(0x00, 0x03, 0), "0000 01 00 02 03 00000000");
    good &= wrote(request(0x01, 0x41, 0), "0002 02 01 02 41 00000000");
    good &= wrote(request(0x02, 0x01, 0), "0004 03 02 01 01 00000000");
    good &= wrote(request(0x03, 0x31, 0), "0006 04 03 00 31 00000000");
    good &= wrote(request(0x15, 0x11, 0), "0008 05 15 01 11 00000000") && record_is("0500 0003 0141 0201 0331 1511");
    check(good, "five requests are open");
    good = wrote(reply("0060 04 03 00 01 00550000"), "04 03 31 00 01 00000055");
    good &= record_is("0500 0003 0141 0201 0000 1511");
    good &= wrote(reply("0082 02 01 00 06 00003412"), "02 01 41 00 06 34120000");
    good &= record_is("0500 0003 0000 0201 0000 1511");
    check(good, "two are answered, the later one first, and closed");
    good = wrote(request(0x14, 0xD1, 0), "000a 02 14 04 d1 00000000") && record_is("0600 0003 14d1 0201 0000 1511");
    good &= wrote(request(0x13, 0xF1, 0), "000c 04 13 04 f1 00000000") && record_is("0700 0003 14d1 0201 13f1 1511");
    good &= wrote(request(0x00, 0x05, 0), "000e 06 00 02 05 00000000");
    good &= record_is("0000 0003 14d1 0201 13f1 1511 0005");
    check(good, "the next ones take the lowest free TRN: 0x02, 0x04, then 0x06");
}

/* 254 requests, so that the frame number is 254 modulo 8, 6. */
static void all_open(void) {
    uint8_t due[SCA_RECORD_BYTES] = {0x06, 0x00};
    int good = 1;
    begin();
    for (size_t trn = 0x01; trn <= 0xFE; trn++) {
        due[2 * trn] = 0x12, due[2 * trn + 1] = 0x86;
        good &= sca_length(request(0x12, 0x86, 0x50000000)) == 10;
        good &= output[2] == trn && output[1] == 2 * ((trn - 1) % 8);
    }
    check(good && memcmp(record, due, sizeof due) == 0, "254 requests can be open");
    good = refused(request(0x12, 0x86, 0), SCA_ALL_OPEN) && refused(request(0x00, 0x02, 0), SCA_ALL_OPEN);
    check(good, "a further one is SCA_ALL_OPEN, and changes nothing");
    good = wrote(reply("0020 80 12 00 04 33040000"), "80 12 86 00 04 00003304");
    good &= wrote(request(0x15, 0x41, 0), "000c 80 15 01 41 00000000");
    good &= refused(request(0x15, 0x41, 0), SCA_ALL_OPEN);
    check(good, "one is answered, and its TRN is taken again");
    good = sca_length(reply("0020 fe 12 00 04 00000000")) == 9 && sca_length(reply("0020 01 12 00 04 00000000")) == 9;
    good &= wrote(request(0x00, 0x07, 0), "000e 01 00 02 07 00000000");
    good &= wrote(request(0x01, 0x72, 0), "0000 fe 01 02 72 00000000");
    good &= refused(request(0x01, 0x72, 0), SCA_ALL_OPEN);
    check(good, "the first and the last TRN too");
}

/* The record as it might come from a file: all are open but one. */
static void one_free(void) {
    int good = 1;
    for (size_t trn = 0x01; trn <= 0xFE; trn++) {
        set_all(0x15, 0x41);
        good &= refused(request(0x15, 0x41, 0), SCA_ALL_OPEN);
        record[2 * trn] = record[2 * trn + 1] = 0;
        good &= sca_length(request(0x02, 0x90, 0)) == 10 && output[1] == 0x0E && output[2] == trn && record[0] == 0;
        good &= record[2 * trn] == 0x02 && record[2 * trn + 1] == 0x90;
        good &= refused(request(0x15, 0x41, 0), SCA_ALL_OPEN);
    }
    check(good, "wherever one TRN is free, it is taken, and SCA_ALL_OPEN is not given before");
}

/* ---- replies */

static void replies(void) {
    int good;
    set("0300 0331");
    good = wrote(reply("7fff 01 03 5a c3 8899aabb"), "01 03 31 5a c3 aabb8899") && record_is("0300");
    good &= sca_answer_data(output) == 0x9988BBAA;
    check(good, "a reply is read, whatever its address, control, ERR and LEN");
    check(refused(reply("7fff 01 03 5a c3 8899aabb"), SCA_NO_MATCH), "a second time it is SCA_NO_MATCH");
    set("0300 0140 0141");
    good = wrote(reply("0066 02 01 20 02 00000000"), "02 01 41 20 02 00000000") && record_is("0300 0140");
    good &= wrote(reply("0088 01 01 40 02 00000000"), "01 01 40 40 02 00000000") && record_is("0300");
    check(good, "an error reply closes its request, and has its CMD");
    set_all(0x0F, 0xE6);
    good = wrote(reply("0000 fe 0f 00 02 00040000"), "fe 0f e6 00 02 00000004");
    good &= record[508] == 0 && record[509] == 0 && memcmp(record, record_was, 508) == 0;
    good &= wrote(reply("0000 01 0f 00 02 00080000"), "01 0f e6 00 02 00000008");
    good &= record[2] == 0 && record[3] == 0 && memcmp(record + 4, record_was + 4, 506) == 0;
    check(good, "replies to the last and to the first TRN");
}

static int unmatched(const char *body) { return refused(reply(body), SCA_NO_MATCH); }

/* With five open and the frame number 5, which stands where TRN 0x00 would. */
static void no_match(void) {
    static const char five[] = "0500 0003 0141 0201 0331 1511";
    static const uint8_t channels[] = {0x00, 0x01, 0x02, 0x03, 0x15};
    int good = 1;
    set(five);
    check(unmatched("0000 03 01 00 06 00000000") && unmatched("0000 03 13 00 04 00000000") &&
              unmatched("0000 01 02 00 04 00000000"),
          "a reply from another channel is SCA_NO_MATCH");
    check(unmatched("0000 00 00 08 02 00000000") && unmatched("0000 00 05 08 02 00000000") &&
              unmatched("0000 00 02 08 02 00000000"),
          "TRN 0x00 is");
    check(unmatched("0000 ff 00 08 02 00000000") && unmatched("0000 ff 01 08 02 00000000") &&
              unmatched("0000 ff 03 00 04 00000000"),
          "TRN 0xFF from another channel than 0x02 is");
    check(unmatched("0000 06 00 00 04 00000000") && unmatched("0000 06 15 00 04 00000000") &&
              unmatched("0000 fe 00 00 04 00000000"),
          "a TRN that is free is, from channel 0x00 too");
    for (unsigned trn = 0; trn <= 0xFF; trn++)
        for (unsigned channel = 0; channel <= 0xFF; channel++) {
            uint8_t body[SCA_REPLY_BYTES] = {0x00, 0x00, (uint8_t)trn, (uint8_t)channel};
            int open = trn >= 1 && trn <= 5 && channels[trn - 1] == channel;
            uint64_t result;
            set(five);
            result = reply_of(body, sizeof body);
            if (open)
                good &= sca_length(result) == 9 && !sca_interrupt(result);
            else if (trn == 0xFF && channel == 0x02)
                good &= sca_length(result) == 9 && sca_interrupt(result);
            else
                good &= refused(result, SCA_NO_MATCH);
        }
    for (unsigned number = 0; number <= 7; number++) {
        uint8_t body[SCA_REPLY_BYTES] = {0x00, 0x00, 0x00, (uint8_t)number};
        begin();
        record[0] = (uint8_t)number;
        good &= refused(reply_of(body, sizeof body), SCA_NO_MATCH);
    }
    check(good, "of every TRN and channel those that are open are taken, and the interrupt");
}

/* Lines 0, 9, 18 and 27 fired: INTS is 0x08040201. */
static void interrupts(void) {
    static const char body[] = "008a ff 02 00 04 04080102", answer[] = "ff 02 00 00 04 01020408";
    int good;
    begin();
    good = interrupted(reply(body), answer) && sca_answer_data(output) == 0x08040201;
    set("0500 0003 0141 0201 0331 1511");
    good &= interrupted(reply(body), answer);
    set_all(0x02, 0x71);
    good &= interrupted(reply(body), answer) && refused(request(0x02, 0x01, 0), SCA_ALL_OPEN);
    check(good, "an interrupt is told apart, with CMD 0, and no byte of the record changes");
    good = interrupted(reply("ffff ff 02 5a c3 04080102"), "ff 02 00 5a c3 01020408");
    check(good, "whatever its address, control, ERR and LEN");
    good = wrote(reply("008a fe 02 00 04 04080102"), "fe 02 71 00 04 01020408");
    check(good, "a reply with TRN 0xFE from channel 0x02 is none");
}

static int bad_reply(const char *body) { return refused(reply(body), SCA_BAD_REPLY); }

/* The bodies of other lengths begin with an open TRN and its channel, or are an acknowledgement, an SREJ. */
static void lengths_of_replies(void) {
    static const uint8_t body[40] = {0x00, 0x20, 0x01, 0x02, 0x00, 0x04};
    static const uint8_t interrupt[40] = {0x00, 0x20, 0xFF, 0x02, 0x00, 0x04};
    int good = 1;
    set("0100 0201");
    check(bad_reply("") && bad_reply("0063") && bad_reply("008d") && bad_reply("0020 01 02 00 04 341278") &&
              bad_reply("0020 01 02 00 04 34127856 00") && bad_reply("0020 01 02 00 04 34127856 000000000000"),
          "bodies of 0, 2, 9, 11 and 16 bytes are SCA_BAD_REPLY");
    for (size_t length = 0; length <= sizeof body; length++) {
        if (length == 10) continue;
        good &= refused(reply_of(length ? body : NULL, length), SCA_BAD_REPLY);
        good &= refused(reply_of(length ? interrupt : NULL, length), SCA_BAD_REPLY);
    }
    check(good && wrote(reply_of(body, 10), "01 02 01 00 04 00000000"), "and of every other length but 10");
}

/* ---- commands of the link */

static void commands(void) {
    static const struct {
        uint32_t control;
        const char *body, *left, *what;
    } rows[] = {
        {0x2F, "002f", "0000 0003 0141", "CONNECT sets the frame number to 0, and closes nothing"},
        {0x3F, "003f", "0000 0003 0141", "so it does with bit 4"},
        {0x8F, "008f", "0000 0003 0141", "RESET does the same"},
        {0x9F, "009f", "0000 0003 0141", "and with bit 4"},
        {0xE3, "00e3", "0500 0003 0141", "TEST changes nothing in the record"},
        {0xF3, "00f3", "0500 0003 0141", "nor with bit 4"},
    };
    static const uint32_t others[] = {0x00,    0x2E,    0x12F,      0x18F,      0x1E3,     0x13F,
                                      0x1002F, 0xFF8F, 0x8000002F, 0xFFFFFF2F, 0x2F0000, 0xFFFFFFFF};
    int good = 1;
    check(SCA_CONNECT == 0x2F && SCA_RESET == 0x8F && SCA_TEST == 0xE3 && SCA_POLL == 0x10, "the header's controls");
    for (size_t row = 0; row < sizeof rows / sizeof rows[0]; row++) {
        uint8_t due[SCA_RECORD_BYTES] = {0};
        uint64_t result;
        set("0500 0003 0141");
        record[508] = due[508] = 0x12, record[509] = due[509] = 0xCA;
        spelled(rows[row].left, due);
        result = command(rows[row].control);
        check(wrote(result, rows[row].body) && memcmp(record, due, sizeof due) == 0, rows[row].what);
    }
    set("0500 0003 0141");
    for (uint32_t control = 0; control <= 0xFF; control++) {
        int known = 0;
        for (size_t row = 0; row < sizeof rows / sizeof rows[0]; row++) known |= rows[row].control == control;
        if (!known) good &= refused(command(control), SCA_NO_COMMAND);
    }
    for (size_t at = 0; at < sizeof others / sizeof others[0]; at++)
        good &= refused(command(others[at]), SCA_NO_COMMAND);
    check(good, "any other control is SCA_NO_COMMAND, 0x12F too");
    set("0600 0003");
    good = wrote(command(0x2F), "002f") && wrote(request(0x00, 0x05, 0), "0000 02 00 02 05 00000000");
    check(good && record_is("0100 0003 0005"), "the request after a CONNECT has number 0, and the lowest free TRN");
}

/* ---- what is refused */

/* The three calls, each with nothing wrong but what the record and the output have; 0 to 2. */
static uint64_t call(unsigned which, const uint8_t *lent, size_t length, size_t room) {
    static const uint8_t body[] = {0x00, 0x20, 0x01, 0x02, 0x00, 0x04, 0x34, 0x12, 0x78, 0x56};
    static uint8_t given[SCA_RECORD_BYTES + 2];
    uint8_t *at = lent ? given : NULL;
    uint64_t result;
    note();
    if (lent) memcpy(given, lent, length);
    result = which == 0   ? sca_request(at, length, 0x02, 0x01, 0, output, room)
             : which == 1 ? sca_reply(at, length, body, sizeof body, output, room)
                          : sca_command(at, length, SCA_CONNECT, output, room);
    if (lent && sca_refused(result) && memcmp(given, lent, length) != 0) return ~(uint64_t)0;
    return result;
}

/* Whether each of the three is refused with 6, with an output that is too short as well. */
static int bad_record(const uint8_t *lent, size_t length) {
    int good = 1;
    for (unsigned which = 0; which <= 2; which++)
        for (size_t room = 15; room <= 16; room++) good &= refused(call(which, lent, length, room), SCA_BAD_STATE);
    return good;
}

static int good_record(const uint8_t *lent) {
    int good = 1;
    for (unsigned which = 0; which <= 2; which++) {
        uint64_t result = call(which, lent, SCA_RECORD_BYTES, 16);
        good &= sca_number(result) == SCA_HAS_FRAME || (which == 1 && result == SCA_NO_MATCH);
    }
    return good;
}

static void bad_records(void) {
    static const uint8_t wrong[][2] = {
        {0x00, 0x01}, {0x16, 0x10}, {0x02, 0x00}, {0x00, 0x08}, {0xFF, 0xFF}, {0x16, 0x00},
        {0x03, 0x00}, {0x15, 0x00}, {0x00, 0x10}, {0x02, 0x50}, {0x13, 0xD1}, {0x12, 0x81},
    };
    static const uint8_t right[][2] = {{0x01, 0x00}, {0x00, 0x02}, {0x00, 0x00}, {0x15, 0x41}, {0x12, 0xE6}};
    static const size_t places[] = {0x01, 0x02, 0x80, 0xFD, 0xFE};
    uint8_t lent[SCA_RECORD_BYTES + 2] = {0x01, 0x00, 0x02, 0x01};
    int numbers = 1, bytes = 1, entries = 1, others = 1;
    check(bad_record(lent, 509) && bad_record(lent, 511) && bad_record(NULL, 0) && bad_record(lent, 1),
          "records of 509, 511, 0 and 1 bytes are SCA_BAD_STATE");
    for (unsigned number = 0; number <= 0xFF; number++) {
        lent[0] = (uint8_t)number;
        numbers &= number <= 7 ? good_record(lent) : bad_record(lent, SCA_RECORD_BYTES);
    }
    check(numbers, "frame numbers of 8 to 255 are");
    lent[0] = 0x01;
    for (unsigned byte = 1; byte <= 0xFF; byte++) {
        lent[1] = (uint8_t)byte;
        bytes &= bad_record(lent, SCA_RECORD_BYTES);
    }
    check(bytes, "so is a record with any bit of byte 1");
    lent[1] = 0x00;
    for (size_t at = 0; at < sizeof places / sizeof places[0]; at++) {
        uint8_t *entry = lent + 2 * places[at], was[2];
        memcpy(was, entry, 2);
        for (size_t row = 0; row < sizeof wrong / sizeof wrong[0]; row++) {
            memcpy(entry, wrong[row], 2);
            entries &= bad_record(lent, SCA_RECORD_BYTES);
        }
        for (size_t row = 0; row < sizeof right / sizeof right[0]; row++) {
            memcpy(entry, right[row], 2);
            others &= good_record(lent);
        }
        memcpy(entry, was, 2);
    }
    check(entries, "an entry that the tables don't have, or half of one, at the first TRN, the last and between");
    check(others, "and what they have is taken there, CMD 0x00 of channel 0x01 too");
}

/* What is wrong is, bit by bit, the record, the output, the command or the reply's length; and always what comes last:
 * all TRNs are open, TRN 0x01 to another channel than the reply's. Of a command of the link the control always is. */
static void orders(void) {
    static const uint8_t body[11] = {0x00, 0x20, 0x01, 0x03};
    int requests = 1, readings = 1, links = 1;
    for (unsigned wrong = 0; wrong < 8; wrong++) {
        unsigned first = wrong & 1 ? SCA_BAD_STATE : wrong & 2 ? SCA_SHORT_OUTPUT : 0;
        size_t room = wrong & 2 ? 15 : 16;
        set_all(0x02, 0x01);
        if (wrong & 1) record[0] = 8;
        note();
        requests &= refused(sca_request(record, sizeof record, wrong & 4 ? 0x16 : 0x02, 0x01, 0, output, room),
                            first ? first : wrong & 4 ? SCA_NO_COMMAND : SCA_ALL_OPEN);
        readings &= refused(sca_reply(record, sizeof record, body, wrong & 4 ? 11 : 10, output, room),
                            first ? first : wrong & 4 ? SCA_BAD_REPLY : SCA_NO_MATCH);
        links &= refused(sca_command(record, sizeof record, 0x12E, output, room), first ? first : SCA_NO_COMMAND);
    }
    check(requests, "a request is refused with 6 before 1 before 35 before 31");
    check(readings, "a reply with 6 before 1 before 33 before 32");
    check(links, "a command of the link with 6 before 1 before 35");
    begin();
    check(refused(request(0x16, 0x01, 0), SCA_NO_COMMAND) && refused(reply("0000 01 02 00 04 00000000"), SCA_NO_MATCH),
          "an unknown command and a reply that nothing asked for, with nothing open");
}

/* ---- the header's readers */

static void readers(void) {
    static const uint8_t answer[] = {0x01, 0x02, 0x03, 0x04, 0x05, 0xEF, 0xCD, 0xAB, 0x89};
    int among = 1;
    check(sca_number(0x0900) == 0 && sca_length(0x0900) == 9 && !sca_interrupt(0x0900), "a reply's result is read");
    check(sca_number(0x010900) == 0 && sca_length(0x010900) == 9 && sca_interrupt(0x010900) == 1, "an interrupt's");
    check(sca_length(0x0A00) == 10 && sca_length(0x0200) == 2, "a request's, and a link command's");
    check(sca_answer_data(answer) == 0x89ABCDEF, "an answer's data, from its bytes 5 to 8");
    for (unsigned number = 0; number <= 0xFF; number++)
        among &= sca_refused(number) == ((number >= 1 && number <= 10) || (number >= 31 && number <= 35));
    check(among, "1 to 10 and 31 to 35 are refusals, and no other number is");
}

/* The result as a whole: nothing stands in it beside number, length and interrupt. */
static void results(void) {
    int good;
    good = sca_record_new(record, sizeof record) == 17;
    good &= request(0x02, 0x01, 0) == 0x0A00 && command(SCA_TEST) == 0x0200 && command(SCA_CONNECT) == 0x0200;
    good &= reply("0020 01 02 00 04 34127856") == 0x0900 && reply("0020 ff 02 00 04 34127856") == 0x010900;
    check(good, "the calls' results are 17, then number 0 with 10, 2, 9 and 9 bytes, an interrupt marked");
}

static void texts(void) {
    static const unsigned numbers[] = {SCA_ALL_OPEN, SCA_NO_MATCH, SCA_BAD_REPLY, SCA_NO_COMMAND};
    int differ = 1;
    check(SCA_ALL_OPEN == 31 && SCA_NO_MATCH == 32 && SCA_BAD_REPLY == 33 && SCA_NO_COMMAND == 35, "the new numbers");
    check(strcmp(sca_text(31), "no TRN is free: all 254 transactions are open") == 0 &&
              strcmp(sca_text(32), "the reply matches no open transaction") == 0 &&
              strcmp(sca_text(33), "the reply's body is not 10 bytes") == 0 &&
              strcmp(sca_text(35), "the tables have no such command") == 0,
          "and their texts");
    for (size_t at = 0; at < sizeof numbers / sizeof numbers[0]; at++)
        for (unsigned other = 0; other <= 0xFF; other++)
            differ &= (strcmp(sca_text(other), sca_text(numbers[at])) == 0) == (other == numbers[at]);
    check(differ && strcmp(sca_text(34), "unknown number") == 0 && strcmp(sca_text(30), "unknown number") == 0,
          "which no other number has; 34 is none of this version");
}

/* ---- a conversation with the chip */

static uint8_t state[SCA_STATE_BYTES], journal[SCA_JOURNAL_BYTES], sent[SCA_OUTPUT_LEAST];

/* The chip hears what the room wrote last: a command of the link, whose control has bit 0 set, or a request. */
static uint64_t hear(void) {
    size_t length = output[1] & 1 ? 2 : 10;
    return sca_frame(state, sizeof state, journal, sizeof journal, SCA_PRIMARY, output, length, sent, sizeof sent);
}

/* Whether the chip sent this body and no other. */
static int sends(uint64_t event, const char *body) {
    uint8_t due[SCA_OUTPUT_LEAST];
    size_t count = spelled(body, due);
    return sca_number(event) == SCA_HAS_FRAME && sca_length(event) == count && memcmp(sent, due, count) == 0;
}

/* Whether the chip sent this body, and the room reads these bytes from it and has this record then. */
static int answers(uint64_t event, const char *body, const char *answer, const char *front) {
    return sends(event, body) && wrote(reply_of(sent, sca_length(event)), answer) && record_is(front);
}

/* The reply's control is 2 * send number + 32 * receive number. Beside each request stand both as they are then. */
static void conversation(void) {
    static const uint8_t received[SCA_TRANSFER_BYTES] = {0x78, 0x56, 0x34, 0x12}, two[] = {0x11, 0x22};
    uint64_t event;
    int good;
    sca_create(state, sizeof state, 0x00000A);
    sca_empty(journal, sizeof journal);
    begin();

    /* CRB: SPI, GPIO and the first master; 0, 1 */
    good = wrote(request(0x00, 0x02, 0x0E000000), "0000 01 00 04 02 000e0000");
    good &= answers(hear(), "0020 01 00 00 02 00000000", "01 00 02 00 02 00000000", "0100");
    check(good, "channels are enabled");

    good = wrote(request(0x01, 0x72, 0), "0002 01 01 02 72 00000000") && hear() == SCA_NO_FRAME;
    check(good && record_is("0200 0172"), "a GO stays open");

    /* CTRL: two bytes; 1, 3 */
    good = wrote(request(0x03, 0x30, 0x08000000), "0004 02 03 01 30 00080000");
    good &= answers(hear(), "0062 02 03 00 00 00000000", "02 03 30 00 00 00000000", "0300 0172");
    good &= wrote(request(0x03, 0xDE, 0x50000000), "0006 02 03 04 de 00500000") && hear() == SCA_NO_FRAME;
    check(good && record_is("0400 0172 03de"), "beside it an I2C start");

    /* INTSEL, INTTRIG, INTENABLE; 2, 5, then 3, 6 and 4, 7 */
    good = wrote(request(0x02, 0x30, 0xFFFFFFFF), "0008 03 02 04 30 ffffffff");
    good &= answers(hear(), "00a4 03 02 00 02 00000000", "03 02 30 00 02 00000000", "0500 0172 03de");
    good &= wrote(request(0x02, 0x40, 0xFFFFFFFF), "000a 03 02 04 40 ffffffff");
    good &= answers(hear(), "00c6 03 02 00 02 00000000", "03 02 40 00 02 00000000", "0600 0172 03de");
    good &= wrote(request(0x02, 0x60, 0x00000001), "000c 03 02 04 60 00000100");
    good &= answers(hear(), "00e8 03 02 00 02 00000000", "03 02 60 00 02 00000000", "0700 0172 03de");
    check(good, "and other requests go on");

    /* the second master's MASK; 5, 0 */
    good = wrote(request(0x04, 0x21, 0), "000e 03 04 00 21 00000000");
    good &= answers(hear(), "000a 03 04 20 02 00000000", "03 04 21 20 02 00000000", "0000 0172 03de");
    check(good, "a channel that is not enabled answers 0x20");

    /* lines 0 and 31 rise; 6, 0 */
    event = sca_sample(state, sizeof state, journal, sizeof journal, 0x80000001, SCA_SYSTEM_CLOCK, sent, sizeof sent);
    good = sends(event, "000c ff 02 00 04 00800100");
    good &= interrupted(reply_of(sent, sca_length(event)), "ff 02 00 00 04 01000080") && record_is("0000 0172 03de");
    check(good, "an interrupt between");

    /* SPI CONTROL; 7, 1 */
    good = wrote(request(0x01, 0x41, 0), "0000 03 01 02 41 00000000");
    good &= answers(hear(), "002e 03 01 40 02 00000000", "03 01 41 40 02 00000000", "0100 0172 03de");
    check(good, "a busy channel answers 0x40, and its GO stays open");

    /* STATUS is SUCC; 0, 1 */
    event = sca_i2c_completion(state, sizeof state, journal, sizeof journal, 0x03, 1, 0, two, 2, sent, sizeof sent);
    good = answers(event, "0020 02 03 00 04 00040000", "02 03 de 00 04 00000004", "0100 0172");
    check(good, "the start is answered by its completion");

    /* DATA; 1, 2 */
    good = wrote(request(0x03, 0x41, 0), "0002 02 03 00 41 00000000");
    good &= answers(hear(), "0042 02 03 00 04 22110000", "02 03 41 00 04 00002211", "0200 0172");
    check(good && sca_answer_data(output) == 0x11220000, "and its TRN asks for the bytes that came");

    /* DATA word 0; 2, 2 */
    event = sca_completion(state, sizeof state, journal, sizeof journal, received, sizeof received, sent, sizeof sent);
    good = answers(event, "0044 01 01 00 06 34127856", "01 01 72 00 06 78563412", "0200");
    check(good && sca_answer_data(output) == 0x12345678, "the GO is answered by its completion");

    /* DATAIN; 3, 3 */
    good = wrote(request(0x02, 0x01, 0), "0004 01 02 01 01 00000000");
    good &= answers(hear(), "0066 01 02 00 04 00800100", "01 02 01 00 04 01000080", "0300");
    check(good && sca_answer_data(output) == 0x80000001, "its TRN reads the lines");

    /* The chip expects number 3: SREJ is 0x0D + 32 * 3. */
    good = wrote(request(0x15, 0x11, 0), "0006 01 15 01 11 00000000");
    good &= wrote(request(0x15, 0x21, 0), "0008 02 15 01 21 00000000") && sends(hear(), "006d");
    good &= refused(reply_of(sent, 2), SCA_BAD_REPLY) && record_is("0500 1511 1521");
    check(good, "the request after a lost one is answered with SREJ, which is no reply");

    /* Both numbers are 0 then; 0, 1 */
    good = wrote(command(SCA_CONNECT + SCA_POLL), "003f") && sends(hear(), "0073");
    good &= refused(reply_of(sent, 2), SCA_BAD_REPLY) && record_is("0000 1511 1521");
    good &= wrote(request(0x14, 0xD1, 0), "0000 03 14 04 d1 00000000");
    good &= answers(hear(), "0020 03 14 20 02 00000000", "03 14 d1 20 02 00000000", "0100 1511 1521");
    check(good, "CONNECT sets the numbers anew at both ends, and the lost ones stay open");

    /* RESET: all registers are 0, so GPIO is off; 0, 1 */
    good = wrote(command(SCA_RESET), "008f") && sends(hear(), "0063");
    begin();
    good &= wrote(request(0x02, 0x01, 0), "0000 01 02 01 01 00000000");
    good &= answers(hear(), "0020 01 02 20 02 00000000", "01 02 01 20 02 00000000", "0100");
    check(good, "after a RESET a new record goes with the chip");
}

int main(void) {
    read_tables();
    sizes();
    worked_out();
    bodies();
    every_command();
    wide_commands();
    places_of_data();
    frame_numbers();
    lowest_free();
    all_open();
    one_free();
    replies();
    no_match();
    interrupts();
    lengths_of_replies();
    commands();
    bad_records();
    orders();
    readers();
    results();
    texts();
    conversation();
    return failures != 0;
}
