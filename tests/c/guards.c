/* Every buffer between pages that may not be touched, at every length around the limits. A buffer stands once right behind
 * the page before it and once right before the page after it; what is only read stands in a page that cannot be written. */
#define _DEFAULT_SOURCE
#include <signal.h>
#include <stdint.h>
#include <stdlib.h>
#include <string.h>
#include <sys/mman.h>
#include <sys/wait.h>
#include <unistd.h>

#include "check.h"
#include "sca.h"

/* ------------------------------------------------------------------ buffers */

struct lent {
    uint8_t *room, *was; /* the pages between the guards, and a copy of them as they were before the call */
    size_t size;
    uint8_t *at; /* what is lent of the room */
    size_t length;
};

static struct lent state, journal, second, output, body, received, list, receiver, input, record;
static int at_end;

/* What stands in every room before it is lent: bytes that differ within a slot of a journal, and from slot to slot. */
static uint8_t rubbish[1 << 17];

static void make_rubbish(void) {
    for (size_t at = 0; at < sizeof rubbish; at++) rubbish[at] = (uint8_t)(at * 37 + at / 256 * 101 + 11);
}

static struct lent between_guards(size_t most) {
    size_t page = (size_t)sysconf(_SC_PAGESIZE), size = (most + page - 1) / page * page;
    uint8_t *all = mmap(NULL, size + 2 * page, PROT_NONE, MAP_PRIVATE | MAP_ANONYMOUS, -1, 0);
    struct lent lent = {NULL, malloc(size), size, NULL, 0};
    if (all == MAP_FAILED || lent.was == NULL || size > sizeof rubbish ||
        mprotect(all + page, size, PROT_READ | PROT_WRITE) != 0) {
        puts("FAIL no guard pages");
        exit(1);
    }
    lent.room = all + page;
    return lent;
}

/* Lends this many bytes, at one end of the room; of none, the address is in a guard page. */
static uint8_t *lend(struct lent *lent, size_t length) {
    memcpy(lent->room, rubbish, lent->size);
    lent->length = length;
    lent->at = at_end ? lent->room + lent->size - length : length ? lent->room : lent->room - 1;
    return lent->at;
}

static void lend_bytes(struct lent *lent, const void *bytes, size_t length) { memcpy(lend(lent, length), bytes, length); }

/* Lends room for this many samples; of none, a place for one in a guard page. */
static struct sca_pin_sample *lend_samples(size_t count) {
    lend(&list, count * sizeof(struct sca_pin_sample));
    if (count == 0 && !at_end) list.at = list.room - sizeof(struct sca_pin_sample);
    return (struct sca_pin_sample *)(void *)list.at;
}

static void note(struct lent *lent) { memcpy(lent->was, lent->room, lent->size); }

static int unchanged(const struct lent *lent) { return memcmp(lent->was, lent->room, lent->size) == 0; }

/* Whether no byte has changed but the first ones that were lent. */
static int unchanged_after(const struct lent *lent, size_t count) {
    size_t at = (size_t)(lent->at - lent->room);
    if (count == 0) return unchanged(lent);
    return memcmp(lent->was, lent->room, at) == 0 &&
           memcmp(lent->was + at + count, lent->at + count, lent->size - at - count) == 0;
}

static void writable(struct lent *lent, int yes) { mprotect(lent->room, lent->size, yes ? PROT_READ | PROT_WRITE : PROT_READ); }

static void touched(int signal) {
    static const char line[] = "FAIL a guard page was touched\n";
    (void)signal;
    _exit(write(1, line, sizeof line - 1) < 0 ? 2 : 1);
}

/* ----------------------------------------------------------------- journals */

/* The two sizes of a journal. Each has a room of its own: what is lent of a small one stands between guards too. */
static const struct format {
    size_t bytes;
    unsigned slots;
} small = {SCA_JOURNAL_BYTES, SCA_KEPT_MOST}, large = {SCA_LARGE_JOURNAL_BYTES, SCA_LARGE_KEPT_MOST};

static const struct format *format;
static struct lent small_room, large_room;

static void use(const struct format *of) {
    format = of;
    journal = of == &small ? small_room : large_room;
}

/* -------------------------------------------------------------------- calls */

enum call { FRAME, COMPLETION, I2C, SAMPLE, SAMPLES, UPSET, STEP_BACK, CALLS };

static uint32_t port, kind, channel, acknowledge, line_low;

static const struct sca_pin_sample *samples(void) { return (const struct sca_pin_sample *)(const void *)list.at; }

static size_t count(void) { return list.length / sizeof(struct sca_pin_sample); }

static size_t least_output(enum call which) { return which == SAMPLES ? SCA_BATCH_LEAST : SCA_OUTPUT_LEAST; }

static uint64_t call(enum call call) {
    switch (call) {
    case FRAME:
        return sca_frame(state.at, state.length, journal.at, journal.length, port, body.at, body.length, output.at, output.length);
    case COMPLETION:
        return sca_completion(state.at, state.length, journal.at, journal.length, received.at, received.length, output.at, output.length);
    case I2C:
        return sca_i2c_completion(state.at, state.length, journal.at, journal.length, channel, acknowledge, line_low, received.at, received.length,
                                  output.at, output.length);
    case SAMPLE:
        return sca_sample(state.at, state.length, journal.at, journal.length, 0xFFFF0000, kind, output.at, output.length);
    case SAMPLES:
        return sca_samples(state.at, state.length, journal.at, journal.length, samples(), count(), output.at, output.length);
    case UPSET:
        return sca_upset(state.at, state.length, journal.at, journal.length, output.at, output.length);
    default:
        return sca_step_back(state.at, state.length, journal.at, journal.length);
    }
}

/* A record stands at the front of its slot: its tag, the state's bytes 0 to 15, then those of its tag's group. docs/JOURNAL.md has them. */
enum { CORE_BYTES = 16, SLOTS_AT = 1024, SLOT_BYTES = 256, MASTERS_AT = 75, MASTER_BYTES = 21 };

/* Where the group of tag 1, 2 and 3 begins in a state: that of CRB, of CRC, of CRD. The last ends with it; tag 0 has none. */
static const size_t groups[] = {20, 20, 180, 348, SCA_STATE_BYTES};
enum { GROUPS_AT = 20, GROUP_MOST = 168 };

static size_t group_at(uint8_t tag) { return groups[tag]; }

static size_t group_bytes(uint8_t tag) { return tag == 0 ? 0 : groups[tag + 1] - groups[tag]; }

static uint8_t *slot_of(uint8_t *bytes, unsigned after_first) {
    return bytes + SLOTS_AT + SLOT_BYTES * (size_t)((bytes[5] + after_first) % format->slots);
}

/* The tag of the register that switches a channel. */
static uint8_t tag_of_channel(uint32_t number) {
    return number == 0x00 || number > SCA_I2C_LAST ? 0 : number <= 0x07 ? 1 : number <= 0x0F ? 2 : 3;
}

/* The tag of an event's record: the event alone decides. */
static uint8_t tag_of(enum call which) {
    uint8_t command;
    if (which == I2C) return tag_of_channel(channel);
    if (which != FRAME) return which == UPSET ? 0 : 1;
    if (body.length != 10) return 0;
    command = body.at[5];
    if (body.at[3] == 0x00) return command == 0x02 ? 1 : command == 0x04 ? 2 : command == 0x06 ? 3 : 0;
    return tag_of_channel(body.at[3]);
}

static int is_reset(enum call which) {
    return which == FRAME && body.length == 2 && body.at[0] == 0x00 && (body.at[1] & 0xEF) == 0x8F;
}

/* Whether a batch gave and left what its samples do one by one, on copies of what it was lent: result, bodies, state and journal. */
static int as_one_by_one(uint64_t result) {
    static uint8_t state_due[SCA_STATE_BYTES], journal_due[SCA_LARGE_JOURNAL_BYTES], body_due[SCA_OUTPUT_LEAST];
    size_t frames = 0;
    uint32_t sum = 0;
    int good = 1;
    memcpy(state_due, state.was + (state.at - state.room), sizeof state_due);
    memcpy(journal_due, journal.was + (journal.at - journal.room), format->bytes);
    for (size_t at = 0; at < count(); at++) {
        uint64_t one = sca_sample(state_due, sizeof state_due, journal_due, format->bytes, samples()[at].levels, samples()[at].kind, body_due,
                                  sizeof body_due);
        if (sca_number(one) != SCA_HAS_FRAME) continue;
        good &= memcmp(output.at + SCA_REPLY_BYTES * frames++, body_due, SCA_REPLY_BYTES) == 0 && sca_port(one) == sca_port(result);
        for (unsigned bit = 0; bit < 32; bit++) sum += body_due[6 + bit / 8] >> bit % 8 & 1;
    }
    good &= sca_number(result) == (frames ? SCA_HAS_FRAME : SCA_NO_FRAME) && sca_length(result) == (frames ? SCA_REPLY_BYTES : 0);
    good &= sca_frames(result) == frames && sca_sum(result) == sum;
    good &= memcmp(state_due, state.at, sizeof state_due) == 0 && memcmp(journal_due, journal.at, format->bytes) == 0;
    return good && unchanged_after(&journal, format->bytes);
}

/* Whether the call left the journal's bytes as it must, where it was not refused: each that it has to write, and no other one. */
static int journal_as_left(enum call which) {
    static uint8_t expected[SCA_LARGE_JOURNAL_BYTES];
    const uint8_t *state_was = state.was + (state.at - state.room);
    uint8_t *slot, tag = tag_of(which);
    memcpy(expected, journal.was + (journal.at - journal.room), format->bytes);
    slot = slot_of(expected, expected[6]);
    if (which == STEP_BACK) {
        expected[6]--;
    } else if (is_reset(which)) {
        expected[5] = expected[6] = 0;
    } else {
        slot[0] = tag;
        memcpy(slot + 1, state_was, CORE_BYTES);
        memcpy(slot + 1 + CORE_BYTES, state_was + group_at(tag), group_bytes(tag));
        if (expected[6] == format->slots)
            expected[5] = (uint8_t)((expected[5] + 1u) % format->slots);
        else
            expected[6]++;
    }
    return memcmp(expected, journal.at, format->bytes) == 0 && unchanged_after(&journal, format->bytes);
}

/* All that the last call gave. */
static uint64_t given;

/* The call's number, and whether it left what it must: all where it is refused, else all outside of what it may write, and of the journal
 * each byte as it is due. */
static unsigned number_of(enum call which, int *good) {
    uint64_t result;
    note(&state), note(&journal), note(&output), note(&body), note(&received), note(&list);
    writable(&body, 0), writable(&received, 0), writable(&list, 0);
    given = result = call(which);
    writable(&body, 1), writable(&received, 1), writable(&list, 1);
    *good &= unchanged(&body) && unchanged(&received) && unchanged(&list);
    if (sca_refused(result)) {
        *good &= unchanged(&state) && unchanged(&journal) && unchanged(&output) && result == sca_number(result);
    } else {
        *good &= unchanged_after(&state, SCA_STATE_BYTES) && (which == SAMPLES ? as_one_by_one(result) : journal_as_left(which));
        *good &= unchanged_after(&output, sca_length(result) * (which == SAMPLES ? sca_frames(result) : 1));
        *good &= sca_length(result) <= SCA_OUTPUT_LEAST && sca_port(result) <= SCA_AUXILIARY;
        *good &= (sca_length(result) > 0) == (sca_number(result) == SCA_HAS_FRAME);
    }
    return sca_number(result);
}

/* ------------------------------------------------------------------- states */

static uint8_t some_state[SCA_STATE_BYTES], some_journal[SCA_LARGE_JOURNAL_BYTES + 1];

/* Plays requests on a new adapter: none, or enough to have something in the registers of every group, loopback, an open GO, and I2C starts open:
 * of a read of 16 bytes on channel 0x05, and one in each other group. Lines interrupt on rising. Then the event whose record has this tag: an
 * upset, a pin sample, a write of CRC, one of CRD. Unwritten slots hold what every group may hold, or what none may. */
static void reach(int deep, uint8_t tag) {
    static const char *const requests[] = {
        "\x00\x00\x01\x00\x04\x02\x00\xFF\x00\x00", "\x00\x02\x02\x00\x04\x06\x00\xFF\x00\x00",
        "\x00\x04\x03\x02\x04\x20\x55\x55\x00\x00", "\x00\x06\x04\x02\x04\x30\xFF\xFF\xFF\xFF",
        "\x00\x08\x05\x02\x04\x60\x00\x00\x01\x00", "\x00\x0A\x06\x01\x06\x40\x00\x00\x21\x00",
        "\x00\x0C\x07\x01\x06\x10\x12\x34\x56\x78", "\x00\x0E\x08\x15\x04\x30\x00\x00\x99\x00",
        "\x00\x00\x09\x01\x02\x72\x00\x00\x00\x00", "\x00\x02\x0A\x00\x04\x04\x00\xFF\x00\x00",
        "\x00\x04\x0B\x05\x01\x30\x00\x40\x00\x00", "\x00\x06\x0C\x05\x04\x50\x12\x34\x56\x78",
        "\x00\x08\x0D\x05\x04\xDE\x00\x50\x00\x00", "\x00\x0A\x0E\x0B\x01\x20\x00\x77\x00\x00",
        "\x00\x0C\x0F\x0B\x04\x82\x00\x50\x00\x00", "\x00\x0E\x10\x11\x00\xFF\x00\x00\x00\x00",
        "\x00\x00\x11\x12\x02\xC2\x00\x50\x00\x00", "\x00\x02\x12\x02\x04\x40\xFF\xFF\xFF\xFF",
    };
    uint8_t sent[SCA_OUTPUT_LEAST];
    sca_create(some_state, sizeof some_state, deep ? SCA_ID_MOST : 0x00000A);
    memset(some_journal, deep ? 0x00 : 0xEE, sizeof some_journal);
    sca_empty(some_journal, format->bytes);
    for (size_t at = 0; deep && at < sizeof requests / sizeof requests[0]; at++)
        sca_frame(some_state, sizeof some_state, some_journal, format->bytes, 0, (const uint8_t *)requests[at], 10, sent, sizeof sent);
    if (deep) sca_frame(some_state, sizeof some_state, some_journal, format->bytes, 1, (const uint8_t *)"\x00\xE3", 2, sent, sizeof sent);
    if (tag == 0) {
        sca_upset(some_state, sizeof some_state, some_journal, format->bytes, sent, sizeof sent);
    } else if (tag == 1) {
        sca_sample(some_state, sizeof some_state, some_journal, format->bytes, 0x12345678, SCA_SYSTEM_CLOCK, sent, sizeof sent);
    } else {
        uint8_t written[] = {0x00, (uint8_t)(2 * some_state[1]), 0x0A, 0x00, 0x04, (uint8_t)(2 * tag), 0x00, 0x19, 0x00, 0x00};
        sca_frame(some_state, sizeof some_state, some_journal, format->bytes, 0, written, sizeof written, sent, sizeof sent);
    }
}

/* All as it must be for a call to be granted: its output as short as it may be, and a batch of three samples. */
static void lend_all(enum call which) {
    static const struct sca_pin_sample three[] = {{0xFFFF0000, SCA_SYSTEM_CLOCK}, {0x00000000, SCA_STROBE_RISING}, {0x0000FFFF, SCA_SYSTEM_CLOCK}};
    port = 0, kind = SCA_SYSTEM_CLOCK, channel = 0x05, acknowledge = 1, line_low = 0;
    lend_bytes(&state, some_state, sizeof some_state);
    lend_bytes(&journal, some_journal, format->bytes);
    lend_bytes(&body, "\x00\x2F", 2);
    lend(&received, SCA_TRANSFER_BYTES);
    memcpy(lend_samples(3), three, sizeof three);
    lend(&output, least_output(which));
}

static int all_zero(const uint8_t *bytes, size_t from, size_t to) {
    for (size_t at = from; at <= to; at++)
        if (bytes[at] != 0) return 0;
    return 1;
}

static int among(uint8_t byte, const char *bytes) { return byte != 0 && strchr(bytes, (char)byte) != NULL; }

/* What number 6 asks of one I2C master. */
static int master_in_range(const uint8_t *master, int enabled) {
    static const char single[] = "\x82\x86\x8A\x8E\xC2\xC6\xCA", multi[] = "\xDA\xDE\xE2\xE6";
    unsigned count = master[1] >> 2 & 0x1F;
    if (!enabled) return all_zero(master, 0, MASTER_BYTES - 1);
    if (master[2] & 0x93 || (master[3] == 0) != (master[4] == 0)) return 0;
    return master[4] == 0 || among(master[4], single) || (among(master[4], multi) && count >= 1 && count <= 16);
}

static int masters_in_range(const uint8_t *bytes) {
    unsigned enabled = (unsigned)bytes[5] >> 3 | (unsigned)bytes[6] << 5 | (bytes[7] & 7u) << 13;
    for (unsigned n = 0; n < 16; n++)
        if (!master_in_range(bytes + MASTERS_AT + MASTER_BYTES * n, enabled >> n & 1)) return 0;
    return 1;
}

/* Number 6, on the bytes as sca.h lists them. */
static int in_range(const uint8_t *bytes) {
    int spi = bytes[5] & 0x02, gpio = bytes[5] & 0x04;
    return bytes[0] <= 7 && bytes[1] <= 7 && bytes[2] <= 1 && bytes[3] <= 1 && bytes[4] <= 1 && !(bytes[5] & 0x01) && !(bytes[7] & 0xE0) &&
           bytes[19] == 0 && bytes[74] <= 1 && (spi || all_zero(bytes, 20, 41)) && (gpio || all_zero(bytes, 42, 74)) && masters_in_range(bytes);
}

/* What a step back by a slot's record makes of a state; it stays where the record is damaged. */
static int restored(const uint8_t *slot, uint8_t *bytes) {
    uint8_t after[SCA_STATE_BYTES];
    if (slot[0] > 3) return 0;
    memcpy(after, bytes, sizeof after);
    memcpy(after, slot + 1, CORE_BYTES);
    memcpy(after + group_at(slot[0]), slot + 1 + CORE_BYTES, group_bytes(slot[0]));
    if (!in_range(after)) return 0;
    memcpy(bytes, after, sizeof after);
    return 1;
}

/* -------------------------------------------------------------------- tests */

/* For each place of the buffers and each of the calls up to a last one. */
#define EACH_CALL(last) \
    for (at_end = 0; at_end <= 1; at_end++) \
        for (enum call which = FRAME; which <= last; which++)

static void lengths_of_outputs(void) {
    int good = 1;
    EACH_CALL(UPSET)
    for (size_t length = 0; length <= 25; length++) {
        lend_all(which);
        lend(&output, length);
        unsigned number = number_of(which, &good);
        good &= (number == SCA_SHORT_OUTPUT) == (length < least_output(which));
    }
    check(good, "outputs of 0 to 25 bytes");
    good = 1;
    for (at_end = 0; at_end <= 1; at_end++)
        for (size_t length = SCA_BATCH_LEAST - 25; length <= SCA_BATCH_LEAST + 1; length++) {
            lend_all(SAMPLES);
            lend(&output, length);
            unsigned number = number_of(SAMPLES, &good);
            good &= number == (length < SCA_BATCH_LEAST ? SCA_SHORT_OUTPUT : SCA_HAS_FRAME);
        }
    check(good, "a batch's outputs of 2,535 to 2,561 bytes");
}

/* Lengths around both sizes, of a journal of this size: what is longer has other bytes behind it, what is shorter is
 * cut. */
static void lengths_of_journals(void) {
    static const size_t lengths[] = {0, 17407, 17408, 17409, 52223, 52224, 52225};
    int good = 1, others = 1;
    journal = large_room;
    for (size_t at = 0; at < sizeof lengths / sizeof lengths[0]; at++) {
        size_t length = lengths[at];
        int right = length == format->bytes, either = length == small.bytes || length == large.bytes;
        const char *header = length == small.bytes ? "SCJ\x01\x00\x00\x00" : "SCJ\x02\x00\x00\x00";
        uint64_t kept = SCA_NO_FRAME | (uint64_t)some_journal[6] << 8;
        EACH_CALL(STEP_BACK) {
            lend_all(which);
            memcpy(lend(&journal, length), some_journal, length);
            unsigned number = number_of(which, &good);
            good &= (number == SCA_BAD_JOURNAL) == !right;
        }
        for (at_end = 0; at_end <= 1; at_end++) {
            memcpy(lend(&journal, length), some_journal, length);
            note(&journal);
            writable(&journal, 0);
            others &= sca_kept(journal.at, length) == (right ? kept : SCA_BAD_JOURNAL);
            writable(&journal, 1);
            others &= unchanged(&journal);
            lend(&journal, length);
            note(&journal);
            others &= sca_empty(journal.at, length) == (either ? SCA_NO_FRAME : SCA_BAD_JOURNAL);
            others &= unchanged_after(&journal, either ? 7 : 0);
            others &= !either || memcmp(journal.at, header, 7) == 0;
            note(&journal);
            writable(&journal, 0);
            others &= sca_kept(journal.at, length) == (either ? SCA_NO_FRAME : SCA_BAD_JOURNAL);
            writable(&journal, 1);
            others &= unchanged(&journal);
        }
    }
    check(good, "journals of 0, 17,407 to 17,409 and 52,223 to 52,225 bytes");
    check(others, "and in sca_empty and sca_kept");
}

/* Whether a header with this byte in this place is refused. */
static int wrong_header(size_t at, unsigned byte) {
    if (at == 5) return byte >= format->slots;
    if (at == 6) return byte > format->slots;
    return at < 7 && byte != some_journal[at];
}

static void headers_of_journals(void) {
    int good = 1, others = 1;
    for (size_t at = 0; at < 8; at++)
        for (unsigned byte = 0; byte <= 0xFF; byte++) {
            int layout = wrong_header(at, byte);
            EACH_CALL(STEP_BACK) {
                unsigned number;
                lend_all(which);
                journal.at[at] = (uint8_t)byte;
                number = number_of(which, &good);
                if (which != STEP_BACK || layout) good &= (number == SCA_BAD_JOURNAL) == layout;
            }
            for (at_end = 0; at_end <= 1; at_end++) {
                lend_all(STEP_BACK);
                journal.at[at] = (uint8_t)byte;
                note(&journal);
                writable(&journal, 0);
                others &= sca_kept(journal.at, journal.length) ==
                          (layout ? SCA_BAD_JOURNAL : SCA_NO_FRAME | (uint64_t)journal.at[6] << 8);
                writable(&journal, 1);
                others &= unchanged(&journal);
            }
        }
    check(good, "every byte in each place of a journal's header");
    check(others, "and in sca_kept");
}

static void bits_of_states(void) {
    int good = 1;
    for (int deep = 0; deep <= 1; deep++) {
        reach(deep, 0);
        good &= in_range(some_state);
        EACH_CALL(STEP_BACK)
        for (size_t bit = 0; bit < 8 * SCA_STATE_BYTES; bit++) {
            int ranged;
            lend_all(which);
            state.at[bit / 8] ^= (uint8_t)(1 << bit % 8);
            ranged = in_range(state.at);
            unsigned number = number_of(which, &good);
            good &= (number == SCA_BAD_STATE) == !ranged;
        }
    }
    check(good, "states with any one bit flipped");
}

/* A step back on the newest slot with one byte altered: the state that its record then restores, or 4. */
static int altered_back(const uint8_t *handed_in, size_t at, uint8_t byte) {
    uint8_t expected[SCA_STATE_BYTES], *slot;
    int good = 1;
    unsigned due, number;
    lend_all(STEP_BACK);
    memcpy(state.at, handed_in, sizeof expected);
    memcpy(expected, handed_in, sizeof expected);
    slot = slot_of(journal.at, journal.at[6] - 1u);
    slot[at] = byte;
    due = restored(slot, expected) ? SCA_NO_FRAME : SCA_BAD_JOURNAL;
    number = number_of(STEP_BACK, &good);
    return good && number == due && memcmp(state.at, expected, sizeof expected) == 0;
}

/* Records of every tag, over the state that they went with and over one that they did not: nothing or much in its registers. */
static void altered_records(void) {
    static uint8_t states[2][SCA_STATE_BYTES];
    int bits = 1, others = 1, tags = 1;
    for (int deep = 0; deep <= 1; deep++) {
        reach(deep, 0);
        memcpy(states[deep], some_state, sizeof some_state);
    }
    for (int deep = 0; deep <= 1; deep++)
        for (uint8_t tag = 0; tag <= 3; tag++) {
            uint8_t slot[SLOT_BYTES];
            reach(deep, tag);
            memcpy(slot, slot_of(some_journal, some_journal[6] - 1u), sizeof slot);
            bits &= slot[0] == tag;
            for (at_end = 0; at_end <= 1; at_end++) {
                for (size_t bit = 0; bit < 8 * SLOT_BYTES; bit++) {
                    uint8_t byte = (uint8_t)(slot[bit / 8] ^ 1 << bit % 8);
                    bits &= altered_back(some_state, bit / 8, byte);
                    if (bit / 8 < 1 + CORE_BYTES + GROUP_MOST) others &= altered_back(states[!deep], bit / 8, byte);
                }
                for (unsigned other = 0; other <= 0xFF; other++)
                    tags &= altered_back(some_state, 0, (uint8_t)other) && altered_back(states[!deep], 0, (uint8_t)other);
            }
        }
    check(bits, "records of each tag with any one bit flipped, and their slots");
    check(others, "and over a state that they did not go with");
    check(tags, "every tag, over both");
}

/* The newest record in every slot of the ring, the last of them right before a guard page. No other slot holds one. */
static void records_in_each_slot(void) {
    uint8_t newest[SLOT_BYTES], expected[SCA_STATE_BYTES];
    int good = 1;
    for (uint8_t tag = 0; tag <= 3; tag++) {
        unsigned before;
        reach(1, tag);
        before = some_journal[6] - 1u; /* records that stand before it */
        memcpy(newest, slot_of(some_journal, before), sizeof newest);
        for (at_end = 0; at_end <= 1; at_end++)
            for (unsigned slot = 0; slot < format->slots; slot++) {
                unsigned number;
                lend_all(STEP_BACK);
                memcpy(expected, state.at, sizeof expected);
                memset(journal.at + SLOTS_AT, 0xEE, SLOT_BYTES * (size_t)format->slots);
                memcpy(journal.at + SLOTS_AT + SLOT_BYTES * (size_t)slot, newest, sizeof newest);
                journal.at[5] = (uint8_t)((slot + format->slots - before) % format->slots);
                good &= newest[0] == tag && restored(newest, expected);
                number = number_of(STEP_BACK, &good);
                good &= number == SCA_NO_FRAME && memcmp(state.at, expected, sizeof expected) == 0;
            }
    }
    check(good, "the newest record in each slot");
}

/* The newest record over states that it did not go with. Each expectation is worked out from what was played. */
static void records_apart(void) {
    static uint8_t deep[SCA_STATE_BYTES], expected[SCA_STATE_BYTES];
    int good = 1;
    reach(1, 0);
    memcpy(deep, some_state, sizeof deep);
    for (at_end = 0; at_end <= 1; at_end++) {
        unsigned number;
        /* a new adapter's events: CRB, CRC and CRD are off, and of the registers that they switch, those not in the record are not 0 */
        for (uint8_t tag = 0; tag <= 3; tag++) {
            reach(0, tag);
            lend_all(STEP_BACK);
            memcpy(state.at, deep, sizeof deep);
            number = number_of(STEP_BACK, &good);
            good &= number == SCA_BAD_JOURNAL;
        }

        /* where only those in the record are not 0, it has their zeros, so that all is as at power-on but the chip ID */
        for (uint8_t tag = 1; tag <= 3; tag++) {
            reach(0, tag);
            lend_all(STEP_BACK);
            memcpy(state.at, deep, GROUPS_AT);
            memset(state.at + GROUPS_AT, 0, SCA_STATE_BYTES - GROUPS_AT);
            memcpy(state.at + group_at(tag), deep + group_at(tag), group_bytes(tag));
            number = number_of(STEP_BACK, &good);
            sca_create(expected, sizeof expected, SCA_ID_MOST);
            good &= number == SCA_NO_FRAME && memcmp(state.at, expected, sizeof expected) == 0;
        }

        /* the other way round: all are on, and the registers stay those of a new adapter */
        reach(1, 0);
        lend_all(STEP_BACK);
        sca_create(state.at, state.length, 0x123456);
        number = number_of(STEP_BACK, &good);
        memcpy(expected, deep, sizeof expected);
        memset(expected + 8, 0, 4); /* the SEU counter before its upset */
        memcpy(expected + 16, "\x56\x34\x12\x00", 4);
        memset(expected + GROUPS_AT, 0, SCA_STATE_BYTES - GROUPS_AT);
        good &= number == SCA_NO_FRAME && memcmp(state.at, expected, sizeof expected) == 0;
    }
    check(good, "what a record has not got is that of the state handed in, and 4 where that is no state");
}

/* That each leaves the record of its tag, number_of looks at. The bodies stand right before a guard page: a short one has no CH or CMD. */
static void records_of_frames(void) {
    static const uint8_t commands[] = {0x01, 0x02, 0x04, 0x06, 0x10, 0x30, 0x72, 0x86, 0xDE, 0xF1};
    static const uint8_t fronts[][2] = {{0x00, 0x02}, {0x00, 0x04}, {0x00, 0x01}, {0x00, 0x2F}, {0x00, 0x8F}, {0xFF, 0x02}};
    int good = 1;
    reach(1, 0);
    at_end = 1;
    for (unsigned to = 0; to <= 0xFF; to++)
        for (unsigned at = 0; at < (to ? sizeof commands : 0x100); at++) {
            lend_all(FRAME);
            lend_bytes(&body, "\x00\x00\x0A\x00\x04\x00\x00\xFE\x00\x00", 10);
            body.at[1] = (uint8_t)(2 * some_state[1]); /* in sequence, so that the request is heard */
            body.at[3] = (uint8_t)to, body.at[5] = to ? commands[at] : (uint8_t)at;
            unsigned number = number_of(FRAME, &good);
            good &= !sca_refused(number) && state.at[1] == (some_state[1] + 1) % 8;
        }
    check(good, "the records of requests to every channel");
    good = 1;
    for (size_t length = SCA_BODY_LEAST; length <= SCA_BODY_MOST; length++)
        for (uint8_t to = 0; to <= 3; to++)
            for (uint8_t command = 0; command <= 7; command++)
                for (size_t front = 0; front < sizeof fronts / sizeof fronts[0]; front++)
                    for (uint32_t on = SCA_PRIMARY; on <= SCA_AUXILIARY; on++) {
                        uint8_t bytes[SCA_BODY_MOST] = {fronts[front][0], fronts[front][1], 0x0A, to, 0x04, command};
                        lend_all(FRAME);
                        port = on;
                        lend_bytes(&body, bytes, length);
                        unsigned number = number_of(FRAME, &good);
                        good &= !sca_refused(number);
                    }
    check(good, "and of frames of every length, whatever comes of them");
}

static void lengths_of_states(void) {
    static const size_t lengths[] = {0, MASTERS_AT, SCA_STATE_BYTES - 1, SCA_STATE_BYTES, SCA_STATE_BYTES + 1};
    int good = 1;
    for (size_t at = 0; at < sizeof lengths / sizeof lengths[0]; at++) {
        size_t length = lengths[at];
        EACH_CALL(STEP_BACK) {
            lend_all(which);
            memset(lend(&state, length), 0, length);
            unsigned number = number_of(which, &good);
            good &= (number == SCA_BAD_STATE) == (length != SCA_STATE_BYTES);
        }
        for (at_end = 0; at_end <= 1; at_end++)
            for (uint32_t id = SCA_ID_MOST; id <= SCA_ID_MOST + 1; id++) {
                unsigned number = length != SCA_STATE_BYTES ? SCA_BAD_STATE : id > SCA_ID_MOST ? SCA_BAD_ID : SCA_NO_FRAME;
                lend(&state, length);
                note(&state);
                good &= sca_create(state.at, length, id) == number;
                good &= unchanged_after(&state, number == SCA_NO_FRAME ? length : 0);
            }
    }
    check(good, "states one byte short and long, of none, and as before there were masters");
}

static void arguments(void) {
    int bodies = 1, transfers = 1, transactions = 1, ports = 1, kinds = 1, channels = 1;
    for (at_end = 0; at_end <= 1; at_end++) {
        for (size_t length = 0; length <= 20; length++) {
            lend_all(FRAME);
            lend(&body, length);
            bodies &= (number_of(FRAME, &bodies) == SCA_BAD_BODY) == (length < 2 || length > 16);
            lend_all(COMPLETION);
            lend(&received, length);
            transfers &= (number_of(COMPLETION, &transfers) == SCA_BAD_ARGUMENT) == (length != 16);
            lend_all(I2C);
            lend(&received, length);
            transactions &= number_of(I2C, &transactions) == (length > 16 ? SCA_BAD_ARGUMENT : SCA_HAS_FRAME);
        }
        for (unsigned at = 0; at <= 0x3FF; at++) {
            uint32_t value = at <= 0x2FF ? at : 0xFFFFFC00 + at; /* 0 to 767, then the last 256 numbers of 32 bits */
            lend_all(FRAME);
            port = value;
            ports &= (number_of(FRAME, &ports) == SCA_BAD_ARGUMENT) == (value > 1);
            lend_all(SAMPLE);
            kind = value;
            kinds &= (number_of(SAMPLE, &kinds) == SCA_BAD_ARGUMENT) == (value > 2);
            lend_all(I2C);
            channel = value;
            channels &= (number_of(I2C, &channels) == SCA_BAD_ARGUMENT) == (value < SCA_I2C_FIRST || value > SCA_I2C_LAST);
        }
        for (unsigned bit = 8; bit < 32; bit++) { /* one bit above a low byte that would do */
            lend_all(FRAME);
            port = (uint32_t)1 << bit | SCA_AUXILIARY;
            ports &= number_of(FRAME, &ports) == SCA_BAD_ARGUMENT;
            lend_all(SAMPLE);
            kind = (uint32_t)1 << bit | SCA_STROBE_FALLING;
            kinds &= number_of(SAMPLE, &kinds) == SCA_BAD_ARGUMENT;
            lend_all(I2C);
            channel = (uint32_t)1 << bit | 0x05;
            channels &= number_of(I2C, &channels) == SCA_BAD_ARGUMENT;
        }
    }
    check(bodies, "bodies of 0 to 20 bytes");
    check(transfers, "completions of 0 to 20 bytes");
    check(transactions, "I2C completions of 0 to 20 bytes");
    check(ports, "every port up to 767, and those of one more bit");
    check(kinds, "every edge kind up to 767, and those of one more bit");
    check(channels, "every I2C channel up to 767, and those of one more bit");
}

/* A read of each NBYTE that gets each number of bytes, the last of them right before a guard page: what DATA then holds. */
static void receptions(void) {
    const size_t master = MASTERS_AT + MASTER_BYTES * (0x05 - SCA_I2C_FIRST), data = master + 5;
    int good = 1;
    for (at_end = 0; at_end <= 1; at_end++)
        for (unsigned count = 1; count <= SCA_I2C_MOST; count++)
            for (unsigned length = 0; length <= SCA_I2C_MOST; length++)
                for (unsigned way = 0; way < 4; way++) {
                    uint8_t was[16];
                    lend_all(I2C);
                    acknowledge = way & 1, line_low = way & 2;
                    state.at[master + 1] = (uint8_t)(count << 2);
                    for (unsigned k = 0; k < 16; k++) state.at[data + k] = (uint8_t)(0xA0 + k);
                    memcpy(was, state.at + data, sizeof was);
                    lend(&received, length);
                    unsigned number = number_of(I2C, &good);
                    good &= number == SCA_HAS_FRAME;
                    for (unsigned k = 0; k < 16; k++) {
                        unsigned at = 4 * (k / 4) + 3 - k % 4;
                        uint8_t due = k >= count || way != 1 ? was[at] : k < length ? received.at[k] : 0;
                        good &= state.at[data + at] == due;
                    }
                }
    check(good, "I2C reads of 1 to 16 bytes that get 0 to 16, ended in each way");
}

/* Of several reasons to refuse, the first in the order 6, 4, 1, 3, 2. */
static void order(void) {
    int good = 1;
    for (at_end = 0; at_end <= 1; at_end++)
        for (unsigned wrong = 1; wrong < 32; wrong++) {
            unsigned first = wrong & 1 ? 6 : wrong & 2 ? 4 : wrong & 4 ? 1 : wrong & 8 ? 3 : 2;
            lend_all(FRAME);
            if (wrong & 1) state.at[1] = 8;
            if (wrong & 2) journal.at[0] = 0;
            if (wrong & 4) lend(&output, SCA_OUTPUT_LEAST - 1);
            if (wrong & 8) port = at_end ? 256 : 2;
            if (wrong & 16) lend(&body, SCA_BODY_MOST + 1);
            unsigned number = number_of(FRAME, &good);
            good &= number == first;
        }
    check(good, "of several reasons the first in order");
}

/* The same for an I2C completion: 6, 4, 1, 3, the last for its channel or its bytes. */
static void i2c_order(void) {
    int good = 1;
    for (at_end = 0; at_end <= 1; at_end++)
        for (unsigned wrong = 1; wrong < 32; wrong++) {
            unsigned first = wrong & 1 ? 6 : wrong & 2 ? 4 : wrong & 4 ? 1 : 3;
            lend_all(I2C);
            if (wrong & 1) state.at[MASTERS_AT + 2] = 0x80;
            if (wrong & 2) journal.at[0] = 0;
            if (wrong & 4) lend(&output, SCA_OUTPUT_LEAST - 1);
            if (wrong & 8) channel = at_end ? 256 : SCA_I2C_LAST + 1;
            if (wrong & 16) lend(&received, SCA_I2C_MOST + 1);
            unsigned number = number_of(I2C, &good);
            good &= number == first;
        }
    check(good, "and at an I2C completion");
}

/* A batch's samples, lent: every one interrupts up to this many, and then none does. In the state that was reached, lines 0 and 1 interrupt on
 * rising: first line 0 rises, then line 1 while line 0 falls, and so on. */
static struct sca_pin_sample *lend_swinging(size_t all, size_t swinging) {
    struct sca_pin_sample *lent = lend_samples(all);
    for (size_t at = 0; at < all; at++) {
        lent[at].levels = (at < swinging ? at : swinging - 1) % 2 + 1;
        lent[at].kind = SCA_SYSTEM_CLOCK;
    }
    return lent;
}

/* The greatest batch fills the least output: its last body ends right before a guard page, and so does the list. */
static void batches(void) {
    int counts = 1, frames = 1, kinds = 1;
    for (at_end = 0; at_end <= 1; at_end++) {
        for (size_t all = 0; all <= SCA_SAMPLES_MOST + 1; all++) {
            unsigned due = all == 0 ? SCA_NO_FRAME : all <= SCA_SAMPLES_MOST ? SCA_HAS_FRAME : SCA_BAD_ARGUMENT, number;
            lend_all(SAMPLES);
            lend_swinging(all, all);
            number = number_of(SAMPLES, &counts);
            counts &= number == due && (number != SCA_HAS_FRAME || sca_frames(given) == all);
        }
        for (size_t swinging = 1; swinging <= SCA_SAMPLES_MOST; swinging++) {
            unsigned number;
            lend_all(SAMPLES);
            lend_swinging(SCA_SAMPLES_MOST, swinging);
            number = number_of(SAMPLES, &frames);
            frames &= number == SCA_HAS_FRAME && sca_frames(given) == swinging && sca_sum(given) == swinging;
        }
        for (size_t all = 1; all <= SCA_SAMPLES_MOST; all += 51) /* 1, 52, .. and 256 */
            for (size_t place = 0; place < all; place++) {
                uint32_t wrong = place % 2 ? SCA_STROBE_FALLING + 1 : (uint32_t)1 << (8 + place % 24) | SCA_STROBE_RISING;
                unsigned number;
                lend_all(SAMPLES);
                lend_swinging(all, all)[place].kind = wrong;
                number = number_of(SAMPLES, &kinds);
                kinds &= number == SCA_BAD_ARGUMENT;
            }
    }
    check(counts, "batches of 0 to 257 samples, of which every one interrupts");
    check(frames, "batches of 256 samples, of which 1 to 256 interrupt");
    check(kinds, "a wrong kind in any place of a batch");
}

/* Of several reasons to refuse a batch: 6, 4, 1, 3, the last for a kind or for one sample too many. */
static void batch_order(void) {
    int good = 1;
    for (at_end = 0; at_end <= 1; at_end++)
        for (unsigned wrong = 1; wrong < 32; wrong++) {
            unsigned first = wrong & 1 ? 6 : wrong & 2 ? 4 : wrong & 4 ? 1 : 3, number;
            size_t all = wrong & 16 ? SCA_SAMPLES_MOST + 1 : SCA_SAMPLES_MOST;
            lend_all(SAMPLES);
            lend_swinging(all, all)[all - 1].kind = !(wrong & 8) ? SCA_SYSTEM_CLOCK : at_end ? 256 : 3;
            if (wrong & 1) state.at[1] = 8;
            if (wrong & 2) journal.at[0] = 0;
            if (wrong & 4) lend(&output, SCA_BATCH_LEAST - 1);
            number = number_of(SAMPLES, &good);
            good &= number == first;
        }
    check(good, "and at a batch");
}

static void no_buffers(void) {
    static struct lent *const buffers[] = {&state, &journal, &output, &body, &received, &list};
    static const unsigned numbers[] = {6, 4, 1, 2, 3, SCA_NO_FRAME};
    int good = 1;
    at_end = 0;
    for (enum call which = FRAME; which < CALLS; which++)
        for (size_t at = 0; at < sizeof buffers / sizeof buffers[0]; at++) {
            struct lent *none = buffers[at];
            int used = none == &state || none == &journal || (none == &output && which != STEP_BACK) || (none == &body && which == FRAME) ||
                       (none == &received && which == COMPLETION) || (none == &list && which == SAMPLES);
            unsigned got;
            lend_all(which);
            none->at = NULL, none->length = 0;
            got = number_of(which, &good);
            good &= used ? got == numbers[at] : got == SCA_HAS_FRAME || got >= 11;
        }
    good &= sca_create(NULL, 0, 0) == SCA_BAD_STATE && sca_receiver_new(NULL, 0) == SCA_BAD_STATE;
    good &= sca_empty(NULL, 0) == SCA_BAD_JOURNAL && sca_kept(NULL, 0) == SCA_BAD_JOURNAL;
    good &= sca_samples(NULL, 0, NULL, 0, NULL, 0, NULL, 0) == SCA_BAD_STATE;
    good &= sca_transmit(NULL, 0, NULL, 0) == SCA_BAD_BODY && sca_receive(NULL, 0, NULL, 0, 0, NULL, 0) == SCA_BAD_STATE;
    lend(&receiver, SCA_RECEIVER_BYTES);
    lend(&output, SCA_OUTPUT_LEAST);
    sca_receiver_new(receiver.at, receiver.length);
    good &= sca_receive(receiver.at, receiver.length, NULL, 0, 0, output.at, output.length) == SCA_NO_FRAME;
    good &= sca_receive(receiver.at, receiver.length, NULL, 0, 0, NULL, 0) == SCA_SHORT_OUTPUT;
    check(good, "NULL with length 0 for each buffer");
}

/* --------------------------------------------------------------- enlarging */

/* Whether second is as it must be: a header, and the slots of the events kept, the oldest in slot 0. Every other byte
 * of its room is as it was. */
static int second_as_left(void) {
    uint8_t *due = second.was + (second.at - second.room);
    memcpy(due, "\x53\x43\x4A\x02\x00\x00", 6);
    due[6] = journal.at[6];
    for (unsigned k = 0; k < journal.at[6]; k++)
        memcpy(due + SLOTS_AT + SLOT_BYTES * k, slot_of(journal.at, k), SLOT_BYTES);
    return unchanged(&second);
}

/* The number that sca_enlarge gives, and whether it left what it must. */
static unsigned enlarging(int *good) {
    uint64_t result;
    note(&journal), note(&second);
    writable(&journal, 0);
    result = sca_enlarge(journal.at, journal.length, second.at, second.length);
    writable(&journal, 1);
    *good &= result == sca_number(result) && unchanged(&journal);
    *good &= sca_refused(result) ? unchanged(&second) : second_as_left();
    return sca_number(result);
}

/* For each place of the journal, and of the second buffer. */
#define EACH_END \
    for (int journal_end = 0; journal_end <= 1; journal_end++) \
        for (int second_end = 0; second_end <= 1; second_end++)

static void lend_journals(int journal_end, size_t length, int second_end, size_t second_length) {
    at_end = journal_end;
    lend_bytes(&journal, some_journal, length);
    at_end = second_end;
    lend(&second, second_length);
}

/* Lengths around both sizes for either buffer, with a journal of each size cut or with more behind it. */
static void lengths_at_enlarging(void) {
    static const size_t lengths[] = {0, 1, 7, 1024, 17407, 17408, 17409, 52223, 52224, 52225};
    enum { LENGTHS = sizeof lengths / sizeof lengths[0] };
    for (unsigned of_large = 0; of_large <= 1; of_large++) {
        int good = 1;
        use(of_large ? &large : &small);
        reach(1, 0);
        journal = large_room;
        EACH_END
        for (size_t at = 0; at < LENGTHS; at++)
            for (size_t second_at = 0; second_at < LENGTHS; second_at++) {
                size_t length = lengths[at], second_length = lengths[second_at];
                unsigned number, due = second_length == 52224 ? SCA_NO_FRAME : SCA_SHORT_OUTPUT;
                if (of_large || length != 17408) due = SCA_BAD_JOURNAL;
                lend_journals(journal_end, length, second_end, second_length);
                number = enlarging(&good);
                good &= number == due;
            }
        check(good, of_large ? "a large journal, cut and padded, into each" : "both buffers of 0 to 52,225 bytes");
    }
}

/* A header's every byte in each place. A large journal is refused, whatever stands there. */
static void headers_at_enlarging(void) {
    for (unsigned of_large = 0; of_large <= 1; of_large++) {
        int good = 1;
        use(of_large ? &large : &small);
        reach(1, 0);
        EACH_END
        for (size_t at = 0; at < 8; at++)
            for (unsigned byte = 0; byte <= 0xFF; byte++) {
                unsigned number, due = of_large || wrong_header(at, byte) ? SCA_BAD_JOURNAL : SCA_NO_FRAME;
                lend_journals(journal_end, format->bytes, second_end, large.bytes);
                journal.at[at] = (uint8_t)byte;
                number = enlarging(&good);
                good &= number == due;
            }
        check(good, of_large ? "in a large one's header, which is refused" : "every byte in each place of its header");
    }
}

/* The last slot of the small journal stands right before a guard page. */
static void rings_at_enlarging(void) {
    int good = 1;
    use(&small);
    reach(1, 0);
    EACH_END
    for (unsigned first = 0; first <= 63; first++)
        for (unsigned kept = 0; kept <= 64; kept++) {
            unsigned number;
            lend_journals(journal_end, small.bytes, second_end, large.bytes);
            memcpy(journal.at + SLOTS_AT, rubbish + 7, SLOT_BYTES * 64);
            journal.at[5] = (uint8_t)first, journal.at[6] = (uint8_t)kept;
            number = enlarging(&good);
            good &= number == SCA_NO_FRAME;
        }
    check(good, "every first slot and kept number, whatever the slots hold");
}

static void no_buffers_at_enlarging(void) {
    int good = 1;
    unsigned number;
    use(&small);
    reach(1, 0);
    lend_journals(0, small.bytes, 0, large.bytes);
    journal.at = NULL, journal.length = 0;
    number = enlarging(&good);
    good &= number == SCA_BAD_JOURNAL;
    lend_journals(0, small.bytes, 0, large.bytes);
    second.at = NULL, second.length = 0;
    number = enlarging(&good);
    good &= number == SCA_SHORT_OUTPUT && sca_enlarge(NULL, 0, NULL, 0) == SCA_BAD_JOURNAL;
    check(good, "NULL with length 0 for either journal");
}

/* A reading's number, and whether it left what it must. */
static unsigned reading(size_t start, int *good) {
    uint64_t result;
    note(&receiver), note(&input), note(&output);
    writable(&input, 0);
    result = sca_receive(receiver.at, receiver.length, input.at, input.length, start, output.at, output.length);
    writable(&input, 1);
    *good &= unchanged_after(&receiver, sca_refused(result) ? 0 : SCA_RECEIVER_BYTES);
    *good &= unchanged(&input) && unchanged_after(&output, sca_length(result));
    *good &= !sca_refused(result) || result == sca_number(result);
    *good &= start + sca_consumed(result) <= 8 * input.length || sca_refused(result);
    return sca_number(result);
}

static void lend_link(void) {
    sca_receiver_new(lend(&receiver, SCA_RECEIVER_BYTES), SCA_RECEIVER_BYTES);
    lend_bytes(&input, "\x7E\x00\x2F\xFF\xFF\x7E", 6);
    lend(&output, SCA_OUTPUT_LEAST);
}

static void receivers(void) {
    int lengths = 1, outputs = 1, inputs = 1, starts = 1, bits = 1;
    for (at_end = 0; at_end <= 1; at_end++) {
        for (size_t length = SCA_RECEIVER_BYTES - 1; length <= SCA_RECEIVER_BYTES + 1; length++) {
            unsigned number = length == SCA_RECEIVER_BYTES ? SCA_NO_FRAME : SCA_BAD_STATE;
            lend_link();
            lend(&receiver, length);
            note(&receiver);
            lengths &= sca_receiver_new(receiver.at, length) == number;
            lengths &= unchanged_after(&receiver, number == SCA_NO_FRAME ? length : 0);
            memset(lend(&receiver, length), 0, length);
            lengths &= (reading(0, &lengths) == SCA_BAD_STATE) == (number == SCA_BAD_STATE);
        }
        for (size_t bit = 0; bit < 8 * SCA_RECEIVER_BYTES; bit++) {
            lend_link();
            receiver.at[bit / 8] ^= (uint8_t)(1 << bit % 8);
            reading(0, &bits);
        }
        for (size_t length = 0; length <= 25; length++) {
            lend_link();
            lend(&output, length);
            outputs &= (reading(0, &outputs) == SCA_SHORT_OUTPUT) == (length < SCA_OUTPUT_LEAST);
        }
        for (size_t length = SCA_INPUT_MOST; length <= SCA_INPUT_MOST + 1; length++) {
            lend_link();
            lend(&input, length);
            inputs &= (reading(0, &inputs) == SCA_LONG_INPUT) == (length > SCA_INPUT_MOST);
            inputs &= (reading(8 * length - 3, &inputs) == SCA_LONG_INPUT) == (length > SCA_INPUT_MOST);
        }
        for (size_t start = 0; start <= 50; start++) {
            lend_link();
            starts &= (reading(start, &starts) == SCA_BAD_START) == (start > 48);
            lend_link();
            starts &= reading(SIZE_MAX - start, &starts) == SCA_BAD_START;
        }
    }
    check(lengths, "receivers one byte short and long");
    check(bits, "receivers with any one bit flipped");
    check(outputs, "a receiver's outputs of 0 to 25 bytes");
    check(inputs, "inputs of 65,536 and 65,537 bytes");
    check(starts, "start bits around the end, and far past it");
}

static void transmitters(void) {
    int good = 1;
    for (at_end = 0; at_end <= 1; at_end++)
        for (size_t length = 0; length <= 20; length++)
            for (size_t room = 0; room <= 25; room++) {
                unsigned number = length < 2 || length > 16 ? SCA_BAD_BODY : room < SCA_CABLE_MOST ? SCA_SHORT_OUTPUT : SCA_HAS_FRAME;
                uint64_t result;
                memset(lend(&body, length), 0xFF, length);
                lend(&output, room);
                note(&body), note(&output);
                writable(&body, 0);
                result = sca_transmit(body.at, length, output.at, room);
                writable(&body, 1);
                good &= sca_number(result) == number && sca_count(result) <= SCA_CABLE_MOST;
                good &= unchanged(&body) && unchanged_after(&output, sca_count(result));
                good &= !sca_refused(result) || result == number;
            }
    check(good, "a transmitter's bodies of 0 to 20 and outputs of 0 to 25 bytes");
}

/* --------------------------------------------------------- the control room */

enum room_call { REQUEST, REPLY, COMMAND, ROOM_CALLS };

/* The command of a request, whose channel is `channel`, and the control of a command of the link. */
static uint32_t code, control;

static uint64_t room_call(enum room_call which) {
    switch (which) {
    case REQUEST:
        return sca_request(record.at, record.length, channel, code, 0x12345678, output.at, output.length);
    case REPLY:
        return sca_reply(record.at, record.length, body.at, body.length, output.at, output.length);
    default:
        return sca_command(record.at, record.length, control, output.at, output.length);
    }
}

/* The tables of commands: document 01's, and of 2026-01 for the masters. */
static const struct {
    uint8_t first, last, many, codes[24];
} tables[] = {
    {0x00, 0x00, 6, {0x02, 0x03, 0x04, 0x05, 0x06, 0x07}},
    {0x01, 0x01, 15, {0x00, 0x01, 0x10, 0x11, 0x20, 0x21, 0x30, 0x31, 0x40, 0x41, 0x50, 0x51, 0x60, 0x61, 0x72}},
    {0x02, 0x02, 17, {0x01, 0x10, 0x11, 0x20, 0x21, 0x30, 0x31, 0x40, 0x41, 0x60, 0x61, 0x70, 0x71, 0x80, 0x81,
                      0x90, 0x91}},
    {0x03, 0x12, 24, {0x11, 0x20, 0x21, 0x30, 0x31, 0x40, 0x41, 0x50, 0x51, 0x60, 0x61, 0x70, 0x71, 0x82, 0x86,
                      0x8A, 0x8E, 0xC2, 0xC6, 0xCA, 0xDA, 0xDE, 0xE2, 0xE6}},
    {0x13, 0x13, 2, {0xF0, 0xF1}},
    {0x14, 0x14, 1, {0xD1}},
    {0x15, 0x15, 8, {0x10, 0x11, 0x20, 0x21, 0x30, 0x31, 0x40, 0x41}},
};
enum { TABLES = sizeof tables / sizeof tables[0], MASTERS = 3 };

static int listed(uint32_t to, uint32_t command) {
    for (size_t row = 0; row < TABLES; row++)
        if (to >= tables[row].first && to <= tables[row].last)
            return command <= 0xFF && memchr(tables[row].codes, (int)command, tables[row].many) != NULL;
    return 0;
}

static int is_free(const uint8_t *bytes, size_t trn) { return bytes[2 * trn] == 0 && bytes[2 * trn + 1] == 0; }

/* Number 6, on a record's bytes as docs/RECORD.md lists them. */
static int record_in_range(const uint8_t *bytes) {
    for (size_t trn = 0x01; trn <= 0xFE; trn++)
        if (!is_free(bytes, trn) && !listed(bytes[2 * trn], bytes[2 * trn + 1])) return 0;
    return bytes[0] <= 7 && bytes[1] == 0;
}

/* The lowest free TRN, or 0xFF. */
static size_t free_trn(const uint8_t *bytes) {
    size_t trn = 0x01;
    while (trn <= 0xFE && !is_free(bytes, trn)) trn++;
    return trn;
}

/* What a call that is not refused makes of a record, and the bytes that it writes to the output; it gives how many. */
static size_t room_due(enum room_call which, uint8_t *bytes, uint8_t *written) {
    size_t trn;
    if (which == COMMAND) {
        written[0] = 0x00, written[1] = (uint8_t)control;
        if ((control & 0xEF) != SCA_TEST) bytes[0] = 0;
        return 2;
    }
    trn = which == REQUEST ? free_trn(bytes) : body.at[2];
    if (which == REQUEST) {
        /* LEN is not looked at here. */
        uint8_t due[] = {0x00, (uint8_t)(2 * bytes[0]), (uint8_t)trn, (uint8_t)channel, output.at[4], (uint8_t)code};
        memcpy(written, due, sizeof due), memcpy(written + sizeof due, "\x34\x12\x78\x56", 4);
        bytes[0] = (bytes[0] + 1) % 8;
        if (trn <= 0xFE) bytes[2 * trn] = (uint8_t)channel, bytes[2 * trn + 1] = (uint8_t)code;
        return SCA_REPLY_BYTES;
    }
    written[0] = body.at[2], written[1] = body.at[3], written[2] = 0, written[3] = body.at[4], written[4] = body.at[5];
    written[5] = body.at[8], written[6] = body.at[9], written[7] = body.at[6], written[8] = body.at[7];
    if (trn <= 0xFE) written[2] = bytes[2 * trn + 1], bytes[2 * trn] = bytes[2 * trn + 1] = 0;
    return SCA_ANSWER_BYTES;
}

/* The call's number, and whether it left what it must: all where it is refused, else each byte that it has to write,
 * and no other one. */
static unsigned room_number_of(enum room_call which, int *good) {
    uint64_t result;
    note(&record), note(&body), note(&output);
    writable(&body, 0);
    given = result = room_call(which);
    writable(&body, 1);
    *good &= unchanged(&body);
    if (sca_refused(result)) {
        *good &= unchanged(&record) && unchanged(&output) && result == sca_number(result);
    } else {
        uint8_t bytes[SCA_RECORD_BYTES], written[SCA_REPLY_BYTES];
        size_t many;
        memcpy(bytes, record.was + (record.at - record.room), sizeof bytes);
        many = room_due(which, bytes, written);
        *good &= sca_length(result) == many && memcmp(output.at, written, many) == 0 && unchanged_after(&output, many);
        *good &= memcmp(record.at, bytes, sizeof bytes) == 0 && unchanged_after(&record, sizeof bytes);
        *good &= sca_interrupt(result) == (which == REPLY && body.at[2] == 0xFF);
    }
    return sca_number(result);
}

/* All as it must be for a call to be granted. Open is the last TRN alone, so that a request takes the first one; or
 * all but the last are, with commands of every channel. The reply is to an open one, the last or the first. */
static void lend_room(int many) {
    uint8_t bytes[SCA_RECORD_BYTES] = {7}, sent[] = {0x00, 0x20, 0x01, 0x00, 0x00, 0x04, 0x34, 0x12, 0x78, 0x56};
    for (size_t trn = many ? 0x01 : 0xFE; trn <= (many ? 0xFD : 0xFE); trn++) {
        size_t row = trn % TABLES;
        bytes[2 * trn] = (uint8_t)(tables[row].first + (row == MASTERS ? trn % 16 : 0));
        bytes[2 * trn + 1] = tables[row].codes[trn % tables[row].many];
    }
    sent[2] = many ? 0x01 : 0xFE, sent[3] = bytes[2 * sent[2]];
    channel = 0x02, code = 0x01, control = SCA_CONNECT;
    lend_bytes(&record, bytes, sizeof bytes);
    lend_bytes(&body, sent, sizeof sent);
    lend(&output, SCA_OUTPUT_LEAST);
}

/* For each place of the buffers, and each of the two records. */
#define EACH_ROOM \
    for (at_end = 0; at_end <= 1; at_end++) \
        for (int many = 0; many <= 1; many++)
#define EACH_ROOM_CALL EACH_ROOM for (enum room_call which = REQUEST; which < ROOM_CALLS; which++)

static void lengths_in_the_room(void) {
    static const size_t lengths[] = {0, 1, 2, 508, 509, 510, 511, 512};
    int records = 1, outputs = 1, bodies = 1, made = 1;
    EACH_ROOM_CALL {
        for (size_t at = 0; at < sizeof lengths / sizeof lengths[0]; at++) {
            size_t length = lengths[at];
            uint8_t bytes[512] = {0};
            lend_room(many);
            memcpy(bytes, record.at, SCA_RECORD_BYTES);
            lend_bytes(&record, bytes, length);
            unsigned number = room_number_of(which, &records);
            records &= number == (length == SCA_RECORD_BYTES ? SCA_HAS_FRAME : SCA_BAD_STATE);
        }
        for (size_t length = 0; length <= 25; length++) {
            lend_room(many);
            lend(&output, length);
            unsigned number = room_number_of(which, &outputs);
            outputs &= number == (length < SCA_OUTPUT_LEAST ? SCA_SHORT_OUTPUT : SCA_HAS_FRAME);
        }
    }
    EACH_ROOM
    for (size_t length = 0; length <= 20; length++) {
        uint8_t bytes[20] = {0};
        lend_room(many);
        memcpy(bytes, body.at, SCA_REPLY_BYTES);
        lend_bytes(&body, bytes, length);
        unsigned number = room_number_of(REPLY, &bodies);
        bodies &= number == (length == SCA_REPLY_BYTES ? SCA_HAS_FRAME : SCA_BAD_REPLY);
    }
    for (at_end = 0; at_end <= 1; at_end++)
        for (size_t at = 0; at < sizeof lengths / sizeof lengths[0]; at++) {
            size_t length = lengths[at];
            int right = length == SCA_RECORD_BYTES;
            lend(&record, length);
            note(&record);
            made &= sca_record_new(record.at, length) == (right ? SCA_NO_FRAME : SCA_BAD_STATE);
            made &= unchanged_after(&record, right ? length : 0) && (!right || all_zero(record.at, 0, length - 1));
        }
    check(records, "records of 0 to 2 and of 508 to 512 bytes, in each call of the control room");
    check(made, "and in sca_record_new");
    check(outputs, "its outputs of 0 to 25 bytes");
    check(bodies, "replies of 0 to 20 bytes");
}

static void arguments_in_the_room(void) {
    int channels = 1, commands = 1, controls = 1;
    EACH_ROOM
    for (unsigned at = 0; at <= 0x3FF + 24; at++) {
        /* 0 to 767, the last 256 numbers of 32 bits, then one bit above a low byte that would do */
        uint32_t value = at <= 0x2FF ? at : 0xFFFFFC00 + at, bit = at <= 0x3FF ? 0 : (uint32_t)1 << (at - 0x400 + 8);
        unsigned number;
        lend_room(many);
        channel = bit ? bit | 0x02 : value;
        number = room_number_of(REQUEST, &channels);
        channels &= number == (listed(channel, code) ? SCA_HAS_FRAME : SCA_NO_COMMAND);
        lend_room(many);
        code = bit ? bit | 0x01 : value;
        number = room_number_of(REQUEST, &commands);
        commands &= number == (listed(channel, code) ? SCA_HAS_FRAME : SCA_NO_COMMAND);
        lend_room(many);
        control = bit ? bit | SCA_CONNECT : value;
        number = room_number_of(COMMAND, &controls);
        value = control & ~(uint32_t)SCA_POLL;
        controls &= number == (value == 0x2F || value == 0x8F || value == 0xE3 ? SCA_HAS_FRAME : SCA_NO_COMMAND);
    }
    check(channels, "a request's channels up to 767, and those of one more bit");
    check(commands, "its commands");
    check(controls, "and the controls of commands of the link");
}

static void bits_of_records(void) {
    int good = 1;
    EACH_ROOM_CALL
    for (size_t bit = 0; bit < 8 * SCA_RECORD_BYTES; bit++) {
        lend_room(many);
        record.at[bit / 8] ^= (uint8_t)(1 << bit % 8);
        int ranged = record_in_range(record.at);
        unsigned number = room_number_of(which, &good);
        good &= (number == SCA_BAD_STATE) == !ranged;
    }
    check(good, "records with any one bit flipped");
}

/* TRN 0x00 would stand where the frame number does, and 0xFF behind the record. */
static void replies_in_the_room(void) {
    int good = 1;
    EACH_ROOM
    for (unsigned trn = 0; trn <= 0xFF; trn++)
        for (unsigned from = 0; from <= 0x17; from++) {
            lend_room(many);
            body.at[2] = (uint8_t)trn, body.at[3] = (uint8_t)from;
            int interrupt = trn == 0xFF && from == 0x02;
            int open = trn >= 0x01 && trn <= 0xFE && !is_free(record.at, trn) && record.at[2 * trn] == from;
            unsigned number = room_number_of(REPLY, &good);
            good &= number == (interrupt || open ? SCA_HAS_FRAME : SCA_NO_MATCH);
        }
    check(good, "replies of every TRN, from the channels up to 0x17");
}

/* Every TRN is the one that is free; and none is. */
static void free_in_the_room(void) {
    int good = 1;
    for (at_end = 0; at_end <= 1; at_end++)
        for (size_t trn = 0x01; trn <= 0xFF; trn++) {
            lend_room(1);
            record.at[508] = 0x15, record.at[509] = 0x41;
            if (trn <= 0xFE) record.at[2 * trn] = record.at[2 * trn + 1] = 0;
            unsigned number = room_number_of(REQUEST, &good);
            good &= number == (trn <= 0xFE ? SCA_HAS_FRAME : SCA_ALL_OPEN);
        }
    check(good, "each TRN the only free one, and none free");
}

/* Of several reasons to refuse: 6, 1, 35, 31; 6, 1, 33, 32; 6, 1, 35. */
static void order_in_the_room(void) {
    static const unsigned third[] = {SCA_NO_COMMAND, SCA_BAD_REPLY, SCA_NO_COMMAND};
    static const unsigned last[] = {SCA_ALL_OPEN, SCA_NO_MATCH, SCA_HAS_FRAME};
    int good = 1;
    EACH_ROOM_CALL
    for (unsigned wrong = 0; wrong < 16; wrong++) {
        unsigned first = wrong & 1 ? 6 : wrong & 2 ? 1 : wrong & 4 ? third[which] : wrong & 8 ? last[which] : 0;
        lend_room(many);
        if (wrong & 1) record.at[0] = 8;
        if (wrong & 2) lend(&output, SCA_OUTPUT_LEAST - 1);
        if (wrong & 4) code = at_end ? 0x101 : 0x02, control = at_end ? 0x12F : 0x2E;
        if (wrong & 8) { /* all are open; to another channel than the reply's */
            memset(record.at + 2, 0x11, SCA_RECORD_BYTES - 2);
            body.at[3] = 0x12;
        }
        if (wrong & 4) lend_bytes(&body, "\x00\x20\x01\x12\x00\x04\x00\x00\x00", 9);
        unsigned number = room_number_of(which, &good);
        good &= number == first;
    }
    check(good, "of several reasons the first in order, in the control room");
}

static void no_buffers_in_the_room(void) {
    static struct lent *const buffers[] = {&record, &output, &body};
    static const unsigned numbers[] = {SCA_BAD_STATE, SCA_SHORT_OUTPUT, SCA_BAD_REPLY};
    int good = sca_record_new(NULL, 0) == SCA_BAD_STATE && sca_request(NULL, 0, 0, 0, 0, NULL, 0) == SCA_BAD_STATE;
    good &= sca_reply(NULL, 0, NULL, 0, NULL, 0) == SCA_BAD_STATE && sca_command(NULL, 0, 0, NULL, 0) == SCA_BAD_STATE;
    EACH_ROOM_CALL
    for (size_t at = 0; at < sizeof buffers / sizeof buffers[0]; at++) {
        int used = buffers[at] != &body || which == REPLY;
        lend_room(many);
        buffers[at]->at = NULL, buffers[at]->length = 0;
        unsigned number = room_number_of(which, &good);
        good &= number == (used ? numbers[at] : SCA_HAS_FRAME);
    }
    check(good, "NULL with length 0 for each buffer of the control room");
}

/* Whether a program is stopped that writes here. */
static int guarded(volatile uint8_t *at) {
    int status = 0;
    pid_t child = fork();
    if (child == 0) {
        signal(SIGSEGV, SIG_DFL);
        signal(SIGBUS, SIG_DFL);
        *at = 0;
        _exit(0);
    }
    return child > 0 && waitpid(child, &status, 0) == child && WIFSIGNALED(status);
}

static void guards(void) {
    int good = 1;
    at_end = 0;
    good &= guarded(lend(&output, 20) - 1) && !guarded(output.at) && !guarded(output.at + 19);
    at_end = 1;
    good &= guarded(lend(&output, 20) + 20) && !guarded(output.at) && !guarded(output.at + 19);
    writable(&output, 0);
    good &= guarded(output.at);
    writable(&output, 1);
    check(good, "the guards stop who touches them");
}

static void map_all(void) {
    make_rubbish();
    state = between_guards(SCA_STATE_BYTES + 1);
    small_room = between_guards(SCA_JOURNAL_BYTES + 1);
    large_room = between_guards(SCA_LARGE_JOURNAL_BYTES + 1);
    second = between_guards(SCA_LARGE_JOURNAL_BYTES + 1);
    output = between_guards(SCA_BATCH_LEAST + 1);
    body = between_guards(20);
    received = between_guards(20);
    list = between_guards((SCA_SAMPLES_MOST + 1) * sizeof(struct sca_pin_sample));
    receiver = between_guards(SCA_RECEIVER_BYTES + 1);
    input = between_guards(SCA_INPUT_MOST + 1);
    record = between_guards(SCA_RECORD_BYTES + 2);
    signal(SIGSEGV, touched);
    signal(SIGBUS, touched);
}

static void lay_out(int other) {
    use(other ? &large : &small);
    reach(1, 0);
}

/* What is done with a journal is done with one of each size. */
static void with_each_journal(void) {
    static void (*const tests[])(void) = {
        lengths_of_outputs,
        lengths_of_journals,
        headers_of_journals,
        lengths_of_states,
        arguments,
        receptions,
        order,
        i2c_order,
        batch_order,
        batches,
        no_buffers,
        bits_of_states,
        altered_records,
        records_in_each_slot,
        records_apart,
        records_of_frames,
    };
    with_each_size(tests, sizeof tests / sizeof tests[0], lay_out);
}

int main(void) {
    map_all();
    guards();
    with_each_journal();
    about = "enlarging: ";
    lengths_at_enlarging();
    headers_at_enlarging();
    rings_at_enlarging();
    no_buffers_at_enlarging();
    about = "";
    receivers();
    transmitters();
    lengths_in_the_room();
    arguments_in_the_room();
    bits_of_records();
    replies_in_the_room();
    free_in_the_room();
    order_in_the_room();
    no_buffers_in_the_room();
    return failures != 0;
}
