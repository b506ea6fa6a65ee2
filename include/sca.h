/*
 * sca.h - a software stand-in for the GBT-SCA slow control adapter
 *
 * SYNOPSIS
 *     #include "sca.h"
 *     cc program.c libsca.a
 *
 *     For x86-64 with the System V calling convention, as on Linux; for C99 and
 *     later, and C++. Of the C library the archive needs memcpy and memset, and nothing else.
 *
 * DESCRIPTION
 *     The link reads frames from the bits of a cable (sca_receive) and writes
 *     them (sca_transmit). The adapter is the chip: it takes events (sca_frame,
 *     sca_completion, sca_i2c_completion, sca_sample, sca_upset), gives what the
 *     chip would send, and can take events back (sca_step_back), up to 64 of them
 *     with a small journal and up to 200 with a large one. Pin samples may also come
 *     by the batch (sca_samples). The control room is the other end of the link: it
 *     writes the bodies of requests (sca_request) and of the link's commands
 *     (sca_command), and reads replies and interrupts (sca_reply), from the same
 *     tables of commands as the chip.
 *
 *     The library keeps nothing: whatever lasts from call to call stands in
 *     bytes that the caller lends. It allocates nothing, opens nothing and
 *     holds no lock, so that calls on different buffers may run side by side.
 *     No call takes more than 768 bytes of stack, arguments and return
 *     address among them. (In a program that looks names of the C library up at
 *     their first use, the linker takes some thousands once, in the first call
 *     that comes to memcpy or memset: link it statically or with -z now where
 *     that is too much.)
 *
 *     A buffer is a pointer and its length in bytes; a list of samples is a
 *     pointer and how many they are. A pointer whose length or count is 0 is not
 *     read and may be NULL. What is lent to one call must not overlap. No call
 *     touches a byte outside of what is lent to it. Every other argument may have
 *     any value, and every call ends.
 *
 *     Bits go least significant first: bit n of a cable buffer is bit n % 8
 *     of its byte n / 8.
 *
 * RETURN VALUE
 *     Each call but sca_version gives one 64-bit result. sca_number reads the
 *     number in it, one of the table below, and sca_text has the number in
 *     words. What else stands in a result, the call's own text says, with the
 *     function that reads it.
 *
 *     A call whose number is 1 to 10, or 31 to 35, is refused: every byte that was
 *     lent is as it was, and the result holds nothing beside the number. Of several
 *     reasons to refuse, the number is of the one that the call's text names
 *     first.
 */
#ifndef SCA_H
#define SCA_H

#include <stddef.h>
#include <stdint.h>

#ifdef __cplusplus
extern "C" {
#endif

/* ------------------------------------------------------------------ version */

/* The version that this header is of, 1.5.0: major << 16 | minor << 8 | patch. */
#define SCA_VERSION 0x010500

/* ------------------------------------------------------------------ numbers */

enum {
    SCA_HAS_FRAME = 0,        /* a frame was read or sent (by a batch: one or more), or the control room wrote or read a
                                 body: its bytes stand at the front of output */

    /* refused: nothing has changed */
    SCA_SHORT_OUTPUT = 1,     /* the output is under SCA_OUTPUT_LEAST (sca_transmit: SCA_CABLE_MOST, sca_samples:
                                 SCA_BATCH_LEAST) bytes; sca_enlarge: the second buffer is not
                                 SCA_LARGE_JOURNAL_BYTES */
    SCA_BAD_BODY = 2,         /* the body is not SCA_BODY_LEAST to SCA_BODY_MOST bytes */
    SCA_BAD_ARGUMENT = 3,     /* the port is not 0 or 1, the edge kind is over 2, an SPI completion is not 16 bytes,
                                 an I2C completion is of a channel that is not I2C, or over 16 bytes, or a batch
                                 has over SCA_SAMPLES_MOST samples */
    SCA_BAD_JOURNAL = 4,      /* the journal's length, mark, version or layout is wrong; sca_enlarge: it is not a small
                                 one */
    SCA_NONE_KEPT = 5,        /* the kept number is 0: there is no event to take back */
    SCA_BAD_STATE = 6,        /* the state, the receiver or the record of open transactions has another length, or a
                                 field out of range */
    SCA_BAD_ID = 7,           /* the chip ID is over SCA_ID_MOST */
    SCA_LONG_INPUT = 8,       /* the receiver's input is over SCA_INPUT_MOST bytes */
    SCA_BAD_START = 9,        /* the start bit is over 8 times the bytes of the input */
    SCA_UNREADABLE = 10,      /* a line of a bench listing is not readable; no call of this library gives it */

    /* done: the adapter dropped the event, and no register has changed */
    SCA_OTHER_ADDRESS = 11,   /* the address is not 0x00 */
    SCA_OTHER_PORT = 12,      /* the port is not the active one */
    SCA_OTHER_CONTROL = 13,   /* a control with bit 0 set that is no CONNECT, RESET or TEST */
    SCA_BAD_INFORMATION = 14, /* the information is not 8 bytes, or not empty with CONNECT, RESET or TEST */
    SCA_NOT_BUSY = 15,        /* a completion when its channel, SPI or an I2C master, has nothing open */
    SCA_LINES_DISABLED = 16,  /* a pin sample with GPIO disabled */

    SCA_NO_FRAME = 17,        /* done, and there is no frame */

    /* done: the receiver dropped a frame and has moved on */
    SCA_LONG_CONTENT = 21,    /* content of over 144 bits */
    SCA_BROKEN_CONTENT = 22,  /* content of a number of bits that is no multiple of 8 */
    SCA_WRONG_FCS = 23,       /* content whose FCS is wrong */
    SCA_ABORTED = 24,         /* seven ones after at least 32 bits of content */

    /* refused by a call of the control room: nothing has changed */
    SCA_ALL_OPEN = 31,        /* no TRN is free: all SCA_TRANSACTIONS_MOST transactions are open */
    SCA_NO_MATCH = 32,        /* the reply matches no open transaction */
    SCA_BAD_REPLY = 33,       /* the reply's body is not SCA_REPLY_BYTES bytes */
    SCA_NO_COMMAND = 35       /* the tables have no such command */
};

/* -------------------------------------------------------------------- sizes */

#define SCA_BODY_LEAST 2        /* the bytes of the shortest body */
#define SCA_BODY_MOST 16        /* the bytes of the longest body */
#define SCA_CABLE_MOST 24       /* the bytes of the longest frame on the cable: the least output of sca_transmit */
#define SCA_INPUT_MOST 65536    /* the most bytes of cable in one call of sca_receive */
#define SCA_OUTPUT_LEAST 16     /* the least output of sca_receive, of an event and of the control room's calls */
#define SCA_REPLY_BYTES 10      /* the bytes of a request, a reply and an interrupt, so of each body that a batch sends */
#define SCA_SAMPLES_MOST 256    /* the most samples of a batch */
#define SCA_BATCH_LEAST 2560    /* the least output of a batch, however few its samples */
#define SCA_TRANSFER_BYTES 16   /* the bytes received in an SPI transfer, whatever its length */
#define SCA_I2C_MOST 16         /* the most bytes received in an I2C transaction */
#define SCA_ID_MOST 0xFFFFFF    /* the greatest chip ID */
#define SCA_RECEIVER_BYTES 24   /* a receiver */
#define SCA_STATE_BYTES 411     /* an adapter's state */
#define SCA_JOURNAL_BYTES 17408 /* a small journal */
#define SCA_KEPT_MOST 64        /* the most events that it can take back */
#define SCA_LARGE_JOURNAL_BYTES 52224 /* a large journal */
#define SCA_LARGE_KEPT_MOST 200 /* the most events that it can take back */
#define SCA_RECORD_BYTES 510    /* a record of open transactions */
#define SCA_TRANSACTIONS_MOST 254 /* the most transactions that can be open at once */
#define SCA_ANSWER_BYTES 9      /* what sca_reply writes of a reply or an interrupt */

/* ---------------------------------------------------------------- arguments */

enum {
    SCA_PRIMARY = 0,            /* ports */
    SCA_AUXILIARY = 1,

    SCA_SYSTEM_CLOCK = 0,       /* edge kinds */
    SCA_STROBE_RISING = 1,
    SCA_STROBE_FALLING = 2,

    SCA_I2C_FIRST = 0x03,       /* the channels of the sixteen I2C masters, from this one */
    SCA_I2C_LAST = 0x12,        /* to this one */

    SCA_CONNECT = 0x2F,         /* the link's commands: controls that sca_command takes */
    SCA_RESET = 0x8F,
    SCA_TEST = 0xE3,
    SCA_POLL = 0x10             /* or this added to one of them: its bit 4, acknowledged with 00 73 */
};

/* A pin sample of a batch: 8 bytes, with no gap. */
struct sca_pin_sample {
    uint32_t levels;            /* bit n is the level of line n */
    uint32_t kind;              /* an edge kind */
};

/* --------------------------------------------------------- reading a result */

/* The number: any call but sca_version. */
static inline unsigned sca_number(uint64_t result) { return (unsigned)(result & 0xFF); }

/* Whether the call was refused and so changed nothing: any call but sca_version. */
static inline int sca_refused(uint64_t result) {
    unsigned number = sca_number(result);
    return (number >= 1 && number <= 10) || (number >= 31 && number <= 35);
}

/* The bytes of the body that was written, 2 to 16, or 0 where there is none: sca_receive and the events. Those of each
   body, SCA_REPLY_BYTES, or 0 where there is none: sca_samples. The bytes written, or 0: sca_request, sca_reply and
   sca_command. */
static inline size_t sca_length(uint64_t result) { return (size_t)((result >> 8) & 0xFF); }

/* The bits read from the start bit on, the deciding bit among them: sca_receive. */
static inline size_t sca_consumed(uint64_t result) { return (size_t)(result >> 16); }

/* The port that the body leaves on, or 0 where there is none: the events. That of all bodies: sca_samples. */
static inline uint32_t sca_port(uint64_t result) { return (uint32_t)((result >> 16) & 0xFF); }

/* The bodies that were written, 0 to SCA_SAMPLES_MOST: sca_samples. */
static inline size_t sca_frames(uint64_t result) { return (size_t)((result >> 24) & 0xFFFF); }

/* The lines that fired, added up over the interrupts: the ones in the data of all bodies written. sca_samples. */
static inline uint32_t sca_sum(uint64_t result) { return (uint32_t)(result >> 40); }

/* Whether an interrupt was read, and no reply: sca_reply. */
static inline int sca_interrupt(uint64_t result) { return (int)((result >> 16) & 1); }

/* The data, D[31:0], of what sca_reply wrote. */
static inline uint32_t sca_answer_data(const uint8_t *answer) {
    return (uint32_t)answer[5] | (uint32_t)answer[6] << 8 | (uint32_t)answer[7] << 16 | (uint32_t)answer[8] << 24;
}

/* The bytes of cable that were written, at most SCA_CABLE_MOST: sca_transmit. */
static inline size_t sca_count(uint64_t result) { return (size_t)(result >> 8); }

/* The events that can be taken back, 0 to SCA_KEPT_MOST or, by a large journal, SCA_LARGE_KEPT_MOST: sca_kept. */
static inline unsigned sca_kept_in(uint64_t result) { return (unsigned)((result >> 8) & 0xFF); }

/* A number in words; "unknown number" for one that is none. */
static inline const char *sca_text(unsigned number) {
    switch (number) {
    case SCA_HAS_FRAME: return "a frame was read or sent, or a body written or read";
    case SCA_SHORT_OUTPUT:
        return "the output is under 16 bytes (transmitter: under 24, batch: under 2,560), or the second buffer of an enlarging "
               "is not 52,224";
    case SCA_BAD_BODY: return "the body is not 2 to 16 bytes";
    case SCA_BAD_ARGUMENT:
        return "the port is not 0 or 1, the edge kind is over 2, the channel is not I2C, the completion is not 16 bytes (I2C: "
               "over 16), or the batch is over 256 samples";
    case SCA_BAD_JOURNAL: return "the journal's length, mark, version or layout is wrong (enlarging: it is not a small one)";
    case SCA_NONE_KEPT: return "the kept number is 0";
    case SCA_BAD_STATE: return "the state, the receiver or the record of open transactions has another length, or a field out of range";
    case SCA_BAD_ID: return "the chip ID is over 0xFFFFFF";
    case SCA_LONG_INPUT: return "the receiver's input is over 65,536 bytes";
    case SCA_BAD_START: return "the start bit is over 8 times the bytes";
    case SCA_UNREADABLE: return "the line is not readable";
    case SCA_OTHER_ADDRESS: return "dropped: the address is not 0x00";
    case SCA_OTHER_PORT: return "dropped: the port is not active";
    case SCA_OTHER_CONTROL: return "dropped: the control has bit 0 set and is not CONNECT, RESET or TEST";
    case SCA_BAD_INFORMATION: return "dropped: the information is not as long as the control asks";
    case SCA_NOT_BUSY: return "dropped: a completion came when its channel was not busy";
    case SCA_LINES_DISABLED: return "dropped: a pin sample came with GPIO disabled";
    case SCA_NO_FRAME: return "done, and there is no frame";
    case SCA_LONG_CONTENT: return "the receiver dropped a frame: its content is over 144 bits";
    case SCA_BROKEN_CONTENT: return "the receiver dropped a frame: its content is not a multiple of 8 bits";
    case SCA_WRONG_FCS: return "the receiver dropped a frame: its FCS is wrong";
    case SCA_ABORTED: return "the receiver dropped a frame: seven ones broke it off";
    case SCA_ALL_OPEN: return "no TRN is free: all 254 transactions are open";
    case SCA_NO_MATCH: return "the reply matches no open transaction";
    case SCA_BAD_REPLY: return "the reply's body is not 10 bytes";
    case SCA_NO_COMMAND: return "the tables have no such command";
    default: return "unknown number";
    }
}

/* -------------------------------------------------------------- the library */

/*
 * sca_version - the version of the library
 *
 * Gives SCA_VERSION of the header that the library was made with, and no number
 * of the table. A program that finds another value than its own SCA_VERSION was
 * built with the header of another version.
 */
uint64_t sca_version(void);

/* ----------------------------------------------------------------- the link
 *
 * A receiver is SCA_RECEIVER_BYTES of the caller's. Keep them as they are from
 * call to call:
 *
 *     uint8_t receiver[SCA_RECEIVER_BYTES], body[SCA_OUTPUT_LEAST];
 *     size_t start = 0;
 *     uint64_t result;
 *     sca_receiver_new(receiver, sizeof receiver);
 *     do {
 *         result = sca_receive(receiver, sizeof receiver, cable, length, start, body, sizeof body);
 *         start += sca_consumed(result);
 *         if (sca_number(result) == SCA_HAS_FRAME)
 *             take(body, sca_length(result));
 *     } while (sca_number(result) != SCA_NO_FRAME && !sca_refused(result));
 *
 * They may be copied, kept in a file and handed in again. Byte by byte:
 *
 *     byte     field    range                    meaning
 *     0        mode     0 or 1                   0: hunting for a flag
 *                                                1: in a frame that a flag has opened
 *     1        ones     hunting: 0 to 7          the ones read since the last zero; 7: a run
 *                       in a frame: 0 to 6       that can begin no flag, as at the start
 *     2        lead     hunting: 0               1: the zero in front of this run is content
 *                       in a frame: 0 or 1       0: it is a flag's, or a stuffed one
 *     3        count    hunting: 0               the bits of content that are kept
 *                       in a frame: 0 to 152
 *     4 to 23  content  bits from count on: 0    bit n of the content is bit n % 8 of byte
 *                                                4 + n / 8
 *
 * In a frame, lead + (ones, but at most 5) is at most count. Bytes in these
 * ranges are taken, all others refused with 6; every call that is not refused
 * leaves bytes in them. Of the content, all bits after the opening flag are kept
 * up to the 152nd, but for stuffed zeros and the sixth one of a run.
 */

/*
 * sca_receiver_new - a receiver that hunts for its first flag
 *
 * Writes the receiver's bytes, whatever they held before: 0, 7, then zeros.
 *
 * Number: 17 (SCA_NO_FRAME), or refused:
 *     6  receiver_length is not SCA_RECEIVER_BYTES
 */
uint64_t sca_receiver_new(uint8_t *receiver, size_t receiver_length);

/*
 * sca_receive - reads cable bits up to the first answer
 *
 * Reads input from bit start on, and stops at the first answer or where the
 * bits run out. To read a whole buffer, call again with start raised by
 * sca_consumed until the number is 17; the receiver carries an unfinished
 * frame over to the next buffer, which may begin at any bit. A start at the
 * very end of the input reads no bit and gives 17.
 *
 * Number, with sca_consumed and sca_length:
 *     0   a frame; its body of sca_length bytes stands at the front of output
 *     17  the bits ran out
 *     21  a flag ended content of over 144 bits
 *     22  ... of a number of bits that is no multiple of 8
 *     23  ... whose FCS is wrong
 *     24  seven ones broke a frame off after at least 32 bits of content
 * or refused:
 *     6   receiver_length is not SCA_RECEIVER_BYTES, or a field is out of range
 *     8   input_length is over SCA_INPUT_MOST
 *     9   start is over 8 * input_length
 *     1   output_length is under SCA_OUTPUT_LEAST
 *
 * Content of under 32 bits is passed over without an answer. After 0 and 21
 * to 23 the flag has opened the next frame; after 24 the receiver hunts. No
 * byte of output changes but those of a body.
 */
uint64_t sca_receive(uint8_t *receiver, size_t receiver_length, const uint8_t *input, size_t input_length, size_t start,
                     uint8_t *output, size_t output_length);

/*
 * sca_transmit - a body as a frame on the cable
 *
 * Writes flag, body and FCS with a zero after each five ones, flag, then ones
 * to fill the last byte. Bytes of output after those written are unchanged.
 *
 * Number, with sca_count:
 *     0  sca_count bytes were written
 * or refused:
 *     2  body_length is not SCA_BODY_LEAST to SCA_BODY_MOST
 *     1  output_length is under SCA_CABLE_MOST, however short the frame
 */
uint64_t sca_transmit(const uint8_t *body, size_t body_length, uint8_t *output, size_t output_length);

/* -------------------------------------------------------------- the adapter
 *
 * An adapter is a state and a journal, both the caller's bytes. The journal is
 * small or large, as its length says:
 *
 *     uint8_t state[SCA_STATE_BYTES], journal[SCA_LARGE_JOURNAL_BYTES], output[SCA_OUTPUT_LEAST];
 *     sca_create(state, sizeof state, 0x00000A);
 *     sca_empty(journal, sizeof journal);
 *     result = sca_frame(state, sizeof state, journal, sizeof journal, SCA_PRIMARY, body, body_length,
 *                        output, sizeof output);
 *     if (sca_number(result) == SCA_HAS_FRAME)
 *         send(sca_port(result), output, sca_length(result));
 *
 * THE EVENTS
 *     They are sca_frame, sca_completion, sca_i2c_completion, sca_sample and
 *     sca_upset; sca_samples is many pin samples at once, and its text says how it
 *     differs. Each writes the body that it sends at the front of output; no other
 *     byte of output changes.
 *
 *     Number of every event, with sca_length and sca_port:
 *         0         a body of sca_length bytes is to leave on port sca_port
 *         11 to 16  the event was dropped: no register has changed
 *         17        done, and nothing is to be sent
 *     or refused:
 *         6         state_length is not SCA_STATE_BYTES, or a field of the state
 *                   is out of range, as the tables of its bytes below say
 *         4         journal_length is neither SCA_JOURNAL_BYTES nor
 *                   SCA_LARGE_JOURNAL_BYTES, or the journal's mark, version or
 *                   layout is wrong
 *         1         output_length is under SCA_OUTPUT_LEAST
 *         3, then 2 the event's own arguments, as its text says
 *
 * THE STATE
 *     It holds all that lasts: link numbers, port, loopback, registers, an open
 *     GO, the open I2C starts, the SEU counter and the chip ID. It may be copied,
 *     kept in a file and handed in again. Byte by byte; a field of several bytes
 *     has its lowest byte first, so that bit n of it is bit n % 8 of its byte
 *     n / 8:
 *
 *         byte      field                                channel  range
 *         0         send number                                   0 to 7
 *         1         receive number                                0 to 7
 *         2         active port                                   0 or 1
 *         3         port 0 is in loopback: 1                      0 or 1
 *         4         port 1 is in loopback: 1                      0 or 1
 *         5         CRB                                  0x00     bit 0 is 0
 *         6         CRC                                  0x00
 *         7         CRD                                  0x00     bits 7 to 5 are 0
 *         8 to 11   SEU counter                          0x13
 *         12 to 15  DAC A, B, C, D                       0x15
 *         16 to 18  chip ID, byte 16 its bits 7 to 0     0x14
 *         19        chip ID, bits 31 to 24               0x14     0
 *         20, 21    CONTROL                              0x01
 *         22, 23    FREQ                                 0x01
 *         24        SS                                   0x01
 *         25 to 40  DATA, words 0 to 3                   0x01
 *         41        TRN of the open GO; 0: none is open  0x01
 *         42 to 45  DATAOUT                              0x02
 *         46 to 49  DATAIN                               0x02
 *         50 to 53  DIRECTION                            0x02
 *         54 to 57  INTSEL                               0x02
 *         58 to 61  INTTRIG                              0x02
 *         62 to 65  INTS                                 0x02
 *         66 to 69  CLKSEL                               0x02
 *         70 to 73  EDGESEL                              0x02
 *         74        INTENABLE                            0x02     0 or 1
 *
 *     Then the sixteen I2C masters, 21 bytes each. Those of channel 0x03 + n
 *     stand from m = 75 + 21 * n on, the last ones up to byte 410:
 *
 *         byte              field                                   range
 *         m                 MASK
 *         m + 1             CTRL
 *         m + 2             STATUS                                  bits 7, 4, 1, 0 are 0
 *         m + 3             TRN of the open start; 0: none is open
 *         m + 4             CMD of the open start; 0: none is open  0 or that of a start
 *         m + 5 to m + 8    DATA, bytes 3, 2, 1, 0
 *         m + 9 to m + 12   DATA, bytes 7, 6, 5, 4
 *         m + 13 to m + 16  DATA, bytes 11, 10, 9, 8
 *         m + 17 to m + 20  DATA, bytes 15, 14, 13, 12
 *
 *     Byte k of DATA is at m + 5 + 4 * (k / 4) + 3 - k % 4: a word stands as it does
 *     in D, where its first byte is on top. TRN and CMD of the open start are both 0
 *     or both not, and while a multi-byte start is open, NBYTE of CTRL is 1 to 16.
 *
 *     While SPI, GPIO or an I2C master is disabled, all fields of its channel are
 *     0. Which bit enables it, the tables of the commands say. A state of any other
 *     length, or that is not in these ranges, is refused with 6, and no other is.
 *     Every call that is not refused leaves a state in range.
 *
 *     A state that a version before 1.2.0 of the library left has another length:
 *     6. Make a new one with sca_create.
 *
 * THE JOURNAL
 *     It holds what sca_step_back needs. Every event that is not refused is kept
 *     in it, dropped ones too; of over SCA_KEPT_MOST events, in a large journal
 *     SCA_LARGE_KEPT_MOST, the oldest is given up. An accepted RESET empties the
 *     journal instead. An event and a step back cost the same in both.
 *
 *     The length decides: SCA_JOURNAL_BYTES is a small journal, version 1, and
 *     SCA_LARGE_JOURNAL_BYTES a large one, version 2. sca_empty makes either; a
 *     small one becomes large, with the events that it keeps, by sca_enlarge.
 *
 *     A journal belongs to the state that went with it: hand both in as the last
 *     call left them, or copies of both that were taken at the same moment. A
 *     step back is for such a pair: a record holds what its event may change,
 *     and all else stays as it is in the state handed in.
 *
 *         byte          small                          large
 *         0 to 2        the mark: 0x53 0x43 0x4A, "SCJ", in both
 *         3, 4          the version: 0x01 0x00         0x02 0x00
 *         5             the first slot, 0 to 63        0 to 199
 *         6             the kept number, 0 to 64       0 to 200
 *         7 to 1023     not read and not written, in both
 *         1024 to end   64 slots of 256 bytes for the  200 slots
 *                       records
 *
 *     The records are the library's own and for sca_step_back alone; another
 *     version may lay them out otherwise. Number 4 means: a length that is neither,
 *     or one of bytes 0 to 6 that is not as the table says for this length: so
 *     version 2 in a small journal, or version 1 in a large one.
 *     sca_step_back also gives it where the record that it would take back is
 *     damaged, or would leave the state handed in out of range. No journal that
 *     the calls themselves left is refused with the state that went with it.
 *
 *     What 1.2.0 and later versions of the library left, state and journal, is good
 *     as it is; before 1.5.0 every journal was small, and a large one is refused
 *     there with 4. A journal of a version before 1.2.0 is a small one too by its
 *     length, mark and version, but has other records, and no call can tell. Make it
 *     empty with sca_empty first.
 *
 * THE CHIP
 *     A body is address, control, information. Address 0x00 is the chip's. The
 *     controls 0x2F and 0x3F are CONNECT, 0x8F and 0x9F RESET, 0xE3 and 0xF3
 *     TEST; they come without information on either port and are acknowledged
 *     with 00 63, or 00 73 where bit 4 was set. CONNECT makes its port active,
 *     zeroes both link numbers and ends loopback on both ports; RESET does the
 *     same and sets all registers and the SEU counter to power-on, not the chip
 *     ID; TEST puts its own port in loopback, where any other body to address
 *     0x00 without bit 0 of control comes back unchanged.
 *
 *     A request is a numbered frame on the active port: control bits 3 to 1 are
 *     the receive number, which then goes up by one modulo 8; another is dropped
 *     and SREJ goes out, control 0x0D plus 32 times the receive number. A
 *     request's information is TRN, CH, LEN, CMD, D[23:16], D[31:24], D[7:0],
 *     D[15:8]. A reply has ERR, LEN in place of LEN, CMD; its control is twice
 *     the send number, which then goes up, plus 32 times the receive number. An
 *     interrupt is a reply with TRN 0xFF, CH 0x02, LEN 4 and INTS as its data.
 *     Data that a reply does not use is 0, and what a request does not use is not
 *     read.
 *
 *     ERR is 0, or the first of these; the reply then has LEN 2 and zero data, and
 *     no register has changed, but for INVCOM of an I2C master with 0x04:
 *         0x08  TRN is 0x00 or 0xFF
 *         0x02  CH is none of the tables below
 *         0x20  the channel is not enabled
 *         0x40  the channel is busy: a GO is open, or a start of this I2C master
 *         0x04  CMD is none of the channel's
 *         0x10  LEN is not the one that the table asks, or NBYTE is not 1 to 16 at
 *               a multi-byte I2C start
 *
 *     Commands in hex, the write and the read of a register as 40/41, and LEN
 *     asked/given. CRB bit 0 and CRD bits 7 to 5 read 0 whatever was written. A
 *     write that disables SPI, GPIO or an I2C master zeroes all fields of its
 *     channel: an open GO or start is dropped, and its reply never comes. RESET
 *     drops them too, CONNECT does not.
 *
 *         CH    enabled by  commands                               LEN
 *         0x00  always      CRB 02/03, CRC 04/05, CRD 06/07        write 4/2
 *                           in D[31:24]                            read 2/4
 *         0x01  CRB bit 1   CONTROL 40/41, FREQ 50/51 in D[15:0];  write 6/2
 *         SPI               SS 60/61 in D[7:0]; DATA words 0 to 3  read 2/6
 *                           00/01, 10/11, 20/21, 30/31; GO 72      GO 2/6
 *         0x02  CRB bit 2   DATAOUT 10/11, DIRECTION 20/21,        write 4/2
 *         GPIO              INTSEL 30/31, INTTRIG 40/41,           read 1/4
 *                           INTS 70/71, CLKSEL 80/81,
 *                           EDGESEL 90/91; INTENABLE 60/61 in
 *                           D[0]; read DATAIN 01
 *         0x03  the I2C masters, below
 *         to
 *         0x12
 *         0x13  CRD bit 3   SEU counter: read F1, clear F0         read 4/4
 *                                                                  clear 4/2
 *         0x14  CRD bit 4   chip ID: read D1, D[23:0]              4/4
 *         0x15  always      DAC A, B, C, D 10/11, 20/21, 30/31,    write 4/1
 *                           40/41 in D[7:0]                        read 1/4
 *
 * THE I2C MASTERS
 *     CRB bits 3 to 7 enable the channels 0x03 to 0x07, CRC bits 0 to 7 0x08 to
 *     0x0F, CRD bits 0 to 2 0x10 to 0x12. They work side by side, and each has
 *
 *         MASK    8 bits, kept and read back
 *         CTRL    8 bits, kept and read back; bits 6 to 2 are NBYTE
 *         STATUS  bit 2 SUCC, bit 3 LEVERR, bit 5 INVCOM, bit 6 NOACK; read alone
 *         DATA    bytes 0 to 15
 *
 *     and the commands
 *
 *         MASK 20/21, CTRL 30/31 in D[31:24]                   write 1/0, read 0/1
 *         STATUS: read 11, D[31:24]                            0/1
 *         DATA 40/41 (bytes 0 to 3), 50/51 (4 to 7),           write 4/0, read 0/4
 *         60/61 (8 to 11), 70/71 (12 to 15), the first byte
 *         in D[31:24], the last in D[7:0]
 *
 *         starts                               address of 7 bits  of 10 bits
 *         a byte is written                    82 4/4             8A 6/4
 *         a byte is read                       86 4/4             8E 4/4
 *         multi-byte: NBYTE bytes are written  DA 4/6             E2 2/2
 *         multi-byte: NBYTE bytes are read     DE 4/4             E6 2/2
 *         read-modify-write: AND, OR, XOR      C2, C6, CA 2/2
 *
 *     A start gives 17 and makes its channel busy; what it would send on the bus
 *     shows nowhere, and its data is not read. Its reply comes with
 *     sca_i2c_completion, which also sets SUCC, LEVERR and NOACK. INVCOM is set
 *     where a request is answered with 0x04, and stays until the channel is disabled
 *     or a RESET comes; it hinders nothing.
 */

/*
 * sca_create - the state of a new adapter
 *
 * Writes the state at power-on, whatever the bytes held before: port 0 active,
 * no loopback, all registers and numbers 0, and this chip ID.
 *
 * Number: 17 (SCA_NO_FRAME), or refused:
 *     6  state_length is not SCA_STATE_BYTES
 *     7  id is over SCA_ID_MOST
 */
uint64_t sca_create(uint8_t *state, size_t state_length, uint32_t id);

/*
 * sca_empty - an empty journal
 *
 * Writes bytes 0 to 6, whatever the journal held before: those of a small journal
 * or of a large one, as journal_length says.
 *
 * Number: 17 (SCA_NO_FRAME), or refused:
 *     4  journal_length is neither SCA_JOURNAL_BYTES nor SCA_LARGE_JOURNAL_BYTES
 */
uint64_t sca_empty(uint8_t *journal, size_t journal_length);

/*
 * sca_kept - how many events can be taken back
 *
 * Number, with sca_kept_in:
 *     17  sca_kept_in events can be taken back
 * or refused:
 *     4   as by the events
 */
uint64_t sca_kept(const uint8_t *journal, size_t journal_length);

/*
 * sca_enlarge - a small journal as a large one
 *
 * Makes second a large journal that keeps the same events as the small journal,
 * with the same kept number, whatever second held before. The small one is left
 * as it was. The two must not overlap.
 *
 *     uint8_t second[SCA_LARGE_JOURNAL_BYTES];
 *     result = sca_enlarge(journal, sizeof journal, second, sizeof second);
 *
 * Hand second to every call from then on. Events and steps back give what they
 * would have given with the small one, up to the first step back that the small
 * one would refuse with 5; sca_kept goes on counting to SCA_LARGE_KEPT_MOST. Events
 * that the small one had given up before do not come back. The small one still
 * goes with the state of this moment, and with no later one.
 *
 * Only the header of the small journal is looked at: a record that is damaged is
 * copied, and refused by the step back that comes to it. Of second, bytes 0 to 6
 * and the first slots are written, one for each event kept, and no other byte.
 *
 * Number: 17 (SCA_NO_FRAME), or refused:
 *     4  the journal is not a small one: journal_length is not SCA_JOURNAL_BYTES, or
 *        its mark, version or layout is wrong; a large journal too
 *     1  second_length is not SCA_LARGE_JOURNAL_BYTES, longer or shorter
 */
uint64_t sca_enlarge(const uint8_t *journal, size_t journal_length, uint8_t *second, size_t second_length);

/*
 * sca_frame - a frame body arrives on a port
 *
 * Number: of the events, the first that applies:
 *     11  the address is not 0x00
 *     14  CONNECT, RESET or TEST with information
 *     0   CONNECT, RESET or TEST: its acknowledgement, on the same port
 *     13  another control with bit 0 set
 *     0   the port is in loopback: the body itself, on the same port
 *     12  the port is not the active one
 *     14  the information is not 8 bytes
 *     0   the frame is not the one that is due: SREJ
 *     17  a GO or an I2C start: its reply comes with sca_completion or
 *         sca_i2c_completion
 *     0   the reply
 * or refused, after 6, 4 and 1:
 *     3   port is not SCA_PRIMARY or SCA_AUXILIARY; 256 is no port either
 *     2   body_length is not SCA_BODY_LEAST to SCA_BODY_MOST
 */
uint64_t sca_frame(uint8_t *state, size_t state_length, uint8_t *journal, size_t journal_length, uint32_t port,
                   const uint8_t *body, size_t body_length, uint8_t *output, size_t output_length);

/*
 * sca_completion - an SPI transfer is complete
 *
 * received holds the 128 bits that came in, byte 0 bits 7 to 0. As many of its
 * low bits as CONTROL bits 6 to 0 say, 0 meaning 128, become those of DATA.
 *
 * Number: of the events, with
 *     0   the reply of the open GO, with DATA word 0
 *     15  no GO is open
 * or refused, after 6, 4 and 1:
 *     3   received_length is not SCA_TRANSFER_BYTES
 */
uint64_t sca_completion(uint8_t *state, size_t state_length, uint8_t *journal, size_t journal_length,
                        const uint8_t *received, size_t received_length, uint8_t *output, size_t output_length);

/*
 * sca_i2c_completion - an I2C transaction is complete
 *
 * channel is the master's, SCA_I2C_FIRST to SCA_I2C_LAST. acknowledge is not 0
 * where the slave acknowledged, line_low is not 0 where the data line was found
 * low; any value but 0 means 1. received holds the bytes that came in, 0 to
 * SCA_I2C_MOST, the first one first.
 *
 * Of STATUS, LEVERR becomes whether the line was low, NOACK whether there was no
 * acknowledge, and SUCC whether neither was; INVCOM stays. With SUCC a multi-byte
 * read puts the bytes received into DATA from byte 0 on, NBYTE of them: lacking
 * ones are 0, further ones are not read, DATA from byte NBYTE on stays. A read of
 * one byte has the first byte received in its reply alone, 0 where there is none.
 * Writes and read-modify-write take no bytes, and without SUCC none is taken.
 *
 * Number: of the events, with
 *     0   the reply of the open start, with its own TRN, ERR 0 and LEN as the
 *         table says, STATUS in D[31:24], the byte of a read of one in D[23:16]
 *     15  no start is open on this channel, or it is disabled
 * or refused, after 6, 4 and 1:
 *     3   channel is not SCA_I2C_FIRST to SCA_I2C_LAST, 0x103 is none either; or
 *         received_length is over SCA_I2C_MOST
 */
uint64_t sca_i2c_completion(uint8_t *state, size_t state_length, uint8_t *journal, size_t journal_length, uint32_t channel,
                            uint32_t acknowledge, uint32_t line_low, const uint8_t *received, size_t received_length,
                            uint8_t *output, size_t output_length);

/*
 * sca_sample - the pins are sampled
 *
 * Bit n of levels is the level of line n. kind is what samples: the system
 * clock, the strobe rising, or the strobe falling. A line with DIRECTION 0 takes
 * its level if CLKSEL is 0 and kind is 0, or CLKSEL is 1 and kind is 1 with
 * EDGESEL 0 or 2 with EDGESEL 1. A line that so changed, with INTSEL 1, fires on
 * rising where INTTRIG is 1 and on falling where it is 0. (Before version 1.2.1 it
 * was the other way round.)
 *
 * Number: of the events, with
 *     0   an interrupt: INTENABLE is 1 and lines fired, which INTS now holds
 *     16  GPIO is disabled
 *     17  no interrupt
 * or refused, after 6, 4 and 1:
 *     3   kind is over SCA_STROBE_FALLING
 */
uint64_t sca_sample(uint8_t *state, size_t state_length, uint8_t *journal, size_t journal_length, uint32_t levels,
                    uint32_t kind, uint8_t *output, size_t output_length);

/*
 * sca_samples - the pins are sampled, many times in a row
 *
 * list holds count samples, the first one first, aligned as C aligns the struct.
 * State, journal and bodies are those of as many calls of sca_sample, one after
 * the other: each sample is an event of its own, kept and taken back by itself.
 * To take a batch back, call sca_step_back count times; of more samples than the
 * journal keeps, SCA_KEPT_MOST or SCA_LARGE_KEPT_MOST, only as many can be taken
 * back, the newest. With GPIO disabled each sample is dropped, and kept all the
 * same.
 *
 * The bodies stand one after the other from the front of output on,
 * SCA_REPLY_BYTES each, in the order in which they are to leave; no other byte
 * of output changes. An empty list changes nothing.
 *
 *     struct sca_pin_sample list[SCA_SAMPLES_MOST];
 *     uint8_t output[SCA_BATCH_LEAST];
 *     result = sca_samples(state, sizeof state, journal, sizeof journal, list, count, output, sizeof output);
 *     for (size_t n = 0; n < sca_frames(result); n++)
 *         send(sca_port(result), output + n * SCA_REPLY_BYTES, sca_length(result));
 *
 * Number, with sca_frames, sca_sum, sca_length and sca_port:
 *     0   sca_frames interrupts of sca_length bytes are to leave on port sca_port,
 *         and sca_sum lines fired, added up over them; lines that fired with
 *         INTENABLE 0 are not counted
 *     17  done, and nothing is to be sent; with GPIO disabled too, where
 *         sca_sample gives 16
 * or refused, before anything is done:
 *     6   as by the events
 *     4   as by the events
 *     1   output_length is under SCA_BATCH_LEAST, however few the samples
 *     3   count is over SCA_SAMPLES_MOST, or any kind is over SCA_STROBE_FALLING
 */
uint64_t sca_samples(uint8_t *state, size_t state_length, uint8_t *journal, size_t journal_length,
                     const struct sca_pin_sample *list, size_t count, uint8_t *output, size_t output_length);

/*
 * sca_upset - a single event upset
 *
 * The SEU counter goes up by one, from its end to 0. No body is ever sent, yet
 * output is asked for as by the other events.
 *
 * Number: 17 (SCA_NO_FRAME), or refused with 6, 4 or 1 as every event.
 */
uint64_t sca_upset(uint8_t *state, size_t state_length, uint8_t *journal, size_t journal_length, uint8_t *output,
                   size_t output_length);

/*
 * sca_step_back - takes the newest standing event back
 *
 * For a state and the journal that went with it. The state becomes what it was
 * before that event, its chip ID stays, and the kept number goes down by one.
 * What was sent is not taken back, nor what a receiver has read, nor the record
 * of a control room: copy that with state and journal to branch from a moment.
 *
 * Number: 17 (SCA_NO_FRAME), or refused:
 *     6  as by the events
 *     4  as by the events
 *     5  no event is kept
 *     4  the record of that event is damaged, or the state that it would leave
 *        is out of range
 */
uint64_t sca_step_back(uint8_t *state, size_t state_length, uint8_t *journal, size_t journal_length);

/* --------------------------------------------------------- the control room
 *
 * The other end of the link. A record of the caller's holds what is open; a
 * request that is written opens a transaction, and its reply closes it:
 *
 *     uint8_t record[SCA_RECORD_BYTES], body[SCA_OUTPUT_LEAST], answer[SCA_OUTPUT_LEAST];
 *     sca_record_new(record, sizeof record);
 *     result = sca_request(record, sizeof record, 0x00, 0x03, 0, body, sizeof body);    (read CRB)
 *     send(body, sca_length(result));
 *     ...
 *     result = sca_reply(record, sizeof record, reply, reply_length, answer, sizeof answer);
 *     if (sca_number(result) == SCA_HAS_FRAME && !sca_interrupt(result))
 *         take(answer[0], answer[3], sca_answer_data(answer));                          (TRN, ERR, D[31:0])
 *
 * It knows the tables of commands above, and nothing of a chip's state: whether a
 * channel is enabled or busy is the chip's to say, in the reply's ERR.
 *
 * THE RECORD
 *     The frame number, and for each TRN, 0x01 to 0xFE, whether a transaction is
 *     open, with the channel and the command of its request. It may be copied,
 *     kept in a file and handed in again. Byte by byte:
 *
 *         byte           field                                   range
 *         0              the frame number of the next request    0 to 7
 *         1              not used                                0
 *         2 * TRN        channel of the open request             as the tables, or
 *         2 * TRN + 1    CMD of the open request                 both 0: none is open
 *
 *     TRN 0xFE has the bytes 508 and 509. (No table has CMD 0x00 of channel 0x00.)
 *     A record of another length, or not in these ranges, is refused with 6, and no
 *     other is. Every call that is not refused leaves a record in range.
 *
 *     A request counts the frame number up, modulo 8, and the link commands CONNECT
 *     and RESET set it to 0, as they do the numbers of the chip. No call takes a
 *     number back, and sca_step_back knows nothing of the record: where a request
 *     was lost, or the chip was stepped back or answers SREJ, send the lost body
 *     again as it stands, while the chip still expects its number, or connect anew.
 *
 *     Only its reply closes a transaction. CONNECT and RESET close none; and what the
 *     chip has dropped, by a RESET or because the channel of an open GO or start was
 *     disabled, is never answered. To give a transaction up, set its two bytes to 0.
 *     Whoever resets the chip makes a new record.
 */

/*
 * sca_record_new - a record with nothing open, and frame number 0
 *
 * Writes the record's bytes, all 0, whatever they held before.
 *
 * Number: 17 (SCA_NO_FRAME), or refused:
 *     6  record_length is not SCA_RECORD_BYTES
 */
uint64_t sca_record_new(uint8_t *record, size_t record_length);

/*
 * sca_request - the body of a request
 *
 * Writes SCA_REPLY_BYTES bytes at the front of output: address 0x00, control twice
 * the frame number, TRN, CH, LEN, CMD, D[23:16], D[31:24], D[7:0], D[15:8]. TRN is
 * the lowest that is free, 0x01 to 0xFE, so byte 2 of output tells the transaction;
 * LEN is what the command's table asks; all 32 bits of data go out, whatever the
 * command uses of them. The transaction is open from then on, and the frame number
 * has gone up by one modulo 8. No other byte of output changes.
 *
 * The chip answers where it comes in the number that it expects, on its active
 * port, not in loopback. A new record goes with a chip that is new or was just
 * reset. CONNECT brings any record in step again; but the chip keeps an open GO
 * or start through it, so keep the record too, or the reply of the old one would
 * be taken for that of a new request with its TRN.
 *
 * Number, with sca_length:
 *     0   SCA_REPLY_BYTES bytes were written
 * or refused:
 *     6   record_length is not SCA_RECORD_BYTES, or a field is out of range
 *     1   output_length is under SCA_OUTPUT_LEAST
 *     35  the tables have no such command of such a channel; 0x102 is none either
 *     31  all SCA_TRANSACTIONS_MOST transactions are open
 */
uint64_t sca_request(uint8_t *record, size_t record_length, uint32_t channel, uint32_t command, uint32_t data,
                     uint8_t *output, size_t output_length);

/*
 * sca_reply - the body of a reply or of an interrupt
 *
 * Writes SCA_ANSWER_BYTES bytes at the front of output: TRN, CH, CMD of the
 * request, ERR, LEN, then the data, low byte first (sca_answer_data). A reply is
 * matched by TRN and channel alone; it closes its transaction, whose TRN is free
 * again. An interrupt, TRN 0xFF from channel 0x02, is told apart by sca_interrupt:
 * its CMD is written as 0, and it closes nothing. Address and control are not
 * read. No other byte of output changes.
 *
 * A port in loopback (SCA_TEST) sends a request back as it came: handed to
 * sca_reply it would be taken for its reply, with LEN as ERR and CMD as LEN. Hand
 * over nothing that came while the port was in loopback.
 *
 * Number, with sca_length and sca_interrupt:
 *     0   SCA_ANSWER_BYTES bytes were written
 * or refused:
 *     6   as by sca_request
 *     1   as by sca_request
 *     33  body_length is not SCA_REPLY_BYTES, as that of an SREJ or an acknowledgement
 *     32  no transaction of that TRN is open to that channel
 */
uint64_t sca_reply(uint8_t *record, size_t record_length, const uint8_t *body, size_t body_length, uint8_t *output,
                   size_t output_length);

/*
 * sca_command - the body of a command of the link
 *
 * Writes 2 bytes at the front of output: address 0x00, and control. SCA_CONNECT
 * and SCA_RESET, with or without SCA_POLL, set the frame number to 0; SCA_TEST
 * leaves it. Open transactions stay open. No other byte of output changes.
 *
 * Number, with sca_length:
 *     0   2 bytes were written
 * or refused:
 *     6   as by sca_request
 *     1   as by sca_request
 *     35  control is none of the six: SCA_CONNECT, SCA_RESET, SCA_TEST, or one of
 *         them plus SCA_POLL
 */
uint64_t sca_command(uint8_t *record, size_t record_length, uint32_t control, uint8_t *output, size_t output_length);

#ifdef __cplusplus
}
#endif

#endif
