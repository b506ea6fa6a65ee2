/*
 * How much stack each call takes: it is made on a stack of its own that was painted before, and the deepest byte that is no longer paint tells.
 *     stack TABLE BOUNDS    checks every call against docs/STACK.md and against what its machine code may take (scripts/deepest.awk)
 *     stack                 prints the figures
 * It is linked with -z now: else the first use of memcpy or memset has the dynamic linker on the caller's stack.
 */
#include <stdarg.h>
#include <stdint.h>
#include <stdio.h>
#include <string.h>

#include "check.h"
#include "sca.h"

enum { STACK = 1 << 14, MOST = 768, ANY = -1 };

static uint8_t state[SCA_STATE_BYTES], output[SCA_OUTPUT_LEAST], receiver[SCA_RECEIVER_BYTES];
static uint8_t cable[SCA_CABLE_MOST], batch_output[SCA_BATCH_LEAST], record[SCA_RECORD_BYTES];
static struct sca_pin_sample list[SCA_SAMPLES_MOST];

/* The journal, small or large as its length says, and room for an enlarged one. */
static uint8_t journal[SCA_LARGE_JOURNAL_BYTES], second[SCA_LARGE_JOURNAL_BYTES];
static size_t journal_length;

/* ---- a call on the painted stack */

/* Its arguments as the calling convention has them, a word each: six go in registers. */
struct call {
    void (*function)(void);
    uint64_t words[12];
    size_t many;
};

static struct call it;

#define CALL(function, ...) \
    (it = (struct call){(void (*)(void))(function), {__VA_ARGS__}, sizeof((uint64_t[]){__VA_ARGS__}) / sizeof(uint64_t)})
#define LENT(buffer) (uint64_t)(uintptr_t)(buffer), sizeof(buffer)
#define JOURNAL (uint64_t)(uintptr_t)journal, journal_length

static size_t words_on_the_stack(void) { return it.many > 6 ? it.many - 6 : 0; }

/*
 * on_stack(top, function, words, more): calls the function with the stack pointer at top, the first six words in registers, the `more` words
 * behind them on that stack. The registers that the function has to save hold 0: the compiler may have the paint in
 * one of them, and where that one is saved deepest of all, its lowest byte would go unseen.
 */
uint64_t on_stack(unsigned char *top, void (*function)(void), const uint64_t *words, size_t more);
__asm__(".text\n"
        ".globl on_stack\n"
        ".type on_stack, @function\n"
        "on_stack:\n"
        "    push %rbp\n"
        "    push %rbx\n"
        "    push %r12\n"
        "    push %r13\n"
        "    push %r14\n"
        "    push %r15\n"
        "    mov %rsp, %rbp\n"
        "    mov %rdi, %rsp\n"
        "    mov %rsi, %rax\n"
        "    mov %rdx, %r10\n"
        "1:  test %rcx, %rcx\n"
        "    je 2f\n"
        "    push 40(%r10, %rcx, 8)\n"
        "    dec %rcx\n"
        "    jmp 1b\n"
        "2:  mov (%r10), %rdi\n"
        "    mov 8(%r10), %rsi\n"
        "    mov 16(%r10), %rdx\n"
        "    mov 24(%r10), %rcx\n"
        "    mov 32(%r10), %r8\n"
        "    mov 40(%r10), %r9\n"
        "    xor %ebx, %ebx\n"
        "    xor %r12d, %r12d\n"
        "    xor %r13d, %r13d\n"
        "    xor %r14d, %r14d\n"
        "    xor %r15d, %r15d\n"
        "    call *%rax\n"
        "    mov %rbp, %rsp\n"
        "    pop %r15\n"
        "    pop %r14\n"
        "    pop %r13\n"
        "    pop %r12\n"
        "    pop %rbx\n"
        "    pop %rbp\n"
        "    ret\n"
        ".size on_stack, . - on_stack\n"
        ".section .note.GNU-stack, \"\", @progbits\n"
        ".text\n");

static uint64_t result;

/* The bytes of stack from the arguments on it down, by one paint: a byte written that has its colour goes unseen. */
static size_t painted(int paint) {
    static unsigned char stack[STACK] __attribute__((aligned(16)));
    /* The convention wants the stack pointer at a multiple of 16 behind the arguments. */
    unsigned char *top = stack + STACK - 64 - 8 * (words_on_the_stack() % 2);
    size_t untouched = 0;
    memset(stack, paint, sizeof stack);
    result = on_stack(top, it.function, it.words, words_on_the_stack());
    while (stack[untouched] == paint)
        untouched++;
    return (size_t)(top - (stack + untouched));
}

static size_t deepest_of(void (*prepare)(void)) {
    size_t dark, light;
    prepare();
    dark = painted(0xA5);
    prepare();
    light = painted(0x5A);
    return dark > light ? dark : light;
}

/* ---- states */

static void send(const uint8_t *body, size_t length) {
    sca_frame(state, sizeof state, journal, journal_length, SCA_PRIMARY, body, length, output, sizeof output);
}

/* The number that the next request has to have. */
static uint8_t number;

/* D goes out as D[23:16], D[31:24], D[7:0], D[15:8]. */
static size_t request_body(uint8_t *to, uint8_t channel, uint8_t length, uint8_t command, uint32_t data) {
    to[0] = 0x00, to[1] = (uint8_t)(number << 1), to[2] = 0x01, to[3] = channel, to[4] = length, to[5] = command;
    to[6] = (uint8_t)(data >> 16), to[7] = (uint8_t)(data >> 24), to[8] = (uint8_t)data, to[9] = (uint8_t)(data >> 8);
    return 10;
}

static void request(uint8_t channel, uint8_t length, uint8_t command, uint32_t data) {
    uint8_t next[SCA_BODY_MOST];
    send(next, request_body(next, channel, length, command, data));
    number = (number + 1) % 8;
}

static void fresh(void) {
    sca_create(state, sizeof state, 0x00000A);
    sca_empty(journal, journal_length);
    number = 0;
}

static unsigned most_kept(void) { return journal_length == SCA_JOURNAL_BYTES ? SCA_KEPT_MOST : SCA_LARGE_KEPT_MOST; }

/* All channels on, SPI and all masters at work; every line interrupts on rising; the journal is full. */
static void busy(void) {
    fresh();
    request(0x00, 4, 0x02, 0xFE000000);
    request(0x00, 4, 0x04, 0xFF000000);
    request(0x00, 4, 0x06, 0x1F000000);
    request(0x01, 2, 0x72, 0);
    for (uint8_t master = 0x03; master <= 0x12; master++) {
        request(master, 1, 0x30, 0x40000000);
        request(master, 4, 0xDE, 0x50000000);
    }
    request(0x02, 4, 0x30, 0xFFFFFFFF);
    request(0x02, 4, 0x40, 0xFFFFFFFF);
    request(0x02, 4, 0x60, 0x00000001);
    while (sca_kept_in(sca_kept(journal, journal_length)) < most_kept())
        sca_upset(state, sizeof state, journal, journal_length, output, sizeof output);
}

/* So many transactions open, with commands of every channel. */
static void open_many(size_t many) {
    static const uint8_t commands[][2] = {{0x00, 0x02}, {0x01, 0x72}, {0x02, 0x01}, {0x03, 0xDE}, {0x12, 0x8A},
                                          {0x13, 0xF1}, {0x14, 0xD1}, {0x15, 0x41}};
    sca_record_new(record, sizeof record);
    for (size_t at = 0; at < many; at++)
        sca_request(record, sizeof record, commands[at % 8][0], commands[at % 8][1], 0, output, sizeof output);
}

/* ---- the ways: what stands ready, and the call. In `busy` 6 looks at the open start of every master, in a record at
 * the command of every open transaction. */

#define ADAPTER LENT(state), JOURNAL

static void version(void) { CALL(sca_version, 0); it.many = 0; }

static void create(void) { CALL(sca_create, LENT(state), 0x00000A); }

static void empty(void) {
    busy();
    CALL(sca_empty, JOURNAL);
}

static void kept(void) {
    busy();
    CALL(sca_kept, JOURNAL);
}

static void enlarge(size_t of, size_t second_length) {
    journal_length = of;
    busy();
    CALL(sca_enlarge, JOURNAL, (uint64_t)(uintptr_t)second, second_length);
}

static void enlarging(void) { enlarge(SCA_JOURNAL_BYTES, sizeof second); }

static void enlarging_large(void) { enlarge(SCA_LARGE_JOURNAL_BYTES, sizeof second); }

static void enlarging_into_less(void) { enlarge(SCA_JOURNAL_BYTES, sizeof second - 1); }

static uint8_t body[SCA_BODY_MOST];
static size_t body_length;

static void frame(void) { CALL(sca_frame, ADAPTER, SCA_PRIMARY, (uint64_t)(uintptr_t)body, body_length, LENT(output)); }

static void frame_with(uint8_t channel, uint8_t length, uint8_t command, uint32_t data) {
    busy();
    body_length = request_body(body, channel, length, command, data);
    frame();
}

static void disabling_crb(void) { frame_with(0x00, 4, 0x02, 0); }

static void disabling_crc(void) { frame_with(0x00, 4, 0x04, 0); }

static void disabling_crd(void) { frame_with(0x00, 4, 0x06, 0); }

static void writing_data(void) { frame_with(0x02, 4, 0x10, 0x12345678); }

static void starting(void) {
    frame_with(0x08, 4, 0x86, 0x50000000);
    /* The master is at rest. */
    sca_i2c_completion(state, sizeof state, journal, journal_length, 0x08, 1, 0, NULL, 0, output, sizeof output);
}

static void unknown_channel(void) { frame_with(0x20, 1, 0x00, 0); }

static void resetting(void) {
    busy();
    body[0] = 0x00, body[1] = 0x8F, body_length = 2;
    frame();
}

static void out_of_order(void) {
    frame_with(0x00, 1, 0x03, 0);
    body[1] ^= 0x02;
}

/* The longest body, sent back by a port in loopback. */
static void looping(void) {
    static const uint8_t test[] = {0x00, 0xE3};
    busy();
    send(test, sizeof test);
    memset(body, 0, sizeof body);
    body_length = sizeof body;
    frame();
}

static void completion(void) {
    static const uint8_t received[SCA_TRANSFER_BYTES];
    busy();
    CALL(sca_completion, ADAPTER, LENT(received), LENT(output));
}

static void i2c_completion(void) {
    static const uint8_t received[SCA_I2C_MOST];
    busy();
    CALL(sca_i2c_completion, ADAPTER, 0x0F, 1, 0, LENT(received), LENT(output));
}

static void interrupting(void) {
    busy();
    CALL(sca_sample, ADAPTER, 1, SCA_SYSTEM_CLOCK, LENT(output));
}

static void unwatched(void) {
    busy();
    request(0x00, 4, 0x02, 0xFA000000);
    CALL(sca_sample, ADAPTER, 1, SCA_SYSTEM_CLOCK, LENT(output));
}

/* At each sample one line falls and another rises: every one interrupts. */
static void batch(void) {
    busy();
    for (size_t at = 0; at < SCA_SAMPLES_MOST; at++) list[at].levels = at % 2 + 1, list[at].kind = SCA_SYSTEM_CLOCK;
    CALL(sca_samples, ADAPTER, (uint64_t)(uintptr_t)list, SCA_SAMPLES_MOST, LENT(batch_output));
}

static void wrong_batch(void) {
    batch();
    list[SCA_SAMPLES_MOST - 1].kind = SCA_STROBE_FALLING + 1;
}

static void upset(void) {
    busy();
    CALL(sca_upset, ADAPTER, LENT(output));
}

static void back(void) {
    busy();
    CALL(sca_step_back, ADAPTER);
}

static void back_over_crc(void) {
    disabling_crc();
    send(body, body_length);
    CALL(sca_step_back, ADAPTER);
}

static void back_over_completion(void) {
    i2c_completion();
    sca_i2c_completion(state, sizeof state, journal, journal_length, 0x0F, 1, 0, NULL, 0, output, sizeof output);
    CALL(sca_step_back, ADAPTER);
}

/* The newest record's second byte, the send number, is out of range. */
static void back_damaged(void) {
    back();
    journal[1024 + 256 * ((journal[5] + journal[6] - 1u) % most_kept()) + 1] = 0xFF;
}

static void receiver_new(void) { CALL(sca_receiver_new, LENT(receiver)); }

static void transmit(void) {
    memset(body, 0xFF, sizeof body);
    CALL(sca_transmit, LENT(body), LENT(cable));
}

static void receive(void) {
    memset(cable, 0xFF, sizeof cable);
    memset(body, 0x55, sizeof body);
    sca_transmit(body, sizeof body, cable, sizeof cable);
    sca_receiver_new(receiver, sizeof receiver);
    CALL(sca_receive, LENT(receiver), LENT(cable), 0, LENT(output));
}

static void receive_aborted(void) {
    receive();
    memset(cable + 8, 0xFF, sizeof cable - 8);
}

static void record_new(void) { CALL(sca_record_new, LENT(record)); }

static void request_with(size_t many, uint32_t channel) {
    open_many(many);
    CALL(sca_request, LENT(record), channel, 0x41, 0x12345678, LENT(output));
}

static void last_request(void) { request_with(SCA_TRANSACTIONS_MOST - 1, 0x01); }

static void one_too_many(void) { request_with(SCA_TRANSACTIONS_MOST, 0x01); }

static void unknown_command(void) { request_with(SCA_TRANSACTIONS_MOST - 1, 0x20); }

static void reply_with(uint8_t trn, uint8_t channel) {
    uint8_t sent[] = {0x00, 0x20, trn, channel, 0x00, 0x04, 0x34, 0x12, 0x78, 0x56};
    open_many(SCA_TRANSACTIONS_MOST);
    memcpy(body, sent, sizeof sent);
    CALL(sca_reply, LENT(record), (uint64_t)(uintptr_t)body, sizeof sent, LENT(output));
}

/* TRN 0xFE has the 254th command, of channel 0x13. */
static void last_reply(void) { reply_with(0xFE, 0x13); }

static void interrupt(void) { reply_with(0xFF, 0x02); }

static void unmatched(void) { reply_with(0xFE, 0x14); }

static void command_with(uint32_t control) {
    open_many(SCA_TRANSACTIONS_MOST);
    CALL(sca_command, LENT(record), control, LENT(output));
}

static void connecting(void) { command_with(SCA_CONNECT); }

static void no_command(void) { command_with(0x00); }

/* What is open with the last TRN is out of range. */
static void bad_record(void) {
    connecting();
    record[SCA_RECORD_BYTES - 1] = 0x00;
}

static const struct way {
    const char *call, *what;
    void (*prepare)(void);
    /* What it must give, so that it is known to go this way. */
    int number;
} ways[] = {
    {"sca_version", "the version", version, ANY},
    {"sca_transmit", "the longest body, all ones", transmit, SCA_HAS_FRAME},
    {"sca_receiver_new", "a new receiver", receiver_new, SCA_NO_FRAME},
    {"sca_receive", "the longest body", receive, SCA_HAS_FRAME},
    {"sca_receive", "a frame that is broken off", receive_aborted, SCA_ABORTED},
    {"sca_create", "a new adapter", create, SCA_NO_FRAME},
    {"sca_empty", "a full journal", empty, SCA_NO_FRAME},
    {"sca_kept", "a full journal", kept, SCA_NO_FRAME},
    {"sca_enlarge", "a full journal", enlarging, SCA_NO_FRAME},
    {"sca_enlarge", "a large journal", enlarging_large, SCA_BAD_JOURNAL},
    {"sca_enlarge", "one byte too few for it", enlarging_into_less, SCA_SHORT_OUTPUT},
    {"sca_frame", "CRB disables SPI, GPIO and five masters", disabling_crb, SCA_HAS_FRAME},
    {"sca_frame", "CRC disables eight masters", disabling_crc, SCA_HAS_FRAME},
    {"sca_frame", "CRD disables three masters", disabling_crd, SCA_HAS_FRAME},
    {"sca_frame", "a register is written", writing_data, SCA_HAS_FRAME},
    {"sca_frame", "a master is started", starting, SCA_NO_FRAME},
    {"sca_frame", "an unknown channel", unknown_channel, SCA_HAS_FRAME},
    {"sca_frame", "RESET", resetting, SCA_HAS_FRAME},
    {"sca_frame", "SREJ", out_of_order, SCA_HAS_FRAME},
    {"sca_frame", "the longest body sent back", looping, SCA_HAS_FRAME},
    {"sca_completion", "a transfer ends", completion, SCA_HAS_FRAME},
    {"sca_i2c_completion", "a read of 16 bytes ends", i2c_completion, SCA_HAS_FRAME},
    {"sca_sample", "an interrupt", interrupting, SCA_HAS_FRAME},
    {"sca_sample", "the lines are disabled", unwatched, SCA_LINES_DISABLED},
    {"sca_samples", "256 interrupts", batch, SCA_HAS_FRAME},
    {"sca_samples", "the last kind is wrong", wrong_batch, SCA_BAD_ARGUMENT},
    {"sca_upset", "an upset", upset, SCA_NO_FRAME},
    {"sca_step_back", "over an upset", back, SCA_NO_FRAME},
    {"sca_step_back", "over a write of CRC", back_over_crc, SCA_NO_FRAME},
    {"sca_step_back", "over an I2C completion", back_over_completion, SCA_NO_FRAME},
    {"sca_step_back", "over a damaged record", back_damaged, SCA_BAD_JOURNAL},
    {"sca_record_new", "a new record", record_new, SCA_NO_FRAME},
    {"sca_request", "the last TRN is taken", last_request, SCA_HAS_FRAME},
    {"sca_request", "all are open", one_too_many, SCA_ALL_OPEN},
    {"sca_request", "an unknown command", unknown_command, SCA_NO_COMMAND},
    {"sca_reply", "the last TRN is closed", last_reply, SCA_HAS_FRAME},
    {"sca_reply", "an interrupt", interrupt, SCA_HAS_FRAME},
    {"sca_reply", "nothing of it is open", unmatched, SCA_NO_MATCH},
    {"sca_command", "CONNECT", connecting, SCA_HAS_FRAME},
    {"sca_command", "an unknown control", no_command, SCA_NO_COMMAND},
    {"sca_command", "the last transaction is out of range", bad_record, SCA_BAD_STATE},
};

enum { WAYS = sizeof ways / sizeof ways[0], CALLS = 32 };

/* ---- each call: the deepest of its ways, its row of the table, and what its machine code may take */

static struct figure {
    char call[32];
    /* Bytes of arguments on the stack; below them, in all; of the table the same. */
    size_t arguments, most, row_arguments, row_below, row_all, bound;
    int measured, rows, bounds;
} figures[CALLS];

/* The last place is for whatever there is no room for, and fails. */
static struct figure *figure_of(const char *call) {
    size_t at = 0;
    while (at < CALLS - 2 && figures[at].call[0] && strcmp(figures[at].call, call) != 0)
        at++;
    snprintf(figures[at].call, sizeof figures[at].call, "%s", call);
    return &figures[at];
}

static size_t took[WAYS];

static void check_that(int holds, const char *format, ...) {
    char text[200];
    va_list words;
    va_start(words, format);
    vsnprintf(text, sizeof text, format, words);
    va_end(words);
    check(holds, text);
}

/* What a way takes with a journal of this size. */
static size_t deepest_with(size_t length, const struct way *way) {
    size_t bytes;
    journal_length = length;
    bytes = deepest_of(way->prepare);
    if (way->number != ANY && (int)sca_number(result) != way->number)
        check_that(0, "%s, %s, a journal of %zu: it goes this way", way->call, way->what, length);
    return bytes;
}

static void measure(void) {
    for (size_t at = 0; at < WAYS; at++) {
        struct figure *figure = figure_of(ways[at].call);
        size_t with_small = deepest_with(SCA_JOURNAL_BYTES, &ways[at]);
        size_t with_large = deepest_with(SCA_LARGE_JOURNAL_BYTES, &ways[at]);
        took[at] = with_small > with_large ? with_small : with_large;
        figure->arguments = 8 * words_on_the_stack();
        figure->measured++;
        if (took[at] > figure->most) figure->most = took[at];
    }
}

/* A row '| `sca_..` | arguments | below | in all | ..'; the table stands among other lines. */
static int read_row(const char *line) {
    char call[32];
    size_t arguments, below, all;
    if (sscanf(line, "| `%31[a-z0-9_]` | %zu | %zu | %zu |", call, &arguments, &below, &all) == 4) {
        struct figure *figure = figure_of(call);
        figure->rows++, figure->row_arguments = arguments, figure->row_below = below, figure->row_all = all;
    }
    return 1;
}

/* A line 'sca_.. bytes', and nothing else. */
static int read_bound(const char *line) {
    char call[32], end;
    size_t bytes;
    struct figure *figure;
    if (sscanf(line, "%31[a-z0-9_] %zu%c", call, &bytes, &end) != 3 || end != '\n') return 0;
    figure = figure_of(call);
    figure->bounds++, figure->bound = bytes;
    return 1;
}

static int read_file(const char *name, int (*read_line)(const char *)) {
    char line[512];
    int good = 1;
    FILE *file = fopen(name, "r");
    if (!file) return 0;
    while (fgets(line, sizeof line, file))
        good = read_line(line) && good;
    return fclose(file) == 0 && good;
}

static void check_all(void) {
    for (size_t at = 0; at < WAYS; at++) {
        size_t row = figure_of(ways[at].call)->row_all;
        check_that(took[at] <= row, "%s, %s: %zu bytes, %zu in the table", ways[at].call, ways[at].what, took[at], row);
    }
    for (size_t at = 0; figures[at].call[0]; at++) {
        const struct figure *f = &figures[at];
        check_that(f->bounds == 1 && f->rows == 1 && f->measured > 0, "%s: in the archive, in the table and measured", f->call);
        check_that(f->row_arguments == f->arguments && f->row_arguments + f->row_below == f->row_all && f->row_all <= MOST,
                   "%s: its row has %zu bytes of arguments, adds up, and says at most %d", f->call, f->arguments, MOST);
        check_that(f->bound <= f->row_below, "%s: no way through its code takes more than %zu below them, %zu in the table", f->call, f->bound, f->row_below);
        check_that(f->most == f->arguments + f->bound, "%s: one of the ways takes all of it", f->call);
    }
}

static void print_all(void) {
    printf("%-20s %10s %6s  %s\n", "bytes of stack", "arguments", "in all", "of these ways the deepest");
    for (size_t at = 0; figures[at].call[0]; at++) {
        size_t way = 0;
        while (strcmp(ways[way].call, figures[at].call) != 0 || took[way] != figures[at].most)
            way++;
        printf("%-20s %10zu %6zu  %s\n", figures[at].call, figures[at].arguments, figures[at].most, ways[way].what);
    }
}

int main(int count, char **words) {
    if (count != 1 && count != 3) {
        fprintf(stderr, "stack [TABLE BOUNDS]\n");
        return 2;
    }
    measure();
    if (count == 1) {
        print_all();
    } else {
        check(read_file(words[1], read_row) && read_file(words[2], read_bound), "the table and the bounds can be read");
        check_all();
    }
    return failures != 0;
}
