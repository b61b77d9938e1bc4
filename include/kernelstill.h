/*
 * Kernelstill: a verified reader of the command line of the MCC-I2.1, the
 * controller chip of pixel-detector modules. For C and C++.
 *
 * kernelstill_open opens, kernelstill_take takes bits and writes records;
 * kernelstill_accept checks a finished stream of triggers and Fasts;
 * kernelstill_compose writes a stream from a list of orders; kernelstill_reply
 * reads a reply on the line back from the chip; the other functions help to
 * read what was written. Each is proved to meet its contract
 * (crates/kernelstill) for every argument that keeps these rules, which no
 * function can check:
 *
 * - A slice passes as a pointer and then a length, counted in elements. The
 *   pointer is aligned for its element and good for that many of them. At
 *   length 0 it is not used and may be NULL.
 * - A slice that is not const overlaps no other slice of the same call.
 *
 * All else is checked. An unfit call is rejected with its number and changes
 * nothing, but for an opening, which is handed no state and gives one even
 * when it is refused. Where several numbers apply, the lowest is answered; of a
 * stream's patterns and of a list of orders the first at fault is, and of a
 * reply 18 and 19 are looked at ahead of 5.
 *
 * Nothing is kept between calls and there are no globals: all that a reader
 * remembers stands in the image, the store and the tray that the caller
 * lends. Calls on different buffers may run at once.
 *
 * For C99 or later and for C++, on 64-bit machines.
 */
#ifndef KERNELSTILL_H
#define KERNELSTILL_H

#include <stddef.h>
#include <stdint.h>

#ifdef __cplusplus
extern "C" {
#endif

/* The version; CHANGES.md says what each one holds. */
#define KERNELSTILL_VERSION "1.11.0"

/* The elements of each slice, and the limits of a call. */
#define KERNELSTILL_IMAGE_WORDS 70       /* the state, exactly */
#define KERNELSTILL_STORE_WORDS 2048     /* the FIFO words, exactly */
#define KERNELSTILL_TRAY_BYTES 8192      /* the frame bits, exactly */
#define KERNELSTILL_RESULT_WORDS 3       /* the result of a taking call, exactly */
#define KERNELSTILL_INPUT_BYTES 1048576  /* the input of a call, at most */
#define KERNELSTILL_RECORD_WORDS 2       /* a record in the list */
#define KERNELSTILL_RECORD_LINE_BYTES 28 /* a record's line, with its line feed */
#define KERNELSTILL_LINE_BYTES 32        /* the bytes of a hexadecimal line, at most */
#define KERNELSTILL_ORDER_WORDS 6        /* an order in a list of orders */
#define KERNELSTILL_REPLY_DATA_BITS 8191 /* the data bits of a reply, at most */
#define KERNELSTILL_REPLY_BYTES 1024     /* a buffer that holds the data bits of any reply */
#define KERNELSTILL_CLOCK_LIMIT (UINT64_C(1) << 48) /* cycles are below it */

/* The default register plan: addresses 0 to 10 exist. Where only 0 to 6 do,
 * open with mask 0x007F. */
#define KERNELSTILL_DEFAULT_MASK 0x07FF
#define KERNELSTILL_DEFAULT_CSR 0
#define KERNELSTILL_DEFAULT_FEEN 2
#define KERNELSTILL_DEFAULT_CNT 5

/* The refusal numbers; 0 is none. */
#define KERNELSTILL_OK 0
#define KERNELSTILL_WRONG_PLAN 1      /* CSR, FEEN and CNT are not three different addresses in the mask */
#define KERNELSTILL_WRONG_CYCLE 2     /* the opening cycle is 2^48 or more */
#define KERNELSTILL_UNSOUND 3         /* the image has another length, is malformed, or its state is unsound */
#define KERNELSTILL_WRONG_BUFFERS 4   /* a slice does not have the length asked for, or the first free word is past the list's end */
#define KERNELSTILL_WRONG_RANGE 5     /* the input is over 1,048,576 bytes, or the range passes its end */
#define KERNELSTILL_CLOCK_OVER 6      /* next cycle + count exceeds 2^48 */
#define KERNELSTILL_WRONG_CHARACTER 7 /* a character of a hexadecimal line is not 0-9 or A-F */
#define KERNELSTILL_WRONG_LENGTH 8    /* its digits are odd in number, or above 64 */
#define KERNELSTILL_WRONG_ORDER 9        /* an order has an unknown command, or a used field of the wrong size */
#define KERNELSTILL_TOO_FEW_ZEROS 10     /* an order has too few zeros ahead of its command */
#define KERNELSTILL_STREAM_TOO_LONG 11   /* the output cannot hold the whole stream, or it passes 2^48 bits */
#define KERNELSTILL_UNKNOWN_PATTERN 13   /* a pattern of a stream begins none of LV1, BCR, ECR, CAL and SYNC */
#define KERNELSTILL_CUT_PATTERN 14       /* the stream ends inside a command */
#define KERNELSTILL_PATTERN_TOO_CLOSE 15 /* too few zeros lie ahead of a command */
#define KERNELSTILL_WRONG_BIT_COUNT 18   /* the data bits expected of a reply are 0, or above 8,191 */
#define KERNELSTILL_BUFFER_TOO_SMALL 19  /* the buffer cannot hold the data bits expected of a reply */

/* The result of a taking call, by place. */
#define KERNELSTILL_RESULT_BITS 0    /* the bits taken */
#define KERNELSTILL_RESULT_RECORDS 1 /* the records written */
#define KERNELSTILL_RESULT_ENDING 2  /* how it ended, one of the next three */

#define KERNELSTILL_DONE 0      /* every bit of the count is taken */
#define KERNELSTILL_FRAME 1     /* the last record is a frame's; its bits stand in the tray */
#define KERNELSTILL_LIST_FULL 2 /* bits remain, and fewer than two words of the list are free */

/*
 * The kinds of a record, with what its value holds. Field 3 of a Slow command
 * that is not bad is its kind less 0x20.
 */
#define KERNELSTILL_KIND_LV1 0x01              /* position x 65536, and if acted on + L1ID x 256 + bunch number */
#define KERNELSTILL_KIND_BCR 0x11              /* 0 */
#define KERNELSTILL_KIND_ECR 0x12              /* 0 */
#define KERNELSTILL_KIND_CAL 0x14              /* 0 */
#define KERNELSTILL_KIND_SYNC 0x18             /* 0 */
#define KERNELSTILL_KIND_BAD_FAST 0x1F         /* its last four bits */
#define KERNELSTILL_KIND_WR_REGISTER 0x20      /* address x 65536 + the bits that arrived */
#define KERNELSTILL_KIND_RD_REGISTER 0x21      /* address x 65536 + the bits read */
#define KERNELSTILL_KIND_WR_FIFO 0x22          /* the word */
#define KERNELSTILL_KIND_RD_FIFO 0x23          /* FIFO x 2^27 + the word */
#define KERNELSTILL_KIND_WR_FRONT_END 0x24     /* control bits x 65536 + data bits, counted */
#define KERNELSTILL_KIND_RD_FRONT_END 0x25     /* the same */
#define KERNELSTILL_KIND_WR_RECEIVER 0x26      /* the count of its bits */
#define KERNELSTILL_KIND_EN_DATA_TAKE 0x28     /* 0 */
#define KERNELSTILL_KIND_GLOBAL_RESET_MCC 0x29 /* 0 */
#define KERNELSTILL_KIND_GLOBAL_RESET_FE 0x2A  /* SyncW x 2 + 1 */
#define KERNELSTILL_KIND_BAD_SLOW 0x2F         /* its Field 3 */

/* The parts of an LV1's value; the last two are 0 where it is not acted on. */
#define KERNELSTILL_LV1_POSITION(value) ((value) >> 16)   /* which of its five received bits was hit, from 1; 0 if none */
#define KERNELSTILL_LV1_L1ID(value) ((value) >> 8 & 0xFF) /* the trigger number */
#define KERNELSTILL_LV1_BUNCH(value) ((value) & 0xFF)     /* the bunch number */

/*
 * The flags of a record, added up.
 *
 * A command is too close, in and out of RunMode, when fewer zeros than the
 * timing table asks lie between the earlier record and it: after BCR 2 and
 * after ECR 1, if anything but an LV1 follows; after SYNC 4, if an LV1 follows,
 * exact or with flip; otherwise 0. 1101 straight after a command always is: as
 * an LV1 it has five bits, and the first of them is that command's last. The
 * first record after an opening never is. docs/USING.md has examples.
 */
#define KERNELSTILL_FLAG_ACTED 0x01     /* acted on */
#define KERNELSTILL_FLAG_FLIP 0x02      /* an LV1 with flip: its position is not 0 */
#define KERNELSTILL_FLAG_SENT 0x04      /* sent to the front ends */
#define KERNELSTILL_FLAG_MISSING 0x08   /* a missing register */
#define KERNELSTILL_FLAG_UNSTEADY 0x10  /* a front-end group was unsteady */
#define KERNELSTILL_FLAG_TOO_CLOSE 0x20 /* too close to the earlier record */

/*
 * The store: FIFO n has the words 128 x n to 128 x n + 127. WrFifo writes
 * words below 2^27, RdFifo reads the low 27 bits.
 *
 * The tray: a frame's first bit is the highest of byte 0, and each byte is
 * zeroed as its first bit is stored. A front-end bit is stored in the last of
 * its eight cycles: 1 with five ones or more among them, 0 with three or
 * fewer, and with four ones the first cycle's bit. A frame stands there whole
 * if the tray was carried over from the frame's first bit on, and until the
 * next call.
 *
 * Both may hold anything at an opening; a module's FIFO words start at 0.
 *
 * The image: the state as plain words, which a host may store and go on with
 * after a restart, together with the store and the tray. In memory the words
 * have the machine's byte order.
 *
 * Word 0 is the layout's number. An image of another layout is malformed, and
 * so is one with a word beyond its width; nothing else is.
 *
 * A state is sound when its plan would open; NEXT is at most 2^48 and BASE at
 * most NEXT; EARLIER_KIND is 0 or EARLIER_TIME is below NEXT; pointers are
 * below 128; registers outside the mask hold 0; RUN_MODE is 0 in phases 2, 3
 * and 4; in phase 0, SHIFT is below 32; in phases 1 to 3, COUNT is below 4 and
 * SHIFT below 2^COUNT; in phase 3, COMMAND is below 16; in phase 4, COMMAND is
 * 0 to 6 or 10, ADDRESS is below 16, COUNT is below the length of Field 5,
 * which for commands 4 to 6 goes by the register CNT, HELD is below 2^COUNT for
 * the commands that use it, and for commands 4 and 5 GROUP is below
 * 2^(COUNT modulo 8). Every state that an opening or a taking call wrote is
 * sound.
 *
 * Words 7 to 13 are the recogniser's. What those hold that the present phase
 * does not use means nothing. From an opening on they are 0 there.
 *
 * Words 20 and 21 are the earlier record; GlobalResetMCC's own becomes it.
 * An opening writes 0 into both.
 */
#define KERNELSTILL_LAYOUT 3
#define KERNELSTILL_AT_LAYOUT 0        /* KERNELSTILL_LAYOUT */
#define KERNELSTILL_AT_MASK 1          /* the plan: the addresses that exist, 16 bits; bit n for address n */
#define KERNELSTILL_AT_CSR 2           /* the address of CSR, 8 bits */
#define KERNELSTILL_AT_FEEN 3          /* the address of FEEN, 8 bits */
#define KERNELSTILL_AT_CNT 4           /* the address of CNT, 8 bits */
#define KERNELSTILL_AT_NEXT 5          /* the number of the next cycle, 64 bits */
#define KERNELSTILL_AT_PHASE 6         /* 0 hunting, 1 in a header's body, 2 in Field 3, 3 in Field 4, 4 in Field 5 */
#define KERNELSTILL_AT_SHIFT 7         /* hunting, the window; in a body, Field 3 or 4, the bits received of it; 8 bits */
#define KERNELSTILL_AT_COMMAND 8       /* in Fields 4 and 5, Field 3; 8 bits */
#define KERNELSTILL_AT_ADDRESS 9       /* in Field 5, Field 4; 8 bits */
#define KERNELSTILL_AT_COUNT 10        /* how many bits of the present body or field are received, 32 bits */
#define KERNELSTILL_AT_HELD 11         /* in Field 5 of WrRegister, WrFifo and GlobalResetFE, its bits so far; 32 bits */
#define KERNELSTILL_AT_GROUP 12        /* in a front-end frame, the bits received of the present group, the latest lowest; 8 bits */
#define KERNELSTILL_AT_UNSTEADY 13     /* in a front-end frame, whether one of its finished groups was unsteady; 0 or 1 */
#define KERNELSTILL_AT_RUN_MODE 14     /* RunMode, 0 or 1 */
#define KERNELSTILL_AT_L1ID 15         /* the trigger number, 8 bits */
#define KERNELSTILL_AT_BASE 16         /* the cycle from which the bunch number counts, 64 bits */
#define KERNELSTILL_AT_WLV1 17         /* the warning of an LV1 with flip, CSR bit 8; 0 or 1 */
#define KERNELSTILL_AT_WFST 18         /* the warning of a bad Fast, CSR bit 9; 0 or 1 */
#define KERNELSTILL_AT_WSLW 19         /* the warning of a bad Slow, CSR bit 10; 0 or 1 */
#define KERNELSTILL_AT_EARLIER_TIME 20 /* the time of the earlier record, 64 bits; it means nothing where there is none */
#define KERNELSTILL_AT_EARLIER_KIND 21 /* its kind, 8 bits; 0 where there is none */
#define KERNELSTILL_AT_REGISTERS 22    /* 16 words: the registers as stored, 16 bits each */
#define KERNELSTILL_AT_WRITES 38       /* 16 words: the FIFOs' write pointers, 8 bits each */
#define KERNELSTILL_AT_READS 54        /* 16 words: the FIFOs' read pointers, 8 bits each */

/*
 * Opens with a register plan at a cycle: writes the start state into the
 * image and answers 0. Numbers too wide for a mask or an address make a plan
 * that does not open. Refused with 1 or 2, it answers the number and writes
 * the default plan's start state at cycle 0. Where the image has another
 * length, it answers 1, 2 or else 3, and writes nothing.
 *
 * The image is room to write into: what it holds before is not read, is no
 * state handed in, and is overwritten at a refusal too. To keep a state, open
 * into another image.
 */
uint64_t kernelstill_open(
    uint64_t mask, uint64_t csr, uint64_t feen, uint64_t cnt,
    uint64_t cycle,
    uint64_t *image, size_t image_length);

/*
 * Takes `count` bits of the input from bit `first` on, the highest of byte 0
 * being bit 0, one a clock cycle, and answers 0. It updates the image, the
 * store and the tray, writes the records into the list from word `free` on,
 * and writes into the result the bits taken, the records written and how it
 * ended. It stops after a frame's record, since the next frame uses the tray
 * anew, and where fewer than two words of the list are free; go on with the
 * bits that remain, and with at least two free words, or else no bit is ever
 * taken. Refused with 3, 4, 5 or 6, it answers the number and changes nothing,
 * the result included.
 *
 * Wherever a stream is cut into calls, the records are the same, as long as
 * image, store and tray go from each call to the next.
 *
 * A record is two words of the list: time x 65536 + kind x 256 + flags, and
 * the value.
 */
uint64_t kernelstill_take(
    uint64_t *image, size_t image_length,
    const uint8_t *input, size_t input_length,
    size_t first, size_t count,
    uint32_t *store, size_t store_length,
    uint8_t *tray, size_t tray_length,
    uint64_t *list, size_t list_length,
    size_t free,
    uint64_t *result, size_t result_length);

/*
 * The count of bits of a frame, from the two words of its record, which is of
 * kind WR_FRONT_END, RD_FRONT_END or WR_RECEIVER; 0 for the other kinds.
 */
uint64_t kernelstill_frame_bits(uint64_t head, uint64_t value);

/*
 * How many bytes of the tray, from its first on, a frame of so many bits
 * fills; 0 if the tray has fewer bits. The unused bits of the last byte are 0
 * where the tray was carried over from the frame's first bit.
 */
size_t kernelstill_frame_part(const uint8_t *tray, size_t tray_length, size_t bits);

/*
 * Whether a finished stream of trigger and fast commands, `count` bits of the
 * input from bit `first` on, is accepted: zeros and whole, exact LV1, BCR, ECR,
 * CAL and SYNC, with at least the zeros between two that the timing table asks
 * (see the flags of a record). Nothing is asked ahead of the first command, and
 * zeros alone, or no bits, are accepted. A pattern begins at the first 1 behind
 * the one before. Nothing is changed, and nothing is kept between calls.
 *
 * The answer is 0, or the refusal number and the place of the first bit of the
 * first pattern at fault, counted from 0 at bit `first`, which the macros take
 * apart: WRONG_RANGE at place 0, checked first; then, pattern by pattern,
 * UNKNOWN_PATTERN where the bits up to the stream's end begin none of the five
 * commands, CUT_PATTERN where the stream ends inside one, PATTERN_TOO_CLOSE
 * where one is whole with too few zeros ahead of it.
 */
uint64_t kernelstill_accept(
    const uint8_t *input, size_t input_length,
    size_t first, size_t count);

#define KERNELSTILL_ACCEPT_NUMBER(answer) ((answer) & 0xFF) /* the refusal number, 0 for an accepted stream */
#define KERNELSTILL_ACCEPT_PLACE(answer) ((answer) >> 8)    /* the place, 0 for an accepted stream */

/*
 * An order: a command by the kind of its record, its fields, and the zeros
 * ahead of it. What a field holds that the command does not use is not looked
 * at, and such a field is sent as zeros. Six words, in this order, so that an
 * array of orders is a slice of words.
 */
struct kernelstill_order {
    uint64_t kind;    /* LV1, BCR, ECR, CAL, SYNC, or a Slow that is not bad */
    uint64_t zeros;   /* the zeros ahead of it */
    uint64_t address; /* of WR_REGISTER, RD_REGISTER and RD_FIFO: below 16 */
    uint64_t value;   /* of WR_REGISTER below 2^16, WR_FIFO below 2^27, GLOBAL_RESET_FE (SyncW) below 16 */
    uint64_t frame;   /* of the two FRONT_END kinds and WR_RECEIVER: the byte of `frames` with which their bits begin */
    uint64_t bits;    /* and how many bits these are: as many as CNT asks */
};

/*
 * Composes a stream from a list of orders, one after another, and writes it
 * into the output's first bytes, the highest bit of byte 0 first. The last
 * byte is filled up with zeros; the bytes beyond it are as they were. Front-end
 * bits last eight cycles each.
 *
 * The four numbers are a register plan, as in kernelstill_open. CNT is
 * followed as the orders write it: 0 at the start, then as WR_REGISTER to its
 * address leaves it, and 0 again after GLOBAL_RESET_MCC. A front-end frame has
 * CNT<2:0> x 8 control bits and then CNT<15:3> data bits, a WR_RECEIVER
 * CNT<12:0> x 8 bits; they stand in `frames` packed, highest bit first, each
 * frame from a byte of its own on, and bits past its count are not looked at.
 * Another count than CNT asks is WRONG_ORDER, and so are fewer bits from that
 * byte to the end of `frames`. Ahead of each order but the first lie at least
 * the zeros that the timing table asks (see the flags of a record).
 *
 * Reading the stream from an opening at cycle 0 with the same plan gives one
 * record an order, none of them with flip, unsteady or too close, and after
 * each frame its bits.
 *
 * The answer is one word, which the macros take apart: number 0 and the count
 * of bits; or a refusal, which writes nothing: WRONG_PLAN; then, order by
 * order, WRONG_ORDER or TOO_FEW_ZEROS with the order's number, counted from 0;
 * last of all STREAM_TOO_LONG. A last order of fewer than six words is
 * WRONG_ORDER.
 */
uint64_t kernelstill_compose(
    uint64_t mask, uint64_t csr, uint64_t feen, uint64_t cnt,
    const uint64_t *orders, size_t orders_length,
    const uint8_t *frames, size_t frames_length,
    uint8_t *output, size_t output_length);

#define KERNELSTILL_COMPOSE_NUMBER(answer) ((answer) & 0xFF) /* the refusal number, 0 for none */
#define KERNELSTILL_COMPOSE_BITS(answer) ((answer) >> 8)     /* the count of bits, where the number is 0 */
#define KERNELSTILL_COMPOSE_ORDER(answer) ((answer) >> 8)    /* the order's number, at WRONG_ORDER and TOO_FEW_ZEROS */

/*
 * Reads the chip's reply to RdFrontEnd from `count` bits of the line back from
 * it, from bit `first` of the input on: the header 11101, a cycle a bit, and
 * then `expected` data bits, each for eight cycles.
 *
 * The header is taken at its first place within the range, where all five bits
 * are exact, and is not looked for again. A data bit is 1 with five ones or
 * more among its eight cycles, 0 with three or fewer, and with four ones the
 * first cycle's bit. It is complete with its eighth cycle. The complete bits,
 * as many as are expected at most, fill the buffer from its start, the highest
 * bit of byte 0 first. The unused bits of the last byte that they reach are 0;
 * the bytes beyond it are as they were. What comes behind the last bit that is
 * expected is not looked at. Nothing is kept between calls: to go on with a
 * reply that was cut short, lend all of it again, with what came since.
 *
 * The answer is one word, which the macros take apart: number 0, a verdict and
 * the count of complete bits; or a refusal, which writes nothing:
 * WRONG_BIT_COUNT; then BUFFER_TOO_SMALL; then WRONG_RANGE.
 */
uint64_t kernelstill_reply(
    const uint8_t *input, size_t input_length,
    size_t first, size_t count,
    uint64_t expected,
    uint8_t *buffer, size_t buffer_length);

#define KERNELSTILL_REPLY_NUMBER(answer) ((answer) & 0xFF)       /* the refusal number, 0 for none */
#define KERNELSTILL_REPLY_VERDICT(answer) ((answer) >> 8 & 0xFF) /* one of the next three, where the number is 0; else 0 */
#define KERNELSTILL_REPLY_BITS(answer) ((answer) >> 16)          /* the count of complete bits; 0 at a refusal */

#define KERNELSTILL_REPLY_WHOLE 0     /* all bits that are expected */
#define KERNELSTILL_REPLY_NO_HEADER 1 /* the range has no header; no byte is changed */
#define KERNELSTILL_REPLY_CUT_SHORT 2 /* the range ends ahead of the last bit; where none is complete, no byte is changed */

/*
 * Reads a line of hexadecimal digits, given without its line feed, into the
 * start of `bytes`, half as many as there are digits, and answers 0. `bytes`
 * has 32 elements or more, whatever the line. Refused with 4, 7 or 8, it
 * answers the number and changes nothing.
 */
uint64_t kernelstill_hex_line(
    const uint8_t *line, size_t line_length,
    uint8_t *bytes, size_t bytes_length);

/*
 * Writes a record's line of the listing into the first 28 elements of `line`,
 * the last of them its line feed, and answers 0. The value is printed by its
 * low 32 bits; no record has more. Refused with 4 where `line` is shorter, it
 * changes nothing.
 */
uint64_t kernelstill_record_line(
    uint8_t *line, size_t line_length,
    uint64_t head, uint64_t value);

/* The fields of a record's first word. */
static inline uint64_t kernelstill_time(uint64_t head) { return head >> 16; }
static inline uint64_t kernelstill_kind(uint64_t head) { return head >> 8 & 0xFF; }
static inline uint64_t kernelstill_flags(uint64_t head) { return head & 0xFF; }

#ifdef __cplusplus
}
#endif

#endif
