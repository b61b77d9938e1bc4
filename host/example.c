/*
 * Takes two hexadecimal lines of a capture and prints the listing of their
 * records and frames. For C11 and C++17; host/build compiles it.
 */
#include <inttypes.h>
#include <stdio.h>
#include <string.h>

#include "kernelstill.h"

/*
 * The capture, from cycle 0:
 *
 *   cycles   0 to  32  WrRegister: CNT = 0002, so a receiver frame has 16 bits
 *   cycles  33 to  65  WrReceiver with the frame A5C3
 *   cycles  66 to  82  EnDataTake: RunMode starts
 *   cycles  87 to  91  LV1
 *   cycles  95 to  99  LV1 with flip: 11001 instead of 11101, position 3
 *   cycles 102 to 110  BCR: bunch numbers count from here
 *   cycles 113 to 121  CAL
 *   cycles 122 to 154  RdRegister of CSR: 0100, the warning of the flip
 *
 * and zeros in between and at the end. The first line ends with cycle 55, six
 * bits into the frame.
 */
static const char *const capture[] = {"B58280015AD829", "70ED7001D192C2592D62000000"};

/* Two records at a time, so that even this capture fills the list. */
#define LIST_WORDS (2 * KERNELSTILL_RECORD_WORDS)

/* All that is remembered between calls. */
struct reader {
    uint64_t image[KERNELSTILL_IMAGE_WORDS];
    uint32_t store[KERNELSTILL_STORE_WORDS];
    uint8_t tray[KERNELSTILL_TRAY_BYTES];
};

/* Says which call was refused, and hands its number on. */
static uint64_t checked(const char *call, uint64_t number)
{
    if (number != KERNELSTILL_OK)
        fprintf(stderr, "%s: refused with number %" PRIu64 "\n", call, number);
    return number;
}

static uint64_t print_record(uint64_t head, uint64_t value)
{
    uint8_t line[KERNELSTILL_RECORD_LINE_BYTES];
    uint64_t number = checked("kernelstill_record_line",
        kernelstill_record_line(line, sizeof line, head, value));
    if (number == KERNELSTILL_OK)
        fwrite(line, 1, sizeof line, stdout);
    return number;
}

static void print_frame(const uint8_t *tray, uint64_t head, uint64_t value)
{
    size_t bits = (size_t)kernelstill_frame_bits(head, value);
    size_t length = kernelstill_frame_part(tray, KERNELSTILL_TRAY_BYTES, bits);
    if (length == 0)
        return;
    putchar('>');
    for (size_t place = 0; place < length; place++)
        printf("%02X", (unsigned)tray[place]);
    putchar('\n');
}

/*
 * Takes `count` bits from bit `first` on, whatever they hold. Only the first
 * call can be refused, so that a refusal leaves the reader as it was.
 */
static uint64_t take(struct reader *reader, const uint8_t *input, size_t length, size_t first, size_t count)
{
    uint64_t list[LIST_WORDS];
    uint64_t result[KERNELSTILL_RESULT_WORDS];

    do {
        uint64_t number = checked("kernelstill_take",
            kernelstill_take(
                reader->image, KERNELSTILL_IMAGE_WORDS,
                input, length, first, count,
                reader->store, KERNELSTILL_STORE_WORDS,
                reader->tray, KERNELSTILL_TRAY_BYTES,
                list, LIST_WORDS, 0,
                result, KERNELSTILL_RESULT_WORDS));
        if (number != KERNELSTILL_OK)
            return number;

        size_t words = (size_t)result[KERNELSTILL_RESULT_RECORDS] * KERNELSTILL_RECORD_WORDS;
        for (size_t place = 0; place < words; place += KERNELSTILL_RECORD_WORDS) {
            number = print_record(list[place], list[place + 1]);
            if (number != KERNELSTILL_OK)
                return number;
        }
        /* Before the next call, whose frame would take its place. */
        if (result[KERNELSTILL_RESULT_ENDING] == KERNELSTILL_FRAME)
            print_frame(reader->tray, list[words - 2], list[words - 1]);

        first += (size_t)result[KERNELSTILL_RESULT_BITS];
        count -= (size_t)result[KERNELSTILL_RESULT_BITS];
    } while (result[KERNELSTILL_RESULT_ENDING] != KERNELSTILL_DONE);
    return KERNELSTILL_OK;
}

static uint64_t take_line(struct reader *reader, const char *line)
{
    uint8_t bytes[KERNELSTILL_LINE_BYTES];
    size_t digits = strlen(line);
    uint64_t number = checked("kernelstill_hex_line",
        kernelstill_hex_line((const uint8_t *)line, digits, bytes, sizeof bytes));
    if (number != KERNELSTILL_OK)
        return number;
    return take(reader, bytes, digits / 2, 0, digits / 2 * 8);
}

int main(void)
{
    /* Static memory is 0, and so are the FIFO words at the start. */
    static struct reader reader;

    uint64_t number = checked("kernelstill_open",
        kernelstill_open(
            KERNELSTILL_DEFAULT_MASK, KERNELSTILL_DEFAULT_CSR,
            KERNELSTILL_DEFAULT_FEEN, KERNELSTILL_DEFAULT_CNT,
            0, reader.image, KERNELSTILL_IMAGE_WORDS));
    if (number != KERNELSTILL_OK)
        return 1;

    for (size_t line = 0; line < sizeof capture / sizeof capture[0]; line++) {
        if (take_line(&reader, capture[line]) != KERNELSTILL_OK)
            return 1;
    }

    /* A full disk must not go unnoticed. */
    if (fflush(stdout) != 0 || ferror(stdout)) {
        perror("standard output");
        return 1;
    }
    return 0;
}
