/*
 * Makes the calls of kernelstill.h that stand on the standard input and writes
 * what came of each to the standard output, until the input ends.
 *
 * A request is words of 64 bits, lowest byte first: the function's number
 * below, then the arguments in the header's order. A slice stands as its
 * length in elements, 1 if its pointer is NULL or else 0, and its elements.
 * What came of it is the word that the function answered, then the elements
 * of each slice that is not const.
 *
 * Each slice is lent in a block of exactly its size, made for that call. In a
 * plain build, which is to catch the library's stray accesses, it ends at a
 * page that cannot be accessed, another such page lies ahead, and the bytes
 * between that and the slice are checked. With AddressSanitizer it is heap
 * memory; the sanitizer sees the driver's own accesses, not the library's.
 */
#define _DEFAULT_SOURCE

#include "kernelstill.h"

#include <stdio.h>
#include <stdlib.h>
#include <string.h>
#include <sys/mman.h>
#include <unistd.h>

_Static_assert(sizeof(size_t) == sizeof(uint64_t), "a size is a word");
_Static_assert(KERNELSTILL_LV1_POSITION(UINT64_C(0x000512FE)) == 0x05, "the position stands highest");
_Static_assert(KERNELSTILL_LV1_L1ID(UINT64_C(0x000512FE)) == 0x12, "the trigger number is in the middle");
_Static_assert(KERNELSTILL_LV1_BUNCH(UINT64_C(0x000512FE)) == 0xFE, "the bunch number stands lowest");
_Static_assert(KERNELSTILL_ACCEPT_NUMBER(UINT64_C(0x12340F)) == 0x0F, "the refusal number stands lowest");
_Static_assert(KERNELSTILL_ACCEPT_PLACE(UINT64_C(0x12340F)) == 0x1234, "the place stands above it");
_Static_assert(KERNELSTILL_COMPOSE_NUMBER(UINT64_C(0x12340A)) == 0x0A, "the refusal number stands lowest");
_Static_assert(KERNELSTILL_COMPOSE_BITS(UINT64_C(0x123400)) == 0x1234, "the count of bits stands above it");
_Static_assert(KERNELSTILL_COMPOSE_ORDER(UINT64_C(0x12340A)) == 0x1234, "the order's number stands above it");
_Static_assert(KERNELSTILL_REPLY_NUMBER(UINT64_C(0x123402FE)) == 0xFE, "the refusal number stands lowest");
_Static_assert(KERNELSTILL_REPLY_VERDICT(UINT64_C(0x123402FE)) == 0x02, "the verdict is in the middle");
_Static_assert(KERNELSTILL_REPLY_BITS(UINT64_C(0x123402FE)) == 0x1234, "the count of complete bits stands highest");
_Static_assert(KERNELSTILL_REPLY_BYTES == (KERNELSTILL_REPLY_DATA_BITS + 7) / 8, "a buffer holds the longest reply");
_Static_assert(sizeof(struct kernelstill_order) == KERNELSTILL_ORDER_WORDS * sizeof(uint64_t), "an order is six words");
_Static_assert(__BYTE_ORDER__ == __ORDER_LITTLE_ENDIAN__, "words stand lowest byte first");

enum function { OPEN = 1, TAKE, FRAME_BITS, FRAME_PART, HEX_LINE, RECORD_LINE, ACCEPT, COMPOSE, REPLY };

#define MOST_SLICES 6
#define MOST_ELEMENTS (UINT64_C(1) << 22) /* a request beyond it is malformed */
#define CALL_SECONDS 60                   /* a call that takes longer ends the driver */
#define BUFFER_BYTES (1 << 20)
#define AHEAD 0xA5 /* what stands ahead of a slice in its first page */

struct slice {
    unsigned char *data; /* as lent; NULL if the request says so */
    size_t length;       /* in elements */
    size_t bytes;
    unsigned char *sent; /* a const slice's contents, to compare with; else NULL */
    unsigned char *block; /* all that was allocated */
    size_t block_bytes;
};

/* The slices of one call, in the order of its arguments. */
struct call {
    struct slice lent[MOST_SLICES];
    size_t count;
};

static _Noreturn void die(const char *why)
{
    fprintf(stderr, "driver: %s\n", why);
    exit(EXIT_FAILURE);
}

static void read_bytes(void *into, size_t bytes)
{
    if (bytes != 0 && fread(into, 1, bytes, stdin) != bytes)
        die("a request is cut short");
}

static uint64_t read_word(void)
{
    uint64_t word;
    read_bytes(&word, sizeof word);
    return word;
}

static void write_bytes(const void *from, size_t bytes)
{
    if (bytes != 0 && fwrite(from, 1, bytes, stdout) != bytes)
        die("the output cannot be written");
}

#if defined(__SANITIZE_ADDRESS__)

static void allocate(struct slice *slice)
{
    slice->block = malloc(slice->bytes);
    if (slice->block == NULL)
        die("no memory");
    slice->data = slice->block;
}

static void seal(struct slice *slice)
{
    (void)slice; /* a const slice is only compared afterwards */
}

static void check_ahead(const struct slice *slice)
{
    (void)slice; /* nothing of the block's lies ahead */
}

static void release(struct slice *slice)
{
    free(slice->block);
}

#else

static size_t page_bytes(void)
{
    return (size_t)sysconf(_SC_PAGESIZE);
}

/* The bytes of the pages that hold the slice; at length 0 one page too. */
static size_t inner_bytes(const struct slice *slice)
{
    size_t page = page_bytes();
    return slice->bytes == 0 ? page : (slice->bytes + page - 1) / page * page;
}

static void allocate(struct slice *slice)
{
    size_t page = page_bytes(), inner = inner_bytes(slice);

    slice->block_bytes = inner + 2 * page;
    slice->block = mmap(NULL, slice->block_bytes, PROT_NONE,
                        MAP_PRIVATE | MAP_ANONYMOUS, -1, 0);
    if (slice->block == MAP_FAILED)
        die("no memory");
    if (mprotect(slice->block + page, inner, PROT_READ | PROT_WRITE) != 0)
        die("no access to a block");
    slice->data = slice->block + page + inner - slice->bytes;
    memset(slice->block + page, AHEAD, inner - slice->bytes);
}

/* Makes a const slice read-only, so that a write to it faults. */
static void seal(struct slice *slice)
{
    if (mprotect(slice->block + page_bytes(), inner_bytes(slice), PROT_READ) != 0)
        die("a const slice cannot be made read-only");
}

static void check_ahead(const struct slice *slice)
{
    if (slice->block == NULL)
        return;
    for (const unsigned char *at = slice->block + page_bytes(); at < slice->data; at++)
        if (*at != AHEAD)
            die("bytes ahead of a slice were changed");
}

static void release(struct slice *slice)
{
    if (slice->block != NULL && munmap(slice->block, slice->block_bytes) != 0)
        die("a block cannot be given back");
}

#endif

/* Reads a slice of the request into a block of its own. */
static struct slice *lend(struct call *call, size_t element_bytes)
{
    struct slice *slice = &call->lent[call->count++];
    uint64_t length = read_word(), is_null = read_word();

    if (length > MOST_ELEMENTS || is_null > 1 || (is_null == 1 && length != 0))
        die("a slice is malformed");
    *slice = (struct slice){.length = length, .bytes = length * element_bytes};
    if (is_null == 0) {
        allocate(slice);
        read_bytes(slice->data, slice->bytes);
    }
    return slice;
}

/* The same for a const slice, whose contents are kept to compare with. */
static struct slice *lend_const(struct call *call, size_t element_bytes)
{
    struct slice *slice = lend(call, element_bytes);

    slice->sent = malloc(slice->bytes + 1); /* never of 0 bytes, so never NULL */
    if (slice->sent == NULL)
        die("no memory");
    if (slice->block != NULL) {
        memcpy(slice->sent, slice->data, slice->bytes);
        seal(slice);
    }
    return slice;
}

static void check(const struct slice *slice)
{
    check_ahead(slice);
    if (slice->sent != NULL && slice->bytes != 0 &&
        memcmp(slice->sent, slice->data, slice->bytes) != 0)
        die("a const slice was changed");
}

/* Writes what came of a call, once all its slices are found undamaged. */
static void finish(struct call *call, uint64_t answer)
{
    for (size_t at = 0; at < call->count; at++)
        check(&call->lent[at]);
    write_bytes(&answer, sizeof answer);
    for (size_t at = 0; at < call->count; at++) {
        struct slice *slice = &call->lent[at];
        if (slice->sent == NULL)
            write_bytes(slice->data, slice->bytes);
        free(slice->sent);
        release(slice);
    }
    /* At once, so that a later fault is not laid to this call. */
    if (fflush(stdout) != 0)
        die("the output cannot be written");
}

static void open_reader(struct call *call)
{
    uint64_t mask = read_word(), csr = read_word();
    uint64_t feen = read_word(), cnt = read_word(), cycle = read_word();
    struct slice *image = lend(call, sizeof(uint64_t));

    finish(call, kernelstill_open(mask, csr, feen, cnt, cycle,
                                  (uint64_t *)image->data, image->length));
}

static void take_bits(struct call *call)
{
    struct slice *image = lend(call, sizeof(uint64_t));
    struct slice *input = lend_const(call, sizeof(uint8_t));
    size_t first = read_word(), count = read_word();
    struct slice *store = lend(call, sizeof(uint32_t));
    struct slice *tray = lend(call, sizeof(uint8_t));
    struct slice *list = lend(call, sizeof(uint64_t));
    size_t free_word = read_word();
    struct slice *result = lend(call, sizeof(uint64_t));

    finish(call, kernelstill_take((uint64_t *)image->data, image->length,
                                  input->data, input->length, first, count,
                                  (uint32_t *)store->data, store->length,
                                  tray->data, tray->length,
                                  (uint64_t *)list->data, list->length, free_word,
                                  (uint64_t *)result->data, result->length));
}

static void count_frame_bits(struct call *call)
{
    uint64_t head = read_word(), value = read_word();

    finish(call, kernelstill_frame_bits(head, value));
}

static void measure_frame(struct call *call)
{
    struct slice *tray = lend_const(call, sizeof(uint8_t));
    size_t bits = read_word();

    finish(call, kernelstill_frame_part(tray->data, tray->length, bits));
}

static void read_hex_line(struct call *call)
{
    struct slice *line = lend_const(call, sizeof(uint8_t));
    struct slice *bytes = lend(call, sizeof(uint8_t));

    finish(call, kernelstill_hex_line(line->data, line->length, bytes->data, bytes->length));
}

static void write_record_line(struct call *call)
{
    struct slice *line = lend(call, sizeof(uint8_t));
    uint64_t head = read_word(), value = read_word();

    finish(call, kernelstill_record_line(line->data, line->length, head, value));
}

static void accept_stream(struct call *call)
{
    struct slice *input = lend_const(call, sizeof(uint8_t));
    size_t first = read_word(), count = read_word();

    finish(call, kernelstill_accept(input->data, input->length, first, count));
}

static void compose_stream(struct call *call)
{
    uint64_t mask = read_word(), csr = read_word();
    uint64_t feen = read_word(), cnt = read_word();
    struct slice *orders = lend_const(call, sizeof(uint64_t));
    struct slice *frames = lend_const(call, sizeof(uint8_t));
    struct slice *output = lend(call, sizeof(uint8_t));

    finish(call, kernelstill_compose(mask, csr, feen, cnt,
                                     (const uint64_t *)orders->data, orders->length,
                                     frames->data, frames->length,
                                     output->data, output->length));
}

static void read_reply(struct call *call)
{
    struct slice *input = lend_const(call, sizeof(uint8_t));
    size_t first = read_word(), count = read_word();
    uint64_t expected = read_word();
    struct slice *buffer = lend(call, sizeof(uint8_t));

    finish(call, kernelstill_reply(input->data, input->length, first, count,
                                   expected, buffer->data, buffer->length));
}

static void serve(uint64_t function)
{
    struct call call = {.count = 0};

    switch (function) {
    case OPEN: open_reader(&call); break;
    case TAKE: take_bits(&call); break;
    case FRAME_BITS: count_frame_bits(&call); break;
    case FRAME_PART: measure_frame(&call); break;
    case HEX_LINE: read_hex_line(&call); break;
    case RECORD_LINE: write_record_line(&call); break;
    case ACCEPT: accept_stream(&call); break;
    case COMPOSE: compose_stream(&call); break;
    case REPLY: read_reply(&call); break;
    default: die("a request has an unknown function");
    }
}

int main(void)
{
    uint64_t function;
    size_t got;

    setvbuf(stdin, NULL, _IOFBF, BUFFER_BYTES);
    setvbuf(stdout, NULL, _IOFBF, BUFFER_BYTES);
    while ((got = fread(&function, 1, sizeof function, stdin)) == sizeof function) {
        alarm(CALL_SECONDS);
        serve(function);
        alarm(0);
    }
    if (got != 0 || ferror(stdin))
        die("a request is cut short");
    return EXIT_SUCCESS;
}
