/* Makes the calls of drivelog_crash_count and drivelog_crash_image that standard input asks for and prints what each left, for
 * `reference crashes`.
 *
 * Standard input, words of 8 bytes, little-endian:
 *     1 image_words ops_words, then the words of each    image and op buffer of the calls behind this one
 *     2 front fill reply_words                           a count
 *     3 front fill reply_words number output_words       an image
 * Before the call word i of the reply is fill + i, of the output fill + 2^40 + i. All that is lent is between a page that nobody may
 * touch, in front of it if `front` is 1 and else behind it, and guard bytes.
 *
 * Standard output, a line a call: what it returned; the words of the reply; `kept` or `touched` for the guard bytes and what is only
 * read; for an image a digest of the output. Input that is not of this form: status 2. */

#include "lent.h"

#include "drivelog.h"

#include <inttypes.h>

enum { MOST_IMAGE = 9000, MOST_OPS = 20000, MOST_REPLY = 16 };

static uint64_t image[MOST_IMAGE], ops[MOST_OPS], reply[MOST_REPLY], output[MOST_IMAGE];
static size_t image_words, ops_words;

static struct place in_image, in_ops, in_reply, in_output;

static void fail(const char *what)
{
    fprintf(stderr, "crashes: %s\n", what);
    exit(2);
}

static uint64_t word(void)
{
    uint64_t value;
    if (fread(&value, sizeof value, 1, stdin) != 1)
        fail("a request ends early");
    return value;
}

static size_t count_up_to(size_t most)
{
    uint64_t count = word();
    if (count > most)
        fail("a length that no request has");
    return (size_t)count;
}

static void read_words(uint64_t *words, size_t count)
{
    if (fread(words, sizeof words[0], count, stdin) != count)
        fail("words end early");
}

static uint64_t *lend_words(struct place *place, uint64_t *words, size_t count, uint64_t first)
{
    for (size_t i = 0; i < count; i++)
        words[i] = first + i;
    return lend(place, words, 8 * count);
}

static uint64_t digest(const struct place *place)
{
    const uint64_t *words = (const uint64_t *)(const void *)place->lent;
    uint64_t digest = place->bytes / 8;
    for (size_t i = 0; i < place->bytes / 8; i++) {
        digest = (digest ^ words[i]) * 0x9E3779B97F4A7C15;
        digest ^= digest >> 29;
    }
    return digest;
}

static void print(const char *name, int64_t result, size_t reply_words, int kept)
{
    printf("%s %" PRId64 " reply", name, result);
    for (size_t i = 0; i < reply_words; i++)
        printf(" %" PRIu64, ((const uint64_t *)(const void *)in_reply.lent)[i]);
    kept = kept && stayed(&in_image, image, 0) && stayed(&in_ops, ops, 0) && stayed(&in_reply, NULL, in_reply.bytes);
    printf(" %s", kept ? "kept" : "touched");
}

static void call(int puts)
{
    call_number++;
    at_front = word() != 0;
    uint64_t fill = word();
    size_t reply_words = count_up_to(MOST_REPLY);
    const uint64_t *i = lend(&in_image, image, 8 * image_words), *o = lend(&in_ops, ops, 8 * ops_words);
    uint64_t *r = lend_words(&in_reply, reply, reply_words, fill);
    if (!puts) {
        call_name = "crash_count";
        print("count", drivelog_crash_count(i, image_words, o, ops_words, r, reply_words), reply_words, 1);
        printf("\n");
        return;
    }
    call_name = "crash_image";
    uint64_t number = word();
    size_t output_words = count_up_to(MOST_IMAGE);
    uint64_t *put = lend_words(&in_output, output, output_words, fill + (1ull << 40));
    int64_t result = drivelog_crash_image(i, image_words, o, ops_words, number, put, output_words, r, reply_words);
    print("image", result, reply_words, stayed(&in_output, NULL, in_output.bytes));
    printf(" output %016" PRIx64 "\n", digest(&in_output));
}

int main(void)
{
    uint64_t request;
    while (fread(&request, sizeof request, 1, stdin) == 1) {
        if (request == 1) {
            image_words = count_up_to(MOST_IMAGE);
            ops_words = count_up_to(MOST_OPS);
            read_words(image, image_words);
            read_words(ops, ops_words);
        } else if (request == 2 || request == 3)
            call(request == 3);
        else
            fail("no such request");
        /* What was answered before a call that ends the program is seen. */
        fflush(stdout);
    }
    return 0;
}
