/* Makes the calls of drivelog_vet that standard input asks for and prints what each left, for `reference vet`.
 *
 * Standard input, words of 8 bytes, little-endian:
 *     1 state_words image_words, then the words of each    what the calls behind this one are lent
 *     2 front fill reply_words ops_words, then the words of the op buffer    a call
 * Before the call word i of the reply is fill + i. All that is lent is between a page that nobody may touch, in front of it if `front` is
 * 1 and else behind it, and guard bytes.
 *
 * Standard output, a line a call: what it returned; the words of the reply; and `kept`, or `touched` where a guard byte or a word of
 * state, image or op buffer is not as it was. Input that is not of this form: status 2. */

#include "lent.h"

#include "drivelog.h"

#include <inttypes.h>

enum { MOST_STATE = 600, MOST_IMAGE = 9000, MOST_OPS = 30000, MOST_REPLY = 16 };

/* What is lent as it is before the call. */
static uint64_t state[MOST_STATE], image[MOST_IMAGE], ops[MOST_OPS], reply[MOST_REPLY];
static size_t state_words, image_words;

static struct place in_state, in_image, in_ops, in_reply;

static void fail(const char *what)
{
    fprintf(stderr, "vet: %s\n", what);
    exit(2);
}

static uint64_t word(void)
{
    uint64_t value;
    if (fread(&value, sizeof value, 1, stdin) != 1)
        fail("a request ends early");
    return value;
}

static size_t count_up_to(size_t most)
{
    uint64_t count = word();
    if (count > most)
        fail("a length that no request has");
    return (size_t)count;
}

static void read_words(uint64_t *words, size_t count)
{
    if (fread(words, sizeof *words, count, stdin) != count)
        fail("the words of a request end early");
}

static void vet(void)
{
    call_number++;
    at_front = word() != 0;
    uint64_t fill = word();
    size_t reply_words = count_up_to(MOST_REPLY), ops_words = count_up_to(MOST_OPS);
    read_words(ops, ops_words);
    for (size_t i = 0; i < reply_words; i++)
        reply[i] = fill + i;
    const uint64_t *s = lend(&in_state, state, 8 * state_words), *m = lend(&in_image, image, 8 * image_words);
    const uint64_t *o = lend(&in_ops, ops, 8 * ops_words);
    uint64_t *r = lend(&in_reply, reply, 8 * reply_words);
    int64_t result = drivelog_vet(s, state_words, m, image_words, o, ops_words, r, reply_words);

    printf("vet %" PRId64 " reply", result);
    for (size_t i = 0; i < reply_words; i++)
        printf(" %" PRIu64, ((const uint64_t *)(const void *)in_reply.lent)[i]);
    int kept = stayed(&in_state, state, 0) && stayed(&in_image, image, 0) && stayed(&in_ops, ops, 0) &&
               stayed(&in_reply, NULL, in_reply.bytes);
    printf(" %s\n", kept ? "kept" : "touched");
}

int main(void)
{
    call_name = "vet";
    uint64_t request;
    while (fread(&request, sizeof request, 1, stdin) == 1) {
        if (request == 1) {
            state_words = count_up_to(MOST_STATE);
            image_words = count_up_to(MOST_IMAGE);
            read_words(state, state_words);
            read_words(image, image_words);
        } else if (request == 2)
            vet();
        else
            fail("no such request");
        /* What was answered before a call that ends the program is seen. */
        fflush(stdout);
    }
    return 0;
}
