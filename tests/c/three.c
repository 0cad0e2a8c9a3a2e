/* Makes the calls of drivelog_recover_three that standard input asks for and prints what each left, for `reference three`.
 *
 * Standard input, words of 8 bytes, little-endian:
 *     1 words0 words1 words2, then the words of each    the images of the calls behind this one
 *     2 front present fill state_words reply_words ops0_words ops1_words ops2_words    a call
 * Before the call word i of the state is fill + i, of the reply fill + 2^32 + i, of op buffer k fill + (2 + k) 2^32 + i. All that is lent
 * is between a page that nobody may touch, in front of it if `front` is 1 and else behind it, and guard bytes. Image and op buffer of an
 * absent module are memory that nobody may touch at all.
 *
 * Standard output, a line a call: what it returned; the words of the reply; a digest of the state; for each module digests of image and
 * op buffer, or `absent`; and `kept` or `touched` for the guard bytes. Input that is not of this form: status 2. */

#include "lent.h"

#include "drivelog.h"

#include <inttypes.h>

enum { MODULES = 3, MOST_IMAGE = 9000, MOST_OPS = 30000, MOST_STATE = 600, MOST_REPLY = 16 };

static uint64_t images[MODULES][MOST_IMAGE];
static size_t image_words[MODULES];

/* What is lent as it is before the call. */
static uint64_t state[MOST_STATE], reply[MOST_REPLY], ops[MODULES][MOST_OPS];

static struct place in_state, in_reply, in_image[MODULES], in_ops[MODULES];

static void fail(const char *what)
{
    fprintf(stderr, "three: %s\n", what);
    exit(2);
}

static uint64_t word(void)
{
    uint64_t value;
    if (fread(&value, sizeof value, 1, stdin) != 1)
        fail("a request ends early");
    return value;
}

static size_t count_up_to(size_t most)
{
    uint64_t count = word();
    if (count > most)
        fail("a length that no request has");
    return (size_t)count;
}

static void read_images(void)
{
    for (size_t i = 0; i < MODULES; i++)
        image_words[i] = count_up_to(MOST_IMAGE);
    for (size_t i = 0; i < MODULES; i++)
        if (fread(images[i], sizeof images[i][0], image_words[i], stdin) != image_words[i])
            fail("the words of an image end early");
}

static uint64_t *lend_words(struct place *place, uint64_t *words, size_t count, uint64_t first)
{
    for (size_t i = 0; i < count; i++)
        words[i] = first + i;
    return lend(place, words, 8 * count);
}

/* Memory that nobody may touch, for image or op buffer of an absent module. */
static uint64_t *forbidden(size_t number)
{
    static uint8_t *pages;
    const size_t bytes = (size_t)8 * MOST_OPS;
    if (pages == NULL) {
        void *all = mmap(NULL, 2 * MODULES * bytes, PROT_NONE, MAP_PRIVATE | MAP_ANONYMOUS, -1, 0);
        need(all != MAP_FAILED, "no memory");
        pages = all;
    }
    return (uint64_t *)(void *)(pages + number * bytes);
}

static uint64_t digest(const struct place *place)
{
    const uint64_t *words = (const uint64_t *)(const void *)place->lent;
    uint64_t digest = place->bytes / 8;
    for (size_t i = 0; i < place->bytes / 8; i++) {
        digest = (digest ^ words[i]) * 0x9E3779B97F4A7C15;
        digest ^= digest >> 29;
    }
    return digest;
}

static int guards_stayed(const struct place *place) { return stayed(place, NULL, place->bytes); }

static void recover_three(void)
{
    call_number++;
    at_front = word() != 0;
    uint64_t present = word(), fill = word(), *image[MODULES], *op[MODULES];
    size_t state_words = count_up_to(MOST_STATE), reply_words = count_up_to(MOST_REPLY), ops_words[MODULES];
    uint64_t *s = lend_words(&in_state, state, state_words, fill);
    uint64_t *r = lend_words(&in_reply, reply, reply_words, fill + (1ull << 32));
    for (size_t i = 0; i < MODULES; i++) {
        int here = present >> i & 1;
        ops_words[i] = count_up_to(MOST_OPS);
        image[i] = here ? lend(&in_image[i], images[i], 8 * image_words[i]) : forbidden(i);
        op[i] = here ? lend_words(&in_ops[i], ops[i], ops_words[i], fill + ((2 + (uint64_t)i) << 32)) : forbidden(MODULES + i);
    }
    int64_t result =
        drivelog_recover_three(s, state_words, image[0], image_words[0], image[1], image_words[1], image[2], image_words[2], present,
                               op[0], ops_words[0], op[1], ops_words[1], op[2], ops_words[2], r, reply_words);

    printf("three %" PRId64 " reply", result);
    for (size_t i = 0; i < reply_words; i++)
        printf(" %" PRIu64, ((const uint64_t *)(const void *)in_reply.lent)[i]);
    printf(" state %016" PRIx64, digest(&in_state));
    int kept = guards_stayed(&in_state) && guards_stayed(&in_reply);
    for (size_t i = 0; i < MODULES; i++)
        if (present >> i & 1) {
            printf(" module %016" PRIx64 " %016" PRIx64, digest(&in_image[i]), digest(&in_ops[i]));
            kept = kept && guards_stayed(&in_image[i]) && guards_stayed(&in_ops[i]);
        } else
            printf(" absent");
    printf(" %s\n", kept ? "kept" : "touched");
}

int main(void)
{
    call_name = "recover_three";
    uint64_t request;
    while (fread(&request, sizeof request, 1, stdin) == 1) {
        if (request == 1)
            read_images();
        else if (request == 2)
            recover_three();
        else
            fail("no such request");
        /* What was answered before a call that ends the program is seen. */
        fflush(stdout);
    }
    return 0;
}
