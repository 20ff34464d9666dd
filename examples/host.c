/* A host: lends a heap of 1,024 words, runs the image in the file that it is given, and prints the reading or why there is none. */
#include "codlinbell.h"

#include <inttypes.h>
#include <stdio.h>

#define WORDS 1024
#define MOST_BYTES 16384

static uint8_t image[MOST_BYTES + 1];
static uint64_t heap[2 * WORDS];

static const char *const why_no_value[] = {
    "", "a null pointer was followed", "an index was out of bounds", "there was no room", "unchecked code broke something",
    "the limit of steps was reached",
};

static void tell(const uint64_t *out)
{
    if (out[0] == CODLINBELL_REFUSED)
        printf("no reading: the image was refused, fault %" PRIu64 " at %" PRIu64 "\n", out[1], out[2]);
    else if (out[1] == CODLINBELL_END_VALUE)
        printf("reading %" PRIu64 " after %" PRIu64 " steps\n", out[2], out[4]);
    else
        printf("no reading: %s, after %" PRIu64 " steps\n", why_no_value[out[1]], out[4]);
}

int main(int argc, char **argv)
{
    uint64_t out[CODLINBELL_OUT];
    FILE *file = argc == 2 ? fopen(argv[1], "rb") : NULL;
    if (file == NULL) {
        fprintf(stderr, "usage: host IMAGE\n");
        return 2;
    }
    size_t length = fread(image, 1, sizeof image, file);
    fclose(file);
    if (!codlinbell_answer(image, length, heap, 2 * WORDS, CODLINBELL_DEFAULT_LIMIT, out, CODLINBELL_OUT))
        return 1;
    tell(out);
    return 0;
}
