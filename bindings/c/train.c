/* Trains on aba of frequency 2, to three pieces and a special. Ends with 0 if all is as document 01 has it.

       tools/native-staticlib export_train
       cc -I include -o target/native/train bindings/c/train.c target/native/libexport_train.a && target/native/train */
#include <stdio.h>
#include <string.h>

#include "causeylark.h"

/* Room for a word of three bytes and pieces of up to 16 characters; a is a character, and so is b. */
enum { WORDS = 1, BYTES = 3, PIECES = CAUSEYLARK_EDGES(BYTES, 16), PLACES = 2 * (PIECES + 1), TOKENS = 4 };
enum { OFFSETS = CAUSEYLARK_OFFSETS(WORDS, BYTES), SPANS = CAUSEYLARK_SPANS(WORDS) };

static uint32_t kept[2 * WORDS], table[2 * WORDS], chars[BYTES], places[3 * BYTES], order[PIECES], work[PIECES];
static uint32_t pieces[2 * PIECES], ends[PLACES], offsets[OFFSETS], starts[PIECES], ids[PIECES], spans[SPANS];
static uint64_t counts[WORDS], ranks[PIECES], tallies[PIECES], keys[PLACES], told[3];
static double scores[PIECES], expected[PIECES], token_scores[TOKENS];
static uint32_t tokens[2 * TOKENS];
static uint8_t bytes[16];

/* With so many tokens to be, and the Rust's other defaults. */
static uint32_t train(size_t vocab_size) {
    static const uint8_t special_text[] = "<pad>", text[] = "aba";
    static const uint32_t specials[] = {0, 5}, words[] = {0, 3};
    static const uint64_t frequencies[] = {2};
    uint32_t said = causeylark_train(vocab_size, 0, 0, 16, 2, 0.75, 2, special_text, 5, specials, 2, text, 3, words, 2,
                                     frequencies, 1, kept, 2 * WORDS, counts, WORDS, table, 2 * WORDS, chars, BYTES, places,
                                     3 * BYTES, order, PIECES, work, PIECES, ranks, PIECES, pieces, 2 * PIECES, tallies,
                                     PIECES, scores, PIECES, expected, PIECES, keys, PLACES, ends, PLACES, offsets, OFFSETS,
                                     starts, PIECES, ids, PIECES, spans, SPANS, bytes, sizeof bytes, tokens, 2 * TOKENS,
                                     token_scores, TOKENS, told, 3);
    printf("train: %u, told %u %u %u\n", (unsigned)said, (unsigned)told[0], (unsigned)told[1], (unsigned)told[2]);
    return said;
}

int main(void) {
    if (train(4) != CAUSEYLARK_ACCEPTED || told[0] != 4 || told[1] != 2 || told[2] != 0) return 1;
    for (size_t k = 0; k < told[0]; k++)
        printf("%.*s %g\n", (int)tokens[2 * k + 1], (const char *)bytes + tokens[2 * k], token_scores[k]);
    if (memcmp(bytes, "<pad>ab", 7) || token_scores[0] != 0 || token_scores[1] >= 0) return 1;

    /* A special and two characters need three tokens. */
    return train(2) != CAUSEYLARK_VOCAB_TOO_SMALL || told[0] != 3;
}
