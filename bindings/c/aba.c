/* The lattice of aba over a, b, ab and ba, and its cuts; then with b pruned. Ends with 0 if all is as document 01 has it.

       tools/native-staticlib export
       cc -I include -o target/native/aba bindings/c/aba.c target/native/libexport.a && target/native/aba */
#include <stdio.h>
#include <string.h>

#include "causeylark.h"

enum { EDGES = CAUSEYLARK_EDGES(3, 16), OFFSETS = CAUSEYLARK_OFFSETS(1, 3), SPANS = CAUSEYLARK_SPANS(1) };
enum { PLACES = CAUSEYLARK_PLACES(6), TABLE = CAUSEYLARK_TABLE(4) };

static uint32_t offsets[OFFSETS], starts[EDGES], ids[EDGES], spans[SPANS];

static void show(const char *call, uint32_t said, uint64_t told) {
    printf("%s: %u, told %u; offsets", call, (unsigned)said, (unsigned)told);
    for (size_t p = 0; p < OFFSETS; p++) printf(" %u", (unsigned)offsets[p]);
    printf("; edges");
    for (size_t edge = 0; edge < spans[1]; edge++) printf(" %u:%u", (unsigned)starts[edge], (unsigned)ids[edge]);
    printf("\n");
}

/* The best cut with scores -1 -1 -2 -2 is a and ba, by -3. Two cuts have that sum, and a, b, a is the third. */
static int cut(void) {
    const double scores[] = {-1, -1, -2, -2}, bad[] = {-1, -1, 2, -2};
    double best[4], alpha[4], beta[4], emitted[5], sum[1] = {0};
    uint32_t back[4], reach[4], path[3];
    uint64_t told[1];

    uint32_t said = causeylark_viterbi(offsets, 5, starts, 5, ids, 5, 3, scores, 4, best, 4, back, 4, path, 3, sum, 1, told, 1);
    printf("viterbi: %u, told %u; score %g; path", (unsigned)said, (unsigned)told[0], sum[0]);
    for (size_t k = 0; k < told[0]; k++) printf(" %u", (unsigned)path[k]);
    printf("\n");
    if (said != CAUSEYLARK_ACCEPTED || told[0] != 2 || sum[0] != -3 || path[0] != 0 || path[1] != 3) return 1;

    struct causeylark_short brief = causeylark_viterbi_short(offsets, 5, starts, 5, ids, 5, 3, scores, 4, best, 4, back, 4);
    printf("viterbi_short: %u, told %u; score %g; path %u %u\n", (unsigned)brief.number, (unsigned)brief.told, brief.score,
           (unsigned)brief.ids[0], (unsigned)brief.ids[1]);
    if (brief.number != CAUSEYLARK_ACCEPTED || brief.told != 2 || brief.score != -3 || brief.ids[1] != 3 || brief.ids[2]) return 1;

    said = causeylark_viterbi_excluding(offsets, 5, starts, 5, ids, 5, 3, scores, 4, 0, best, 4, sum, 1, told, 1);
    printf("viterbi_excluding: %u; score without a %g\n", (unsigned)said, sum[0]);
    if (said != CAUSEYLARK_ACCEPTED || sum[0] > -1e308) return 1;

    said = causeylark_is_connected(offsets, 5, starts, 5, ids, 5, 3, reach, 4, told, 1);
    printf("is_connected: %u, told %u\n", (unsigned)said, (unsigned)told[0]);
    if (said != CAUSEYLARK_ACCEPTED || told[0] != 1) return 1;

    said = causeylark_expectations(offsets, 5, starts, 5, ids, 5, 3, scores, 4, alpha, 4, beta, 4, emitted, 5, sum, 1, told, 1);
    printf("expectations: %u; sum %g; entries", (unsigned)said, sum[0]);
    for (size_t k = 0; k < 5; k++) printf(" %.3f", emitted[k]);
    printf("\n");
    /* Three cuts of -3 each. Every cut covers three characters, so the entries by length sum to 3. */
    double covered = emitted[0] + 2 * emitted[1] + emitted[2] + 2 * emitted[3] + emitted[4];
    if (said != CAUSEYLARK_ACCEPTED || covered < 2.999999 || covered > 3.000001) return 1;

    said = causeylark_viterbi(offsets, 5, starts, 5, ids, 5, 3, bad, 4, best, 4, back, 4, path, 3, sum, 1, told, 1);
    printf("viterbi: %u, place %u\n", (unsigned)said, (unsigned)told[0]);
    return said != CAUSEYLARK_BAD_SCORE || told[0] != 2;
}

int main(void) {
    const uint8_t text[3] = "aba", piece_text[4] = "abba";
    const uint32_t words[] = {0, 3}, pieces[] = {0, 1, 1, 1, 0, 2, 2, 2};
    const uint32_t remap[] = {0, CAUSEYLARK_PRUNED, 1, 2};
    const uint32_t built[OFFSETS] = {0, 0, 1, 3, 5}, pruned[OFFSETS] = {0, 0, 1, 2, 4};
    static uint64_t keys[PLACES], told[1];
    static uint32_t ends[PLACES], table[TABLE];

    uint32_t said = causeylark_build(16, text, 3, words, 2, piece_text, 4, pieces, 8, offsets, OFFSETS, starts, EDGES, ids,
                                     EDGES, spans, SPANS, keys, PLACES, ends, PLACES, table, TABLE, told, 1);
    show("build", said, told[0]);
    if (said != CAUSEYLARK_ACCEPTED || told[0] != 5 || memcmp(offsets, built, sizeof built)) return 1;

    if (cut()) return 1;

    said = causeylark_retain(offsets, OFFSETS, starts, EDGES, ids, EDGES, spans, SPANS, 1, remap, 4, told, 1);
    show("retain", said, told[0]);
    if (said != CAUSEYLARK_ACCEPTED || told[0] != 4 || memcmp(offsets, pruned, sizeof pruned)) return 1;
    return 0;
}
