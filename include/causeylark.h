/* What C can call of Causeylark: the libraries that tools/native-staticlib writes to target/native. All but training is in
   libexport.a (`tools/native-staticlib export`), and training is in libexport_train.a (`tools/native-staticlib export_train`). A
   program that calls both links both.

   A slice is two arguments, a pointer and how many elements it has. The pointer is not NULL, even where the count is 0. The
   slices that are not const overlap no other slice of the call. Nothing else is demanded of a caller: no content, size or
   number is out of range, and every call ends. What is bad is refused. */
#ifndef CAUSEYLARK_H
#define CAUSEYLARK_H

#include <stddef.h>
#include <stdint.h>

#ifdef __cplusplus
extern "C" {
#endif

/* ---- Mathematics. docs/MATH.md fixes every bit of every result. */

/* e^x, ln x and ln(1 + y). */
double causeylark_exp(double x);
double causeylark_ln(double x);
double causeylark_ln_1p(double y);

/* ---- Characters */

/* How many bytes at the front of a text are UTF-8 by RFC 3629: all of them, or those before the first byte that begins no
   character. */
size_t causeylark_utf8_valid_up_to(const uint8_t *text, size_t bytes);

/* ---- Refusals: what a call of lattices, cuts or training answers. The place says where: it stands in told[0]. */
enum causeylark_answer {
    CAUSEYLARK_ACCEPTED = 0,
    /* A setting is beyond its bound. Place: one of causeylark_setting; of lattices and cuts, the piece length alone. */
    CAUSEYLARK_BAD_SETTING = 2,
    /* A word is over CAUSEYLARK_WORD_BYTES or outside the text; of lattices and cuts, or not UTF-8; of training, or has
       frequency 0. Place: the word's index. */
    CAUSEYLARK_BAD_WORD = 3,
    /* A word has equal bytes to an earlier one. Place: the word's index. */
    CAUSEYLARK_REPEATED_WORD = 4,
    /* Frequencies times characters, over the words that are UTF-8, are over 2^48 in all. Place: 0. */
    CAUSEYLARK_TOO_HEAVY = 5,
    /* There is no word, or none is UTF-8. Place: 0. */
    CAUSEYLARK_EMPTY_CORPUS = 6,
    /* There is no room. Place: one of causeylark_room. */
    CAUSEYLARK_NO_ROOM = 7,
    /* vocab_size has no room for every character and every special. Place: how many those are. */
    CAUSEYLARK_VOCAB_TOO_SMALL = 8,
    /* A lattice that is lent is not well formed, or a piece of it has no score. Place: the word's index; of a call on one
       word's lattice, 0. */
    CAUSEYLARK_BAD_LATTICE = 9,
    /* A score is NaN or above zero. Place: the lowest such id. */
    CAUSEYLARK_BAD_SCORE = 10,
    /* No cut has a finite sum. Place: 0. */
    CAUSEYLARK_NO_PATH = 11,
    /* An entry of the remap is neither CAUSEYLARK_PRUNED nor the count of survivors before it. Place: the entry. */
    CAUSEYLARK_BAD_REMAP = 13,
    /* A piece is outside its text, or not UTF-8. Place: the piece's id. */
    CAUSEYLARK_BAD_PIECE = 14,
    /* A spelling stands twice. Place: the later id. */
    CAUSEYLARK_REPEATED_PIECE = 15
};

enum causeylark_setting {
    CAUSEYLARK_SETTING_VOCAB = 1,
    CAUSEYLARK_SETTING_SEED = 2,
    CAUSEYLARK_SETTING_PIECE_LENGTH = 3,
    CAUSEYLARK_SETTING_EM = 4,
    CAUSEYLARK_SETTING_SPECIALS = 5
};

enum causeylark_room {
    /* More words, pieces or bytes of a text than the bounds below, or `table` has fewer than 2 slots a piece; of training, or
       `table`, `kept`, `counts` or a slice that a position indexes has too few slots. */
    CAUSEYLARK_ROOM_BOUNDS = 0,
    /* The seed list before its cut exceeds the piece slots. Of training alone. */
    CAUSEYLARK_ROOM_PIECES = 1,
    /* The distinct non-empty prefixes of the pieces and the root exceed half of the trie's places. */
    CAUSEYLARK_ROOM_TRIE = 2,
    /* The lattices have too few slots; of a call of cuts, a work slice has no slot for each of n + 1 positions, or `emitted` no
       entry for each edge. */
    CAUSEYLARK_ROOM_RESULTS = 3,
    /* The path has fewer than n slots; of training, the tokens exceed the slots of their bytes, spans or scores. */
    CAUSEYLARK_ROOM_PATH = 4
};

/* The bounds. */
#define CAUSEYLARK_PIECE_LENGTH 32
#define CAUSEYLARK_WORD_BYTES 255
#define CAUSEYLARK_WORDS 16384
#define CAUSEYLARK_PIECES 1048576
#define CAUSEYLARK_TEXT_BYTES 1048576
#define CAUSEYLARK_VOCAB_SIZE 65536
#define CAUSEYLARK_SEED_SIZE 1048576
#define CAUSEYLARK_EM_ITERATIONS 100
#define CAUSEYLARK_SPECIALS 256
#define CAUSEYLARK_SPECIAL_BYTES 255

/* In a remap: the piece is gone. */
#define CAUSEYLARK_PRUNED UINT32_MAX

/* ---- Lattices

   A word of n characters has n + 1 positions. An edge goes from a start to an end where a piece spells what lies between.
   A cache holds the lattices of all words, one after the other from slot 0, in four slices:

   - starts and ids: an edge each, by end and then by start. Its end is known from the offsets.
   - offsets: n + 2 a word. The edges that end at p are those from offset p up to offset p + 1, counted in the word's edges.
   - spans: four numbers a word. Where its edges begin, where they end, where its offsets begin, and n.

   Slots that always suffice, for so many words and pieces. word_bytes and piece_bytes are the lengths added up, and
   characters may stand for bytes. An edge counts up to `setting` for each character, so CAUSEYLARK_EDGES is generous: a
   caller can begin with less, and lend more where the answer is CAUSEYLARK_ROOM_RESULTS. */
#define CAUSEYLARK_OFFSETS(words, word_bytes) ((size_t)(word_bytes) + 2 * (size_t)(words))
#define CAUSEYLARK_EDGES(word_bytes, setting) ((size_t)(word_bytes) * (size_t)(setting))
#define CAUSEYLARK_SPANS(words) (4 * (size_t)(words))
#define CAUSEYLARK_PLACES(piece_bytes) (2 * ((size_t)(piece_bytes) + 1))
#define CAUSEYLARK_TABLE(pieces) (2 * (size_t)(pieces))

/* Builds the lattices of words over pieces.

   Words are spans of `text`, and pieces of `piece_text`: two numbers each, where its bytes begin and how many they are. An
   odd number at the end is ignored. A piece's id is its index. An edge exists exactly where a piece of 1 character up to
   `setting` spells it.

   Results: offsets, starts, ids, spans. After an accepted call the slots past those used are 0, and told[0] is the number of
   edges. A refusal leaves them as they were, and told[0] is its place. With no slot in `told`, nothing is told.

   Work: keys and ends, the trie's places, as many as the shorter has; and table. They may hold anything, and are zero after
   every call.

   Checks in this order: BAD_SETTING, NO_ROOM at 0, BAD_WORD, BAD_PIECE, REPEATED_PIECE, NO_ROOM at 2, NO_ROOM at 3. The
   first that applies is given, with the lowest place. */
uint32_t causeylark_build(size_t setting,
                          const uint8_t *text, size_t text_bytes,
                          const uint32_t *words, size_t word_numbers,
                          const uint8_t *piece_text, size_t piece_text_bytes,
                          const uint32_t *pieces, size_t piece_numbers,
                          uint32_t *offsets, size_t offset_slots,
                          uint32_t *starts, size_t start_slots,
                          uint32_t *ids, size_t id_slots,
                          uint32_t *spans, size_t span_slots,
                          uint64_t *keys, size_t key_slots,
                          uint32_t *ends, size_t end_slots,
                          uint32_t *table, size_t table_slots,
                          uint64_t *told, size_t told_slots);

/* Prunes a cache of so many words in place: drops the edges of pieces that are gone, and renumbers the others.

   An entry of the remap for each piece: CAUSEYLARK_PRUNED, or the piece's new id, which is the count of survivors before it.
   After an accepted call the lattices are those built afresh from the survivors, the slots past those used are 0, and told[0]
   is the number of edges. A refusal leaves all as it was, and told[0] is its place.

   Checks in this order: BAD_LATTICE, BAD_REMAP. */
uint32_t causeylark_retain(uint32_t *offsets, size_t offset_slots,
                           uint32_t *starts, size_t start_slots,
                           uint32_t *ids, size_t id_slots,
                           uint32_t *spans, size_t span_slots,
                           size_t words,
                           const uint32_t *remap, size_t entries,
                           uint64_t *told, size_t told_slots);

/* ---- Cuts

   A cut of a word is a chain of edges from position 0 to n. The empty word has one, with no edges and sum 0. These calls take
   one word's lattice: its n + 2 offsets, counted from 0, its edges' starts and ids, and n. Of a cache, with `span` its word's
   four numbers, that is offsets + span[2], starts + span[0], ids + span[0] and span[3], with span[1] - span[0] edges.

   scores has an entry a piece, each at zero or below; minus infinity is one. best, back, reach, alpha and beta are work slices
   of n + 1 slots. They may hold anything, and are zero after every call, however long; so lend n + 1 and not more.

   A sum stands in sum[0] after an accepted call. A refusal leaves sum, path and emitted as they were, and told[0] is its place.
   With no slot in `sum` or `told`, nothing is put there.

   Checks in this order: BAD_LATTICE, BAD_SCORE, NO_ROOM at 3, NO_ROOM at 4, NO_PATH. */

/* The best cut: sum[0] is its score, told[0] how many pieces it has, and their ids stand in front of path, which has n slots or
   more. The other slots of path are kept. Of equal cuts the earliest start at each position wins. */
uint32_t causeylark_viterbi(const uint32_t *offsets, size_t offset_count,
                            const uint32_t *starts, size_t start_count,
                            const uint32_t *ids, size_t id_count,
                            size_t n,
                            const double *scores, size_t score_count,
                            double *best, size_t best_slots,
                            uint32_t *back, size_t back_slots,
                            uint32_t *path, size_t path_slots,
                            double *sum, size_t sum_slots,
                            uint64_t *told, size_t told_slots);

/* The same for a word of at most 32 characters, by value. A longer one has NO_ROOM at 4. */
struct causeylark_short {
    /* The score; +0 after a refusal. */
    double score;
    /* How many pieces, or the refusal's place. */
    uint64_t told;
    /* CAUSEYLARK_ACCEPTED, or the refusal. */
    uint32_t number;
    /* The pieces; unused ids are 0, all of them after a refusal. */
    uint32_t ids[32];
};
struct causeylark_short causeylark_viterbi_short(const uint32_t *offsets, size_t offset_count,
                                                 const uint32_t *starts, size_t start_count,
                                                 const uint32_t *ids, size_t id_count,
                                                 size_t n,
                                                 const double *scores, size_t score_count,
                                                 double *best, size_t best_slots,
                                                 uint32_t *back, size_t back_slots);

/* The best score without ever using the piece `excluded`: sum[0], minus infinity where nothing else spells the word. told[0] is
   0. There is no NO_ROOM at 4 and no NO_PATH. */
uint32_t causeylark_viterbi_excluding(const uint32_t *offsets, size_t offset_count,
                                      const uint32_t *starts, size_t start_count,
                                      const uint32_t *ids, size_t id_count,
                                      size_t n,
                                      const double *scores, size_t score_count,
                                      uint32_t excluded,
                                      double *best, size_t best_slots,
                                      double *sum, size_t sum_slots,
                                      uint64_t *told, size_t told_slots);

/* Whether there is a cut: told[0] is 1 or 0. No score is lent, so a piece may have any id. Checks BAD_LATTICE, NO_ROOM at 3. */
uint32_t causeylark_is_connected(const uint32_t *offsets, size_t offset_count,
                                 const uint32_t *starts, size_t start_count,
                                 const uint32_t *ids, size_t id_count,
                                 size_t n,
                                 uint32_t *reach, size_t reach_slots,
                                 uint64_t *told, size_t told_slots);

/* How much every edge counts over all cuts: in front of emitted an entry an edge, +0 where there is none; sum[0] is the
   logarithm of the sum over all cuts, minus infinity where it is not finite, and told[0] is 0. The other slots of emitted are
   kept. There is no NO_ROOM at 4 and no NO_PATH. */
uint32_t causeylark_expectations(const uint32_t *offsets, size_t offset_count,
                                 const uint32_t *starts, size_t start_count,
                                 const uint32_t *ids, size_t id_count,
                                 size_t n,
                                 const double *scores, size_t score_count,
                                 double *alpha, size_t alpha_slots,
                                 double *beta, size_t beta_slots,
                                 double *emitted, size_t emitted_slots,
                                 double *sum, size_t sum_slots,
                                 uint64_t *told, size_t told_slots);

/* The best cut of one word over a list of pieces, lent as for causeylark_build, with a score for each. It answers as
   causeylark_viterbi does: the empty word has sum 0 and told[0] 0. path has a slot for each character of the word. keys, ends and
   table are the work slices of causeylark_build. Each call builds the trie of all pieces; to cut many words, build a cache.

   Checks in this order: BAD_SETTING, NO_ROOM at 0, BAD_WORD, BAD_PIECE, REPEATED_PIECE, BAD_SCORE (a piece without a score too),
   NO_ROOM at 2, NO_ROOM at 4, NO_PATH. */
uint32_t causeylark_cut(size_t setting,
                        const uint8_t *word, size_t word_bytes,
                        const uint8_t *spellings, size_t spelling_bytes,
                        const uint32_t *pieces, size_t piece_numbers,
                        const double *scores, size_t score_count,
                        uint32_t *path, size_t path_slots,
                        uint64_t *keys, size_t key_slots,
                        uint32_t *ends, size_t end_slots,
                        uint32_t *table, size_t table_slots,
                        double *sum, size_t sum_slots,
                        uint64_t *told, size_t told_slots);

/* ---- Training

   Words with frequencies in, tokens with scores out. Words are spans of `text` and specials of `special_text`: two numbers each,
   where its bytes begin and how many they are. Words may overlap. A word has a frequency, and the shorter of `words` and
   `frequencies` counts. A word that is not UTF-8 is skipped.

   Settings: vocab_size, how many tokens there are to be, specials among them; seed_flag and seed_size, how many pieces to begin
   with, 16 times as many as there are to be where the flag is 0; max_piece_chars, the most characters of a piece; min_frequency,
   how often a piece of more than one character has to stand in the words; shrink_factor, the part of the pieces that a round
   keeps; em_iterations, how many passes of EM a round has. The Rust's defaults are 8000, flag 0, 16, 2, 0.75, 2, and no special.

   Results: the specials come first, with score 0, then the pieces, those of one character first. `bytes` has the bytes of all
   tokens one after the other, `tokens` two numbers a token, where its bytes begin and how many they are, and `token_scores` a
   score a token. After an accepted call told[0] is the number of tokens, told[1] the number of required pieces, which are those
   of one character, and told[2] is 1 where training stalled over its target, else 0; the other slots of the results are kept. A
   refusal leaves the results as they were, and told[0] is its place. What has no slot in `told` is not told.

   Work: all other slices. They may hold anything, and are zero after every call, however long. With S piece slots, and P the
   larger of text_bytes and the bytes of all words together, so many slots are asked for:

   - kept and table 2 a word, counts 1 a word; chars P, places 3 P: else NO_ROOM at 0.
   - order, work and ranks P, and S: NO_ROOM at 0 or at 1. pieces 2 S; tallies, scores and expected S: NO_ROOM at 1. The list
     before its cut has every character once, and every longer string of up to max_piece_chars characters that stands in the
     words min_frequency times. CAUSEYLARK_EDGES(P, max_piece_chars), and P if that is 0, always suffices for S, and is generous.
   - keys and ends, the trie's places: 2 (S + 1) always suffices. NO_ROOM at 2.
   - offsets CAUSEYLARK_OFFSETS(words, P), starts and ids CAUSEYLARK_EDGES(P, max_piece_chars), spans CAUSEYLARK_SPANS(words):
     NO_ROOM at 3. P edges suffice where max_piece_chars is 0.
   - tokens 2 and token_scores 1 for each token: with a shrink_factor below 1 there are no more than the larger of vocab_size
     and the specials; bytes for all of them. NO_ROOM at 4.

   Checks in this order: BAD_SETTING, NO_ROOM at 0, BAD_WORD, REPEATED_WORD, TOO_HEAVY, EMPTY_CORPUS, NO_ROOM at 1,
   VOCAB_TOO_SMALL, NO_ROOM at 2, NO_ROOM at 3, NO_ROOM at 4. The first that applies is given, with the lowest place. */
uint32_t causeylark_train(size_t vocab_size, uint32_t seed_flag, size_t seed_size,
                          size_t max_piece_chars, uint64_t min_frequency,
                          double shrink_factor, size_t em_iterations,
                          const uint8_t *special_text, size_t special_bytes,
                          const uint32_t *specials, size_t special_numbers,
                          const uint8_t *text, size_t text_bytes,
                          const uint32_t *words, size_t word_numbers,
                          const uint64_t *frequencies, size_t frequency_count,
                          uint32_t *kept, size_t kept_slots,
                          uint64_t *counts, size_t count_slots,
                          uint32_t *table, size_t table_slots,
                          uint32_t *chars, size_t char_slots,
                          uint32_t *places, size_t place_slots,
                          uint32_t *order, size_t order_slots,
                          uint32_t *work, size_t work_slots,
                          uint64_t *ranks, size_t rank_slots,
                          uint32_t *pieces, size_t piece_slots,
                          uint64_t *tallies, size_t tally_slots,
                          double *scores, size_t score_slots,
                          double *expected, size_t expected_slots,
                          uint64_t *keys, size_t key_slots,
                          uint32_t *ends, size_t end_slots,
                          uint32_t *offsets, size_t offset_slots,
                          uint32_t *starts, size_t start_slots,
                          uint32_t *ids, size_t id_slots,
                          uint32_t *spans, size_t span_slots,
                          uint8_t *bytes, size_t byte_slots,
                          uint32_t *tokens, size_t token_slots,
                          double *token_scores, size_t token_score_slots,
                          uint64_t *told, size_t told_slots);

#ifdef __cplusplus
}
#endif

#endif
