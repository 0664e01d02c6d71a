/* The sample ring: written, searched, with a pipe that fails, converted from its old file, joined, tallied with its score, a
 * front taken back, and its reliability by age.
 *
 *     examples/run-c [FILE]
 *
 * With FILE the study file is left there as well. */
#include <inttypes.h>
#include <stdio.h>
#include <stdlib.h>
#include <string.h>

#include "medlarbrace.h"

/* nodes 0 to 5: source and target never fail, two stations of each class */
static const uint8_t nodes[] = {0, 0, 1, 1, 2, 2};
/* from, to, kind: kind 0 leads one way and never fails */
static const uint8_t arcs[] = {0, 2, 0, 2, 4, 0, 4, 1, 0, 0, 3, 0, 3, 1, 0, 0, 5, 0, 5, 1, 0};
/* one round, by places in the class: 3, the second of class 1, fails before 2, and 5 before 4 */
static const uint8_t rounds[] = {1, 0, 1, 0};
/* the same with the last pipe, 5 to 1, of class 2: its third member, after nodes 4 and 5, and the first to fail */
static const uint8_t piped_arcs[] = {0, 2, 0, 2, 4, 0, 4, 1, 0, 0, 3, 0, 3, 1, 0, 0, 5, 0, 5, 1, 2};
static const uint8_t piped_rounds[] = {1, 0, 2, 1, 0};
/* the ring's file up to version 2.1: two bytes an arc, orders by node numbers */
static const uint8_t old_file[] = {0, 0, 1, 1, 2, 2, 0, 2, 2, 4, 4, 1, 0, 3, 3, 1, 0, 5, 5, 1, 3, 2, 5, 4, 6, 0, 0, 0, 7, 0, 0, 0,
                                   1, 0, 0, 0, 0, 0, 0, 0, 1, 0, 0, 0, 24, 0, 0, 0, 18, 0, 0, 0, 4, 0, 0, 0};
/* the front of another block of the same class sizes: one pair, (2, 3) */
static const uint8_t other[] = {2, 2, 1, 2, 3};

static void must(uint32_t number, const char *call)
{
    if (number != 0) {
        fprintf(stderr, "ring: %s refused with number %" PRIu32 "\n", call, number);
        exit(1);
    }
}

/* a front record's pairs, p1 falling and p2 rising */
static void print_pairs(const char *name, const uint8_t *record)
{
    printf("%s:", name);
    for (int i = 0; i < record[2]; i++)
        printf(" %d,%d", record[3 + 2 * i], record[4 + 2 * i]);
    printf("\n");
}

/* the cells by l1, the number of class 1 stations that work, and within a line by l2 */
static void print_counts(const uint32_t *tally)
{
    uint32_t n1 = tally[0], n2 = tally[1];
    for (uint32_t l1 = 0; l1 <= n1; l1++) {
        printf("count %" PRIu32 ":", l1);
        for (uint32_t l2 = 0; l2 <= n2; l2++)
            printf(" %" PRIu32, tally[4 + l1 * (n2 + 1) + l2]);
        printf("\n");
    }
}

/* the sum of all cells: one number to watch while rounds come in */
static void print_score(const char *when, const uint32_t *tally)
{
    uint32_t score;
    must(medlarbrace_tally_score(tally, MEDLARBRACE_TALLY_WORDS, &score), "tally_score");
    printf("score, %s: %" PRIu32 "\n", when, score);
}

static void save(const char *path, const uint8_t *file, size_t length)
{
    FILE *out = fopen(path, "wb");
    if (out == NULL || fwrite(file, 1, length, out) != length || fclose(out) != 0) {
        fprintf(stderr, "ring: cannot write %s\n", path);
        exit(1);
    }
}

static void print_file(const uint8_t *file, size_t length)
{
    uint32_t header[MEDLARBRACE_HEADER_WORDS];
    uint64_t start, count;
    must(medlarbrace_open(file, length, header, MEDLARBRACE_HEADER_WORDS), "open");
    must(medlarbrace_round(file, length, 0, &start, &count), "round");
    printf("file: %zu bytes\n", length);
    printf("nodes %" PRIu32 " arcs %" PRIu32 " rounds %" PRIu32 " source %" PRIu32 " target %" PRIu32 " sizes %" PRIu32 " %" PRIu32 "\n",
           header[0], header[1], header[2], header[3], header[4], header[5], header[6]);
    printf("round 0: %" PRIu64 " bytes from byte %" PRIu64 "\n", count, start);
}

static void print_piped(void)
{
    uint8_t file[sizeof nodes + sizeof piped_arcs + sizeof piped_rounds + 32], front[MEDLARBRACE_RECORD_BYTES];
    uint64_t length, written;
    must(medlarbrace_write(nodes, sizeof nodes, piped_arcs, sizeof piped_arcs, piped_rounds, sizeof piped_rounds, 0, 1, 1, file, sizeof file, &length), "write");
    must(medlarbrace_search(file, length, 0, front, sizeof front, &written), "search");
    print_pairs("front with a pipe that fails", front);
}

static void print_converted(const uint8_t *file, size_t length)
{
    uint8_t converted[sizeof nodes + sizeof arcs + sizeof rounds + 32];
    uint64_t written;
    must(medlarbrace_convert(old_file, sizeof old_file, converted, sizeof converted, &written), "convert");
    printf("converted: %" PRIu64 " bytes, %s\n", written, written == length && memcmp(converted, file, length) == 0 ? "the same" : "different");
}

/* every station of both classes of the same age */
static void print_ages(const uint32_t *tally)
{
    for (uint64_t age = 0; age <= 30; age++) {
        uint32_t chance;
        uint64_t sum, many, rate;
        must(medlarbrace_ageing(age, &chance), "ageing");
        must(medlarbrace_reliability(tally, MEDLARBRACE_TALLY_WORDS, chance, chance, &sum, &many, &rate), "reliability");
        printf("age %" PRIu64 ": %" PRIu64 ".%07" PRIu64 "\n", age, rate / 10000000, rate % 10000000);
    }
}

int main(int argc, char **argv)
{
    static uint32_t tally[MEDLARBRACE_TALLY_WORDS];
    uint8_t file[sizeof nodes + sizeof arcs + sizeof rounds + 32];
    uint8_t front[MEDLARBRACE_RECORD_BYTES], joined[MEDLARBRACE_RECORD_BYTES];
    uint32_t weights[3];
    uint64_t length, written;

    must(medlarbrace_write(nodes, sizeof nodes, arcs, sizeof arcs, rounds, sizeof rounds, 0, 1, 1, file, sizeof file, &length), "write");
    if (argc > 1)
        save(argv[1], file, length);
    print_file(file, length);

    must(medlarbrace_search(file, length, 0, front, sizeof front, &written), "search");
    print_pairs("front", front);
    print_piped();
    print_converted(file, length);
    uint64_t searched = written;
    must(medlarbrace_series(front, searched, other, sizeof other, joined, sizeof joined, &written), "series");
    print_pairs("row", joined);
    must(medlarbrace_parallel(front, searched, other, sizeof other, joined, sizeof joined, &written), "parallel");
    print_pairs("side", joined);

    must(medlarbrace_tally_new(front[0], front[1], tally, MEDLARBRACE_TALLY_WORDS), "tally_new");
    must(medlarbrace_tally_add(front, searched, tally, MEDLARBRACE_TALLY_WORDS), "tally_add");
    print_score("one front", tally);
    /* the other block's front was added by mistake, and is taken back */
    must(medlarbrace_tally_add(other, sizeof other, tally, MEDLARBRACE_TALLY_WORDS), "tally_add");
    print_score("two fronts", tally);
    must(medlarbrace_tally_remove(other, sizeof other, tally, MEDLARBRACE_TALLY_WORDS), "tally_remove");
    print_score("one taken back", tally);
    print_counts(tally);

    must(medlarbrace_weights(2, 900000, weights, 3), "weights");
    printf("weights of 2 at 0.9: %" PRIu32 " %" PRIu32 " %" PRIu32 "\n", weights[0], weights[1], weights[2]);
    print_ages(tally);
    return 0;
}
