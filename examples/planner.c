/* planner: plays a week's records on a fresh cluster and prints what came of it, as a model of a
 * program that links the engine.
 *
 *     cc -std=c99 -Iinclude examples/planner.c -Ltarget/staticlib -lengine -o planner
 *     ./planner week.records
 *
 * Those who keep pantries read what it prints, so it prints document 01's words; the glossary is
 * in plankeeper.h. */
#include <errno.h>
#include <inttypes.h>
#include <stdio.h>
#include <stdlib.h>
#include <string.h>

#include "plankeeper.h"

static const char USAGE[] =
    "usage: planner [FILE]\n"
    "\n"
    "Plays a week's records, from FILE or from standard input where none is named,\n"
    "and prints each answer, what each pantry then holds and knows, the inputs that\n"
    "it found to spoil a swap, and the total.\n"
    "Exit status: 0; 1 if something cannot be read or written; 2 bad usage.\n";

/* The causes of refusal in document 01's words, by number; one that is no refusal has none. */
static const char *const CAUSES[] = {
    "",
    "kind not 1 to 4",
    "no bytes, or fewer than the kind's length",
    "field or count outside its range; pantry above 7; unused slot not zero",
    "one token named twice",
    "sums differ",
    "receiver or sender not among the swap's pantries",
    "number known here for a different swap",
    "kind 1: this swap known here",
    "kind 1 or 2: 32 swaps known",
    "kind 1 or 2: tokens would pass 128",
    "kind 2: number unknown here",
    "kind 2: other verdict heard from this sender",
    "kind 3: a swap is known here",
    "kind 3: this opening position was given",
    "writer: lent bytes fewer than the record",
    "round, kind 2: sender has not given this vote on this swap",
    "kind 1 or 2: takes what an undecided swap is to make here",
    "findings: number not known at that pantry",
    "kind 4: this pantry is turned already",
};

static const char *const OUTCOMES[] = {"WAIT", "COMMIT", "ABORT"};

/* What a pantry finds of an input, by number. */
static const char *const FOUND[] = {
    "", "available", "not held", "other household", "other portions", "pledged to swap",
};

static void fail(const char *what)
{
    fprintf(stderr, "planner: %s: %s\n", what, strerror(errno));
    exit(EXIT_FAILURE);
}

/* All bytes of the file, in memory that grows with them; the caller frees it. */
static uint8_t *read_all(FILE *file, const char *name, size_t *length)
{
    uint8_t *bytes = NULL;
    size_t room = 0, used = 0;
    while (used == room) {
        room = room == 0 ? 4096 : 2 * room;
        bytes = room > used ? realloc(bytes, room) : NULL;
        if (bytes == NULL)
            fail("no memory for the records");
        used += fread(bytes + used, 1, room - used, file);
        if (ferror(file))
            fail(name);
    }
    *length = used;
    return bytes;
}

/* The first word of the answer to a registration or a vote. A swap that a vote has brought reads
 * like one that was registered. */
static const char *first_word(uint32_t answer)
{
    if (PLANKEEPER_IS_REGISTERED(answer) || PLANKEEPER_IS_BROUGHT(answer))
        return PLANKEEPER_VERDICT(answer) == PLANKEEPER_YES ? "YES" : "NO";
    return PLANKEEPER_IS_HEARD(answer) ? "HEARD" : "AGAIN";
}

static void print_answer(uint32_t answer)
{
    if (PLANKEEPER_IS_REFUSED(answer))
        printf("REFUSED %" PRIu32 ": %s\n", answer, CAUSES[answer]);
    else if (answer == PLANKEEPER_OPENED)
        puts("OPENED");
    else if (answer == PLANKEEPER_TURNED)
        puts("TURNED");
    else
        printf("%s %s\n", first_word(answer), OUTCOMES[PLANKEEPER_OUTCOME(answer)]);
}

/* A line for each record. Behind a refusal 1 or 2 no record can begin, and all bytes are taken. */
static void play(plankeeper *cluster, const uint8_t *bytes, size_t length)
{
    uint32_t fields[PLANKEEPER_READING_WORDS];
    uint64_t step = 0;
    while (length > 0) {
        size_t taken = plankeeper_taken(bytes, length);
        printf("%" PRIu64 " ", ++step);
        if (plankeeper_read(bytes, length, fields) == 0)
            printf("%" PRIu32 " ", fields[PLANKEEPER_READING_RECEIVER]);
        else
            printf("- ");
        print_answer(plankeeper_apply(cluster, bytes, length));
        bytes += taken;
        length -= taken;
    }
}

static void print_token(const plankeeper *cluster, uint32_t shard, size_t place)
{
    uint32_t token[PLANKEEPER_TOKEN_WORDS];
    plankeeper_token_at(cluster, shard, place, token);
    printf("  token %" PRIu32 "/%" PRIu32 "/%" PRIu32 ": household %" PRIu32 ", portions %" PRIu32,
           shard, token[PLANKEEPER_TOKEN_CREATOR], token[PLANKEEPER_TOKEN_INDEX],
           token[PLANKEEPER_TOKEN_OWNER], token[PLANKEEPER_TOKEN_AMOUNT]);
    if (token[PLANKEEPER_TOKEN_PLEDGE] != 0)
        printf(", pledged to swap %" PRIu32, token[PLANKEEPER_TOKEN_PLEDGE]);
    putchar('\n');
}

/* The inputs there that were not available when the swap was registered, by their places among all
 * its inputs. */
static void print_spoilt(const plankeeper *cluster, uint32_t shard, const uint32_t *swap)
{
    uint32_t found[PLANKEEPER_FINDINGS_WORDS], finding = 0;
    plankeeper_findings(cluster, shard, swap[PLANKEEPER_NUMBER], found);
    for (uint32_t slot = 0; slot < swap[PLANKEEPER_INPUT_COUNT]; slot++) {
        if (swap[PLANKEEPER_INPUT_SHARD(slot)] != shard)
            continue;
        uint32_t what = found[PLANKEEPER_FOUND_WHAT(finding)];
        uint32_t pledge = found[PLANKEEPER_FOUND_PLEDGE(finding)];
        finding++;
        if (what == PLANKEEPER_PLEDGED)
            printf("    input %" PRIu32 ": %s %" PRIu32 "\n", slot + 1, FOUND[what], pledge);
        else if (what != PLANKEEPER_AVAILABLE)
            printf("    input %" PRIu32 ": %s\n", slot + 1, FOUND[what]);
    }
}

static void print_known(const plankeeper *cluster, uint32_t shard, size_t place)
{
    uint32_t known[PLANKEEPER_KNOWN_WORDS];
    uint32_t outcome = plankeeper_known_at(cluster, shard, place, known);
    printf("  swap %" PRIu32 ": %s, heard", known[PLANKEEPER_NUMBER], OUTCOMES[outcome]);
    for (uint32_t sender = 0; sender < PLANKEEPER_SHARDS; sender++) {
        uint32_t said = known[PLANKEEPER_KNOWN_HEARD(sender)];
        if (said != PLANKEEPER_SAID_NOTHING)
            printf(" %" PRIu32 " %s", sender, said == PLANKEEPER_SAID_YES ? "yes" : "no");
    }
    putchar('\n');
    print_spoilt(cluster, shard, known);
}

static void print_shard(const plankeeper *cluster, uint32_t shard)
{
    size_t held = plankeeper_held_count(cluster, shard);
    size_t known = plankeeper_known_count(cluster, shard);
    const char *turned = plankeeper_is_turned(cluster, shard) ? ", turned" : "";
    printf("pantry %" PRIu32 ": tokens %zu, portions %" PRIu64 ", swaps %zu%s\n", shard, held,
           plankeeper_total_at(cluster, shard), known, turned);
    for (size_t place = 0; place < held; place++)
        print_token(cluster, shard, place);
    for (size_t place = 0; place < known; place++)
        print_known(cluster, shard, place);
}

static void plan(const uint8_t *bytes, size_t length)
{
    plankeeper *cluster = malloc(plankeeper_words() * sizeof(uint32_t));
    if (cluster == NULL)
        fail("no memory for the cluster");
    plankeeper_new(cluster);
    play(cluster, bytes, length);
    for (uint32_t shard = 0; shard < PLANKEEPER_SHARDS; shard++)
        print_shard(cluster, shard);
    printf("TOTAL %" PRIu64 "\n", plankeeper_total(cluster));
    free(cluster);
}

int main(int argc, char **argv)
{
    const char *name = argc > 1 ? argv[1] : "standard input";
    if (argc == 2 && strcmp(name, "--help") == 0) {
        fputs(USAGE, stdout);
    } else if (argc > 2 || (argc == 2 && name[0] == '-')) {
        fputs(USAGE, stderr);
        return 2;
    } else {
        size_t length;
        FILE *file = argc > 1 ? fopen(name, "rb") : stdin;
        if (file == NULL)
            fail(name);
        uint8_t *bytes = read_all(file, name, &length);
        fclose(file);
        plan(bytes, length);
        free(bytes);
    }
    if (fflush(stdout) != 0 || ferror(stdout))
        fail("standard output");
    return EXIT_SUCCESS;
}
