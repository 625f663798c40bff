/* What a client's author has from plankeeper.h alone, against the library: document 01's worked
 * example and every refusal, each answer by its name, and each word by its own. It is built as
 * C99 and as C++98. Prints what fails, and then exits with 1. */
#include <stdio.h>
#include <string.h>

#include "plankeeper.h"

#define YES PLANKEEPER_YES
#define NO PLANKEEPER_NO
#define EQUAL(found, expected) equal((found), (expected), #found " is " #expected, __LINE__)

typedef uint32_t transaction[PLANKEEPER_TRANSACTION_WORDS];

static int failures = 0;

static void equal(uint64_t found, uint64_t expected, const char *what, int line)
{
    if (found == expected)
        return;
    failures++;
    printf("line %d: %s: %lu, not %lu\n", line, what, (unsigned long)found,
           (unsigned long)expected);
}

/* ---- Every function under its exact type */

static const struct {
    size_t (*words)(void);
    void (*make)(plankeeper *);
    uint32_t (*apply)(plankeeper *, const uint8_t *, size_t);
    uint32_t (*mint)(plankeeper *, uint32_t, uint32_t, uint32_t, uint32_t);
    uint32_t (*enter)(plankeeper *, uint32_t, const uint32_t *);
    uint32_t (*deliver)(plankeeper *, uint32_t, uint32_t, uint32_t, const uint32_t *);
    uint32_t (*turn)(plankeeper *, uint32_t);
    uint64_t (*total)(const plankeeper *);
    uint64_t (*total_at)(const plankeeper *, uint32_t);
    size_t (*held_count)(const plankeeper *, uint32_t);
    uint32_t (*token_at)(const plankeeper *, uint32_t, size_t, uint32_t *);
    size_t (*known_count)(const plankeeper *, uint32_t);
    uint32_t (*known_at)(const plankeeper *, uint32_t, size_t, uint32_t *);
    uint32_t (*outcome_of)(const plankeeper *, uint32_t, uint32_t);
    uint32_t (*is_turned)(const plankeeper *, uint32_t);
    uint32_t (*findings)(const plankeeper *, uint32_t, uint32_t, uint32_t *);
    size_t (*shard_words)(void);
    void (*shard_make)(plankeeper_shard *, uint32_t);
    uint32_t (*shard_mint)(plankeeper_shard *, uint32_t, uint32_t, uint32_t, uint32_t);
    uint32_t (*shard_enter)(plankeeper_shard *, uint32_t, const uint32_t *);
    uint32_t (*shard_hear)(plankeeper_shard *, uint32_t, uint32_t, uint32_t, const uint32_t *);
    uint32_t (*shard_turn)(plankeeper_shard *, uint32_t);
    uint64_t (*shard_total)(const plankeeper_shard *);
    size_t (*shard_held_count)(const plankeeper_shard *);
    uint32_t (*shard_token_at)(const plankeeper_shard *, size_t, uint32_t *);
    size_t (*shard_known_count)(const plankeeper_shard *);
    uint32_t (*shard_known_at)(const plankeeper_shard *, size_t, uint32_t *);
    uint32_t (*shard_outcome_of)(const plankeeper_shard *, uint32_t);
    uint32_t (*shard_is_turned)(const plankeeper_shard *);
    uint32_t (*shard_findings)(const plankeeper_shard *, uint32_t, uint32_t, uint32_t *);
    uint32_t (*read)(const uint8_t *, size_t, uint32_t *);
    size_t (*taken)(const uint8_t *, size_t);
    uint64_t (*write_register)(uint32_t, const uint32_t *, uint8_t *, size_t);
    uint64_t (*write_vote)(uint32_t, uint32_t, uint32_t, const uint32_t *, uint8_t *, size_t);
    uint64_t (*write_mint)(uint32_t, uint32_t, uint32_t, uint32_t, uint8_t *, size_t);
    uint64_t (*write_turn)(uint32_t, uint8_t *, size_t);
} FUNCTIONS = {
    plankeeper_words,             plankeeper_new,
    plankeeper_apply,             plankeeper_mint,
    plankeeper_register,          plankeeper_deliver,
    plankeeper_turn,              plankeeper_total,
    plankeeper_total_at,          plankeeper_held_count,
    plankeeper_token_at,          plankeeper_known_count,
    plankeeper_known_at,          plankeeper_outcome_of,
    plankeeper_is_turned,         plankeeper_findings,
    plankeeper_shard_words,       plankeeper_shard_new,
    plankeeper_shard_mint,        plankeeper_shard_register,
    plankeeper_shard_hear,        plankeeper_shard_turn,
    plankeeper_shard_total,       plankeeper_shard_held_count,
    plankeeper_shard_token_at,    plankeeper_shard_known_count,
    plankeeper_shard_known_at,    plankeeper_shard_outcome_of,
    plankeeper_shard_is_turned,   plankeeper_shard_findings,
    plankeeper_read,              plankeeper_taken,
    plankeeper_write_register,    plankeeper_write_vote,
    plankeeper_write_mint,        plankeeper_write_turn,
};

/* ---- Transactions and memory */

static uint32_t cluster_words[PLANKEEPER_WORDS];
static uint32_t cluster_copy[PLANKEEPER_WORDS];
static uint32_t shard_words[PLANKEEPER_SHARD_WORDS];
static uint32_t shard_copy[PLANKEEPER_SHARD_WORDS];

static plankeeper *fresh_cluster(void)
{
    plankeeper *cluster = (plankeeper *)cluster_words;
    memset(cluster_words, 0xA5, sizeof cluster_words);
    plankeeper_new(cluster);
    return cluster;
}

static plankeeper_shard *fresh_shard(uint32_t number)
{
    plankeeper_shard *shard = (plankeeper_shard *)shard_words;
    memset(shard_words, 0xA5, sizeof shard_words);
    plankeeper_shard_new(shard, number);
    return shard;
}

static void begin(uint32_t *t, uint32_t number)
{
    memset(t, 0, sizeof(transaction));
    t[PLANKEEPER_NUMBER] = number;
}

/* Takes one more token, a genesis token. */
static void take(uint32_t *t, uint32_t shard, uint32_t index, uint32_t owner, uint32_t amount)
{
    uint32_t slot = t[PLANKEEPER_INPUT_COUNT]++;
    t[PLANKEEPER_INPUT_SHARD(slot)] = shard;
    t[PLANKEEPER_INPUT_CREATOR(slot)] = 0;
    t[PLANKEEPER_INPUT_INDEX(slot)] = index;
    t[PLANKEEPER_INPUT_OWNER(slot)] = owner;
    t[PLANKEEPER_INPUT_AMOUNT(slot)] = amount;
}

/* Makes one more token. */
static void give(uint32_t *t, uint32_t shard, uint32_t owner, uint32_t amount)
{
    uint32_t slot = t[PLANKEEPER_OUTPUT_COUNT]++;
    t[PLANKEEPER_OUTPUT_SHARD(slot)] = shard;
    t[PLANKEEPER_OUTPUT_OWNER(slot)] = owner;
    t[PLANKEEPER_OUTPUT_AMOUNT(slot)] = amount;
}

/* Document 01's transaction 5. */
static void exchange(uint32_t *t)
{
    begin(t, 5);
    take(t, 0, 0, 10, 3);
    take(t, 1, 0, 20, 2);
    give(t, 1, 10, 3);
    give(t, 0, 20, 2);
}

/* A genesis token of amount 1 is taken at one shard, and one made at another. */
static void move(uint32_t *t, uint32_t number, uint32_t from, uint32_t index, uint32_t to)
{
    begin(t, number);
    take(t, from, index, 9, 1);
    give(t, to, 9, 1);
}

/* ---- Document 01's worked example, and the queries on the way */

/* Both shards have registered; each holds its token, pledged, and has heard itself alone. */
static void check_pledged(const plankeeper *cluster, uint32_t shard, const uint32_t *t)
{
    uint32_t token[PLANKEEPER_TOKEN_WORDS], known[PLANKEEPER_KNOWN_WORDS], sender;
    EQUAL(plankeeper_held_count(cluster, shard), 1);
    EQUAL(plankeeper_token_at(cluster, shard, 0, token), 1);
    EQUAL(token[PLANKEEPER_TOKEN_CREATOR], 0);
    EQUAL(token[PLANKEEPER_TOKEN_INDEX], 0);
    EQUAL(token[PLANKEEPER_TOKEN_OWNER], t[PLANKEEPER_INPUT_OWNER(shard)]);
    EQUAL(token[PLANKEEPER_TOKEN_AMOUNT], t[PLANKEEPER_INPUT_AMOUNT(shard)]);
    EQUAL(token[PLANKEEPER_TOKEN_PLEDGE], 5);
    EQUAL(plankeeper_total_at(cluster, shard), t[PLANKEEPER_INPUT_AMOUNT(shard)]);
    EQUAL(plankeeper_known_count(cluster, shard), 1);
    EQUAL(plankeeper_known_at(cluster, shard, 0, known), PLANKEEPER_WAIT);
    EQUAL(memcmp(known, t, sizeof(transaction)) == 0, 1);
    for (sender = 0; sender < PLANKEEPER_SHARDS; sender++)
        EQUAL(known[PLANKEEPER_KNOWN_HEARD(sender)],
              sender == shard ? PLANKEEPER_SAID_YES : PLANKEEPER_SAID_NOTHING);
    EQUAL(plankeeper_outcome_of(cluster, shard, 5), PLANKEEPER_WAIT);
}

/* Both have decided; pantry 0 holds (0, 5, 1), pantry 1 holds (1, 5, 0). */
static void check_exchanged(const plankeeper *cluster, uint32_t shard, const uint32_t *t)
{
    uint32_t token[PLANKEEPER_TOKEN_WORDS], known[PLANKEEPER_KNOWN_WORDS], sender;
    uint32_t slot = 1 - shard;
    EQUAL(plankeeper_held_count(cluster, shard), 1);
    EQUAL(plankeeper_token_at(cluster, shard, 0, token), 1);
    EQUAL(token[PLANKEEPER_TOKEN_CREATOR], 5);
    EQUAL(token[PLANKEEPER_TOKEN_INDEX], slot);
    EQUAL(token[PLANKEEPER_TOKEN_OWNER], t[PLANKEEPER_OUTPUT_OWNER(slot)]);
    EQUAL(token[PLANKEEPER_TOKEN_AMOUNT], t[PLANKEEPER_OUTPUT_AMOUNT(slot)]);
    EQUAL(token[PLANKEEPER_TOKEN_PLEDGE], 0);
    EQUAL(plankeeper_known_count(cluster, shard), 1);
    EQUAL(plankeeper_known_at(cluster, shard, 0, known), PLANKEEPER_COMMIT);
    EQUAL(memcmp(known, t, sizeof(transaction)) == 0, 1);
    for (sender = 0; sender < PLANKEEPER_SHARDS; sender++)
        EQUAL(known[PLANKEEPER_KNOWN_HEARD(sender)],
              sender < 2 ? PLANKEEPER_SAID_YES : PLANKEEPER_SAID_NOTHING);
    EQUAL(plankeeper_outcome_of(cluster, shard, 5), PLANKEEPER_COMMIT);
}

static void check_empty(const plankeeper *cluster, uint32_t shard, size_t place)
{
    uint32_t words[PLANKEEPER_KNOWN_WORDS], zeros[PLANKEEPER_KNOWN_WORDS];
    memset(zeros, 0, sizeof zeros);
    memset(words, 0xA5, sizeof words);
    EQUAL(plankeeper_token_at(cluster, shard, place, words), 0);
    EQUAL(memcmp(words, zeros, PLANKEEPER_TOKEN_WORDS * sizeof(uint32_t)) == 0, 1);
    memset(words, 0xA5, sizeof words);
    EQUAL(plankeeper_known_at(cluster, shard, place, words), PLANKEEPER_UNKNOWN);
    EQUAL(memcmp(words, zeros, sizeof words) == 0, 1);
    if (place > 0)
        return;
    EQUAL(plankeeper_held_count(cluster, shard), 0);
    EQUAL(plankeeper_known_count(cluster, shard), 0);
    EQUAL(plankeeper_total_at(cluster, shard), 0);
    EQUAL(plankeeper_outcome_of(cluster, shard, 5), PLANKEEPER_UNKNOWN);
    EQUAL(plankeeper_is_turned(cluster, shard), 0);
}

static void example(plankeeper *cluster, const uint32_t *t)
{
    EQUAL(plankeeper_mint(cluster, 0, 0, 10, 3), PLANKEEPER_OPENED);
    EQUAL(plankeeper_mint(cluster, 1, 0, 20, 2), PLANKEEPER_OPENED);
    EQUAL(plankeeper_register(cluster, 0, t), PLANKEEPER_YES_WAIT);
    EQUAL(plankeeper_register(cluster, 1, t), PLANKEEPER_YES_WAIT);
    check_pledged(cluster, 0, t);
    check_pledged(cluster, 1, t);
    EQUAL(plankeeper_deliver(cluster, 0, 1, YES, t), PLANKEEPER_HEARD_COMMIT);
    EQUAL(plankeeper_total(cluster), 4);
    EQUAL(plankeeper_deliver(cluster, 1, 0, YES, t), PLANKEEPER_HEARD_COMMIT);
    EQUAL(plankeeper_deliver(cluster, 1, 0, YES, t), PLANKEEPER_AGAIN_COMMIT);
    EQUAL(plankeeper_total(cluster), 5);
    EQUAL(plankeeper_total_at(cluster, 0), 2);
    EQUAL(plankeeper_total_at(cluster, 1), 3);
    check_exchanged(cluster, 0, t);
    check_exchanged(cluster, 1, t);
}

static void play_example(void)
{
    static const uint32_t EMPTY[] = {2, 7, 8, 255, 256, 0xFFFFFFFFu};
    plankeeper *cluster = fresh_cluster();
    plankeeper *copy = (plankeeper *)cluster_copy;
    transaction t;
    size_t i;
    exchange(t);
    example(cluster, t);
    for (i = 0; i < sizeof EMPTY / sizeof EMPTY[0]; i++)
        check_empty(cluster, EMPTY[i], 0);
    check_empty(cluster, 0, 1);
    check_empty(cluster, 1, PLANKEEPER_MAX_TOKENS);
    check_empty(cluster, 1, (size_t)-1);
    EQUAL(plankeeper_outcome_of(cluster, 0, 6), PLANKEEPER_UNKNOWN);
    EQUAL(plankeeper_outcome_of(cluster, 0, 0), PLANKEEPER_UNKNOWN);
    /* A copy of the words is a cluster, too. */
    memcpy(cluster_copy, cluster_words, sizeof cluster_words);
    plankeeper_new(cluster);
    EQUAL(plankeeper_deliver(copy, 1, 0, YES, t), PLANKEEPER_AGAIN_COMMIT);
    EQUAL(plankeeper_total(copy), 5);
    EQUAL(plankeeper_total(cluster), 0);
}

/* Shard 0 has voted no, shard 2 has voted yes and heard nobody: the no decides there, and a vote
 * that comes later is noted and decides nothing. */
static void check_one_no(plankeeper *cluster, const uint32_t *three)
{
    uint32_t known[PLANKEEPER_KNOWN_WORDS];
    EQUAL(plankeeper_outcome_of(cluster, 2, 3), PLANKEEPER_WAIT);
    EQUAL(plankeeper_deliver(cluster, 2, 0, NO, three), PLANKEEPER_HEARD_ABORT);
    EQUAL(plankeeper_known_at(cluster, 2, 0, known), PLANKEEPER_ABORT);
    EQUAL(known[PLANKEEPER_KNOWN_HEARD(1)], PLANKEEPER_SAID_NOTHING);
    EQUAL(plankeeper_deliver(cluster, 2, 1, YES, three), PLANKEEPER_HEARD_ABORT);
    EQUAL(plankeeper_known_at(cluster, 2, 0, known), PLANKEEPER_ABORT);
    EQUAL(known[PLANKEEPER_KNOWN_HEARD(1)], PLANKEEPER_SAID_YES);
    EQUAL(plankeeper_deliver(cluster, 2, 1, YES, three), PLANKEEPER_AGAIN_ABORT);
}

/* The answers that the example does not have. */
static void play_others(void)
{
    plankeeper *cluster = fresh_cluster();
    transaction here, late, three;
    uint32_t known[PLANKEEPER_KNOWN_WORDS];
    move(here, 1, 0, 0, 0);
    move(late, 2, 0, 0, 0);
    move(three, 3, 0, 0, 1);
    take(three, 2, 0, 9, 1);
    give(three, 2, 9, 1);
    EQUAL(plankeeper_mint(cluster, 0, 0, 9, 1), PLANKEEPER_OPENED);
    EQUAL(plankeeper_mint(cluster, 2, 0, 9, 1), PLANKEEPER_OPENED);
    EQUAL(plankeeper_register(cluster, 0, here), PLANKEEPER_YES_COMMIT);
    EQUAL(plankeeper_register(cluster, 0, late), PLANKEEPER_NO_ABORT);
    EQUAL(plankeeper_register(cluster, 0, three), PLANKEEPER_NO_ABORT);
    EQUAL(plankeeper_register(cluster, 1, three), PLANKEEPER_YES_WAIT);
    EQUAL(plankeeper_register(cluster, 2, three), PLANKEEPER_YES_WAIT);
    EQUAL(plankeeper_deliver(cluster, 1, 2, YES, three), PLANKEEPER_HEARD_WAIT);
    EQUAL(plankeeper_deliver(cluster, 1, 2, YES, three), PLANKEEPER_AGAIN_WAIT);
    EQUAL(plankeeper_deliver(cluster, 1, 0, NO, three), PLANKEEPER_HEARD_ABORT);
    EQUAL(plankeeper_deliver(cluster, 1, 0, NO, three), PLANKEEPER_AGAIN_ABORT);
    EQUAL(plankeeper_known_count(cluster, 0), 3);
    EQUAL(plankeeper_known_at(cluster, 0, 1, known), PLANKEEPER_ABORT);
    EQUAL(known[PLANKEEPER_NUMBER], 2);
    EQUAL(known[PLANKEEPER_KNOWN_HEARD(0)], PLANKEEPER_SAID_NO);
    EQUAL(plankeeper_known_at(cluster, 1, 0, known), PLANKEEPER_ABORT);
    EQUAL(known[PLANKEEPER_KNOWN_HEARD(0)], PLANKEEPER_SAID_NO);
    EQUAL(known[PLANKEEPER_KNOWN_HEARD(1)], PLANKEEPER_SAID_YES);
    check_one_no(cluster, three);
}

/* ---- Turned shards */

static uint32_t pledge_at(const plankeeper *cluster, uint32_t shard)
{
    uint32_t token[PLANKEEPER_TOKEN_WORDS];
    EQUAL(plankeeper_token_at(cluster, shard, 0, token), 1);
    return token[PLANKEEPER_TOKEN_PLEDGE];
}

/* Shard 2 votes no, for it holds nothing. Shard 0 is turned behind the abort and shard 1 before
 * it, and either token comes free; another transaction takes each. */
static void play_turned(void)
{
    plankeeper *cluster = fresh_cluster();
    transaction bound, late, again;
    move(bound, 1, 0, 0, 2);
    take(bound, 1, 0, 9, 1);
    take(bound, 2, 0, 9, 1);
    give(bound, 2, 9, 2);
    move(late, 2, 0, 0, 0);
    EQUAL(plankeeper_mint(cluster, 0, 0, 9, 1), PLANKEEPER_OPENED);
    EQUAL(plankeeper_turn(cluster, 1), PLANKEEPER_TURNED);
    EQUAL(plankeeper_mint(cluster, 1, 0, 9, 1), PLANKEEPER_OPENED);
    EQUAL(plankeeper_register(cluster, 0, bound), PLANKEEPER_YES_WAIT);
    EQUAL(plankeeper_register(cluster, 1, bound), PLANKEEPER_YES_WAIT);
    EQUAL(plankeeper_register(cluster, 2, bound), PLANKEEPER_NO_ABORT);
    EQUAL(pledge_at(cluster, 1), 1);
    EQUAL(plankeeper_deliver(cluster, 0, 2, NO, bound), PLANKEEPER_HEARD_ABORT);
    EQUAL(plankeeper_deliver(cluster, 1, 2, NO, bound), PLANKEEPER_HEARD_ABORT);
    EQUAL(pledge_at(cluster, 0), 1);
    EQUAL(pledge_at(cluster, 1), 0);
    EQUAL(plankeeper_register(cluster, 0, late), PLANKEEPER_NO_ABORT);
    EQUAL(plankeeper_is_turned(cluster, 0), 0);
    EQUAL(plankeeper_turn(cluster, 0), PLANKEEPER_TURNED);
    EQUAL(plankeeper_is_turned(cluster, 0), 1);
    EQUAL(plankeeper_is_turned(cluster, 1), 1);
    EQUAL(plankeeper_is_turned(cluster, 2), 0);
    EQUAL(pledge_at(cluster, 0), 0);
    move(again, 3, 0, 0, 0);
    EQUAL(plankeeper_register(cluster, 0, again), PLANKEEPER_YES_COMMIT);
    move(again, 3, 1, 0, 1);
    EQUAL(plankeeper_register(cluster, 1, again), PLANKEEPER_YES_COMMIT);
    EQUAL(plankeeper_total(cluster), 2);
}

/* ---- Votes that bring their transactions */

/* Each transaction is registered at one shard, and votes bring it to the others. Shard 2 has no
 * token, and votes no on the second. */
static void play_brought(void)
{
    plankeeper *cluster = fresh_cluster();
    transaction two, three;
    move(two, 1, 0, 0, 1);
    move(three, 2, 0, 1, 1);
    take(three, 2, 0, 9, 1);
    give(three, 3, 9, 1);
    EQUAL(plankeeper_mint(cluster, 0, 0, 9, 1), PLANKEEPER_OPENED);
    EQUAL(plankeeper_mint(cluster, 0, 1, 9, 1), PLANKEEPER_OPENED);
    EQUAL(plankeeper_register(cluster, 0, two), PLANKEEPER_YES_WAIT);
    EQUAL(plankeeper_deliver(cluster, 1, 0, YES, two), PLANKEEPER_BROUGHT_YES_COMMIT);
    EQUAL(plankeeper_deliver(cluster, 1, 0, YES, two), PLANKEEPER_AGAIN_COMMIT);
    EQUAL(plankeeper_register(cluster, 1, two), PLANKEEPER_REFUSED_KNOWN_ALREADY);
    EQUAL(plankeeper_deliver(cluster, 0, 1, YES, two), PLANKEEPER_HEARD_COMMIT);
    EQUAL(plankeeper_register(cluster, 0, three), PLANKEEPER_YES_WAIT);
    EQUAL(plankeeper_deliver(cluster, 1, 0, YES, three), PLANKEEPER_BROUGHT_YES_WAIT);
    EQUAL(plankeeper_deliver(cluster, 2, 1, YES, three), PLANKEEPER_BROUGHT_NO_ABORT);
    EQUAL(plankeeper_deliver(cluster, 3, 2, NO, three), PLANKEEPER_BROUGHT_YES_ABORT);
    EQUAL(plankeeper_outcome_of(cluster, 3, 2), PLANKEEPER_ABORT);
    EQUAL(plankeeper_total_at(cluster, 1), 1);
}

/* ---- What was found of the inputs */

/* A finding: what was found, and the pledging transaction. */
static void check_found(const uint32_t *found, uint32_t place, uint32_t what, uint32_t pledge)
{
    EQUAL(found[PLANKEEPER_FOUND_WHAT(place)], what);
    EQUAL(found[PLANKEEPER_FOUND_PLEDGE(place)], pledge);
}

/* Of transaction 2, whose inputs at shard 0 are four. */
static void check_all_found(const plankeeper *cluster)
{
    uint32_t found[PLANKEEPER_FINDINGS_WORDS];
    uint32_t answer = plankeeper_findings(cluster, 0, 2, found);
    EQUAL(answer, PLANKEEPER_FOUND + 4);
    EQUAL(PLANKEEPER_FOUND_COUNT(answer), PLANKEEPER_SLOTS);
    check_found(found, 0, PLANKEEPER_OTHER_AMOUNT, 0);
    check_found(found, 1, PLANKEEPER_PLEDGED, 1);
    check_found(found, 2, PLANKEEPER_NOT_HELD, 0);
    check_found(found, 3, PLANKEEPER_OTHER_OWNER, 0);
}

/* Shard 0 finds four causes in one transaction, and keeps them behind its turn, with which what
 * was pledged to transaction 1 comes free. To the shards 1 and 2 votes bring transaction 1: shard 2
 * has not the token that it takes there, and shard 1 has outputs only. */
static void play_findings(void)
{
    plankeeper *cluster = fresh_cluster();
    uint32_t found[PLANKEEPER_FINDINGS_WORDS], place;
    transaction first, second;
    move(first, 1, 2, 0, 1);
    take(first, 0, 0, 9, 1);
    give(first, 1, 9, 1);
    begin(second, 2);
    take(second, 0, 1, 9, 2);
    take(second, 0, 0, 9, 1);
    take(second, 0, 5, 9, 1);
    take(second, 0, 2, 8, 1);
    give(second, 3, 9, 5);
    for (place = 0; place < 3; place++)
        EQUAL(plankeeper_mint(cluster, 0, place, 9, 1), PLANKEEPER_OPENED);
    EQUAL(plankeeper_register(cluster, 0, first), PLANKEEPER_YES_WAIT);
    EQUAL(plankeeper_register(cluster, 0, second), PLANKEEPER_NO_ABORT);
    check_all_found(cluster);
    EQUAL(plankeeper_deliver(cluster, 2, 0, YES, first), PLANKEEPER_BROUGHT_NO_ABORT);
    EQUAL(plankeeper_deliver(cluster, 0, 2, NO, first), PLANKEEPER_HEARD_ABORT);
    EQUAL(plankeeper_turn(cluster, 0), PLANKEEPER_TURNED);
    EQUAL(pledge_at(cluster, 0), 0);
    check_all_found(cluster);
    EQUAL(plankeeper_findings(cluster, 2, 1, found), PLANKEEPER_FOUND + 1);
    check_found(found, 0, PLANKEEPER_NOT_HELD, 0);
    EQUAL(plankeeper_findings(cluster, 0, 1, found), PLANKEEPER_FOUND + 1);
    check_found(found, 0, PLANKEEPER_AVAILABLE, 0);
    for (place = 1; place < PLANKEEPER_SLOTS; place++)
        check_found(found, place, 0, 0);
    EQUAL(plankeeper_deliver(cluster, 1, 0, YES, first), PLANKEEPER_BROUGHT_YES_WAIT);
    EQUAL(plankeeper_findings(cluster, 1, 1, found), PLANKEEPER_FOUND);
    check_found(found, 0, 0, 0);
}

/* ---- Refusals: each by its name, and nothing is changed */

static void refused(uint32_t answer, uint32_t expected, int line)
{
    equal(answer, expected, "refused", line);
    equal(memcmp(cluster_words, cluster_copy, sizeof cluster_words) == 0, 1, "unchanged", line);
}

#define REFUSES(call, name) refused((call), PLANKEEPER_REFUSED_##name, __LINE__)

static void refuse_in_the_example(void)
{
    static const uint8_t NONE[] = {9}, SHORT[] = {PLANKEEPER_KIND_MINT, 0};
    plankeeper *cluster = fresh_cluster();
    transaction t, other, twice, more;
    exchange(t);
    example(cluster, t);
    move(other, 5, 0, 1, 1);
    move(twice, 6, 0, 1, 1);
    take(twice, 0, 1, 9, 1);
    move(more, 6, 0, 1, 1);
    more[PLANKEEPER_OUTPUT_AMOUNT(0)]++;
    memcpy(cluster_copy, cluster_words, sizeof cluster_words);
    REFUSES(plankeeper_apply(cluster, NONE, sizeof NONE), UNKNOWN_KIND);
    REFUSES(plankeeper_apply(cluster, SHORT, sizeof SHORT), TOO_SHORT);
    REFUSES(plankeeper_apply(cluster, SHORT, 0), TOO_SHORT);
    REFUSES(plankeeper_mint(cluster, 8, 0, 10, 3), OUT_OF_RANGE);
    REFUSES(plankeeper_mint(cluster, 0, PLANKEEPER_GENESIS, 10, 3), OUT_OF_RANGE);
    REFUSES(plankeeper_mint(cluster, 2, 0, 10, PLANKEEPER_MAX_AMOUNT + 1), OUT_OF_RANGE);
    REFUSES(plankeeper_register(cluster, 256, t), OUT_OF_RANGE);
    REFUSES(plankeeper_deliver(cluster, 0, 1, 2, t), OUT_OF_RANGE);
    REFUSES(plankeeper_register(cluster, 0, twice), TOKEN_TWICE);
    REFUSES(plankeeper_register(cluster, 0, more), SUMS_DIFFER);
    REFUSES(plankeeper_register(cluster, 2, t), NOT_TAKING_PART);
    REFUSES(plankeeper_deliver(cluster, 0, 2, YES, t), NOT_TAKING_PART);
    REFUSES(plankeeper_register(cluster, 0, other), NUMBER_TAKEN);
    REFUSES(plankeeper_register(cluster, 0, t), KNOWN_ALREADY);
    REFUSES(plankeeper_mint(cluster, 0, 1, 10, 3), MINT_TOO_LATE);
    REFUSES(plankeeper_deliver(cluster, 0, 1, NO, t), VOTE_NOT_GIVEN);
}

static void refuse_when_full(void)
{
    plankeeper *cluster = fresh_cluster();
    transaction t;
    uint32_t i;
    for (i = 0; i < PLANKEEPER_MAX_TOKENS; i++)
        EQUAL(plankeeper_mint(cluster, 0, i, 9, PLANKEEPER_MAX_AMOUNT), PLANKEEPER_OPENED);
    EQUAL(plankeeper_held_count(cluster, 0), PLANKEEPER_MAX_TOKENS);
    EQUAL(plankeeper_total(cluster), 128000000);
    memcpy(cluster_copy, cluster_words, sizeof cluster_words);
    REFUSES(plankeeper_mint(cluster, 0, 0, 9, 1), INDEX_GIVEN);
    move(t, 1, 0, 0, 0);
    REFUSES(plankeeper_register(cluster, 0, t), TOKENS_FULL);
    move(t, 1, 2, 0, 0);
    EQUAL(plankeeper_register(cluster, 2, t), PLANKEEPER_NO_ABORT);
    memcpy(cluster_copy, cluster_words, sizeof cluster_words);
    REFUSES(plankeeper_deliver(cluster, 0, 2, NO, t), TOKENS_FULL);
    for (i = 1; i <= PLANKEEPER_MAX_KNOWN; i++) {
        move(t, i, 0, 0, 1);
        EQUAL(plankeeper_register(cluster, 0, t), PLANKEEPER_NO_ABORT);
    }
    EQUAL(plankeeper_known_count(cluster, 0), PLANKEEPER_MAX_KNOWN);
    move(t, 33, 0, 0, 1);
    EQUAL(plankeeper_register(cluster, 1, t), PLANKEEPER_YES_WAIT);
    memcpy(cluster_copy, cluster_words, sizeof cluster_words);
    REFUSES(plankeeper_register(cluster, 0, t), TRANSACTIONS_FULL);
    REFUSES(plankeeper_deliver(cluster, 0, 1, YES, t), TRANSACTIONS_FULL);
}

/* One that takes what another is to make at a shard, until that has decided the other. */
static void refuse_close_behind(void)
{
    plankeeper *cluster = fresh_cluster();
    transaction first, second, third;
    move(first, 1, 0, 0, 1);
    give(first, 1, 9, 1);
    take(first, 0, 1, 9, 1);
    move(second, 2, 1, 0, 1);
    second[PLANKEEPER_INPUT_CREATOR(0)] = 1;
    move(third, 3, 1, 1, 2);
    third[PLANKEEPER_INPUT_CREATOR(0)] = 1;
    EQUAL(plankeeper_mint(cluster, 0, 0, 9, 1), PLANKEEPER_OPENED);
    EQUAL(plankeeper_mint(cluster, 0, 1, 9, 1), PLANKEEPER_OPENED);
    EQUAL(plankeeper_register(cluster, 0, first), PLANKEEPER_YES_WAIT);
    EQUAL(plankeeper_register(cluster, 1, first), PLANKEEPER_YES_WAIT);
    EQUAL(plankeeper_register(cluster, 2, third), PLANKEEPER_YES_WAIT);
    memcpy(cluster_copy, cluster_words, sizeof cluster_words);
    REFUSES(plankeeper_register(cluster, 1, second), HELD_OFF);
    REFUSES(plankeeper_deliver(cluster, 1, 2, YES, third), HELD_OFF);
    EQUAL(plankeeper_outcome_of(cluster, 1, 1), PLANKEEPER_WAIT);
    EQUAL(plankeeper_outcome_of(cluster, 1, 2), PLANKEEPER_UNKNOWN);
    EQUAL(plankeeper_outcome_of(cluster, 1, 3), PLANKEEPER_UNKNOWN);
    EQUAL(plankeeper_deliver(cluster, 1, 0, YES, first), PLANKEEPER_HEARD_COMMIT);
    EQUAL(plankeeper_register(cluster, 1, second), PLANKEEPER_YES_COMMIT);
    EQUAL(plankeeper_deliver(cluster, 1, 2, YES, third), PLANKEEPER_BROUGHT_YES_COMMIT);
}

/* By its fields and by its bytes; 3 goes before 19. */
static void refuse_turned(void)
{
    static const uint8_t TURN[PLANKEEPER_TURN_LENGTH] = {PLANKEEPER_KIND_TURN, 6};
    static const uint8_t HIGH[PLANKEEPER_TURN_LENGTH] = {PLANKEEPER_KIND_TURN, 8};
    plankeeper *cluster = fresh_cluster();
    EQUAL(plankeeper_apply(cluster, TURN, sizeof TURN), PLANKEEPER_TURNED);
    EQUAL(plankeeper_is_turned(cluster, 6), 1);
    memcpy(cluster_copy, cluster_words, sizeof cluster_words);
    REFUSES(plankeeper_turn(cluster, 6), TURNED_ALREADY);
    REFUSES(plankeeper_apply(cluster, TURN, sizeof TURN), TURNED_ALREADY);
    REFUSES(plankeeper_apply(cluster, TURN, 1), TOO_SHORT);
    REFUSES(plankeeper_apply(cluster, HIGH, sizeof HIGH), OUT_OF_RANGE);
    REFUSES(plankeeper_turn(cluster, PLANKEEPER_SHARDS), OUT_OF_RANGE);
    REFUSES(plankeeper_turn(cluster, 256 + 6), OUT_OF_RANGE);
}

/* 3 goes before 18, and the words keep their values. */
static void refuse_to_find(void)
{
    plankeeper *cluster = fresh_cluster();
    uint32_t found[PLANKEEPER_FINDINGS_WORDS], lent[PLANKEEPER_FINDINGS_WORDS];
    transaction t;
    exchange(t);
    example(cluster, t);
    memset(found, 0xA5, sizeof found);
    memcpy(lent, found, sizeof found);
    memcpy(cluster_copy, cluster_words, sizeof cluster_words);
    REFUSES(plankeeper_findings(cluster, PLANKEEPER_SHARDS, 5, found), OUT_OF_RANGE);
    REFUSES(plankeeper_findings(cluster, 256, 5, found), OUT_OF_RANGE);
    REFUSES(plankeeper_findings(cluster, PLANKEEPER_SHARDS, 6, found), OUT_OF_RANGE);
    REFUSES(plankeeper_findings(cluster, 0, 0, found), OUT_OF_RANGE);
    REFUSES(plankeeper_findings(cluster, 0, 6, found), NO_SUCH_NUMBER);
    REFUSES(plankeeper_findings(cluster, 2, 5, found), NO_SUCH_NUMBER);
    EQUAL(memcmp(found, lent, sizeof found) == 0, 1);
    EQUAL(plankeeper_findings(cluster, 0, 5, found), PLANKEEPER_FOUND + 1);
}

/* ---- A lone shard */

static void check_shard(const plankeeper_shard *shard, const uint32_t *t)
{
    uint32_t token[PLANKEEPER_TOKEN_WORDS], known[PLANKEEPER_KNOWN_WORDS];
    EQUAL(plankeeper_shard_held_count(shard), 1);
    EQUAL(plankeeper_shard_token_at(shard, 0, token), 1);
    EQUAL(token[PLANKEEPER_TOKEN_CREATOR], 5);
    EQUAL(token[PLANKEEPER_TOKEN_OWNER], 10);
    EQUAL(token[PLANKEEPER_TOKEN_AMOUNT], 3);
    EQUAL(plankeeper_shard_token_at(shard, 1, token), 0);
    EQUAL(token[PLANKEEPER_TOKEN_CREATOR], 0);
    EQUAL(plankeeper_shard_known_count(shard), 1);
    EQUAL(plankeeper_shard_known_at(shard, 0, known), PLANKEEPER_COMMIT);
    EQUAL(memcmp(known, t, sizeof(transaction)) == 0, 1);
    EQUAL(known[PLANKEEPER_KNOWN_HEARD(0)], PLANKEEPER_SAID_YES);
    EQUAL(plankeeper_shard_known_at(shard, 1, known), PLANKEEPER_UNKNOWN);
    EQUAL(known[PLANKEEPER_NUMBER], 0);
    EQUAL(plankeeper_shard_outcome_of(shard, 5), PLANKEEPER_COMMIT);
    EQUAL(plankeeper_shard_outcome_of(shard, 6), PLANKEEPER_UNKNOWN);
    EQUAL(plankeeper_shard_total(shard), 3);
}

/* Shard 1 knows transaction 5 and no other, and was asked about itself. */
static void check_shard_findings(const plankeeper_shard *shard)
{
    uint32_t found[PLANKEEPER_FINDINGS_WORDS];
    EQUAL(plankeeper_shard_findings(shard, 1, 5, found), PLANKEEPER_FOUND + 1);
    check_found(found, 0, PLANKEEPER_AVAILABLE, 0);
    EQUAL(plankeeper_shard_findings(shard, 0, 5, found), PLANKEEPER_REFUSED_OUT_OF_RANGE);
    EQUAL(plankeeper_shard_findings(shard, 1, 0, found), PLANKEEPER_REFUSED_OUT_OF_RANGE);
    EQUAL(plankeeper_shard_findings(shard, 1, 6, found), PLANKEEPER_REFUSED_NO_SUCH_NUMBER);
    check_found(found, 0, PLANKEEPER_AVAILABLE, 0);
}

static void play_shard(void)
{
    plankeeper_shard *shard = fresh_shard(1);
    transaction t;
    exchange(t);
    EQUAL(plankeeper_shard_mint(shard, 0, 0, 20, 2), PLANKEEPER_REFUSED_OUT_OF_RANGE);
    EQUAL(plankeeper_shard_mint(shard, 1, 0, 20, 2), PLANKEEPER_OPENED);
    EQUAL(plankeeper_shard_mint(shard, 1, 0, 20, 2), PLANKEEPER_REFUSED_INDEX_GIVEN);
    EQUAL(plankeeper_shard_hear(shard, 1, 1, YES, t), PLANKEEPER_REFUSED_NUMBER_UNKNOWN);
    EQUAL(plankeeper_shard_register(shard, 1, t), PLANKEEPER_YES_WAIT);
    EQUAL(plankeeper_shard_register(shard, 1, t), PLANKEEPER_REFUSED_KNOWN_ALREADY);
    EQUAL(plankeeper_shard_outcome_of(shard, 5), PLANKEEPER_WAIT);
    EQUAL(plankeeper_shard_hear(shard, 1, 0, YES, t), PLANKEEPER_HEARD_COMMIT);
    EQUAL(plankeeper_shard_hear(shard, 1, 0, YES, t), PLANKEEPER_AGAIN_COMMIT);
    memcpy(shard_copy, shard_words, sizeof shard_words);
    EQUAL(plankeeper_shard_hear(shard, 1, 0, NO, t), PLANKEEPER_REFUSED_OTHER_VERDICT);
    EQUAL(memcmp(shard_copy, shard_words, sizeof shard_words) == 0, 1);
    check_shard(shard, t);
    EQUAL(plankeeper_shard_is_turned(shard), 0);
    EQUAL(plankeeper_shard_turn(shard, 0), PLANKEEPER_REFUSED_OUT_OF_RANGE);
    EQUAL(plankeeper_shard_turn(shard, 1), PLANKEEPER_TURNED);
    EQUAL(plankeeper_shard_turn(shard, 1), PLANKEEPER_REFUSED_TURNED_ALREADY);
    EQUAL(plankeeper_shard_is_turned(shard), 1);
    check_shard(shard, t);
    check_shard_findings(shard);
    /* The vote of shard 0 brings it to another one that is like it. */
    shard = fresh_shard(1);
    EQUAL(plankeeper_shard_mint(shard, 1, 0, 20, 2), PLANKEEPER_OPENED);
    EQUAL(plankeeper_shard_hear(shard, 1, 0, YES, t), PLANKEEPER_BROUGHT_YES_COMMIT);
    check_shard(shard, t);
    check_shard_findings(shard);
    EQUAL(plankeeper_shard_words(), PLANKEEPER_SHARD_WORDS);
    EQUAL(FUNCTIONS.words(), PLANKEEPER_WORDS);
    EQUAL(PLANKEEPER_WORDS, PLANKEEPER_SHARDS * PLANKEEPER_SHARD_WORDS);
}

/* ---- Records */

/* A record was written: it reads back as these seven words and this transaction, none but its own
 * bytes are taken and written, and with less room it is refused. */
static void check_record(uint8_t *out, uint64_t length, const uint32_t *head, const uint32_t *t)
{
    uint32_t fields[PLANKEEPER_READING_WORDS];
    size_t size = (size_t)length;
    EQUAL(out[0], head[PLANKEEPER_READING_KIND]);
    EQUAL(out[1], head[PLANKEEPER_READING_RECEIVER]);
    EQUAL(out[size], 0xEE);
    EQUAL(plankeeper_taken(out, size + 1), size);
    EQUAL(plankeeper_taken(out, size - 1), size - 1);
    EQUAL(plankeeper_read(out, size + 1, fields), 0);
    EQUAL(memcmp(fields, head, PLANKEEPER_READING_TRANSACTION * sizeof(uint32_t)) == 0, 1);
    EQUAL(memcmp(fields + PLANKEEPER_READING_TRANSACTION, t, sizeof(transaction)) == 0, 1);
    EQUAL(plankeeper_read(out, size - 1, fields), PLANKEEPER_REFUSED_TOO_SHORT);
    EQUAL(fields[PLANKEEPER_READING_KIND], 0);
    EQUAL(fields[PLANKEEPER_READING_TRANSACTION + PLANKEEPER_NUMBER], 0);
    memset(out, 0xEE, size);
}

static void check_written(uint64_t answer, uint64_t length)
{
    EQUAL(answer, length);
    EQUAL(PLANKEEPER_WRITE_REFUSED(answer), 0);
}

static void check_unwritten(uint64_t answer, uint32_t refusal)
{
    EQUAL(answer, 1000 * refusal);
    EQUAL(PLANKEEPER_WRITE_REFUSED(answer), 1);
    EQUAL(PLANKEEPER_WRITE_REFUSAL(answer), refusal);
}

/* The seven words in front of a transaction, those of any kind. */
static void head_of(uint32_t *head, uint32_t kind, uint32_t receiver)
{
    memset(head, 0, PLANKEEPER_READING_TRANSACTION * sizeof(uint32_t));
    head[PLANKEEPER_READING_KIND] = kind;
    head[PLANKEEPER_READING_RECEIVER] = receiver;
}

static void write_records(void)
{
    uint32_t head[PLANKEEPER_READING_TRANSACTION];
    uint8_t out[PLANKEEPER_VOTE_LENGTH + 1];
    transaction t, blank;
    memset(out, 0xEE, sizeof out);
    memset(blank, 0, sizeof blank);
    exchange(t);

    head_of(head, PLANKEEPER_KIND_REGISTER, 1);
    check_written(plankeeper_write_register(1, t, out, sizeof out), PLANKEEPER_REGISTER_LENGTH);
    check_record(out, PLANKEEPER_REGISTER_LENGTH, head, t);

    head_of(head, PLANKEEPER_KIND_VOTE, 0);
    head[PLANKEEPER_READING_SENDER] = 1;
    head[PLANKEEPER_READING_VERDICT] = YES;
    check_written(plankeeper_write_vote(0, 1, YES, t, out, sizeof out), PLANKEEPER_VOTE_LENGTH);
    check_record(out, PLANKEEPER_VOTE_LENGTH, head, t);

    head_of(head, PLANKEEPER_KIND_MINT, 6);
    head[PLANKEEPER_READING_INDEX] = 127;
    head[PLANKEEPER_READING_OWNER] = 20;
    head[PLANKEEPER_READING_AMOUNT] = 2;
    check_written(plankeeper_write_mint(6, 127, 20, 2, out, sizeof out), PLANKEEPER_MINT_LENGTH);
    check_record(out, PLANKEEPER_MINT_LENGTH, head, blank);

    head_of(head, PLANKEEPER_KIND_TURN, 7);
    check_written(plankeeper_write_turn(7, out, sizeof out), PLANKEEPER_TURN_LENGTH);
    check_record(out, PLANKEEPER_TURN_LENGTH, head, blank);
}

/* All slots used: each word by its name stands at document 01's place among the bytes. Numbers
 * have four bytes there, of which the last is looked at. */
static void write_every_slot(void)
{
    uint8_t out[PLANKEEPER_REGISTER_LENGTH];
    uint32_t slot;
    transaction t;
    begin(t, 77);
    for (slot = 0; slot < PLANKEEPER_SLOTS; slot++) {
        take(t, slot, 0, 50 + slot, 10 + slot);
        t[PLANKEEPER_INPUT_CREATOR(slot)] = 60 + slot;
        t[PLANKEEPER_INPUT_INDEX(slot)] = 3 - slot;
        give(t, 7 - slot, 70 + slot, 13 - slot);
    }
    check_written(plankeeper_write_register(0, t, out, sizeof out), sizeof out);
    EQUAL(out[5], 77);
    EQUAL(out[6], PLANKEEPER_SLOTS);
    EQUAL(out[7], PLANKEEPER_SLOTS);
    for (slot = 0; slot < PLANKEEPER_SLOTS; slot++) {
        const uint8_t *input = out + 8 + 14 * slot, *output = out + 64 + 9 * slot;
        EQUAL(input[0], slot);
        EQUAL(input[4], 60 + slot);
        EQUAL(input[5], 3 - slot);
        EQUAL(input[9], 50 + slot);
        EQUAL(input[13], 10 + slot);
        EQUAL(output[0], 7 - slot);
        EQUAL(output[4], 70 + slot);
        EQUAL(output[8], 13 - slot);
    }
}

static void refuse_to_write(void)
{
    uint8_t out[PLANKEEPER_VOTE_LENGTH], before[PLANKEEPER_VOTE_LENGTH];
    transaction t, twice, more;
    memset(out, 0xEE, sizeof out);
    memset(before, 0xEE, sizeof before);
    exchange(t);
    memcpy(twice, t, sizeof t);
    twice[PLANKEEPER_INPUT_SHARD(1)] = 0;
    memcpy(more, t, sizeof t);
    more[PLANKEEPER_OUTPUT_AMOUNT(1)]++;
    check_unwritten(plankeeper_write_register(1, t, out, 99), PLANKEEPER_REFUSED_BUFFER_TOO_SHORT);
    check_unwritten(plankeeper_write_vote(0, 1, YES, t, out, 101),
                    PLANKEEPER_REFUSED_BUFFER_TOO_SHORT);
    check_unwritten(plankeeper_write_mint(0, 0, 1, 1, out, 10),
                    PLANKEEPER_REFUSED_BUFFER_TOO_SHORT);
    check_unwritten(plankeeper_write_mint(0, 128, 1, 1, out, 11), PLANKEEPER_REFUSED_OUT_OF_RANGE);
    check_unwritten(plankeeper_write_turn(7, out, 1), PLANKEEPER_REFUSED_BUFFER_TOO_SHORT);
    check_unwritten(plankeeper_write_turn(8, out, 1), PLANKEEPER_REFUSED_OUT_OF_RANGE);
    check_unwritten(plankeeper_write_register(1, twice, out, 0), PLANKEEPER_REFUSED_TOKEN_TWICE);
    check_unwritten(plankeeper_write_vote(0, 1, NO, more, out, 0), PLANKEEPER_REFUSED_SUMS_DIFFER);
    EQUAL(memcmp(out, before, sizeof out) == 0, 1);
}

/* ---- Answers taken apart */

enum { REFUSED, OPENED, REGISTERED, HEARD, AGAIN, TURNED, BROUGHT, FOUND };

static void check_kind(uint32_t answer, int kind)
{
    EQUAL(PLANKEEPER_IS_REFUSED(answer), kind == REFUSED);
    EQUAL(PLANKEEPER_IS_REGISTERED(answer), kind == REGISTERED);
    EQUAL(PLANKEEPER_IS_HEARD(answer), kind == HEARD);
    EQUAL(PLANKEEPER_IS_AGAIN(answer), kind == AGAIN);
    EQUAL(PLANKEEPER_IS_BROUGHT(answer), kind == BROUGHT);
    EQUAL(PLANKEEPER_IS_FOUND(answer), kind == FOUND);
}

static void take_answers_apart(void)
{
    static const uint32_t NAMED[6][3] = {
        {PLANKEEPER_NO_WAIT, PLANKEEPER_NO_COMMIT, PLANKEEPER_NO_ABORT},
        {PLANKEEPER_YES_WAIT, PLANKEEPER_YES_COMMIT, PLANKEEPER_YES_ABORT},
        {PLANKEEPER_BROUGHT_NO_WAIT, PLANKEEPER_BROUGHT_NO_COMMIT, PLANKEEPER_BROUGHT_NO_ABORT},
        {PLANKEEPER_BROUGHT_YES_WAIT, PLANKEEPER_BROUGHT_YES_COMMIT, PLANKEEPER_BROUGHT_YES_ABORT},
        {PLANKEEPER_HEARD_WAIT, PLANKEEPER_HEARD_COMMIT, PLANKEEPER_HEARD_ABORT},
        {PLANKEEPER_AGAIN_WAIT, PLANKEEPER_AGAIN_COMMIT, PLANKEEPER_AGAIN_ABORT},
    };
    static const int KINDS[6] = {REGISTERED, REGISTERED, BROUGHT, BROUGHT, HEARD, AGAIN};
    uint32_t number, row, outcome;
    for (number = 1; number <= PLANKEEPER_REFUSED_TURNED_ALREADY; number++)
        check_kind(number, REFUSED);
    check_kind(PLANKEEPER_OPENED, OPENED);
    check_kind(PLANKEEPER_TURNED, TURNED);
    for (number = 0; number <= PLANKEEPER_SLOTS; number++) {
        check_kind(PLANKEEPER_FOUND + number, FOUND);
        EQUAL(PLANKEEPER_FOUND_COUNT(PLANKEEPER_FOUND + number), number);
    }
    for (row = 0; row < 6; row++)
        for (outcome = PLANKEEPER_WAIT; outcome <= PLANKEEPER_ABORT; outcome++) {
            check_kind(NAMED[row][outcome], KINDS[row]);
            EQUAL(PLANKEEPER_OUTCOME(NAMED[row][outcome]), outcome);
            if (row < 4)
                EQUAL(PLANKEEPER_VERDICT(NAMED[row][outcome]), row % 2);
        }
}

int main(void)
{
    play_example();
    play_others();
    play_turned();
    play_brought();
    play_findings();
    refuse_in_the_example();
    refuse_when_full();
    refuse_close_behind();
    refuse_turned();
    refuse_to_find();
    play_shard();
    write_records();
    write_every_slot();
    refuse_to_write();
    take_answers_apart();
    if (failures > 0)
        printf("%d failed\n", failures);
    return failures > 0 ? 1 : 0;
}
