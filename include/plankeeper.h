/* plankeeper.h: a transaction engine for eight shards that hold tokens.
 *
 * A transaction destroys tokens at some shards and makes new ones at others. Each of its shards
 * registers it, pledges the tokens it finds available, votes yes or no, hears the votes of the
 * other shards, and decides alone: abort as soon as it has heard one no, its own included, and
 * commit once it has heard all votes and each is yes. No two shards of a cluster decide one
 * transaction differently, and none changes its decision, in whatever order the calls come. A
 * vote brings its transaction to a shard that does not know it, so that it need not be registered
 * everywhere by a call. What an aborted transaction has pledged at a shard stays pledged, unless
 * the shard is turned: then it comes free. Each shard is turned by a call, when the caller likes.
 * A shard keeps what it found of each input when it registered a transaction, and tells it: so one
 * learns which token has spoiled it.
 * The functions are in the static library libengine.a; what each returns, and what it leaves in
 * memory, is proved for everything that it may be handed.
 *
 * Owner 10 moves a token of amount 3 from shard 0 to shard 1, in transaction 5:
 *
 *     #include <stdio.h>
 *     #include "plankeeper.h"
 *
 *     static uint32_t memory[PLANKEEPER_WORDS];
 *
 *     int main(void)
 *     {
 *         plankeeper *cluster = (plankeeper *)memory;
 *         uint32_t move[PLANKEEPER_TRANSACTION_WORDS] = {0};
 *         move[PLANKEEPER_NUMBER] = 5;
 *         move[PLANKEEPER_INPUT_COUNT] = 1;
 *         move[PLANKEEPER_OUTPUT_COUNT] = 1;
 *         move[PLANKEEPER_INPUT_SHARD(0)] = 0;
 *         move[PLANKEEPER_INPUT_OWNER(0)] = 10;
 *         move[PLANKEEPER_INPUT_AMOUNT(0)] = 3;
 *         move[PLANKEEPER_OUTPUT_SHARD(0)] = 1;
 *         move[PLANKEEPER_OUTPUT_OWNER(0)] = 10;
 *         move[PLANKEEPER_OUTPUT_AMOUNT(0)] = 3;
 *
 *         plankeeper_new(cluster);
 *         plankeeper_mint(cluster, 0, 0, 10, 3);
 *         plankeeper_register(cluster, 0, move);
 *         plankeeper_register(cluster, 1, move);
 *         plankeeper_deliver(cluster, 0, 1, PLANKEEPER_YES, move);
 *         if (plankeeper_deliver(cluster, 1, 0, PLANKEEPER_YES, move) == PLANKEEPER_HEARD_COMMIT)
 *             puts("moved");
 *         return 0;
 *     }
 *
 *     cc -std=c99 -Iinclude move.c -Ltarget/staticlib -lengine -o move
 *
 * WORDS. The engine follows a specification that is cited here as document 01. Its own words are
 * in brackets: shard (pantry), cluster (round), transaction (swap), owner (household), amount
 * (portions), genesis token (opening token), mint (opening), creator (making swap), index
 * (position).
 *
 * MEMORY. The caller owns it all; the engine allocates nothing and keeps nothing between calls.
 * - A cluster (eight shards) is PLANKEEPER_WORDS words in the caller's memory, a lone shard
 *   PLANKEEPER_SHARD_WORDS; a word is a uint32_t. plankeeper_new and plankeeper_shard_new make
 *   one of them, whatever the memory held; every other function must be handed one that was
 *   made so. Between calls nobody else may write to these words.
 * - There are no pointers in the words: a copy of all of them is a cluster (a shard), too, and
 *   goes its own way. At the end there is nothing to give back but the memory.
 * - A pointer is never null, not even where no bytes are handed over, and is aligned for what it
 *   points to. What a function writes to must not overlap what another argument points to.
 * - There is no locking inside: one call at a time on one cluster or shard, its queries
 *   included while a call may change it. Any number of clusters and shards may be in use at once.
 * - Beyond this the caller need not check anything: every word, byte and length gets an answer.
 *   Where a field has one byte in a record, a word above 255 is refused as out of range.
 *
 * This header is for C99 and later, and for C++. */
#ifndef PLANKEEPER_H
#define PLANKEEPER_H

#include <stddef.h>
#include <stdint.h>

#ifdef __cplusplus
extern "C" {
#endif

/* A cluster: eight shards, numbered 0 to 7. */
typedef struct plankeeper plankeeper;

/* A lone shard: one of the eight without the other seven. Which votes it hears, and whether they
 * were given, is its caller's affair. */
typedef struct plankeeper_shard plankeeper_shard;

/* ---- Sizes ---------------------------------------------------------------------------------- */

/* Words of a cluster and of a lone shard: what plankeeper_words and plankeeper_shard_words say. */
#define PLANKEEPER_WORDS 19232
#define PLANKEEPER_SHARD_WORDS 2404

/* Words of a transaction, of a record that was read, of a token held, of a known transaction, and
 * of what a shard has found of a transaction's inputs. */
#define PLANKEEPER_TRANSACTION_WORDS 35
#define PLANKEEPER_READING_WORDS 42
#define PLANKEEPER_TOKEN_WORDS 5
#define PLANKEEPER_KNOWN_WORDS 43
#define PLANKEEPER_FINDINGS_WORDS 8

/* Bytes of a record, by its kind. */
#define PLANKEEPER_REGISTER_LENGTH 100
#define PLANKEEPER_VOTE_LENGTH 102
#define PLANKEEPER_MINT_LENGTH 11
#define PLANKEEPER_TURN_LENGTH 2

/* How many shards there are; how many tokens a shard holds and how many transactions it knows at
 * most; how many inputs, and how many outputs, a transaction has at most. */
#define PLANKEEPER_SHARDS 8
#define PLANKEEPER_MAX_TOKENS 128
#define PLANKEEPER_MAX_KNOWN 32
#define PLANKEEPER_SLOTS 4

/* Indices of genesis tokens are below the first; the second is the largest amount of a token. */
#define PLANKEEPER_GENESIS 128
#define PLANKEEPER_MAX_AMOUNT 1000000

/* ---- Where each word stands ----------------------------------------------------------------- */

/* In a transaction. Its number is not 0, its counts are 1 to 4. A slot is 0 to 3; all words of a
 * slot beyond the count must be 0. */
#define PLANKEEPER_NUMBER 0
#define PLANKEEPER_INPUT_COUNT 1
#define PLANKEEPER_OUTPUT_COUNT 2

/* The input in a slot: a token (its shard, its creator and its index there), and the owner and
 * the amount that it has to have. The creator is the number of the transaction that made the
 * token, and the index its place among that transaction's outputs, 0 to 3; the creator of a
 * genesis token is 0, and its index the one that it was minted with, 0 to 127. */
#define PLANKEEPER_INPUT_SHARD(slot) (3 + 5 * (slot))
#define PLANKEEPER_INPUT_CREATOR(slot) (4 + 5 * (slot))
#define PLANKEEPER_INPUT_INDEX(slot) (5 + 5 * (slot))
#define PLANKEEPER_INPUT_OWNER(slot) (6 + 5 * (slot))
#define PLANKEEPER_INPUT_AMOUNT(slot) (7 + 5 * (slot))

/* The output in a slot: the shard that is to hold the new token, its owner (not 0) and its amount
 * (1 to PLANKEEPER_MAX_AMOUNT). */
#define PLANKEEPER_OUTPUT_SHARD(slot) (23 + 3 * (slot))
#define PLANKEEPER_OUTPUT_OWNER(slot) (24 + 3 * (slot))
#define PLANKEEPER_OUTPUT_AMOUNT(slot) (25 + 3 * (slot))

/* In a token held. Its shard is the one that was asked. The pledge is the number of the
 * transaction that it is pledged to, 0 for none. */
enum plankeeper_token_word {
    PLANKEEPER_TOKEN_CREATOR = 0,
    PLANKEEPER_TOKEN_INDEX = 1,
    PLANKEEPER_TOKEN_OWNER = 2,
    PLANKEEPER_TOKEN_AMOUNT = 3,
    PLANKEEPER_TOKEN_PLEDGE = 4
};

/* In a known transaction: the transaction's words, at the places above, and then what was heard
 * from each shard 0 to 7, the shard's own verdict included. */
#define PLANKEEPER_KNOWN_HEARD(sender) (35 + (sender))

/* What was heard from a shard. (A verdict that is handed in has other numbers.) */
enum plankeeper_heard {
    PLANKEEPER_SAID_NOTHING = 0,
    PLANKEEPER_SAID_NO = 1,
    PLANKEEPER_SAID_YES = 2
};

/* In findings, from 0 on: what was found of an input, and the number of the transaction that its
 * token was pledged to, 0 unless that is what was found. Words behind the last finding are 0. */
#define PLANKEEPER_FOUND_WHAT(finding) (2 * (finding))
#define PLANKEEPER_FOUND_PLEDGE(finding) (1 + 2 * (finding))

/* What a shard found of an input there when it registered the transaction, right before it pledged
 * anything. Of the last four the first that fits counts. The shard has voted yes exactly where all
 * inputs there were found available. */
enum plankeeper_finding {
    PLANKEEPER_AVAILABLE = 1,    /* held, with that owner and amount, and pledged to nothing */
    PLANKEEPER_NOT_HELD = 2,     /* no token of that creator and index was held there */
    PLANKEEPER_OTHER_OWNER = 3,  /* the token had another owner */
    PLANKEEPER_OTHER_AMOUNT = 4, /* the token had another amount */
    PLANKEEPER_PLEDGED = 5       /* the token was pledged, to a transaction known there before */
};

/* In a record that was read. A field that the record's kind does not have is 0. From
 * PLANKEEPER_READING_TRANSACTION on there are a transaction's words. */
enum plankeeper_reading_word {
    PLANKEEPER_READING_KIND = 0,
    PLANKEEPER_READING_RECEIVER = 1,
    PLANKEEPER_READING_SENDER = 2,
    PLANKEEPER_READING_VERDICT = 3,
    PLANKEEPER_READING_INDEX = 4,
    PLANKEEPER_READING_OWNER = 5,
    PLANKEEPER_READING_AMOUNT = 6,
    PLANKEEPER_READING_TRANSACTION = 7
};

/* A record's kind, its first byte. */
enum plankeeper_kind {
    PLANKEEPER_KIND_REGISTER = 1,
    PLANKEEPER_KIND_VOTE = 2,
    PLANKEEPER_KIND_MINT = 3,
    PLANKEEPER_KIND_TURN = 4
};

/* ---- Answers -------------------------------------------------------------------------------- */

/* A verdict that is handed in, read from a record, or told in an answer. */
enum plankeeper_verdict {
    PLANKEEPER_NO = 0,
    PLANKEEPER_YES = 1
};

/* What a shard has decided on a transaction. An abort changes no token but its pledge: what was
 * pledged to the transaction comes free at a shard that is turned, and stays pledged at one that
 * is not. */
enum plankeeper_outcome {
    PLANKEEPER_WAIT = 0,   /* nothing yet: votes are missing, and those heard are yes */
    PLANKEEPER_COMMIT = 1, /* all yes: the inputs there are destroyed, the outputs there made */
    PLANKEEPER_ABORT = 2,  /* a no was heard: the inputs there are held still, nothing is made */
    PLANKEEPER_UNKNOWN = 3 /* the shard does not know such a transaction; queries alone say it */
};

/* The causes of refusal. A call is refused with the first that fits, in this order: 1 to 6; then
 * a registration 7, 8, 9, 10, 17; a vote 16 (in a cluster only), and then, on a number that the
 * receiver knows, 7, 12, on one that it does not know 9, 10, 17, or 11 at a lone shard for its own
 * vote; a mint 13, 14; a turn 19. A writer looks for 3, 4, 5, 15, a question for findings for 3,
 * 18. No bytes at all are 2. A refused call changes nothing.
 *
 * A vote on a number that the receiver does not know brings its transaction, which is registered
 * there first. 9, 10 and 17 are about that, as they are about a registration: then the vote is not
 * heard either, and may be sent again. (After 9 it is in vain: no transaction is forgotten.)
 *
 * 17 holds a transaction off: it takes a token, whoever is named as its owner and whatever its
 * amount, that another transaction is to make at this shard, which knows that one and has not
 * decided it. Send it again once the other is decided there (plankeeper_outcome_of tells): after a
 * commit the token is there, after an abort it never comes and the shard votes no. An abort comes
 * with the first no; so an aborted transaction holds nobody off, and what it was to make takes no
 * room (10), whatever votes on it are missing.
 * Two transactions that each take what the other is to make may wait for each other for good.
 *
 * Who gives it: r plankeeper_read; w the writers (plankeeper_write_...), of records that have the
 * field; m mint, g register, v votes (plankeeper_deliver, plankeeper_shard_hear), t turn, f
 * findings, in a cluster and at a lone shard. plankeeper_apply gives those of r and of the call
 * that the record is. At a lone shard 3 is also the answer to a call for another shard, and to a
 * question about one. 11 and 12 are given by plankeeper_shard_hear alone, and 16 by
 * plankeeper_deliver and plankeeper_apply alone.
 *
 *    No.  Given by       Cause, in document 01's words
 *      1  r              kind not 1 to 4
 *      2  r              no bytes, or fewer than the kind's length
 *      3  r w m g v t f  field or count outside its range; pantry above 7; unused slot not zero
 *      4  r w   g v      one token named twice
 *      5  r w   g v      sums differ
 *      6        g v      receiver or sender not among the swap's pantries
 *      7        g v      number known here for a different swap
 *      8        g        kind 1: this swap known here
 *      9        g v      kind 1 or 2: 32 swaps known
 *     10        g v      kind 1 or 2: tokens would pass 128
 *     11          v      kind 2: number unknown here
 *     12          v      kind 2: other verdict heard from this sender
 *     13      m          kind 3: a swap is known here
 *     14      m          kind 3: this opening position was given
 *     15    w            writer: lent bytes fewer than the record
 *     16          v      round, kind 2: sender has not given this vote on this swap
 *     17        g v      kind 1 or 2: takes what an undecided swap is to make here
 *     18              f  findings: number not known at that pantry
 *     19            t    kind 4: this pantry is turned already
 */
enum plankeeper_refusal {
    PLANKEEPER_REFUSED_UNKNOWN_KIND = 1,
    PLANKEEPER_REFUSED_TOO_SHORT = 2,
    PLANKEEPER_REFUSED_OUT_OF_RANGE = 3,
    PLANKEEPER_REFUSED_TOKEN_TWICE = 4,
    PLANKEEPER_REFUSED_SUMS_DIFFER = 5,
    PLANKEEPER_REFUSED_NOT_TAKING_PART = 6,
    PLANKEEPER_REFUSED_NUMBER_TAKEN = 7,
    PLANKEEPER_REFUSED_KNOWN_ALREADY = 8,
    PLANKEEPER_REFUSED_TRANSACTIONS_FULL = 9,
    PLANKEEPER_REFUSED_TOKENS_FULL = 10,
    PLANKEEPER_REFUSED_NUMBER_UNKNOWN = 11,
    PLANKEEPER_REFUSED_OTHER_VERDICT = 12,
    PLANKEEPER_REFUSED_MINT_TOO_LATE = 13,
    PLANKEEPER_REFUSED_INDEX_GIVEN = 14,
    PLANKEEPER_REFUSED_BUFFER_TOO_SHORT = 15,
    PLANKEEPER_REFUSED_VOTE_NOT_GIVEN = 16,
    PLANKEEPER_REFUSED_HELD_OFF = 17,
    PLANKEEPER_REFUSED_NO_SUCH_NUMBER = 18,
    PLANKEEPER_REFUSED_TURNED_ALREADY = 19
};

/* The answers to calls that are carried out; a call that is refused is answered with the
 * refusal's number. Registered: the shard's own verdict, and then the outcome there. Heard: a
 * vote heard for the first time, also one that comes after an abort: it is noted, and the
 * transaction stays aborted. Again: a vote that was heard before, and nothing is changed. Brought:
 * a vote on a number that the shard did not know, whose transaction is registered first, and then
 * the vote is heard; the shard's own verdict, and the outcome there after both.
 * (Never given, although they have numbers: NO_WAIT and NO_COMMIT, registered or brought, for a
 * shard that votes no aborts at once; and YES_ABORT of a registration, for a shard that votes yes
 * has then heard no other vote. NO_WAIT was given as long as a no waited for the other votes.) */
enum plankeeper_answer {
    PLANKEEPER_OPENED = 100, /* the genesis token is given */
    PLANKEEPER_NO_WAIT = 200,
    PLANKEEPER_NO_COMMIT = 201,
    PLANKEEPER_NO_ABORT = 202,
    PLANKEEPER_YES_WAIT = 210,
    PLANKEEPER_YES_COMMIT = 211,
    PLANKEEPER_YES_ABORT = 212,
    PLANKEEPER_HEARD_WAIT = 300,
    PLANKEEPER_HEARD_COMMIT = 301,
    PLANKEEPER_HEARD_ABORT = 302,
    PLANKEEPER_AGAIN_WAIT = 400,
    PLANKEEPER_AGAIN_COMMIT = 401,
    PLANKEEPER_AGAIN_ABORT = 402,
    PLANKEEPER_TURNED = 500, /* the shard is turned */
    PLANKEEPER_BROUGHT_NO_WAIT = 600,
    PLANKEEPER_BROUGHT_NO_COMMIT = 601,
    PLANKEEPER_BROUGHT_NO_ABORT = 602,
    PLANKEEPER_BROUGHT_YES_WAIT = 610,
    PLANKEEPER_BROUGHT_YES_COMMIT = 611,
    PLANKEEPER_BROUGHT_YES_ABORT = 612
};

/* The answer to a question for findings where there are none; with each finding it is one more, up
 * to 704. */
#define PLANKEEPER_FOUND 700

/* What an answer says. */
#define PLANKEEPER_IS_REFUSED(answer) ((answer) < 100u)
#define PLANKEEPER_IS_REGISTERED(answer) ((answer) / 100u == 2u)
#define PLANKEEPER_IS_HEARD(answer) ((answer) / 100u == 3u)
#define PLANKEEPER_IS_AGAIN(answer) ((answer) / 100u == 4u)
#define PLANKEEPER_IS_BROUGHT(answer) ((answer) / 100u == 6u)
#define PLANKEEPER_IS_FOUND(answer) ((answer) / 100u == 7u)

/* The shard's own verdict (PLANKEEPER_NO or PLANKEEPER_YES) in the answer to a registration or to
 * a vote that has brought its transaction, and the outcome (PLANKEEPER_WAIT, _COMMIT or _ABORT) in
 * that to a registration or to any vote. */
#define PLANKEEPER_VERDICT(answer) ((answer) / 10u % 10u)
#define PLANKEEPER_OUTCOME(answer) ((answer) % 10u)

/* How many findings there are, 0 to 4, in the answer to a question for them. */
#define PLANKEEPER_FOUND_COUNT(answer) ((answer) % 100u)

/* A writer's answer: whether it is refused, and then the refusal's number. */
#define PLANKEEPER_WRITE_REFUSED(answer) ((answer) >= 1000u)
#define PLANKEEPER_WRITE_REFUSAL(answer) ((uint32_t)((answer) / 1000u))

/* ---- A cluster ------------------------------------------------------------------------------ */

/* How many words a cluster has, PLANKEEPER_WORDS: the caller provides that many, aligned for
 * uint32_t. Together they are less than 80,000 bytes. */
size_t plankeeper_words(void);

/* Makes a cluster of eight empty shards of the words, whatever they were. */
void plankeeper_new(plankeeper *cluster);

/* Reads the record at the front of the bytes and makes the call that it stands for. Returns the
 * call's answer, or the reader's refusal, 1 to 5. How many bytes the record takes is told by
 * plankeeper_taken. */
uint32_t plankeeper_apply(plankeeper *cluster, const uint8_t *bytes, size_t length);

/* Gives the receiving shard a genesis token of that index, owner and amount, as long as it knows
 * no transaction. Returns PLANKEEPER_OPENED, or a refusal. */
uint32_t plankeeper_mint(plankeeper *cluster, uint32_t receiver, uint32_t index, uint32_t owner,
                         uint32_t amount);

/* Registers the transaction at the receiving shard: it pledges those of the inputs there that are
 * available, and votes yes if all of them are. A no aborts it there at once. One that comes too
 * close behind another is held off (17) and has to be sent again. Returns PLANKEEPER_NO_ABORT,
 * PLANKEEPER_YES_WAIT or, where it has no other shard, PLANKEEPER_YES_COMMIT; or a refusal. */
uint32_t plankeeper_register(plankeeper *cluster, uint32_t receiver,
                             const uint32_t transaction[PLANKEEPER_TRANSACTION_WORDS]);

/* Delivers the sending shard's vote on the transaction, PLANKEEPER_YES or PLANKEEPER_NO, to the
 * receiving shard. The first no aborts the transaction there; where all are yes, the last of them
 * commits it. A vote that the sender has not given is refused. One on a number that the receiver
 * does not know brings the transaction: it is registered there, as plankeeper_register does it,
 * and then the vote is heard; if it cannot be registered (9, 10, 17), nothing is changed. Returns
 * one of PLANKEEPER_HEARD_..., PLANKEEPER_AGAIN_... and PLANKEEPER_BROUGHT_..., or a refusal. */
uint32_t plankeeper_deliver(plankeeper *cluster, uint32_t receiver, uint32_t sender,
                            uint32_t verdict,
                            const uint32_t transaction[PLANKEEPER_TRANSACTION_WORDS]);

/* Turns the receiving shard, for good. What is pledged to transactions that it has aborted comes
 * free, and from now on each abort there frees at once what is pledged to its transaction, also
 * one that comes with the registration. Transactions that it has not decided go on, and keep what
 * is pledged to them. Shards may be turned at different times, before the first mint or at any
 * time later; one that is turned already refuses (19). Returns PLANKEEPER_TURNED, or a refusal. */
uint32_t plankeeper_turn(plankeeper *cluster, uint32_t receiver);

/* Queries change nothing in the cluster. A shard above 7 is an empty one to them, but for
 * plankeeper_findings, which refuses it. */

/* The sum of the amounts held in all shards. */
uint64_t plankeeper_total(const plankeeper *cluster);

/* The sum of the amounts held at the shard. */
uint64_t plankeeper_total_at(const plankeeper *cluster, uint32_t shard);

/* How many tokens the shard holds, 0 to PLANKEEPER_MAX_TOKENS. */
size_t plankeeper_held_count(const plankeeper *cluster, uint32_t shard);

/* Fills in the token at that place, from 0, among those held at the shard. Their order is that of
 * the shard's memory, and a call may change it. Returns 1; or 0 where there is none, and then the
 * words are all 0. */
uint32_t plankeeper_token_at(const plankeeper *cluster, uint32_t shard, size_t place,
                             uint32_t token[PLANKEEPER_TOKEN_WORDS]);

/* How many transactions the shard knows, 0 to PLANKEEPER_MAX_KNOWN. */
size_t plankeeper_known_count(const plankeeper *cluster, uint32_t shard);

/* Fills in the transaction at that place, from 0, among those known at the shard, in the order of
 * registration, and the verdicts heard there. Returns its outcome there; or PLANKEEPER_UNKNOWN
 * where there is none, and then the words are all 0. */
uint32_t plankeeper_known_at(const plankeeper *cluster, uint32_t shard, size_t place,
                             uint32_t known[PLANKEEPER_KNOWN_WORDS]);

/* The outcome at the shard of the transaction that it knows by that number; PLANKEEPER_UNKNOWN
 * where it knows none. */
uint32_t plankeeper_outcome_of(const plankeeper *cluster, uint32_t shard, uint32_t number);

/* Whether the shard is turned: 1, or 0 where it is not. */
uint32_t plankeeper_is_turned(const plankeeper *cluster, uint32_t shard);

/* Tells which token has spoiled a transaction: what the shard found of each input there when it
 * registered the transaction that it knows by that number, by a call of its own or by a vote.
 * There is one finding for each of these inputs, in the order in which the transaction names them,
 * and it stays what it was then, whatever becomes of the token: also after an abort, after a
 * commit and after a turn. Fills in all words and returns PLANKEEPER_FOUND plus the number of
 * findings, 700 to 704; or a refusal, 3 for a shard above 7 or number 0, and behind it 18 for a
 * number that the shard does not know, and then the words keep their values. */
uint32_t plankeeper_findings(const plankeeper *cluster, uint32_t shard, uint32_t number,
                             uint32_t findings[PLANKEEPER_FINDINGS_WORDS]);

/* ---- A lone shard --------------------------------------------------------------------------- */

/* How many words a lone shard has, PLANKEEPER_SHARD_WORDS: the caller provides that many, aligned
 * for uint32_t. Together they are less than 10,000 bytes. */
size_t plankeeper_shard_words(void);

/* Makes an empty shard of that number, 0 to 7, of the words, whatever they were. (A shard of
 * another number refuses every call.) */
void plankeeper_shard_new(plankeeper_shard *shard, uint32_t number);

/* As plankeeper_mint; the receiver is this shard's number, else it is refused (3). */
uint32_t plankeeper_shard_mint(plankeeper_shard *shard, uint32_t receiver, uint32_t index,
                               uint32_t owner, uint32_t amount);

/* As plankeeper_register; the receiver is this shard's number, else it is refused (3). */
uint32_t plankeeper_shard_register(plankeeper_shard *shard, uint32_t receiver,
                                   const uint32_t transaction[PLANKEEPER_TRANSACTION_WORDS]);

/* As plankeeper_deliver, but nobody looks whether the sender has given this vote; the other
 * verdict from the same sender is refused (12), and so is the shard's own vote on a number that it
 * does not know (11). The receiver is this shard's number, else it is refused (3). */
uint32_t plankeeper_shard_hear(plankeeper_shard *shard, uint32_t receiver, uint32_t sender,
                               uint32_t verdict,
                               const uint32_t transaction[PLANKEEPER_TRANSACTION_WORDS]);

/* As plankeeper_turn; the receiver is this shard's number, else it is refused (3). */
uint32_t plankeeper_shard_turn(plankeeper_shard *shard, uint32_t receiver);

/* The sum of the amounts held. */
uint64_t plankeeper_shard_total(const plankeeper_shard *shard);

/* How many tokens the shard holds, 0 to PLANKEEPER_MAX_TOKENS. */
size_t plankeeper_shard_held_count(const plankeeper_shard *shard);

/* As plankeeper_token_at: 1 and the token at that place, or 0 and zeros. */
uint32_t plankeeper_shard_token_at(const plankeeper_shard *shard, size_t place,
                                   uint32_t token[PLANKEEPER_TOKEN_WORDS]);

/* How many transactions the shard knows, 0 to PLANKEEPER_MAX_KNOWN. */
size_t plankeeper_shard_known_count(const plankeeper_shard *shard);

/* As plankeeper_known_at: the outcome and the transaction at that place, or PLANKEEPER_UNKNOWN and
 * zeros. */
uint32_t plankeeper_shard_known_at(const plankeeper_shard *shard, size_t place,
                                   uint32_t known[PLANKEEPER_KNOWN_WORDS]);

/* As plankeeper_outcome_of: the outcome of the transaction that the shard knows by that number, or
 * PLANKEEPER_UNKNOWN. */
uint32_t plankeeper_shard_outcome_of(const plankeeper_shard *shard, uint32_t number);

/* As plankeeper_is_turned: 1, or 0 where the shard is not turned. */
uint32_t plankeeper_shard_is_turned(const plankeeper_shard *shard);

/* As plankeeper_findings; the number shard is this shard's, else it is refused (3). */
uint32_t plankeeper_shard_findings(const plankeeper_shard *s, uint32_t shard, uint32_t number,
                                   uint32_t findings[PLANKEEPER_FINDINGS_WORDS]);

/* ---- Records -------------------------------------------------------------------------------- */

/* A record is a call as bytes, in document 01's layout: one byte of kind, then the fields, high
 * byte first. A week's records may be stored or sent one behind the other. */

/* Reads the record at the front of the bytes into all words of fields. Returns 0; or the
 * refusal's number, 1 to 5, and then the words are all 0. */
uint32_t plankeeper_read(const uint8_t *bytes, size_t length,
                         uint32_t fields[PLANKEEPER_READING_WORDS]);

/* How many bytes the record at the front takes, refused or not, so that the next record begins
 * behind them. Where no whole record of a known kind stands there (refusals 1 and 2), it is all of
 * them, so that a loop over the bytes ends. Never more than length. */
size_t plankeeper_taken(const uint8_t *bytes, size_t length);

/* The writers put a record into out, which has room for so many bytes. They return the bytes
 * written (PLANKEEPER_REGISTER_LENGTH, _VOTE_LENGTH, _MINT_LENGTH or _TURN_LENGTH), and those
 * behind keep their values; or 1000 times the refusal's number (3, 4, 5 or 15), and then all bytes
 * keep their values. PLANKEEPER_WRITE_REFUSED tells which. */

/* A record of a registration at the receiving shard. */
uint64_t plankeeper_write_register(uint32_t receiver,
                                   const uint32_t transaction[PLANKEEPER_TRANSACTION_WORDS],
                                   uint8_t *out, size_t room);

/* A record of a vote that is delivered to the receiving shard. */
uint64_t plankeeper_write_vote(uint32_t receiver, uint32_t sender, uint32_t verdict,
                               const uint32_t transaction[PLANKEEPER_TRANSACTION_WORDS],
                               uint8_t *out, size_t room);

/* A record of a genesis token that is given to the receiving shard. */
uint64_t plankeeper_write_mint(uint32_t receiver, uint32_t index, uint32_t owner, uint32_t amount,
                               uint8_t *out, size_t room);

/* A record of a turn of the receiving shard. */
uint64_t plankeeper_write_turn(uint32_t receiver, uint8_t *out, size_t room);

#ifdef __cplusplus
}
#endif

#endif
