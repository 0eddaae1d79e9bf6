/*
 * The sample share. Its terms are checked, four events are appended to an empty log, and a report is printed; then one event is refused and one
 * accepted, and a later report is printed, in which the first one's rows stand again; then an event arrives late. In the folder of crates.txt:
 *
 *     examples/archive
 *     gcc -std=c99 -Wall -Wextra -Werror -pedantic -Iinclude examples/share.c target/staticlib/libservice.a -o target/share
 *     target/share
 */
#include <stdio.h>
#include <stdlib.h>

#include "agreements.h"

/*
 * Once the owner has revoked a share, its player is not to write for 100 minutes.
 * Attributes: 0 library, 1 owner, 2 share, 3 player, 4 write.
 */
static const uint8_t terms[] = {
    1, 0, 0x0F, 0, 2,      /* kind 0, Shared: library, owner, share (its key), player */
    1, 1, 0x04, 0, 2,      /* kind 1, Revoked: share (its key) */
    1, 2, 0x14, 0, 4,      /* kind 2, Written: share, write (its key) */
    2, 3, 0, 1, 3,         /* schema 0: a prohibition for each Shared, owner privileged, player liable */
    7,                     /* create: always */
    3, 0, 1,               /* detach: Revoked, */
    0, 0, 0, 0, 0, 0, 0,   /*     from the minute 0 on, */
    3, 0, 0, 0, 0, 0, 0,   /*     without an end */
    3, 0, 2,               /* consequent: Written, */
    1, 0, 1, 0, 0, 0, 0,   /*     from Revoked on, */
    1, 0, 1, 100, 0, 0, 0  /*     until 100 minutes after it */
};

/* Events: kind, stamp, then a value for each attribute of the kind. */
static const uint8_t shared_at_10[] = {0, 10, 0, 0, 0, 7, 0, 0, 0, 3, 0, 0, 0, 5, 0, 0, 0, 9, 0, 0, 0};
static const uint8_t written_at_20[] = {2, 20, 0, 0, 0, 5, 0, 0, 0, 1, 0, 0, 0};
static const uint8_t revoked_at_30[] = {1, 30, 0, 0, 0, 5, 0, 0, 0};
static const uint8_t written_at_45[] = {2, 45, 0, 0, 0, 5, 0, 0, 0, 2, 0, 0, 0};
static const uint8_t another_at_45[] = {2, 45, 0, 0, 0, 5, 0, 0, 0, 3, 0, 0, 0};
static const uint8_t late_at_44[] = {2, 44, 0, 0, 0, 5, 0, 0, 0, 4, 0, 0, 0};

static uint8_t buffer[128];
static uint8_t page[16 * AGREEMENTS_ROW_LENGTH];

/* Ends the program where an answer does not have the refusal that is due. */
static void expect(enum agreements_refusal due, const char *what, uint64_t answer)
{
    if (agreements_number(answer) != due) {
        fprintf(stderr, "%s: refusal %u, value %u\n", what, (unsigned)agreements_number(answer), (unsigned)agreements_value(answer));
        exit(1);
    }
}

/* The count or length of an answer that has to be accepted. */
static uint32_t accepted(const char *what, uint64_t answer)
{
    expect(AGREEMENTS_ACCEPTED, what, answer);
    return agreements_value(answer);
}

/* Appends an event to the log. */
static uint64_t append(size_t used, const uint8_t *event, size_t event_length)
{
    return agreements_append(terms, sizeof terms, buffer, sizeof buffer, used, event, event_length);
}

/* The four bytes at a place of a row, low byte first. */
static unsigned long number_at(const uint8_t *row, size_t at)
{
    return row[at] | (unsigned long)row[at + 1] << 8 | (unsigned long)row[at + 2] << 16 | (unsigned long)row[at + 3] << 24;
}

/* Prints a row: stage, schema, key, privileged, liable, time. */
static void print_row(const uint8_t *row)
{
    static const char *const stages[] = {"", "created", "detached", "expired", "discharged", "violated"};

    printf("%s %u %lu %lu %lu %lu\n", stages[row[0]], row[1], number_at(row, 2), number_at(row, 6), number_at(row, 10), number_at(row, 14));
}

/* Prints the report at a moment. */
static void print_report(size_t used, uint32_t moment)
{
    uint64_t answer = agreements_report(terms, sizeof terms, buffer, sizeof buffer, used, moment, page, sizeof page);
    uint32_t count = accepted("report", answer);
    uint32_t i;

    printf("report at %lu:\n", (unsigned long)moment);
    for (i = 0; i < count; i++) {
        print_row(page + i * AGREEMENTS_ROW_LENGTH);
    }
}

int main(void)
{
    size_t used = 0;
    uint64_t answer;

    accepted("terms", agreements_check_terms(terms, sizeof terms));
    used = accepted("Shared at 10", append(used, shared_at_10, sizeof shared_at_10));
    used = accepted("Written at 20", append(used, written_at_20, sizeof written_at_20));
    used = accepted("Revoked at 30", append(used, revoked_at_30, sizeof revoked_at_30));
    used = accepted("Written at 45", append(used, written_at_45, sizeof written_at_45));
    accepted("log", agreements_check_log(terms, sizeof terms, buffer, sizeof buffer, used));
    print_report(used, 45);

    /* Its kind and key are in the log: refused, and the used length goes on as it is. */
    answer = append(used, written_at_45, sizeof written_at_45);
    expect(AGREEMENTS_KEY_PRESENT, "the write at 45 again", answer);
    printf("the write at 45 again: refused %u, used length %lu\n", (unsigned)agreements_number(answer), (unsigned long)used);

    used = accepted("another write at 45", append(used, another_at_45, sizeof another_at_45));
    printf("another write at 45: used length %lu\n", (unsigned long)used);

    /* No accepted event was stamped before 45. So the report at 45 lasts: its rows are those of this one that are timed before 45. */
    print_report(used, 46);

    /* A late event is accepted too. It is stamped before 46, so the report at 46 does not last: this is now the earliest write after the
     * revocation. */
    used = accepted("a late write at 44", append(used, late_at_44, sizeof late_at_44));
    printf("a late write at 44: used length %lu\n", (unsigned long)used);
    print_report(used, 46);
    return 0;
}
