/*
 * How agreements stand under the terms of a shared library: the four calls for C99 and C++ on x86-64.
 *
 * Terms, log and rows are bytes; docs/FORMAT.md says what they hold and mean. Numbers of several bytes have their low byte first.
 * Each call answers one number, refusal times 4,294,967,296 plus count or length, which agreements_number and agreements_value split. Link
 * target/staticlib/libservice.a, which `examples/archive` writes.
 *
 * Memory
 * - Each pointer, with the length after it, lends that many bytes for the duration of the call. All of them must be initialised, those of
 *   a page and of the unused end of a log buffer too.
 * - What a call may write (an append the log buffer, a report the page) has no byte in common with anything else lent to that call. No
 *   call checks this.
 * - During a call nobody else writes to the memory lent to it, or reads what it may write.
 * - Nothing is read or written through a pointer with the length 0. The proofs do not cover null; null with the length 0 was tried for every
 *   pointer, also under valgrind, and behaves like an empty array. Null with another length is not allowed.
 * - Nothing is kept from one call to the next: the archive has no writable data, and needs memcpy and memset only. So several threads may
 *   call at once, each with its own memory to be written. Terms, and a log that is only read, may be lent to several at once.
 * - No proof bounds the stack. By trials, a call takes 50 KB of it, most of that for the index of the log (check terms 4 KB), and a
 *   report under the longest chain of citations would take 300 KB; give each calling thread 1 MB.
 *
 * Time
 * Under terms that cite no stage a call takes about twice as long for a log twice as long, if each subject matches a few records
 * (docs/SPEED.md); where each matches a fixed part of the log, a report takes up to four times as long. On a page with room for five rows for
 * each subject under each schema it takes half to two thirds of its time on a shorter one that holds the rows: on the shorter one they
 * are counted before they are written.
 *
 * Records are looked up by a hash of their values, which is no secret. Whoever picks values with equal hashes makes each lookup walk through
 * most values of the log: on full logs made so under the sample's terms a report and a check took 40 to 160 times as long.
 *
 * A stage that a clause cites is worked out anew for each citation and each record that matches, and so is each stage that this one cites
 * in turn. So the cost multiplies along a chain of citations, and a report under accepted terms can take very long. For a log of one record
 * and a chain of authorizations, each clause a leaf that cites the stage before it in its event and in both bounds, four schemas took 0.1 s
 * and five took 6 s; six would take minutes. A service that takes terms from strangers bounds this itself, by the length of such chains or by
 * a time after which it gives up. The other calls do not work out stages.
 */
#ifndef AGREEMENTS_H
#define AGREEMENTS_H

#include <stddef.h>
#include <stdint.h>

#ifdef __cplusplus
extern "C" {
#endif

enum agreements_size {
    AGREEMENTS_TERMS_LIMIT = 16384, /* the most bytes of terms */
    AGREEMENTS_LOG_LIMIT = 32768,   /* the most used bytes of a log; its buffer may be longer */
    AGREEMENTS_ROW_LENGTH = 18      /* the bytes of a row */
};

/*
 * A row: at 0 the stage, at 1 the schema's number, then four bytes each: at 2 the subject's key, at 6 the privileged party, at 10 the
 * liable party, at 14 the minute at which the stage was reached.
 */
enum agreements_stage {
    AGREEMENTS_CREATED = 1,
    AGREEMENTS_DETACHED = 2,
    AGREEMENTS_EXPIRED = 3,
    AGREEMENTS_DISCHARGED = 4,
    AGREEMENTS_VIOLATED = 5
};

/* Why a call is refused. Where several of these hold, the lowest is answered. */
enum agreements_refusal {
    AGREEMENTS_ACCEPTED = 0, /* it is not refused */

    /* every call, of the terms */
    AGREEMENTS_TERMS_TOO_LONG = 1,     /* they have more than 16,384 bytes */
    AGREEMENTS_BROKEN_GRAMMAR = 2,     /* they are not 1 to 32 kinds, then 1 to 16 schemas of a head and three expressions of up to 31 items
                                          (03 to 08), all of them whole, and nothing more */
    AGREEMENTS_FIELD_OUT_OF_RANGE = 3, /* a kind's number is not its place, a mask is 0, a key is not in its kind's mask, a party is not in the
                                          subject kind's mask, a norm type, kind, form or sign does not exist, a lower bound, or the upper one
                                          of a count, is open, an offset is above 2,147,483,647, or what has to be 0 is not */
    AGREEMENTS_CITATION_TOO_HIGH = 4,  /* a clause cites a stage of its own rank or of a higher one (docs/FORMAT.md, Citations) */
    AGREEMENTS_NOTHING_SHARED = 5,     /* a kind that a clause names, by an event or a count (for a stage: its schema's subject kind), has no
                                          attribute in common with the subject kind */

    /* every call but check terms, of the log */
    AGREEMENTS_USED_TOO_LONG = 6, /* the used length is over 32,768 or over the buffer's length */
    AGREEMENTS_BROKEN_RECORD = 7, /* a record is cut short, of an undeclared kind, or stamped above 2,147,483,647 */
    AGREEMENTS_STAMP_FALLS = 8,   /* never given since stamps may stand in any order; the number stays reserved */
    AGREEMENTS_KEY_REPEATS = 9,   /* a record has the kind and key of a record before it in the log */

    /* report */
    AGREEMENTS_PAGE_TOO_SHORT = 10, /* the page has less than 18 bytes for each row */

    /* append */
    AGREEMENTS_NOT_ONE_RECORD = 11, /* the event is not exactly one record, as in 7 */
    AGREEMENTS_STAMP_TOO_LOW = 12,  /* never given, as 8 */
    AGREEMENTS_KEY_PRESENT = 13,    /* the log has a record of its kind and key */
    AGREEMENTS_NO_ROOM = 14,        /* it would end past the buffer or past 32,768 bytes */

    /* standing, which is not among the calls below */
    AGREEMENTS_NO_SCHEMA = 15, /* the terms have no schema of that number */
    AGREEMENTS_NO_SUBJECT = 16 /* no subject of that key is stamped before the moment */
};

/* The refusal in an answer, 0 where the call is accepted. */
static inline uint32_t agreements_number(uint64_t answer)
{
    return (uint32_t)(answer / 4294967296u);
}

/* The count or length in an answer, 0 for a check and with every refusal. */
static inline uint32_t agreements_value(uint64_t answer)
{
    return (uint32_t)(answer % 4294967296u);
}

/* Call 1: whether bytes are terms. */
uint64_t agreements_check_terms(const uint8_t *terms, size_t terms_length);

/* Call 2: whether the first used bytes of a buffer are a log under terms: records in order of arrival, with stamps in any order. */
uint64_t agreements_check_log(const uint8_t *terms, size_t terms_length, const uint8_t *log, size_t log_length, size_t used);

/*
 * Call 3: puts the bytes of an event, one record, right after the used ones and changes no other byte. The value is the new used length.
 * The event's stamp may be below those of records in the log. With a refusal no byte changes, and the used length stays what it was; ignore
 * the value.
 */
uint64_t agreements_append(const uint8_t *terms, size_t terms_length, uint8_t *log, size_t log_length, size_t used,
                           const uint8_t *event, size_t event_length);

/*
 * Call 4: puts the rows timed before a moment on a page, without gaps from its first byte on: by schema, then by the subject's place in the
 * log, then by stage. The value is how many there are, at most five for each record under each schema. The bytes after the rows do not
 * change, and with a refusal none does.
 *
 * A report lasts. Let it be accepted; let appends follow it, accepted or refused, and then a later report, accepted and at the same moment or
 * after it. Let all of them be given the same terms, the same log buffer, and the used length that the last accepted append returned, at first
 * that of the report; let nobody else write to terms or log. If no accepted event is stamped before the first report's moment, then the later
 * report has the first one's rows and no others, once those timed at the first one's moment or later are struck out. An accepted event
 * that is stamped before that moment may add rows timed before the moment, take some away or change their times: after such an event ask
 * for a new report.
 */
uint64_t agreements_report(const uint8_t *terms, size_t terms_length, const uint8_t *log, size_t log_length, size_t used,
                           uint32_t moment, uint8_t *page, size_t page_length);

#ifdef __cplusplus
}
#endif

#endif
