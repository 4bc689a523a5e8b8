/* same.h: SAME headers, votes, subscriptions and reports, for C99 or later, C++, and languages that call C.
 *
 *   uint32_t book[SAME_BOOK_WORDS] = { 0 }, summary[SAME_SUMMARY_WORDS], hits[SAME_HIT_WORDS];
 *   if (same_number(same_add(book, SAME_BOOK_WORDS, 39051, 7, 1))) ..refused..
 *   uint64_t said = same_report(book, SAME_BOOK_WORDS, 7, text, n, 2024, 159, 18, 40,
 *                               summary, SAME_SUMMARY_WORDS, hits, SAME_HIT_WORDS);
 *   if (same_number(said) == 0) ..same_size_or_index(said) hits..
 *
 * Linking
 *   In the repository that this file is from, tools/same-here makes the archive for x86-64 Linux and prints where it is;
 *   it may go into a shared object. `tools/same-here --for aarch64` makes it for Arm. The library takes memcpy and memset
 *   from the C library, and nothing else. It keeps nothing between calls and allocates nothing: calls may run at the same
 *   time if none of them writes what another is lent.
 *
 * Answers
 *   An answer of 64 bits has the number in its low half and a length, count or index in its high half.
 *   Number 0 means granted. Any other number is the refusal of that number in the list below.
 *   The high half is 0 unless the call's comment names something for it.
 *   same_vote answers a struct: that answer, and three counts of dropped bytes.
 *
 * What a call does to lent space
 *   A granted call writes the bytes or words that its comment names, and no others: no NUL stands behind a text.
 *   A refused call writes nothing at all.
 *
 * What the caller owes
 *   Each pointer comes with its length: bytes for uint8_t, words for uint32_t, which are aligned to 4 bytes. Space that
 *   a call writes overlaps no other space lent to the same call.
 *   A pointer is not NULL, also where the length is 0: what is proved of the calls is proved of stretches of memory, an
 *   empty one has an address too, and NULL is none. Any aligned address will do for it; nothing is read there.
 *   Nothing else is asked: every length and every content has an answer.
 *
 * Stack
 *   1 KB (1,024 bytes) below the caller's own is enough, but for the three calls whose comments name more; a thread
 *   needs some for itself besides. A large frame is touched page by page from the top: a stack that is too small ends
 *   at its guard page. bench/stack measures all of them.
 *
 * Bursts
 *   A header text is sent three times. A burst is one of them as received: some preamble bytes, 16 if all went well,
 *   and then the text. A preamble byte is sent as 0xAB. A byte that differs from it in at most one bit counts as one.
 *   The leading bytes that count are dropped, at most 16 of them, and what follows is the stripped burst: of twenty
 *   bytes 0xAB four are left in it. A + (0x2B) counts too; no header text begins with it.
 *
 * Places
 *   A place is a number of six digits, PSSCCC: P a part of the county (0: all of it), SS the state, CCC the county
 *   (000: the whole state). 39051 is 039051: county 051 of state 39. 139000 is part 1 of all counties of state 39. In a
 *   header 000000 is the whole United States. No book takes a place of state 00.
 *
 * Header texts
 *   ZCZC-ORG-EEE-PSSCCC-..-PSSCCC+TTTT-JJJHHMM-LLLLLLLL-, 42 to 252 bytes: 35, and 7 for each place.
 *   ORG        origin: EAS, CIV, WXR or PEP
 *   EEE        event: three letters A to Z
 *   PSSCCC     1 to 31 places of six digits, + behind the last and - behind the others; repeated ones are kept
 *   TTTT       duration: 0015, 0030, 0045, or HH00 or HH30 with HH 01 to 99; as a number it is in minutes: 15, 30, 45,
 *              or a multiple of 30 from 60 to 5,970
 *   JJJHHMM    issue: day of the year 001 to 366, hour 00 to 23, minute 00 to 59
 *   LLLLLLLL   sender: eight bytes from 32 to 126, none of them - or +
 *
 * Classes and wishes
 *   A class says what an event is: 1 a warning, 2 a watch, 3 an emergency, 4 a statement, 5 a test, 6 any other; 0 is a
 *   signal to transmitters and matches nobody. A wish says which classes are wanted. It is the sum, 1 to 63, of 1 for
 *   class 1, 2 for class 2, 4 for class 3, 8 for class 4, 16 for class 5 and 32 for class 6.
 *
 * The clock
 *   Year 1996 to 2099; day of the year, 1 to 365, or 366 where 4 divides the year; hour 0 to 23; minute 0 to 59. A
 *   header has no year and is taken to be of the clock's. It is early if it is issued more than 5 minutes after the
 *   clock, expired if the clock is at or past its end, which is issue and duration together, and live otherwise. So on
 *   January 1 a header of the day before is early, or refused with 14, and on December 31 one of the day after expired.
 *
 * The book
 *   SAME_BOOK_WORDS words; all zeros is the empty book. Words 0 to 100: word s is how many records have a state below
 *   s, word 100 how many there are, at most 4,096. Then 4,096 records of two words: state * 10000 + county * 10 + part,
 *   and client * 64 + wish; state 1 to 99, county 0 to 999, part 0 to 9, client 1 to 9,999, wish 1 to 63. Records rise
 *   strictly by (first word, client), so a client has at most one for a place; unused ones are zero. The calls keep
 *   these rules, and refuse with 16 a book that breaks one. first % 10 * 100000 + first / 10 is a record's place again.
 *   To change a wish, remove the subscription and add it.
 *
 * Numbers
 *    1  a burst has over 268 bytes
 *    2  the voted length is 0
 *    3  two bytes differ where only two bursts reach
 *    4  the header text, or the voted length, is over 252 bytes
 *    5  the header text does not start with ZCZC-
 *    6  the origin is not EAS, CIV, WXR or PEP, or no - follows it
 *    7  the event is not three letters A to Z, or no - follows it
 *    8  a place is not six digits with - or + behind them, or there are not 1 to 31 places
 *    9  the duration is not 0015, 0030, 0045, or HH00 or HH30 with HH 01 to 99, or no - follows it
 *   10  the issue time is not day 001 to 366, hour 00 to 23, minute 00 to 59, or no - follows it
 *   11  the sender is not eight bytes from 32 to 126 without - and +, or no - follows it
 *   12  something follows the header's last -
 *   13  the lent space is smaller than the result
 *   14  the header's day is 366, and the clock's year has no such day
 *   15  the clock is not year 1996 to 2099, a day of that year, hour 0 to 23, minute 0 to 59
 *   16  the book has not 8,293 words or breaks a rule
 *   17  the client is not 1 to 9,999
 *   18  the place is over 999,999 or its state is 00
 *   19  the wish is not 1 to 63
 *   20  the client already has a subscription for that place
 *   21  the client has no subscription for that place
 *   22  4,096 subscriptions stand, and the book is full
 *   23  an input line is not of its form, is missing, has no line feed, or has over 300 bytes
 */
#ifndef SAME_H
#define SAME_H

#include <stddef.h>
#include <stdint.h>

#ifdef __cplusplus
extern "C" {
#endif

/* Raised by each change that adds a call or changes what one takes or returns. 1: the first. 2: same_vote returns a
 * struct. */
#define SAME_VERSION 2

/* Sizes. With this much room lent, no call refuses with 13. */
#define SAME_TEXT_BYTES 252    /* the longest header text */
#define SAME_FIELD_WORDS 50    /* the fields of a header */
#define SAME_SUMMARY_WORDS 16  /* the summary of a report */
#define SAME_HIT_WORDS 8192    /* two for each hit */
#define SAME_BOOK_WORDS 8293   /* a book has exactly this length */
#define SAME_PAGE_BYTES 57446  /* the longest page */

/* Where each field stands among the 50 words. */
#define SAME_ORIGIN 0   /* 3 words, a byte in each */
#define SAME_EVENT 3    /* 3 words, a byte in each */
#define SAME_COUNT 6    /* how many places: 1 to 31 */
#define SAME_MINUTES 7  /* duration in minutes */
#define SAME_DAY 8      /* day of issue: 1 to 366 */
#define SAME_HOUR 9     /* hour of issue */
#define SAME_MINUTE 10  /* minute of issue */
#define SAME_SENDER 11  /* 8 words, a byte in each */
#define SAME_PLACES 19  /* 31 words, PSSCCC as a number in each */

/* Where each part stands among the 16 words of a summary. */
#define SAME_ISSUED 0  /* month, day of the month, hour, minute */
#define SAME_UNTIL 4   /* the end, of that year or the next: month, day of the month, hour, minute */
#define SAME_CODE 8    /* the event, 3 words, a byte in each */
#define SAME_LISTED 11 /* 1 listed, 0 not */
#define SAME_CLASS 12  /* 0 to 6 */
#define SAME_STATE 13  /* 0 early, 1 live, 2 expired */
#define SAME_HITS 14   /* how many hits */
                       /* word 15 is 0 */

/* The two halves of an answer. */
static inline uint32_t same_number(uint64_t answer) { return (uint32_t)answer; }
static inline uint32_t same_size_or_index(uint64_t answer) { return (uint32_t)(answer >> 32); }

/* Says how many bytes the stripping drops: the stripped burst starts so many bytes on.
 * High half: that number, 0 to 16. Never refuses, writes nothing. */
uint64_t same_strip(const uint8_t *burst, size_t n);

/* What same_vote returns: its answer; and for a station's log, granted or refused, how many bytes were dropped of each
 * burst, 0 to 16. */
struct same_voted {
    uint64_t answer;
    uint32_t first, second, third;
};

/* Strips three received bursts and votes them into one text. Its length is the middle one of the stripped lengths; each
 * bit is what at least two bursts have, and where only two reach, their bytes must be equal.
 * Numbers in order: 1, by the lengths as received; 2; 4 with index 252; 13 if room is less than the voted length; 3
 * with the lowest index at which the two bytes differ, counted in the stripped bursts. SAME_TEXT_BYTES of room are
 * always enough.
 * Granted: out[0 .. length-1] is the text. High half: the length, 1 to 252. */
struct same_voted same_vote(const uint8_t *a, size_t na, const uint8_t *b, size_t nb, const uint8_t *c, size_t nc,
                            uint8_t *out, size_t room);

/* Reads a header text into its fields.
 * Numbers in order: 4 with index 252; 5 to 12 with the index of the field's first byte (8: of the first place that is
 * wrong or too many, 12: of the leftover), which is n where the text ends there; 13, with no index, if words is under
 * SAME_FIELD_WORDS.
 * Granted: fields[0 .. 49] are all written, places behind the last are 0. High half: how many places.
 * A day 366 is read in any year. */
uint64_t same_read(const uint8_t *text, size_t n, uint32_t *fields, size_t words);

/* Writes a header text from its fields.
 * Numbers in order: 13 if words is under SAME_FIELD_WORDS, for then there are no fields to judge; 6, 7, 8, 9, 10, 11 by
 * the fields; 13 if room is less than the text's length, 35 + 7 * count. SAME_TEXT_BYTES of room are always enough. No
 * index is named.
 * A word over 255 where a byte is meant is that field's number. A count of 0 or over 31, or a place over 999,999 among
 * the counted ones, is 8. Places behind the count and words behind the 50th are not looked at.
 * Granted: out[0 .. length-1] is the text. High half: the length. */
uint64_t same_write(const uint32_t *fields, size_t words, uint8_t *out, size_t room);

/* 1 if the three bytes are one of the 61 listed event codes, else 0. */
uint32_t same_listed(uint8_t first, uint8_t second, uint8_t third);

/* The class of the event of these three bytes. TXF, TXO, TXB, TXP are 0; TOR, SVR are 1; EVI, BLU, CEM are 3; NPT, RMT,
 * RWT, DMO are 5; EAN, NIC, ADR, NMN are 6. Any other three bytes, listed or not, go by the third: W is 1, A 2, E 3,
 * S 4, and any other byte 6, small letters too. */
uint32_t same_class(uint8_t first, uint8_t second, uint8_t third);

/* 1 if the watched place matches the place sent, else 0. 000000 sent matches every place, and any other place of state
 * 00 sent matches none. Otherwise they match if the states are equal, the counties are equal or one is 000, and the
 * parts are equal or one is 0. Any two words have an answer: of a code, the county is code % 1000, the state
 * code / 1000 % 100 and the part code / 100000, whatever that gives. */
uint32_t same_matches(uint32_t watched, uint32_t sent);

/* 0 if the words are a book that keeps every rule, else 16. */
uint64_t same_good(const uint32_t *book, size_t words);

/* Adds one subscription. Numbers in order: 16, 17, 18, 19, 20 (whatever the wish that stands), 22.
 * Granted: the book has it. */
uint64_t same_add(uint32_t *book, size_t words, uint32_t place, uint32_t client, uint32_t wish);

/* Removes one subscription. Numbers in order: 16, 17, 18, 21. Granted: the book has it no more. */
uint64_t same_remove(uint32_t *book, size_t words, uint32_t place, uint32_t client);

/* Builds the book afresh from n words of items, three an item: place, client, wish. One or two words left over are not
 * read. Numbers in order: 16 for the old book; then, item by item from the first, what same_add would say of it
 * (17, 18, 19, 20, 22). No index is named. The old book is judged, so fill a new array with zeros first.
 * Granted: the book has the items and nothing else; with no whole item it is empty. Stack: 33 KB. */
uint64_t same_load(uint32_t *book, size_t words, const uint32_t *items, size_t n);

/* One client's report on a header, by a clock.
 * Numbers in order: 16; 17; the header's 4 to 12 with their index; 15; 14; 13 if summary_words is under
 * SAME_SUMMARY_WORDS or hit_words is under two for each hit. SAME_HIT_WORDS are always enough.
 * Granted: summary[0 .. 15] as laid out above, and hits[0 .. 2 * count - 1], two words for each hit, place and wish, in
 * order of state, county, part. A hit is a subscription of this client whose place matches one of the header's and
 * whose wish has the event's class. Early and expired headers have hits all the same. The end may lie in the next year.
 * High half: how many hits, which may be 0. Stack: 3 KB. */
uint64_t same_report(const uint32_t *book, size_t words, uint32_t client, const uint8_t *header, size_t n,
                     uint32_t year, uint32_t day, uint32_t hour, uint32_t minute, uint32_t *summary,
                     size_t summary_words, uint32_t *hits, size_t hit_words);

/* A report from lines of text to lines of text, as the program ./report of the repository makes it. The input has these
 * lines, in this order, each ended by byte 10 and with at most 300 bytes before it, as many digits as shown, and one
 * space between numbers:
 *   now=YYYY DDD HHMM     the clock: year, day of the year, hour and minute
 *   client=NNNN           the client who asks
 *   header=ZCZC-..        the header text, everything after the =
 *   sub=PSSCCC NNNN WW    a subscription: place, client, wish; any number of these lines
 * The page has these lines, in this order, each ended by byte 10:
 *   client=NNNN
 *   issued=MM-DD HH:MM
 *   until=MM-DD HH:MM     the end
 *   event=EEE
 *   listed=yes            or no
 *   class=N
 *   state=live            or early, or expired
 *   hits=N                how many, in plain decimal
 *   hit=PSSCCC WW         for each of them: place and wish
 * or only the line refused=N, in plain decimal; then too the call is granted. Lines are judged from the top, each by
 * its form first (23), and each sub= line is added as it comes (17, 18, 19, 20, 22); then the report is made (17, the
 * header's 4 to 12, 15, 14). The first of these numbers is the one printed.
 * Numbers: 13 if room is less than the page. SAME_PAGE_BYTES are always enough.
 * Granted: out[0 .. length-1] is the page. High half: the length. Stack: 114 KB. */
uint64_t same_page(const uint8_t *in, size_t n, uint8_t *out, size_t room);

#ifdef __cplusplus
}
#endif

#endif
