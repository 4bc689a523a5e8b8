/* main.c: holds the library to plain.c, first in answers and lent space, then in time.
 *
 * Usage: main [SEED [quick]]. Quick takes a tenth of the inputs and leaves the timing out.
 * Ends with status 1 if the two ever differ.
 * Compiled with BEFORE it also times the library of an earlier commit, whose calls are named before_*.
 *
 * Every space lent to a call ends at a page that may not be touched, so a step behind it ends the run. The bytes before
 * it are known and compared, and inputs are compared with what they were.
 */
#include "plain.h"
#include "same.h"

#include <stdbool.h>
#include <stdio.h>
#include <stdlib.h>
#include <string.h>
#include <sys/mman.h>
#include <time.h>
#include <unistd.h>

/* Both sides behind one table, so that each test and each timing is written once. */
struct api {
    uint64_t (*strip)(const uint8_t *, size_t);
    struct same_voted (*vote)(const uint8_t *, size_t, const uint8_t *, size_t, const uint8_t *, size_t, uint8_t *,
                              size_t);
    uint64_t (*read)(const uint8_t *, size_t, uint32_t *, size_t);
    uint64_t (*write)(const uint32_t *, size_t, uint8_t *, size_t);
    uint32_t (*listed)(uint8_t, uint8_t, uint8_t);
    uint32_t (*class)(uint8_t, uint8_t, uint8_t);
    uint32_t (*matches)(uint32_t, uint32_t);
    uint64_t (*good)(const uint32_t *, size_t);
    uint64_t (*add)(uint32_t *, size_t, uint32_t, uint32_t, uint32_t);
    uint64_t (*remove)(uint32_t *, size_t, uint32_t, uint32_t);
    uint64_t (*load)(uint32_t *, size_t, const uint32_t *, size_t);
    uint64_t (*report)(const uint32_t *, size_t, uint32_t, const uint8_t *, size_t, uint32_t, uint32_t, uint32_t,
                       uint32_t, uint32_t *, size_t, uint32_t *, size_t);
    uint64_t (*page)(const uint8_t *, size_t, uint8_t *, size_t);
};

#define CALLS(who)                                                                       \
    {who##_strip,   who##_vote, who##_read, who##_write,  who##_listed, who##_class,     \
     who##_matches, who##_good, who##_add,  who##_remove, who##_load,   who##_report, who##_page}

static const struct api library = CALLS(same), plain = CALLS(plain);
#ifdef BEFORE
extern __typeof__(same_strip) before_strip;
extern __typeof__(same_vote) before_vote;
extern __typeof__(same_read) before_read;
extern __typeof__(same_write) before_write;
extern __typeof__(same_listed) before_listed;
extern __typeof__(same_class) before_class;
extern __typeof__(same_matches) before_matches;
extern __typeof__(same_good) before_good;
extern __typeof__(same_add) before_add;
extern __typeof__(same_remove) before_remove;
extern __typeof__(same_load) before_load;
extern __typeof__(same_report) before_report;
extern __typeof__(same_page) before_page;
static const struct api before = CALLS(before);
#endif

/* What is timed. A ratio is the library's time to that of plain C, and with BEFORE also to that of the earlier library. */
static const struct api *const sides[] = {
    &plain,
    &library,
#ifdef BEFORE
    &before,
#endif
};
enum { SIDES = sizeof sides / sizeof *sides };

enum { BOOK = SAME_BOOK_WORDS, RECORDS = 4096, WORD = sizeof(uint32_t) };

static size_t least(size_t a, size_t b) { return a < b ? a : b; }

/* ---- chance */

static uint64_t chance_state;

static uint64_t chance(void)
{
    uint64_t z = (chance_state += 0x9E3779B97F4A7C15u);
    z = (z ^ z >> 30) * 0xBF58476D1CE4E5B9u;
    z = (z ^ z >> 27) * 0x94D049BB133111EBu;
    return z ^ z >> 31;
}

static uint32_t below(uint32_t n) { return (uint32_t)((chance() >> 32) * n >> 32); }
static bool one_in(uint32_t n) { return below(n) == 0; }
static uint32_t any_word(void) { return (uint32_t)chance(); }

static void fill_noise(void *to, size_t n)
{
    uint8_t *p = to;
    for (; n >= 8; n -= 8, p += 8) {
        uint64_t word = chance();
        memcpy(p, &word, 8);
    }
    while (n-- > 0) *p++ = (uint8_t)chance();
}

/* ---- lent space */

enum { AREA = 1 << 18, FRONT = 64 };

/* Space whose end is followed by a page that may not be touched. */
struct area {
    uint8_t *end;
};

static struct area make_area(void)
{
    size_t page = (size_t)sysconf(_SC_PAGESIZE);
    uint8_t *base = mmap(NULL, AREA + page, PROT_READ | PROT_WRITE, MAP_PRIVATE | MAP_ANONYMOUS, -1, 0);
    if (base == MAP_FAILED || mprotect(base + AREA, page, PROT_NONE)) {
        perror("lent space");
        exit(2);
    }
    return (struct area){base + AREA};
}

/* Read-only space, with a copy to see that it stays as it was. */
struct given {
    struct area area;
    uint8_t *copy;
    size_t n;
};

static struct given given_a, given_b, given_c;

static void *give(struct given *g, const void *content, size_t n)
{
    g->n = n;
    if (n) memcpy(g->area.end - n, content, n);
    if (n) memcpy(g->copy, content, n);
    return g->area.end - n;
}

static bool unchanged(struct given *g)
{
    bool same = memcmp(g->area.end - g->n, g->copy, g->n) == 0;
    g->n = 0;
    return same;
}

/* Space for writing: one for each side, equal before the calls, to be equal after them.
 * A refusal leaves it as it was. */
struct lent {
    struct area ours, theirs;
    uint8_t *before;
    size_t n;
    bool in_use;
};

static struct lent lent_a, lent_b;

static void lend(struct lent *l, const void *content, size_t n)
{
    uint8_t *front = l->ours.end - n - FRONT;
    l->n = n;
    l->in_use = true;
    if (content) {
        fill_noise(front, FRONT);
        memcpy(front + FRONT, content, n);
    } else {
        fill_noise(front, FRONT + n);
    }
    memcpy(l->theirs.end - n - FRONT, front, FRONT + n);
    memcpy(l->before, front, FRONT + n);
}

static void *ours(struct lent *l) { return l->ours.end - l->n; }
static void *theirs(struct lent *l) { return l->theirs.end - l->n; }

static bool alike(struct lent *l, bool refused)
{
    size_t n = l->n + FRONT;
    const uint8_t *front = l->ours.end - n;
    if (!l->in_use) return true;
    l->in_use = false;
    return memcmp(front, l->theirs.end - n, n) == 0 && (!refused || memcmp(front, l->before, n) == 0);
}

static void make_areas(void)
{
    struct given *givens[] = {&given_a, &given_b, &given_c};
    for (int i = 0; i < 3; i++) givens[i]->area = make_area(), givens[i]->copy = malloc(AREA);
    lent_a = (struct lent){make_area(), make_area(), malloc(AREA), 0, false};
    lent_b = (struct lent){make_area(), make_area(), malloc(AREA), 0, false};
}

/* ---- the tally of one call */

struct tally {
    const char *call;
    uint64_t inputs, granted, differences;
    uint64_t numbers; /* a bit for each number met */
};

/* Takes both answers and looks at every space that was lent. Where an answer has more than 64 bits, more says how the
 * rest differs, and is empty where it does not. */
static void judge_all(struct tally *t, uint64_t library_said, uint64_t plain_said, const char *more)
{
    uint32_t number = same_number(plain_said);
    bool refused = number != 0;
    bool spaces = unchanged(&given_a) & unchanged(&given_b) & unchanged(&given_c);
    spaces &= alike(&lent_a, refused) & alike(&lent_b, refused);
    t->inputs++;
    t->granted += number == 0;
    t->numbers |= 1ull << (number & 63);
    if (library_said == plain_said && spaces && !*more) return;
    if (t->differences++ < 3)
        printf("DIFFERENCE in %s, input %llu: library %u beside %u, plain %u beside %u%s%s\n", t->call,
               (unsigned long long)t->inputs, same_number(library_said), same_size_or_index(library_said), number,
               same_size_or_index(plain_said), spaces ? "" : ", lent space differs", more);
}

static void judge(struct tally *t, uint64_t library_said, uint64_t plain_said)
{
    judge_all(t, library_said, plain_said, "");
}

static void print_tally(const struct tally *t)
{
    printf("%-8s %9llu inputs %9llu granted %6llu differences   numbers:", t->call, (unsigned long long)t->inputs,
           (unsigned long long)t->granted, (unsigned long long)t->differences);
    for (int i = 1; i < 64; i++)
        if (t->numbers >> i & 1) printf(" %d", i);
    printf("\n");
}

/* ---- made inputs: places, texts, books, program input */

static uint32_t some_place(void)
{
    static const uint32_t states[] = {1, 2, 39, 40, 98, 99}, counties[] = {0, 1, 51, 69, 173, 999};
    uint32_t part = one_in(2) ? 0 : below(10);
    uint32_t state = one_in(20) ? below(100) : states[below(6)];
    uint32_t county = one_in(3) ? below(1000) : counties[below(6)];
    return part * 100000 + state * 1000 + county;
}

static uint32_t without_state(uint32_t place) { return place / 100000 * 100000 + place % 1000; }

/* Six zeros and other places without a state are rare among some_place. */
static uint32_t with_zeros(void)
{
    uint32_t kind = below(8), place = some_place();
    return kind == 0 ? 0 : kind == 1 ? without_state(place) : place;
}

static uint32_t some_client(void)
{
    static const uint32_t clients[] = {1, 2, 7, 12, 9999};
    return one_in(3) ? 1 + below(9999) : clients[below(5)];
}

static uint32_t some_wish(void) { return 1 + below(63); }

static uint32_t some_minutes(void)
{
    static const uint32_t ends[] = {15, 30, 45, 60, 90, 5940, 5970};
    return one_in(2) ? ends[below(7)] : 30 * (1 + below(199));
}

static const char codes[] = "BZWCFACFWDSWEWWFFAFFWFFSFLAFLWFLSHWAHWWHUAHUWHLSSVASVRSVS"
                            "SMWSPSSQWSSASSWTOATORTRATRWTSATSWWSAWSW"
                            "EANNICNPTRMTRWTADRAVAAVWBLUCAECDWCEMEQWEVIFRWHMWLEWLAETOENUWRHWSPWVOWNMNDMOTXFTXOTXBTXP";

static void some_event(uint8_t *event)
{
    if (one_in(4))
        for (int i = 0; i < 3; i++) event[i] = (uint8_t)('A' + below(26));
    else
        memcpy(event, codes + 3 * below(61), 3);
}

static void good_fields(uint32_t *f, uint32_t count)
{
    static const char origins[] = "EASCIVWXRPEP";
    uint8_t event[3];
    uint32_t origin = 3 * below(4);
    some_event(event);
    for (uint32_t i = 0; i < 3; i++) f[SAME_ORIGIN + i] = (uint8_t)origins[origin + i], f[SAME_EVENT + i] = event[i];
    f[SAME_COUNT] = count;
    f[SAME_MINUTES] = some_minutes();
    f[SAME_DAY] = one_in(4) ? 365 + below(2) : 1 + below(366);
    f[SAME_HOUR] = below(24);
    f[SAME_MINUTE] = below(60);
    for (int i = 0; i < 8; i++) {
        uint32_t c = 32 + below(95);
        f[SAME_SENDER + i] = c == '-' || c == '+' ? '/' : c;
    }
    for (uint32_t i = 0; i < 31; i++)
        f[SAME_PLACES + i] = i >= count ? any_word() : one_in(12) ? without_state(some_place()) : some_place();
    if (one_in(4)) f[SAME_PLACES + below(count)] = 0;
}

static uint32_t some_count(void)
{
    uint32_t kind = below(4);
    return kind == 0 ? 1 : kind == 1 ? 31 : 1 + below(31);
}

/* Writes a good text of so many places, and gives its length. */
static size_t good_text(uint8_t *text, uint32_t count)
{
    uint32_t fields[SAME_FIELD_WORDS];
    good_fields(fields, count);
    return same_size_or_index(plain_write(fields, SAME_FIELD_WORDS, text, SAME_TEXT_BYTES));
}

/* Bytes that stand near the edge of what some field allows. */
static uint8_t edge_byte(void)
{
    static const char edges[] = "-+09/:AZ@[az \n~\x7f\x1f\xab";
    return one_in(3) ? (uint8_t)chance() : (uint8_t)edges[below(sizeof edges - 1)];
}

/* Two values of fields that a text may say wrongly while each byte is a digit. */
static void misread_value(uint8_t *text, size_t n)
{
    static const char values[][5] = {"0000", "0060", "0075", "0115", "0145", "0010", "9945", "9999", "0001"};
    static const char issues[][8] = {"0002359", "3660000", "3670000", "3652400", "1001260", "9999999"};
    if (one_in(2)) memcpy(text + n - 22, values[below(9)], 4);
    else memcpy(text + n - 17, issues[below(6)], 7);
}

/* Spoils a text of n bytes in place and gives its new length. There is room for 400 bytes. */
static size_t spoil_text(uint8_t *text, size_t n)
{
    size_t at = n ? below((uint32_t)n) : 0;
    switch (below(8)) {
    case 0: if (n) text[at] = edge_byte(); return n;
    case 1: if (n) text[at] = (uint8_t)chance(); return n;
    case 2: return at;
    case 3: text[n] = edge_byte(); return n + 1;
    case 4: n += below(300 - (uint32_t)least(n, 252)); return n;
    case 5: if (n) memmove(text + at, text + at + 1, n - at - 1); return n ? n - 1 : 0;
    case 6: memmove(text + at + 1, text + at, n - at), text[at] = edge_byte(); return n + 1;
    default: if (n >= 42) misread_value(text, n); return n;
    }
}

/* Thirty-one places and a mark that promises another; what follows is cut somewhere. */
static size_t one_place_too_many(uint8_t *text)
{
    size_t n = good_text(text, 31);
    text[229] = '-';
    if (one_in(2)) memcpy(text + 230, "039173+", 7);
    return one_in(3) ? n : 230 + below(23);
}

static size_t some_text(uint8_t *text)
{
    fill_noise(text, 400);
    uint32_t kind = below(10);
    if (kind == 0) return below(300);
    if (kind == 1) return one_place_too_many(text);
    size_t n = good_text(text, some_count());
    if (kind < 4) return n;
    n = spoil_text(text, n);
    return one_in(6) ? spoil_text(text, n) : n;
}

/* Books of many sizes to start from. */
enum { SHELF = 48 };
static uint32_t shelf[SHELF][BOOK];

static void fill_book(uint32_t *book, uint32_t size)
{
    memset(book, 0, BOOK * WORD);
    while (book[100] < size) {
        uint32_t place = one_in(2) ? some_place() : below(10) * 100000 + (1 + below(99)) * 1000 + below(1000);
        plain_add(book, BOOK, place, some_client(), some_wish());
    }
}

static void fill_shelf(void)
{
    static const uint32_t sizes[] = {0, 1, 2, 3, 10, 100, 1000, 2048, 4000, 4094, 4095, 4096};
    for (int i = 0; i < SHELF; i++) fill_book(shelf[i], i < 24 ? sizes[i % 12] : below(300));
}

static const uint32_t *some_book(void) { return shelf[below(SHELF)]; }

/* Breaks, mostly, one rule about the record at this word and leaves the counts alone. */
static void spoil_record(uint32_t *book, uint32_t at)
{
    uint32_t kept[2] = {book[at], book[at + 1]}, *next = book + at + 2;
    bool has_next = at + 3 < BOOK;
    switch (below(5)) {
    case 0: book[at + 1] &= ~63u; break;                                  /* no wish */
    case 1: book[at + 1] = (one_in(2) ? 0 : 10000 * 64) + kept[1] % 64; break; /* no such client */
    case 2: book[at] = one_in(2) ? 9999 : 1000000; break;                 /* no such state */
    case 3:                                                               /* two neighbours change places */
        if (has_next) memmove(book + at, next, 2 * WORD), memcpy(next, kept, 2 * WORD);
        break;
    default: /* the neighbour is of the same place and client */
        if (has_next) next[0] = kept[0], next[1] = kept[1] / 64 * 64 + some_wish();
    }
}

/* A state 0 at the front, counted as if there were such a state. */
static void spoil_first_state(uint32_t *book)
{
    uint32_t state = book[101] / 10000;
    book[101] %= 10000;
    for (uint32_t s = 1; s <= state && s < 101; s++) book[s]++;
}

static void spoil_word(uint32_t *word)
{
    switch (below(5)) {
    case 0: *word += 1; break;
    case 1: *word -= 1; break;
    case 2: *word = any_word(); break;
    case 3: *word = 0; break;
    default: *word ^= 1u << below(32);
    }
}

/* Where a rule of a book may break: the counts, a record that is used, the first unused one, anywhere. */
static void spoil_book(uint32_t *book)
{
    uint32_t total = book[100], record = 101 + 2 * below((uint32_t)least(total + 1, RECORDS));
    switch (below(8)) {
    case 0: case 1: spoil_word(book + below(101)); break;
    case 2: spoil_word(book + below(BOOK)); break;
    case 3: spoil_word(book + record + below(2)); break;
    case 4: spoil_first_state(book); break;
    default: spoil_record(book, record);
    }
}

/* A subscription to ask for: mostly fine, often one that stands in the book, sometimes out of range. */
static void some_asked(const uint32_t *book, uint32_t *asked)
{
    static const uint32_t odd[] = {0, 1, 63, 64, 9999, 10000, 99000, 999999, 1000000, 100000, 4294967295u};
    asked[0] = some_place(), asked[1] = some_client(), asked[2] = some_wish();
    if (book[100] && one_in(2)) {
        uint32_t at = 101 + 2 * below((uint32_t)least(book[100], RECORDS)), where = book[at];
        asked[0] = where % 10 * 100000 + where / 10000 * 1000 + where / 10 % 1000;
        if (!one_in(8)) asked[1] = book[at + 1] / 64;
    }
    if (one_in(6)) asked[below(3)] = odd[below(11)];
    if (one_in(12)) asked[below(3)] = odd[below(11)];
}

/* The book's length as lent: now and then another one. */
static size_t some_length(void) { return one_in(30) ? (one_in(2) ? BOOK - 1 : one_in(2) ? 0 : below(BOOK)) : BOOK; }

/* ---- comparing, call by call */

/* n preamble bytes as they may arrive: clean, or some with a wrong bit and one of the first 20 perhaps with another. */
static void preamble(uint8_t *burst, size_t n)
{
    memset(burst, 0xAB, n);
    if (n == 0 || one_in(3)) return;
    for (size_t i = 0; i < n; i++)
        if (one_in(3)) burst[i] ^= (uint8_t)(1u << below(8));
    if (one_in(3)) burst[below((uint32_t)least(n, 20))] ^= (uint8_t)(1u << below(8));
}

static void compare_strip(struct tally *t)
{
    uint8_t burst[400];
    size_t n = below(3) ? below(40) : below(400), run = below(3) ? below(40) : below(400);
    fill_noise(burst, sizeof burst);
    preamble(burst, run);
    const uint8_t *p = give(&given_a, burst, n);
    judge(t, library.strip(p, n), plain.strip(p, n));
}

/* A burst as it may arrive: preamble, text, damage, a cut or a tail. */
static size_t received(uint8_t *burst, const uint8_t *text, size_t n)
{
    size_t lead = one_in(4) ? below(30) : 16;
    fill_noise(burst, 400);
    preamble(burst, lead);
    memcpy(burst + lead, text, n);
    size_t length = lead + n;
    for (uint32_t hits = one_in(2) ? 0 : below(4); hits > 0 && n; hits--)
        burst[lead + below((uint32_t)n)] ^= (uint8_t)(1u << below(8));
    if (one_in(4)) length = below(2) ? below(290) : length - below((uint32_t)least(length, 5) + 1);
    if (one_in(10)) length += below(30);
    return one_in(30) ? 267 + below(4) : length;
}

static void compare_vote(struct tally *t)
{
    uint8_t text[400], a[400], b[400], c[400];
    size_t n = least(one_in(8) ? below(20) : some_text(text), 280);
    size_t na = received(a, text, n), nb = received(b, text, n), nc = received(c, text, n);
    size_t room = one_in(3) ? n : one_in(3) ? below(300) : 252;
    const uint8_t *pa = give(&given_a, a, na), *pb = give(&given_b, b, nb), *pc = give(&given_c, c, nc);
    lend(&lent_a, NULL, room);
    struct same_voted x = library.vote(pa, na, pb, nb, pc, nc, ours(&lent_a), room);
    struct same_voted y = plain.vote(pa, na, pb, nb, pc, nc, theirs(&lent_a), room);
    char more[80] = "";
    if (x.first != y.first || x.second != y.second || x.third != y.third)
        snprintf(more, sizeof more, ", dropped %u %u %u, not %u %u %u", x.first, x.second, x.third, y.first, y.second,
                 y.third);
    judge_all(t, x.answer, y.answer, more);
}

static size_t some_field_words(void) { return one_in(12) ? 49 + below(3) : one_in(20) ? below(60) : 50; }

static void compare_read(struct tally *t)
{
    uint8_t text[700];
    size_t n = some_text(text), words = some_field_words();
    const uint8_t *p = give(&given_a, text, n);
    lend(&lent_a, NULL, words * WORD);
    judge(t, library.read(p, n, ours(&lent_a), words), plain.read(p, n, theirs(&lent_a), words));
}

static void spoil_fields(uint32_t *f)
{
    static const uint32_t edges[] = {0, 1, 14, 15, 23, 24, 30, 31, 32, 43, 45, 59, 60, 126, 127, 255, 256 + 'A',
                                     366, 367, 5970, 5971, 6000, 999999, 1000000, 4294967295u};
    uint32_t at = one_in(3) ? 6 + below(5) : below(SAME_FIELD_WORDS);
    uint32_t kind = below(4);
    f[at] = kind == 0 ? any_word() : kind == 1 ? f[at] + 256 : edges[below(25)];
}

static void compare_write(struct tally *t)
{
    uint32_t fields[64];
    size_t words = some_field_words();
    fill_noise(fields, sizeof fields);
    good_fields(fields, some_count());
    if (one_in(2)) spoil_fields(fields);
    if (one_in(8)) spoil_fields(fields);
    size_t length = 35 + 7 * (size_t)(fields[SAME_COUNT] & 31);
    size_t room = one_in(4) ? length - 1 + below(3) : one_in(10) ? below(260) : 252;
    const uint32_t *p = give(&given_a, fields, words * WORD);
    lend(&lent_a, NULL, room);
    judge(t, library.write(p, words, ours(&lent_a), room), plain.write(p, words, theirs(&lent_a), room));
}

/* Every code of three capitals, then codes that are nearly listed. */
static void event_input(uint64_t i, uint8_t *e)
{
    if (i < 26 * 26 * 26) {
        e[0] = (uint8_t)('A' + i / 676), e[1] = (uint8_t)('A' + i / 26 % 26), e[2] = (uint8_t)('A' + i % 26);
        return;
    }
    some_event(e);
    if (one_in(2)) e[below(3)] = (uint8_t)chance();
}

static void compare_listed(struct tally *t)
{
    uint8_t e[3];
    event_input(t->inputs, e);
    judge(t, (uint64_t)library.listed(e[0], e[1], e[2]) << 32, (uint64_t)plain.listed(e[0], e[1], e[2]) << 32);
}

static void compare_class(struct tally *t)
{
    uint8_t e[3];
    event_input(t->inputs, e);
    judge(t, (uint64_t)library.class(e[0], e[1], e[2]) << 32, (uint64_t)plain.class(e[0], e[1], e[2]) << 32);
}

static void compare_matches(struct tally *t)
{
    static const uint32_t steps[] = {1, 1000, 100000, 1000000};
    uint32_t watched = one_in(10) ? any_word() : with_zeros(), sent = one_in(10) ? any_word() : with_zeros();
    if (one_in(3)) sent = watched + steps[below(4)] * below(12);
    judge(t, (uint64_t)library.matches(watched, sent) << 32, (uint64_t)plain.matches(watched, sent) << 32);
}

static uint32_t scratch[BOOK];

static void compare_good(struct tally *t)
{
    memcpy(scratch, some_book(), sizeof scratch);
    size_t words = some_length();
    if (!one_in(5)) spoil_book(scratch);
    const uint32_t *p = give(&given_a, scratch, words * WORD);
    judge(t, library.good(p, words), plain.good(p, words));
}

/* A book to edit, now and then a broken one or one of another length. */
static size_t lend_book(void)
{
    size_t words = some_length();
    memcpy(scratch, some_book(), sizeof scratch);
    if (one_in(12)) spoil_book(scratch);
    lend(&lent_a, scratch, words * WORD);
    return words;
}

static void compare_add(struct tally *t)
{
    uint32_t s[3];
    size_t words = lend_book();
    some_asked(scratch, s);
    judge(t, library.add(ours(&lent_a), words, s[0], s[1], s[2]), plain.add(theirs(&lent_a), words, s[0], s[1], s[2]));
}

static void compare_remove(struct tally *t)
{
    uint32_t s[3];
    size_t words = lend_book();
    some_asked(scratch, s);
    judge(t, library.remove(ours(&lent_a), words, s[0], s[1]), plain.remove(theirs(&lent_a), words, s[0], s[1]));
}

/* A run of edits on one book, which each side carries on with its own. */
static void compare_run(struct tally *t)
{
    static uint32_t ours_book[BOOK], plain_book[BOOK];
    if (t->inputs % 5000 == 0) {
        memcpy(ours_book, some_book(), sizeof ours_book);
        memcpy(plain_book, ours_book, sizeof plain_book);
    }
    uint32_t s[3];
    some_asked(plain_book, s);
    bool adds = below(5) < 3;
    uint64_t a = adds ? library.add(ours_book, BOOK, s[0], s[1], s[2]) : library.remove(ours_book, BOOK, s[0], s[1]);
    uint64_t b = adds ? plain.add(plain_book, BOOK, s[0], s[1], s[2]) : plain.remove(plain_book, BOOK, s[0], s[1]);
    judge(t, a, memcmp(ours_book, plain_book, sizeof ours_book) ? ~b : b);
}

static void compare_load(struct tally *t)
{
    static uint32_t items[3 * 4200];
    size_t words = lend_book();
    uint32_t count = one_in(40) ? 4090 + below(20) : below(200);
    for (uint32_t i = 0; i < count; i++) {
        items[3 * i] = below(10) * 100000 + (1 + below(99)) * 1000 + below(1000);
        items[3 * i + 1] = count > 4000 ? 1 + i : some_client();
        items[3 * i + 2] = some_wish();
    }
    if (count > 0 && one_in(3)) {
        uint32_t *item = items + 3 * below(count);
        some_asked(scratch, item);
        if (one_in(3)) memcpy(item, items + 3 * below(count), 2 * WORD);
    }
    size_t n = 3 * (size_t)count + below(3);
    const uint32_t *p = give(&given_a, items, n * WORD);
    judge(t, library.load(ours(&lent_a), words, p, n), plain.load(theirs(&lent_a), words, p, n));
}

/* A clock: mostly good and near the header's day, at times at or over its edges. */
static void some_clock(uint32_t *c, const uint8_t *text, size_t n)
{
    c[0] = 1996 + below(104), c[1] = 1 + below(366), c[2] = below(24), c[3] = below(60);
    uint32_t f[SAME_FIELD_WORDS];
    if (!one_in(3) && same_number(plain_read(text, n, f, SAME_FIELD_WORDS)) == 0) {
        uint32_t at = f[SAME_DAY] * 1440 + f[SAME_HOUR] * 60 + f[SAME_MINUTE];
        switch (below(3)) {
        case 0: at += below(12) - 8; break;                 /* about the edge of early */
        case 1: at += f[SAME_MINUTES] - 1 + below(3); break; /* about the end */
        default: at += below(f[SAME_MINUTES] + 20);
        }
        c[1] = at / 1440, c[2] = at % 1440 / 60, c[3] = at % 60;
    }
    static const uint32_t odd[] = {0, 24, 60, 366, 367, 1995, 1996, 2099, 2100, 2023, 2024, 4294967295u};
    if (one_in(10)) c[below(4)] = odd[below(12)];
}

static void compare_report(struct tally *t)
{
    uint8_t text[700];
    uint32_t c[4];
    size_t n = one_in(3) ? some_text(text) : good_text(text, some_count());
    size_t words = some_length();
    memcpy(scratch, some_book(), sizeof scratch);
    if (one_in(12)) spoil_book(scratch);
    uint32_t client = one_in(20) ? (one_in(2) ? 0 : 10000) : some_client();
    some_clock(c, text, n);
    size_t summary = one_in(15) ? 15 + below(3) : 16, hits = one_in(3) ? below(20) : SAME_HIT_WORDS;
    const uint32_t *book = give(&given_a, scratch, words * WORD);
    const uint8_t *p = give(&given_b, text, n);
    lend(&lent_a, NULL, summary * WORD);
    lend(&lent_b, NULL, hits * WORD);
    uint64_t library_said = library.report(book, words, client, p, n, c[0], c[1], c[2], c[3], ours(&lent_a), summary,
                                           ours(&lent_b), hits);
    uint64_t plain_said = plain.report(book, words, client, p, n, c[0], c[1], c[2], c[3], theirs(&lent_a), summary,
                                       theirs(&lent_b), hits);
    judge(t, library_said, plain_said);
}

/* The program's input, line by line, with a fault now and then. */
static size_t put_sub(char *p, uint32_t place, uint32_t client, uint32_t wish)
{
    return (size_t)sprintf(p, "sub=%06u %04u %02u\n", place % 1000000, client % 10000, wish % 100);
}

/* Subscriptions that may well be refused; that are all granted; that are all granted and of one client. */
enum kind { CARELESS, GRANTED, ONE_CLIENT };

static void some_sub(uint32_t *s, enum kind kind, uint32_t i, uint32_t asker)
{
    s[0] = some_place(), s[1] = some_client(), s[2] = some_wish();
    if (kind == CARELESS && one_in(40)) s[below(3)] = 0;
    if (kind == GRANTED) {
        if (s[0] / 1000 % 100 == 0) s[0] += 1000;
        s[1] = i < 5 ? i + 1 : i + 100; /* no client twice */
    }
    if (kind == ONE_CLIENT) s[0] = (1 + i % 99) * 1000 + i / 99, s[1] = asker; /* no place twice */
}

static size_t some_input(char *p, uint32_t subs, enum kind kind)
{
    uint8_t text[700];
    uint32_t c[4], asker = one_in(30) ? 0 : kind == GRANTED ? 1 + below(5) : some_client();
    size_t n = one_in(4) ? some_text(text) : good_text(text, some_count()), at = 0;
    some_clock(c, text, n);
    at += (size_t)sprintf(p + at, "now=%04u %03u %02u%02u\n", c[0] % 10000, c[1] % 1000, c[2] % 100, c[3] % 100);
    at += (size_t)sprintf(p + at, "client=%04u\nheader=", asker);
    memcpy(p + at, text, n);
    at += n;
    p[at++] = '\n';
    for (uint32_t i = 0; i < subs; i++) {
        uint32_t s[3];
        some_sub(s, kind, i, asker);
        at += put_sub(p + at, s[0], s[1], s[2]);
    }
    return at;
}

static size_t spoil_input(char *p, size_t n)
{
    size_t at = below((uint32_t)n);
    if (one_in(2)) at = below((uint32_t)least(n, 40));
    switch (below(5)) {
    case 0: p[at] = (char)edge_byte(); return n;
    case 1: return one_in(2) ? n - 1 : at;
    case 2: memmove(p + at, p + at + 1, n - at - 1); return n - 1;
    case 3: memmove(p + at + 1, p + at, n - at), p[at] = one_in(2) ? '0' : '\n'; return n + 1;
    default: p[n] = one_in(2) ? '\n' : 's'; return n + 1;
    }
}

/* A line at the limit of 300 bytes: the header's, which alone may be long. */
static size_t long_line(char *p)
{
    size_t at = (size_t)sprintf(p, "now=2024 159 1840\nclient=0007\nheader=");
    size_t n = 290 + below(8);
    for (size_t i = 0; i < n; i++) p[at++] = (char)(one_in(4) ? 200 : 'Z');
    p[at++] = '\n';
    return at;
}

static void compare_page(struct tally *t)
{
    static char in[AREA / 2];
    bool full = one_in(60);
    enum kind kind = full ? 1 + below(2) : below(3);
    size_t n = some_input(in, full ? 4095 + below(3) : below(30), kind);
    if (one_in(40)) n = long_line(in);
    if (one_in(3)) n = spoil_input(in, n);
    if (one_in(100)) n = below(2), in[0] = '\n';
    size_t room = one_in(5) ? below(200) : full ? SAME_PAGE_BYTES : 4096;
    const uint8_t *p = give(&given_a, in, n);
    lend(&lent_a, NULL, room);
    uint64_t library_said = library.page(p, n, ours(&lent_a), room);
    uint64_t plain_said = plain.page(p, n, theirs(&lent_a), room);
    const char *page = theirs(&lent_a);
    /* The numbers on pages count as met, too. */
    if (same_number(plain_said) == 0 && !memcmp(page, "refused=", 8)) t->numbers |= 1ull << (atoi(page + 8) & 63);
    judge(t, library_said, plain_said);
}

static bool compare_all(uint64_t part)
{
    static const struct {
        const char *call;
        void (*one)(struct tally *);
        uint64_t inputs;
    } plan[] = {
        {"strip", compare_strip, 100000},   {"vote", compare_vote, 250000},   {"read", compare_read, 300000},
        {"write", compare_write, 200000},   {"listed", compare_listed, 60000}, {"class", compare_class, 60000},
        {"matches", compare_matches, 200000}, {"good", compare_good, 60000},  {"add", compare_add, 50000},
        {"remove", compare_remove, 50000},  {"edits", compare_run, 100000},   {"load", compare_load, 30000},
        {"report", compare_report, 60000},  {"page", compare_page, 60000},
    };
    uint64_t inputs = 0, differences = 0;
    for (size_t i = 0; i < sizeof plan / sizeof *plan; i++) {
        struct tally t = {plan[i].call, 0, 0, 0, 0};
        while (t.inputs < plan[i].inputs / part) plan[i].one(&t);
        print_tally(&t);
        inputs += t.inputs, differences += t.differences;
    }
    printf("compared: %llu inputs, %llu differences\n", (unsigned long long)inputs, (unsigned long long)differences);
    return differences == 0;
}

/* ---- timing */

/* What the timed calls work on. It is cleared before each row and filled with the same content for both sides. */
enum { VARIETY = 64, REPEAT = 16 };
static struct {
    uint8_t bursts[VARIETY][3][268];
    uint8_t texts[VARIETY][SAME_TEXT_BYTES];
    size_t text_bytes[VARIETY];
    uint32_t fields[VARIETY][SAME_FIELD_WORDS];
    uint8_t out[SAME_PAGE_BYTES];
    uint32_t read[SAME_FIELD_WORDS], summary[SAME_SUMMARY_WORDS], hits[SAME_HIT_WORDS];
    uint32_t book[BOOK], asked[VARIETY][3], items[3 * RECORDS];
    uint32_t count, next, client;
    uint8_t in[98304];
    size_t in_bytes;
} bench;

static volatile uint64_t sink; /* keeps answers alive */

static void once_strip(const struct api *api)
{
    for (int r = 0; r < REPEAT; r++)
        for (int i = 0; i < VARIETY; i++) sink = api->strip(bench.bursts[i][0], 268);
}

static void once_vote(const struct api *api)
{
    for (int i = 0; i < VARIETY; i++)
        sink = api->vote(bench.bursts[i][0], 268, bench.bursts[i][1], 268, bench.bursts[i][2], 268, bench.out, 252)
                   .answer;
}

static void once_read(const struct api *api)
{
    for (int i = 0; i < VARIETY; i++)
        sink = api->read(bench.texts[i], bench.text_bytes[i], bench.read, SAME_FIELD_WORDS);
}

static void once_write(const struct api *api)
{
    for (int i = 0; i < VARIETY; i++) sink = api->write(bench.fields[i], SAME_FIELD_WORDS, bench.out, SAME_TEXT_BYTES);
}

static void once_class(const struct api *api)
{
    for (int r = 0; r < REPEAT; r++)
        for (int i = 0; i < VARIETY; i++) {
            const uint8_t *event = bench.texts[i] + 9;
            sink = api->class(event[0], event[1], event[2]);
        }
}

static void once_listed(const struct api *api)
{
    for (int r = 0; r < REPEAT; r++)
        for (int i = 0; i < VARIETY; i++) {
            const uint8_t *event = bench.texts[i] + 9;
            sink = api->listed(event[0], event[1], event[2]);
        }
}

static void once_matches(const struct api *api)
{
    for (int r = 0; r < REPEAT; r++)
        for (int i = 0; i < VARIETY; i++) sink = api->matches(bench.asked[i][0], bench.asked[(i + 1) % VARIETY][0]);
}

static void once_good(const struct api *api) { sink = api->good(bench.book, BOOK); }

static uint32_t *next_asked(void) { return bench.asked[bench.next % VARIETY]; }

static void once_add(const struct api *api)
{
    uint32_t *s = next_asked();
    sink = api->add(bench.book, BOOK, s[0], s[1], s[2]);
}

static void undo_add(void)
{
    uint32_t *s = next_asked();
    plain_remove(bench.book, BOOK, s[0], s[1]);
    bench.next++;
}

static void once_remove(const struct api *api)
{
    uint32_t *s = next_asked();
    sink = api->remove(bench.book, BOOK, s[0], s[1]);
}

/* What was removed comes back, and the next one is made to stand. */
static void undo_remove(void)
{
    bench.next++;
    uint32_t *s = next_asked();
    plain_add(bench.book, BOOK, s[0], s[1], s[2]);
}

static void once_load(const struct api *api) { sink = api->load(bench.book, BOOK, bench.items, 3 * bench.count); }

static void once_report(const struct api *api)
{
    for (int i = 0; i < REPEAT; i++)
        sink = api->report(bench.book, BOOK, bench.client, bench.texts[i], bench.text_bytes[i], 2024, 159, 18, 40,
                           bench.summary, SAME_SUMMARY_WORDS, bench.hits, SAME_HIT_WORDS);
}

static void once_page(const struct api *api)
{
    sink = api->page(bench.in, bench.in_bytes, bench.out, sizeof bench.out);
}

static void nothing(void) {}

/* ---- what a row is filled with; arg is the row's size */

static void set_bursts(uint32_t arg)
{
    (void)arg;
    for (int i = 0; i < VARIETY; i++) {
        uint8_t text[SAME_TEXT_BYTES];
        good_text(text, 31);
        for (int k = 0; k < 3; k++) {
            memset(bench.bursts[i][k], 0xAB, 16);
            memcpy(bench.bursts[i][k] + 16, text, 252);
            bench.bursts[i][k][20 + below(248)] ^= (uint8_t)(1u << below(8));
        }
    }
}

static void set_texts(uint32_t places)
{
    for (int i = 0; i < VARIETY; i++) {
        good_fields(bench.fields[i], places);
        bench.text_bytes[i] =
            same_size_or_index(plain_write(bench.fields[i], SAME_FIELD_WORDS, bench.texts[i], SAME_TEXT_BYTES));
    }
}

static void set_matches(uint32_t arg)
{
    (void)arg;
    for (int i = 0; i < VARIETY; i++) bench.asked[i][0] = some_place();
}

/* A book of clients below 9,000, and subscriptions of one above that stand nowhere in it. */
static void set_book(uint32_t size)
{
    while (bench.book[100] < size)
        plain_add(bench.book, BOOK, below(10) * 100000 + (1 + below(99)) * 1000 + below(1000), 1 + below(8999),
                  some_wish());
    for (uint32_t i = 0; i < VARIETY; i++) {
        bench.asked[i][0] = below(10) * 100000 + (1 + below(99)) * 1000 + below(1000);
        bench.asked[i][1] = 9001 + i, bench.asked[i][2] = some_wish();
    }
}

/* The one to remove stands besides, so that the book has size others. */
static void set_book_and_one(uint32_t size)
{
    set_book(size);
    uint32_t *s = next_asked();
    plain_add(bench.book, BOOK, s[0], s[1], s[2]);
}

/* Items in book order: 256 for each client. */
static void set_items_sorted(uint32_t count)
{
    for (uint32_t i = 0; i < count; i++) {
        uint32_t *item = bench.items + 3 * i;
        uint32_t state = 1 + i * 99 / count;
        item[0] = state * 1000 + i % 900, item[1] = 1 + i % 16, item[2] = 1 + i % 63;
    }
    static uint32_t book[BOOK];
    memset(book, 0, sizeof book);
    plain_load(book, BOOK, bench.items, 3 * count);
    for (uint32_t i = 0; i < book[100]; i++) {
        uint32_t where = book[101 + 2 * i], who = book[102 + 2 * i], *item = bench.items + 3 * i;
        item[0] = where % 10 * 100000 + where / 10000 * 1000 + where / 10 % 1000;
        item[1] = who / 64, item[2] = who % 64;
    }
    bench.count = count;
}

static void set_items_shuffled(uint32_t count)
{
    set_items_sorted(count);
    for (uint32_t i = count; i > 1; i--) {
        uint32_t kept[3], *a = bench.items + 3 * (i - 1), *b = bench.items + 3 * below(i);
        memcpy(kept, a, sizeof kept), memcpy(a, b, sizeof kept), memcpy(b, kept, sizeof kept);
    }
}

/* A loaded book, and headers whose places stand in it. */
static void set_report(uint32_t records, uint32_t places, uint32_t clients)
{
    set_items_sorted(records);
    for (uint32_t i = 0; i < records; i++) bench.items[3 * i + 1] = 1 + i % clients, bench.items[3 * i + 2] = 63;
    if (plain_load(bench.book, BOOK, bench.items, 3 * records)) abort();
    set_texts(places);
    for (int i = 0; i < VARIETY; i++) {
        uint32_t *f = bench.fields[i];
        for (uint32_t k = 0; k < places; k++) f[SAME_PLACES + k] = bench.items[3 * below(records)];
        f[SAME_EVENT] = 'T', f[SAME_EVENT + 1] = 'O', f[SAME_EVENT + 2] = 'R';
        plain_write(f, SAME_FIELD_WORDS, bench.texts[i], SAME_TEXT_BYTES);
    }
    bench.client = 1;
}

static void set_report_1_place(uint32_t records) { set_report(records, 1, 16); }
static void set_report_31_places(uint32_t records) { set_report(records, 31, 16); }
static void set_report_one_client(uint32_t records) { set_report(records, 31, 1); }

/* Headers of one place, six zeros. */
static void set_report_national(uint32_t records)
{
    set_report(records, 1, 1);
    for (int i = 0; i < VARIETY; i++) {
        bench.fields[i][SAME_PLACES] = 0;
        plain_write(bench.fields[i], SAME_FIELD_WORDS, bench.texts[i], SAME_TEXT_BYTES);
    }
}

static void set_page_from_items(void)
{
    char *p = (char *)bench.in;
    size_t at = (size_t)sprintf(p, "now=2024 159 1840\nclient=0001\n"
                                   "header=ZCZC-WXR-TOR-039000-040000-041000+0030-1591829-KCLE/NWS-\n");
    for (uint32_t i = 0; i < bench.count; i++) {
        uint32_t *item = bench.items + 3 * i;
        at += put_sub(p + at, item[0], item[1], item[2]);
    }
    bench.in_bytes = at;
}

static void set_page_sorted(uint32_t count)
{
    set_items_sorted(count);
    set_page_from_items();
}

static void set_page_shuffled(uint32_t count)
{
    set_items_shuffled(count);
    set_page_from_items();
}

struct row {
    const char *name;
    uint32_t calls; /* in one go */
    void (*once)(const struct api *);
    void (*undo)(void);
    void (*set)(uint32_t);
    uint32_t arg;
    double ratio, ns[SIDES];
};

static struct row rows[] = {
    {"strip, 16 of 268 bytes", VARIETY * REPEAT, once_strip, nothing, set_bursts, 0, 0, {0}},
    {"vote, three of 268 bytes", VARIETY, once_vote, nothing, set_bursts, 0, 0, {0}},
    {"read, 1 place", VARIETY, once_read, nothing, set_texts, 1, 0, {0}},
    {"read, 31 places", VARIETY, once_read, nothing, set_texts, 31, 0, {0}},
    {"write, 1 place", VARIETY, once_write, nothing, set_texts, 1, 0, {0}},
    {"write, 31 places", VARIETY, once_write, nothing, set_texts, 31, 0, {0}},
    {"listed", VARIETY * REPEAT, once_listed, nothing, set_texts, 1, 0, {0}},
    {"class", VARIETY * REPEAT, once_class, nothing, set_texts, 1, 0, {0}},
    {"matches", VARIETY * REPEAT, once_matches, nothing, set_matches, 0, 0, {0}},
    {"good, book of 0", 1, once_good, nothing, set_book, 0, 0, {0}},
    {"good, book of 4,096", 1, once_good, nothing, set_book, 4096, 0, {0}},
    {"add, book of 0", 1, once_add, undo_add, set_book, 0, 0, {0}},
    {"add, book of 2,048", 1, once_add, undo_add, set_book, 2048, 0, {0}},
    {"add, book of 4,095", 1, once_add, undo_add, set_book, 4095, 0, {0}},
    {"remove, book of 0 and one", 1, once_remove, undo_remove, set_book_and_one, 0, 0, {0}},
    {"remove, book of 2,048 and one", 1, once_remove, undo_remove, set_book_and_one, 2048, 0, {0}},
    {"remove, book of 4,095 and one", 1, once_remove, undo_remove, set_book_and_one, 4095, 0, {0}},
    {"load, 1,024 sorted", 1, once_load, nothing, set_items_sorted, 1024, 0, {0}},
    {"load, 4,096 sorted", 1, once_load, nothing, set_items_sorted, 4096, 0, {0}},
    {"load, 1,024 shuffled", 1, once_load, nothing, set_items_shuffled, 1024, 0, {0}},
    {"load, 4,096 shuffled", 1, once_load, nothing, set_items_shuffled, 4096, 0, {0}},
    {"report, 1,024 records, 1 place", REPEAT, once_report, nothing, set_report_1_place, 1024, 0, {0}},
    {"report, 4,096 records, 1 place", REPEAT, once_report, nothing, set_report_1_place, 4096, 0, {0}},
    {"report, 1,024 records, 31 places", REPEAT, once_report, nothing, set_report_31_places, 1024, 0, {0}},
    {"report, 4,096 records, 31 places", REPEAT, once_report, nothing, set_report_31_places, 4096, 0, {0}},
    {"report, 4,096 of one client, 31", REPEAT, once_report, nothing, set_report_one_client, 4096, 0, {0}},
    {"report, 4,096 of one client, 000000", REPEAT, once_report, nothing, set_report_national, 4096, 0, {0}},
    {"page, 4,096 subscriptions sorted", 1, once_page, nothing, set_page_sorted, 4096, 0, {0}},
    {"page, 4,096 subscriptions shuffled", 1, once_page, nothing, set_page_shuffled, 4096, 0, {0}},
};

/* Many short rounds, and the best of them: other work on the machine only ever adds time. */
enum { ROUNDS = 101, ROUND_NS = 200000 };

static double now_ns(void)
{
    struct timespec t;
    clock_gettime(CLOCK_MONOTONIC, &t);
    return (double)t.tv_sec * 1e9 + (double)t.tv_nsec;
}

/* What two looks at the clock cost by themselves. */
static double clock_cost(void)
{
    double best = 1e9;
    for (int i = 0; i < 10000; i++) {
        double from = now_ns(), took = now_ns() - from;
        if (took < best) best = took;
    }
    return best;
}

/* Time of one call in a round of so many goes; only the call itself is timed, not what undoes it. */
static double one_round(const struct row *row, const struct api *api, uint32_t goes, double cost)
{
    double sum = 0;
    for (uint32_t i = 0; i < goes; i++) {
        double from = now_ns();
        row->once(api);
        sum += now_ns() - from - cost;
        row->undo();
    }
    return sum / goes / row->calls;
}

static void time_row(struct row *row, double cost)
{
    memset(&bench, 0, sizeof bench);
    chance_state = 7;
    row->set(row->arg);
    double trial = one_round(row, &plain, VARIETY, cost) * row->calls;
    uint32_t goes = trial > 0 ? (uint32_t)(ROUND_NS / trial) + 1 : 100;
    /* Rows that go through the asked ones take all of them in each round, so that both sides get the same. */
    if (row->undo != nothing) goes = VARIETY;
    for (int r = 0; r < ROUNDS; r++) {
        for (int turn = 0; turn < SIDES; turn++) {
            int side = (turn + r) % SIDES;
            double took = one_round(row, sides[side], goes, cost);
            if (r == 0 || took < row->ns[side]) row->ns[side] = took;
        }
    }
    row->ratio = row->ns[1] / row->ns[0];
    printf("%-36s %12.1f %12.1f %8.2f", row->name, row->ns[0], row->ns[1], row->ratio);
    if (SIDES > 2) printf(" %12.1f %8.2f", row->ns[SIDES - 1], row->ns[1] / row->ns[SIDES - 1]);
    printf("\n");
}

static const struct row *find_row(const char *name)
{
    for (size_t i = 0; i < sizeof rows / sizeof *rows; i++)
        if (!strcmp(rows[i].name, name)) return &rows[i];
    abort();
}

static void print_growth(const char *small, const char *large)
{
    const struct row *a = find_row(small), *b = find_row(large);
    printf("%-36s plain x %.1f, library x %.1f\n", large, b->ns[0] / a->ns[0], b->ns[1] / a->ns[1]);
}

static void time_all(void)
{
    double cost = clock_cost(), worst = 0;
    size_t above = 0, count = sizeof rows / sizeof *rows;
    printf("\nBuffers are cleared before each row, then filled with the same inputs for both sides.\n"
           "Best of %d rounds, the sides in turn. Nanoseconds for one call.\n\n%-36s %12s %12s %8s%s\n",
           ROUNDS, "call", "plain C", "library", "ratio", SIDES > 2 ? "       before    ratio" : "");
    for (size_t i = 0; i < count; i++) {
        time_row(&rows[i], cost);
        above += rows[i].ratio > 1.2;
        if (rows[i].ratio > worst) worst = rows[i].ratio;
    }
    printf("\nhighest ratio %.2f; above 1.2: %zu of %zu rows\n", worst, above, count);
    printf("\nfour times as much, 1,024 to 4,096:\n");
    print_growth("load, 1,024 sorted", "load, 4,096 sorted");
    print_growth("load, 1,024 shuffled", "load, 4,096 shuffled");
    print_growth("report, 1,024 records, 1 place", "report, 4,096 records, 1 place");
    print_growth("report, 1,024 records, 31 places", "report, 4,096 records, 31 places");
}

int main(int argc, char **argv)
{
    uint64_t seed = argc > 1 ? strtoull(argv[1], NULL, 10) : 1;
    chance_state = seed;
    setvbuf(stdout, NULL, _IOLBF, 0); /* a run that breaks off still shows how far it came */
    printf("seed %llu\n", (unsigned long long)seed);
    make_areas();
    fill_shelf();
    bool quick = argc > 2 && !strcmp(argv[2], "quick");
    if (!compare_all(quick ? 10 : 1)) return 1;
    if (!quick) time_all();
    return 0;
}
