/* Three damaged bursts become one text; two subscriptions become hits. examples/c/run builds and runs this. */
#include "same.h"

#include <stdio.h>
#include <string.h>

static const char sent[] = "ZCZC-WXR-TOR-039173-039051-139069+0030-1591829-KCLE/NWS-";

/* A burst as received: some preamble bytes, one of them with a wrong bit, then the text with one byte damaged. */
static size_t receive(uint8_t *burst, size_t preamble, size_t damaged)
{
    memset(burst, 0xAB, preamble);
    burst[preamble / 2] ^= 0x10;
    memcpy(burst + preamble, sent, sizeof sent - 1);
    burst[preamble + damaged] ^= 0x24;
    return preamble + sizeof sent - 1;
}

/* Says which call was refused, and by which number. */
static int refused(const char *call, uint64_t answer)
{
    if (same_number(answer)) printf("%s: refused %u at %u\n", call, same_number(answer), same_size_or_index(answer));
    return same_number(answer) != 0;
}

int main(void)
{
    static uint32_t book[SAME_BOOK_WORDS]; /* all zeros: the empty book */
    static uint32_t hits[SAME_HIT_WORDS];
    uint8_t a[268], b[268], c[268], text[SAME_TEXT_BYTES];
    uint32_t fields[SAME_FIELD_WORDS], summary[SAME_SUMMARY_WORDS];
    size_t na = receive(a, 16, 9), nb = receive(b, 16, 20), nc = receive(c, 11, 40);

    struct same_voted vote = same_vote(a, na, b, nb, c, nc, text, sizeof text);
    printf("dropped=%u %u %u\n", vote.first, vote.second, vote.third);
    if (refused("vote", vote.answer)) return 1;
    size_t n = same_size_or_index(vote.answer);
    printf("text=%.*s\n", (int)n, (const char *)text);

    if (refused("read", same_read(text, n, fields, SAME_FIELD_WORDS))) return 1;
    printf("places=%u minutes=%u\n", fields[SAME_COUNT], fields[SAME_MINUTES]);

    if (refused("add", same_add(book, SAME_BOOK_WORDS, 39051, 7, 1))) return 1;
    if (refused("add", same_add(book, SAME_BOOK_WORDS, 39069, 7, 3))) return 1;

    uint64_t report = same_report(book, SAME_BOOK_WORDS, 7, text, n, 2024, 159, 18, 40, summary, SAME_SUMMARY_WORDS,
                                  hits, SAME_HIT_WORDS);
    if (refused("report", report)) return 1;
    for (uint32_t i = 0; i < same_size_or_index(report); i++) printf("hit=%06u %02u\n", hits[2 * i], hits[2 * i + 1]);
    return 0;
}
