/* How much stack each call takes: a thread whose stack shrinks until it faults.
 *
 * A call runs in a thread of a process of its own. Below the thread's stack lies a stretch that may not be touched. The thread uses its
 * stack up but for N bytes and then calls. The smallest N with which the process lives is what is printed, to the next 64 bytes, with the
 * few that this program's own function takes to make the call. Each call is made on several inputs, so that the steps that take most are
 * among them. */
#include "same.h"

#include <alloca.h>
#include <fcntl.h>
#include <pthread.h>
#include <stdint.h>
#include <stdio.h>
#include <stdlib.h>
#include <string.h>
#include <sys/mman.h>
#include <sys/wait.h>
#include <unistd.h>

enum { STACK = 1 << 20, GUARD = 1 << 20, STEP = 64 };

static const char sent[] = "ZCZC-WXR-TOR-039173-039051-139069+0030-1591829-KCLE/NWS-";
static uint8_t bursts[3][268], text[SAME_TEXT_BYTES], many[SAME_TEXT_BYTES], input[98304], page[SAME_PAGE_BYTES];
static size_t many_bytes, input_bytes;
static uint32_t fields[SAME_FIELD_WORDS], summary[SAME_SUMMARY_WORDS], hits[SAME_HIT_WORDS], book[SAME_BOOK_WORDS];
static uint32_t items[3 * 4096];
static volatile uint64_t sink;
static int errors; /* a copy of standard error: in the processes that die, an emulator would say so each time */

/* 4,096 items, each place once, far from their order */
static void fill_items(void)
{
    for (uint32_t i = 0; i < 4096; i++) {
        uint32_t j = i * 1237 % 4096;
        items[3 * i] = (1 + j % 99) * 1000 + j / 99;
        items[3 * i + 1] = 7;
        items[3 * i + 2] = 63;
    }
}

static void fill(void)
{
    for (int i = 0; i < 3; i++) {
        memset(bursts[i], 0xAB, 16);
        memcpy(bursts[i] + 16, sent, sizeof sent - 1);
        bursts[i][20 + i] ^= 4;
    }
    char *at = (char *)many;
    at += sprintf(at, "ZCZC-WXR-TOR");
    for (int i = 1; i <= 31; i++) at += sprintf(at, "-0%02d000", i);
    at += sprintf(at, "+0030-1591829-KCLE/NWS");
    *at++ = '-';
    many_bytes = (size_t)(at - (char *)many);
    fill_items();
    at = (char *)input;
    at += sprintf(at, "now=2024 159 1840\nclient=0007\nheader=%.*s\n", (int)many_bytes, (const char *)many);
    for (int i = 0; i < 4096; i++) at += sprintf(at, "sub=%06u %04u %02u\n", items[3 * i], items[3 * i + 1], items[3 * i + 2]);
    input_bytes = (size_t)(at - (char *)input);
}

/* what a call says, and the number that it must be, so that no step is left out unseen */
static void said(const char *call, uint64_t answer, uint32_t number)
{
    if (same_number(answer) != number) {
        dprintf(errors, "stack: %s said %u, not %u\n", call, same_number(answer), number);
        _exit(3);
    }
    sink = answer;
}

static void call_strip(void) { said("strip", same_strip(bursts[0], 72), 0); }
static void call_vote(void)
{
    said("vote", same_vote(bursts[0], 72, bursts[1], 72, bursts[2], 72, text, sizeof text).answer, 0);
    said("vote", same_vote(bursts[0], 72, bursts[1], 71, bursts[2], 16, text, sizeof text).answer, 3);
}
static void call_read(void)
{
    said("read", same_read(many, many_bytes, fields, SAME_FIELD_WORDS), 0);
    said("read", same_read(many, 100, fields, SAME_FIELD_WORDS), 8);
}
static void call_write(void)
{
    said("read", same_read(many, many_bytes, fields, SAME_FIELD_WORDS), 0);
    said("write", same_write(fields, SAME_FIELD_WORDS, text, sizeof text), 0);
}
static void call_listed(void) { sink = same_listed('T', 'O', 'R'); }
static void call_class(void) { sink = same_class('T', 'O', 'R') + same_class('X', 'Y', 'Z'); }
static void call_matches(void) { sink = same_matches(139069, 39069); }
static void call_good(void) { said("good", same_good(book, SAME_BOOK_WORDS), 0); }
static void call_add(void)
{
    said("add", same_add(book, SAME_BOOK_WORDS, 39051, 7, 1), 0);
    said("add", same_add(book, SAME_BOOK_WORDS, 39051, 7, 1), 20);
}
static void call_remove(void)
{
    said("remove", same_remove(book, SAME_BOOK_WORDS, items[0], 7), 0);
    said("remove", same_remove(book, SAME_BOOK_WORDS, items[0], 7), 21);
}
static void call_load(void)
{
    said("load", same_load(book, SAME_BOOK_WORDS, items, 3 * 4096), 0);
    said("load", same_load(book, SAME_BOOK_WORDS, items, 30), 0);
    items[3] = items[0];
    said("load", same_load(book, SAME_BOOK_WORDS, items, 3 * 4096), 20);
}
static void call_report(void)
{
    said("report", same_report(book, SAME_BOOK_WORDS, 7, many, many_bytes, 2024, 159, 18, 40, summary, SAME_SUMMARY_WORDS, hits,
                               SAME_HIT_WORDS), 0);
    said("report", same_report(book, SAME_BOOK_WORDS, 7, many, many_bytes, 2024, 159, 18, 40, summary, SAME_SUMMARY_WORDS, hits, 2), 13);
    said("report", same_report(book, SAME_BOOK_WORDS, 7, many, many_bytes, 2024, 159, 18, 40, summary, 1, hits, 2), 13);
}
static void call_page(void)
{
    said("page", same_page(input, input_bytes, page, sizeof page), 0);
    input[input_bytes - 1] = ' ';
    said("page", same_page(input, input_bytes, page, sizeof page), 0);
}

static const struct {
    const char *name;
    void (*run)(void);
} calls[] = {
    { "same_strip", call_strip },   { "same_vote", call_vote },   { "same_read", call_read },       { "same_write", call_write },
    { "same_listed", call_listed }, { "same_class", call_class }, { "same_matches", call_matches }, { "same_good", call_good },
    { "same_add", call_add },       { "same_remove", call_remove }, { "same_load", call_load },     { "same_report", call_report },
    { "same_page", call_page },
};

static uint8_t *lowest; /* the lowest byte of the thread's stack */
static size_t left;     /* how many bytes the call has */
static void (*run)(void);

static __attribute__((noinline)) void use_up(size_t n)
{
    volatile uint8_t *used = alloca(n);
    used[0] = 1;
    run();
    used[n - 1] = 1;
}

static void *thread(void *none)
{
    uint8_t here;
    use_up((size_t)(&here - lowest) - left);
    return none;
}

/* whether the call ends with so many bytes of stack */
static int ends(void (*call)(void), size_t bytes)
{
    fflush(stdout);
    pid_t child = fork();
    if (child == 0) {
        dup2(open("/dev/null", O_WRONLY), 2);
        uint8_t *space = mmap(NULL, STACK + GUARD, PROT_NONE, MAP_PRIVATE | MAP_ANONYMOUS, -1, 0);
        pthread_attr_t how;
        pthread_t it;
        if (space == MAP_FAILED || mprotect(space + GUARD, STACK, PROT_READ | PROT_WRITE)) _exit(3);
        lowest = space + GUARD;
        left = bytes;
        run = call;
        pthread_attr_init(&how);
        if (pthread_attr_setstack(&how, lowest, STACK) || pthread_create(&it, &how, thread, NULL)) _exit(3);
        pthread_join(it, NULL);
        _exit(0);
    }
    int status;
    if (child < 0 || waitpid(child, &status, 0) != child) exit(2);
    if (WIFEXITED(status) && WEXITSTATUS(status) == 3) exit(2);
    return WIFEXITED(status) && WEXITSTATUS(status) == 0;
}

static size_t need(void (*call)(void))
{
    size_t low = 0, high = STACK / 2 / STEP;
    if (!ends(call, high * STEP)) {
        fprintf(stderr, "stack: half the stack is too little\n");
        exit(2);
    }
    while (low + 1 < high) {
        size_t half = low + (high - low) / 2;
        if (ends(call, half * STEP)) high = half;
        else low = half;
    }
    return high * STEP;
}

int main(void)
{
    errors = dup(2);
    fill();
    said("load", same_load(book, SAME_BOOK_WORDS, items, 3 * 4095), 0);
    printf("call            bytes of stack\n");
    for (size_t i = 0; i < sizeof calls / sizeof *calls; i++) printf("%-14s %8zu\n", calls[i].name, need(calls[i].run));
    return 0;
}
