/* plain.h: the calls of same.h under other names, as plain C. See plain.c. */
#ifndef PLAIN_H
#define PLAIN_H

#include "same.h" /* for struct same_voted */

#include <stddef.h>
#include <stdint.h>

uint64_t plain_strip(const uint8_t *burst, size_t n);
struct same_voted plain_vote(const uint8_t *a, size_t na, const uint8_t *b, size_t nb, const uint8_t *c, size_t nc,
                             uint8_t *out, size_t room);
uint64_t plain_read(const uint8_t *text, size_t n, uint32_t *fields, size_t words);
uint64_t plain_write(const uint32_t *fields, size_t words, uint8_t *out, size_t room);
uint32_t plain_listed(uint8_t first, uint8_t second, uint8_t third);
uint32_t plain_class(uint8_t first, uint8_t second, uint8_t third);
uint32_t plain_matches(uint32_t watched, uint32_t sent);
uint64_t plain_good(const uint32_t *book, size_t words);
uint64_t plain_add(uint32_t *book, size_t words, uint32_t place, uint32_t client, uint32_t wish);
uint64_t plain_remove(uint32_t *book, size_t words, uint32_t place, uint32_t client);
uint64_t plain_load(uint32_t *book, size_t words, const uint32_t *items, size_t n);
uint64_t plain_report(const uint32_t *book, size_t words, uint32_t client, const uint8_t *header, size_t n,
                      uint32_t year, uint32_t day, uint32_t hour, uint32_t minute, uint32_t *summary,
                      size_t summary_words, uint32_t *hits, size_t hit_words);
uint64_t plain_page(const uint8_t *in, size_t n, uint8_t *out, size_t room);

#endif
