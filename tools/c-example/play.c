/* Document 01's example through the C interface, call by call: each step is printed and held to what 01 says of it. Then a link that lost
 * bytes, without and with the call that says so, and two refusals. Ends with 1 if anything is not as 01 says.
 *
 * SPDX-License-Identifier: MIT OR Apache-2.0
 */
#include "kirayotep.h"

#include <inttypes.h>
#include <stdio.h>
#include <string.h>

enum { STORE = 64, MESSAGE = KIRAYOTEP_MOST_PER_BYTE * STORE, TEXT = 128, WORDS = 8 * KIRAYOTEP_ROW_WORDS };

static const char book[] = "book=1\nclock=no\ntimestamp=\nindex=7\ntag=info\ntext=T {=u8} {=i16}\n";
static const size_t book_len = sizeof book - 1;

struct stream {
    uint64_t held;
    uint8_t hunting;
    uint8_t store[STORE];
};

struct message {
    uint64_t length;
    uint8_t bytes[MESSAGE];
};

static int differences = 0;

/* A difference is told where it is seen; the play goes on. */
static void must(const char *what, int as_said)
{
    if (!as_said) {
        printf("DIFFERENT: %s\n", what);
        differences++;
    }
}

static void print_bytes(const char *name, const uint8_t *bytes, uint64_t length)
{
    printf("%s=", name);
    for (uint64_t i = 0; i < length; i++)
        printf("%s%02X", i == 0 ? "" : " ", (unsigned)bytes[i]);
    printf("\n");
}

static int all_zero(const uint8_t *bytes, size_t length)
{
    for (size_t i = 0; i < length; i++)
        if (bytes[i] != 0)
            return 0;
    return 1;
}

static void receive(struct stream *s, const uint8_t *piece, size_t length)
{
    uint64_t answer = kirayotep_receive(&s->held, &s->hunting, s->store, STORE, piece, length);
    printf("receive=%" PRIu64 " held=%" PRIu64 " hunting=%u\n", answer, s->held, (unsigned)s->hunting);
    must("receive answers 0", answer == KIRAYOTEP_OK);
}

static uint64_t take(struct stream *s, struct message *m)
{
    uint64_t answer = kirayotep_take(&s->held, &s->hunting, s->store, STORE, m->bytes, MESSAGE, &m->length);
    printf("take=%" PRIu64 " held=%" PRIu64 "\n", answer, s->held);
    if (answer == KIRAYOTEP_OK)
        print_bytes("message", m->bytes, m->length);
    else
        must("a refused take leaves zeros and no count", m->length == 0 && all_zero(m->bytes, MESSAGE));
    return answer;
}

static void must_read(const struct message *m, const char *said)
{
    uint64_t rows[WORDS];
    uint8_t text[TEXT];
    uint64_t written;
    uint64_t answer = kirayotep_text((const uint8_t *)book, book_len, m->bytes, m->length, KIRAYOTEP_TEXT_OF_MESSAGE, rows, WORDS, text,
                                     TEXT, &written);
    printf("text=%.*s\n", (int)written, (const char *)text);
    must("text answers 0", answer == KIRAYOTEP_OK);
    must(said, written == strlen(said) && memcmp(text, said, written) == 0);
}

/* The book, and the input 07 05 FF FF 62 00. */
static void play_the_example(void)
{
    static const uint8_t input[] = {0x07, 0x05, 0xFF, 0xFF, 0x62, 0x00};
    static const uint8_t decoded[] = {0x07, 0x00, 0x05, 0xFF, 0xFF, 0x00, 0x00};
    static const uint64_t expected[2 * KIRAYOTEP_ROW_WORDS] = {
        KIRAYOTEP_KIND_UNSIGNED, 5, 0, 0, KIRAYOTEP_KIND_SIGNED, UINT64_MAX, UINT64_MAX, 0,
    };
    struct stream s = {0, 0, {0}};
    struct message m;
    uint64_t rows[WORDS];
    uint64_t timestamp_rows, all_rows, consumed, answer;

    printf("-- the example\n");
    answer = kirayotep_check_book((const uint8_t *)book, book_len);
    printf("check_book=%" PRIu64 "\n", answer);
    must("the book is one", answer == KIRAYOTEP_OK);

    receive(&s, input, sizeof input);
    must("all six bytes are held", s.held == sizeof input && s.hunting == 0);
    must("a message comes up", take(&s, &m) == KIRAYOTEP_OK);
    must("its bytes", m.length == sizeof decoded && memcmp(m.bytes, decoded, sizeof decoded) == 0);

    answer = kirayotep_decode((const uint8_t *)book, book_len, m.bytes, m.length, rows, WORDS, &timestamp_rows, &all_rows, &consumed);
    printf("decode=%" PRIu64 " timestamp_rows=%" PRIu64 " all_rows=%" PRIu64 " consumed=%" PRIu64 "\n", answer, timestamp_rows, all_rows,
           consumed);
    must("decode's answer and counts", answer == KIRAYOTEP_OK && timestamp_rows == 0 && all_rows == 2 && consumed == 5);
    for (uint64_t i = 0; i < all_rows; i++) {
        const uint64_t *row = rows + i * KIRAYOTEP_ROW_WORDS;
        printf("row=%" PRIu64 " %" PRIX64 " %" PRIX64 " %" PRIX64 "\n", row[0], row[1], row[2], row[3]);
    }
    must("the rows of 5 and -1", all_rows == 2 && memcmp(rows, expected, sizeof expected) == 0);

    must_read(&m, "T 5 -1");
    must("nothing more to take", take(&s, &m) == KIRAYOTEP_WAIT);
    must("held=0", s.held == 0);
}

/* `T 5 -1` was sent, then `T 9 -2`, and the link lost what stands between the head of the first and the tail of the second. */
static void play_a_loss(int say_so)
{
    static const uint8_t head[] = {0x07, 0x05};
    static const uint8_t tail[] = {0xFE, 0xFF, 0x62, 0x00};
    static const uint8_t next[] = {0x07, 0x0A, 0xFD, 0xFF, 0x62, 0x00};
    struct stream s = {0, 0, {0}};
    struct message m;

    printf("-- a loss, %s\n", say_so ? "and kirayotep_gap where it happened" : "and nobody says so");
    receive(&s, head, sizeof head);
    if (say_so) {
        uint64_t answer = kirayotep_gap(&s.held, &s.hunting, s.store, STORE);
        printf("gap=%" PRIu64 " held=%" PRIu64 " hunting=%u\n", answer, s.held, (unsigned)s.hunting);
        must("gap drops the head and hunts", answer == KIRAYOTEP_OK && s.held == 0 && s.hunting == 1);
    }
    receive(&s, tail, sizeof tail);
    if (say_so) {
        must("no message of a head and a tail", take(&s, &m) == KIRAYOTEP_WAIT);
    } else {
        must("a head and a tail are joined", take(&s, &m) == KIRAYOTEP_OK);
        must_read(&m, "T 5 -2"); /* which nobody sent */
    }
    receive(&s, next, sizeof next);
    must("the next message comes up", take(&s, &m) == KIRAYOTEP_OK);
    must_read(&m, "T 10 -3");
}

/* Blocks that do not fit, a whole message behind them, and that message cut short of its last argument. */
static void play_refusals(void)
{
    static const uint8_t input[] = {0x80, 0x00, 0x07, 0x05, 0xFF, 0xFF, 0x62, 0x00};
    struct stream s = {0, 0, {0}};
    struct message m;
    uint64_t rows[WORDS];
    uint64_t timestamp_rows, all_rows, consumed, answer;

    printf("-- refusals\n");
    receive(&s, input, sizeof input);
    must("80 alone is MALFORMED", take(&s, &m) == KIRAYOTEP_MALFORMED);
    must("and the next frame comes up", take(&s, &m) == KIRAYOTEP_OK);
    must_read(&m, "T 5 -1");

    memset(rows, 0xAA, sizeof rows);
    answer = kirayotep_decode((const uint8_t *)book, book_len, m.bytes, 4, rows, WORDS, &timestamp_rows, &all_rows, &consumed);
    printf("decode=%" PRIu64 "\n", answer);
    must("four bytes end inside the i16", answer == KIRAYOTEP_EOF);
    must("no counts, and zeros in every row", timestamp_rows == 0 && all_rows == 0 && consumed == 0 &&
                                                  all_zero((const uint8_t *)rows, sizeof rows));
}

int main(void)
{
    play_the_example();
    play_a_loss(0);
    play_a_loss(1);
    play_refusals();
    if (differences != 0) {
        printf("%d differences from document 01\n", differences);
        return 1;
    }
    printf("as document 01 says\n");
    return 0;
}
