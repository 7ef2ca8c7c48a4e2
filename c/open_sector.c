/* Opens two sectors whose bytes are known, and tries the refusals. Prints each answer with the bytes; ends with status 1 if
 * one is not as expected. */
#include <inttypes.h>
#include <stdio.h>
#include <string.h>

#include "link_display.h"

#define SHOWN 22
#define TOO_LONG 4097

struct opening {
    const char *what;
    uint32_t letter;
    size_t key_len;
    uint8_t key[16];
    uint16_t name;
    uint64_t number;
    size_t len;
    uint8_t sealed[SHOWN];
    uint32_t answer;
    uint8_t opened[SHOWN];
};

/* The zero key and a counter block of which only bit 127 is set: the first of NIST's known answers for AES-128 with variable
 * plaintext. The pad alone comes out, since the sealed bytes are 0. */
static const struct opening known_answer = {
    "AES-128, known answer", 'A', 16, {0}, 0x8000, 0, 16, {0}, LINK_DISPLAY_OPENED,
    {0x3A, 0xD7, 0x8E, 0x72, 0x6C, 0x1E, 0xC0, 0x2B, 0x7E, 0xBF, 0xE9, 0x2B, 0x23, 0xD9, 0xEC, 0x34},
};

/* Sealed at end 1 under number 4095; two blocks, the second one cut. */
static const struct opening report = {
    "SM4, a report", 'S', 16,
    {0x01, 0x23, 0x45, 0x67, 0x89, 0xAB, 0xCD, 0xEF, 0xFE, 0xDC, 0xBA, 0x98, 0x76, 0x54, 0x32, 0x10},
    1, 4095, 22,
    {0x7A, 0xBD, 0x4C, 0xF8, 0xD5, 0xC3, 0x48, 0x6D, 0xB3, 0x64, 0xD9, 0x2B, 0xB4, 0x69, 0xF6, 0x16,
     0x04, 0x31, 0xB4, 0x7C, 0xF7, 0x63},
    LINK_DISPLAY_OPENED,
    {'b', 'e', 'a', 'r', 'i', 'n', 'g', ' ', '3', '5', '9', '9', ',', ' ', 'r', 'a', 'n', 'g', 'e', ' ', '4', '2'},
};

static void print_bytes(const uint8_t *bytes, size_t len)
{
    for (size_t i = 0; i < len; i++) {
        printf("%02X", (unsigned)bytes[i]);
    }
    printf(len == 0 ? "-\n" : "\n");
}

/* Opens a copy; answers 1 if the answer or the bytes are not as expected. */
static int surprise(const struct opening *o)
{
    uint8_t bytes[SHOWN];
    memcpy(bytes, o->sealed, SHOWN);
    uint32_t answer = link_display_open(o->letter, o->key, o->key_len, o->name, o->number, bytes, o->len);
    printf("%s: answer %" PRIu32 ", bytes ", o->what, answer);
    print_bytes(bytes, o->len);
    return answer != o->answer || memcmp(bytes, o->opened, o->len) != 0;
}

/* The report once more, to be refused: the bytes must stay as they are. */
static struct opening refused(const char *what, uint32_t answer)
{
    struct opening o = report;
    o.what = what;
    o.answer = answer;
    memcpy(o.opened, o.sealed, SHOWN);
    return o;
}

static int refusal_surprises(void)
{
    struct opening letter = refused("letter B", LINK_DISPLAY_BAD_LETTER);
    struct opening large = refused("letter 321", LINK_DISPLAY_BAD_LETTER);
    struct opening key = refused("key of 15 bytes", LINK_DISPLAY_BAD_KEY);
    struct opening empty = refused("no bytes", LINK_DISPLAY_BAD_LENGTH);
    letter.letter = 'B';
    large.letter = 256 + 'A';
    key.key_len = 15;
    empty.len = 0;
    return surprise(&letter) + surprise(&large) + surprise(&key) + surprise(&empty);
}

static int long_surprise(void)
{
    static uint8_t bytes[TOO_LONG];
    static const uint8_t zero[TOO_LONG];
    uint32_t answer = link_display_open('A', report.key, 16, 1, 0, bytes, TOO_LONG);
    int kept = memcmp(bytes, zero, TOO_LONG) == 0;
    printf("4097 bytes: answer %" PRIu32 ", bytes %s\n", answer, kept ? "as they were" : "altered");
    return answer != LINK_DISPLAY_BAD_LENGTH || !kept;
}

int main(void)
{
    int surprises = surprise(&known_answer) + surprise(&report) + refusal_surprises() + long_surprise();
    if (surprises != 0) {
        printf("not as expected: %d\n", surprises);
        return 1;
    }
    return 0;
}
