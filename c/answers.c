/* Reads openings from standard input, one to a line, and prints what the display's function answers.
 *
 * A line has five words: the letter as a decimal number, the key in hexadecimal digits, the name, the number, and the bytes
 * in hexadecimal digits; '-' stands for no bytes. What is printed: the answer and the bytes afterwards. A line of another
 * form, or a call that writes beside the bytes or to the key, ends the program with status 1. */
#include <inttypes.h>
#include <stdio.h>
#include <stdlib.h>
#include <string.h>

#include "link_display.h"

#define KEY_MOST 64
#define BYTES_MOST 8192
#define GUARD 32
#define GUARD_BYTE 0xA5

struct opening {
    uint32_t letter;
    uint8_t key[KEY_MOST];
    size_t key_len;
    uint16_t name;
    uint64_t number;
    uint8_t bytes[BYTES_MOST];
    size_t len;
};

static int digit(char c)
{
    static const char digits[] = "0123456789ABCDEF";
    const char *at = c == '\0' ? NULL : strchr(digits, c);
    return at == NULL ? -1 : (int)(at - digits);
}

/* Reads hexadecimal digits or '-'; answers 0 if there are other characters, or too many. */
static int read_bytes(const char *word, uint8_t *out, size_t most, size_t *len)
{
    *len = 0;
    if (word == NULL || strcmp(word, "-") == 0) {
        return word != NULL;
    }
    for (; word[0] != '\0'; word += 2) {
        int high = digit(word[0]);
        int low = digit(word[1]);
        if (high < 0 || low < 0 || *len == most) {
            return 0;
        }
        out[(*len)++] = (uint8_t)(16 * high + low);
    }
    return 1;
}

static int read_number(const char *word, uint64_t most, uint64_t *out)
{
    char *end;
    if (word == NULL || word[0] < '0' || word[0] > '9') {
        return 0;
    }
    *out = strtoull(word, &end, 10);
    return *end == '\0' && *out <= most;
}

static int read_opening(char *line, struct opening *o)
{
    uint64_t letter, name;
    int good = read_number(strtok(line, " \n"), UINT32_MAX, &letter);
    good = good && read_bytes(strtok(NULL, " \n"), o->key, KEY_MOST, &o->key_len);
    good = good && read_number(strtok(NULL, " \n"), UINT16_MAX, &name);
    good = good && read_number(strtok(NULL, " \n"), UINT64_MAX, &o->number);
    good = good && read_bytes(strtok(NULL, " \n"), o->bytes, BYTES_MOST, &o->len);
    if (!good || strtok(NULL, " \n") != NULL) {
        return 0;
    }
    o->letter = (uint32_t)letter;
    o->name = (uint16_t)name;
    return 1;
}

static int guards_stand(const uint8_t *from, const uint8_t *to)
{
    for (; from < to; from++) {
        if (*from != GUARD_BYTE) {
            return 0;
        }
    }
    return 1;
}

/* Opens the bytes where guards stand on both sides, at addresses of every kind; answers 0 if something else was altered. */
static int call(struct opening *o, unsigned turn, uint32_t *answer)
{
    static uint8_t room[GUARD + 16 + BYTES_MOST + GUARD];
    uint8_t *at = room + GUARD + turn % 16;
    uint8_t key[KEY_MOST];
    memcpy(key, o->key, KEY_MOST);
    memset(room, GUARD_BYTE, sizeof room);
    memcpy(at, o->bytes, o->len);
    *answer = link_display_open(o->letter, key, o->key_len, o->name, o->number, at, o->len);
    memcpy(o->bytes, at, o->len);
    return guards_stand(room, at) && guards_stand(at + o->len, room + sizeof room) && memcmp(key, o->key, KEY_MOST) == 0;
}

static void print_answer(uint32_t answer, const struct opening *o)
{
    printf("%" PRIu32 " ", answer);
    for (size_t i = 0; i < o->len; i++) {
        printf("%02X", (unsigned)o->bytes[i]);
    }
    printf(o->len == 0 ? "-\n" : "\n");
}

int main(void)
{
    static char line[2 * BYTES_MOST + 256];
    static struct opening o;
    uint32_t answer;
    for (unsigned turn = 1; fgets(line, sizeof line, stdin) != NULL; turn++) {
        if (!read_opening(line, &o)) {
            fprintf(stderr, "line %u has another form\n", turn);
            return 1;
        }
        if (!call(&o, turn, &answer)) {
            fprintf(stderr, "line %u: something beside the bytes was altered\n", turn);
            return 1;
        }
        print_answer(answer, &o);
    }
    return 0;
}
