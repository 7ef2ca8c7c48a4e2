/* Times the display's function against OpenSSL in one run: sectors of several lengths, both ciphers. Both must give the same bytes.
 * Prints the time of each and the ratio; ends with status 1 if the bytes differ. */
#define _POSIX_C_SOURCE 199309L
#include <stdio.h>
#include <string.h>
#include <time.h>

#include <openssl/evp.h>

#include "link_display.h"

#define LONGEST 4096
#define TURNS 5
#define BYTES_A_TURN (1 << 22)

static const uint8_t key[16] = {0, 1, 2, 3, 4, 5, 6, 7, 8, 9, 10, 11, 12, 13, 14, 15};

static double now(void)
{
    struct timespec t;
    clock_gettime(CLOCK_MONOTONIC, &t);
    return (double)t.tv_sec + (double)t.tv_nsec * 1e-9;
}

/* The peer: a key set up and a sector worked, as the function does at each call. The counter block is that of name 1. */
static int peer_open(const EVP_CIPHER *cipher, uint64_t number, uint8_t *bytes, int len)
{
    uint8_t counter[16] = {0, 1};
    int done = 0;
    for (int i = 0; i < 8; i++) {
        counter[9 - i] = (uint8_t)(number >> (8 * i));
    }
    EVP_CIPHER_CTX *c = EVP_CIPHER_CTX_new();
    int ok = c != NULL && EVP_EncryptInit_ex(c, cipher, NULL, key, counter) == 1 && EVP_EncryptUpdate(c, bytes, &done, bytes, len) == 1;
    EVP_CIPHER_CTX_free(c);
    return ok && done == len;
}

/* Seconds for one turn of sectors; the best of some turns is kept. */
static double turn(uint32_t letter, const EVP_CIPHER *peer, uint8_t *bytes, size_t len)
{
    double start = now();
    for (uint64_t number = 0; number < BYTES_A_TURN / LONGEST; number++) {
        if (peer != NULL) {
            peer_open(peer, number, bytes, (int)len);
        } else {
            link_display_open(letter, key, sizeof key, 1, number, bytes, len);
        }
    }
    return now() - start;
}

static double best(uint32_t letter, const EVP_CIPHER *peer, uint8_t *bytes, size_t len)
{
    double least = turn(letter, peer, bytes, len);
    for (int i = 1; i < TURNS; i++) {
        double t = turn(letter, peer, bytes, len);
        least = t < least ? t : least;
    }
    return least / (BYTES_A_TURN / LONGEST) * 1e6;
}

static int compare(uint32_t letter, const EVP_CIPHER *peer, size_t len)
{
    static uint8_t ours[LONGEST], theirs[LONGEST];
    memset(ours, 0x5A, sizeof ours);
    memset(theirs, 0x5A, sizeof theirs);
    double mine = best(letter, NULL, ours, len);
    double other = best(letter, peer, theirs, len);
    printf("%c %4zu bytes: %8.2f us, OpenSSL %8.2f us, ratio %.1f\n", (int)letter, len, mine, other, mine / other);
    return memcmp(ours, theirs, len) != 0;
}

int main(void)
{
    static const size_t lengths[] = {16, 256, LONGEST};
    int differ = 0;
    for (size_t i = 0; i < sizeof lengths / sizeof lengths[0]; i++) {
        differ += compare('A', EVP_aes_128_ctr(), lengths[i]);
        differ += compare('S', EVP_sm4_ctr(), lengths[i]);
    }
    if (differ != 0) {
        printf("the bytes differ\n");
        return 1;
    }
    return 0;
}
