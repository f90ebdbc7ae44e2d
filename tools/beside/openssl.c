/* The root of a log of 2^16 entries of 32 bytes, some times: by SHA-256 of OpenSSL, one hash after the other in place. */
#include <openssl/evp.h>
#include <stdint.h>
#include <stdio.h>
#include <stdlib.h>
#include <string.h>

#define COUNT 65536

int main(int count, char **words) {
    static uint8_t rows[COUNT][32];
    EVP_MD_CTX *context = EVP_MD_CTX_new();
    EVP_MD *sha = EVP_MD_fetch(NULL, "SHA256", NULL);
    const uint8_t leaf = 0, node = 1;
    for (int times = count > 1 ? atoi(words[1]) : 1; times > 0; times--) {
        for (size_t i = 0; i < COUNT; i++) {
            uint8_t entry[32] = {(uint8_t)i, (uint8_t)(i >> 8)};
            EVP_DigestInit_ex2(context, sha, NULL);
            EVP_DigestUpdate(context, &leaf, 1);
            EVP_DigestUpdate(context, entry, sizeof entry);
            EVP_DigestFinal_ex(context, rows[i], NULL);
        }
        for (size_t wide = COUNT / 2; wide > 0; wide /= 2)
            for (size_t i = 0; i < wide; i++) {
                EVP_DigestInit_ex2(context, sha, NULL);
                EVP_DigestUpdate(context, &node, 1);
                EVP_DigestUpdate(context, rows[2 * i], 64);
                EVP_DigestFinal_ex(context, rows[i], NULL);
            }
    }
    printf("%02x%02x%02x%02x\n", rows[0][0], rows[0][1], rows[0][2], rows[0][3]);
}
