/* mbedtls: SHA-256, AES in two modes both ways with keys of three lengths, and ChaCha20-Poly1305 with a sum that is right and one that is not. */
#include "tta.h"
#include <string.h>
#include "mbedtls/aes.h"
#include "mbedtls/chachapoly.h"
#include "mbedtls/sha256.h"

enum { SIZE = 208 };
static unsigned char text[SIZE], made[SIZE], again[SIZE];

static void tell(const unsigned char *bytes, unsigned count)
{
    for (unsigned k = 0; k + 4 <= count; k += 4)
        tta_out((uint32_t)bytes[k] << 24 | bytes[k + 1] << 16 | bytes[k + 2] << 8 | bytes[k + 3]);
}

static void sums(void)
{
    mbedtls_sha256_context sum;
    mbedtls_sha256_init(&sum);
    for (int short_one = 0; short_one < 2; short_one++) {
        tta_out((uint32_t)mbedtls_sha256_starts_ret(&sum, short_one));
        for (unsigned k = 0; k < SIZE; k += 13)
            tta_out((uint32_t)mbedtls_sha256_update_ret(&sum, text + k, 13));
        tta_out((uint32_t)mbedtls_sha256_finish_ret(&sum, made));
        tell(made, short_one ? 28 : 32);
    }
    mbedtls_sha256_free(&sum);
}

static void blocks(unsigned bits)
{
    mbedtls_aes_context aes;
    unsigned char vector[16], part[16];
    size_t at = 0;
    mbedtls_aes_init(&aes);
    memcpy(vector, text + 5, 16);
    tta_out((uint32_t)mbedtls_aes_setkey_enc(&aes, text + 1, bits));
    tta_out((uint32_t)mbedtls_aes_crypt_cbc(&aes, MBEDTLS_AES_ENCRYPT, SIZE, vector, text, made));
    tell(made, SIZE);
    memcpy(vector, text + 5, 16);
    tta_out((uint32_t)mbedtls_aes_setkey_dec(&aes, text + 1, bits));
    tta_out((uint32_t)mbedtls_aes_crypt_cbc(&aes, MBEDTLS_AES_DECRYPT, SIZE, vector, made, again));
    tta_out((uint32_t)memcmp(text, again, SIZE));
    tta_out((uint32_t)mbedtls_aes_crypt_cbc(&aes, MBEDTLS_AES_DECRYPT, 5, vector, made, again));
    memcpy(vector, text + 9, 16);
    tta_out((uint32_t)mbedtls_aes_setkey_enc(&aes, text + 2, bits));
    for (unsigned k = 0; k < 52; k += 13)
        tta_out((uint32_t)mbedtls_aes_crypt_ctr(&aes, 13, &at, vector, part, text + k, made + k));
    tell(made, 52);
    mbedtls_aes_free(&aes);
}

static void sealed(void)
{
    mbedtls_chachapoly_context seal;
    unsigned char tag[16];
    mbedtls_chachapoly_init(&seal);
    tta_out((uint32_t)mbedtls_chachapoly_setkey(&seal, text + 3));
    tta_out((uint32_t)mbedtls_chachapoly_encrypt_and_tag(&seal, 150, text, text + 60, 21, text + 9, made, tag));
    tell(made, 150);
    tell(tag, 16);
    tta_out((uint32_t)mbedtls_chachapoly_auth_decrypt(&seal, 150, text, text + 60, 21, tag, made, again));
    tta_out((uint32_t)memcmp(text + 9, again, 150));
    tag[7] ^= 4;
    tta_out((uint32_t)mbedtls_chachapoly_auth_decrypt(&seal, 150, text, text + 60, 21, tag, made, again));
    mbedtls_chachapoly_free(&seal);
}

int main(void)
{
    for (unsigned k = 0; k < SIZE; k++)
        text[k] = (unsigned char)(k * k * 7 + k / 3);
    sums();
    blocks(128);
    blocks(192);
    blocks(256);
    sealed();
    return 0;
}
