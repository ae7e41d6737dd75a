/* The work of crates/suite_runs, `cost`, with another library, as often as the second argument says: a CMAC over 42 octets and
   counter mode over 37, both keys given with each message. Chosen by -DTOMCRYPT, -DMBEDTLS or -DOPENSSL. */
#include <stdio.h>
#include <stdlib.h>
#include <string.h>

#if defined(TOMCRYPT)
#include <tomcrypt.h>
static int aes;
static void begin(void) { aes = register_cipher(&aes_desc); }
static void tag(const unsigned char *key, const unsigned char *text, size_t len, unsigned char *out) {
    unsigned long size = 16;
    omac_memory(aes, key, 16, text, len, out, &size);
}
static void encipher(const unsigned char *key, const unsigned char *start, unsigned char *part, size_t len) {
    symmetric_CTR ctr;
    ctr_start(aes, start, key, 16, 0, CTR_COUNTER_BIG_ENDIAN, &ctr);
    ctr_encrypt(part, part, len, &ctr);
    ctr_done(&ctr);
}
#elif defined(MBEDTLS)
#include <mbedtls/aes.h>
#include <mbedtls/cipher.h>
#include <mbedtls/cmac.h>
static const mbedtls_cipher_info_t *info;
static void begin(void) { info = mbedtls_cipher_info_from_type(MBEDTLS_CIPHER_AES_128_ECB); }
static void tag(const unsigned char *key, const unsigned char *text, size_t len, unsigned char *out) {
    mbedtls_cipher_cmac(info, key, 128, text, len, out);
}
static void encipher(const unsigned char *key, const unsigned char *start, unsigned char *part, size_t len) {
    mbedtls_aes_context ctx;
    unsigned char counter[16], block[16];
    size_t used = 0;
    memcpy(counter, start, 16);
    mbedtls_aes_init(&ctx);
    mbedtls_aes_setkey_enc(&ctx, key, 128);
    mbedtls_aes_crypt_ctr(&ctx, len, &used, counter, block, part, part);
    mbedtls_aes_free(&ctx);
}
#elif defined(OPENSSL)
#define OPENSSL_SUPPRESS_DEPRECATED
#include <openssl/cmac.h>
#include <openssl/evp.h>
static CMAC_CTX *mac;
static EVP_CIPHER_CTX *ctr;
static void begin(void) {
    mac = CMAC_CTX_new();
    ctr = EVP_CIPHER_CTX_new();
}
static void tag(const unsigned char *key, const unsigned char *text, size_t len, unsigned char *out) {
    size_t size = 16;
    CMAC_Init(mac, key, 16, EVP_aes_128_cbc(), NULL);
    CMAC_Update(mac, text, len);
    CMAC_Final(mac, out, &size);
}
static void encipher(const unsigned char *key, const unsigned char *start, unsigned char *part, size_t len) {
    int size;
    EVP_EncryptInit_ex(ctr, EVP_aes_128_ctr(), NULL, key, start);
    EVP_EncryptUpdate(ctr, part, &size, part, (int)len);
}
#else
#error choose a library
#endif

int main(int argc, char **argv) {
    static const unsigned char integrity[16] = {0x2B, 0x7E, 0x15, 0x16, 0x28, 0xAE, 0xD2, 0xA6, 0xAB, 0xF7, 0x15, 0x88, 0x09, 0xCF, 0x4F, 0x3C};
    static const unsigned char encryption[16] = {0, 1, 2, 3, 4, 5, 6, 7, 8, 9, 10, 11, 12, 13, 14, 15};
    unsigned long times = argc > 2 ? strtoul(argv[2], NULL, 10) : 0;
    unsigned char message[37], tags = 0;
    memset(message, 0x5A, sizeof message);
    begin();
    for (unsigned long count = 0; count < times; count++) {
        unsigned char start[16] = {count >> 24, count >> 16, count >> 8, count, 21 << 3}, text[42], made[16];
        memcpy(text, start, 8);
        memcpy(text + 8, message, 34);
        tag(integrity, text, sizeof text, made);
        encipher(encryption, start, message, sizeof message);
        tags ^= made[0];
    }
    printf("%u %u\n", tags, message[0]);
    return 0;
}
