/* The example terminal's SHA-256 beside OpenSSL's: the answers of FIPS 180, each length up to three blocks, and in pieces. */
#include <openssl/sha.h>
#include <stdio.h>
#include <string.h>

#include "../examples/terminal/sha256.h"
#include "expect.h"

static void check(const char *bytes, const char *hex)
{
    struct sha256 s;
    uint8_t sum[SHA256_LENGTH];
    char text[2 * SHA256_LENGTH + 1];
    sha256_begin(&s);
    sha256_add(&s, bytes, strlen(bytes));
    sha256_end(&s, sum);
    for (int i = 0; i < SHA256_LENGTH; i++) {
        snprintf(text + 2 * i, 3, "%02x", sum[i]);
    }
    expect(strcmp(text, hex) == 0, bytes);
}

int main(void)
{
    static uint8_t bytes[3 * SHA256_BLOCK + 1];
    uint8_t sum[SHA256_LENGTH], other[SHA256_LENGTH];
    struct sha256 s;
    check("", "e3b0c44298fc1c149afbf4c8996fb92427ae41e4649b934ca495991b7852b855");
    check("abc", "ba7816bf8f01cfea414140de5dae2223b00361a396177a9cb410ff61f20015ad");
    check("abcdbcdecdefdefgefghfghighijhijkijkljklmklmnlmnomnopnopq",
          "248d6a61d20638b8e5c026930c3e6039a33ce45964ff2167f6ecedd419db06c1");
    for (size_t i = 0; i < sizeof bytes; i++) {
        bytes[i] = (uint8_t)(37 * i + i / 7);
    }
    for (size_t length = 0; length <= sizeof bytes; length++) {
        for (size_t piece = 1; piece <= length + 1; piece += 13) {
            sha256_begin(&s);
            for (size_t at = 0; at < length; at += piece) {
                sha256_add(&s, bytes + at, length - at < piece ? length - at : piece);
            }
            sha256_end(&s, sum);
            SHA256(bytes, length, other);
            expect(memcmp(sum, other, sizeof sum) == 0, "differs from OpenSSL's");
        }
    }
    return 0;
}
