/* The tags of many datagrams by OpenSSL: what crates/speed_calls does for its word `tag`, with the words behind it. */
#include <openssl/evp.h>
#include <openssl/hmac.h>
#include <stdio.h>
#include <stdlib.h>
#include <string.h>

int main(int words, char **word) {
    if (words != 4) return 2;
    int anew = atoi(word[1]);
    size_t size = atoi(word[2]);
    long times = atol(word[3]);
    unsigned char key[32], tag[32], *data = malloc(size);
    unsigned long sum = 0;
    unsigned length;
    HMAC_CTX *made = HMAC_CTX_new();
    memset(key, 0x5a, sizeof key);
    memset(data, ' ', size);
    HMAC_Init_ex(made, key, sizeof key, EVP_sha256(), NULL);
    for (long n = 0; n < times; n++) {
        data[24] = n;
        if (anew)
            HMAC(EVP_sha256(), key, sizeof key, data, size, tag, &length);
        else {
            HMAC_Init_ex(made, NULL, 0, NULL, NULL);
            HMAC_Update(made, data, size);
            HMAC_Final(made, tag, &length);
        }
        sum += tag[0];
    }
    printf("sum %lu\n", sum);
    return 0;
}
