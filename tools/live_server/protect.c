/* SRTP of what leaves, with AES in GCM (RFC 7714), by OpenSSL. Debian's libsrtp has NSS below it, whose call for a packet takes
 * several times as long. All else of SRTP is libsrtp: what comes, RTCP, and other profiles. */
#include "server.h"

#include <libavutil/intreadwrite.h>
#include <stdlib.h>
#include <string.h>

enum { KEY = 16, SALT = 12, TAG = 16, RTP_HEADER = 12, MOST_SSRCS = 8 };
enum { LABEL_KEY = 0, LABEL_SALT = 2 }; /* RFC 3711, section 4.3.2 */

struct protection {
    EVP_CIPHER_CTX *cipher;
    uint8_t salt[SALT];
    struct {
        uint32_t ssrc, wraps; /* of the sequence number: the roll-over counter */
        uint16_t highest;
    } streams[MOST_SSRCS];
    unsigned streams_len;
};

/* The key derivation of RFC 3711, section 4.3, whose rate is 0. The salt has 2 zeros behind it (RFC 7714, section 11). */
static bool derive(const uint8_t *key, const uint8_t *salt, uint8_t label, uint8_t *to, int size) {
    static const uint8_t zeros[KEY];
    uint8_t counter[16] = {0};
    int done = 0;
    EVP_CIPHER_CTX *cipher = EVP_CIPHER_CTX_new();
    memcpy(counter, salt, SALT);
    counter[7] ^= label;
    bool derived = cipher && EVP_EncryptInit_ex(cipher, EVP_aes_128_ctr(), NULL, key, counter) == 1 &&
                   EVP_EncryptUpdate(cipher, to, &done, zeros, size) == 1;
    EVP_CIPHER_CTX_free(cipher);
    return derived;
}

protection *protect_new(const uint8_t *key, const uint8_t *salt) {
    uint8_t session[KEY];
    protection *it = calloc(1, sizeof *it);
    bool made = it && (it->cipher = EVP_CIPHER_CTX_new()) && derive(key, salt, LABEL_KEY, session, KEY) &&
                derive(key, salt, LABEL_SALT, it->salt, SALT) &&
                EVP_EncryptInit_ex(it->cipher, EVP_aes_128_gcm(), NULL, session, NULL) == 1;
    OPENSSL_cleanse(session, sizeof session);
    if (made) return it;
    protect_free(it);
    return NULL;
}

void protect_free(protection *it) {
    if (it) EVP_CIPHER_CTX_free(it->cipher);
    free(it);
}

/* How often the number of a stream has come to 0 again before this packet (RFC 3711, section 3.3.1). False: too many streams. */
static bool wraps_of(protection *it, uint32_t ssrc, uint16_t number, uint32_t *wraps) {
    unsigned i = 0;
    while (i < it->streams_len && it->streams[i].ssrc != ssrc) i++;
    if (i == MOST_SSRCS) return false;
    if (i == it->streams_len) {
        it->streams[it->streams_len++].ssrc = ssrc;
        it->streams[i].highest = number;
    }
    bool ahead = (uint16_t)(number - it->streams[i].highest) < 32768;
    if (ahead) {
        it->streams[i].wraps += number < it->streams[i].highest;
        it->streams[i].highest = number;
    }
    *wraps = it->streams[i].wraps - (!ahead && number > it->streams[i].highest);
    return true;
}

/* The bytes of a header: CSRCs and extension are not encrypted. 0: not RTP. */
static int header_of(const uint8_t *bytes, int size) {
    int header = RTP_HEADER + 4 * (bytes[0] & 15);
    if (size >= header + 4 && bytes[0] & 16) header += 4 + 4 * AV_RB16(bytes + header + 2);
    return size >= header ? header : 0;
}

bool protect_packet(protection *it, uint8_t *bytes, int *size) {
    uint8_t nonce[SALT] = {0};
    uint32_t wraps = 0;
    int header = *size >= RTP_HEADER ? header_of(bytes, *size) : 0, done = 0;
    if (!header || !wraps_of(it, AV_RB32(bytes + 8), AV_RB16(bytes + 2), &wraps)) return false;
    memcpy(nonce + 2, bytes + 8, 4);
    AV_WB32(nonce + 6, wraps);
    memcpy(nonce + 10, bytes + 2, 2);
    for (int i = 0; i < SALT; i++) nonce[i] ^= it->salt[i];
    bool made = EVP_EncryptInit_ex(it->cipher, NULL, NULL, NULL, nonce) == 1 &&
                EVP_EncryptUpdate(it->cipher, NULL, &done, bytes, header) == 1 &&
                EVP_EncryptUpdate(it->cipher, bytes + header, &done, bytes + header, *size - header) == 1 &&
                EVP_EncryptFinal_ex(it->cipher, bytes + *size, &done) == 1 &&
                EVP_CIPHER_CTX_ctrl(it->cipher, EVP_CTRL_AEAD_GET_TAG, TAG, bytes + *size) == 1;
    *size += TAG;
    return made;
}
