/* ICE-lite (RFC 8445, section 2.5): binding requests of STUN (RFC 8489) are answered if their MESSAGE-INTEGRITY is right. All
 * others are ignored. */
#include "server.h"

#include <libavutil/crc.h>
#include <libavutil/intreadwrite.h>
#include <openssl/hmac.h>
#include <string.h>

/* Sizes in bytes; types of messages and attributes. */
enum { HEADER = 20, MAC = 20, REPLY = 64, UFRAG = sizeof peers->ufrag - 1 };
enum { REQUEST = 0x0001, SUCCESS = 0x0101 };
enum { USERNAME = 0x0006, INTEGRITY = 0x0008, XOR_MAPPED = 0x0020, USE_CANDIDATE = 0x0025, FINGERPRINT = 0x8028 };
static const uint32_t COOKIE = 0x2112a442, FINGERPRINT_XOR = 0x5354554e;

/* The HMAC over the first `end` bytes of a message, whose length counts to the end of that attribute. */
static void sign(const char *password, uint8_t *message, size_t end, uint8_t mac[MAC]) {
    unsigned size = MAC;
    AV_WB16(message + 2, end + 4 + MAC - HEADER);
    HMAC(EVP_sha1(), password, (int)strlen(password), message, end, mac, &size);
}

/* The peer whose name is in front of the colon: `ours:theirs` (RFC 8445, section 7.2.2). */
static peer *peer_of(const uint8_t *name, size_t size) {
    EACH_PEER (it)
        if (size > UFRAG && name[UFRAG] == ':' && !memcmp(name, it->ufrag, UFRAG)) return it;
    return NULL;
}

/* Who sent a request. NULL: nobody that has an answer of this server. What is behind MESSAGE-INTEGRITY does not count. */
static peer *sender_of(const uint8_t *bytes, size_t size, bool *nominated) {
    uint8_t copy[MOST_DATAGRAM], mac[MAC];
    peer *it = NULL;
    for (size_t at = HEADER, length; at + 4 <= size; at += 4 + ((length + 3) & ~(size_t)3)) {
        uint32_t type = AV_RB16(bytes + at);
        length = AV_RB16(bytes + at + 2);
        if (at + 4 + length > size) return NULL;
        if (type == USERNAME) it = peer_of(bytes + at + 4, length);
        if (type == USE_CANDIDATE) *nominated = true;
        if (type != INTEGRITY) continue;
        if (!it || length != MAC) return NULL;
        memcpy(copy, bytes, at);
        sign(it->password, copy, at, mac);
        return CRYPTO_memcmp(mac, bytes + at + 4, MAC) ? NULL : it;
    }
    return NULL;
}

/* The answer: the address of the sender, MESSAGE-INTEGRITY, FINGERPRINT. */
static void reply(const peer *it, const struct sockaddr_in *to, const uint8_t *request) {
    uint8_t *out = network_room();
    memcpy(out, request, HEADER);
    AV_WB16(out, SUCCESS);
    AV_WB32(out + 20, XOR_MAPPED << 16 | 8);
    AV_WB16(out + 24, 1);
    AV_WB16(out + 26, ntohs(to->sin_port) ^ COOKIE >> 16);
    AV_WB32(out + 28, ntohl(to->sin_addr.s_addr) ^ COOKIE);
    AV_WB32(out + 32, INTEGRITY << 16 | MAC);
    sign(it->password, out, 32, out + 36);
    AV_WB16(out + 2, REPLY - HEADER);
    AV_WB32(out + 56, (uint32_t)FINGERPRINT << 16 | 4);
    AV_WB32(out + 60, ~av_crc(av_crc_get_table(AV_CRC_32_IEEE_LE), UINT32_MAX, out, 56) ^ FINGERPRINT_XOR);
    network_send(to, REPLY);
}

bool ice_take(const struct sockaddr_in *from, const uint8_t *bytes, size_t size) {
    bool nominated = false;
    if (size < HEADER || bytes[0] > 3 || AV_RB32(bytes + 4) != COOKIE) return false;
    peer *it = AV_RB16(bytes) == REQUEST && size <= MOST_DATAGRAM ? sender_of(bytes, size, &nominated) : NULL;
    if (!it) return true;
    peer_seen(it, from, nominated);
    reply(it, from, bytes);
    return true;
}
