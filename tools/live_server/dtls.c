/* DTLS 1.2 as the server, with the extension use_srtp (RFC 5764), and SRTP with the keys that it gives. */
#include "server.h"

#include <libavutil/intreadwrite.h>
#include <openssl/err.h>
#include <openssl/x509.h>
#include <string.h>
#include <strings.h>

enum { LINK_MTU = 1200, RECORD_HEADER = 13, REPLAY_WINDOW = 1024, DAY = 86400 };

char dtls_fingerprint[96];
static SSL_CTX *context;

/* ---- the start ---- */

static void fingerprint_of(X509 *certificate, char to[96]) {
    uint8_t digest[32];
    unsigned size = sizeof digest;
    X509_digest(certificate, EVP_sha256(), digest, &size);
    OPENSSL_buf2hexstr_ex(to, 96, NULL, digest, size, ':');
}

/* Any certificate is accepted here: it is compared with the fingerprint of the offer later. */
static int any_certificate(int ok, X509_STORE_CTX *store) {
    (void)ok, (void)store;
    return 1;
}

/* A certificate for this run, signed by itself: the answer has its fingerprint. */
static bool use_certificate(void) {
    EVP_PKEY *key = EVP_EC_gen("P-256");
    X509 *it = X509_new();
    if (!key || !it) return false;
    ASN1_INTEGER_set(X509_get_serialNumber(it), 1);
    X509_gmtime_adj(X509_getm_notBefore(it), -DAY);
    X509_gmtime_adj(X509_getm_notAfter(it), 365L * DAY);
    X509_set_pubkey(it, key);
    X509_NAME_add_entry_by_txt(X509_get_subject_name(it), "CN", MBSTRING_ASC, (const uint8_t *)"live_server", -1, -1, 0);
    X509_set_issuer_name(it, X509_get_subject_name(it));
    if (X509_sign(it, key, EVP_sha256()) <= 0) return false;
    fingerprint_of(it, dtls_fingerprint);
    bool used = SSL_CTX_use_certificate(context, it) == 1 && SSL_CTX_use_PrivateKey(context, key) == 1;
    X509_free(it);
    EVP_PKEY_free(key);
    return used;
}

void dtls_start(void) {
    context = SSL_CTX_new(DTLS_server_method());
    if (!context || !use_certificate()) give_up("DTLS", "no certificate can be made");
    if (SSL_CTX_set_tlsext_use_srtp(context, "SRTP_AEAD_AES_128_GCM:SRTP_AES128_CM_SHA1_80")) give_up("DTLS", "no use_srtp");
    SSL_CTX_set_verify(context, SSL_VERIFY_PEER | SSL_VERIFY_FAIL_IF_NO_PEER_CERT, any_certificate);
    SSL_CTX_set_options(context, SSL_OP_NO_QUERY_MTU | SSL_OP_NO_TICKET | SSL_OP_NO_RENEGOTIATION);
    if (srtp_init() != srtp_err_status_ok) give_up("SRTP", "it does not start");
}

/* ---- a peer: OpenSSL reads from memory, where a datagram is put, and writes into memory ---- */

static bool begin(peer *it) {
    BIO *in = BIO_new(BIO_s_mem()), *out = BIO_new(BIO_s_mem());
    SSL *ssl = SSL_new(context);
    if (in && out && ssl) {
        SSL_set_bio(ssl, in, out);
        SSL_set_accept_state(ssl);
        DTLS_set_link_mtu(ssl, LINK_MTU);
        it->ssl = ssl;
        return true;
    }
    BIO_free(in);
    BIO_free(out);
    SSL_free(ssl);
    return false;
}

/* Sends what OpenSSL wrote, each record in a separate datagram: memory joins the records of a flight. */
static void send_records(peer *it) {
    BIO *out = SSL_get_wbio(it->ssl);
    uint8_t *bytes = NULL;
    long left = BIO_get_mem_data(out, &bytes);
    for (long size; left >= RECORD_HEADER; left -= size, bytes += size) {
        size = RECORD_HEADER + AV_RB16(bytes + RECORD_HEADER - 2);
        if (size > left || size > MOST_DATAGRAM) break;
        memcpy(network_room(), bytes, (size_t)size);
        network_send(&it->at, (size_t)size);
    }
    (void)BIO_reset(out);
    ERR_clear_error();
}

static bool use_keys(srtp_t *to, srtp_profile_t profile, const uint8_t *key, uint8_t *salt, srtp_ssrc_type_t which) {
    uint8_t both[SRTP_MAX_KEY_LEN];
    unsigned size = srtp_profile_get_master_key_length(profile);
    srtp_policy_t policy = {.ssrc = {.type = which}, .key = both, .window_size = REPLAY_WINDOW, .allow_repeat_tx = 1};
    memcpy(both, key, size);
    srtp_append_salt_to_key(both, size, salt, srtp_profile_get_master_salt_length(profile));
    return !srtp_crypto_policy_set_from_profile_for_rtp(&policy.rtp, profile) &&
           !srtp_crypto_policy_set_from_profile_for_rtcp(&policy.rtcp, profile) && !srtp_create(to, &policy);
}

/* The keys of both directions (RFC 5764, section 4.2), if the certificate is the one of the offer: otherwise anybody on the path
 * could publish. */
static bool finish(peer *it) {
    char found[96] = "";
    uint8_t bytes[2 * SRTP_MAX_KEY_LEN];
    const SRTP_PROTECTION_PROFILE *agreed = SSL_get_selected_srtp_profile(it->ssl);
    X509 *certificate = SSL_get1_peer_certificate(it->ssl);
    if (certificate) fingerprint_of(certificate, found);
    X509_free(certificate);
    if (!agreed || strcasecmp(found, it->fingerprint)) return false;
    srtp_profile_t profile = (srtp_profile_t)agreed->id; /* libsrtp2 has the numbers of RFC 5764 and RFC 7714 too */
    size_t key = srtp_profile_get_master_key_length(profile), salt = srtp_profile_get_master_salt_length(profile);
    if (SSL_export_keying_material(it->ssl, bytes, 2 * (key + salt), "EXTRACTOR-dtls_srtp", 19, NULL, 0, 0) != 1) return false;
    bool quick = profile == srtp_profile_aead_aes_128_gcm;
    if (quick && !(it->quick = protect_new(bytes + key, bytes + 2 * key + salt))) return false;
    return use_keys(&it->in, profile, bytes, bytes + 2 * key, ssrc_any_inbound) &&
           use_keys(&it->out, profile, bytes + key, bytes + 2 * key + salt, ssrc_any_outbound);
}

void dtls_take(peer *it, const struct sockaddr_in *from, const uint8_t *bytes, size_t size) {
    char none[1];
    if (it->ended || (!it->ssl && !begin(it))) return;
    (void)BIO_reset(SSL_get_rbio(it->ssl)); /* what is left of the datagram before */
    BIO_write(SSL_get_rbio(it->ssl), bytes, (int)size);
    if (SSL_is_init_finished(it->ssl)) {
        SSL_read(it->ssl, none, sizeof none); /* an alert, or the last flight again */
        if (SSL_get_shutdown(it->ssl) & SSL_RECEIVED_SHUTDOWN) it->ended = true;
    } else if (SSL_do_handshake(it->ssl) == 1) {
        it->secure = finish(it);
        it->ended = !it->secure;
        peer_says(it, it->secure ? SSL_get_selected_srtp_profile(it->ssl)->name : "not the certificate of its offer, or no SRTP");
        if (it->secure) {
            peer_owns(it, from); /* whoever ended a handshake is there */
            peer_secured(it);
        }
    }
    send_records(it);
}

void dtls_tick(peer *it) {
    if (!it->ssl || SSL_is_init_finished(it->ssl)) return;
    DTLSv1_handle_timeout(it->ssl);
    send_records(it);
}

/* Says goodbye, so that the browser knows at once. */
void dtls_end(peer *it) {
    if (it->ssl && SSL_is_init_finished(it->ssl)) {
        SSL_shutdown(it->ssl);
        send_records(it);
    }
    SSL_free(it->ssl);
    if (it->in) srtp_dealloc(it->in);
    if (it->out) srtp_dealloc(it->out);
    protect_free(it->quick);
    network_flush();
}

void srtp_send(peer *to, uint8_t *bytes, size_t size, bool rtcp) {
    int length = (int)size;
    if (!to->secure) return;
    bool quick = to->quick && !rtcp;
    if (quick && !protect_packet(to->quick, bytes, &length)) return;
    if (!quick && (rtcp ? srtp_protect_rtcp : srtp_protect)(to->out, bytes, &length) != srtp_err_status_ok) return;
    if (network_passes(true, &to->at, bytes, (size_t)length)) network_send(&to->at, (size_t)length);
}
