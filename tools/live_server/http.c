/* HTTP: the page, WHIP (RFC 9725), WHEP, and what the server counts.
 *
 *     POST /whip/NAME, POST /whep/NAME   an offer: 201, the answer, and the Location of the session
 *     DELETE /session/ID                 ends it
 *     GET /session/ID/end                why it ended, for a while
 *     PUT /session/ID/layer              of a viewer: the RID of a layer, or T0 to T3, the highest temporal layer
 *     PUT /network                       loss=PERCENT reorder=PERCENT delay=MS
 *     GET /stats, GET / */
#include "server.h"

#include <arpa/inet.h>
#include <errno.h>
#include <microhttpd.h>
#include <stdlib.h>
#include <string.h>

enum { MOST_BODY = 32 << 10, MOST_PAGE = 128 << 10 };
enum { CONNECTIONS = 512, CONNECTION_BYTES = 16 << 10, CONNECTION_SECONDS = 10 };

static struct MHD_Daemon *server;

/* A request whose body comes piece by piece. */
typedef struct {
    struct MHD_Connection *connection;
    const char *url, *method;
    size_t size;
    char body[MOST_BODY]; /* with a 0 at the end */
} request;

/* ---- replies ---- */

static enum MHD_Result reply(const request *to, unsigned code, const char *type, const char *body, const char *location) {
    struct MHD_Response *response = MHD_create_response_from_buffer(strlen(body), (void *)body, MHD_RESPMEM_MUST_COPY);
    if (!response) return MHD_NO;
    MHD_add_response_header(response, "Content-Type", type);
    MHD_add_response_header(response, "Cache-Control", "no-store");
    /* Pages of other origins may publish and watch, but neither read what is counted nor change the network. */
    if (!strncmp(to->url, "/whip/", 6) || !strncmp(to->url, "/whep/", 6) || !strncmp(to->url, "/session/", 9)) {
        MHD_add_response_header(response, "Access-Control-Allow-Origin", "*");
        MHD_add_response_header(response, "Access-Control-Allow-Methods", "POST, PUT, DELETE, OPTIONS");
        MHD_add_response_header(response, "Access-Control-Allow-Headers", "Content-Type, Authorization");
        MHD_add_response_header(response, "Access-Control-Expose-Headers", "Location");
    }
    if (location) MHD_add_response_header(response, "Location", location);
    if (code == MHD_HTTP_CONFLICT) MHD_add_response_header(response, "Retry-After", "1");
    if (code == MHD_HTTP_UNAUTHORIZED) MHD_add_response_header(response, "WWW-Authenticate", "Bearer");
    if (code == MHD_HTTP_UNSUPPORTED_MEDIA_TYPE) MHD_add_response_header(response, "Accept-Post", "application/sdp");
    enum MHD_Result result = MHD_queue_response(to->connection, code, response);
    MHD_destroy_response(response);
    return result;
}

static enum MHD_Result say(const request *to, unsigned code, const char *sentence) {
    return reply(to, code, "text/plain; charset=utf-8", sentence, NULL);
}

/* ---- what is asked for ---- */

static enum MHD_Result publish_or_watch(const request *from, bool publishes) {
    char location[64];
    unsigned status = MHD_HTTP_SERVICE_UNAVAILABLE;
    const char *name = from->url + 6, *type = MHD_lookup_connection_value(from->connection, MHD_HEADER_KIND, "Content-Type");
    if (!is_name(name)) return say(from, MHD_HTTP_NOT_FOUND, "A name has up to 31 letters, digits, - and _.\n");
    if (!type || strncmp(type, "application/sdp", 15))
        return say(from, MHD_HTTP_UNSUPPORTED_MEDIA_TYPE, "An offer is application/sdp.\n");
    if (!publishes && !peer_publisher(name)) return say(from, MHD_HTTP_CONFLICT, "Nobody publishes under this name yet.\n");
    peer *it = peer_new(name, publishes);
    const char *text = it ? answer(it, from->body, publishes, &status) : "The server is full.\n";
    if (status != MHD_HTTP_CREATED) {
        if (it) peer_free(it);
        return say(from, status, text);
    }
    snprintf(location, sizeof location, "/session/%s", it->id);
    return reply(from, status, "application/sdp", text, location);
}

/* Why a session ended: `ID/end`. */
static enum MHD_Result session_end(const request *from, const char *path) {
    char id[sizeof peers->id] = "", why[sizeof peers->why + 2];
    const char *rest = strchr(path, '/');
    if (rest && (size_t)(rest - path) < sizeof id) memcpy(id, path, (size_t)(rest - path));
    if (strcmp(from->method, "GET") || !rest || strcmp(rest, "/end") || !peer_end(id, why, sizeof why))
        return say(from, MHD_HTTP_NOT_FOUND, "There is no such session.\n");
    return say(from, MHD_HTTP_OK, why);
}

static enum MHD_Result session(const request *from) {
    const char *rest = from->url + strlen("/session/");
    peer *it = peer_session(rest);
    if (!it) return session_end(from, rest);
    if (!strcmp(from->method, "PATCH"))
        return say(from, MHD_HTTP_METHOD_NOT_ALLOWED, "ICE-lite needs neither trickle nor restarts.\n");
    rest += strlen(it->id);
    bool ends = !strcmp(from->method, "DELETE") && !*rest, changes = !strcmp(from->method, "PUT") && !strcmp(rest, "/layer");
    if (!ends && !changes) return say(from, MHD_HTTP_NOT_FOUND, "There is no such thing.\n");
    if (ends) it->ended = true;
    else if (!viewer_wants_layer(it, from->body)) return say(from, MHD_HTTP_CONFLICT, "There is no such layer.\n");
    return say(from, MHD_HTTP_OK, "");
}

static enum MHD_Result change_network(const request *from) {
    impairment to;
    bool read = sscanf(from->body, "loss=%lf reorder=%lf delay=%u", &to.loss, &to.reorder, &to.delay) == 3;
    if (!read || !(to.loss >= 0 && to.loss <= 100 && to.reorder >= 0 && to.reorder <= 100) || to.delay > 1000)
        return say(from, MHD_HTTP_BAD_REQUEST, "loss=PERCENT reorder=PERCENT delay=MS, at most 1000 ms.\n");
    the.network = to;
    return say(from, MHD_HTTP_OK, "");
}

static enum MHD_Result show_stats(const request *from) {
    char *bytes = NULL;
    size_t size = 0;
    FILE *to = open_memstream(&bytes, &size);
    if (to) stats(to);
    if (!to || fclose(to)) return say(from, MHD_HTTP_INTERNAL_SERVER_ERROR, "Out of memory.\n");
    enum MHD_Result result = reply(from, MHD_HTTP_OK, "application/json", bytes, NULL);
    free(bytes);
    return result;
}

static enum MHD_Result show_page(const request *from) {
    static char bytes[MOST_PAGE];
    FILE *file = fopen(the.page, "rb");
    if (!file) return say(from, MHD_HTTP_NOT_FOUND, "The page is missing.\n");
    bytes[fread(bytes, 1, sizeof bytes - 1, file)] = 0;
    fclose(file);
    return reply(from, MHD_HTTP_OK, "text/html; charset=utf-8", bytes, NULL);
}

/* Whether a request has the token of the server, as `Authorization: Bearer TOKEN` (RFC 6750). */
static bool is_allowed(const request *from) {
    const char *given = MHD_lookup_connection_value(from->connection, MHD_HEADER_KIND, "Authorization");
    if (!the.token) return true;
    size_t size = strlen(the.token);
    return given && !strncmp(given, "Bearer ", 7) && strlen(given + 7) == size && !CRYPTO_memcmp(given + 7, the.token, size);
}

static enum MHD_Result answer_request(const request *from) {
    const char *url = from->url, *method = from->method;
    bool posts = !strcmp(method, "POST"), gets = !strcmp(method, "GET");
    if (from->size >= MOST_BODY) return say(from, MHD_HTTP_CONTENT_TOO_LARGE, "The body is too long.\n");
    if (!strcmp(method, "OPTIONS")) return say(from, MHD_HTTP_OK, "");
    if (gets && !strcmp(url, "/")) return show_page(from);
    if (!is_allowed(from))
        return say(from, MHD_HTTP_UNAUTHORIZED,
                   MHD_lookup_connection_value(from->connection, MHD_HEADER_KIND, "Authorization")
                       ? "The token is wrong.\n"
                       : "This server asks for a token.\n");
    if (gets && !strcmp(url, "/stats")) return show_stats(from);
    if (posts && !strncmp(url, "/whip/", 6)) return publish_or_watch(from, true);
    if (posts && !strncmp(url, "/whep/", 6)) return publish_or_watch(from, false);
    if (!strncmp(url, "/session/", 9)) return session(from);
    if (!strcmp(method, "PUT") && !strcmp(url, "/network")) return change_network(from);
    return say(from, MHD_HTTP_NOT_FOUND, "There is no such thing.\n");
}

/* ---- libmicrohttpd ---- */

/* It calls this once for the headers, then for each piece of the body, then for its end. */
static enum MHD_Result on_request(void *none, struct MHD_Connection *connection, const char *url, const char *method,
                                  const char *version, const char *bytes, size_t *size, void **own) {
    (void)none, (void)version;
    if (!*own) return (*own = calloc(1, sizeof(request))) ? MHD_YES : MHD_NO;
    request *it = *own;
    it->connection = connection;
    it->url = url;
    it->method = method;
    if (*size == 0) return answer_request(it);
    if (it->size + *size < MOST_BODY) memcpy(it->body + it->size, bytes, *size);
    it->size = it->size + *size < MOST_BODY ? it->size + *size : MOST_BODY;
    *size = 0;
    return MHD_YES;
}

static void on_end(void *none, struct MHD_Connection *connection, void **own, enum MHD_RequestTerminationCode why) {
    (void)none, (void)connection, (void)why;
    free(*own);
    *own = NULL;
}

/* Its descriptor of epoll goes into the loop: no thread is started. */
int http_start(void) {
    struct sockaddr_in at = {.sin_family = AF_INET, .sin_port = htons(the.http)};
    if (inet_pton(AF_INET, the.address, &at.sin_addr) != 1) give_up(the.address, "not an address of IPv4");
    server = MHD_start_daemon(MHD_USE_EPOLL, the.http, NULL, NULL, on_request, NULL, MHD_OPTION_SOCK_ADDR, (struct sockaddr *)&at,
                              MHD_OPTION_NOTIFY_COMPLETED, on_end, NULL, MHD_OPTION_CONNECTION_TIMEOUT,
                              (unsigned)CONNECTION_SECONDS, MHD_OPTION_CONNECTION_LIMIT, (unsigned)CONNECTIONS,
                              MHD_OPTION_CONNECTION_MEMORY_LIMIT, (size_t)CONNECTION_BYTES, MHD_OPTION_END);
    const union MHD_DaemonInfo *info = server ? MHD_get_daemon_info(server, MHD_DAEMON_INFO_EPOLL_FD) : NULL;
    if (!info) give_up("the port of the page (--http)", errno ? strerror(errno) : "cannot be used");
    return info->epoll_fd;
}

void http_run(void) { MHD_run(server); }

uint64_t http_deadline(uint64_t now) {
    MHD_UNSIGNED_LONG_LONG wait;
    return MHD_get_timeout(server, &wait) == MHD_YES ? now + wait : UINT64_MAX;
}

void http_stop(void) { MHD_stop_daemon(server); }
