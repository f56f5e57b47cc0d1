#define _POSIX_C_SOURCE 200809L
#include "http.h"
#include <microhttpd.h>
#include <string.h>

static struct MHD_Daemon *server;
static Page metrics;

static enum MHD_Result answer(struct MHD_Connection *c, unsigned status, size_t length, const char *text, enum MHD_ResponseMemoryMode mode) {
    /* the library does not change a text that is persistent, but takes no const */
    union {
        const char *in;
        void *out;
    } bytes = {text};
    struct MHD_Response *r = MHD_create_response_from_buffer(length, bytes.out, mode);
    if (!r) return MHD_NO;
    MHD_add_response_header(r, MHD_HTTP_HEADER_CONTENT_TYPE, HTTP_TYPE);
    if (status == MHD_HTTP_METHOD_NOT_ALLOWED) MHD_add_response_header(r, MHD_HTTP_HEADER_ALLOW, "GET, HEAD");
    enum MHD_Result done = MHD_queue_response(c, status, r);
    MHD_destroy_response(r);
    return done;
}

static enum MHD_Result fixed(struct MHD_Connection *c, unsigned status, const char *text) {
    return answer(c, status, strlen(text), text, MHD_RESPMEM_PERSISTENT);
}

static enum MHD_Result request(void *context, struct MHD_Connection *c, const char *path, const char *method, const char *version,
                               const char *body, size_t *body_length, void **state) {
    static int seen;
    (void)context, (void)version, (void)body;
    if (!*state) { /* the head alone has come: the answer is given after the body */
        *state = &seen;
        return MHD_YES;
    }
    if (*body_length) { /* no body has a meaning here */
        *body_length = 0;
        return MHD_YES;
    }
    if (strcmp(method, MHD_HTTP_METHOD_GET) && strcmp(method, MHD_HTTP_METHOD_HEAD)) return fixed(c, MHD_HTTP_METHOD_NOT_ALLOWED, "GET or HEAD\n");
    if (!strcmp(path, "/")) return fixed(c, MHD_HTTP_OK, HTTP_ROOT);
    if (!strcmp(path, "/health")) return fixed(c, MHD_HTTP_OK, "ok\n");
    if (strcmp(path, "/metrics")) return fixed(c, MHD_HTTP_NOT_FOUND, "not found\n");
    size_t length = 0;
    char *text = metrics(&length);
    if (!text) return fixed(c, MHD_HTTP_INTERNAL_SERVER_ERROR, "no memory is left\n");
    return answer(c, MHD_HTTP_OK, length, text, MHD_RESPMEM_MUST_FREE);
}

int http_start(int listening, Page page) {
    metrics = page;
    server = MHD_start_daemon(MHD_USE_INTERNAL_POLLING_THREAD | MHD_USE_POLL, 0, NULL, NULL, request, NULL, MHD_OPTION_LISTEN_SOCKET,
                              listening, MHD_OPTION_CONNECTION_TIMEOUT, 10U, MHD_OPTION_CONNECTION_LIMIT, 64U, MHD_OPTION_END);
    return server != NULL;
}

void http_stop(void) {
    MHD_stop_daemon(server);
}
