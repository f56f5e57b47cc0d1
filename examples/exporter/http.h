/* A web server that hands out one page that is made anew for each request. Two files have it: http_microhttpd.c by libmicrohttpd, and
 * http_sockets.c by sockets alone, for a program without shared libraries. */
#ifndef HTTP_H
#define HTTP_H
#include <stddef.h>

/* The page of /metrics, to be freed, and its length; or a null pointer. Called from several threads at once. */
typedef char *(*Page)(size_t *length);

/* Serves the connections of a listening socket, on threads of its own; 0 where that cannot be. */
int http_start(int listening, Page page);
void http_stop(void);

#define HTTP_TYPE "text/plain; version=0.0.4; charset=utf-8"
#define HTTP_ROOT "Doorhawser's exporter: /metrics has the metrics, /health says that it is there.\n"

#endif
