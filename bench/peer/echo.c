/* Gives each request's body back, by libmicrohttpd on one thread: echo PORT. */
#include <arpa/inet.h>
#include <microhttpd.h>
#include <stdlib.h>
#include <string.h>
#include <unistd.h>

struct body {
    char *bytes;
    size_t length;
    size_t room;
};

static enum MHD_Result add(struct body *body, const char *bytes, size_t length)
{
    if (body->room < body->length + length) {
        size_t room = 2 * (body->length + length);
        char *grown = realloc(body->bytes, room);
        if (grown == NULL)
            return MHD_NO;
        body->bytes = grown;
        body->room = room;
    }
    memcpy(body->bytes + body->length, bytes, length);
    body->length += length;
    return MHD_YES;
}

static enum MHD_Result answer(struct MHD_Connection *connection, struct body *body)
{
    struct MHD_Response *response =
        MHD_create_response_from_buffer(body->length, body->bytes, MHD_RESPMEM_MUST_FREE);
    if (response == NULL)
        return MHD_NO;
    body->bytes = NULL;
    MHD_add_response_header(response, "Content-Type", "application/octet-stream");
    enum MHD_Result queued = MHD_queue_response(connection, MHD_HTTP_OK, response);
    MHD_destroy_response(response);
    return queued;
}

static enum MHD_Result serve(void *own, struct MHD_Connection *connection, const char *url,
                             const char *method, const char *version, const char *bytes,
                             size_t *length, void **state)
{
    if (*state == NULL) {
        *state = calloc(1, sizeof(struct body));
        return *state == NULL ? MHD_NO : MHD_YES;
    }
    if (*length == 0)
        return answer(connection, *state);
    enum MHD_Result added = add(*state, bytes, *length);
    *length = 0;
    return added;
}

static void end(void *own, struct MHD_Connection *connection, void **state,
                enum MHD_RequestTerminationCode why)
{
    struct body *body = *state;
    if (body != NULL)
        free(body->bytes);
    free(body);
    *state = NULL;
}

int main(int count, char **words)
{
    if (count != 2)
        return 1;
    struct sockaddr_in address = {
        .sin_family = AF_INET,
        .sin_port = htons((uint16_t)atoi(words[1])),
        .sin_addr.s_addr = htonl(INADDR_LOOPBACK),
    };
    struct MHD_Daemon *daemon =
        MHD_start_daemon(MHD_USE_EPOLL_INTERNAL_THREAD, 0, NULL, NULL, serve, NULL,
                         MHD_OPTION_SOCK_ADDR, &address, MHD_OPTION_NOTIFY_COMPLETED, end, NULL,
                         MHD_OPTION_CONNECTION_LIMIT, 1100u, MHD_OPTION_END);
    if (daemon == NULL)
        return 1;
    for (;;)
        pause();
}
