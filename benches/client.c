// A client and a participant that take next to no time themselves, where in Python they take 1.6 ms for each whole
// LRA: client PORT PARTICIPANT CLIENTS COUNT pairs|lives. Each of the clients begins and closes LRAs at the server
// of PORT, one after another and all together COUNT of them. With `pairs` nobody joins them, and they are purged once
// all are measured. With `lives` each is joined by two participants at the port PARTICIPANT, which answer at once, is
// shown until it is Closed, and purged. It prints how many there were a second, and of one the median and the 99th
// percentile in milliseconds.
#include <netinet/in.h>
#include <pthread.h>
#include <stdio.h>
#include <stdlib.h>
#include <string.h>
#include <sys/socket.h>
#include <time.h>
#include <unistd.h>

enum { MOST_CLIENTS = 64, LISTENERS = 2, ROOM = 4096, ID = 36, LOOK_US = 250 };

static int port, participant, each, with_lives;
static double *spans;
static char (*ids)[ID + 1];

static void need(int is_so, const char *what) {
    if (is_so) return;
    perror(what);
    exit(1);
}

static double now(void) {
    struct timespec t;
    clock_gettime(CLOCK_MONOTONIC, &t);
    return (double)t.tv_sec + (double)t.tv_nsec / 1e9;
}

static struct sockaddr_in address(int at) {
    struct sockaddr_in to = {.sin_family = AF_INET, .sin_port = htons((unsigned short)at)};
    to.sin_addr.s_addr = htonl(INADDR_LOOPBACK);
    return to;
}

// One request over a connection of its own, and the whole answer as a text.
static void exchange(const char *text, char *answer) {
    struct sockaddr_in to = address(port);
    int line = socket(AF_INET, SOCK_STREAM, 0);
    need(line >= 0 && !connect(line, (struct sockaddr *)&to, sizeof to), "connect");
    need(send(line, text, strlen(text), MSG_NOSIGNAL) == (ssize_t)strlen(text), "send");
    size_t size = 0;
    for (ssize_t n; size < ROOM - 1 && (n = recv(line, answer + size, ROOM - 1 - size, 0)) > 0;) size += (size_t)n;
    answer[size] = 0;
    close(line);
}

// A request that has to be answered with this status. It is made again while the server changes its run.
static void ask(const char *method, const char *id, const char *call, const char *body, int status, char *answer) {
    char text[ROOM];
    snprintf(text, sizeof text, "%s /lra%s%s%s HTTP/1.1\r\nHost: p\r\nContent-Length: %zu\r\n\r\n%s", method,
             *id ? "/" : "", id, call, strlen(body), body);
    do exchange(text, answer);
    while (strstr(answer, "E20"));
    if (strlen(answer) > 9 && atoi(answer + 9) == status) return;
    fprintf(stderr, "client: %s %s\n%s\n", method, call, answer);
    exit(1);
}

static void begin(char *id, char *answer) {
    ask("POST", "", "", "", 201, answer);
    const char *urn = strstr(answer, "urn:uuid:");
    need(urn != NULL, "an id");
    snprintf(id, ID + 1, "%s", urn + strlen("urn:uuid:"));
}

static void live(char *id, char *answer) {
    char links[200];
    snprintf(links, sizeof links, "{\"compensate\":\"http://127.0.0.1:%d/k\",\"complete\":\"http://127.0.0.1:%d/k\"}",
             participant, participant);
    begin(id, answer);
    ask("PUT", id, "/join", links, 200, answer);
    ask("PUT", id, "/join", links, 200, answer);
    ask("PUT", id, "/close", "", 200, answer);
    do {
        usleep(LOOK_US);
        ask("GET", id, "", "", 200, answer);
    } while (!strstr(answer, "\"Closed\""));
    ask("DELETE", id, "", "", 204, answer);
}

static void *run_client(void *at) {
    char answer[ROOM];
    for (long i = (long)at * each, end = i + each; i < end; i++) {
        double start = now();
        if (with_lives) {
            live(ids[i], answer);
        } else {
            begin(ids[i], answer);
            ask("PUT", ids[i], "/close", "", 200, answer);
        }
        spans[i] = now() - start;
    }
    return NULL;
}

static void *run_participant(void *listener) {
    static const char done[] = "HTTP/1.1 200 OK\r\nContent-Length: 0\r\n\r\n";
    char text[ROOM];
    for (;;) {
        int line = accept((int)(long)listener, NULL, NULL);
        if (line < 0) continue;
        recv(line, text, sizeof text, 0);
        send(line, done, sizeof done - 1, MSG_NOSIGNAL);
        close(line);
    }
    return NULL;
}

static void listen_there(void) {
    struct sockaddr_in at = address(participant);
    int listener = socket(AF_INET, SOCK_STREAM, 0), yes = 1;
    need(listener >= 0 && !setsockopt(listener, SOL_SOCKET, SO_REUSEADDR, &yes, sizeof yes), "socket");
    need(!bind(listener, (struct sockaddr *)&at, sizeof at) && !listen(listener, 64), "listen");
    for (int i = 0; i < LISTENERS; i++) {
        pthread_t thread;
        need(!pthread_create(&thread, NULL, run_participant, (void *)(long)listener), "a thread");
    }
}

static int by_value(const void *a, const void *b) {
    double x = *(const double *)a, y = *(const double *)b;
    return (x > y) - (x < y);
}

int main(int count, char **words) {
    int clients = count == 6 ? atoi(words[3]) : 0;
    if (clients < 1 || clients > MOST_CLIENTS) return fprintf(stderr, "usage: client PORT PARTICIPANT CLIENTS COUNT pairs|lives\n"), 2;
    port = atoi(words[1]), participant = atoi(words[2]), each = atoi(words[4]) / clients;
    with_lives = !strcmp(words[5], "lives");
    int all = clients * each;
    spans = calloc((size_t)all, sizeof *spans), ids = calloc((size_t)all, sizeof *ids);
    need(spans && ids && all > 0, "memory");
    if (with_lives) listen_there();
    pthread_t threads[MOST_CLIENTS];
    double start = now();
    for (long i = 0; i < clients; i++) need(!pthread_create(&threads[i], NULL, run_client, (void *)i), "a thread");
    for (int i = 0; i < clients; i++) pthread_join(threads[i], NULL);
    double took = now() - start;
    char answer[ROOM];
    for (int i = 0; i < all && !with_lives; i++) ask("DELETE", ids[i], "", "", 204, answer);
    qsort(spans, (size_t)all, sizeof *spans, by_value);
    printf("%.1f %.3f %.3f\n", all / took, spans[all / 2] * 1e3, spans[all * 99 / 100] * 1e3);
    return 0;
}
