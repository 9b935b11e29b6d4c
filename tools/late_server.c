/* Listens at a Unix socket, and runs a server for each connection. Bytes are passed on, each way, some milliseconds after
 * they came. If a limit is given, each READ asks the server for at most so many bytes, so that no DATA has more.
 *
 *     late_server SOCKET MILLISECONDS LIMIT SERVER        LIMIT 0: READs are passed on as they come
 *
 * tools/bench.py compiles it, and it ends with that. It waits for nothing but sockets and its delays, so that it doesn't
 * bound what is measured. */
#define _GNU_SOURCE
#include <arpa/inet.h>
#include <errno.h>
#include <fcntl.h>
#include <poll.h>
#include <signal.h>
#include <stdint.h>
#include <stdlib.h>
#include <string.h>
#include <sys/prctl.h>
#include <sys/socket.h>
#include <sys/un.h>
#include <time.h>
#include <unistd.h>

enum { ROOM = 1 << 26, MARKS = 1 << 16, PIECE = 1 << 20, FRAME = 1 << 19, READ = 5 };

/* One direction: a ring of bytes, and for each piece that came when it is due and where it ends. */
struct way {
    int in, out, ended, shut;
    uint64_t put, sent;               /* bytes that were put into the ring, and that were sent */
    uint64_t first, last;             /* marks that were sent, and that were made */
    struct { uint64_t due, end; } marks[MARKS];
    unsigned char ring[ROOM];
    uint32_t limit, held;             /* the limit of READs, and the bytes of a frame that isn't whole yet */
    unsigned char frame[2 * PIECE];
};

static uint64_t delay;

static uint64_t now(void) {
    struct timespec t;
    clock_gettime(CLOCK_MONOTONIC, &t);
    return (uint64_t)t.tv_sec * 1000000 + t.tv_nsec / 1000;
}

static void put(struct way *w, const unsigned char *bytes, size_t n) {
    size_t at = w->put % ROOM, head = n < ROOM - at ? n : ROOM - at;
    memcpy(w->ring + at, bytes, head);
    memcpy(w->ring, bytes + head, n - head);
    w->put += n;
    w->marks[w->last % MARKS].due = now() + delay;
    w->marks[w->last++ % MARKS].end = w->put;
}

/* Puts the frames that are whole into the ring, with a smaller length in each READ that asks for more than the limit. */
static void put_frames(struct way *w) {
    uint32_t whole = 0, n, asked;
    while (w->held - whole >= 5) {
        unsigned char *frame = w->frame + whole;
        memcpy(&n, frame, 4);
        n = ntohl(n) + 4;
        if (n > FRAME) exit(1);
        if (w->held - whole < n) break;
        if (frame[4] == READ) {
            memcpy(&asked, frame + n - 4, 4);
            if (ntohl(asked) > w->limit) asked = htonl(w->limit);
            memcpy(frame + n - 4, &asked, 4);
        }
        whole += n;
    }
    if (whole) put(w, w->frame, whole);
    memmove(w->frame, w->frame + whole, w->held -= whole);
}

static int has_room(struct way *w) {
    return !w->ended && w->put - w->sent <= ROOM - 3 * PIECE && w->last - w->first < MARKS - 1;
}

static void take(struct way *w) {
    ssize_t n = read(w->in, w->frame + w->held, PIECE);
    if (n < 0 && (errno == EAGAIN || errno == EINTR)) return;
    if (n <= 0) { w->ended = 1; return; }
    if (w->limit) { w->held += n; put_frames(w); } else put(w, w->frame, n);
}

/* The end of the bytes that are due. */
static uint64_t due_end(struct way *w, uint64_t time) {
    uint64_t end = w->sent;
    for (uint64_t k = w->first; k < w->last && w->marks[k % MARKS].due <= time; k++) end = w->marks[k % MARKS].end;
    return end;
}

static void give(struct way *w, uint64_t end) {
    size_t at = w->sent % ROOM, n = end - w->sent;
    ssize_t gone = write(w->out, w->ring + at, n < ROOM - at ? n : ROOM - at);
    if (gone < 0 && errno != EAGAIN && errno != EINTR) exit(0);
    if (gone > 0) w->sent += gone;
    while (w->first < w->last && w->marks[w->first % MARKS].end <= w->sent) w->first++;
}

static void serve(int link, uint32_t limit, char *server) {
    int ends[2], room = PIECE;
    if (socketpair(AF_UNIX, SOCK_STREAM, 0, ends)) exit(1);
    if (fork() == 0) {
        dup2(ends[1], 0); dup2(ends[1], 1);
        close(ends[0]); close(ends[1]); close(link);
        execl(server, server, (char *)0);
        _exit(127);
    }
    close(ends[1]);
    for (int k = 0; k < 2; k++) {
        int end = k ? link : ends[0];
        setsockopt(end, SOL_SOCKET, SO_SNDBUFFORCE, &room, sizeof room);
        setsockopt(end, SOL_SOCKET, SO_RCVBUFFORCE, &room, sizeof room);
        fcntl(end, F_SETFL, fcntl(end, F_GETFL) | O_NONBLOCK);
    }
    struct way *ways[2];
    for (int k = 0; k < 2; k++) {
        ways[k] = calloc(1, sizeof(struct way));
        if (!ways[k]) exit(1);
        ways[k]->in = k ? ends[0] : link;
        ways[k]->out = k ? link : ends[0];
        ways[k]->limit = k ? 0 : limit;
    }
    for (;;) {
        struct pollfd fds[4];
        uint64_t time = now(), end[2];
        int64_t wait = -1;
        for (int k = 0; k < 2; k++) {
            struct way *w = ways[k];
            end[k] = due_end(w, time);
            if (w->ended && w->sent == w->put && !w->shut) { shutdown(w->out, SHUT_WR); w->shut = 1; }
            if (end[k] == w->sent && w->first < w->last) {
                int64_t left = w->marks[w->first % MARKS].due - time;
                if (wait < 0 || left < wait) wait = left;
            }
            fds[2 * k] = (struct pollfd){ has_room(w) ? w->in : -1, POLLIN, 0 };
            fds[2 * k + 1] = (struct pollfd){ end[k] > w->sent ? w->out : -1, POLLOUT, 0 };
        }
        if (ways[0]->shut && ways[1]->shut) exit(0);
        struct timespec t = { wait / 1000000, wait % 1000000 * 1000 };
        if (ppoll(fds, 4, wait < 0 ? 0 : &t, 0) < 0 && errno != EINTR) exit(1);
        for (int k = 0; k < 2; k++) {
            if (fds[2 * k].revents) take(ways[k]);
            if (fds[2 * k + 1].revents) give(ways[k], end[k]);
        }
    }
}

int main(int count, char **words) {
    if (count != 5) return 2;
    struct sockaddr_un at = { .sun_family = AF_UNIX };
    if (strlen(words[1]) >= sizeof at.sun_path) return 2;
    strcpy(at.sun_path, words[1]);
    delay = strtoull(words[2], 0, 10) * 1000;
    prctl(PR_SET_PDEATHSIG, SIGKILL);
    signal(SIGCHLD, SIG_IGN);
    signal(SIGPIPE, SIG_IGN);
    int listener = socket(AF_UNIX, SOCK_STREAM, 0);
    if (bind(listener, (struct sockaddr *)&at, sizeof at) || listen(listener, 16)) return 1;
    for (;;) {
        int link = accept(listener, 0, 0);
        if (link < 0) continue;
        if (fork() == 0) {
            close(listener);
            serve(link, strtoul(words[3], 0, 10), words[4]);
        }
        close(link);
    }
}
