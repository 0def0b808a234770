/* A switch between TUN devices, one a node, which passes packets on late, twice, out of order or not at all:
   switch FD.. with a TUN device each, of the nodes with the addresses 10.77.0.1, .2 and so on.
   Lines of standard input: `set DELAY JITTER LOSS TWICE` (microseconds one way, microseconds more at random, parts of a
   million lost, parts of a million passed twice); `away MASK` (no packet from or to these nodes); `cut FROM TO` (none
   from the one node to the other) and `mend` (no such cut any more); `whole 1` (IP fragments are dropped, as many
   firewalls do); `replay RATE` (the given number of packets a second of those that came before, each drawn from the last 16,384, are
   passed on again); `count`, which it answers with how many packets came and how many bytes. It ends with its input. */
#define _GNU_SOURCE
#include <poll.h>
#include <stdio.h>
#include <stdlib.h>
#include <string.h>
#include <time.h>
#include <unistd.h>

enum { NODES = 64, SIZE = 2048, MOST = 1 << 16, KEPT = 1 << 14 };

struct packet {
    double due;
    unsigned long number;
    int to, size;
    unsigned char *data;
};

static struct packet heap[MOST + 1], kept[KEPT];
static int held;
static unsigned long seed = 88172645463325252ul, passed;

static double now(void) {
    struct timespec t;
    clock_gettime(CLOCK_MONOTONIC, &t);
    return t.tv_sec * 1e6 + t.tv_nsec / 1e3;
}

static unsigned below(unsigned n) {
    seed ^= seed << 13;
    seed ^= seed >> 7;
    seed ^= seed << 17;
    return n == 0 ? 0 : (seed >> 20) % n;
}

static void keep(unsigned char *data, int to, int size) {
    struct packet *it = &kept[passed % KEPT];
    if (it->data == NULL && (it->data = malloc(SIZE)) == NULL) return;
    memcpy(it->data, data, size);
    it->to = to;
    it->size = size;
}

static int sooner(struct packet *a, struct packet *b) {
    return a->due < b->due || (a->due == b->due && a->number < b->number);
}

static void swap(int i, int j) {
    struct packet it = heap[i];
    heap[i] = heap[j];
    heap[j] = it;
}

static void put(struct packet it) {
    if (held == MOST) {
        free(it.data);
        return;
    }
    int i = ++held;
    heap[i] = it;
    for (; i > 1 && sooner(&heap[i], &heap[i / 2]); i /= 2) swap(i, i / 2);
}

static struct packet take(void) {
    struct packet it = heap[1];
    heap[1] = heap[held--];
    for (int i = 1;;) {
        int least = i;
        if (2 * i <= held && sooner(&heap[2 * i], &heap[least])) least = 2 * i;
        if (2 * i + 1 <= held && sooner(&heap[2 * i + 1], &heap[least])) least = 2 * i + 1;
        if (least == i) return it;
        swap(i, least);
        i = least;
    }
}

int main(int words, char **word) {
    int nodes = words - 1, fd[NODES];
    unsigned delay = 0, jitter = 0, loss = 0, twice = 0, whole = 0, replay = 0;
    double next = 0;
    unsigned long away = 0, packets = 0, bytes = 0, cut[NODES] = {0};
    struct pollfd polled[NODES + 1];
    if (nodes < 1 || nodes > NODES) return 2;
    for (int i = 0; i < nodes; i++) polled[i] = (struct pollfd){fd[i] = atoi(word[i + 1]), POLLIN, 0};
    polled[nodes] = (struct pollfd){0, POLLIN, 0};
    static char line[256];
    int filled = 0;
    for (;;) {
        double at = now();
        while (held > 0 && heap[1].due <= at) {
            struct packet it = take();
            if (!((away >> it.to) & 1) && write(fd[it.to], it.data, it.size) < 0) perror("switch");
            free(it.data);
        }
        for (; replay > 0 && next <= at; next += 1e6 / replay) {
            struct packet *it = &kept[below(KEPT)];
            if (it->data != NULL && write(fd[it->to], it->data, it->size) < 0) perror("switch");
        }
        struct timespec wait = {replay > 0 ? 0 : 1, replay > 0 ? 500000 : 0};
        if (held > 0) {
            double left = heap[1].due - now();
            if (left < 0) left = 0;
            if (left < (replay > 0 ? 500 : 1e6)) wait = (struct timespec){0, left * 1e3};
        }
        if (ppoll(polled, nodes + 1, &wait, NULL) <= 0) continue;
        if (polled[nodes].revents) {
            int n = read(0, line + filled, sizeof line - filled - 1);
            if (n <= 0) return 0;
            filled += n;
            line[filled] = 0;
            char *end;
            while ((end = strchr(line, '\n')) != NULL) {
                *end = 0;
                sscanf(line, "set %u %u %u %u", &delay, &jitter, &loss, &twice);
                sscanf(line, "away %lu", &away);
                sscanf(line, "whole %u", &whole);
                sscanf(line, "replay %u", &replay);
                next = now();
                unsigned from, to;
                if (sscanf(line, "cut %u %u", &from, &to) == 2 && from < NODES && to < NODES) cut[from] |= 1ul << to;
                if (strncmp(line, "mend", 4) == 0) memset(cut, 0, sizeof cut);
                if (strncmp(line, "count", 5) == 0) {
                    printf("%lu %lu\n", packets, bytes);
                    fflush(stdout);
                }
                filled -= end + 1 - line;
                memmove(line, end + 1, filled + 1);
            }
        }
        for (int i = 0; i < nodes; i++) {
            if (!(polled[i].revents & POLLIN)) continue;
            for (int n = 0; n < 64; n++) {
                unsigned char data[SIZE];
                int size = read(fd[i], data, SIZE);
                if (size <= 0) break;
                if (size < 20 || data[0] >> 4 != 4 || data[16] != 10 || data[17] != 77 || data[18] != 0) continue;
                int to = data[19] - 1;
                if (to < 0 || to >= nodes || ((away >> i) & 1) || ((away >> to) & 1)) continue;
                if ((cut[i] >> to) & 1) continue;
                packets++;
                bytes += size;
                if (whole && ((data[6] << 8 | data[7]) & 0x3fff)) continue;
                keep(data, to, size);
                if (below(1000000) < loss) continue;
                for (int copies = below(1000000) < twice ? 2 : 1; copies > 0; copies--) {
                    struct packet it = {now() + delay + below(jitter), ++passed, to, size, malloc(size)};
                    if (it.data == NULL) continue;
                    memcpy(it.data, data, size);
                    put(it);
                }
            }
        }
    }
}
