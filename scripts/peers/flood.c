/* Sends garbage datagrams to ports of this machine, at a given rate: flood RATE SECONDS KIND PORT..
   KIND: random (100 bytes of no meaning), asks (100 bytes that begin as an ask of cluster 7 does, with a wrong tag),
   members (the same as from a member, its address too: the ports are the members' in order; wants root), pieces (the
   same of packets that have a piece).
   It writes how many were sent. RATE 0: as many as can be sent. */
#define _GNU_SOURCE
#include <arpa/inet.h>
#include <netinet/in.h>
#include <stdio.h>
#include <stdlib.h>
#include <string.h>
#include <sys/socket.h>
#include <time.h>

enum { SIZE = 100, BATCH = 32, FRONT = 28 };
enum { RANDOM, ASKS, MEMBERS, PIECES };

static double now(void) {
    struct timespec t;
    clock_gettime(CLOCK_MONOTONIC, &t);
    return t.tv_sec + t.tv_nsec / 1e9;
}

static unsigned long seed = 88172645463325252ul;

static unsigned char byte(void) {
    seed ^= seed << 13;
    seed ^= seed >> 7;
    seed ^= seed << 17;
    return seed >> 24;
}

static void fill(unsigned char *data, int kind, int from, int to, int members) {
    for (int i = 0; i < SIZE; i++) data[i] = byte();
    if (kind == RANDOM) {
        data[10] &= 0x7f;
        return;
    }
    memcpy(data, kind == PIECES ? "PFXS\2\0\0\0\7" : "PFXR\1\0\0\0\7", 9);
    data[9] = members;
    data[10] = kind == ASKS ? 255 : from;
    data[11] = to;
    data[12] = kind == PIECES ? 2 : kind == ASKS ? 8 : 7;
}

static void front(unsigned char *ip, int from, int to) {
    memset(ip, 0, FRONT);
    ip[0] = 0x45;
    ip[3] = FRONT + SIZE;
    ip[8] = 64;
    ip[9] = 17;
    ip[12] = ip[16] = 127;
    ip[15] = ip[19] = 1;
    ip[20] = from >> 8;
    ip[21] = from;
    ip[22] = to >> 8;
    ip[23] = to;
    ip[25] = 8 + SIZE;
}

int main(int words, char **word) {
    if (words < 5) return 2;
    double rate = atof(word[1]), seconds = atof(word[2]);
    const char *kinds[] = {"random", "asks", "members", "pieces"};
    int kind = RANDOM, ports = words - 4;
    for (int k = 0; k < 4; k++) if (!strcmp(word[3], kinds[k])) kind = k;
    int is_raw = kind >= MEMBERS;
    int s = is_raw ? socket(AF_INET, SOCK_RAW, IPPROTO_RAW) : socket(AF_INET, SOCK_DGRAM, 0);
    if (s < 0) return perror("socket"), 1;
    static unsigned char data[BATCH][FRONT + SIZE];
    struct sockaddr_in to[BATCH];
    struct iovec part[BATCH];
    struct mmsghdr batch[BATCH];
    double began = now();
    long sent = 0, next = 0;
    while (now() < began + seconds) {
        if (rate > 0 && sent > (now() - began) * rate) {
            struct timespec pause = {0, 200000};
            nanosleep(&pause, 0);
            continue;
        }
        for (int k = 0; k < BATCH; k++, next++) {
            int at = next % ports, from = (at + 1) % ports, skip = is_raw ? 0 : FRONT;
            front(data[k], atoi(word[4 + from]), atoi(word[4 + at]));
            fill(data[k] + FRONT, kind, from, at, ports);
            memset(&to[k], 0, sizeof to[k]);
            to[k].sin_family = AF_INET;
            to[k].sin_port = is_raw ? 0 : htons(atoi(word[4 + at]));
            to[k].sin_addr.s_addr = htonl(0x7f000001);
            part[k] = (struct iovec){data[k] + skip, FRONT + SIZE - skip};
            memset(&batch[k], 0, sizeof batch[k]);
            batch[k].msg_hdr = (struct msghdr){.msg_name = &to[k], .msg_namelen = sizeof to[k], .msg_iov = &part[k], .msg_iovlen = 1};
        }
        int n = sendmmsg(s, batch, BATCH, 0);
        if (n > 0) sent += n;
    }
    printf("%.0f\n", sent / (now() - began));
    return 0;
}
