/* Datagrams over 127.0.0.1, for forward.sh.
     forward copy AT TO                  receives at the port AT, copies and sends to the port TO, for good
     forward load FROM AT TO SECONDS     sends requests to read from the port FROM to the port AT, at most
                                         WINDOW at once, and counts what comes at the port TO; prints how
                                         many a second */
#include <arpa/inet.h>
#include <poll.h>
#include <stdint.h>
#include <stdio.h>
#include <stdlib.h>
#include <string.h>
#include <sys/socket.h>
#include <time.h>

enum { WINDOW = 32, ROOM = 641 };

static struct sockaddr_in at_port(int port) {
    struct sockaddr_in at = {.sin_family = AF_INET, .sin_port = htons(port)};
    at.sin_addr.s_addr = htonl(INADDR_LOOPBACK);
    return at;
}

static int bound(int port) {
    struct sockaddr_in at = at_port(port);
    int s = socket(AF_INET, SOCK_DGRAM, 0);
    if (s < 0 || bind(s, (struct sockaddr *)&at, sizeof at) != 0) {
        perror("bind");
        exit(1);
    }
    return s;
}

static void copy(int at, int to) {
    struct sockaddr_in next = at_port(to);
    unsigned char in[ROOM], out[ROOM];
    int s = bound(at);
    for (;;) {
        ssize_t size = recv(s, in, sizeof in, 0);
        if (size < 0)
            continue;
        memcpy(out, in, size);
        sendto(s, out, size, 0, (struct sockaddr *)&next, sizeof next);
    }
}

static double now(void) {
    struct timespec t;
    clock_gettime(CLOCK_MONOTONIC, &t);
    return t.tv_sec + t.tv_nsec * 1e-9;
}

/* client 0 reads the key k with this number */
static size_t request(unsigned char *bytes, uint64_t number) {
    static const unsigned char head[] = {'P', 'G', 1, 1, 0, 0};
    memcpy(bytes, head, sizeof head);
    for (int i = 0; i < 8; i++)
        bytes[6 + i] = number >> (56 - 8 * i);
    memset(bytes + 14, 0, 10);
    bytes[24] = 1;
    bytes[25] = 'k';
    return 26;
}

static void load(int from, int at, int to, double seconds) {
    struct sockaddr_in node = at_port(at);
    unsigned char bytes[ROOM];
    int out = bound(from), in = bound(to);
    uint64_t number = 0, heard = 0, lost = 0, open = 0;
    double begun = now(), left = seconds;
    while (left > 0) {
        for (; open < WINDOW; open++)
            sendto(out, bytes, request(bytes, ++number), 0, (struct sockaddr *)&node, sizeof node);
        struct pollfd wait = {.fd = in, .events = POLLIN};
        if (poll(&wait, 1, 20) == 0) {
            lost += open;
            open = 0;
        }
        while (open > 0 && recv(in, bytes, sizeof bytes, MSG_DONTWAIT) >= 0) {
            heard++;
            open--;
        }
        left = begun + seconds - now();
    }
    printf("%.0f datagrams a second, %llu lost\n", heard / (now() - begun), (unsigned long long)lost);
}

int main(int count, char **words) {
    if (count == 4 && strcmp(words[1], "copy") == 0)
        copy(atoi(words[2]), atoi(words[3]));
    else if (count == 6 && strcmp(words[1], "load") == 0)
        load(atoi(words[2]), atoi(words[3]), atoi(words[4]), atof(words[5]));
    else
        return 2;
    return 0;
}
