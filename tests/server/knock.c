/* Connects to a server of this machine over and over, brings one NULL call each time (RFC 5531 section 9, in one record) and reads the reply; prints how
   many replies were right. An address has some 28,000 ports for this, and each stays taken for a minute, so the connections come from 250 in turn.

       knock PORT COUNT */
#include <arpa/inet.h>
#include <netinet/in.h>
#include <stdint.h>
#include <stdio.h>
#include <stdlib.h>
#include <string.h>
#include <sys/socket.h>
#include <unistd.h>

enum { ADDRESSES = 250, CALL = 11, REPLY = 7 };

static struct sockaddr_in address(uint32_t host, uint16_t port) {
    struct sockaddr_in it = {.sin_family = AF_INET, .sin_port = htons(port), .sin_addr.s_addr = htonl(host)};
    return it;
}

static int took(int stream, void *to, size_t size) {
    size_t got = 0;
    while (got < size) {
        ssize_t more = recv(stream, (char *)to + got, size - got, 0);
        if (more <= 0) return 0;
        got += (size_t)more;
    }
    return 1;
}

/* Whether the server answers a NULL call of this xid. */
static int knocks(uint16_t port, uint32_t xid, uint32_t host) {
    uint32_t call[CALL] = {htonl(0x80000028), htonl(xid), 0, htonl(2), htonl(100003), htonl(4)};
    uint32_t wanted[REPLY] = {htonl(0x80000018), htonl(xid), htonl(1)}, reply[REPLY];
    struct sockaddr_in from = address(host, 0), to = address(INADDR_LOOPBACK, port);
    int stream = socket(AF_INET, SOCK_STREAM, 0), is_right = 0, later = 1;
    /* (the port is found as it connects, and not among those that are free for any peer) */
    setsockopt(stream, IPPROTO_IP, IP_BIND_ADDRESS_NO_PORT, &later, sizeof later);
    if (stream >= 0 && !bind(stream, (struct sockaddr *)&from, sizeof from) && !connect(stream, (struct sockaddr *)&to, sizeof to))
        is_right = send(stream, call, sizeof call, MSG_NOSIGNAL) == sizeof call && took(stream, reply, sizeof reply) && !memcmp(reply, wanted, sizeof reply);
    if (stream >= 0) close(stream);
    return is_right;
}

int main(int count, char **words) {
    if (count != 3) return 2;
    uint16_t port = (uint16_t)atoi(words[1]);
    uint32_t all = (uint32_t)atol(words[2]), right = 0;
    for (uint32_t n = 0; n < all; n++) right += (uint32_t)knocks(port, n, (127u << 24) + ((n % ADDRESSES + 1) << 8) + 1);
    printf("%u\n", right);
    return 0;
}
