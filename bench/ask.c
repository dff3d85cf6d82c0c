/* Asks a server on this host, by hand: what a question costs where nothing but the system's calls is done.
 *
 *     cc -O2 bench/ask.c -o ask && ./ask PORT NAMES
 *
 * Asks 127.0.1.1 at that port for the addresses of so many names, one at a time: a socket for each at a port that the system
 * picks, one datagram with a random id and an OPT record (RFC 6891), and a wait of at most five seconds until a datagram with
 * that id and that question comes. Printed is how many names had an answer. */
#include <arpa/inet.h>
#include <fcntl.h>
#include <poll.h>
#include <stdio.h>
#include <stdlib.h>
#include <string.h>
#include <sys/random.h>
#include <sys/socket.h>
#include <unistd.h>

/* A query for the address of aaaaaaaa.example, with recursion desired, and an OPT record of 1232 octets. */
static const unsigned char QUERY[45] = {
    0, 0, 1, 0, 0, 1, 0, 0, 0, 0, 0, 1, 8, 97, 97, 97, 97, 97, 97, 97, 97, 7, 101, 120, 97, 109, 112, 108, 101, 0, 0, 1, 0, 1,
    0, 0, 41, 4, 208, 0, 0, 0, 0, 0, 0};
enum { QUESTION = 12, BEHIND_QUESTION = 34 };

static int has_answer(const struct sockaddr_in *server, const unsigned char *query) {
    unsigned char answer[65535];
    int is_answered = 0, at = socket(AF_INET, SOCK_DGRAM | SOCK_NONBLOCK, 0);
    if (at < 0) return 0;
    struct pollfd wait = {at, POLLIN, 0};
    if (connect(at, (const struct sockaddr *)server, sizeof *server) == 0 && send(at, query, sizeof QUERY, 0) == sizeof QUERY)
        while (!is_answered && poll(&wait, 1, 5000) > 0) {
            ssize_t size = recv(at, answer, sizeof answer, 0);
            is_answered = size >= BEHIND_QUESTION && memcmp(answer, query, 2) == 0 && (answer[2] & 0x80) != 0 &&
                          memcmp(answer + QUESTION, query + QUESTION, BEHIND_QUESTION - QUESTION) == 0;
        }
    close(at);
    return is_answered;
}

int main(int count, char **words) {
    if (count != 3) return fprintf(stderr, "usage: ask PORT NAMES\n"), 2;
    struct sockaddr_in server = {.sin_family = AF_INET, .sin_port = htons((unsigned short)atoi(words[1]))};
    inet_pton(AF_INET, "127.0.1.1", &server.sin_addr);
    unsigned long names = strtoul(words[2], NULL, 10), answered = 0;
    for (unsigned long name = 0; name < names; name++) {
        unsigned char query[sizeof QUERY];
        memcpy(query, QUERY, sizeof QUERY);
        unsigned long left = name;
        for (int digit = 0; digit < 8; digit++, left /= 16) query[20 - digit] = 'a' + left % 16;
        if (getrandom(query, 2, 0) != 2) return 1;
        answered += has_answer(&server, query);
    }
    printf("%lu\n", answered);
    return 0;
}
