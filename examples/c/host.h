/* What these programs share. */
#ifndef HOST_H
#define HOST_H

#include "sockets.h"

/* The seconds of a clock that only goes forward. */
static inline int64_t seconds(void) {
    struct timespec now = {0, 0};
    clock_gettime(CLOCK_MONOTONIC, &now);
    return now.tv_sec;
}

/* Lets the program have as many descriptors as it may, in place of as many as it has by default. */
static inline void raise_descriptors(void) {
    struct rlimit descriptors;
    if (getrlimit(RLIMIT_NOFILE, &descriptors) != 0) return;
    descriptors.rlim_cur = descriptors.rlim_max;
    setrlimit(RLIMIT_NOFILE, &descriptors);
}

/* ---- the words of a program */

/* The words behind a program's name, and how it is used; or an option and its value, and null. */
struct words {
    int n;
    char **at;
    const char *usage;
};

/* Says what is wrong with a word, and how the program is used, and ends it. Of an option it says that in one line. */
static inline void misused(const struct words *words, const char *word, const char *why) {
    if (words->usage)
        fprintf(stderr, "%s%s\n\n%s", word, why, words->usage);
    else
        fprintf(stderr, "%s%s%s%s\n", words->at[0], *word ? " " : ": ", word, why);
    exit(2);
}

/* The words of a program: `least` to `most` of them. If the first asks for help, tells how the program is used, and ends it. */
static inline struct words words_of(int n, char **all, int least, int most, const char *usage) {
    struct words words = {n - 1, all + 1, usage};
    if (n > 1 && (strcmp(all[1], "--help") == 0 || strcmp(all[1], "-h") == 0)) {
        fputs(usage, stdout);
        exit(0);
    }
    if (words.n < least) misused(&words, "", "words are missing");
    if (words.n > most) misused(&words, words.at[most], ": one word too many");
    return words;
}

/* The number, from `least` to `most`, that a word spells; `otherwise` if there is no such word. */
static inline long number_of(const struct words *words, int i, long least, long most, long otherwise) {
    if (i >= words->n) return otherwise;
    const char *word = words->at[i];
    char why[80], *rest;
    long number = strtol(word, &rest, 10);
    if (*word >= '0' && *word <= '9' && *rest == 0 && number >= least && number <= most) return number;
    snprintf(why, sizeof why, ": not a number from %ld to %ld", least, most);
    misused(words, word, why);
    return otherwise;
}

/* ---- sockets of this machine */

/* The address of a port of this machine. */
static inline struct sockaddr_in local_port(unsigned short port) {
    struct sockaddr_in address;
    memset(&address, 0, sizeof address);
    address.sin_family = AF_INET;
    address.sin_port = htons(port);
    address.sin_addr.s_addr = htonl(0x7f000001);
    return address;
}

enum { ADDRESS_TEXT = 24, SOCKET_BUFFER = 262144 };

/* Writes an address and its port, as `127.0.0.1:80`. */
static inline void address_text(const struct sockaddr_in *address, char text[ADDRESS_TEXT]) {
    const uint8_t *at = (const uint8_t *)&address->sin_addr;
    snprintf(text, ADDRESS_TEXT, "%u.%u.%u.%u:%u", at[0], at[1], at[2], at[3], ntohs(address->sin_port));
}

static inline int set_option(int fd, int option, int value) { return setsockopt(fd, SOL_SOCKET, option, &value, sizeof value); }

/* Listens at a port, or at any that is free if it is 0, and prints `port Q`. If that fails, ends the program. No accept of the
 * socket waits if `how` is SOCK_NONBLOCK. The port may have been in use just before. The system keeps at most SOCKET_BUFFER octets each
 * way for a connection that is accepted there, or what it allows if that is less; Linux takes twice as much memory. */
static inline int listen_at(unsigned short port, int how) {
    struct sockaddr_in address = local_port(port);
    socklen_t n = sizeof address;
    int fd = socket(AF_INET, SOCK_STREAM | how, 0);
    if (fd < 0 || set_option(fd, SO_REUSEADDR, 1) != 0 || set_option(fd, SO_SNDBUF, SOCKET_BUFFER) != 0 ||
        set_option(fd, SO_RCVBUF, SOCKET_BUFFER) != 0 || bind(fd, (struct sockaddr *)&address, n) != 0 || listen(fd, 4096) != 0 ||
        getsockname(fd, (struct sockaddr *)&address, &n) != 0) {
        perror("listen");
        exit(1);
    }
    printf("port %d\n", ntohs(address.sin_port));
    fflush(0);
    return fd;
}

/* Connects to a port. If that fails, ends the program. */
static inline int connect_to(unsigned short port) {
    struct sockaddr_in address = local_port(port);
    int fd = socket(AF_INET, SOCK_STREAM, 0);
    if (fd < 0 || connect(fd, (struct sockaddr *)&address, sizeof address) != 0) {
        perror("connect");
        exit(1);
    }
    return fd;
}

#endif
