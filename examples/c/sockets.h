/* Sockets, epoll, threads and the C library: from the system's headers, or, if the compiler has none, declared as on 64-bit Linux with
 * glibc. */
#ifndef SOCKETS_H
#define SOCKETS_H

#ifndef _GNU_SOURCE
#define _GNU_SOURCE
#endif

#include "../../include/iwarp.h"

#if __has_include(<stddef.h>) && __has_include(<sys/epoll.h>)
#define HAS_SYSTEM_HEADERS
#include <arpa/inet.h>
#include <errno.h>
#include <netinet/in.h>
#include <poll.h>
#include <pthread.h>
#include <stdio.h>
#include <stdlib.h>
#include <string.h>
#include <sys/epoll.h>
#include <sys/resource.h>
#include <sys/socket.h>
#include <time.h>
#include <unistd.h>
#else
typedef __UINT16_TYPE__ uint16_t;
typedef __INT64_TYPE__ int64_t;
typedef long ssize_t;
typedef unsigned int socklen_t;
typedef unsigned long nfds_t;
typedef struct _IO_FILE FILE;

struct in_addr {
    uint32_t s_addr;
};

struct sockaddr {
    unsigned short sa_family;
    char sa_data[14];
};

struct sockaddr_in {
    unsigned short sin_family;
    unsigned short sin_port;
    struct in_addr sin_addr;
    unsigned char sin_zero[8];
};

struct pollfd {
    int fd;
    short events;
    short revents;
};

typedef union {
    void *ptr;
    uint64_t u64;
} epoll_data_t;

struct epoll_event {
    uint32_t events;
    epoll_data_t data;
} __attribute__((packed));

struct timespec {
    long tv_sec;
    long tv_nsec;
};

struct rlimit {
    unsigned long rlim_cur;
    unsigned long rlim_max;
};

typedef unsigned long pthread_t;
typedef union {
    char octets[56];
    long aligned;
} pthread_attr_t;
typedef union {
    char octets[40];
    long aligned;
} pthread_mutex_t;

enum { AF_UNIX = 1, AF_INET = 2, SOCK_STREAM = 1, SOCK_NONBLOCK = 04000, SOCK_CLOEXEC = 02000000, SHUT_WR = 1, SOL_SOCKET = 1 };
enum { SO_REUSEADDR = 2, SO_SNDBUF = 7, SO_RCVBUF = 8 };
enum { MSG_DONTWAIT = 0x40, MSG_NOSIGNAL = 0x4000, POLLIN = 1, POLLOUT = 4 };
enum { EPOLLIN = 1, EPOLLOUT = 4, EPOLL_CTL_ADD = 1, EPOLL_CTL_DEL = 2, EPOLL_CTL_MOD = 3, EPOLL_CLOEXEC = 02000000 };
enum { EINTR = 4, EAGAIN = 11, ENFILE = 23, EMFILE = 24, CLOCK_MONOTONIC = 1, RLIMIT_NOFILE = 7 };
#define PTHREAD_MUTEX_INITIALIZER {{0}}
#define errno (*__errno_location())
#define NULL ((void *)0)
#define UINT32_MAX 0xffffffffu
#define UINT64_MAX 0xffffffffffffffffu
#define SIZE_MAX __SIZE_MAX__

extern FILE *stdout, *stderr;

int *__errno_location(void);
int socket(int domain, int type, int protocol);
int socketpair(int domain, int type, int protocol, int fds[2]);
int bind(int fd, const struct sockaddr *address, socklen_t n);
int listen(int fd, int backlog);
int setsockopt(int fd, int level, int option, const void *value, socklen_t n);
int accept(int fd, struct sockaddr *address, socklen_t *n);
int connect(int fd, const struct sockaddr *address, socklen_t n);
int getsockname(int fd, struct sockaddr *address, socklen_t *n);
ssize_t send(int fd, const void *octets, size_t n, int flags);
ssize_t recv(int fd, void *octets, size_t n, int flags);
int shutdown(int fd, int how);
int poll(struct pollfd *fds, nfds_t n, int timeout);
int epoll_create1(int flags);
int epoll_ctl(int poller, int how, int fd, struct epoll_event *event);
int epoll_wait(int poller, struct epoll_event *events, int most, int timeout);
int clock_gettime(int clock, struct timespec *now);
int getrlimit(int what, struct rlimit *limit);
int setrlimit(int what, const struct rlimit *limit);
int pthread_create(pthread_t *thread, const pthread_attr_t *how, void *(*function)(void *), void *argument);
int pthread_join(pthread_t thread, void **answer);
int pthread_mutex_lock(pthread_mutex_t *lock);
int pthread_mutex_unlock(pthread_mutex_t *lock);
int pipe(int fds[2]);
ssize_t read(int fd, void *octets, size_t n);
ssize_t write(int fd, const void *octets, size_t n);
int close(int fd);
int printf(const char *format, ...);
int fprintf(FILE *stream, const char *format, ...);
int snprintf(char *text, size_t n, const char *format, ...);
int putchar(int character);
int puts(const char *text);
int fputs(const char *text, FILE *stream);
int fflush(FILE *stream);
void perror(const char *text);
void *malloc(size_t n);
void *calloc(size_t count, size_t n);
void *realloc(void *block, size_t n);
void free(void *block);
void exit(int status);
void _exit(int status);
long strtol(const char *text, char **end, int base);
unsigned long strtoul(const char *text, char **end, int base);
unsigned long long strtoull(const char *text, char **end, int base);
void *memcpy(void *to, const void *from, size_t n);
void *memset(void *to, int octet, size_t n);
void *memchr(const void *in, int octet, size_t n);
int memcmp(const void *a, const void *b, size_t n);
size_t strlen(const char *text);
char *strerror(int error);
int strcmp(const char *a, const char *b);
unsigned short htons(unsigned short number);
unsigned short ntohs(unsigned short number);
uint32_t htonl(uint32_t number);
#endif

#endif
