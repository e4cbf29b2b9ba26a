/* What the environment says: IWARP_VERBS_*. A word that is wrong is told in a line on stderr, and passed over. */
#include "calls.h"

#include <arpa/inet.h>

extern char **environ;

struct word {
    const char *name;
    int *value;
    int least, most;
};

/* The value of a variable that is a number, or has none. */
static void read_number(const struct word *word, const char *text) {
    char *end;
    errno = 0;
    long n = *text ? strtol(text, &end, 10) : 1;
    if ((*text && *end) || errno || n < word->least || n > word->most)
        fprintf(stderr, "iwarp-verbs: %s is a number from %d to %d, not '%s'\n", word->name, word->least, word->most, text);
    else
        *word->value = (int)n;
}

static int read_text(struct settings *settings, const char *name, const char *text) {
    if (!strcmp(name, "IWARP_VERBS_AS")) {
        settings->as_roce = !strcmp(text, "roce");
        if (!settings->as_roce && strcmp(text, "iwarp"))
            fprintf(stderr, "iwarp-verbs: IWARP_VERBS_AS is iwarp or roce, not '%s'\n", text);
        return 1;
    }
    if (strcmp(name, "IWARP_VERBS_ADDR")) return 0;
    if (inet_pton(AF_INET, text, &settings->address) != 1)
        fprintf(stderr, "iwarp-verbs: IWARP_VERBS_ADDR is an IPv4 address, not '%s'\n", text);
    return 1;
}

static void read_variable(struct settings *settings, const char *name, const char *text) {
    const struct word words[] = {
        {"IWARP_VERBS_LOG", &settings->log, 0, 1},
        {"IWARP_VERBS_CRC", &settings->crc, 0, 1},
        {"IWARP_VERBS_P2P", &settings->peer_to_peer, 0, 1},
        {"IWARP_VERBS_PAUSE", &settings->pause_ms, 0, 10000},
        {"IWARP_VERBS_MULPDU", &settings->mulpdu, 128, MOST_MULPDU},
        {"IWARP_VERBS_THREADS", &settings->threads, 1, MOST_THREADS},
    };
    if (read_text(settings, name, text)) return;
    for (size_t i = 0; i < sizeof words / sizeof *words; i++) {
        if (strcmp(words[i].name, name)) continue;
        read_number(&words[i], text);
        return;
    }
    fprintf(stderr, "iwarp-verbs: there is no variable %s\n", name);
}

void settings_read(struct settings *settings) {
    long processors = sysconf(_SC_NPROCESSORS_ONLN);
    *settings = (struct settings){.peer_to_peer = 1, .threads = processors < 1 ? 1 : processors > 4 ? 4 : (int)processors};
    settings->address.s_addr = htonl(INADDR_LOOPBACK);
    for (char **at = environ; at && *at; at++) {
        char name[64];
        const char *equals = strchr(*at, '=');
        if (!equals || strncmp(*at, "IWARP_VERBS_", 12)) continue;
        size_t n = (size_t)(equals - *at);
        snprintf(name, sizeof name, "%.*s", (int)(n < sizeof name ? n : sizeof name - 1), *at);
        read_variable(settings, name, equals + 1);
    }
}
