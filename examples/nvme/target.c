/* The target's options. `target --help` tells them. */
#include "target.h"

enum { MOST_RAM_MIB = 1 << 20, MOST_MEMORY_MIB = 1 << 20, MOST_SECONDS = 86400, OTHER_FILES = 128, FILES = MOST_QUEUES + OTHER_FILES };

static const char help[] =
    " [OPTION VALUE].. [FLAG]..\n"
    "\n"
    "  --file PATH      the disk: a file or block device, of which whole blocks of 512 octets are used\n"
    "  --read-only      the file is not written, and hosts are told so\n"
    "  --ram MIB        the disk: memory (the default, 64)\n"
    "  --address A      the IPv4 address to listen at (127.0.0.1)\n"
    "  --port N         the port; 0: any that is free, which the first line tells (4420)\n"
    "  --uuid UUID      which disk it is: two of one UUID are one to hosts (drawn once, and kept with the file)\n"
    "  --nqn NAME       the subsystem's name, at most 223 octets (nqn.2014-08.org.nvmexpress:uuid: and the UUID)\n"
    "  --serial TEXT    its serial number (20 digits of the UUID)\n"
    "  --allow NQN      a host that may connect, by the name that it gives, which is not proved; up to 256 times (each host may)\n"
    "  --tell A         the address that discovery tells (the one that the host has reached)\n"
    "  --mulpdu N       octets of an FPDU's payload, 128 to 64512 (as TCP's segments have)\n"
    "  --loops N        threads that serve connections, at most 16 (one for each processor)\n"
    "  --workers N      threads that read and write the file (4)\n"
    "  --most-memory N  MiB for all connections, 6 for each: no more are taken than fit (as many as there can be)\n"
    "  --start SECONDS  a connection has this long to get as far as Connect (10)\n"
    "  --stall SECONDS  a host has this long to take what is sent to it (30)\n"
    "  --crc            use CRCs\n"
    "  --verbose        a line for each host and queue, and for what ends them\n"
    "\n"
    "It takes hosts of 255 addresses at once, and 255 hosts, each with at most 7 I/O queues of depth 128. A connection takes at most\n"
    "6 MiB: 4 for its commands' data, 1 for capsules, and 1 for the library.\n";

static const char *program = "target";

static int fail(const char *what, const char *word) {
    fprintf(stderr, "%s: %s: %s (--help tells the options)\n", program, word, what);
    return 2;
}

/* A number of at most `most`. */
static int read_number(const char *text, uint64_t most, uint64_t *number) {
    char *end;
    if (!text || *text < '0' || *text > '9') return 0;
    *number = strtoull(text, &end, 10);
    return *end == 0 && *number <= most;
}

static int read_unsigned(const char *text, unsigned most, unsigned *number) {
    uint64_t read;
    if (!read_number(text, most, &read)) return 0;
    *number = (unsigned)read;
    return 1;
}

static int read_seconds(const char *text, uint64_t *ms) {
    if (!read_number(text, MOST_SECONDS, ms) || *ms == 0) return 0;
    *ms *= 1000;
    return 1;
}

static int read_text(const char *text, const char **to) {
    *to = text;
    return text && *text;
}

/* A name as NVMe has them (NQN). */
static int read_name(const char *text, const char **name) {
    return read_text(text, name) && strlen(text) <= MOST_NQN;
}

static int allow(struct options *options, const char *name) {
    if (options->allowed_count == MOST_ALLOWED) return 0;
    return read_name(name, &options->allowed[options->allowed_count++]);
}

static int read_uuid(struct options *options, const char *text) {
    options->has_uuid = text && uuid_read(text, options->uuid);
    return options->has_uuid;
}

/* So many MiB are for connections. */
static int read_memory(const char *text, unsigned *most_queues) {
    unsigned mib;
    if (!read_unsigned(text, MOST_MEMORY_MIB, &mib)) return 0;
    *most_queues = mib / QUEUE_MIB;
    return *most_queues > 0;
}

/* Takes an option and its value. Returns whether both are right. */
static int take(struct options *options, const char *word, const char *value) {
    if (strcmp(word, "--file") == 0) return read_text(value, &options->file);
    if (strcmp(word, "--ram") == 0) return read_number(value, MOST_RAM_MIB, &options->ram_mib) && options->ram_mib > 0;
    if (strcmp(word, "--address") == 0) return read_text(value, &options->address);
    if (strcmp(word, "--port") == 0) return read_unsigned(value, 65535, &options->port);
    if (strcmp(word, "--uuid") == 0) return read_uuid(options, value);
    if (strcmp(word, "--nqn") == 0) return read_name(value, &options->nqn);
    if (strcmp(word, "--serial") == 0) return read_text(value, &options->serial);
    if (strcmp(word, "--allow") == 0) return allow(options, value);
    if (strcmp(word, "--tell") == 0) return read_text(value, &options->told_address);
    if (strcmp(word, "--mulpdu") == 0) return read_unsigned(value, MOST_MULPDU, &options->mulpdu) && options->mulpdu >= LEAST_MULPDU;
    if (strcmp(word, "--loops") == 0) return read_unsigned(value, MOST_LOOPS, &options->loops) && options->loops > 0;
    if (strcmp(word, "--workers") == 0) return read_unsigned(value, MOST_WORKERS, &options->workers) && options->workers > 0;
    if (strcmp(word, "--most-memory") == 0) return read_memory(value, &options->most_queues);
    if (strcmp(word, "--start") == 0) return read_seconds(value, &options->start_ms);
    if (strcmp(word, "--stall") == 0) return read_seconds(value, &options->stall_ms);
    return 0;
}

/* A connection is an open file, and there may be more of them than a process has by default. */
static void allow_files(void) {
    struct rlimit files;
    if (getrlimit(RLIMIT_NOFILE, &files) != 0 || files.rlim_cur >= FILES) return;
    files.rlim_cur = files.rlim_max < FILES ? files.rlim_max : FILES;
    setrlimit(RLIMIT_NOFILE, &files);
}

static unsigned processors(void) {
    cpu_set_t set;
    unsigned count = sched_getaffinity(0, sizeof set, &set) == 0 ? (unsigned)CPU_COUNT(&set) : 1;
    return count < MOST_LOOPS ? count : MOST_LOOPS;
}

static struct target target;

/* A first SIGTERM or SIGINT has the target end in good order, a second ends it at once. */
static void stop(int number) {
    int error = errno;
    signal(number, SIG_DFL);
    target_end(&target);
    errno = error;
}

static void name_program(const char *word) {
    for (program = word; *word; word++)
        if (word[0] == '/') program = word + 1;
}

int main(int n, char **words) {
    struct options options = {.address = "127.0.0.1", .ram_mib = 64, .port = 4420, .workers = 4, .loops = processors(),
        .start_ms = 10000, .stall_ms = 30000};
    if (n > 0) name_program(words[0]);
    for (int i = 1; i < n; i++) {
        if (strcmp(words[i], "--help") == 0) {
            printf("A disk for NVMe over RDMA hosts: %s%s", program, help);
            return 0;
        }
        if (strcmp(words[i], "--crc") == 0)
            options.options |= IWARP_CRC;
        else if (strcmp(words[i], "--verbose") == 0)
            options.verbose = 1;
        else if (strcmp(words[i], "--read-only") == 0)
            options.read_only = 1;
        else if (!take(&options, words[i], i + 1 < n ? words[i + 1] : 0))
            return fail("no such option, or a wrong value", words[i]);
        else
            i++;
    }
    if (options.read_only && !options.file) return fail("only of a --file", "--read-only");
    keep_memory();
    signal(SIGPIPE, SIG_IGN);
    signal(SIGXFSZ, SIG_IGN); /* a file that cannot grow fails the command */
    allow_files();
    if (!target_open(&target, &options) || !target_begin(&target) || !target_listen(&target)) return 1;
    printf("port %u\n%llu blocks of %d octets, %s\n", target.port, (unsigned long long)target.store.blocks, LBA_OCTETS,
        target.identity.nqn);
    fflush(stdout);
    signal(SIGTERM, stop);
    signal(SIGINT, stop);
    target_run(&target);
    return target_close(&target) && !target.is_broken ? 0 : 1;
}
