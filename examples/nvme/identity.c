/* The identity of a disk. It is drawn once, and kept with the file: in an attribute, or in a file beside it. A block device has one
 * of its own, and memory draws one at each start. */
#include "target.h"

#include "../c/drawing.h"

#define ATTRIBUTE "user.iwarp.disk"
#define BESIDE ".uuid"

enum { KEPT = 128, LINE = 512, HALF = 8, VERSION_AT = 6, VARIANT_AT = 8, RANDOM = 4, OF_A_NAME = 8 };

/* ---- UUIDs */

static int digit(char it) {
    if (it >= '0' && it <= '9') return it - '0';
    if (it >= 'a' && it <= 'f') return it - 'a' + 10;
    return it >= 'A' && it <= 'F' ? it - 'A' + 10 : -1;
}

/* Whether a `-` stands before this octet of a UUID. */
static int has_dash(int octet) {
    return octet == 4 || octet == 6 || octet == 8 || octet == 10;
}

int uuid_read(const char *text, uint8_t *uuid) {
    int any = 0;
    for (int i = 0; i < UUID_OCTETS; i++, text += 2) {
        if (has_dash(i) && *text++ != '-') return 0;
        int high = digit(text[0]), low = high < 0 ? -1 : digit(text[1]);
        if (low < 0) return 0;
        uuid[i] = (uint8_t)(high << 4 | low);
        any |= uuid[i];
    }
    return *text == 0 && any;
}

static void uuid_write(const uint8_t *uuid, char *text) {
    for (int i = 0; i < UUID_OCTETS; i++) text += sprintf(text, "%s%02x", has_dash(i) ? "-" : "", uuid[i]);
}

/* Marks 16 octets as a UUID of a version (RFC 9562 4). */
static void mark(uint8_t *uuid, int version) {
    uuid[VERSION_AT] = (uint8_t)((uuid[VERSION_AT] & 0x0f) | version << 4);
    uuid[VARIANT_AT] = (uint8_t)((uuid[VARIANT_AT] & 0x3f) | 0x80);
}

static void draw(uint8_t *uuid) {
    for (int i = 0; i < UUID_OCTETS; i += 4) set_field(uuid + i, 4, random_bits());
    mark(uuid, RANDOM);
}

/* The UUID of a name (FNV-1a of 128 bits). */
static void set_from_name(uint8_t *uuid, const char *name) {
    const unsigned __int128 prime = (unsigned __int128)1 << 88 | 0x13b;
    unsigned __int128 sum = (unsigned __int128)0x6c62272e07bb0142 << 64 | 0x62b821756295c58d;
    for (; *name; name++) sum = (sum ^ (uint8_t)*name) * prime;
    set_field(uuid, HALF, (uint64_t)sum);
    set_field(uuid + HALF, HALF, (uint64_t)(sum >> 64));
    mark(uuid, OF_A_NAME);
}

/* ---- a file: what is kept with it */

/* Where the identity of a file is kept, if it has no attribute: a path, or no text. */
static void name_beside(const char *file, char *path, size_t n) {
    char *real = realpath(file, 0);
    if (!real || snprintf(path, n, "%s%s", real, BESIDE) >= (int)n) *path = 0;
    free(real);
}

/* What tells a file from its copy, which may have its attributes: its number, and when it was made, if the file system knows. */
static void describe(int fd, char *text, size_t n) {
    struct statx facts = {0};
    if (statx(fd, "", AT_EMPTY_PATH, STATX_INO | STATX_BTIME, &facts) != 0) facts.stx_mask = 0;
    if (!(facts.stx_mask & STATX_BTIME)) facts.stx_btime = (struct statx_timestamp){0};
    unsigned long long number = facts.stx_ino;
    long long began = facts.stx_btime.tv_sec;
    snprintf(text, n, " %llu %lld.%09u", number, began, facts.stx_btime.tv_nsec);
}

static ssize_t read_beside(const char *path, char *text, size_t n) {
    int fd = *path ? open(path, O_RDONLY | O_CLOEXEC) : -1;
    if (fd < 0) return -1;
    ssize_t got = read(fd, text, n);
    close(fd);
    return got;
}

/* Whether n octets are what is kept of this file. If they are of another, says that it is a copy. */
static int is_kept(const char *file, const char *text, ssize_t n, const char *of_file, uint8_t *uuid) {
    char kept[KEPT] = "", id[UUID_TEXT] = "";
    if (n < UUID_TEXT || n >= KEPT) return 0;
    memcpy(kept, text, (size_t)n);
    memcpy(id, text, UUID_TEXT - 1);
    if (!uuid_read(id, uuid)) return 0;
    if (strcmp(kept + UUID_TEXT - 1, of_file) == 0) return 1;
    complain("%s has the identity of another file: it is taken for a copy, and is a disk of its own (--uuid sets which)", file);
    return 0;
}

static int find_kept(const char *file, int fd, const char *beside, const char *of_file, uint8_t *uuid) {
    char text[KEPT];
    if (is_kept(file, text, fgetxattr(fd, ATTRIBUTE, text, sizeof text), of_file, uuid)) return 1;
    return is_kept(file, text, read_beside(beside, text, sizeof text), of_file, uuid);
}

/* Puts a text into a file of its own, or none. */
static int write_beside(const char *path, const char *text) {
    size_t n = strlen(text);
    int fd = *path ? open(path, O_WRONLY | O_CREAT | O_TRUNC | O_CLOEXEC, 0644) : -1;
    if (fd < 0) return 0;
    int is_written = write(fd, text, n) == (ssize_t)n && fsync(fd) == 0;
    close(fd);
    if (!is_written) unlink(path);
    return is_written;
}

/* A file that is only read stays as it is, its attributes too. */
static int keep(int fd, int read_only, const char *beside, const char *text) {
    if (!read_only && fsetxattr(fd, ATTRIBUTE, text, strlen(text), 0) == 0) return fsync(fd) == 0;
    return write_beside(beside, text);
}

static void set_of_file(uint8_t *uuid, const struct options *options, int fd) {
    char beside[PATH_MAX], text[KEPT] = "";
    char *of_file = text + UUID_TEXT - 1;
    name_beside(options->file, beside, sizeof beside);
    describe(fd, of_file, sizeof text - (UUID_TEXT - 1));
    if (options->has_uuid)
        memcpy(uuid, options->uuid, UUID_OCTETS);
    else if (find_kept(options->file, fd, beside, of_file, uuid))
        return;
    else
        draw(uuid);
    char first = *of_file;
    uuid_write(uuid, text);
    *of_file = first;
    if (!keep(fd, options->read_only, beside, text) && !options->has_uuid)
        complain("%s: no identity can be kept with it: it has another at each start (--uuid sets it)", options->file);
}

/* ---- a block device: what the system says that it is */

/* Reads the first line of a file of the system, without spaces at its ends. Returns whether it says something. */
static int read_line(const char *folder, const char *name, char *line, size_t n) {
    char path[LINE];
    snprintf(path, sizeof path, "%s/%s", folder, name);
    FILE *file = fopen(path, "re");
    if (!file) return 0;
    if (!fgets(line, (int)n, file)) *line = 0;
    fclose(file);
    line[strcspn(line, "\n")] = 0;
    for (size_t end = strlen(line); end > 0 && line[end - 1] == ' '; end--) line[end - 1] = 0;
    return *line != 0;
}

/* A name that the maker or the system drew. Others, such as serial numbers, may be those of a device of another machine. */
static int is_unique(const char *name) {
    static const char *const kinds[] = {"naa.", "eui.", "uuid."};
    for (size_t i = 0; i < sizeof kinds / sizeof *kinds; i++)
        if (strncmp(name, kinds[i], strlen(kinds[i])) == 0) return 1;
    return 0;
}

static int name_disk(const char *folder, char *name, size_t n) {
    if (read_line(folder, "wwid", name, n) && is_unique(name)) return 1;
    if (read_line(folder, "device/wwid", name, n) && is_unique(name)) return 1;
    return read_line(folder, "dm/uuid", name, n) || read_line(folder, "md/uuid", name, n);
}

/* The name of a disk, or of a partition: that of its disk, and which it is. */
static int name_device(dev_t device, char *name, size_t n) {
    char folder[LINE], disk[LINE], part[LINE] = "";
    snprintf(folder, sizeof folder, "/sys/dev/block/%u:%u", major(device), minor(device));
    int is_part = read_line(folder, "partition", part, sizeof part);
    if (is_part) strcat(folder, "/..");
    if (!name_disk(folder, disk, sizeof disk)) return 0;
    snprintf(name, n, "%s partition %s", disk, part);
    return 1;
}

static void set_of_device(uint8_t *uuid, const struct options *options, dev_t device) {
    char name[3 * LINE];
    if (name_device(device, name, sizeof name)) {
        set_from_name(uuid, name);
    } else {
        draw(uuid);
        complain("%s: the system knows no identity of it: it has another at each start (--uuid sets it)", options->file);
    }
}

/* ---- all of it */

void identity_find(struct identity *identity, const struct options *options, int fd) {
    struct stat facts;
    char text[UUID_TEXT];
    int is_file = fd >= 0 && fstat(fd, &facts) == 0;
    if (is_file && S_ISREG(facts.st_mode))
        set_of_file(identity->uuid, options, fd);
    else if (options->has_uuid)
        memcpy(identity->uuid, options->uuid, UUID_OCTETS);
    else if (is_file)
        set_of_device(identity->uuid, options, facts.st_rdev);
    else
        draw(identity->uuid);
    uuid_write(identity->uuid, text);
    snprintf(identity->nqn, sizeof identity->nqn, "%s%s", options->nqn ? options->nqn : UUID_NQN, options->nqn ? "" : text);
    for (int i = 0; i < SN_OCTETS / 2; i++) sprintf(identity->serial + 2 * i, "%02x", identity->uuid[i]);
    if (options->serial) snprintf(identity->serial, sizeof identity->serial, "%.*s", SN_OCTETS, options->serial);
}
