/*
 * Terminal 7's login service. Its volume is in a file, and it reads an event a line: "in READER", "out" or "who". A session
 * file is made when a key goes in and deleted when it comes out. Whenever the service is killed, the file holds a whole volume,
 * and whoever was signed in then is signed out before it serves again. A volume has one service at a time.
 * Build: cc -o login login.c $(pkg-config --cflags --libs sfs)
 * Run:   login VOLUME < EVENTS
 */
#define _POSIX_C_SOURCE 200809L
#include <sfs.h>

#include <errno.h>
#include <fcntl.h>
#include <libgen.h>
#include <stdbool.h>
#include <stdio.h>
#include <stdlib.h>
#include <string.h>
#include <time.h>
#include <unistd.h>

#define VOLUME_BYTES 65536
#define READER_MAX 64u
#define PATH_ROOM 4096

static const uint8_t session[] = "session", verified[] = "session/verified";

static uint8_t volume[VOLUME_BYTES]; /* between events, what its file holds */
static const char *path;             /* of that file */
static char fresh[PATH_ROOM];        /* the path of the new file that takes its place */
static int directory;                /* the directory of both */

/* 1/65536 seconds since 1970. */
static int64_t now(void) {
    return (int64_t)time(NULL) * 65536;
}

static void stop(const char *what, const char *why) {
    fprintf(stderr, "login: %s: %s\n", what, why);
    exit(1);
}

static void find_places(const char *given) {
    char parent[PATH_ROOM];
    path = given;
    if (snprintf(fresh, sizeof fresh, "%s.new", given) >= PATH_ROOM)
        stop(given, "the path is too long");
    directory = open(dirname(strcpy(parent, given)), O_RDONLY);
    if (directory < 0)
        stop(given, strerror(errno));
}

/* False where there is no file yet. What else cannot be read stops the service, so that nothing is written over it. */
static bool load(void) {
    FILE *file = fopen(path, "rb");
    if (file == NULL && errno == ENOENT)
        return false;
    if (file == NULL)
        stop(path, strerror(errno));
    if (fread(volume, 1, sizeof volume, file) != sizeof volume || fgetc(file) != EOF)
        stop(path, "not a file of the volume's length");
    fclose(file);
    return true;
}

/* The new file takes the old one's name once it is whole on the disk, so that the name always leads to a whole volume. */
static bool save(void) {
    FILE *file = fopen(fresh, "wb");
    bool written = file != NULL && fwrite(volume, 1, sizeof volume, file) == sizeof volume && fflush(file) == 0 &&
                   fsync(fileno(file)) == 0;
    if (file != NULL && fclose(file) != 0)
        written = false;
    return written && rename(fresh, path) == 0 && fsync(directory) == 0;
}

/* The reader's name is the session file's content. */
static uint32_t sign_in(const char *reader, size_t length) {
    return sfs_create_file(volume, sizeof volume, verified, sizeof verified - 1, (const uint8_t *)reader, length, now());
}

static uint32_t sign_out(void) {
    return sfs_delete(volume, sizeof volume, verified, sizeof verified - 1, now());
}

/* A reader is signed in when the file says so. Where the write-back failed, what the file has now is what holds. */
static void key_in(const char *reader) {
    size_t length = strlen(reader);
    uint32_t refusal = SFS_OK;
    if (length == 0 || length > READER_MAX)
        printf("in: a reader's name has 1 to %u bytes\n", READER_MAX);
    else if ((refusal = sign_in(reader, length)) != SFS_OK)
        printf("in: refused %u\n", refusal);
    else if (!save()) {
        printf("in: write-back failed: %s\n", strerror(errno));
        if (!load())
            stop(path, "is gone");
    }
}

/* A key that is out is out. Where the file does not say so, nothing more is served: the next start closes the session first. */
static void key_out(void) {
    uint32_t refusal = sign_out();
    if (refusal != SFS_OK)
        printf("out: refused %u\n", refusal);
    else if (!save())
        stop("out: write-back failed", strerror(errno));
}

static void who(void) {
    uint8_t name[READER_MAX];
    struct sfs_content found = sfs_read(volume, sizeof volume, verified, sizeof verified - 1, name, sizeof name);
    if (found.refusal == SFS_OK)
        printf("signed in: %.*s\n", (int)found.length, (const char *)name);
    else if (found.refusal == SFS_NOT_FOUND)
        printf("nobody is signed in\n");
    else
        printf("who: refused %u\n", found.refusal);
}

/* In edition 1.10 what a session held is free at once when it is deleted: the volume does not fill up. */
static uint32_t make_volume(void) {
    static const uint8_t name[] = "TERM7";
    uint32_t refusal = sfs_format(volume, sizeof volume, SFS_VERSION_1_10, 512, 1, name, sizeof name - 1, now());
    return refusal != SFS_OK ? refusal : sfs_create_directory(volume, sizeof volume, session, sizeof session - 1, now());
}

/* Nobody sees a key come out while the service is down: a session that is found was open when it died, and is closed first. */
static void start(void) {
    uint32_t refusal = load() ? sign_out() : make_volume();
    if (refusal == SFS_NOT_FOUND)
        return;
    if (refusal != SFS_OK) {
        fprintf(stderr, "login: %s: refused %u\n", path, refusal);
        exit(1);
    }
    if (!save())
        stop(path, strerror(errno));
}

static void serve(const char *event) {
    if (strncmp(event, "in ", 3) == 0)
        key_in(event + 3);
    else if (strcmp(event, "out") == 0)
        key_out();
    else if (strcmp(event, "who") != 0)
        printf("no event: %s\n", event);
    who();
}

int main(int argc, char **argv) {
    char *line = NULL;
    size_t room = 0;
    ssize_t length;
    if (argc != 2)
        stop("usage", "login VOLUME < EVENTS");
    setvbuf(stdout, NULL, _IOLBF, 0);
    find_places(argv[1]);
    start();
    /* A line without its end, or with a zero in it, is no event: half of a reader's name is another reader's. */
    while ((length = getline(&line, &room, stdin)) > 0 && line[length - 1] == '\n') {
        line[length - 1] = '\0';
        serve(strlen(line) == (size_t)length - 1 ? line : "a line with a zero in it");
    }
    free(line);
    return 0;
}
