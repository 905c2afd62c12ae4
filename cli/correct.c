/* cli/correct.c: the commands that correct a page: store, remove, replay, squeeze. The file is locked; the page is corrected in a buffer,
   written to a copy beside the file, and the copy takes the file's name. A symbolic link is followed: it stays, and the file that it names
   is replaced. */
#define _DEFAULT_SOURCE
#define _XOPEN_SOURCE 700
#include <errno.h>
#include <fcntl.h>
#include <signal.h>
#include <stdio.h>
#include <stdlib.h>
#include <string.h>
#include <sys/file.h>
#include <sys/stat.h>
#include <time.h>
#include <unistd.h>
#include "cli.h"

/* The most bytes of a tile and one more, so that more are refused too; the most tiles. */
enum { MOST_CELLS = 1048576 + 1, MOST_TILES = 65536 };

/* Beside an exit status: another correction has the file. */
enum { TAKEN = -1 };

/* The file behind FILE: its name without symbolic links, and what it was when it was locked. */
struct original {
    char *path;
    int stream;
    struct stat was;
};
static const struct original NONE = {NULL, -1, {0}};

static int why(const char *name) {
    return failed("%s: %s", name, strerror(errno));
}

/* Milliseconds of a clock. */
static uint64_t milliseconds(clockid_t clock) {
    struct timespec now = {0, 0};
    clock_gettime(clock, &now);
    return (uint64_t)now.tv_sec * 1000 + (uint64_t)now.tv_nsec / 1000000;
}

static int may_be_replaced(const struct stat *is) {
    if (!S_ISREG(is->st_mode))
        return failed("%s: not a file that can be replaced", page.name);
    if ((is->st_mode & 0222) == 0)
        return failed("%s: no one may write to it", page.name);
    if (is->st_nlink > 1)
        return failed("%s: it has another name, a hard link, which would keep the old page", page.name);
    return DONE;
}

/* Whether the path still names the file that was locked, and no one has written to it. A file without a name has been replaced, also
   where the folder is on another machine and this one does not know of it yet. */
static int is_unchanged(const struct original *o) {
    struct stat is;
    return o->was.st_nlink > 0 && stat(o->path, &is) == 0 && is.st_dev == o->was.st_dev && is.st_ino == o->was.st_ino
        && is.st_size == o->was.st_size && is.st_mtim.tv_sec == o->was.st_mtim.tv_sec && is.st_mtim.tv_nsec == o->was.st_mtim.tv_nsec;
}

/* Opens the file and locks it: DONE, FAILED, or TAKEN where another correction has the lock, or has replaced the file before the lock
   was had. The file is open for writing, without which a lock over a network fails; nothing is written to it. */
static int lock_original(struct original *o) {
    o->path = realpath(page.name, NULL);
    if (o->path == NULL || stat(o->path, &o->was) != 0)
        return why(page.name);
    if (may_be_replaced(&o->was) != DONE)
        return FAILED;
    o->stream = open(o->path, O_RDWR | O_CLOEXEC);
    if (o->stream < 0)
        return why(page.name);
    if (flock(o->stream, LOCK_EX | LOCK_NB) != 0)
        return errno == EWOULDBLOCK ? TAKEN : failed("%s: it cannot be locked: %s", page.name, strerror(errno));
    if (fstat(o->stream, &o->was) != 0)
        return why(page.name);
    return is_unchanged(o) ? may_be_replaced(&o->was) : TAKEN;
}

static void close_original(struct original *o) {
    free(o->path);
    if (o->stream >= 0)
        close(o->stream);
    *o = NONE;
}

/* Locks the file, waiting for other corrections up to so many seconds, and reads it. Each try opens it anew, since a correction
   replaces it. */
static int open_original(const char *name, uint64_t wait, struct original *o) {
    static const struct timespec PAUSE = {0, 10000000};
    uint64_t end = milliseconds(CLOCK_MONOTONIC) + 1000 * wait;
    page.name = name;
    if (strcmp(name, "-") == 0)
        return failed("-: standard input cannot be corrected; a file of that name is ./-");
    int status = lock_original(o);
    while (status == TAKEN && milliseconds(CLOCK_MONOTONIC) < end) {
        close_original(o);
        nanosleep(&PAUSE, NULL);
        status = lock_original(o);
    }
    if (status == TAKEN && wait == 0)
        return failed("%s: another correction of it is under way; --wait SECONDS waits for it", name);
    if (status == TAKEN)
        return failed("%s: another correction of it is still under way after %" PRIu64 " s", name, wait);
    return status == DONE ? read_stream(o->stream, name, page.bytes, sizeof page.bytes, &page.n) : status;
}

/* The owner comes before the mode, of which a change of owner may take bits away. */
static int keep_owner_and_mode(int copy, const struct stat *was) {
    struct stat is;
    if (fstat(copy, &is) != 0)
        return -1;
    if ((is.st_uid != was->st_uid || is.st_gid != was->st_gid) && fchown(copy, was->st_uid, was->st_gid) != 0)
        return -1;
    return fchmod(copy, was->st_mode & 07777);
}

/* The copy takes the file's name, unless the file was changed meanwhile. */
static int rename_copy(const char *name, const struct original *o) {
    if (!is_unchanged(o))
        return failed("%s: it was changed meanwhile, and is left as it is", page.name);
    return rename(name, o->path) == 0 ? DONE : why(page.name);
}

static int replace_by(char *name, const struct original *o) {
    int copy = mkstemp(name);
    if (copy < 0)
        return failed("%s: no copy can be made beside it: %s", page.name, strerror(errno));
    int status = DONE;
    if (keep_owner_and_mode(copy, &o->was) != 0)
        status = failed("%s: its copy cannot have its owner and group: %s", page.name, strerror(errno));
    else if (write_bytes(copy, page.bytes, page.n) != 0 || fsync(copy) != 0)
        status = failed("%s: its copy cannot be written: %s", page.name, strerror(errno));
    close(copy);
    if (status == DONE)
        status = rename_copy(name, o);
    if (status != DONE)
        unlink(name);
    return status;
}

/* An interruption waits until no copy is left behind; a file that would be too long for the system is a failure to write. Where the new
   name may not be on the disk yet the page stands in any case. */
static int replace(const struct original *o) {
    sigset_t signals, before;
    char *name = beside(o->path);
    if (name == NULL)
        return why(page.name);
    sigfillset(&signals);
    sigprocmask(SIG_BLOCK, &signals, &before);
    signal(SIGXFSZ, SIG_IGN);
    int status = replace_by(name, o);
    if (status == DONE && settle(folder_of(name)) != 0)
        status = failed("%s: replaced, but perhaps not on the disk yet: %s", page.name, strerror(errno));
    free(name);
    sigprocmask(SIG_SETMASK, &before, NULL);
    return status;
}

/* The longest log: a length of four bytes, and as many as it can state. */
static const uint64_t LONGEST_LOG = 4 + (uint64_t)UINT32_MAX;

/* A start for each record that a page may have; none is shorter than 16 bytes. */
static uint64_t plan[LONGEST / 16];

/* Closes the open page in its buffer, *n bytes long, squeezed before where that is asked for: the number that the calls give. *n is its
   new length, or the refusal's place. */
static uint32_t close_page(uint64_t *n, uint64_t time, int squeeze) {
    uint64_t out[2];
    if (squeeze) {
        uint32_t number = gvrs_tight_plan(page.bytes, LONGEST, *n, plan, LONGEST / 16, out, 2);
        if (number == GVRS_ACCEPTED)
            number = gvrs_squeeze(page.bytes, LONGEST, *n, plan, out[1], out, 1);
        *n = out[0];
        if (number != GVRS_ACCEPTED)
            return number;
    }
    return gvrs_close_page(page.bytes, LONGEST, *n, time, n, 1);
}

/* The page is at the ceiling, which is the buffer's length. */
static int refused_growth(uint64_t place, const char *behind) {
    char note[200];
    snprintf(note, sizeof note, "it would have more than %d bytes%s", LONGEST, behind);
    return refused_in_words(GVRS_ROOM, place, "the page cannot grow", note);
}

/* A tile stored or removed in the open page in its buffer, n bytes long: the number that the call gives, and the page's new length or the
   refusal's place. */
static uint32_t change_tile(const struct change *c, uint64_t n, uint64_t *out) {
    return c->cells == NULL ? gvrs_remove_tile(page.bytes, LONGEST, n, c->tile, out, 1)
                            : gvrs_store_tile(page.bytes, LONGEST, n, c->tile, c->cells, c->cells_n, out, 1);
}

static uint8_t *put_big(uint8_t *at, uint64_t number) {
    for (int i = 3; i >= 0; i--)
        *at++ = (uint8_t)(number >> 8 * i);
    return at;
}

/* Stores as a correction log, in memory to be freed; NULL where there is none for it. */
static uint8_t *log_of(const struct change *changes, uint64_t count, uint64_t *n) {
    *n = 5;
    for (uint64_t i = 0; i < count; i++)
        *n += 5 + changes[i].cells_n;
    uint8_t *log = *n > UINT32_MAX ? NULL : malloc(*n), *at = log;
    if (log == NULL)
        return NULL;
    at = put_big(at, *n - 4);
    *at++ = 1;
    for (uint64_t i = 0; i < count; i++) {
        *at++ = 1;
        at = put_big(at, changes[i].tile);
        memcpy(at, changes[i].cells, changes[i].cells_n);
        at += changes[i].cells_n;
    }
    return log;
}

/* The same for several stores: those that a log cannot say are asked for alone, and are refused; the others are replayed as one log, which
   costs one check of the page. *refused is the change that a refusal is of, NULL where it is of all. `is` is what the page is. */
static uint32_t change_tiles(const struct change *changes, uint64_t count, const uint64_t *is, uint64_t *n, const struct change **refused) {
    uint64_t out[2] = {0, 0}, log_n;
    uint32_t number = GVRS_ACCEPTED;
    for (*refused = changes; *refused < changes + count; ++*refused)
        if (count == 1 || (*refused)->cells_n != is[7] || (*refused)->tile >= is[4] * is[5]) {
            number = change_tile(*refused, *n, out);
            *n = out[0];
            return number;
        }
    *refused = NULL;
    uint8_t *log = log_of(changes, count, &log_n);
    number = log == NULL ? GVRS_ROOM : gvrs_replay(page.bytes, LONGEST, *n, log, log_n, out, 2);
    free(log);
    *n = number == GVRS_ACCEPTED ? out[0] : 0;
    return number;
}

/* Says what is wrong with the input, or that the page is at the ceiling. `is` is what the page was, by gvrs_page. */
static int refused_change(uint32_t number, uint64_t place, const struct change *c, uint64_t count, uint64_t time, const uint64_t *is) {
    char note[100], which[40] = "";
    if (count > 1 && c != NULL)
        snprintf(which, sizeof which, "tile %" PRIu64 ": ", c->tile);
    if (number == GVRS_ROOM)
        return refused_growth(place, "");
    if (number == GVRS_OUTSIDE)
        snprintf(note, sizeof note, "%sthere are tiles 0 to %" PRIu64, which, is[4] * is[5] - 1);
    else if (number == GVRS_INPUT && time == 0)
        snprintf(note, sizeof note, "the time is 0");
    else if (number == GVRS_INPUT && c != NULL && c->cells_n != is[7])
        snprintf(note, sizeof note, "%sCELLS has %s%" PRIu64 " bytes, a tile of this page %" PRIu64, which,
                 c->cells_n == MOST_CELLS ? "at least " : "", c->cells_n, is[7]);
    else
        return refused(number, place, NULL);
    return refused(number, place, note);
}

/* Corrects the page in its buffer, which is as long as a file may be, and replaces the file by it. A tile that is not there is removed
   without a change: the file stays, its time too, unless the page is squeezed. */
static int correct_original(const struct request *request, const struct original *o, uint64_t time, struct change *changes, uint64_t count) {
    uint64_t is[13], out[2], n, was = page.n;
    const struct change *wrong = changes;
    uint32_t number = gvrs_page(page.bytes, page.n, is, 13);
    if (number != GVRS_ACCEPTED)
        return refused(number, is[0], NULL);
    uint32_t kind = gvrs_content(page.bytes, page.n, changes[0].tile, 0, out, 2);
    if (changes[0].text != NULL && kind != GVRS_OUTSIDE && pack_text(&changes[0], is) != DONE)
        return FAILED;
    int stores = changes[0].cells != NULL, changed = request->squeeze || stores || kind != GVRS_FILL;
    number = gvrs_open_page(page.bytes, LONGEST, page.n, time, &n, 1);
    if (number == GVRS_ACCEPTED)
        number = change_tiles(changes, count, is, &n, &wrong);
    if (number == GVRS_ACCEPTED)
        number = close_page(&n, time, request->squeeze);
    if (number != GVRS_ACCEPTED)
        return refused_change(number, n, wrong, count, time, is);
    page.n = n;
    int status = changed ? replace(o) : DONE;
    if (status == DONE && count > 1)
        printf("%" PRIu64 " tiles stored, file of %" PRIu64 " bytes\n", count, n);
    else if (status == DONE)
        printf("tile %" PRIu64 " %s, file of %" PRIu64 " bytes\n", changes[0].tile, stores ? "stored" : "not stored", changed ? n : was);
    return status;
}

/* The clock is read once the file is locked, so that a correction is never earlier than the one that it waited for. */
int change(const struct request *request, struct change *changes, uint64_t count) {
    struct original o = NONE;
    int status = open_original(request->words[0], request->wait, &o);
    if (status == DONE)
        status = correct_original(request, &o, request->has_time ? request->time : milliseconds(CLOCK_REALTIME), changes, count);
    close_original(&o);
    return status;
}

int run_remove(const struct request *request) {
    struct change c = {0};
    return number_given("INDEX", request->words[1], UINT64_MAX, &c.tile) == DONE ? change(request, &c, 1) : FAILED;
}

/* The file of a tile's bytes. */
static int read_cells(const char *name, struct change *c) {
    uint8_t *fitting;
    c->cells = malloc(MOST_CELLS);
    if (c->cells == NULL)
        return failed("%s: %s", name, strerror(errno));
    if (read_file(name, c->cells, MOST_CELLS, &c->cells_n) != DONE)
        return FAILED;
    if ((fitting = realloc(c->cells, c->cells_n + 1)) != NULL)
        c->cells = fitting;
    return DONE;
}

/* INDEX=CELLS, of a tile that is not given yet. */
static int change_given(char *word, struct change *c) {
    static uint8_t given[MOST_TILES];
    char *cells = strchr(word, '=');
    if (cells == NULL)
        return failed("'%s' is not INDEX=CELLS; `gvrs store --help` says how tiles are given", word);
    *cells++ = '\0';
    if (number_given("INDEX", word, UINT64_MAX, &c->tile) != DONE)
        return FAILED;
    if (c->tile < MOST_TILES && given[c->tile]++)
        return failed("tile %" PRIu64 " is given twice", c->tile);
    return read_cells(cells, c);
}

/* FILE INDEX CELLS, or FILE and any number of INDEX=CELLS. */
int run_store(const struct request *request) {
    char **words = request->words + 1;
    uint64_t count = (uint64_t)request->count - 1;
    int several = strchr(words[0], '=') != NULL, status = DONE;
    struct change *changes = calloc(count, sizeof *changes);
    if (changes == NULL)
        return failed("%s", strerror(errno));
    for (uint64_t i = 0; several && i < count && status == DONE; i++)
        status = change_given(words[i], &changes[i]);
    if (!several)
        count = 1, status = number_given("INDEX", words[0], UINT64_MAX, &changes[0].tile) == DONE ? read_cells(words[1], changes) : FAILED;
    if (status == DONE)
        status = change(request, changes, count);
    for (uint64_t i = 0; i < count; i++)
        free(changes[i].cells);
    free(changes);
    return status;
}

/* The entries of a log that is right, of tiles with so many bytes. */
static uint64_t entries_in(const uint8_t *log, uint64_t n, uint64_t tile) {
    uint64_t count = 0;
    for (uint64_t at = 5; at < n; at += 5 + (log[at] == 1 ? tile : 0))
        count++;
    return count;
}

/* Closes the page in its buffer, n bytes long, squeezed before where that is asked for, and replaces the file by it. */
static int close_and_replace(const struct original *o, uint64_t n, uint64_t time, int squeeze) {
    uint32_t number = close_page(&n, time, squeeze);
    if (number == GVRS_ROOM)
        return refused_growth(n, ": the list of free records has no room");
    if (number != GVRS_ACCEPTED)
        return refused(number, n, NULL);
    page.n = n;
    return replace(o);
}

/* Says where the log stops, by what gvrs_replay gives. */
static int stopped(const struct request *request, const uint64_t *out, uint64_t all) {
    char behind[150];
    int written = request->partial && out[1] > 0;
    snprintf(behind, sizeof behind, "; %" PRIu64 " of %" PRIu64 " entries done, %" PRIu64 " left; %s", out[1], all, all - out[1],
             written ? "those done are written" : "the file is left as it is");
    return refused_growth(0, behind);
}

/* Opens the page in its buffer: DONE and its new length, or the refusal, which is said. */
static int open_in_buffer(uint64_t time, uint64_t *n) {
    uint32_t number = gvrs_open_page(page.bytes, LONGEST, page.n, time, n, 1);
    if (number == GVRS_ACCEPTED)
        return DONE;
    return number == GVRS_ROOM ? refused_growth(*n, "") : refused(number, *n, number == GVRS_INPUT ? "the time is 0" : NULL);
}

/* A log without an entry changes nothing: the file stays, its time too, unless the page is squeezed. */
static int replay_original(const struct request *request, const struct original *o, uint64_t time, const uint8_t *log, uint64_t log_n) {
    uint64_t is[13], out[2], n = page.n;
    uint32_t number = gvrs_page(page.bytes, page.n, is, 13);
    if (number != GVRS_ACCEPTED)
        return refused(number, is[0], NULL);
    if (open_in_buffer(time, out) != DONE)
        return REFUSED;
    number = gvrs_replay(page.bytes, LONGEST, out[0], log, log_n, out, 2);
    if (number == GVRS_INPUT)
        return refused(number, out[0], "LOG is no correction log of this page, or names a tile that the page has not");
    int status = DONE;
    uint64_t all = entries_in(log, log_n, is[7]);
    if (number != GVRS_ACCEPTED)
        status = stopped(request, out, all);
    if (status != DONE && !request->partial)
        return status;
    int changes = out[1] > 0 || (request->squeeze && status == DONE);
    int written = changes ? close_and_replace(o, out[0], time, request->squeeze) : DONE;
    if (written != DONE)
        return written;
    printf("%" PRIu64 " of %" PRIu64 " entries done, file of %" PRIu64 " bytes\n", out[1], all, changes ? page.n : n);
    return status;
}

int run_replay(const struct request *request) {
    struct original o = NONE;
    uint64_t log_n;
    uint8_t *log = read_long(request->words[1], LONGEST_LOG, &log_n);
    if (log == NULL)
        return FAILED;
    int status = open_original(request->words[0], request->wait, &o);
    if (status == DONE)
        status = replay_original(request, &o, request->has_time ? request->time : milliseconds(CLOCK_REALTIME), log, log_n);
    close_original(&o);
    free(log);
    return status;
}

static int squeeze_original(const struct original *o, uint64_t time) {
    uint64_t n, was = page.n;
    if (open_in_buffer(time, &n) != DONE)
        return REFUSED;
    int status = close_and_replace(o, n, time, 1);
    if (status == DONE)
        printf("squeezed, file of %" PRIu64 " bytes, before %" PRIu64 "\n", page.n, was);
    return status;
}

int run_squeeze(const struct request *request) {
    struct original o = NONE;
    int status = open_original(request->words[0], request->wait, &o);
    if (status == DONE)
        status = squeeze_original(&o, request->has_time ? request->time : milliseconds(CLOCK_REALTIME));
    close_original(&o);
    return status;
}
