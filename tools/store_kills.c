/*
 * A host that draws roots from a shelf in files is killed, at random times and at
 * each of its steps. No root that it was given is given again, every one is
 * counted in the log, and a kill costs one root at most. Between kills old pages
 * are put back: their draws are refused with 15.
 *
 *   store_kills FOLDER STEPS     STEPS is rust/wv/tests/steps.c as a library
 *   store_kills draw PAGE LOG N  the host: draws up to N roots, and writes each to
 *                                standard output
 */
#define _POSIX_C_SOURCE 200809L
#include <fcntl.h>
#include <signal.h>
#include <stdio.h>
#include <stdlib.h>
#include <string.h>
#include <sys/wait.h>
#include <time.h>
#include <unistd.h>

#include "wivulameno_store.h"

#define SLOTS 60
#define LEAST 12
#define RANDOM_KILLS 120
#define FIRST_MICROSECONDS 20000
#define MOST_MICROSECONDS 900000
#define TURNS 4
#define MOST_STEPS 40
#define MOST_ROOTS 4000

static const char *program, *steps;
static char page[512], log_file[512], folder[480];

/* What the host has been given, and what was put on the shelf, by number. */
static unsigned char given[MOST_ROOTS];
static unsigned stocked, total_given, kills, put_back;

static void must(int good, const char *what)
{
    char sentence[512] = "";

    if (good)
        return;
    wv_store_explain(sentence, sizeof sentence);
    printf("%s; %u stocked, %u given, %u kills; %s\n", what, stocked, total_given,
           kills, sentence);
    exit(1);
}

/* The same numbers in every run. */
static unsigned random_below(unsigned bound)
{
    static uint64_t state = 20180814;

    state = state * 6364136223846793005u + 1442695040888963407u;
    return (unsigned)((state >> 33) % bound);
}

/* A root that tells its number. */
static void numbered(unsigned number, uint8_t root[WV_ROOT_LEN])
{
    memset(root, 0xa5, WV_ROOT_LEN);
    root[0] = (uint8_t)(number & 255);
    root[1] = (uint8_t)(number >> 8);
}

static void take(const uint8_t root[WV_ROOT_LEN])
{
    uint8_t expected[WV_ROOT_LEN];
    unsigned number = root[0] + 256u * root[1];

    must(number < stocked, "a root that was not stocked");
    numbered(number, expected);
    must(memcmp(root, expected, WV_ROOT_LEN) == 0, "a root that was not stocked");
    must(!given[number], "a root went out twice");
    given[number] = 1;
    total_given++;
}

/* Every draw that the host knows of counts, and a kill costs one root at most. */
static void look(struct wv_store_status *status)
{
    must(wv_store_look(page, log_file, status) == 0, "look");
    must(status->page == WV_STORE_PAGE_PRESENT, "the page is not the present one");
    must(status->count >= total_given, "a draw was lost");
    must(status->count <= total_given + kills, "a kill cost more than a root");
    must(status->ready + status->count == stocked, "a root is gone");
}

static wv_store *opened(void)
{
    wv_store *store = NULL;

    must(wv_store_open(page, log_file, &store) == 0, "open");
    return store;
}

static void refill(void)
{
    struct wv_store_status status;
    uint8_t root[WV_ROOT_LEN];
    wv_store *store;

    look(&status);
    if (status.ready >= LEAST)
        return;
    store = opened();
    for (; status.ready < SLOTS; status.ready++) {
        must(stocked < MOST_ROOTS, "too many roots");
        numbered(stocked++, root);
        must(wv_store_stock(store, root, sizeof root) == 0, "stock");
    }
    wv_store_close(store);
}

/* The host, in a process of its own. */
static int draw_all(char **word)
{
    wv_store *store = NULL;
    uint8_t root[WV_ROOT_LEN];
    long left = atol(word[4]);
    uint32_t answer = wv_store_open(word[2], word[3], &store);

    while (answer == 0 && left-- > 0) {
        answer = wv_store_draw(store, root);
        if (answer == 0 && write(1, root, sizeof root) != sizeof root)
            return 3;
    }
    wv_store_close(store);
    return answer == 0 || answer == WV_REFUSED_EMPTY ? 0 : 1;
}

/* Starts the host; kill_at is the step that it is killed at, -1 for none. */
static pid_t start_host(const char *most, long kill_at, int *from)
{
    char number[32];
    int ends[2];
    pid_t host;

    must(pipe(ends) == 0, "pipe");
    host = fork();
    must(host >= 0, "fork");
    if (host == 0) {
        dup2(ends[1], 1);
        close(ends[0]);
        close(ends[1]);
        if (kill_at >= 0) {
            snprintf(number, sizeof number, "%ld", kill_at);
            setenv("LD_PRELOAD", steps, 1);
            setenv("WV_STEPS_IN", folder, 1);
            setenv("WV_STEPS_KILL", number, 1);
        }
        execl(program, program, "draw", page, log_file, most, (char *)NULL);
        _exit(127);
    }
    close(ends[1]);
    *from = ends[0];
    return host;
}

/* Takes what the host was given; returns whether it was killed. */
static int end_host(pid_t host, int from)
{
    uint8_t root[WV_ROOT_LEN];
    ssize_t len;
    int status;

    must(waitpid(host, &status, 0) == host, "wait");
    while ((len = read(from, root, sizeof root)) == sizeof root)
        take(root);
    must(len == 0, "half a root");
    close(from);
    must(WIFSIGNALED(status) || WEXITSTATUS(status) == 0, "the host failed");
    must(!WIFSIGNALED(status) || WTERMSIG(status) == SIGKILL, "another signal");
    return WIFSIGNALED(status);
}

static size_t read_page(uint8_t *bytes)
{
    FILE *file = fopen(page, "rb");
    size_t len;

    must(file != NULL, "read the page");
    len = fread(bytes, 1, wv_page_len(SLOTS), file);
    fclose(file);
    return len;
}

static void write_page(const uint8_t *bytes, size_t len)
{
    FILE *file = fopen(page, "wb");

    must(file != NULL && fwrite(bytes, 1, len, file) == len && fclose(file) == 0,
         "write the page");
}

/* Puts an old page back. It gives nothing; then the present one is put back. */
static void incident(const uint8_t *old, uint32_t old_draws)
{
    static uint8_t present[12 + 18 * SLOTS];
    uint8_t root[WV_ROOT_LEN];
    wv_store *store = opened();
    struct wv_store_status status;

    must(wv_store_status(store, &status) == 0, "status");
    if (status.draws != old_draws) {
        size_t len = read_page(present);

        write_page(old, len);
        memset(root, 7, sizeof root);
        must(wv_store_draw(store, root) == WV_REFUSED_ANOTHER_COUNT,
             "an old page is drawn from");
        must(root[0] == 7 && root[15] == 7, "a refused draw wrote a root");
        must(wv_store_stock(store, root, sizeof root) == WV_REFUSED_ANOTHER_COUNT,
             "an old page is stocked on");
        must(wv_store_status(store, &status) == 0, "status");
        must(status.page == WV_STORE_PAGE_BEHIND, "an old page is not behind");
        write_page(present, len);
        put_back++;
    }
    wv_store_close(store);
}

/* So long that a host makes a draw or two, on this disk. */
static unsigned adapted(unsigned longest, uint64_t draws)
{
    if (draws == 0 && longest < MOST_MICROSECONDS)
        return longest + longest / 4;
    return draws > 2 ? longest - longest / 4 : longest;
}

static void kill_at_random_times(void)
{
    static uint8_t old[12 + 18 * SLOTS];
    struct wv_store_status before, after;
    unsigned turn, longest = FIRST_MICROSECONDS;

    for (turn = 0; kills < RANDOM_KILLS; turn++) {
        struct timespec pause = {0, 0};
        pid_t host;
        int from;

        must(turn < 4 * RANDOM_KILLS, "the host is hardly ever killed");
        refill();
        look(&before);
        read_page(old);
        host = start_host("1000", -1, &from);
        pause.tv_nsec = 1000L * random_below(longest);
        nanosleep(&pause, NULL);
        kill(host, SIGKILL);
        kills += (unsigned)end_host(host, from);
        look(&after);
        longest = adapted(longest, after.count - before.count);
        if (turn % 3 == 0 && after.count > before.count)
            incident(old, before.draws);
    }
}

static void kill_at_every_step(void)
{
    unsigned turn;

    for (turn = 0; turn < TURNS; turn++) {
        struct wv_store_status status;
        int killed = 1, from;
        pid_t host;
        long at;

        for (at = 0; killed; at++) {
            must(at < MOST_STEPS, "too many steps");
            refill();
            host = start_host("1", at, &from);
            killed = end_host(host, from);
            kills += (unsigned)killed;
            look(&status);
        }
        must(at > 10, "too few steps");
    }
}

/* A forked process has the parent's store, and gets nothing from it. */
static void forked(void)
{
    uint8_t root[WV_ROOT_LEN];
    wv_store *store = opened(), *other = NULL;
    pid_t child = fork();
    int status;

    must(child >= 0, "fork");
    if (child == 0) {
        int stopped = wv_store_draw(store, root) == WV_STORE_STOPPED;

        wv_store_close(store);
        _exit(stopped && wv_store_open(page, log_file, &other) == WV_STORE_BUSY ? 0 : 1);
    }
    must(waitpid(child, &status, 0) == child && status == 0, "a forked store");
    must(wv_store_draw(store, root) == 0, "draw");
    take(root);
    wv_store_close(store);
}

/* All that is left goes out once. */
static void finish(void)
{
    struct wv_store_status status;
    uint8_t root[WV_ROOT_LEN];
    wv_store *store = opened();
    uint32_t answer;

    while ((answer = wv_store_draw(store, root)) == 0)
        take(root);
    must(answer == WV_REFUSED_EMPTY, "draw");
    wv_store_close(store);
    look(&status);
    must(status.ready == 0 && status.answer == WV_REFUSED_EMPTY, "roots are left");
}

int main(int words, char **word)
{
    wv_store *store = NULL;

    if (words == 5 && strcmp(word[1], "draw") == 0)
        return draw_all(word);
    if (words != 3)
        return 2;
    program = word[0];
    steps = word[2];
    snprintf(folder, sizeof folder, "%s", word[1]);
    snprintf(page, sizeof page, "%s/page", folder);
    snprintf(log_file, sizeof log_file, "%s/log", folder);
    must(wv_store_create(page, log_file, SLOTS, &store) == 0, "create");
    wv_store_close(store);
    kill_at_random_times();
    kill_at_every_step();
    forked();
    finish();
    must(put_back > 5, "too few old pages");
    printf("%u roots stocked, %u given, %u kills, %u old pages put back\n", stocked,
           total_given, kills, put_back);
    return 0;
}
