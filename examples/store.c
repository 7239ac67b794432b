/*
 * A host in C that keeps its shelf in files. It opens the shelf, or begins one,
 * refills it, draws a root for a proof, proves and checks, and shows the incident:
 * an old page is put back, its draws are refused, and the present page helps.
 *
 *   cc -std=c99 examples/store.c $(pkg-config --cflags --libs wivulameno-store)
 *   ./a.out shelf.page shelf.log
 *
 * In earnest the log lies where no restore, rollback or snapshot reaches it.
 */
#include <stdio.h>
#include <stdlib.h>
#include <string.h>

#include "wivulameno_store.h"

#define SLOTS 255
#define REFILL 200
#define MOST_PAGE (12 + 18 * SLOTS)

/* Two inputs, "in stock" and "released"; one gate, their AND, is the output. */
static const uint8_t circuit[36] = {
    2, 0, 0, 0, 1, 0, 0, 0, 1, 0, 0, 0, 1, 0, 0, 0, /* I, O, G, head */
    2, 0, 0, 0,                                     /* the output is wire 2 */
    2, 0, 0, 0, 0, 0, 0, 0, 1, 0, 0, 0, 0, 0, 0, 0  /* AND of 0 and 1 */
};
static const uint8_t message[] = "order 4711";

static void fail(const char *what, uint32_t answer)
{
    char sentence[512];

    wv_store_explain(sentence, sizeof sentence);
    fprintf(stderr, "%s: %lu, %s\n%s\n", what, (unsigned long)answer,
            wv_store_text(answer), sentence);
    exit(1);
}

static void must(const char *what, uint32_t answer)
{
    if (answer != WV_ACCEPTED)
        fail(what, answer);
    printf("%s\n", what);
}

/* A memset that the compiler does not leave out. */
static void clear(volatile uint8_t *bytes, size_t len)
{
    while (len-- > 0)
        bytes[len] = 0;
}

/* A shelf that is not there yet is begun: once in the life of a depot. */
static wv_store *open_shelf(const char *page, const char *log)
{
    wv_store *store = NULL;
    uint32_t answer = wv_store_open(page, log, &store);

    if (answer == WV_STORE_NO_LOG)
        answer = wv_store_create(page, log, SLOTS, &store);
    must("open the shelf", answer);
    return store;
}

/* New random bytes, for a root or a salt. */
static void fresh(uint8_t *bytes, size_t len)
{
    FILE *source = fopen("/dev/urandom", "rb");

    if (source == NULL || fread(bytes, 1, len, source) != len)
        fail("no random source", WV_STORE_FILE);
    fclose(source);
}

/* Before it is empty: a busy day needs some 300 roots, and a page holds 255. */
static void refill(wv_store *store)
{
    struct wv_store_status status;
    uint8_t root[WV_ROOT_LEN];
    uint32_t missing;

    must("look at the shelf", wv_store_status(store, &status));
    if (status.ready >= REFILL)
        return;
    for (missing = status.slots - status.ready; missing > 0; missing--) {
        uint32_t answer;

        fresh(root, sizeof root);
        answer = wv_store_stock(store, root, sizeof root);
        clear(root, sizeof root);
        if (answer != WV_ACCEPTED)
            fail("stock a root", answer);
    }
    printf("refilled to %lu roots\n", (unsigned long)status.slots);
}

#define M 145
#define TAU 66
#define N 8

static uint8_t proof[16 * 1024];
static uint8_t work[64 * (2 + 1) + 4096];

/*
 * One root, one call of wv_prove: the root is dropped whatever the answer is. The
 * salt is new for each proof, and no secret.
 */
static void prove_and_check(wv_store *store)
{
    static const uint8_t witness[1] = {3}, y[1] = {1};
    uint8_t root[WV_ROOT_LEN], salt[WV_SALT_LEN];
    uint64_t written = 0;
    uint32_t answer;

    fresh(salt, sizeof salt);
    must("draw a root", wv_store_draw(store, root));
    answer = wv_prove(circuit, sizeof circuit, witness, sizeof witness,
                      y, sizeof y, message, sizeof message - 1,
                      root, sizeof root, salt, sizeof salt, M, TAU, N,
                      proof, wv_proof_len(2, 1, 1, M, TAU, N), &written,
                      work, sizeof work);
    clear(root, sizeof root);
    must("prove", answer);
    must("check", wv_check(circuit, sizeof circuit, y, sizeof y,
                           message, sizeof message - 1,
                           proof, (size_t)written, work, sizeof work));
}

/* The page in the file of this name; returns its length. */
static size_t read_file(const char *name, uint8_t *bytes, size_t room)
{
    FILE *file = fopen(name, "rb");
    size_t len;

    if (file == NULL)
        fail("read the page", WV_STORE_FILE);
    len = fread(bytes, 1, room, file);
    fclose(file);
    return len;
}

static void write_file(const char *name, const uint8_t *bytes, size_t len)
{
    FILE *file = fopen(name, "wb");

    if (file == NULL || fwrite(bytes, 1, len, file) != len || fclose(file) != 0)
        fail("write the page", WV_STORE_FILE);
}

/* A cache that kept the page from before a draw puts it back. */
static void incident(wv_store *store, const char *page)
{
    static uint8_t old[MOST_PAGE], present[MOST_PAGE];
    struct wv_store_status status;
    uint8_t root[WV_ROOT_LEN];
    size_t old_len = read_file(page, old, sizeof old), len;
    uint32_t answer;

    must("draw a root", wv_store_draw(store, root));
    clear(root, sizeof root);
    len = read_file(page, present, sizeof present);
    write_file(page, old, old_len);
    answer = wv_store_draw(store, root);
    must("look at the old page", wv_store_status(store, &status));
    if (answer != WV_REFUSED_ANOTHER_COUNT
        || status.page != WV_STORE_PAGE_BEHIND || status.missing != 1)
        fail("the old page is not refused", answer);
    printf("the old page: %s\n", wv_store_text(answer));
    write_file(page, present, len);
    must("draw from the present page", wv_store_draw(store, root));
    clear(root, sizeof root);
}

int main(int words, char **word)
{
    wv_store *store;

    if (words != 3) {
        fprintf(stderr, "usage: %s PAGE LOG\n", word[0]);
        return 2;
    }
    if (strcmp(wv_store_version(), WV_VERSION) != 0)
        fprintf(stderr, "the header and the library differ in their version\n");
    store = open_shelf(word[1], word[2]);
    refill(store);
    prove_and_check(store);
    incident(store, word[1]);
    wv_store_close(store);
    return 0;
}
