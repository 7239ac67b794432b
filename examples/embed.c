/*
 * A host in C. It lends its own buffers, allocates nothing, and shows each step
 * of a depot's day: read a circuit, evaluate a row, stock a shelf, draw a root,
 * prove, check, and the incident in which an old page is put back.
 *
 *   gcc -std=c99 -Iinclude examples/embed.c crates/wivulameno/out/libwivulameno.a
 */
#include <stdint.h>
#include <stdio.h>
#include <stdlib.h>
#include <string.h>

#include "wivulameno.h"

/* The comparison is of 16 bits: the row's stock, and the order. */
#define WIDTH 16
#define INPUTS (2 * WIDTH)
#define OUTPUTS (1 + WIDTH)
#define GATES (4 * WIDTH - 1)
#define CIRCUIT_LEN (16 + 4 * OUTPUTS + 16 * GATES)
#define WORK_LEN (64 * (INPUTS + GATES) + 4096)

#define SLOTS 4
#define PAGE_LEN (12 + 18 * SLOTS)

enum { XOR = 1, AND = 2, INV = 3 };

/* Everything that is lent. A host has such buffers in its own page cache. */
static uint8_t circuit[CIRCUIT_LEN];
static uint8_t witness[INPUTS / 8];
static uint8_t y[(OUTPUTS + 7) / 8];
static uint8_t page[PAGE_LEN];
static uint8_t old_page[PAGE_LEN];
static uint8_t root[WV_ROOT_LEN];
static uint8_t salt[WV_SALT_LEN];
static uint8_t work[WORK_LEN];

static void must(const char *what, uint32_t answer, uint32_t expected)
{
    printf("%s: %lu\n", what, (unsigned long)answer);
    if (answer != expected) {
        printf("expected %lu\n", (unsigned long)expected);
        exit(1);
    }
}

/*
 * Overwrites what a call has left on the stack. It is called from the function
 * that made the call, at once, after every call that was lent a secret.
 */
#if defined(__GNUC__)
__attribute__((noinline))
#endif
static void burn_stack(void)
{
    volatile uint8_t bytes[WV_MAX_STACK];
    size_t i;

    for (i = 0; i < sizeof bytes; i++)
        bytes[i] = 0;
}

/* Is no byte of a call left in the work buffer? */
static void must_be_clear(void)
{
    size_t i;

    for (i = 0; i < sizeof work; i++)
        if (work[i] != 0) {
            printf("a call left something in the work buffer\n");
            exit(1);
        }
}

/* For another circuit, y or message the first of these that is met is told. */
static void must_not_hold(const char *what, uint32_t answer)
{
    printf("%s: %lu\n", what, (unsigned long)answer);
    switch (answer) {
    case WV_REFUSED_PROOF_LENGTH:
    case WV_REFUSED_UNUSED_BITS:
    case WV_REFUSED_OUTPUT:
    case WV_REFUSED_PROOF_DIGEST:
        return;
    }
    printf("expected a proof that does not hold\n");
    exit(1);
}

static uint8_t *put_u16(uint8_t *place, unsigned number)
{
    place[0] = (uint8_t)(number & 255);
    place[1] = (uint8_t)(number >> 8);
    return place + 2;
}

static uint8_t *put_u32(uint8_t *place, unsigned number)
{
    return put_u16(put_u16(place, number & 0xffff), number >> 16);
}

/* Slot k of the circuit; the chain goes from slot to slot. Gives its wire. */
static unsigned put_gate(unsigned slot, unsigned kind, unsigned a, unsigned b)
{
    uint8_t *place = circuit + 16 + 4 * OUTPUTS + 16 * (slot - 1);

    place = put_u32(place, kind);
    place = put_u32(place, a);
    place = put_u32(place, b);
    put_u32(place, slot == GATES ? 0 : slot + 1);
    return INPUTS + slot - 1;
}

/*
 * Output 0 is 1 if the stock (wires 0 to 15) covers the order (wires 16 to 31).
 * The order's own bits follow as outputs, so that y tells which order. The
 * borrow of stock - order goes from bit to bit, with one AND for each bit.
 */
static void make_circuit(void)
{
    uint8_t *place = circuit;
    unsigned slot = 1, bit, differ, borrow, change;

    place = put_u32(place, INPUTS);
    place = put_u32(place, OUTPUTS);
    place = put_u32(place, GATES);
    place = put_u32(place, 1);
    place = put_u32(place, INPUTS + GATES - 1);
    for (bit = 0; bit < WIDTH; bit++)
        place = put_u32(place, WIDTH + bit);

    differ = put_gate(slot++, XOR, 0, WIDTH);
    borrow = put_gate(slot++, AND, differ, WIDTH);
    for (bit = 1; bit < WIDTH; bit++) {
        differ = put_gate(slot++, XOR, bit, WIDTH + bit);
        change = put_gate(slot++, XOR, WIDTH + bit, borrow);
        change = put_gate(slot++, AND, differ, change);
        borrow = put_gate(slot++, XOR, borrow, change);
    }
    put_gate(slot, INV, borrow, 0);
}

static void use_circuit(unsigned stock, unsigned order)
{
    uint32_t sizes[4], answer;

    make_circuit();
    must("read the circuit", wv_read(circuit, sizeof circuit, sizes),
         WV_ACCEPTED);
    printf("  I %lu, O %lu, G %lu, A %lu\n",
           (unsigned long)sizes[0], (unsigned long)sizes[1],
           (unsigned long)sizes[2], (unsigned long)sizes[3]);
    put_u16(witness, stock);
    put_u16(witness + 2, order);
    if (wv_work_len(sizes[0], sizes[2]) != sizeof work)
        exit(1);
    answer = wv_evaluate(circuit, sizeof circuit, witness, sizeof witness,
                         y, sizeof y);
    burn_stack();
    must("evaluate the row", answer, WV_ACCEPTED);
    printf("  the stock covers the order: %d\n", y[0] & 1);
    answer = wv_evaluate(circuit, sizeof circuit, witness, sizeof witness - 1,
                         y, sizeof y);
    burn_stack();
    must("evaluate a row of another length", answer, WV_REFUSED_LENGTH);
}

/* A page without roots: all slots are on the spare chain, in order. */
static void new_page(uint32_t draws)
{
    uint8_t *place = page;
    unsigned slot;

    if (wv_page_len(SLOTS) != sizeof page)
        exit(1);
    memset(page, 0, sizeof page);
    place = put_u16(place, SLOTS);
    place = put_u16(place, 0);
    place = put_u16(place, 1);
    place = put_u16(place, 0);
    place = put_u16(place, draws & 0xffff);
    place = put_u16(place, draws >> 16);
    for (slot = 1; slot <= SLOTS; slot++)
        put_u16(place + 18 * (slot - 1), slot == SLOTS ? 0 : slot + 1);
}

static void fill_random(uint8_t *bytes, size_t len)
{
    FILE *source = fopen("/dev/urandom", "rb");

    if (source == NULL || fread(bytes, 1, len, source) != len) {
        printf("no random source\n");
        exit(1);
    }
    fclose(source);
}

/* Roots are random, and each is stocked once. */
static void stock_shelf(unsigned count)
{
    while (count-- > 0) {
        uint32_t answer;

        fill_random(root, sizeof root);
        answer = wv_stock(page, sizeof page, root, sizeof root);
        burn_stack();
        must("stock a root", answer, WV_ACCEPTED);
        memset(root, 0, sizeof root);
    }
}

/*
 * The count of accepted draws. A host has it in a log on disk, at a place that no
 * rollback touches; here it is a variable. The comments are the host's work, in
 * this order: a page whose draw is not counted must not get on disk, where a
 * snapshot could keep it, and a root is used when its draw is counted on disk.
 */
static uint64_t log_count;

static void draw_root(void)
{
    uint32_t answer;

    memcpy(old_page, page, sizeof page);
    answer = wv_draw(page, sizeof page, log_count, root);
    burn_stack();
    must("draw a root", answer, WV_ACCEPTED);
    log_count++;
    /* write the log, with a digest of the new page; wait for the disk */
    /* write the new page beside the old one, wait, rename it, wait */
    /* only now use the root */
}

#define M 145
#define TAU 66
#define N 8

static uint8_t proof[16 * 1024];
static const uint8_t message[] = "order 4711";
static const size_t message_len = sizeof message - 1;

/*
 * One root, one call of wv_prove: the root is dropped whatever the answer is.
 * Two proofs from one root and one salt can show the row. The salt is random, too, a new one for
 * each proof; it is no secret.
 */
static uint32_t prove(size_t proof_len, size_t work_len, uint64_t *written)
{
    uint32_t answer;

    draw_root();
    fill_random(salt, sizeof salt);
    answer = wv_prove(circuit, sizeof circuit, witness, sizeof witness,
                      y, sizeof y, message, message_len, root, sizeof root,
                      salt, sizeof salt, M, TAU, N, proof, proof_len, written,
                      work, work_len);
    burn_stack();
    memset(root, 0, sizeof root);
    return answer;
}

static void prove_and_check(void)
{
    uint64_t written = 0;
    uint8_t claimed[sizeof y];
    const size_t proof_len = wv_proof_len(INPUTS, OUTPUTS, WIDTH, M, TAU, N);

    if (proof_len == 0 || proof_len > sizeof proof)
        exit(1);
    must("prove with too short a buffer",
         prove(proof_len - 1, sizeof work, &written), WV_REFUSED_LENGTH);
    must_be_clear();
    must("prove with too short a work buffer",
         prove(proof_len, sizeof work - 1, &written), WV_REFUSED_LENGTH);
    /* A new root is drawn for this call, also after the refused ones. */
    must("prove", prove(proof_len, sizeof work, &written), WV_ACCEPTED);
    must_be_clear();
    printf("  %lu bytes\n", (unsigned long)written);

    /* The buyer's end. It knows the order, and asks for these numbers. */
    put_u16(claimed, 1 | 250 << 1);
    claimed[2] = 250 >> 15;
    if (proof[0] != M % 256 || proof[1] != M / 256 || proof[2] != TAU
        || proof[3] != 0 || proof[4] != N)
        exit(1);
    must("check",
         wv_check(circuit, sizeof circuit, claimed, sizeof claimed,
                  message, message_len, proof, (size_t)written,
                  work, sizeof work),
         WV_ACCEPTED);
    must_be_clear();
    /* The salt stands at the end of the header. */
    if (memcmp(proof + WV_PROOF_HEADER_LEN - sizeof salt, salt, sizeof salt) != 0)
        exit(1);
    /* The proof is bound to the circuit, to y and to the message. */
    claimed[0] ^= 2;
    must_not_hold("check for another order",
                  wv_check(circuit, sizeof circuit, claimed, sizeof claimed,
                           message, message_len, proof, (size_t)written,
                           work, sizeof work));
    must("check a proof that is cut",
         wv_check(circuit, sizeof circuit, y, sizeof y,
                  message, message_len, proof, (size_t)written - 1,
                  work, sizeof work),
         WV_REFUSED_PROOF_LENGTH);
}

/* The cache kept the page from before the draw, and puts it back. */
static void incident(void)
{
    static const uint8_t untouched[WV_ROOT_LEN];
    uint32_t answer;

    memcpy(page, old_page, sizeof page);
    answer = wv_draw(page, sizeof page, log_count, root);
    burn_stack();
    must("draw from the old page", answer, WV_REFUSED_ANOTHER_COUNT);
    if (memcmp(page, old_page, sizeof page) != 0
        || memcmp(root, untouched, sizeof root) != 0) {
        printf("a refused call changed a lent byte\n");
        exit(1);
    }
}

int main(void)
{
    use_circuit(1000, 250);
    new_page(0);
    stock_shelf(4);
    prove_and_check();
    incident();
    return 0;
}
