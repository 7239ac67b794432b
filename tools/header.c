/*
 * The header's own functions and constants, in C99 and in C++: compared with
 * numbers that were worked out by hand, and with what the library answers.
 */
#include <stdio.h>
#include <string.h>

#include "wivulameno.h"

static int failures;

static void equal(const char *what, size_t found, size_t expected)
{
    if (found == expected)
        return;
    printf("FAIL %s: %lu, expected %lu\n", what, (unsigned long)found,
           (unsigned long)expected);
    failures++;
}

/*
 * The room for the paper's m10; then some counts of the table in docs/cost.md; then
 * the ends of the limits.
 */
static void proof_lengths(void)
{
    equal("K", wv_proof_len(2, 1, 1, 4, 1, 2), 265);
    equal("covers16, n 2", wv_proof_len(32, 17, 16, 69, 44, 2), 3866);
    equal("covers16, n 4", wv_proof_len(32, 17, 16, 163, 80, 4), 10054);
    equal("covers16, n 8", wv_proof_len(32, 17, 16, 145, 66, 8), 9868);
    equal("covers16, n 16", wv_proof_len(32, 17, 16, 142, 56, 16), 10190);
    equal("covers16, n 32", wv_proof_len(32, 17, 16, 150, 47, 32), 10795);
    equal("covers16, n 64", wv_proof_len(32, 17, 16, 151, 45, 64), 11413);
    equal("worst", wv_proof_len(512, 1, 4096, 220, 141, 2), 164179);
    equal("the shortest", wv_proof_len(1, 1, 0, 2, 1, 2), 168);
    equal("the longest",
          wv_proof_len(WV_MAX_INPUTS, WV_MAX_OUTPUTS, WV_MAX_GATES,
                       WV_MAX_INSTANCES, WV_MAX_INSTANCES - 1, WV_MAX_PARTIES),
          WV_MAX_PROOF);
}

static void numbers_out_of_limits(void)
{
    equal("no input", wv_proof_len(0, 1, 1, 4, 1, 2), 0);
    equal("inputs", wv_proof_len(WV_MAX_INPUTS + 1, 1, 1, 4, 1, 2), 0);
    equal("no output", wv_proof_len(2, 0, 1, 4, 1, 2), 0);
    equal("outputs", wv_proof_len(2, WV_MAX_OUTPUTS + 1, 1, 4, 1, 2), 0);
    equal("gates", wv_proof_len(2, 1, WV_MAX_GATES + 1, 4, 1, 2), 0);
    equal("all gates", wv_proof_len(2, 1, UINT32_MAX, 4, 1, 2), 0);
    equal("one instance", wv_proof_len(2, 1, 1, 1, 1, 2), 0);
    equal("instances", wv_proof_len(2, 1, 1, WV_MAX_INSTANCES + 1, 1, 2), 0);
    equal("none chosen", wv_proof_len(2, 1, 1, 4, 0, 2), 0);
    equal("all chosen", wv_proof_len(2, 1, 1, 4, 4, 2), 0);
    equal("one party", wv_proof_len(2, 1, 1, 4, 1, 1), 0);
    equal("three parties", wv_proof_len(2, 1, 1, 4, 1, 3), 0);
    equal("48 parties", wv_proof_len(2, 1, 1, 4, 1, 48), 0);
    equal("63 parties", wv_proof_len(2, 1, 1, 4, 1, 63), 0);
    equal("65 parties", wv_proof_len(2, 1, 1, 4, 1, 65), 0);
    equal("128 parties", wv_proof_len(2, 1, 1, 4, 1, 128), 0);
}

static void page_lengths(void)
{
    equal("one slot", wv_page_len(1), 30);
    equal("four slots", wv_page_len(4), 84);
    equal("all slots", wv_page_len(WV_MAX_SLOTS), 4602);
    equal("no slot", wv_page_len(0), 0);
    equal("slots", wv_page_len(WV_MAX_SLOTS + 1), 0);
}

/* Circuit K of document 01: its one output is the AND of its two inputs. */
static const uint8_t k[36] = {
    2, 0, 0, 0, 1, 0, 0, 0, 1, 0, 0, 0, 1, 0, 0, 0,
    2, 0, 0, 0,
    2, 0, 0, 0, 0, 0, 0, 0, 1, 0, 0, 0, 0, 0, 0, 0
};

/* It in the old form. */
static const uint8_t old_k[18] = {
    2, 0, 1, 0, 1, 0, 1, 0, 2, 0, 2, 0, 0, 0, 1, 0, 0, 0
};

/* The least work buffer for it: 64 times 3 and 4096 bytes; and a longer one. */
#define K_WORK 4288
static uint8_t work[K_WORK + 100];

/* Is every byte the one given? */
static size_t all(const uint8_t *bytes, size_t len, uint8_t byte)
{
    size_t i;

    for (i = 0; i < len; i++)
        if (bytes[i] != byte)
            return 0;
    return 1;
}

/*
 * The room that wv_prove asks for is what wv_proof_len says, and no less. The
 * proof has 249 bytes if party 0 is hidden, 248 if party 1 is. The salt is the
 * end of its header.
 */
static void prove_in(size_t proof_len, size_t salt_len, uint32_t expected)
{
    static uint8_t proof[265];
    static const uint8_t root[WV_ROOT_LEN] = {1}, salt[WV_SALT_LEN + 1] = {2, 3};
    const uint8_t witness = 3, y = 1, message = 'a';
    uint64_t written = 0;
    uint32_t answer;

    memset(work, 0xee, sizeof work);
    answer = wv_prove(k, sizeof k, &witness, 1, &y, 1, &message, 1,
                      root, sizeof root, salt, salt_len, 4, 1, 2,
                      proof, proof_len, &written, work, sizeof work);
    equal("prove", answer, expected);
    equal("its work buffer", all(work, sizeof work, 0), 1);
    if (answer == WV_ACCEPTED) {
        equal("its length", written == 248 || written == 249, 1);
        equal("its salt", memcmp(proof + WV_PROOF_HEADER_LEN - WV_SALT_LEN, salt,
                                 WV_SALT_LEN) == 0, 1);
        memset(work, 0xee, sizeof work);
        equal("check", wv_check(k, sizeof k, &y, 1, &message, 1,
                                proof, (size_t)written, work, sizeof work),
              WV_ACCEPTED);
        equal("its work buffer", all(work, sizeof work, 0), 1);
    }
}

/* What becomes of a work buffer of this length in a check of no proof. */
static void check_in(size_t circuit_len, size_t work_len, uint32_t answer,
                     uint8_t left)
{
    const uint8_t y = 1;

    memset(work, 0xee, sizeof work);
    equal("check nothing", wv_check(k, circuit_len, &y, 1, &y, 1, &y, 1,
                                    work, work_len), answer);
    equal("the work buffer after it", all(work, work_len, left), 1);
    equal("what is behind it", all(work + work_len, sizeof work - work_len, 0xee), 1);
}

static void work_buffers(void)
{
    equal("no input", wv_work_len(0, 1), 0);
    equal("inputs", wv_work_len(WV_MAX_INPUTS + 1, 1), 0);
    equal("gates", wv_work_len(1, WV_MAX_GATES + 1), 0);
    equal("no gates", wv_work_len(1, 0), 4160);
    equal("K", wv_work_len(2, 1), K_WORK);
    equal("90000 gates", wv_work_len(96, 90000), 5770240);
    equal("the longest", wv_work_len(WV_MAX_INPUTS, WV_MAX_GATES), WV_MAX_WORK);
    check_in(sizeof k, K_WORK, WV_REFUSED_PROOF_HEADER, 0);
    check_in(sizeof k, K_WORK + 100, WV_REFUSED_PROOF_HEADER, 0);
    check_in(sizeof k, K_WORK - 1, WV_REFUSED_LENGTH, 0xee);
    check_in(sizeof k - 1, K_WORK, WV_REFUSED_CIRCUIT_LENGTH, 0xee);
}

/*
 * The marked cases m6 to m9 of document 01: K by two parties with the tapes 13 and 3,
 * and what m8 shows replayed.
 */
static void runs(void)
{
    const uint8_t tapes[2] = {13, 3}, opened[2] = {0, 3}, ones = 3, one = 1, none = 0;
    uint8_t corrections = 77, masked = 77, rows[2] = {77, 77}, y = 77;
    uint8_t shown[2] = {77, 77}, row = 77;

    equal("prepare", wv_prepare(k, sizeof k, 2, tapes, 2, &corrections, 1,
                                work, K_WORK), WV_ACCEPTED);
    equal("its correction", corrections, 1);
    equal("run", wv_run(k, sizeof k, 2, &ones, 1, tapes, 2, &corrections, 1,
                        &masked, 1, rows, 2, &y, 1, work, K_WORK), WV_ACCEPTED);
    equal("its masked inputs", masked, 1);
    equal("its rows", rows[0] + 256u * rows[1], 2);
    equal("its output", y, 1);
    equal("show", wv_show(k, sizeof k, 2, 0, 1, &one, 1, tapes, 2, shown, 2,
                          &corrections, 1, &masked, 1, &row, 1, work, K_WORK),
          WV_ACCEPTED);
    equal("its tapes", shown[0] + 256u * shown[1], 256 * 3);
    equal("its correction", corrections, 1);
    equal("its masked inputs", masked, 3);
    equal("its row", row, 3);
    equal("replay", wv_replay(k, sizeof k, 2, 0, opened, 2, &one, 1, &ones, 1,
                              &ones, 1, &none, 1, rows, 2, work, K_WORK),
          WV_ACCEPTED);
    equal("its rows", rows[0] + 256u * rows[1], 3 + 256);
    equal("replay to another output",
          wv_replay(k, sizeof k, 2, 0, opened, 2, &one, 1, &ones, 1,
                    &ones, 1, &one, 1, rows, 2, work, K_WORK),
          WV_REFUSED_OUTPUT);
}

/* SHA3-256 of no bytes begins with a7 and ends with 4a, in FIPS 202's own examples. */
static void digest(void)
{
    uint8_t found[WV_DIGEST_LEN] = {0};

    equal("SHA3-256", wv_sha3_256(k, 0, found), WV_ACCEPTED);
    equal("its first byte", found[0], 0xa7);
    equal("its last byte", found[31], 0x4a);
}

/*
 * The masters' tree as the header says: the children of node k are SHAKE128 of
 * a byte 2, the salt, 65535, k and its value. Five masters are leaves of a tree of eight.
 * With leaf 2 hidden, nodes 3, 4 and 11 are opened.
 */
static void masters_and_cover(void)
{
    static const uint8_t root[WV_ROOT_LEN] = {3};
    uint8_t values[16 * 16], input[53] = {2};
    const uint8_t *salt = input + 1;
    uint8_t masters[5 * 16], nodes[3 * 16], leaves[8 * 16], siblings[3 * 16];
    const uint8_t hidden[7] = {2, 0, 2, 0, 2, 0, 0}, beyond[2] = {5, 0};
    uint8_t node;

    memset(input + 1, 's', 32);
    memset(input + 33, 255, 2);
    memcpy(values + 16, root, 16);
    for (node = 1; node < 8; node++) {
        input[35] = node;
        memcpy(input + 37, values + 16 * node, 16);
        wv_shake128(input, sizeof input, values + 32 * node, 32);
    }
    equal("masters", wv_masters(5, salt, 32, root, sizeof root,
                                masters, sizeof masters),
          WV_ACCEPTED);
    equal("their bytes", memcmp(masters, values + 16 * 8, 16 * 5) == 0, 1);
    equal("cover", wv_cover(5, hidden, 6, salt, 32, root, sizeof root, nodes, 48),
          WV_ACCEPTED);
    equal("node 3", memcmp(nodes, values + 16 * 3, 16) == 0, 1);
    equal("node 4", memcmp(nodes + 16, values + 16 * 4, 16) == 0, 1);
    equal("node 11", memcmp(nodes + 32, values + 16 * 11, 16) == 0, 1);
    equal("expand", wv_expand(65535, 8, salt, 32, root, sizeof root,
                              leaves, sizeof leaves), WV_ACCEPTED);
    equal("its leaves", memcmp(leaves, values + 16 * 8, sizeof leaves) == 0, 1);
    equal("open", wv_open(65535, 8, 2, salt, 32, root, sizeof root,
                          siblings, sizeof siblings), WV_ACCEPTED);
    equal("its siblings", memcmp(siblings, nodes, sizeof nodes) == 0, 1);
    equal("masters of one instance",
          wv_masters(1, salt, 32, root, sizeof root, masters, 16),
          WV_REFUSED_COUNTS);
    equal("a short buffer",
          wv_masters(5, salt, 32, root, sizeof root, masters, 79),
          WV_REFUSED_LENGTH);
    equal("a short salt",
          wv_masters(5, salt, 31, root, sizeof root, masters, 80),
          WV_REFUSED_LENGTH);
    equal("no leaf",
          wv_cover(5, hidden, 1, salt, 32, root, sizeof root, nodes, 48),
          WV_REFUSED_PARTY);
    equal("leaf 5 of 5",
          wv_cover(5, beyond, 2, salt, 32, root, sizeof root, nodes, 48),
          WV_REFUSED_PARTY);
    equal("an odd byte",
          wv_cover(5, hidden, 7, salt, 32, root, sizeof root, nodes, 48),
          WV_REFUSED_LENGTH);
    equal("two nodes",
          wv_cover(5, hidden, 6, salt, 32, root, sizeof root, nodes, 32),
          WV_REFUSED_LENGTH);
    equal("a long salt",
          wv_cover(5, hidden, 6, salt, 33, root, sizeof root, nodes, 48),
          WV_REFUSED_LENGTH);
}

/* Buffers that are only read may overlap: k[4] is 1, which is y here. */
static void read_buffers_overlap(void)
{
    static uint8_t proof[265];
    static const uint8_t root[WV_ROOT_LEN] = {2};
    const uint8_t witness = 3;
    uint64_t written = 0;

    equal("prove from one buffer",
          wv_prove(k, sizeof k, &witness, 1, k + 4, 1, k, sizeof k,
                   root, sizeof root, k, WV_SALT_LEN, 4, 1, 2,
                   proof, sizeof proof, &written, work, sizeof work),
          WV_ACCEPTED);
    equal("check from one buffer",
          wv_check(k, sizeof k, k + 4, 1, k, sizeof k, proof, (size_t)written,
                   work, sizeof work),
          WV_ACCEPTED);
}

/* A shared checker: its state, its work buffer, and what a call tells. */
static uint8_t state[WV_SHARED_STATE], shared_work[WV_SHARED_WORK];
static uint32_t checked;
static uint8_t verdicts[WV_MAX_CALLERS];

/* An entry. A refused one leaves the state as it was. */
static void enter(uint32_t caller, const uint64_t places[8],
                  const uint8_t *buffer, size_t buffer_len, size_t work_len,
                  uint32_t answer)
{
    static uint8_t before[WV_SHARED_STATE];
    const uint8_t left = work_len < sizeof shared_work
        || answer == WV_REFUSED_CALLER || answer == WV_REFUSED_WAITING
        || answer == WV_REFUSED_LENGTH ? 0xee : 0;

    memcpy(before, state, sizeof state);
    memset(shared_work, 0xee, sizeof shared_work);
    equal("shared enter",
          wv_shared_enter(state, caller, places, buffer, buffer_len,
                          shared_work, work_len), answer);
    if (answer != WV_ACCEPTED)
        equal("its state", memcmp(before, state, sizeof state) == 0, 1);
    equal("its work buffer", all(shared_work, sizeof shared_work, left), 1);
}

/* A call, with the verdicts of callers 0 and 3. A refused one leaves all. */
static void call(uint32_t quota, const uint8_t *buffer, size_t buffer_len,
                 size_t work_len, uint32_t answer, uint32_t count,
                 uint8_t first, uint8_t second)
{
    uint8_t expected[WV_MAX_CALLERS];

    memset(shared_work, 0xee, sizeof shared_work);
    memset(verdicts, 0xdd, sizeof verdicts);
    checked = 77;
    equal("shared check",
          wv_shared_check(state, quota, buffer, buffer_len, &checked, verdicts,
                          shared_work, work_len), answer);
    memset(expected, answer == WV_ACCEPTED ? 255 : 0xdd, sizeof expected);
    expected[0] = first;
    expected[3] = second;
    equal("its count", checked, count);
    equal("its verdicts", memcmp(verdicts, expected, sizeof expected) == 0, 1);
    equal("its work buffer",
          all(shared_work, sizeof shared_work, answer == WV_ACCEPTED ? 0 : 0xee),
          1);
}

/*
 * Callers 0 and 3 enter one proof of 4 instances: 0, 3 and 0 are served, then 3,
 * 0, 3, 0 and 3. Then caller 3 enters it again, and a gate's kind is changed: the
 * proof is finished by its first service.
 */
static void shared_checker(void)
{
    static uint8_t buffer[38 + 265];
    static const uint8_t root[WV_ROOT_LEN] = {4}, salt[WV_SALT_LEN] = {5};
    const uint8_t witness = 3;
    const size_t whole = WV_SHARED_WORK;
    uint64_t written = 0, places[8] = {0, 36, 36, 1, 37, 1, 38, 0};

    memcpy(buffer, k, sizeof k);
    buffer[36] = 1;
    buffer[37] = 'a';
    equal("prove",
          wv_prove(k, sizeof k, &witness, 1, buffer + 36, 1, buffer + 37, 1,
                   root, sizeof root, salt, sizeof salt, 4, 1, 2,
                   buffer + 38, 265, &written, work, sizeof work),
          WV_ACCEPTED);
    places[7] = written;
    memset(state, 0xee, sizeof state);
    equal("shared start", wv_shared_start(state), WV_ACCEPTED);
    equal("the empty state", all(state, sizeof state, 0), 1);
    call(1, buffer, sizeof buffer, whole, WV_REFUSED_NONE_WAITING, 77, 0xdd, 0xdd);
    call(0, buffer, sizeof buffer, 0, WV_REFUSED_COUNTS, 77, 0xdd, 0xdd);
    call(513, buffer, sizeof buffer, 0, WV_REFUSED_COUNTS, 77, 0xdd, 0xdd);
    enter(16, places, buffer, sizeof buffer, whole, WV_REFUSED_CALLER);
    enter(0, places, buffer, 37 + (size_t)written, whole, WV_REFUSED_LENGTH);
    enter(0, places, buffer, sizeof buffer, whole - 1, WV_REFUSED_LENGTH);
    places[7] = 0;
    enter(0, places, buffer, sizeof buffer, whole, WV_REFUSED_PROOF_HEADER);
    places[7] = written;
    enter(3, places, buffer, sizeof buffer, whole, WV_ACCEPTED);
    enter(3, places, buffer, sizeof buffer, whole, WV_REFUSED_WAITING);
    enter(0, places, buffer, sizeof buffer, whole, WV_ACCEPTED);
    call(3, buffer, sizeof buffer, whole - 1, WV_REFUSED_LENGTH, 77, 0xdd, 0xdd);
    call(3, buffer, sizeof buffer, whole, WV_ACCEPTED, 3, 255, 255);
    call(512, buffer, sizeof buffer, whole, WV_ACCEPTED, 5, WV_ACCEPTED,
         WV_ACCEPTED);
    call(512, buffer, sizeof buffer, whole, WV_REFUSED_NONE_WAITING, 77, 0xdd,
         0xdd);
    enter(3, places, buffer, sizeof buffer, whole, WV_ACCEPTED);
    buffer[20] = 4;
    call(512, buffer, sizeof buffer, whole, WV_ACCEPTED, 1, 255,
         WV_REFUSED_GATE);
}

/*
 * The challenge's input as the header says. With m 256 and tau 1 the first of 8
 * bytes is the instance, with n 16 the lower half of the next one is the party.
 */
static void challenge_input(void)
{
    uint8_t input[109] = {6};
    uint8_t stream[9], out[3] = {0xee, 0xee, 0xee};

    memset(input + 1, 'h', 32);
    memset(input + 33, 's', 32);
    input[66] = 1; /* m is 256 */
    input[67] = 1; /* tau */
    input[69] = 16; /* n */
    memset(input + 70, 'd', 32);
    memset(input + 102, 'y', 3);
    input[105] = 2; /* the message's length */
    memset(input + 107, 'm', 2);
    equal("the stream", wv_shake256(input, sizeof input, stream, sizeof stream),
          WV_ACCEPTED);
    equal("challenge",
          wv_challenge(256, 1, 16, input + 1, 32, input + 33, 32,
                       input + 70, 32, input + 102, 3, input + 107, 2,
                       out, sizeof out),
          WV_ACCEPTED);
    equal("the instance", out[0], stream[0]);
    equal("its upper byte", out[1], 0);
    equal("its party", out[2], stream[8] % 16u);
    equal("challenge without y",
          wv_challenge(256, 1, 16, input + 1, 32, input + 33, 32,
                       input + 70, 32, input + 102, 0, input + 107, 2,
                       out, sizeof out),
          WV_REFUSED_LENGTH);
    equal("challenge without a salt",
          wv_challenge(256, 1, 16, input + 1, 32, input + 33, 0,
                       input + 70, 32, input + 102, 3, input + 107, 2,
                       out, sizeof out),
          WV_REFUSED_LENGTH);
}

/* A file in the old form in a buffer of len bytes: nothing, if it is refused. */
static uint32_t upgrade(const uint8_t *old, size_t len)
{
    uint8_t out[40];
    uint64_t written = 77;
    uint32_t answer;
    size_t place, expected_len;

    memset(out, 0xee, sizeof out);
    answer = wv_upgrade(old, sizeof old_k, out, len, &written);
    expected_len = answer == WV_ACCEPTED ? sizeof k : 0;
    equal("its length", (size_t)written,
          answer == WV_ACCEPTED ? sizeof k : 77);
    equal("its circuit", (size_t)memcmp(out, k, expected_len), 0);
    for (place = expected_len; place < sizeof out; place++)
        equal("behind its circuit", out[place], 0xee);
    return answer;
}

static void old_files(void)
{
    equal("upgrade K", upgrade(old_k, 40), WV_ACCEPTED);
    equal("in just enough", upgrade(old_k, 36), WV_ACCEPTED);
    equal("in too little", upgrade(old_k, 35), WV_REFUSED_LENGTH);
    equal("a new file", upgrade(k, 40), WV_REFUSED_CIRCUIT_SIZES);
    equal("the slot of a good one", wv_upgrade_slot(old_k, sizeof old_k), 0);
}

/* K with another head and another link, and where its chain goes wrong. */
static void chain(uint8_t head, uint8_t link, uint32_t answer, uint32_t slot)
{
    uint8_t changed[sizeof k];
    uint32_t sizes[4];

    memcpy(changed, k, sizeof k);
    changed[12] = head;
    changed[32] = link;
    equal("read a chain", wv_read(changed, sizeof k, sizes), answer);
    equal("its slot", wv_fault_slot(changed, sizeof k), slot);
    memcpy(changed, old_k, sizeof old_k);
    changed[6] = head;
    changed[16] = link;
    equal("upgrade a chain", upgrade(changed, sizeof k), answer);
    equal("its slot", wv_upgrade_slot(changed, sizeof old_k), slot);
}

static void chains(void)
{
    chain(1, 0, WV_ACCEPTED, 0);
    chain(2, 0, WV_REFUSED_CHAIN_BEYOND, 0);
    chain(1, 2, WV_REFUSED_CHAIN_BEYOND, 1);
    chain(0, 0, WV_REFUSED_CHAIN_SHORT, 0);
    chain(1, 1, WV_REFUSED_CHAIN_LONG, 1);
}

/*
 * A text and what becomes of it in a buffer of len bytes: nothing, if it is
 * refused.
 */
static void bristol_in(const char *text, size_t len, uint32_t answer)
{
    uint8_t out[40];
    uint64_t written = 77;
    size_t expected_len = answer == WV_ACCEPTED ? sizeof k : 0;
    size_t place;

    memset(out, 0xee, sizeof out);
    equal("a text", wv_bristol((const uint8_t *)text, strlen(text), out, len,
                               &written), answer);
    equal("its length", (size_t)written,
          answer == WV_ACCEPTED ? sizeof k : 77);
    equal("its circuit", (size_t)memcmp(out, k, expected_len), 0);
    for (place = expected_len; place < sizeof out; place++)
        equal("behind its circuit", out[place], 0xee);
}

/* K as text is K again. */
static void texts(void)
{
    const char *text = "1 3\n2 1 1\n1 1\n\n2 1 0 1 2 AND\n";

    bristol_in(text, 40, WV_ACCEPTED);
    bristol_in(text, 36, WV_ACCEPTED);
    bristol_in(text, 35, WV_REFUSED_LENGTH);
    bristol_in("", 40, WV_REFUSED_TEXT);
    bristol_in("1 3\n2 1 1\n1 1\n2 1 0 1 2 AND", 40, WV_REFUSED_TEXT);
    bristol_in("1 3\n2 1 1\n1 1\n2 1 0 1 2 OR\n", 40, WV_REFUSED_GATE_KIND);
    bristol_in("100001 3\n", 40, WV_REFUSED_TEXT_LIMITS);
    bristol_in("100000 3\n", 40, WV_REFUSED_TEXT);
}

/* K joined with itself, from one buffer into len bytes, or with a part of it. */
static void join_in(size_t second_len, size_t len, uint32_t answer)
{
    static const uint8_t twice[56] = {
        2, 0, 0, 0, 2, 0, 0, 0, 2, 0, 0, 0, 1, 0, 0, 0,
        2, 0, 0, 0, 3, 0, 0, 0,
        2, 0, 0, 0, 0, 0, 0, 0, 1, 0, 0, 0, 2, 0, 0, 0,
        2, 0, 0, 0, 0, 0, 0, 0, 1, 0, 0, 0, 0, 0, 0, 0
    };
    uint8_t out[60];
    uint64_t written = 77;
    size_t expected_len = answer == WV_ACCEPTED ? sizeof twice : 0;
    size_t place;

    memset(out, 0xee, sizeof out);
    equal("join", wv_join(k, sizeof k, k, second_len, out, len, &written),
          answer);
    equal("its length", (size_t)written,
          answer == WV_ACCEPTED ? sizeof twice : 77);
    equal("its circuit", (size_t)memcmp(out, twice, expected_len), 0);
    for (place = expected_len; place < sizeof out; place++)
        equal("behind its circuit", out[place], 0xee);
}

static void joined(void)
{
    static const uint8_t one_input[20] = {1, 0, 0, 0, 1};
    uint8_t out[60];
    uint64_t written;

    join_in(sizeof k, 60, WV_ACCEPTED);
    join_in(sizeof k, 56, WV_ACCEPTED);
    join_in(sizeof k, 55, WV_REFUSED_LENGTH);
    join_in(sizeof k - 1, 60, WV_REFUSED_CIRCUIT_LENGTH);
    equal("join with one input",
          wv_join(k, sizeof k, one_input, sizeof one_input, out, sizeof out,
                  &written),
          WV_REFUSED_INPUT_COUNTS);
}

/* What is at a place of the six with one input and one gate, in len bytes. */
static void small_in(uint64_t place, size_t len, uint32_t answer,
                     size_t expected_len)
{
    uint8_t out[WV_MAX_SMALL_CIRCUIT];
    uint64_t written = 77;
    size_t byte;

    memset(out, 0xee, sizeof out);
    equal("small", wv_small(1, 1, 1, place, out, len, &written), answer);
    equal("its length", (size_t)written,
          answer == WV_ACCEPTED ? expected_len : 77);
    if (expected_len != 0)
        equal("its kind", out[20], (size_t)place % 3 + 1);
    for (byte = expected_len; byte < sizeof out; byte++)
        equal("behind its circuit", out[byte], 0xee);
}

static void small_circuits(void)
{
    uint8_t out[WV_MAX_SMALL_CIRCUIT];
    uint64_t written, place;

    for (place = 0; place < 6; place++)
        small_in(place, 36, WV_ACCEPTED, 36);
    small_in(5, 35, WV_REFUSED_LENGTH, 0);
    small_in(6, 36, WV_ACCEPTED, 0);
    small_in(6, 0, WV_ACCEPTED, 0);
    small_in(UINT64_MAX, 0, WV_ACCEPTED, 0);
    equal("the longest", 16 + 4 + 16 * WV_MAX_SMALL_GATES, WV_MAX_SMALL_CIRCUIT);
    equal("three inputs",
          wv_small(WV_MAX_SMALL_INPUTS + 1, 1, 1, 0, out, sizeof out, &written),
          WV_REFUSED_SMALL_SIZES);
    equal("two outputs", wv_small(1, 2, 1, 0, out, sizeof out, &written),
          WV_REFUSED_SMALL_SIZES);
    equal("three gates",
          wv_small(1, 1, WV_MAX_SMALL_GATES + 1, 0, out, sizeof out, &written),
          WV_REFUSED_SMALL_SIZES);
}

/* K with a list of len bytes in a buffer of out_len bytes. */
static uint32_t one_of(const uint8_t *list, size_t len, size_t out_len)
{
    /* one output and two entries: 1 + 1 + 2 * 2 gates at most */
    static uint8_t out[20 + 16 * 6];
    uint64_t written = 77;
    uint32_t answer = wv_one_of(k, sizeof k, list, len, out, out_len, &written);
    uint8_t witness, y;

    if (answer != WV_ACCEPTED) {
        equal("its length", (size_t)written, 77);
        return answer;
    }
    equal("its length", written >= 20 + 16 && written <= sizeof out, 1);
    for (witness = 0; witness < 4; witness++) {
        const uint8_t old = witness == 3;

        y = 77;
        equal("evaluate it", wv_evaluate(out, (size_t)written, &witness, 1,
                                         &y, 1), WV_ACCEPTED);
        equal("in the list", y, memchr(list, old, len) != NULL);
    }
    return answer;
}

static void lists(void)
{
    static const uint8_t list[17] = {0, 1, 1, 2};

    equal("no", one_of(list, 1, 116), WV_ACCEPTED);
    equal("yes", one_of(list + 1, 1, 116), WV_ACCEPTED);
    equal("yes twice", one_of(list + 1, 2, 116), WV_ACCEPTED);
    equal("yes or no", one_of(list, 2, 116), WV_ACCEPTED);
    equal("without room", one_of(list, 1, 20), WV_REFUSED_LENGTH);
    equal("an empty list", one_of(list, 0, 116), WV_REFUSED_OUTPUT_LIST);
    equal("a long list", one_of(list, WV_MAX_LISTED + 1, 116),
          WV_REFUSED_OUTPUT_LIST);
    equal("an unused bit", one_of(list + 2, 2, 116), WV_REFUSED_UNUSED_BITS);
}

int main(void)
{
    char version[40];
    uint32_t sizes[4];

    sprintf(version, "%d.%d.%d", WV_VERSION_MAJOR, WV_VERSION_MINOR,
            WV_VERSION_PATCH);
    equal("the version", (size_t)strcmp(version, WV_VERSION), 0);
    equal("the version of the archive", wv_version(),
          65536 * WV_VERSION_MAJOR + 256 * WV_VERSION_MINOR + WV_VERSION_PATCH);
    proof_lengths();
    numbers_out_of_limits();
    page_lengths();
    equal("the longest circuit",
          16 + 4 * WV_MAX_OUTPUTS + 16 * WV_MAX_GATES, WV_MAX_CIRCUIT);
    equal("read", wv_read(k, sizeof k, sizes), WV_ACCEPTED);
    equal("its inputs", sizes[0], 2);
    equal("its outputs", sizes[1], 1);
    equal("its gates", sizes[2], 1);
    equal("its AND gates", sizes[3], 1);
    equal("read a part", wv_read(k, 15, sizes), WV_REFUSED_CIRCUIT_LENGTH);
    equal("read the old form", wv_read(old_k, sizeof old_k, sizes),
          WV_REFUSED_CIRCUIT_SIZES);
    prove_in(wv_proof_len(2, 1, 1, 4, 1, 2), WV_SALT_LEN, WV_ACCEPTED);
    prove_in(wv_proof_len(2, 1, 1, 4, 1, 2) - 1, WV_SALT_LEN, WV_REFUSED_LENGTH);
    prove_in(wv_proof_len(2, 1, 1, 4, 1, 2), WV_SALT_LEN - 1, WV_REFUSED_LENGTH);
    prove_in(wv_proof_len(2, 1, 1, 4, 1, 2), WV_SALT_LEN + 1, WV_REFUSED_LENGTH);
    work_buffers();
    runs();
    digest();
    old_files();
    read_buffers_overlap();
    shared_checker();
    masters_and_cover();
    challenge_input();
    chains();
    texts();
    joined();
    small_circuits();
    lists();
    return failures == 0 ? 0 : 1;
}
