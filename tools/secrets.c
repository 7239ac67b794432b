/*
 * Calls the library with its secrets marked as undefined, under valgrind. Where
 * a branch or an index depends on an undefined bit, memcheck tells an error; so
 * none does, if there are no errors.
 *
 * What a refusal is declared to depend on is not marked: unused bits (7) are
 * defined. The other declared place is the comparison with y (10), in prove;
 * there the jumps are counted.
 *
 *   secrets CIRCUIT ROW ...   all calls, for each circuit with a row that it
 *                             accepts; exit status 1 if there is an error
 *   secrets control           branches on secrets, which must be errors
 */
#include <stdint.h>
#include <stdio.h>
#include <stdlib.h>
#include <string.h>

#include <valgrind/memcheck.h>

#include "wivulameno.h"

#define OCT(bits) (((size_t)(bits) + 7) / 8)
#define TAPE_ROW_MOST OCT(WV_MAX_INPUTS + 2 * WV_MAX_GATES)
#define ROW_MOST OCT(WV_MAX_GATES + WV_MAX_OUTPUTS)
#define PARTIES_MOST WV_MAX_PARTIES

static uint8_t circuit[WV_MAX_CIRCUIT];
static uint8_t witness[64];
static uint8_t y[32];
static uint8_t tapes[PARTIES_MOST * TAPE_ROW_MOST];
static uint8_t shown_tapes[PARTIES_MOST * TAPE_ROW_MOST];
static uint8_t corrections[OCT(WV_MAX_GATES)];
static uint8_t shown_corrections[OCT(WV_MAX_GATES)];
static uint8_t masked_inputs[64];
static uint8_t rows[PARTIES_MOST * ROW_MOST];
static uint8_t row[ROW_MOST];
static uint8_t work[WV_MAX_WORK];
static uint8_t marks[WV_MAX_WORK];

static size_t circuit_len;
static uint32_t sizes[4];
static int failures;
static unsigned told;

/* Marks the first bits as undefined; those behind them stay defined. */
static void hide_bits(uint8_t *bytes, size_t bits)
{
    size_t len = OCT(bits);

    memset(marks, 0xff, len);
    if (bits % 8 != 0)
        marks[len - 1] = (uint8_t)((1 << bits % 8) - 1);
    if (VALGRIND_SET_VBITS(bytes, marks, len) != 1)
        exit(2);
}

/* Is a bit of these bytes undefined? */
static int is_hidden(const uint8_t *bytes, size_t len)
{
    size_t i;

    if (VALGRIND_GET_VBITS(bytes, marks, len) != 1)
        exit(2);
    for (i = 0; i < len; i++)
        if (marks[i] != 0)
            return 1;
    return 0;
}

/* The answer must be 0, and no error may have been told since the last call. */
static void accepted(const char *what, uint32_t answer)
{
    unsigned errors;

    VALGRIND_MAKE_MEM_DEFINED(&answer, sizeof answer);
    errors = VALGRIND_COUNT_ERRORS;
    if (answer == 0 && errors == told) {
        printf("ok   %s\n", what);
        return;
    }
    printf("FAIL %s: answer %lu, %u errors\n", what, (unsigned long)answer,
           errors - told);
    told = errors;
    failures++;
}

/* An output before its call: what is undefined in it afterwards is from the call. */
static void is_known(uint8_t *bytes, size_t len)
{
    VALGRIND_MAKE_MEM_DEFINED(bytes, len);
}

/* What is made of a secret is one: else this test sees nothing. */
static void follows(const char *what, const uint8_t *bytes, size_t len)
{
    if (is_hidden(bytes, len))
        return;
    printf("FAIL %s does not depend on what is hidden\n", what);
    failures++;
}

/* The work buffer of a circuit; what it holds before a call does not matter. */
static size_t work_len(void)
{
    return wv_work_len(sizes[0], sizes[2]);
}

/* After a call nothing of a secret is left in it. */
static void is_clear(const char *what)
{
    size_t i, len = work_len();
    int hidden = is_hidden(work, len);

    VALGRIND_MAKE_MEM_DEFINED(work, len);
    for (i = 0; i < len && work[i] == 0; i++)
        ;
    if (i == len && !hidden)
        return;
    printf("FAIL %s leaves something in the work buffer\n", what);
    failures++;
}

static void read_file(const char *path, uint8_t *bytes, size_t most, size_t *len)
{
    FILE *file = fopen(path, "rb");

    if (file == NULL) {
        printf("cannot read %s\n", path);
        exit(2);
    }
    *len = fread(bytes, 1, most, file);
    fclose(file);
}

/* The tapes of n parties, with their unused bits defined and zero. */
static void hide_tapes(uint32_t n)
{
    uint32_t i;
    size_t used = sizes[0] + 2 * sizes[3], len = OCT(used);

    VALGRIND_MAKE_MEM_DEFINED(tapes, sizeof tapes);
    memset(tapes, 0, sizeof tapes);
    for (i = 0; i < n; i++)
        hide_bits(tapes + i * len, i == n - 1 ? used - sizes[3] : used);
}

static void test_evaluate(void)
{
    hide_bits(witness, sizes[0]);
    is_known(y, sizeof y);
    accepted("evaluate", wv_evaluate(circuit, circuit_len, witness,
                                     OCT(sizes[0]), y, OCT(sizes[1])));
    follows("y", y, OCT(sizes[1]));
}

static void test_run(uint32_t n)
{
    size_t tapes_len = n * OCT(sizes[0] + 2 * sizes[3]);
    size_t row_len = OCT(sizes[3] + sizes[1]);

    hide_tapes(n);
    is_known(corrections, sizeof corrections);
    is_known(masked_inputs, sizeof masked_inputs);
    is_known(rows, sizeof rows);
    is_known(y, sizeof y);
    accepted("prepare", wv_prepare(circuit, circuit_len, n, tapes, tapes_len,
                                   corrections, OCT(sizes[3]),
                                   work, work_len()));
    is_clear("prepare");
    follows("corrections", corrections, OCT(sizes[3]));
    hide_bits(corrections, sizes[3]);
    hide_bits(witness, sizes[0]);
    accepted("run", wv_run(circuit, circuit_len, n, witness, OCT(sizes[0]),
                           tapes, tapes_len, corrections, OCT(sizes[3]),
                           masked_inputs, OCT(sizes[0]), rows, n * row_len,
                           y, OCT(sizes[1]), work, work_len()));
    is_clear("run");
    follows("rows", rows, n * row_len);
    follows("masked inputs", masked_inputs, OCT(sizes[0]));
    follows("y of the run", y, OCT(sizes[1]));
}

/* Which party is hidden is no secret, nor where the run is cut. */
static void test_show(uint32_t n, uint32_t p, uint32_t cut)
{
    size_t tapes_len = n * OCT(sizes[0] + 2 * sizes[3]);
    size_t row_len = OCT(sizes[3] + sizes[1]);

    hide_tapes(n);
    hide_bits(witness, sizes[0]);
    is_known(shown_tapes, sizeof shown_tapes);
    is_known(shown_corrections, sizeof shown_corrections);
    is_known(masked_inputs, sizeof masked_inputs);
    is_known(row, sizeof row);
    accepted("show", wv_show(circuit, circuit_len, n, p, cut,
                             witness, OCT(sizes[0]), tapes, tapes_len,
                             shown_tapes, tapes_len,
                             shown_corrections, OCT(sizes[3]),
                             masked_inputs, OCT(sizes[0]), row, row_len,
                             work, work_len()));
    is_clear("show");
    follows("shown tapes", shown_tapes, tapes_len);
    follows("shown masked inputs", masked_inputs, OCT(sizes[0]));
    if (p != n - 1)
        follows("shown corrections", shown_corrections, OCT(sizes[3]));
    if (cut == sizes[2])
        follows("the shown row", row, row_len);
}

static void test_circuit(const char *circuit_path, const char *row_path)
{
    size_t len;
    uint32_t n;

    read_file(circuit_path, circuit, sizeof circuit, &circuit_len);
    read_file(row_path, witness, sizeof witness, &len);
    printf("%s\n", circuit_path);
    accepted("read", wv_read(circuit, circuit_len, sizes));
    test_evaluate();
    for (n = 2; n <= PARTIES_MOST; n *= 2) {
        test_run(n);
        test_show(n, n - 1, sizes[2]);
        test_show(n, 0, sizes[2] / 2);
    }
}

static void test_hashes(void)
{
    uint8_t data[300], out[300];

    hide_bits(data, 8 * sizeof data);
    is_known(out, sizeof out);
    accepted("SHA3-256", wv_sha3_256(data, sizeof data, out));
    follows("a digest", out, 32);
    is_known(out, sizeof out);
    accepted("SHAKE128", wv_shake128(data, sizeof data, out, sizeof out));
    follows("what SHAKE128 gives", out, sizeof out);
    is_known(out, sizeof out);
    accepted("SHAKE256", wv_shake256(data, sizeof data, out, sizeof out));
    follows("what SHAKE256 gives", out, sizeof out);
}

/* The salt is no secret: it stands in the proof. */
static const uint8_t salt[WV_SALT_LEN] = {5};

static void test_tree(void)
{
    uint8_t master[16], leaves[16 * PARTIES_MOST], siblings[96];

    hide_bits(master, 128);
    is_known(leaves, sizeof leaves);
    is_known(siblings, sizeof siblings);
    accepted("expand", wv_expand(7, PARTIES_MOST, salt, sizeof salt, master, 16,
                                 leaves, sizeof leaves));
    follows("leaves", leaves, sizeof leaves);
    accepted("open", wv_open(7, PARTIES_MOST, 5, salt, sizeof salt, master, 16,
                             siblings, sizeof siblings));
    follows("siblings", siblings, sizeof siblings);
}

/*
 * All masters, and the cover of leaves 1, 4 and 8 of nine. The root is hidden;
 * which leaves are hidden is no secret.
 */
static void test_masters(void)
{
    static const uint8_t leaves[6] = {8, 0, 1, 0, 4, 0};
    uint8_t root[16], masters[16 * 9], nodes[16 * 4];

    hide_bits(root, 128);
    is_known(masters, sizeof masters);
    is_known(nodes, sizeof nodes);
    accepted("masters", wv_masters(9, salt, sizeof salt, root, 16,
                                   masters, sizeof masters));
    follows("masters", masters, sizeof masters);
    accepted("cover", wv_cover(9, leaves, sizeof leaves, salt, sizeof salt,
                               root, 16, nodes, sizeof nodes));
    follows("nodes", nodes, sizeof nodes);
}

/* A page of three spare slots; roots are hidden, chains and counts are not. */
static void test_shelf(void)
{
    uint8_t page[12 + 3 * 18] = {3, 0, 0, 0, 1}, root[16];
    int i;

    page[12] = 2;
    page[30] = 3;
    for (i = 0; i < 3; i++) {
        hide_bits(root, 128);
        accepted("stock", wv_stock(page, sizeof page, root, 16));
    }
    follows("the page", page, sizeof page);
    for (i = 0; i < 3; i++) {
        is_known(root, 16);
        accepted("draw", wv_draw(page, sizeof page, (uint64_t)i, root));
        follows("the root", root, 16);
    }
    if (is_hidden(page, sizeof page)) {
        printf("FAIL a drawn root is left on the page\n");
        failures++;
    }
}

/*
 * The one value that a call makes of its secrets and then branches on is h*,
 * which is sent. It stands in the sponge's state after a permutation. Each call
 * of the permutation goes through here: after the chosen one, the state is
 * declared to be no secret. The number of that call depends on sizes alone, and
 * is found first, in a call without secrets.
 */
static unsigned permutations, declared_at;
static const uint8_t *sought;
static unsigned sought_at;

void I_WRAP_SONAME_FNNAME_ZZ(NONE, permutationZcZcpermute)(uint64_t *state);
void I_WRAP_SONAME_FNNAME_ZZ(NONE, permutationZcZcpermute)(uint64_t *state)
{
    OrigFn original;

    VALGRIND_GET_ORIG_FN(original);
    CALL_FN_v_W(original, state);
    permutations++;
    if (permutations == declared_at)
        VALGRIND_MAKE_MEM_DEFINED(state, 200);
    if (sought != NULL && memcmp(state, sought, 32) == 0)
        sought_at = permutations;
}

static const uint8_t message[4] = "abcd";

static uint32_t challenge(unsigned declared)
{
    static const uint8_t digest[32] = {7}, claimed[1] = {1};
    uint8_t hstar[32], out[3 * 20];
    uint32_t answer;

    hide_bits(hstar, 256);
    permutations = 0;
    declared_at = declared;
    answer = wv_challenge(40, 20, 16, hstar, sizeof hstar,
                          salt, sizeof salt, digest, sizeof digest, claimed, sizeof claimed,
                          message, sizeof message, out, sizeof out);
    declared_at = 0;
    return answer;
}

#define M 10
#define TAU 4
#define PROOF_MOST \
    (70 + 48 * M + TAU * (96 + OCT(WV_MAX_GATES) + 32 + 64 + ROW_MOST))

static uint8_t proof[PROOF_MOST];

static uint32_t prove(uint32_t n, const uint8_t *root)
{
    uint64_t written;

    permutations = 0;
    return wv_prove(circuit, circuit_len, witness, OCT(sizes[0]),
                    y, OCT(sizes[1]), message, sizeof message, root, 16,
                    salt, sizeof salt, M, TAU, n, proof, sizeof proof, &written,
                    work, work_len());
}

/*
 * Twice without secrets, to have h* and then to find its permutation; then with
 * witness and root hidden. What is left is refusal 10: the witness's output is
 * compared with y. That is a jump or two, and the same number for every circuit,
 * of one output or of 17, and for every n: none for an output, a gate, a party
 * or an instance.
 */
#define JUMPS_MOST 2
static unsigned declared_jumps;

static void test_prove(uint32_t n)
{
    uint8_t root[16], hstar[32];
    unsigned jumps;
    uint32_t answer;

    VALGRIND_MAKE_MEM_DEFINED(witness, sizeof witness);
    VALGRIND_MAKE_MEM_DEFINED(y, sizeof y);
    VALGRIND_MAKE_MEM_DEFINED(proof, sizeof proof);
    memset(root, 0x5a, sizeof root);
    accepted("prove, to have h*", prove(n, root));
    memcpy(hstar, proof + 6, sizeof hstar);
    sought = hstar;
    sought_at = 0;
    accepted("prove, to find it", prove(n, root));
    sought = NULL;
    declared_at = sought_at;
    hide_bits(witness, sizes[0]);
    hide_bits(root, 128);
    answer = prove(n, root);
    VALGRIND_MAKE_MEM_DEFINED(&answer, sizeof answer);
    is_clear("prove");
    jumps = VALGRIND_COUNT_ERRORS - told;
    told += jumps;
    declared_at = 0;
    if (declared_jumps == 0)
        declared_jumps = jumps;
    if (answer == 0 && sought_at != 0 && jumps == declared_jumps
        && jumps > 0 && jumps <= JUMPS_MOST) {
        printf("ok   prove, %u jump(s) for refusal 10\n", jumps);
    } else {
        printf("FAIL prove: answer %lu, h* at %u, %u jumps\n",
               (unsigned long)answer, sought_at, jumps);
        failures++;
    }
}

/* A branch on a bit of the witness, and a challenge of an h* that is hidden. */
static int control(void)
{
    unsigned first, second;

    witness[0] = 1;
    hide_bits(witness, 8);
    if (witness[0] & 1)
        printf("the bit is set\n");
    first = VALGRIND_COUNT_ERRORS;
    challenge(0);
    second = VALGRIND_COUNT_ERRORS;
    return first == 1 && second > 1 ? 0 : 1;
}

int main(int argc, char **argv)
{
    int i;

    if (!RUNNING_ON_VALGRIND) {
        printf("this test runs under valgrind\n");
        return 2;
    }
    if (argc == 2 && strcmp(argv[1], "control") == 0)
        return control();
    if (argc < 3 || argc % 2 == 0)
        return 2;
    for (i = 1; i + 1 < argc; i += 2) {
        test_circuit(argv[i], argv[i + 1]);
        test_prove(2);
        test_prove(16);
        test_prove(PARTIES_MOST);
    }
    test_hashes();
    test_tree();
    test_masters();
    test_shelf();
    accepted("challenge of a declared h*", challenge(1));
    return failures == 0 ? 0 : 1;
}
