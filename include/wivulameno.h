/*
 * wivulameno: functions over lent buffers, in the static library
 * libwivulameno.a, for x86-64 Linux.
 *
 * Every function of the library returns 0 (WV_ACCEPTED) for success, or the
 * number of a refusal; only wv_fault_slot and wv_upgrade_slot tell a slot
 * instead. A refused call leaves every lent byte as it was, but for a work
 * buffer (below), which it may leave all zero.
 *
 * A lent buffer is a pointer and its length in bytes. The pointer is valid for
 * that length and is never NULL, not even for length 0. An output without a
 * length (sizes, written, digest, root, state, checked, verdicts) is a buffer of
 * its type's size. A const buffer is only read; of another buffer, no byte outside
 * of its length is read or written. In one call, a buffer that is written overlaps
 * nothing else that is lent. Buffers that are only read may be the same or
 * overlap.
 *
 * The library has no heap and no memory of its own. wv_prepare, wv_run, wv_show,
 * wv_replay, wv_prove and wv_check are lent a work buffer as their last one, of
 * 64 (I + G) + 4096 bytes or more for a circuit of I inputs and G gates:
 * wv_work_len gives that, and WV_MAX_WORK is enough for every circuit. A shorter
 * one is refused with 6 directly after the circuit is read, before everything
 * else. A call that is refused for its circuit or by this test leaves the work
 * buffer as it was. Every other call, refused or not, leaves all of it zero,
 * however long it is. What it holds before does not matter, so one buffer can be
 * used for one call after the other. It may be static or allocated and needs no
 * alignment. All of it is cleared at every such call: for a small circuit lend
 * wv_work_len bytes rather than WV_MAX_WORK. During a call it holds secrets.
 * wv_shared_enter and wv_shared_check are lent one too, of WV_SHARED_WORK bytes or
 * more, and test it before they read a circuit.
 *
 * Secrets. The work buffer holds tapes, masks and shares only during a call. What
 * a call leaves below the caller's frame on the stack (seeds of hidden parties,
 * say) the library cannot take away. A host whose stack may be read by others
 * later burns it after each call that is lent a secret: a witness, tapes (but those
 * of wv_replay, which were shown), a root, a master, a page. It calls, from the same
 * function and at once, one that is not inlined and overwrites WV_MAX_STACK bytes of
 * the stack; no call takes more.
 * The thread needs room for that and for its own frames.
 * libgcrypt does the same. With gcc or clang:
 *
 *   __attribute__((noinline)) static void burn_stack(void)
 *   {
 *       volatile uint8_t bytes[WV_MAX_STACK];
 *       size_t i;
 *
 *       for (i = 0; i < sizeof bytes; i++)
 *           bytes[i] = 0;
 *   }
 */
#ifndef WIVULAMENO_H
#define WIVULAMENO_H

#include <stddef.h>
#include <stdint.h>

#ifdef __cplusplus
extern "C" {
#endif

#define WV_VERSION_MAJOR 0
#define WV_VERSION_MINOR 1
#define WV_VERSION_PATCH 0
#define WV_VERSION "0.1.0"

/*
 * The version of the archive that is linked, as 65536 times its major number, 256
 * times its minor number and its patch number. It belongs to the header with these.
 */
uint32_t wv_version(void);

/*
 * What a function returns. A number means the same in all; there is no 4.
 */
enum wv_answer {
    /* done; from wv_check: the proof is accepted */
    WV_ACCEPTED = 0,
    /* the circuit's length is not what its header asks for */
    WV_REFUSED_CIRCUIT_LENGTH = 1,
    /* more inputs, outputs or gates than allowed, or no input or no output */
    WV_REFUSED_CIRCUIT_SIZES = 2,
    /* a gate record has an unknown kind or a field that should be zero */
    WV_REFUSED_GATE = 3,
    /* a gate reads a wire not written by then, or an output is no wire */
    WV_REFUSED_WIRE = 5,
    /* an input or a buffer has not the length that is asked for */
    WV_REFUSED_LENGTH = 6,
    /* a bit that must be zero is not */
    WV_REFUSED_UNUSED_BITS = 7,
    /* the number of instances, of chosen ones or of parties is not allowed, or
       the quota of a call to a shared checker */
    WV_REFUSED_COUNTS = 8,
    /* there is no such party or leaf, no leaf is hidden, or the cut is behind
       the last gate */
    WV_REFUSED_PARTY = 9,
    /* the output is not the claimed one */
    WV_REFUSED_OUTPUT = 10,
    /* the proof does not begin with a proof's header */
    WV_REFUSED_PROOF_HEADER = 11,
    /* the proof's length is not what its challenge asks for */
    WV_REFUSED_PROOF_LENGTH = 12,
    /* the proof does not fit its own digest */
    WV_REFUSED_PROOF_DIGEST = 13,
    /* the shelf page is damaged */
    WV_REFUSED_UNSOUND = 14,
    /* the shelf page is not the present one: its draws are not the count */
    WV_REFUSED_ANOTHER_COUNT = 15,
    /* the shelf has no root ready */
    WV_REFUSED_EMPTY = 16,
    /* the shelf has no room for another root */
    WV_REFUSED_FULL = 17,
    /* the shelf has counted as many draws as it can */
    WV_REFUSED_SPENT = 18,
    /* a link of the chain leads beyond the last slot; see wv_fault_slot */
    WV_REFUSED_CHAIN_BEYOND = 19,
    /* the chain ends before every slot is visited; see wv_fault_slot */
    WV_REFUSED_CHAIN_SHORT = 20,
    /* the chain goes on after as many slots as there are; see wv_fault_slot */
    WV_REFUSED_CHAIN_LONG = 21,
    /* a text breaks the rules of Bristol Fashion; see wv_bristol */
    WV_REFUSED_TEXT = 22,
    /* a gate of a text is none of XOR, AND and INV */
    WV_REFUSED_GATE_KIND = 23,
    /* a text has more gates, inputs or outputs than allowed, or no input or no
       output */
    WV_REFUSED_TEXT_LIMITS = 24,
    /* two circuits have different numbers of inputs; see wv_join */
    WV_REFUSED_INPUT_COUNTS = 25,
    /* there is no such caller of a shared checker; see wv_shared_enter */
    WV_REFUSED_CALLER = 26,
    /* the caller has a proof waiting; see wv_shared_enter */
    WV_REFUSED_WAITING = 27,
    /* no proof is waiting; see wv_shared_check */
    WV_REFUSED_NONE_WAITING = 28,
    /* the sizes are not those of a small circuit; see wv_small */
    WV_REFUSED_SMALL_SIZES = 29,
    /* a list of outputs is empty or has more than 16; see wv_one_of */
    WV_REFUSED_OUTPUT_LIST = 30
};

/*
 * The limits. Those of circuit, work buffer, stack, message and proof, and each
 * _LEN, are bytes.
 */
#define WV_MAX_INPUTS 512        /* a circuit has 1 to 512 inputs, */
#define WV_MAX_OUTPUTS 256       /* 1 to 256 outputs */
#define WV_MAX_GATES 100000      /* and 0 to 100000 gates */
#define WV_MAX_CIRCUIT 1601040   /* the longest circuit */
#define WV_MAX_SMALL_INPUTS 2    /* wv_small lists circuits of 1 or 2 inputs */
#define WV_MAX_SMALL_GATES 2     /* and of 0 to 2 gates, */
#define WV_MAX_SMALL_CIRCUIT 52  /* of which this is the longest */
#define WV_MAX_LISTED 16         /* wv_one_of is lent 1 to 16 outputs */
#define WV_MAX_WORK 6436864      /* a work buffer for every circuit */
#define WV_MAX_STACK 98304       /* no call takes more of the stack */
#define WV_MAX_PARTIES 64        /* there are 2, 4, 8, 16, 32 or 64 parties */
#define WV_MAX_INSTANCES 512     /* a proof has 2 to 512 instances */
#define WV_MAX_INSTANCE_NUMBER 65535
#define WV_MAX_MESSAGE 4096      /* the longest message */
#define WV_PROOF_HEADER_LEN 70
#define WV_MAX_PROOF 12889582    /* room for every proof; see wv_proof_len */
#define WV_MAX_CALLERS 16        /* a shared checker has callers 0 to 15 */
#define WV_MAX_QUOTA 512         /* and checks 1 to 512 instances in a call; */
#define WV_SHARED_STATE 7537     /* its state */
#define WV_SHARED_WORK 6436864   /* and its work buffer */
#define WV_ROOT_LEN 16           /* also of a master and of a leaf */
#define WV_SALT_LEN 32
#define WV_DIGEST_LEN 32
#define WV_MAX_SLOTS 255         /* a shelf page has 1 to 255 slots */
#define WV_MAX_DRAWS 4294967295u /* a shelf counts so many draws */

/*
 * Writes the SHA3-256 digest (FIPS 202) of the data to digest, 32 bytes.
 * Refuses nothing.
 */
uint32_t wv_sha3_256(const uint8_t *data, size_t len,
                     uint8_t digest[WV_DIGEST_LEN]);

/*
 * Fills out with SHAKE128 (FIPS 202) of the data. Any two lengths are good, 0
 * too. Refuses nothing.
 */
uint32_t wv_shake128(const uint8_t *data, size_t len,
                     uint8_t *out, size_t out_len);

/*
 * Fills out with SHAKE256 (FIPS 202) of the data. Any two lengths are good, 0
 * too. Refuses nothing.
 */
uint32_t wv_shake256(const uint8_t *data, size_t len,
                     uint8_t *out, size_t out_len);

/*
 * A circuit file is numbers of 32 bits, little-endian. First I (inputs, 1 to
 * 512), O (outputs, 1 to 256), G (gates, 0 to 100000) and the slot of the first
 * gate. Then O wire numbers, one for each output. Then G records of four numbers,
 * in slots 1 to G: the kind (1 XOR, 2 AND, 3 INV), wires a and b, and the slot of
 * the next gate (0 after the last). INV reads a, and its b is 0. Wires 0 to I - 1
 * are the inputs; slot k writes wire I + k - 1.
 *
 * Every function that is lent a circuit, but wv_fault_slot, refuses it in this
 * order:
 *    1  it is shorter than 16 bytes
 *    2  I, O or G is out of its limits
 *    1  its length is not 16 + 4 O + 16 G
 *    3  a record with another kind, or INV with b not 0
 *   19  a link leads beyond slot G
 *   20  a link is 0 before G slots are visited
 *   21  a link is not 0 after G slots
 *    5  a gate reads a wire that is not written by then, or an output is no
 *       wire
 *
 * The links are the one in the head and then that of each slot as the chain
 * leads to it. Of 19, 20 and 21 the first on this way is given, 19 where a link
 * is wrong by 19 and by 21. A slot that is visited twice counts twice.
 *
 * Bits are packed lowest first. The unused bits of a last byte are zero.
 */

/*
 * Reads a circuit and writes I, O, G and the number of its AND gates to sizes,
 * in this order. Refuses a circuit as above.
 */
uint32_t wv_read(const uint8_t *circuit, size_t circuit_len,
                 uint32_t sizes[4]);

/*
 * Tells where the chain of a circuit goes wrong: if wv_read refuses it with 19,
 * 20 or 21, returns the slot that holds the offending link, 0 for the head. For
 * every other circuit it returns 0.
 */
uint32_t wv_fault_slot(const uint8_t *circuit, size_t circuit_len);

/*
 * Writes the outputs of the circuit for the witness to y. The witness is I bits
 * in I / 8 bytes, rounded up; y is O bits in O / 8 bytes, rounded up. Refuses a
 * circuit as above, then:
 *   6  the length of the witness or of y is not that
 *   7  an unused bit of the witness is not zero
 */
uint32_t wv_evaluate(const uint8_t *circuit, size_t circuit_len,
                     const uint8_t *witness, size_t witness_len,
                     uint8_t *y, size_t y_len);

/*
 * Converts a circuit in the published format Bristol Fashion. Writes a circuit
 * file as above to the start of out, and its length to written; the bytes of
 * out beyond that length stay as they were. WV_MAX_CIRCUIT bytes are room for
 * every circuit.
 *
 * The text is lines that end in LF, the last one too. Empty lines are skipped.
 * A line is tokens with one space between them and nothing before or behind;
 * CR and tab are bytes like others. A number is 1 to 9 decimal digits without a
 * leading zero; 0 is a number too.
 *
 *   line 1  G, the gates, and the number of wires
 *   line 2  the number of input groups and the size of each; I is their sum, and
 *           the wires number I + G
 *   line 3  the same of the outputs; O, their sum, is at most I + G
 *   then    G gate lines: 2 1 a b c XOR, 2 1 a b c AND or 1 1 a c INV
 *
 * A gate reads a and b, each an input or written on a line above. It writes c,
 * which is I to I + G - 1 and is written once. Wires 0 to I - 1 are the inputs,
 * all groups one after the other; the last O wires are the outputs.
 *
 * In the circuit file, the gate that writes wire w is in slot w - I + 1, and the
 * chain follows the text. Lines are tested in their order, an end too early
 * after all of them:
 *   22  a line is not as above, or is one too many, or one is missing
 *   23  a gate line has another kind, which is what follows its last space, or
 *       the whole line if it has none; tested before 22 on a gate line
 *   24  G is above 100000, I is not 1 to 512 or O is not 1 to 256; tested after 22
 *       on its line
 * Then:
 *    6  out is shorter than the circuit file
 */
uint32_t wv_bristol(const uint8_t *text, size_t text_len,
                    uint8_t *out, size_t out_len, uint64_t *written);

/*
 * Converts a circuit file of the old form, which earlier versions read. Writes
 * the same circuit, with the same slots, chain and meaning, as a file of the form
 * above to the start of out, and its length to written; the bytes of out beyond
 * that length stay as they were. The file is twice as long as the old one.
 *
 * The old form had numbers of 16 bits, little-endian: I, O, G (0 to 4096) and the
 * slot of the first gate; O wire numbers; then records of 8 bytes: a kind byte, a
 * zero byte, a, b and the next slot. It is refused as it was by its own reading:
 *    1  it is shorter than 8 bytes
 *    2  I, O or G is out of its limits
 *    1  its length is not 8 + 2 O + 8 G
 *    3  a record with another kind, a nonzero second byte, or INV with b not 0
 *   19, 20, 21 and 5 as above
 * Then:
 *    6  out is shorter than the circuit file
 */
uint32_t wv_upgrade(const uint8_t *old, size_t old_len,
                    uint8_t *out, size_t out_len, uint64_t *written);

/*
 * As wv_fault_slot, for a file of the old form: where wv_upgrade refuses it with
 * 19, 20 or 21, returns the slot that holds the offending link, 0 for the head.
 * For every other file it returns 0.
 */
uint32_t wv_upgrade_slot(const uint8_t *old, size_t old_len);

/*
 * Joins two statements on one row: of two circuits with the same I makes one,
 * which gives the first's outputs and then the second's. Writes its file to the
 * start of out, and its length to written; the bytes of out beyond that length
 * stay as they were. The file is 16 bytes shorter than the two together. A
 * circuit may be joined with itself: both may be one buffer.
 *
 * With G1 for the first's gates, slots 1 to G1 are the first's, and the second's
 * slot k is slot G1 + k. The second's links other than 0, its head among them,
 * and its wires from I on go up by G1. The first's last link, or its head if it
 * has no gates, leads where the second's head does. For every witness the outputs
 * are those of both, and the AND gates are as many as both have.
 *
 * Refuses the first circuit as above, then the second one as above, then:
 *   25  their numbers of inputs differ
 *    2  together they have more than 256 outputs or more than 100000 gates
 *    6  out is shorter than the circuit file
 */
uint32_t wv_join(const uint8_t *first, size_t first_len,
                 const uint8_t *second, size_t second_len,
                 uint8_t *out, size_t out_len, uint64_t *written);

/*
 * Asks whether a row matches one of several outputs, without telling which. Of a
 * circuit and a list of its outputs makes a circuit with the same inputs and a
 * single output, which is 1 exactly if the old output is in the list. Writes its
 * file to the start of out, and its length to written; the bytes of out beyond
 * that length stay as they were.
 *
 * The list is N outputs, 1 to 16, one after the other, each of O bits in O / 8
 * bytes, rounded up. An output may be listed twice. At most O + N (O + 1) gates
 * are added to the G of the circuit, so that 20 + 16 (G + O + N (O + 1)) bytes are
 * room for the file; docs/one-of.md says which gates.
 *
 * Refuses a circuit as above, then:
 *   30  the list has no bytes, or more than 16 outputs have
 *    6  its length is no multiple of the bytes of an output
 *    7  an unused bit of an output in it is not zero
 *    2  G + O + N (O + 1) is above 100000; an output that is listed twice counts
 *       twice
 *    6  out is shorter than the circuit file
 */
uint32_t wv_one_of(const uint8_t *circuit, size_t circuit_len,
                   const uint8_t *list, size_t list_len,
                   uint8_t *out, size_t out_len, uint64_t *written);

/*
 * Every small circuit in turn, for a test bench. The legal circuit files with
 * these I, O and G, where I is 1 or 2, O is 1 and G is 0, 1 or 2, come in
 * ascending order, compared byte by byte from the first, each exactly once, from
 * place 0 on. Writes the file at the place to the start of out, and its length to
 * written; the bytes of out beyond that length stay as they were.
 * WV_MAX_SMALL_CIRCUIT bytes are room for each. At every place after the last one
 * returns 0, writes 0 to written, and leaves out as it was: the last has passed.
 *
 *        G = 0  G = 1  G = 2
 *   I = 1    1      6    180
 *   I = 2    2     30   1680
 *
 * Refuses in this order:
 *   29  I, O or G is another one
 *    6  there is a file at the place, and out is shorter
 */
uint32_t wv_small(uint32_t inputs, uint32_t outputs, uint32_t gates,
                  uint64_t place,
                  uint8_t *out, size_t out_len, uint64_t *written);

/*
 * A run of a circuit by n parties; n is 2, 4, 8, 16, 32 or 64, and A is the
 * number of AND gates. Each length below is a number of bits in that / 8 bytes,
 * rounded up; the unused bits of a last byte are zero.
 *
 *   witness        I bits
 *   tapes          n rows, party 0 first, each of I + 2 A bits in bytes of its
 *                  own: I input masks, then A output masks of AND gates in
 *                  chain order, then A product shares. The last party has no
 *                  product shares: its last A bits are unused, and zero
 *   corrections    A bits, the product shares of the last party
 *   masked inputs  I bits
 *   rows           n broadcast rows, party 0 first, each of A + O bits in bytes
 *                  of its own: a bit for each AND gate in chain order, then the
 *                  party's mask shares of the outputs
 *   y              O bits
 *
 * A showing hides one party p and has four parts: the tapes with row p all
 * zero, the corrections (all zero if p is the last party), the masked inputs,
 * and the broadcast row of p.
 *
 * Each of these functions is lent a work buffer, as the top of this file says.
 */

/*
 * The least length of the work buffer for a circuit of I inputs and G gates:
 * 64 (I + G) + 4096. 0 if a number is out of its limits.
 */
static inline size_t wv_work_len(uint32_t inputs, uint32_t gates)
{
    if (inputs < 1 || inputs > WV_MAX_INPUTS || gates > WV_MAX_GATES)
        return 0;
    return 64 * ((size_t)inputs + gates) + 4096;
}

/*
 * Writes the corrections of the tapes of n parties to corrections. Refuses a
 * circuit as above, then:
 *   6  the work buffer is shorter than wv_work_len says
 *   8  n is not 2, 4, 8, 16, 32 or 64
 *   6  the length of the tapes or of corrections is not as above
 *   7  an unused bit of the tapes is not zero
 */
uint32_t wv_prepare(const uint8_t *circuit, size_t circuit_len, uint32_t n,
                    const uint8_t *tapes, size_t tapes_len,
                    uint8_t *corrections, size_t corrections_len,
                    uint8_t *work, size_t work_len);

/*
 * Runs the circuit for the witness, with the corrections as lent, right or
 * wrong. Writes the masked inputs, the n broadcast rows, and the outputs of the
 * run to y. Refuses a circuit as above, then:
 *   6  the work buffer is shorter than wv_work_len says
 *   8  n is not 2, 4, 8, 16, 32 or 64
 *   6  the length of the witness, the tapes, the corrections, masked_inputs,
 *      rows or y is not as above
 *   7  an unused bit of the witness, the tapes or the corrections is not zero
 */
uint32_t wv_run(const uint8_t *circuit, size_t circuit_len, uint32_t n,
                const uint8_t *witness, size_t witness_len,
                const uint8_t *tapes, size_t tapes_len,
                const uint8_t *corrections, size_t corrections_len,
                uint8_t *masked_inputs, size_t masked_inputs_len,
                uint8_t *rows, size_t rows_len,
                uint8_t *y, size_t y_len,
                uint8_t *work, size_t work_len);

/*
 * Writes the showing of a run that hides party p, cut after the first gates of
 * the chain, as many as cut says. The corrections are made from the tapes. The
 * cut G shows the whole row of p; a lower one shows the bits of the AND gates
 * that were passed, and the rest of the row is zero. Refuses a circuit as
 * above, then:
 *   6  the work buffer is shorter than wv_work_len says
 *   8  n is not 2, 4, 8, 16, 32 or 64
 *   9  p is not below n, or cut is above G
 *   6  the length of the witness, the tapes, shown_tapes (as tapes),
 *      corrections, masked_inputs or row (one row) is not as above
 *   7  an unused bit of the witness or the tapes is not zero
 */
uint32_t wv_show(const uint8_t *circuit, size_t circuit_len,
                 uint32_t n, uint32_t p, uint32_t cut,
                 const uint8_t *witness, size_t witness_len,
                 const uint8_t *tapes, size_t tapes_len,
                 uint8_t *shown_tapes, size_t shown_tapes_len,
                 uint8_t *corrections, size_t corrections_len,
                 uint8_t *masked_inputs, size_t masked_inputs_len,
                 uint8_t *row, size_t row_len,
                 uint8_t *work, size_t work_len);

/*
 * Replays a run from the four parts of its showing that hides party p, and
 * writes the n broadcast rows to rows; row p is as lent. Refuses a circuit as
 * above, then:
 *    6  the work buffer is shorter than wv_work_len says
 *    8  n is not 2, 4, 8, 16, 32 or 64
 *    9  p is not below n
 *    6  the length of the tapes, the corrections, the masked inputs, the row
 *       (one row), y or rows is not as above
 *    7  an unused bit of the tapes, the corrections, the masked inputs, the row
 *       or y is not zero; or row p of the tapes is not all zero; or p is the
 *       last party and the corrections are not all zero
 *   10  the output of the replay is not y
 */
uint32_t wv_replay(const uint8_t *circuit, size_t circuit_len,
                   uint32_t n, uint32_t p,
                   const uint8_t *tapes, size_t tapes_len,
                   const uint8_t *corrections, size_t corrections_len,
                   const uint8_t *masked_inputs, size_t masked_inputs_len,
                   const uint8_t *row, size_t row_len,
                   const uint8_t *y, size_t y_len,
                   uint8_t *rows, size_t rows_len,
                   uint8_t *work, size_t work_len);

/*
 * A shelf is a page of S slots (1 to 255) that hold roots of 16 bytes, each to
 * be drawn once. All numbers are little-endian. The page is 12 + 18 S bytes: S,
 * the first ready slot, the first spare slot and a zero, 16 bits each; then
 * draws, 32 bits; then slots 1 to S, each the number of the next slot of its
 * chain (16 bits, 0 ends it) and a root. The ready chain and the spare chain
 * together meet every slot exactly once; a spare slot holds a root of zeros. A
 * page for which this does not hold is unsound, and is refused with 14.
 *
 * A new page: S, 0, 1, 0; draws as the log's count; slot k names slot k + 1,
 * the last one 0; all roots zero.
 *
 * What the host must do. A copy of an old page still holds roots that have been
 * drawn since. The page alone cannot tell, so the host keeps a log with the
 * count of accepted draws, at a place that no restore, snapshot or backup of
 * the page ever sets back, and passes that count to every draw. A draw with
 * another count than the page's draws is refused with 15. This holds only if
 * the log has counted every accepted draw, durably, before the next call, and
 * if nothing but these functions changes a page. For each draw, in this order:
 *
 *   1. Call wv_draw on the page in memory, with the log's count.
 *   2. Add 1 to the log's count, with a digest of the new page beside it, and
 *      wait until it is on disk.
 *   3. Write the new page beside the old one, wait until it is on disk, and put
 *      it in the place of the old one in one step (rename).
 *   4. Note in the log that the page is in place. Only now use the root.
 *
 * Never let a page get on disk before its draw is counted: it would be a page
 * that a backup can keep and that no log has counted, and it can hold a root
 * that is drawn later from another page.
 *
 * After a crash, and when a draw is refused with 15, compare the draws of the
 * page with the log's count:
 *
 *   - They are equal: this is the present page, or one from before a stocking,
 *     which lacks the roots that were stocked since.
 *   - The page is one draw behind, and the log does not say that the last page
 *     got in place: call wv_draw on a copy, with the count less 1. If the page
 *     that it leaves has the digest in the log, it is the present page: put it
 *     in place, and drop the root.
 *   - Else, with fewer draws than the count, the page is behind. The page is
 *     old: a copy was put back. It still holds roots that may have been used,
 *     and every draw on it is refused with 15. The log is right. Put the
 *     present page back, from wherever it was kept. If there is none, begin a
 *     new page without roots, its draws set to the log's count, and stock new
 *     roots.
 *   - With more draws than the count, the page is ahead. With the order above
 *     no crash and no old page puts a page ahead, only a log that was set back.
 *     Then no page can be trusted: the count, as it grows again, can agree with
 *     a page whose roots have been used. Write into the log, for good, that it
 *     was set back, so that no page put back later is drawn from. Delete the
 *     pages, and begin a new shelf: a new page, a new log, new roots.
 *
 * Never change the draws of a page, and never count the log down, to make the
 * two agree. Never put the counting off until the host's own work commits. This
 * is how a root goes out twice.
 *
 * wv_stock takes no count and cannot see an old page: a root stocked on one is
 * lost when the present page is put back. Save the page as in step 3 after a
 * stocking too. Each stocking counts as its own, so the same root stocked twice
 * can be drawn twice: stock each root once, keep no copy, and after a crash
 * take a new root rather than one that may be on the page.
 *
 * A page holds 255 roots at most. Stock new ones before it is empty: a prove
 * takes one each time.
 */

/* The length of a page of so many slots; 0 if it is not 1 to 255. */
static inline size_t wv_page_len(uint32_t slots)
{
    if (slots < 1 || slots > WV_MAX_SLOTS)
        return 0;
    return 12 + 18 * (size_t)slots;
}

/*
 * Writes the root to the first spare slot of the page and moves that slot to
 * the front of the ready chain. The page is changed in place. Refuses in this
 * order:
 *   14  the page is unsound
 *    6  the root is not of 16 bytes
 *   17  there is no spare slot
 */
uint32_t wv_stock(uint8_t *page, size_t page_len,
                  const uint8_t *root, size_t root_len);

/*
 * Writes the first ready root of the page to root, sets it to zeros in the
 * page, moves its slot to the front of the spare chain and adds 1 to draws. The
 * page is changed in place. Count is the count of the host's log; see above for
 * what the log must do before the next call. Refuses in this order:
 *   14  the page is unsound
 *   15  count is not the page's draws
 *   16  there is no ready root
 *   18  draws is 4294967295: this shelf is at its end. Delete its pages, and
 *       start a new page with a new log
 */
uint32_t wv_draw(uint8_t *page, size_t page_len, uint64_t count,
                 uint8_t root[WV_ROOT_LEN]);

/*
 * A tree of seeds has n leaves, one for each party; n is 2, 4, 8, 16, 32 or 64.
 * The number j of an instance is 0 to 65535. A wider number is refused, not cut
 * down. Never use 65535 for an instance: it is the number of the tree over the
 * masters (wv_masters), and wv_expand(65535, n, salt, root, ..) gives the masters
 * of n instances. The instances of a proof have 0 to m - 1.
 *
 * The salt of a proof is 32 bytes. It stands in every hash that makes nodes,
 * seeds, tapes and commitments, straight after its first byte, so that one search
 * cannot serve against the proofs of two salts. It is no secret: it stands in the
 * proof. Take random bytes, new ones for each proof.
 *
 * Node 1 of a tree is its master. Nodes 2 k and 2 k + 1 are the two halves of the
 * 32 bytes SHAKE128(2, salt, j, k, value of node k): a byte 2, the salt, and two
 * numbers of 16 bits, little-endian. Leaf i is node n + i.
 */

/*
 * Writes the n leaves of the tree of instance j over the master (16 bytes) to
 * leaves: 16 n bytes, party 0 first. Refuses in this order:
 *   8  j is above 65535, or n is not 2, 4, 8, 16, 32 or 64
 *   6  the length of the salt (32), of the master or of leaves is not that
 */
uint32_t wv_expand(uint32_t j, uint32_t n,
                   const uint8_t *salt, size_t salt_len,
                   const uint8_t *master, size_t master_len,
                   uint8_t *leaves, size_t leaves_len);

/*
 * Opens all leaves but that of party p: writes the siblings of the nodes on the
 * way from the top to leaf p to siblings, top first. These are 16 bytes for
 * each level: 16, 32, 48, 64, 80 or 96 bytes for n = 2, 4, 8, 16, 32 or 64.
 * Refuses in this order:
 *   8  j is above 65535, or n is not 2, 4, 8, 16, 32 or 64
 *   9  p is not below n
 *   6  the length of the salt (32), of the master (16) or of siblings is not that
 */
uint32_t wv_open(uint32_t j, uint32_t n, uint32_t p,
                 const uint8_t *salt, size_t salt_len,
                 const uint8_t *master, size_t master_len,
                 uint8_t *siblings, size_t siblings_len);

/*
 * The masters of the m instances of a proof (2 to 512) are the leaves of one
 * tree over the root (16 bytes). Its nodes have numbers: node 1 is the root, and
 * nodes 2 k and 2 k + 1 are the two halves of the 32 bytes SHAKE128(2, salt,
 * 65535, k, value of node k): a byte 2, the salt, and two numbers of 16 bits,
 * little-endian. With N for the least power of two that is at least m, the master
 * of instance j is leaf j, which is node N + j; leaves from m on are spare. The
 * number 65535 is this tree's: with it wv_expand and wv_open give its leaves and
 * nodes, so no instance has it.
 *
 * To hide some of the m leaves, nodes are opened instead of the root: each node
 * that has a leaf numbered under m and no hidden leaf at or below it while its
 * parent has a hidden one. From these nodes every other leaf numbered under m
 * follows, and no hidden one does; no fewer nodes do this.
 */

/*
 * Writes the m masters to masters: 16 m bytes, instance 0 first. Refuses in this
 * order:
 *   8  m is not 2 to 512
 *   6  the length of the salt (32), of the root or of masters is not that
 */
uint32_t wv_masters(uint32_t m, const uint8_t *salt, size_t salt_len,
                    const uint8_t *root, size_t root_len,
                    uint8_t *masters, size_t masters_len);

/*
 * Opens all leaves but the hidden ones: writes the values of the opened nodes to
 * nodes, 16 bytes each, in ascending order of their numbers. Hidden is a list
 * of leaves, 16 bits each, little-endian, in any order; a leaf may be there more
 * than once. If all m leaves are hidden, no node is opened, and nodes is of 0
 * bytes. Refuses in this order:
 *   8  m is not 2 to 512
 *   9  hidden has no leaf (0 bytes or 1), or one numbered m or above
 *   6  the salt is not of 32 bytes, the root is not of 16 bytes, nodes is not
 *      of 16 bytes for each opened node, or hidden has an odd number of bytes
 */
uint32_t wv_cover(uint32_t m, const uint8_t *hidden, size_t hidden_len,
                  const uint8_t *salt, size_t salt_len,
                  const uint8_t *root, size_t root_len,
                  uint8_t *nodes, size_t nodes_len);

/*
 * Derives the challenge of a proof: tau of m instances, each with its hidden
 * party. It covers hstar (32 bytes), the salt (32 bytes), the three numbers and
 * the whole statement: the SHA3-256 digest of the circuit file (32 bytes), y (1 to
 * 32 bytes, packed; unused bits are not tested) and the message (0 to 4096 bytes).
 * It is drawn from SHAKE256 of: a byte 6, hstar, the salt, m and tau (16 bits
 * each, little-endian), n (one byte), the digest, y, the length of the message
 * (16 bits), the message.
 * Writes 3 bytes to out for each chosen instance, in ascending order: its
 * number (16 bits, little-endian) and its hidden party (one byte). Refuses in
 * this order:
 *   8  m is not 2 to 512, tau is not 1 to m - 1, or n is not 2, 4, 8, 16, 32
 *      or 64
 *   6  hstar, the salt or the digest is not of 32 bytes, y is not of 1 to 32
 *      bytes, the message is longer than 4096 bytes, or out is not of 3 tau bytes
 */
uint32_t wv_challenge(uint32_t m, uint32_t tau, uint32_t n,
                      const uint8_t *hstar, size_t hstar_len,
                      const uint8_t *salt, size_t salt_len,
                      const uint8_t *digest, size_t digest_len,
                      const uint8_t *y, size_t y_len,
                      const uint8_t *message, size_t message_len,
                      uint8_t *out, size_t out_len);

/*
 * A proof says that its maker has a witness for which the circuit gives y. It
 * is bound to the circuit file, to y and to a message of 0 to 4096 bytes. There
 * are m instances (2 to 512) of a run by n parties (2, 4, 8, 16, 32 or 64); a
 * challenge (wv_challenge) chooses tau of them (1 to m - 1), each with one party
 * that stays hidden.
 *
 * All numbers are little-endian. A proof starts with m and tau (16 bits each),
 * n and a zero (one byte each), h* (32 bytes) and the salt (32). Then come the
 * nodes of the masters' tree that are opened (wv_cover) when the masters of the
 * chosen instances are hidden, 16 bytes each, in ascending order of their numbers.
 * Then the instances follow in ascending order. One that is not chosen has the
 * digest of its masked inputs and broadcasts (32 bytes). A chosen one has the
 * siblings of its tree (16 bytes for each level, top first), the corrections unless
 * the last party is hidden, the commitment of the hidden party (32), the masked
 * inputs, and the broadcast row of the hidden party.
 *
 * With oct(k) for k / 8, rounded up, and A for the number of AND gates, a proof
 * with c opened nodes has
 *
 *   70 + 16 c + 32 (m - tau)
 *      + tau (16 log2 n + oct(A) + 32 + oct(I) + oct(A + O))
 *
 * bytes, less oct(A) for each chosen instance that hides the last party. There
 * are at most m - tau opened nodes.
 */

/*
 * The room that wv_prove asks for: the bytes as above, with m - tau opened nodes
 * and no chosen instance that hides the last party. No proof is longer. 0 if a
 * number is out of its limits.
 */
static inline size_t wv_proof_len(uint32_t inputs, uint32_t outputs,
                                  uint32_t ands,
                                  uint32_t m, uint32_t tau, uint32_t n)
{
    size_t levels, chosen;

    if (inputs < 1 || inputs > WV_MAX_INPUTS
        || outputs < 1 || outputs > WV_MAX_OUTPUTS || ands > WV_MAX_GATES
        || m < 2 || m > WV_MAX_INSTANCES || tau < 1 || tau >= m
        || (n != 2 && n != 4 && n != 8 && n != 16 && n != 32
            && n != WV_MAX_PARTIES))
        return 0;
    levels = n == 2 ? 1 : n == 4 ? 2 : n == 8 ? 3 : n == 16 ? 4
             : n == 32 ? 5 : 6;
    chosen = 16 * levels + (ands + 7) / 8 + 32 + (inputs + 7) / 8
             + (ands + outputs + 7) / 8;
    return WV_PROOF_HEADER_LEN + 48 * (size_t)(m - tau) + tau * chosen;
}

/*
 * Proves that the circuit gives y for the witness. The root is 16 random bytes,
 * drawn from a shelf: a new root for each call, also after a refused one. Two
 * proofs from one root and one salt can show it. The salt is 32 bytes, as
 * above, and is written into the proof. Writes the proof to the start of proof, and
 * its length to written; the bytes of proof beyond that length stay as they were.
 * The work buffer is as the top of this file says. Refuses a circuit as above,
 * then:
 *    6  the work buffer is shorter than wv_work_len says
 *    8  m is not 2 to 512, tau is not 1 to m - 1, or n is not 2, 4, 8, 16, 32
 *       or 64
 *    6  the witness is not of I bits or y not of O bits, the message is longer
 *       than 4096 bytes, the root is not of 16 bytes, the salt not of 32, or
 *       proof has fewer bytes than wv_proof_len says
 *    7  an unused bit of the witness or of y is not zero
 *   10  the circuit does not give y for the witness
 */
uint32_t wv_prove(const uint8_t *circuit, size_t circuit_len,
                  const uint8_t *witness, size_t witness_len,
                  const uint8_t *y, size_t y_len,
                  const uint8_t *message, size_t message_len,
                  const uint8_t *root, size_t root_len,
                  const uint8_t *salt, size_t salt_len,
                  uint32_t m, uint32_t tau, uint32_t n,
                  uint8_t *proof, size_t proof_len, uint64_t *written,
                  uint8_t *work, size_t work_len);

/*
 * Checks a proof for the circuit, y and the message; 0 is accepted. The numbers
 * m, tau and n are those that the proof's first bytes say, and any within the
 * limits are accepted: a caller who asks for certain ones compares these bytes.
 * With m 2 and tau 1, every second guess passes. The challenge is that of the
 * proof's first bytes, the circuit file, y and the message: with another one of
 * these than the prover's it is drawn anew, and a proof that does not answer it
 * is refused with 12, 7, 10 or 13, whichever comes first. The work buffer is as
 * the top of this file says. Refuses a circuit as above, then:
 *    6  the work buffer is shorter than wv_work_len says
 *    6  y is not of O bits, or the message is longer than 4096 bytes
 *    7  an unused bit of y is not zero
 *   11  the proof is shorter than 70 bytes, its m, tau or n is out of the
 *       limits, or its zero byte is not zero
 *   12  its length is not that of the opened nodes and the parts that the
 *       challenge asks for
 *    7  an unused bit of corrections, masked inputs or a row in it is not zero
 *   10  the replay of a chosen instance has another output than y
 *   13  the h* over all instances is not the one in the proof
 */
uint32_t wv_check(const uint8_t *circuit, size_t circuit_len,
                  const uint8_t *y, size_t y_len,
                  const uint8_t *message, size_t message_len,
                  const uint8_t *proof, size_t proof_len,
                  uint8_t *work, size_t work_len);

/*
 * One checker that up to 16 callers share, so that a long proof does not hold up
 * the others. A caller, 0 to 15, has at most one proof waiting. The callers that
 * wait are served one instance of their proof each, in cyclic order, beginning
 * after the one served last, with 0 at first.
 *
 * The state is bytes that the host keeps from one call to the next; it may move
 * them or write them to a file. They need no alignment and hold no secret. Any
 * bytes are some state, so a damaged one does no harm but to its verdicts: keep
 * it where only those write who may decide what is accepted.
 *
 * The inputs of all proofs lie in one buffer, which is lent to every entry and
 * call and is only read; an entry names where. If the same bytes lie there in
 * every call until the proof is finished, its verdict is what wv_check answers to
 * them. A waiting proof whose bytes have changed so that an entry would refuse
 * them is finished with that number.
 *
 * The work buffer is WV_SHARED_WORK bytes or more. A refusal up to its test leaves
 * it as it was. Every other entry or call, refused or not, leaves all of it zero.
 */

/*
 * Writes the empty state: nobody waits, and nobody was served. Refuses nothing.
 */
uint32_t wv_shared_start(uint8_t state[WV_SHARED_STATE]);

/*
 * Enters the caller's proof, which then waits. places is where the circuit, y, the
 * message and the proof lie in the buffer, in this order: the place of its first
 * byte and its length for each. They may overlap. Refuses in this order:
 *   26  the caller is above 15
 *   27  it has a proof waiting
 *    6  an input is not wholly inside the buffer; an empty one may lie at its end
 *    6  the work buffer is shorter than WV_SHARED_WORK
 *   then whatever wv_check refuses the inputs with, but for 10 and 13
 */
uint32_t wv_shared_enter(uint8_t state[WV_SHARED_STATE], uint32_t caller,
                         const uint64_t places[8],
                         const uint8_t *buffer, size_t buffer_len,
                         uint8_t *work, size_t work_len);

/*
 * Checks instances of the waiting proofs until as many as the quota are checked
 * or nobody waits. Writes how many it checked to checked, and for each caller its
 * verdict of this call to verdicts: 0 if its proof is accepted, the number that it
 * is refused with, or 255 if it is not finished in this call or none was waiting.
 * A finished proof waits no more, and its caller may enter another. The refusal
 * that finishes a proof with changed bytes counts as an instance; so does 13 if
 * its m is not above the number of the next instance. Refuses in this order:
 *    8  the quota is not 1 to 512
 *   28  no proof is waiting
 *    6  the work buffer is shorter than WV_SHARED_WORK
 */
uint32_t wv_shared_check(uint8_t state[WV_SHARED_STATE], uint32_t quota,
                         const uint8_t *buffer, size_t buffer_len,
                         uint32_t *checked, uint8_t verdicts[WV_MAX_CALLERS],
                         uint8_t *work, size_t work_len);

#ifdef __cplusplus
}
#endif

#endif
