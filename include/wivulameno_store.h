/*
 * wivulameno_store: a shelf of roots in two files, a page and a log, for hosts
 * in C. In the static library libwivulameno_store.a, for x86-64 Linux.
 *
 * wivulameno.h has wv_stock and wv_draw on a page in memory, and what a host must
 * do around them so that no root goes out twice. This library does it: the same
 * files, written in the same order, as those of the Rust crate and of the
 * command wv, and any of them can go on where another one stopped.
 *
 * What holds, wherever a call is cut off, by a crash or by a kill:
 *
 *   - a root that wv_store_draw gave is counted in the log, on disk, and is given
 *     by no later call;
 *   - a call that is cut off costs one root at most;
 *   - an old page that is put back, with fewer draws than the log counts, is refused:
 *     with 15, or with WV_STORE_REPLACED.
 *
 * It rests on the host for these:
 *
 *   - The log lies where no restore, rollback or snapshot reaches it, and is never
 *     deleted, shortened or replaced by an older copy. A log and a page that are
 *     set back together cannot be told from the past.
 *   - Page and log are not copied to a second host that draws from them too.
 *   - A root that is stocked is 16 new random bytes, stocked once, of which no copy
 *     is kept; after an error another root is taken, not the same again.
 *   - The file system keeps what it said it wrote.
 *
 * Pointers. A name is a string that ends in a zero byte. A pointer to an output is
 * valid, aligned for its type, and overlaps nothing else that is lent. A store is
 * one that wv_store_create, wv_store_renew or wv_store_open gave and that was not
 * closed. Of a NULL pointer each function says what it does; none follows it. All
 * names and buffers are the caller's again when the call returns.
 *
 * Every function that returns uint32_t answers 0 for success, the number of one of
 * the library's refusals (enum wv_answer in wivulameno.h: 6, 14 to 18), or one of
 * enum wv_store_answer. A call that does not answer 0 leaves every lent byte as it
 * was, the outputs too.
 *
 * A store may be used by several threads: its calls wait for each other. Only
 * wv_store_close must not run beside another call on the same store. In a child
 * process made by fork, a store of the parent answers WV_STORE_STOPPED: close it,
 * and open the shelf there when the parent has closed it.
 *
 * This library has a heap, unlike libwivulameno.a. Where there is no memory left
 * the process is ended, as by abort. It installs no signal handler. It keeps what
 * it has read of a page in memory for the time of a call and does not clear that.
 * After wv_store_draw it overwrites the stack below the caller's frame, as
 * wivulameno.h tells a host to do.
 *
 * The archive has the functions of wivulameno.h in it, so a host links it alone:
 *
 *   cc host.c $(pkg-config --cflags --libs wivulameno-store)
 */
#ifndef WIVULAMENO_STORE_H
#define WIVULAMENO_STORE_H

#include "wivulameno.h"

#ifdef __cplusplus
extern "C" {
#endif

/* What a function answers beside 0 and the library's refusals. */
enum wv_store_answer {
    /* an argument is NULL, or the slots are not 1 to 255 */
    WV_STORE_ARGUMENT = 101,
    /* the shelf page is not there */
    WV_STORE_NO_PAGE = 102,
    /* the log is not there: this is never a count of 0 */
    WV_STORE_NO_LOG = 103,
    /* the shelf page is there already */
    WV_STORE_PAGE_EXISTS = 104,
    /* the log is there already, and had a page */
    WV_STORE_LOG_EXISTS = 105,
    /* the shelf page and the log must be two files */
    WV_STORE_SAME_FILE = 106,
    /* the shelf is open elsewhere, in this process or in another one */
    WV_STORE_BUSY = 107,
    /* the log is no log: it does not begin as one */
    WV_STORE_NOT_A_LOG = 108,
    /* a line of the log is damaged */
    WV_STORE_DAMAGED_LOG = 109,
    /* a file could not be read or written; wv_store_explain tells which */
    WV_STORE_FILE = 110,
    /* an earlier write failed, or the process was forked: open the shelf again */
    WV_STORE_STOPPED = 111,
    /* the page is from before a new page was begun under this log */
    WV_STORE_REPLACED = 112,
    /* page and log belong to different shelves */
    WV_STORE_FOREIGN = 113,
    /* the log has never seen this page */
    WV_STORE_UNKNOWN = 114,
    /* a fault in this library: open the shelf again */
    WV_STORE_FAULT = 115
};

/* How the page stands to the log. */
enum wv_store_page {
    /* it is the page of the log's last line */
    WV_STORE_PAGE_PRESENT = 0,
    /* it is from before some stockings: it is drawn from, without their roots */
    WV_STORE_PAGE_EARLIER = 1,
    /* it is old: refused with 15. Put the present page back */
    WV_STORE_PAGE_BEHIND = 2,
    /* it has more draws than the log counts, so the log was set back: refused
       with 15. Make a new shelf */
    WV_STORE_PAGE_AHEAD = 3,
    /* the log says that it was set back: refused with 15. Make a new shelf */
    WV_STORE_PAGE_SET_BACK = 4,
    /* as WV_STORE_REPLACED, WV_STORE_FOREIGN and WV_STORE_UNKNOWN */
    WV_STORE_PAGE_REPLACED = 5,
    WV_STORE_PAGE_FOREIGN = 6,
    WV_STORE_PAGE_UNKNOWN = 7
};

/* An open shelf. */
typedef struct wv_store wv_store;

/* What is on a shelf. */
struct wv_store_status {
    uint32_t slots;      /* the slots of the page */
    uint32_t ready;      /* those that hold a root */
    uint32_t draws;      /* the draws that the page has seen */
    uint32_t page;       /* how it stands to the log: enum wv_store_page */
    uint64_t count;      /* the draws that the log counts */
    uint64_t missing;    /* EARLIER: stockings that are not on the page;
                            BEHIND: draws that are not on it;
                            AHEAD: draws that the log does not know; else 0 */
    uint32_t unfinished; /* 1 if a call is at work or was cut off, else 0 */
    uint32_t answer;     /* what wv_store_draw would answer */
};

/*
 * Begins a shelf: a page without roots of so many slots (1 to 255) and its log, at
 * two names where there is no file, and opens it. Make it of 255 slots: of a page
 * with few slots the log cannot tell for certain whose it is. A log that never had
 * a page in place, left by a cut, is gone on with. The store is written to *store.
 */
uint32_t wv_store_create(const char *page, const char *log, uint32_t slots,
                         wv_store **store);

/*
 * For a page that is lost: begins a page without roots under the log that is there,
 * and opens it. From then on every page from before is refused.
 */
uint32_t wv_store_renew(const char *page, const char *log, uint32_t slots,
                        wv_store **store);

/*
 * Opens a shelf, and finishes what a cut left. Nobody else can open it until it is
 * closed or the process ends: WV_STORE_BUSY. Opens a shelf whose page is refused,
 * too; draws and stockings are then refused.
 */
uint32_t wv_store_open(const char *page, const char *log, wv_store **store);

/*
 * Puts a root on the shelf: 14 the page is damaged, 15 it is not the present one,
 * 6 the root is not of 16 bytes, 17 there is no room left. On disk when it answers
 * 0. After any other answer the root may be on the page or not: never stock it
 * again.
 */
uint32_t wv_store_stock(wv_store *store, const uint8_t *root, size_t root_len);

/*
 * Takes a root off the shelf and writes it to root, 16 bytes: 14 the page is
 * damaged, 15 it is not the present one, 16 no root is ready, 18 no draw can be
 * counted any more. The draw is counted, on disk, when it answers 0; after any
 * other answer no root was given. One root is for one call of wv_prove, also of a
 * refused one; then the host clears it.
 *
 * 15 has two causes, which wv_store_status tells apart. The page is behind: it is
 * old; put the present page back, or move it away and call wv_store_renew. The
 * page is ahead, or the log says that it was set back: no page of this shelf can be
 * trusted; delete them all and make a new shelf with a new log. The first stocking
 * or draw that meets a page ahead writes that into the log, for good.
 */
uint32_t wv_store_draw(wv_store *store, uint8_t root[WV_ROOT_LEN]);

/* Writes what is on an open shelf to *status. 14 if the page is damaged. */
uint32_t wv_store_status(wv_store *store, struct wv_store_status *status);

/*
 * The same of a shelf that is not opened here. Only reads, takes no lock, and can
 * be called beside a process that has the shelf open: WV_STORE_BUSY if that one
 * writes all the while.
 */
uint32_t wv_store_look(const char *page, const char *log,
                       struct wv_store_status *status);

/* Closes a store, which is not used again. NULL is no store: nothing is done. */
void wv_store_close(wv_store *store);

/*
 * What an answer of this library means: a sentence in English without its full
 * stop, for 0 and every number that a call can answer. Never NULL, and stays for
 * as long as the process lives.
 */
const char *wv_store_text(uint32_t answer);

/*
 * What the last call in this thread that did not answer 0 has found: a sentence in
 * UTF-8 with the file, the line or the number of draws, and with what to do. Writes
 * as much of it as fits into len bytes to text, with a zero byte behind it, and
 * returns the length of the whole sentence, as snprintf does. Writes nothing where
 * text is NULL or len is 0.
 */
size_t wv_store_explain(char *text, size_t len);

/* The version of this library: WV_VERSION of the header that it was made with. */
const char *wv_store_version(void);

#ifdef __cplusplus
}
#endif

#endif
