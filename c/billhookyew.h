/* Billhookyew: the proved XCP slave, for programs in C and C++.
 *
 * What the library promises of each call stands in docs/promises/xcp_c.md, clause by clause. It is proved for calls that keep
 * to what stands here: no proof sees the C side.
 *
 * ALL CALLS
 *   - No pointer is null, also where a length is 0.
 *   - What the pointers of one call point to doesn't overlap, is initialized (an xcp_answer too: `= XCP_ANSWER_INIT`
 *     once), stays as it is while the call runs, and is memory that may be written where the parameter isn't const.
 *   - No call from a signal handler, or from the forked child of a process with threads.
 *   - malloc, realloc and free are those of one allocator, and a block is aligned to each power of two up to 16 that
 *     divides its size.
 *
 * HANDLES (xcp_slave, xcp_reader, xcp_framer)
 *   - A handle begins as XCP_CLOSED. The library alone writes to it, and it is never copied: what lies behind it would
 *     have two owners.
 *   - A handle that was never opened, or was closed, owns nothing. Each call refuses it, and never follows it.
 *   - One call at a time for one handle. What takes an xcp_slave is called under a lock of yours, if more than one
 *     thread calls it. An xcp_reader or an xcp_framer is used by one thread, and needs no lock. Whoever hands a handle to
 *     another thread orders that by a lock, the start or the join of a thread, or a sequentially consistent atomic.
 *   - Different handles need no order among each other: readers read while the slave publishes.
 *
 * WHAT A CALL COSTS, AND INTERRUPTS
 *   - Each call is proved to end, and no call waits for another thread: none takes a lock. No proof says after how many
 *     nanoseconds or instructions. What each call took on one machine stands in docs/measurements/README.md, under "The
 *     library for C", with its bytes of stack; those of the openings with stored pages and of xcp_stored_pages don't yet.
 *   - The openings of a slave and of a framer take memory, and as counted no other call does. xcp_close, xcp_reader_close and
 *     xcp_framer_close free it.
 *   - A call is many steps. An interrupt that comes in the midst of one calls nothing of the library, as a signal handler
 *     doesn't: it may read what a task of yours got from xcp_read, and leave a mark for a thread that then calls xcp_event.
 *   - A thread of higher priority may come in the midst of another one's call, with a handle of its own, or under the
 *     slave's lock, which it then waits for.
 */
#ifndef BILLHOOKYEW_H
#define BILLHOOKYEW_H
#include <stdbool.h>
#include <stddef.h>
#include <stdint.h>
#ifdef __cplusplus
extern "C" {
#endif

#define XCP_VERSION "0.1.0" /* the library's: `xcpd --version` says the same */

typedef struct { void *at; } xcp_slave;
typedef struct { void *at; } xcp_reader;
typedef struct { void *at; } xcp_framer;
#define XCP_CLOSED { NULL }

enum {
    XCP_TEXT_BYTES = 65536,  /* the longest text of a layout file */
    XCP_STORED_BYTES = 2126, /* the longest file of stored pages; 1,048,710 for a layout of class = "large" */
    XCP_IMAGE_BYTES = 2040,  /* an image: the controller's pages of all segments, in order, then zeros; of class = "large": xcp_image_bytes */
    XCP_READERS = 6,         /* readers of one slave */
    XCP_SIGNAL_BYTES = 64,   /* the most signals of an event */
    XCP_PACKET_BYTES = 255,  /* the longest packet */
    XCP_FRAME_BYTES = 259    /* the longest frame */
};

/* What an opening answers, or xcp_stored_pages. 1 to 6 are the faults of a layout file, as docs/LAYOUT.md has them. */
enum {
    XCP_OPENED = 0,
    XCP_NO_DOCUMENT = 1, XCP_MISSING = 2, XCP_WRONG_TYPE = 3, XCP_OUT_OF_RANGE = 4, XCP_OVERLAP = 5, XCP_TOO_MANY = 6,
    XCP_NO_MEMORY = 7,
    XCP_NO_UTF8 = 8,
    XCP_NO_READER = 9,      /* six were taken: a reader that is closed doesn't come back */
    XCP_IS_OPEN = 10,       /* the handle that is to be opened owns something already */
    XCP_SLAVE_CLOSED = 11,  /* the slave's handle owns none */
    XCP_STORED_HEAD = 12,   /* the file doesn't begin as one of stored pages, of version 1 */
    XCP_STORED_LAYOUT = 13, /* it is of other segments */
    XCP_STORED_SIZE = 14,   /* it is cut short or too long, or has other sizes than the segments */
    XCP_STORED_DIGEST = 15, /* it was altered */
    XCP_LONG_TEXT = 16,     /* the text has more than XCP_TEXT_BYTES */
    XCP_NO_ROOM = 17,       /* the file has more bytes than there is room for */
    XCP_OTHER_BYTES = 18    /* there are more or fewer reference bytes than the segments have in all, or than the sizes of their files
                             * sum up to; or more sizes than segments that name a file */
};

/* A layout without a text, for a controller that has it in constant data: docs/LAYOUT.md has each value, its range, and what
 * it is for. What is 0 or false is what a layout file needn't say, so an initializer names only what is otherwise. A text ends
 * with its first 0. `segments` and `channels` say how many of each there are. */
enum { XCP_SEGMENTS = 4, XCP_CHANNELS = 8 };
enum { XCP_ADD_11 = 1, XCP_ADD_12 = 2, XCP_ADD_14 = 3, XCP_ADD_22 = 4, XCP_ADD_24 = 5, XCP_ADD_44 = 6 };

typedef struct {
    uint32_t address, bytes; /* the first address, and how many bytes */
    uint8_t pages;           /* 2 to 4, or 0 for 2 */
} xcp_segment;

typedef struct {
    char name[33];
    uint8_t cycle, unit, priority;
} xcp_channel;

typedef struct {
    char id[65];
    char a2l[65];                              /* the A2L file's name, or none */
    uint8_t max_cto, max_dto;
    uint8_t checksum;                          /* XCP_ADD_11 to XCP_ADD_44, or 0 for XCP_ADD_14 */
    bool motorola, upload_a2l, overload_event; /* the library has no A2L file: GET_ID tells none */
    uint8_t clock_size, clock_unit;            /* 1, 2 or 4 bytes of a time stamp, or 0 for no clock */
    uint16_t clock_ticks;                      /* 1 to 65,535, or 0 for 1 */
    uint32_t signals_address;
    uint8_t signals_bytes;
    uint8_t segments, channels;
    xcp_segment segment[XCP_SEGMENTS];
    xcp_channel channel[XCP_CHANNELS];
} xcp_parts;

/* What an xcp_answer tells. */
enum {
    XCP_SILENT = 0,      /* nothing is sent */
    XCP_PACKETS = 1,     /* `count` packets for the tool: xcp_packet gives each */
    XCP_SAMPLED = 2,     /* an event: `count` packets wait for xcp_drain */
    XCP_OVERRUN = 3,     /* an event: no room for its packets, none is kept */
    XCP_NO_CHANNEL = 4,  /* an event: the layout has no such channel */
    XCP_BAD_SIGNALS = 5, /* an event: the signals aren't as many bytes as the layout takes; xcp_signals: they lie elsewhere */
    XCP_NOTHING = 6,     /* a drain: no packet waits */
    XCP_STORED = 7,      /* a store: the working pages of `count` segments were stored */
    XCP_NO_STORE = 8,    /* a store: none was asked for */
    XCP_LATER = 9        /* a store: no room for its event packet yet, ask again */
};

/* `width` 0: `bytes` are one packet. Else they are the data bytes of a block, `width` to a packet, each behind FF. */
typedef struct {
    uint8_t told, count, width, length;
    uint8_t bytes[XCP_PACKET_BYTES];
} xcp_answer;
#define XCP_ANSWER_INIT { 0, 0, 0, 0, { 0 } }

typedef struct {
    uint8_t length;
    uint8_t bytes[XCP_PACKET_BYTES];
} xcp_one_packet;

typedef struct {
    uint16_t length;
    uint8_t bytes[XCP_FRAME_BYTES];
} xcp_one_frame;

/* What a framer made of a piece: `used` bytes of it were used, and then */
enum { XCP_MORE = 0 /* no packet is whole yet */, XCP_ONE = 1 /* this packet came */, XCP_BAD_LEN = 2 /* `len` is above MAX_CTO */ };
typedef struct {
    size_t used;
    uint16_t len;
    uint8_t got, length;
    uint8_t bytes[XCP_PACKET_BYTES];
} xcp_fed;

/* ---- The slave: under your lock ---- */

/* Opens a slave by the text of a layout file, `length` bytes: XCP_OPENED, or a fault. All memory that the slave and its
 * readers ever take is taken here. Of all calls the openings of a slave want the most stack: nearly 40 kilobytes with the engine example's
 * layout, as measured, and more where keys of a text stand in many tables. */
uint8_t xcp_open(const uint8_t *text, size_t length, xcp_slave *slave);

/* The same by a layout in a struct. `reference` has the `length` bytes of all segments' reference pages, one segment behind the
 * other. XCP_TOO_MANY comes first where there are more segments or channels than the struct has room for, then XCP_OTHER_BYTES,
 * and then the first of the text's faults 4 to 6. A program that opens so alone, and is linked with --gc-sections, has nothing of
 * TOML in it. Struct and bytes may go once it has returned. */
uint8_t xcp_open_parts(const xcp_parts *parts, const uint8_t *reference, size_t length, xcp_slave *slave);

/* xcp_open with a file of stored pages, which xcp_stored_pages wrote out for segments of these addresses, sizes and reference
 * bytes, whatever else the text says: each page of a segment begins with the stored one. What is wrong with the text comes first; then XCP_STORED_HEAD, XCP_STORED_LAYOUT, XCP_STORED_SIZE
 * or XCP_STORED_DIGEST for the file. Where there is no file yet, call xcp_open. */
uint8_t xcp_open_stored(const uint8_t *text, size_t length, const uint8_t *file, size_t file_length, xcp_slave *slave);

/* And xcp_open_parts so: the file is that of a slave that was opened by parts, with the same addresses, lengths and reference
 * bytes of the segments; what else the struct says may be new. */
uint8_t xcp_open_parts_stored(const xcp_parts *parts, const uint8_t *reference, size_t length, const uint8_t *file, size_t file_length, xcp_slave *slave);

/* xcp_open for a text whose segments name files, by `data_file`: the bytes of a segment that is larger than a text. `data` has the
 * `data_length` bytes of all files, one file behind the other, in the order of the segments that name one; and `sizes`, how many bytes each
 * has, `files` of them. A segment that names a file for which there is no size any more has none: XCP_MISSING. XCP_OTHER_BYTES comes
 * behind XCP_LONG_TEXT and XCP_NO_UTF8, and before all other faults: the sizes don't sum up to `data_length`, or there are more of them
 * than segments, among the first 16, that name a file. Text, bytes and sizes may go once it has returned. */
uint8_t xcp_open_data(const uint8_t *text, size_t length, const uint8_t *data, size_t data_length, const uint32_t *sizes, size_t files, xcp_slave *slave);

/* And xcp_open_stored so: what is wrong with the text or with its files comes first, and then the faults of the file of stored pages. */
uint8_t xcp_open_data_stored(const uint8_t *text, size_t length, const uint8_t *data, size_t data_length, const uint32_t *sizes, size_t files, const uint8_t *file, size_t file_length, xcp_slave *slave);

/* Writes out the file of the slave's reference pages, for xcp_open_stored at a later start: XCP_OPENED, and `used` bytes of
 * `out` are the file; or XCP_NO_ROOM, and it has `used` bytes, which are more than `room`; or XCP_SLAVE_CLOSED. With
 * XCP_STORED_BYTES, or 1,048,710 bytes of class = "large", there is always room. Nothing else of `out` is written, and the slave stays as it is. It takes no memory.
 * Once a tool has asked for a store, these are the pages that the store leaves: so they can be kept before xcp_finish_store
 * tells the tool that they are. Else they are those that the slave has, also behind XCP_STORED. */
uint8_t xcp_stored_pages(xcp_slave *slave, uint8_t *out, size_t room, size_t *used);

/* Frees it. Its readers stay: they keep the image that they hold, and no newer one comes. */
void xcp_close(xcp_slave *slave);

/* Each executes one request, and publishes the controller's image for the readers where the request changed it. False:
 * nothing was done, since the handle is closed, the packet has more than 255 bytes, or the signals more than 64. */
bool xcp_command(xcp_slave *slave, const uint8_t *packet, size_t length, xcp_answer *answer);
bool xcp_event(xcp_slave *slave, uint16_t channel, const uint8_t *signals, size_t length, xcp_answer *answer);
bool xcp_drain(xcp_slave *slave, xcp_answer *answer);        /* takes the first packet that waits to be sent */
bool xcp_finish_store(xcp_slave *slave, xcp_answer *answer); /* the controller has stored what was asked for */
bool xcp_hangup(xcp_slave *slave, xcp_answer *answer);       /* the tool's connection is gone */

/* Hands signals over by themselves: `length` bytes, which stand in the signals area from `place` on. What isn't handed over stays, and
 * nothing is sampled: call it before the event that samples them, under the same hold of your lock. An event hands over the first
 * bytes; of class = "large" it may be any number of them up to 64, and else it is all of them. XCP_BAD_SIGNALS is told where the
 * bytes don't all lie in the signals area, and else XCP_SILENT. False: the handle is closed, or they are more than 255. */
bool xcp_signals(xcp_slave *slave, uint16_t place, const uint8_t *bytes, size_t length, xcp_answer *answer);

/* Tells the time: the clock stands at so many ticks, as the layout file's [clock] has them. Call it before an event, and
 * before a packet that begins with DC (GET_DAQ_CLOCK): a sample's time stamp and that command's answer have the latest time
 * that was told. It never goes back. Without [clock] it changes nothing that a tool sees. False: the handle is closed. */
bool xcp_time(xcp_slave *slave, uint64_t ticks, xcp_answer *answer);

/* 0 where the handle is closed. */
size_t xcp_image_bytes(xcp_slave *slave); /* an image: XCP_IMAGE_BYTES, or of class = "large" up to 1,048,576 bytes */
uint8_t xcp_max_cto(xcp_slave *slave); /* the longest command, and packet that answers one: 8 to 255 bytes */
uint16_t xcp_pending(xcp_slave *slave); /* packets that wait for xcp_drain: 0 to 64, or of class = "large" to 512 */
uint8_t xcp_held(xcp_slave *slave);    /* buffers beside the current one that readers hold: 0 to 6 */

/* ---- An answer's packets: no lock ---- */

/* The packet at an index, from 0 to `count` - 1. False: there is none, or the answer isn't one that a call gave. */
bool xcp_packet(const xcp_answer *answer, uint8_t index, xcp_one_packet *packet);

/* ---- Readers ---- */

/* Takes one of the slave's readers: XCP_OPENED, XCP_NO_READER, XCP_IS_OPEN or XCP_SLAVE_CLOSED. It takes no memory.
 * Under the slave's lock. */
uint8_t xcp_reader_open(xcp_slave *slave, xcp_reader *reader);

/* The rest without a lock, by the thread that has the reader. None waits, and none takes memory. */
bool xcp_acquire(xcp_reader *reader); /* takes the newest image: true where it is newer than the one held before */
bool xcp_read(xcp_reader *reader, size_t at, uint8_t *out, size_t length); /* copies bytes of the held image. False: none
    * is held, it ends before, or the handle is closed */
bool xcp_number(xcp_reader *reader, uint64_t *number); /* the held image's number, from 0, modulo 2^64. False: none is
    * held, or the handle is closed */
void xcp_reader_close(xcp_reader *reader); /* gives back what it holds, for good, and frees it */

/* ---- The frames of a stream or of datagrams (XCP on Ethernet): no lock ---- */

/* LEN, CTR and a packet; both words have their low byte first. False: the packet has more than 255 bytes. */
bool xcp_frame(uint16_t ctr, const uint8_t *packet, size_t length, xcp_one_frame *frame);

/* A framer of one connection: XCP_OPENED, XCP_NO_MEMORY or XCP_IS_OPEN. `max_cto` is what xcp_max_cto says. */
uint8_t xcp_framer_open(uint8_t max_cto, xcp_framer *framer);

/* Uses a front of a piece of the stream, at most to the end of the first frame that holds a packet: call it again with
 * the rest until all is used. After XCP_BAD_LEN it uses nothing more. False: the handle is closed.
 *
 * Datagrams (XCP over UDP) hold whole frames: feed each as one piece. If the last call for it says other than XCP_ONE, it was cut
 * or has a wrong LEN: close the framer and open it anew, so that what is left of it isn't taken for the front of the next one.
 * examples/datagrams.c serves a tool so. */
bool xcp_feed(xcp_framer *framer, const uint8_t *piece, size_t length, xcp_fed *fed);

void xcp_framer_close(xcp_framer *framer);

#ifdef __cplusplus
}
#endif
#endif
