/* uds_unit: a diagnostic server (UDS, ISO 14229-1:2013, over ISO-TP, ISO 15765-2:2016) on a bus of classic CAN or CAN FD,
 * for one to eight testers, written and proved in Rattle. A unit takes frames with their moments, and hands out those that
 * it sends.
 *
 * No call starts a thread, waits or reads a clock: time is what the caller says. Each call returns, and answers a status.
 * The more time a call lets pass the longer it takes: for a year and a tester some milliseconds, with a journal some tens.
 * uds_unit_open wants up to 2 MiB of stack, for a setup without deep tables or arrays 128 KiB; every other call wants 16 KiB.
 *
 * Caller's duty, which nothing checks:
 * - no pointer is null, also where a length or a room is 0, and each points to as many bytes as its length says;
 * - what a call writes to doesn't overlap what it reads, nor anything else that it is given;
 * - a handle begins as UDS_UNIT_INIT; no field of it is read or written, and it isn't copied while it is open;
 * - one thread at a time calls with a handle. Two handles know nothing of each other.
 *
 * Moments are in microseconds, from any zero. The unit counts whole milliseconds, as the stamps of a candump log are read: a
 * moment is taken down to its millisecond, and the frames that are sent then have the moment at which that begins. The first
 * moment that a unit is given is where its time begins: nothing passes before it. */
#ifndef UDS_UNIT_H
#define UDS_UNIT_H

#include <stdbool.h>
#include <stddef.h>
#include <stdint.h>

#ifdef __cplusplus
extern "C" {
#endif

/* What a call answers. 2 and 4 are what the program ends with, too. Where it is UDS_CLOSED, UDS_NONE or UDS_UNKNOWN the call
 * wrote nothing. */
enum uds_status {
    UDS_DONE = 0,
    UDS_SETUP = 2,     /* the setup is at fault */
    UDS_MEMORY = 4,    /* there is no memory, or 2^40 replies wait. After it nothing is said of what the unit took: close it */
    UDS_CLOSED = 16,   /* the unit isn't open */
    UDS_NONE = 17,     /* there is none */
    UDS_NO_FRAME = 18, /* no frame has this identifier, or so many bytes */
    UDS_UNKNOWN = 19,  /* there is no such identifier or code */
    UDS_LENGTH = 20,   /* the value has another length */
    UDS_ROOM = 21      /* there is too little room */
};

/* A unit. Both fields are private; it begins as UDS_UNIT_INIT, and so does static memory: closed. */
struct uds_unit {
    bool is_open;
    void *at;
};
#define UDS_UNIT_INIT {false, NULL}

/* Bit 31 of an identifier says that it has 29 bits, as SocketCAN's CAN_EFF_FLAG. */
#define UDS_29_BITS UINT32_C(0x80000000)

/* A frame that is due. */
struct uds_reply {
    uint64_t at_us;    /* when, in microseconds */
    uint32_t id;       /* its identifier; of one of 29 bits with UDS_29_BITS */
    uint8_t tester;    /* whom it is for: the tester's place in the setup, from 1 */
    uint8_t len;       /* how many bytes it has, up to 64; to a classic tester up to 8 */
    uint8_t fd;        /* 1: a frame of CAN FD, as all to a tester with fd = true are; 0: a classic one */
    uint8_t bytes[64]; /* its bytes, and zeros behind them */
};

/* The session, and who holds it. */
struct uds_state {
    uint8_t session; /* its number; 1 is the default session */
    uint8_t holder;  /* the tester in it, by its place in the setup, from 1; 0 in the default session */
};

/* A DTC. */
struct uds_code {
    uint32_t code;  /* three bytes */
    uint8_t status; /* statusOfDTC */
};

/* Opens a unit of a setup in TOML (len bytes); a unit that was open is freed first. Where the setup is at fault (UDS_SETUP),
 * or there is no memory, the unit isn't open, and text gets the line that the program tells, ended by a 0, as far as it
 * fits into room bytes. Where the line and its 0 have more bytes than that, no 0 ends the text. The setup may have any length;
 * the program and Python's package take 1,048,576 bytes at most. */
uint32_t uds_unit_open(struct uds_unit *unit, const uint8_t *config, size_t len, uint8_t *text, size_t room);

/* The same, and the unit keeps the lines of its journal until uds_unit_journal hands them out. */
uint32_t uds_unit_open_with_journal(struct uds_unit *unit, const uint8_t *config, size_t len, uint8_t *text, size_t room);

/* Takes a frame of the bus at a moment. Time passes up to it; an earlier moment is taken as the latest so far. It has 0 to 8,
 * 12, 16, 20, 24, 32, 48 or 64 bytes. Whether one of up to 8 is of classic CAN or of CAN FD isn't asked: it is taken as whoever
 * has its identifier talks. A longer one is of CAN FD, and taken where a tester with fd = true has its identifier. A frame that
 * is no tester's, or is too long for its tester, only lets the time pass. UDS_NO_FRAME: nothing was taken, no time either. */
uint32_t uds_unit_frame(struct uds_unit *unit, uint64_t at_us, uint32_t id, const uint8_t *bytes, size_t len);

/* Lets time pass to a moment, with no frame. A long step, here as of uds_unit_frame, takes time in proportion to it and, with a
 * journal, memory: a line a minute for each tester. */
uint32_t uds_unit_pass(struct uds_unit *unit, uint64_t to_us);

/* Hands out the next frame that is due up to the latest moment, in the order of the bus; UDS_NONE where there is none: the
 * reply is as it was then. */
uint32_t uds_unit_next(struct uds_unit *unit, struct uds_reply *reply);

/* The next moment at which a frame may fall due where nothing comes in before, or UINT64_MAX where nothing is waited for.
 * Frames that are due already are uds_unit_next's. */
uint32_t uds_unit_due(struct uds_unit *unit, uint64_t *at_us);

/* The session, and who holds it. */
uint32_t uds_unit_state(struct uds_unit *unit, struct uds_state *state);

/* The DTC at a place in rising order, from 0; UDS_NONE behind the last. */
uint32_t uds_unit_code(struct uds_unit *unit, size_t place, struct uds_code *code);

/* The data identifier at a place in rising order, from 0; UDS_NONE behind the last. */
uint32_t uds_unit_identifier(struct uds_unit *unit, size_t place, uint16_t *id);

/* The value of a data identifier, at most 255 bytes. len gets its length; UDS_ROOM: it has more than room bytes, and none
 * was written. */
uint32_t uds_unit_value(struct uds_unit *unit, uint16_t id, uint8_t *value, size_t room, size_t *len);

/* What the ECU's own software changes while it runs: a measured value, of the length that it has (else UDS_LENGTH), whoever
 * may write it; the status of a DTC. No step of a tester. */
uint32_t uds_unit_set_value(struct uds_unit *unit, uint16_t id, const uint8_t *value, size_t len);
uint32_t uds_unit_set_code(struct uds_unit *unit, uint32_t code, uint8_t status);

/* The journal's lines since the last call that answered UDS_DONE, each ended by an LF, and first its header; none where the
 * unit was opened without a journal. len gets their length; UDS_ROOM: they have more than room bytes, and none was written. */
uint32_t uds_unit_journal(struct uds_unit *unit, uint8_t *text, size_t room, size_t *len);

/* Frees the unit. */
uint32_t uds_unit_close(struct uds_unit *unit);

#ifdef __cplusplus
}
#endif
#endif
