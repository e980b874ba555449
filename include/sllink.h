/*
 * sllink for C: recordings in memory, FARM-1 on one virtual channel, headers, error control.
 *
 *     cc PROGRAM.c $(pkg-config --cflags --libs sllink)
 *
 * Each call does what one call of sllink's libraries does; docs/library.md says what is proved of
 * the calls. Nothing checks a program in C, so the caller has to uphold what follows.
 *
 *   - A pointer points to as many elements as its length says, or as the call names. The pointer
 *     isn't null, even at length 0. A length is PTRDIFF_MAX at most, and a structure is aligned.
 *   - What a call writes to overlaps nothing else that the call is given, and no other thread
 *     touches it meanwhile. No other thread writes to what a call reads. Two recordings that are
 *     compared may overlap.
 *   - A bool is 0 or 1, also where a call only writes to it. What a call reads has been written
 *     before. An output, a size and totals need not have been.
 *   - malloc, realloc and free are one allocator. A block is aligned to each power of two up to 16
 *     that divides the size of the block.
 *   - No call is made from a signal handler, nor from the forked child of a process with threads.
 *   - There are 256 KiB of stack for a call over recordings, and 8 KiB for any other call.
 *   - The processor is one of x86-64-v2. Any other may end the process within a call, by SIGILL.
 *
 * No call keeps a pointer, and the only state is what the caller keeps. So several threads may call
 * at the same time. A call that takes memory has given all of it back when the call returns. No
 * call prints, and none ends the process.
 *
 * The enums are as wide as int, so -fshort-enums doesn't fit.
 */
#ifndef SLLINK_H
#define SLLINK_H

#include <stdbool.h>
#include <stddef.h>
#include <stdint.h>

#ifdef __cplusplus
extern "C" {
#endif

/* How a call ended. */
typedef enum sllink_answer {
    SLLINK_DONE = 0,            /* all is done */
    SLLINK_SPACECRAFT = 1,      /* refused: the spacecraft identifier is over 1023 */
    SLLINK_TM_LENGTH = 2,       /* refused: the TM frame length is outside 32 to 2048 */
    SLLINK_TC_LENGTH = 3,       /* refused: the greatest TC frame length is outside 16 to 1024 */
    SLLINK_WINDOW = 4,          /* refused: the FARM-1 window is 0 or odd */
    SLLINK_LIMIT = 5,           /* refused: the limit is 0 */
    SLLINK_TOO_LONG = 6,        /* refused: a recording has more octets than the limit */
    SLLINK_MEMORY = 7,          /* memory was refused */
    SLLINK_ROOM = 8,            /* all is done, but there was no room for the whole text */
    SLLINK_FIELD = 9,           /* refused: a field of a header is out of its range */
    SLLINK_COUNTER = 10,        /* refused: the FARM-B counter is over 3 */
    SLLINK_EVENT = 11,          /* refused: there is no such event */
    SLLINK_VIRTUAL_CHANNEL = 12 /* refused: the virtual channel is over 63 */
} sllink_answer;

/* ---- recordings ---- */

/*
 * The managed parameters of a link. All have to be in their ranges, those of TM frames for a TC
 * recording too, and those of TC frames for a TM recording.
 */
typedef struct sllink_managed {
    uint16_t spacecraft; /* spacecraft identifier, 0 to 1023 */
    uint16_t tm_length;  /* octets of each TM frame, 32 to 2048 */
    uint16_t tc_length;  /* octets of a TC frame at most, 16 to 1024 */
    bool tm_fecf;        /* TM frames have a frame error control field */
    bool tc_fecf;        /* TC frames have a frame error control field */
    uint8_t window;      /* width of the FARM-1 sliding window, even, 2 to 254 */
    uint8_t vr[64];      /* initial V(R) of each virtual channel of TC frames */
    bool plain[64];      /* the TC frames of a virtual channel have no segment headers */
    uint64_t limit;      /* octets of a recording at most, 1 or more */
} sllink_managed;

/* What is counted in a recording. */
typedef struct sllink_totals {
    uint64_t octets;    /* octets of the recording */
    uint64_t frames;    /* whole frames, skipped ones included */
    uint64_t skipped;   /* skipped frames */
    uint64_t rest;      /* octets after the last whole frame */
    uint64_t packets;   /* delivered packets, idle ones left out; 0 where frames are listed */
    uint64_t idle;      /* delivered idle packets; 0 where frames are listed */
    uint64_t anomalies; /* anomalies; 0 but after a check */
} sllink_totals;

/*
 * Each of these eight calls makes a text of a recording, as the program of that verb does. The call
 * writes the front of the text to the output, as much as there is room for. No null follows, and
 * the octets behind the text stay. The size is that of the whole text. The answer is SLLINK_DONE
 * where there was room for the whole text, and SLLINK_ROOM where there wasn't, so a first call with
 * no room asks for the size. Under any other answer, a refusal or SLLINK_MEMORY, the call has
 * written nothing. A call takes memory for the whole text, and for what the program keeps.
 */

/* Lists the frames of a TM recording. */
sllink_answer sllink_show_tm(const sllink_managed *managed, const uint8_t *recording, size_t length,
                             uint8_t *output, size_t room, size_t *size, sllink_totals *totals);

/* Lists the frames of a TC recording, with the verdict of FARM-1 on each and the CLCW. */
sllink_answer sllink_show_tc(const sllink_managed *managed, const uint8_t *recording, size_t length,
                             uint8_t *output, size_t room, size_t *size, sllink_totals *totals);

/* Lists the anomalies of a TM recording. */
sllink_answer sllink_check_tm(const sllink_managed *managed, const uint8_t *recording,
                              size_t length, uint8_t *output, size_t room, size_t *size,
                              sllink_totals *totals);

/* Lists the anomalies of a TC recording. */
sllink_answer sllink_check_tc(const sllink_managed *managed, const uint8_t *recording,
                              size_t length, uint8_t *output, size_t room, size_t *size,
                              sllink_totals *totals);

/* Lists the packets that a TM recording delivers, idle ones left out. */
sllink_answer sllink_packets_tm(const sllink_managed *managed, const uint8_t *recording,
                                size_t length, uint8_t *output, size_t room, size_t *size,
                                sllink_totals *totals);

/* Lists the packets that a TC recording delivers, idle ones left out. */
sllink_answer sllink_packets_tc(const sllink_managed *managed, const uint8_t *recording,
                                size_t length, uint8_t *output, size_t room, size_t *size,
                                sllink_totals *totals);

/* Gives the normal form of a TM recording. */
sllink_answer sllink_normalise_tm(const sllink_managed *managed, const uint8_t *recording,
                                  size_t length, uint8_t *output, size_t room, size_t *size,
                                  sllink_totals *totals);

/* Gives the normal form of a TC recording. */
sllink_answer sllink_normalise_tc(const sllink_managed *managed, const uint8_t *recording,
                                  size_t length, uint8_t *output, size_t room, size_t *size,
                                  sllink_totals *totals);

/*
 * Reports whether two TM recordings deliver the same packets on each virtual channel, idle packets
 * left out: true exactly where their normal forms are equal. Under any answer but SLLINK_DONE the
 * call has written nothing. SLLINK_MEMORY comes only where one of the two delivers packets, or has
 * a packet (for TC, a series) that is incomplete before a frame or after it.
 */
sllink_answer sllink_same_packets_tm(const sllink_managed *managed, const uint8_t *one,
                                     size_t one_length, const uint8_t *other, size_t other_length,
                                     bool *same);

/* Reports the same of two TC recordings, on each virtual channel and MAP. */
sllink_answer sllink_same_packets_tc(const sllink_managed *managed, const uint8_t *one,
                                     size_t one_length, const uint8_t *other, size_t other_length,
                                     bool *same);

/* ---- FARM-1 on one virtual channel ---- */

/* A FARM-1, which the caller keeps, and may copy and store. */
typedef struct sllink_farm {
    uint8_t window;  /* width of the sliding window, even, 2 to 254 */
    uint8_t vr;      /* receiver frame sequence number V(R) */
    bool lockout;    /* Lockout flag */
    bool retransmit; /* Retransmit flag */
    uint8_t farm_b;  /* FARM-B counter, 0 to 3 */
} sllink_farm;

/* A frame, as FARM-1 sees it. */
typedef enum sllink_event {
    SLLINK_AD = 0,     /* a frame of type AD, with its N(S) */
    SLLINK_BD = 1,     /* a frame of type BD */
    SLLINK_UNLOCK = 2, /* the control command Unlock */
    SLLINK_SET_VR = 3  /* the control command Set V(R), with the value to be set */
} sllink_event;

/* What becomes of a frame, whose unit is accepted under SLLINK_ACCEPT alone. */
typedef enum sllink_verdict {
    SLLINK_ACCEPT = 0,  /* the frame of type AD that is expected, or of type BD */
    SLLINK_EARLY = 1,   /* N(S) is in the positive part of the window */
    SLLINK_LATE = 2,    /* N(S) is in the negative part of the window */
    SLLINK_OUTSIDE = 3, /* N(S) is in the lockout area, and the lockout state begins */
    SLLINK_REFUSED = 4, /* a frame of type AD, in the lockout state */
    SLLINK_COMMAND = 5  /* a control command */
} sllink_verdict;

/*
 * Makes a FARM-1 in the open state, with this V(R), Retransmit flag 0 and FARM-B counter 0. The
 * answer is SLLINK_WINDOW where the window is 0 or odd, and nothing is written then.
 */
sllink_answer sllink_farm_new(sllink_farm *farm, uint8_t window, uint8_t vr);

/*
 * Takes the next frame, and gives the verdict. The number is N(S) of SLLINK_AD and the value of
 * SLLINK_SET_VR; other events have none. The answer is SLLINK_WINDOW or SLLINK_COUNTER where the
 * structure is no FARM-1, and SLLINK_EVENT where there is no such event. Nothing is written then.
 */
sllink_answer sllink_farm_step(sllink_farm *farm, sllink_event event, uint8_t number,
                               sllink_verdict *verdict);

/*
 * Writes the CLCW that reports the state, for the virtual channel 0 to 63. The answer is
 * SLLINK_WINDOW, SLLINK_COUNTER or SLLINK_VIRTUAL_CHANNEL where there is none, and nothing is
 * written then.
 */
sllink_answer sllink_farm_clcw(const sllink_farm *farm, uint8_t vc, uint8_t clcw[4]);

/* Gives V(R), which is the N(S) of the frame that is expected next. */
uint8_t sllink_farm_vr(const sllink_farm *farm);

/* ---- the frame error control field ---- */

/* Gives the frame error control field that follows these octets of a frame; 0xFFFF of none. */
uint16_t sllink_fecf(const uint8_t *octets, size_t length);

/*
 * Reports whether there are three octets or more, and the last two are the frame error control
 * field of the octets before them.
 */
bool sllink_fecf_good(const uint8_t *octets, size_t length);

/* ---- headers ---- */

/*
 * A header is read from any octets, and written as the octets that are read as the same fields. The
 * answer is SLLINK_FIELD where a field is out of its range, and nothing is written then.
 */

/* The primary header of a TM transfer frame. */
typedef struct sllink_tm_header {
    uint8_t version;     /* transfer frame version number, 0 to 3; 0 for a TM transfer frame */
    uint16_t spacecraft; /* spacecraft identifier, 0 to 1023 */
    uint8_t vc;          /* virtual channel identifier, 0 to 7 */
    bool control;        /* operational control field flag */
    uint8_t mc;          /* master channel frame count */
    uint8_t vcc;         /* virtual channel frame count */
    bool secondary;      /* transfer frame secondary header flag */
    bool sync;           /* synchronisation flag */
    bool order;          /* packet order flag */
    uint8_t segment;     /* segment length identifier, 0 to 3 */
    uint16_t first;      /* first header pointer, 0 to 2047 */
} sllink_tm_header;

void sllink_tm_header_read(const uint8_t octets[6], sllink_tm_header *header);
sllink_answer sllink_tm_header_write(const sllink_tm_header *header, uint8_t octets[6]);

/* The primary header of a TC transfer frame. */
typedef struct sllink_tc_header {
    uint8_t version;     /* transfer frame version number, 0 to 3; 0 for a TC transfer frame */
    bool bypass;         /* bypass flag */
    bool command;        /* control command flag */
    uint8_t spare;       /* reserved spare, 0 to 3 */
    uint16_t spacecraft; /* spacecraft identifier, 0 to 1023 */
    uint8_t vc;          /* virtual channel identifier, 0 to 63 */
    uint16_t length;     /* octets of the frame minus 1, 0 to 1023 */
    uint8_t ns;          /* frame sequence number N(S) */
} sllink_tc_header;

void sllink_tc_header_read(const uint8_t octets[5], sllink_tc_header *header);
sllink_answer sllink_tc_header_write(const sllink_tc_header *header, uint8_t octets[5]);

/* The segment header of a TC transfer frame. */
typedef struct sllink_segment_header {
    uint8_t flags; /* sequence flags: 1 first, 0 continuing, 2 last, 3 no segmentation */
    uint8_t map;   /* multiplexer access point identifier (MAP ID), 0 to 63 */
} sllink_segment_header;

void sllink_segment_header_read(const uint8_t octets[1], sllink_segment_header *header);
sllink_answer sllink_segment_header_write(const sllink_segment_header *header, uint8_t octets[1]);

/* The primary header of a space packet. */
typedef struct sllink_packet_header {
    uint8_t version; /* packet version number, 0 to 7; 0 for a space packet */
    uint8_t kind;    /* packet type: 0 telemetry, 1 telecommand */
    bool secondary;  /* secondary header flag */
    uint16_t apid;   /* application process identifier (APID), 0 to 2047; 2047 is idle */
    uint8_t flags;   /* sequence flags, 0 to 3 */
    uint16_t count;  /* packet sequence count, 0 to 16383 */
    uint16_t length; /* octets of the packet data field minus 1 */
} sllink_packet_header;

void sllink_packet_header_read(const uint8_t octets[6], sllink_packet_header *header);
sllink_answer sllink_packet_header_write(const sllink_packet_header *header, uint8_t octets[6]);

/* The Communications Link Control Word (CLCW). */
typedef struct sllink_clcw {
    uint8_t word;    /* control word type, 0 or 1; 0 for a CLCW */
    uint8_t version; /* CLCW version number, 0 to 3 */
    uint8_t status;  /* status field, 0 to 7 */
    uint8_t cop;     /* COP in effect, 0 to 3 */
    uint8_t vc;      /* virtual channel identification, 0 to 63 */
    uint8_t spare;   /* reserved spare, 0 to 3 */
    bool no_rf;      /* No RF Available flag */
    bool no_lock;    /* No Bit Lock flag */
    bool lockout;    /* Lockout flag */
    bool wait;       /* Wait flag */
    bool retransmit; /* Retransmit flag */
    uint8_t farm_b;  /* FARM-B counter, 0 to 3 */
    bool spare_end;  /* reserved spare, one bit */
    uint8_t report;  /* report value: the N(S) of the frame that is expected next */
} sllink_clcw;

void sllink_clcw_read(const uint8_t octets[4], sllink_clcw *word);
sllink_answer sllink_clcw_write(const sllink_clcw *word, uint8_t octets[4]);

#ifdef __cplusplus
}
#endif

#endif
