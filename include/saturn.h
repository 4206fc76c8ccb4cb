/* The bus agent of one SIL2 output module, for C11 and C++. The caller owns the agent; each call alters it in place.
 *
 * The main loop:
 * - saturn_power_up once; then saturn_tick every millisecond, with the inputs as they are then, and saturn_frame for each
 *   body received.
 * - After every call, ticks included, copy the output image, regs[SATURN_REG_OUTPUTS] and the 63 after it, to the terminals.
 *   In fallback it is all zero.
 * - When a call answers SATURN_UNSOUND (19), switch the terminals off and call saturn_power_up. The state was damaged from
 *   outside (or power-up was given another limit of requests than 16 or 64). Every further call would answer 19 and leave it
 *   as it is: a module that was in RUN would stay in RUN with its outputs on, since no time limit runs any more. After
 *   saturn_power_up the concentrators must assign and release the module again.
 *   19 does not replace a memory test: damage that leaves a state sound, say in the outputs in RUN, is not detected.
 *
 * What the caller must ensure:
 * - Every pointer is valid for the whole length and aligned for its type. No pointer is null: with length 0 too, pass the
 *   address of some byte. What a null pointer does is not defined, even with length 0.
 * - agent, reply and sent overlap neither one another nor body and inputs.
 * - During a call nothing else, an interrupt included, writes any of them, or reads agent, reply and sent.
 * What they hold may be anything. No call keeps a pointer after it returns.
 *
 * What the library needs:
 * - x86-64 with SSE2 and the System V calling convention. It uses SSE registers and the red zone: on bare metal enable SSE
 *   before the first call, and let no interrupt use the 128 bytes below the stack pointer.
 * - memcpy and memset only: no heap, no other library.
 * - 816 bytes of stack in the deepest call (measured, not proved; docs/PROVED.md, 'Figures').
 * It writes no static data. Agents may run in parallel, each with its own buffers. */
#ifndef SATURN_H
#define SATURN_H

#include <stddef.h>
#include <stdint.h>

/* the version of this header, and of the library that it was installed with */
#define SATURN_VERSION_MAJOR 4
#define SATURN_VERSION_MINOR 2
#define SATURN_VERSION_PATCH 2
#define SATURN_VERSION "4.2.2"

#ifdef __cplusplus
extern "C" {
#endif

/* What is fixed at power-up: no call changes it. */
typedef struct saturn_fixed {
    uint8_t limit; /* the limit of requests in a cycle: SATURN_LIMIT_LIGHTING or SATURN_LIMIT_DOORS */
} saturn_fixed;

/* The state, field by field as in crates/rules/src/lib.rt. */
typedef struct saturn_agent {
    uint8_t regs[256]; /* the registers */
    uint32_t known[8]; /* the recorded concentrators are the first `count`; power-up puts FFFFFFh in all */
    uint32_t last;     /* the source of the last accepted sync; FFFFFFh for none */
    uint16_t silence;  /* s: ms since the last accepted sync, stops at 65,535 */
    uint16_t idle;     /* q: ms since the last output write or entry to RUN */
    uint8_t cycle;     /* c: the cycle counter */
    uint8_t elapsed;   /* e: ms in the cycle */
    uint8_t taken;     /* k: the number after the highest taken in the cycle, counted from its first SEQ */
    uint8_t mode;      /* SATURN_RUN or SATURN_FALLBACK */
    uint8_t heard;     /* whether the cycle is heard (1) or not (0) */
    uint8_t mark;      /* whether a sync came outside its window (1) or not (0); see SATURN_OUTSIDE_WINDOW */
    uint8_t count;     /* how many concentrators are recorded */
    saturn_fixed fixed;
} saturn_agent;

/* a compiler that lays out the struct differently cannot use the library */
#define SATURN_AGENT_SIZE 304
#if defined(__cplusplus)
static_assert(sizeof(saturn_agent) == SATURN_AGENT_SIZE && alignof(saturn_agent) == 4, "saturn_agent is not as in the library");
#else
_Static_assert(sizeof(saturn_agent) == SATURN_AGENT_SIZE && _Alignof(saturn_agent) == 4, "saturn_agent is not as in the library");
#endif

enum { SATURN_FALLBACK = 0, SATURN_RUN = 1 };

/* the limit of requests, by what the module drives: lighting 16, doors 64 */
enum { SATURN_LIMIT_LIGHTING = 16, SATURN_LIMIT_DOORS = 64 };

/* Addresses in regs. A number of several bytes has its low byte at the low address. */
enum {
    SATURN_REG_MAC = 0x00,       /* 8 bytes */
    SATURN_REG_IID = 0x08,       /* 8 bytes */
    SATURN_REG_TYP = 0x10,       /* always 82h */
    SATURN_REG_VER = 0x11,       /* 2 bytes */
    SATURN_REG_TID = 0x13,       /* 8Fh until assigned */
    SATURN_REG_SID = 0x14,       /* 3 bytes; FFFFFFh until assigned */
    SATURN_REG_OUT_REP = 0x17,   /* 55h: released; AAh: not */
    SATURN_REG_TCYC = 0x18,      /* t: the cycle in ms */
    SATURN_REG_STATUT = 0x19,    /* the status; bit 7 is set in fallback */
    SATURN_REG_CNF_REP = 0x1A,   /* m: cycles without an output write until fallback */
    SATURN_REG_CNF_CYC = 0x1B,   /* n: cycles without a sync until fallback */
    SATURN_REG_AD_REF = 0x1C,    /* the reply to a sync carries registers starting here */
    SATURN_REG_SZ_REF = 0x1D,    /* and this many of them */
    SATURN_REG_CPT_TOCO1 = 0x1E, /* counters, up to CPT_FOR; the agent itself counts only CPT_SEQ and CPT_FOR */
    SATURN_REG_CPT_TOCO2 = 0x1F,
    SATURN_REG_CPT_SEQ = 0x20,   /* frames with a wrong CYC or SEQ, and numbers skipped */
    SATURN_REG_CPT_TOAC1 = 0x21,
    SATURN_REG_CPT_TOAC2 = 0x22,
    SATURN_REG_CPT_SYNC = 0x23,
    SATURN_REG_CPT_FOR = 0x24,   /* frames of a TYP that is not served */
    SATURN_REG_CONF = 0x25,      /* bit 2 set: nothing is sent */
    SATURN_REG_GROUND = 0x26,    /* why the module last left RUN: SATURN_GROUND_...; read only */
    SATURN_REG_OUTPUTS = 0x80,   /* SATURN_IMAGE bytes: the output image */
    SATURN_REG_INPUTS = 0xC0     /* SATURN_IMAGE bytes: the inputs */
};

/* register 26h: the ground of the last passage from RUN to fallback; entering RUN again does not clear it */
enum {
    SATURN_GROUND_NONE = 0,            /* none since power-up */
    SATURN_GROUND_SYNC_SILENCE = 1,    /* n cycles without an accepted sync, whatever else the same tick met */
    SATURN_GROUND_COMMAND_SILENCE = 2, /* m cycles in RUN without an output write */
    SATURN_GROUND_WRONG_CYCLE = 3,     /* a sync was refused with 12 */
    SATURN_GROUND_ORDER = 4,           /* AAh was written to 17h */
    SATURN_GROUND_WINDOW = 5           /* a sync was refused with 22, and none was accepted until the cycle ended */
};

/* the number of outputs, and of inputs, in bytes */
enum { SATURN_IMAGE = 64 };

/* the minimum length of the reply buffer, in bytes */
enum { SATURN_REPLY_ROOM_LEAST = 545 };

/* the answers: 0 is accepted, error replies included; the others are refusals */
enum {
    SATURN_ACCEPTED = 0,
    /* the line */
    SATURN_BODY_LENGTH = 1,      /* the body is not 7 to 543 bytes long */
    SATURN_STUFFING = 2,         /* after the address, a 7Eh, or a 7Dh not followed by 5Dh or 5Eh */
    SATURN_UNSTUFFED_LENGTH = 3, /* without stuffing, not 7 to 272 bytes long */
    SATURN_FCS = 4,
    /* other stations */
    SATURN_RESERVED = 5,  /* reserved address */
    SATURN_ELSEWHERE = 6, /* address not the module's TID, 90h or FFh */
    /* a concentrator */
    SATURN_TYP = 7,            /* TYP unknown or not served */
    SATURN_FORM = 8,           /* length, COM or sync address wrong for the TYP */
    SATURN_CRC = 9,
    SATURN_SOURCE = 10,        /* source FFFFFFh or not the one demanded */
    SATURN_ADDRESSEE = 11,     /* SID, MAC or IID not the module's */
    SATURN_CYCLE = 12,         /* CYC not the one due, or a request in a cycle whose sync was not heard */
    SATURN_REPEAT = 13,        /* a copy of a sync accepted before, or a SEQ taken or skipped before */
    SATURN_OUT_OF_ORDER = 14,  /* SEQ more than three ahead of the one due */
    SATURN_TOO_MANY = 15,      /* SEQ due or at most three ahead, but past the last one that the limit allows in the cycle */
    SATURN_OUTSIDE_RULES = 16, /* write outside the rules */
    SATURN_NOT_ALLOWED = 17,   /* TID or SID not allowed */
    SATURN_EIGHT_OTHERS = 18,  /* eight others are recorded */
    /* the caller */
    SATURN_UNSOUND = 19,    /* unsound state: see the main loop above */
    SATURN_REPLY_ROOM = 20, /* reply buffer under 545 bytes */
    SATURN_HOST_INPUT = 21, /* port not 1 or 2, or inputs not 64 bytes */
    /* a concentrator */
    SATURN_OUTSIDE_WINDOW = 22 /* a sync in RUN, outside its window: unless one is accepted, fallback when the cycle ends */
};

/* An answer in words, for logs and displays. */
static inline const char *saturn_answer_text(uint8_t answer)
{
    switch (answer) {
    case SATURN_ACCEPTED: return "accepted";
    case SATURN_BODY_LENGTH: return "body not 7 to 543 bytes";
    case SATURN_STUFFING: return "stuffing";
    case SATURN_UNSTUFFED_LENGTH: return "unstuffed length not 7 to 272";
    case SATURN_FCS: return "FCS";
    case SATURN_RESERVED: return "reserved address";
    case SATURN_ELSEWHERE: return "addressed to another station";
    case SATURN_TYP: return "TYP unknown or not served";
    case SATURN_FORM: return "length, COM or sync address wrong for the TYP";
    case SATURN_CRC: return "safety CRC";
    case SATURN_SOURCE: return "source not the one demanded";
    case SATURN_ADDRESSEE: return "SID, MAC or IID of another module";
    case SATURN_CYCLE: return "CYC not the one due, or cycle not heard";
    case SATURN_REPEAT: return "copy of a sync accepted before, or SEQ taken or skipped before";
    case SATURN_OUT_OF_ORDER: return "SEQ more than three ahead of the one due";
    case SATURN_TOO_MANY: return "SEQ past the last one that the limit allows in the cycle";
    case SATURN_OUTSIDE_RULES: return "write outside the rules";
    case SATURN_NOT_ALLOWED: return "TID or SID not allowed";
    case SATURN_EIGHT_OTHERS: return "eight other concentrators recorded";
    case SATURN_UNSOUND: return "unsound state";
    case SATURN_REPLY_ROOM: return "reply buffer under 545 bytes";
    case SATURN_HOST_INPUT: return "port not 1 or 2, or inputs not 64 bytes";
    case SATURN_OUTSIDE_WINDOW: return "sync outside its window";
    default: return "not an answer";
    }
}

/* A ground in words, for logs and displays. */
static inline const char *saturn_ground_text(uint8_t ground)
{
    switch (ground) {
    case SATURN_GROUND_NONE: return "none since power-up";
    case SATURN_GROUND_SYNC_SILENCE: return "sync silence";
    case SATURN_GROUND_COMMAND_SILENCE: return "command silence";
    case SATURN_GROUND_WRONG_CYCLE: return "wrong cycle";
    case SATURN_GROUND_ORDER: return "order";
    case SATURN_GROUND_WINDOW: return "window";
    default: return "not a ground";
    }
}

/* Power-up: whatever it held before, the agent is now in fallback, unheard, with nobody recorded, and its registers have
 * their power-up values, with this MAC, IID and VER. It takes up to `limit` requests in a cycle: SATURN_LIMIT_LIGHTING for a
 * lighting module, SATURN_LIMIT_DOORS for doors. With any other limit the state is unsound: every call answers 19, and only
 * saturn_power_up with one of these two helps. */
void saturn_power_up(saturn_agent *agent, uint64_t mac, uint64_t iid, uint16_t ver, uint8_t limit);

/* One millisecond, with the inputs: registers C0h to FFh become these 64 bytes, then e, s and, in RUN, q count on; a limit
 * that is reached leads to fallback, and so does the end of the cycle in RUN with the mark set. Answers 0, 19 or 21 (not 64
 * inputs). With 19 and 21 the agent is left as it was: nothing is stored, and nothing counts on, so a host that always passes a
 * wrong length never reaches a time limit. */
uint8_t saturn_tick(saturn_agent *agent, const uint8_t *inputs, size_t inputs_length);

/* A body received on port 1 or 2, from the address to the FCS, still stuffed and without flags. The frame has its effect.
 * The first *sent bytes of reply are the whole reply with both flags, to be sent on both ports; the rest of reply is left
 * as it was. *sent is 0 if there is no reply. With 19, 20 and 21 agent and reply are left as they were and *sent is 0. After 22,
 * a sync outside its window, RUN goes on: a sync that is accepted clears the mark, and if none is until a tick ends the cycle,
 * that tick leads to fallback. A request up to three numbers ahead of the one due is taken: the numbers skipped count in CPT_SEQ
 * and set bit 1 of STATUT, and one of them that comes later in that cycle is 13. */
uint8_t saturn_frame(saturn_agent *agent, uint8_t port, const uint8_t *body, size_t body_length, uint8_t *reply,
                     size_t reply_length, uint16_t *sent);

#ifdef __cplusplus
}
#endif

#endif
