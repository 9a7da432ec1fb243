/*
 * The M3AP message core, for a link process in C.
 * All calls are in one archive, libm3ap.a, for x86-64: `./install PREFIX` makes it and puts it beside this header, with an m3ap.pc for pkg-config.
 * It needs memcpy and memset of the C library, and nothing else.
 *
 * A call works on the octets that it is lent and on nothing else: it keeps no state, allocates nothing, opens nothing, does not recurse, and
 * returns for every input. Calls on parts that do not overlap, or that are only read, may run at the same time. The statements, proved for all
 * inputs, stand in src/lib.rt of crates/link, crates/view and crates/console; what a process may rely on, in crates/link/specs/Promised.antt.
 *
 * The parts handed to one call must not overlap. A part of length 0 may be NULL. A length is at most PTRDIFF_MAX.
 */
#ifndef M3AP_H
#define M3AP_H

#include <stdbool.h>
#include <stddef.h>
#include <stdint.h>

#ifdef __cplusplus
extern "C" {
#endif

/* The version of this header. m3ap_version says that of the archive: a process is built of two that are equal. */
#define M3AP_VERSION 3
#define M3AP_VERSION_STRING "3"

uint32_t m3ap_version(void);

/*
 * What the calls remember from one to the next, the unit, has this many octets, which the process lends and keeps. A fresh unit is all zero octets.
 * No process need look at them: m3ap_marks and m3ap_row tell what they hold; docs/LAYOUTS.md has them.
 */
#define M3AP_UNIT_OCTETS 3088

/* A message has at most this many octets. Every reply fits a room of as many. */
#define M3AP_MESSAGE_OCTETS 8192

/* A record has this many octets: struct m3ap_record. */
#define M3AP_RECORD_OCTETS 2662

/*
 * A call needs at most this many octets of stack on x86-64, as built with the kit of docs/CHECKING.md, the C library's memcpy and memset included.
 * sample/stack.c measures it; how much of it is the C library's differs by machine. Seen: 42,216 for m3ap_call, 1,032 for m3ap_read, 2,464 for
 * m3ap_write, 8,472 for m3ap_setup, 768 for m3ap_shown, 11,368 for m3ap_count, 8,408 for m3ap_count_in, 8,424 for m3ap_row, 8,440 for m3ap_marks.
 */
#define M3AP_STACK_OCTETS 49152

/* The answers: the numbers of the scope paper and of the change requests. */
#define M3AP_CARRIED_OUT 0     /* carried out; read; written */
#define M3AP_TOO_LONG 1        /* over 8,192 octets */
#define M3AP_FAULT 2           /* encoding fault, at `place` */
#define M3AP_EXTENSION 3       /* extension met, at `place` */
#define M3AP_NO_REQUEST 4      /* none of the eleven messages; for m3ap_call also one that asks for nothing */
#define M3AP_REJECTED 5        /* elements rejected */
#define M3AP_MME_HELD 6        /* start: the MME identity is held */
#define M3AP_OFFER_HELD 7      /* start: the offered MCE identity is held */
#define M3AP_PAIR_NOT_HELD 8   /* stop: no association has both identities */
#define M3AP_FULL 9            /* start: 256 associations are held */
#define M3AP_NO_ROOM 10        /* the reply, the record or the message would not fit the room; nothing is done */
#define M3AP_NOT_WRITTEN 11    /* octets that are no record, or a record that has no message; for m3ap_setup also one of another message */
#define M3AP_NAME 12           /* a name that is not 1 to 150 PrintableString characters */
#define M3AP_ALREADY_OPEN 13   /* a setup request is open */
#define M3AP_NONE_OPEN 14      /* the answer to a setup request, and none is open */
#define M3AP_NO_UNIT 21        /* the unit handed in is none */

struct m3ap_answer {
    uint32_t answer; /* one of the numbers above */
    uint32_t place;  /* beside 2 and 3: the offset of the octet in which the field at fault begins, 0 to message_len; else 0 */
    uint32_t octets; /* how many octets were put at the front of the room; 0: none */
    uint16_t bit;    /* 0 today */
    uint16_t wait;   /* beside 0 of an M3 SETUP FAILURE with Time to Wait: its seconds, 1, 2, 5, 10, 20 or 60; else 0 */
};

/*
 * What one message does. Answers 0 to 10, 14 and 21. Of the eleven messages below six ask for something: START REQUEST, STOP REQUEST, RESET,
 * ERROR INDICATION, and while a setup request is open its answer, M3 SETUP RESPONSE or M3 SETUP FAILURE. An accepted response empties the table, an
 * accepted failure keeps it; both close the request.
 *
 * The reply, put at the front of the room:
 *     0     START RESPONSE, STOP RESPONSE or RESET ACKNOWLEDGE, as the request was; none for an ERROR INDICATION and the answer to a setup
 *     5     START FAILURE for a START REQUEST whose MME identity was read; none for an ERROR INDICATION; else ERROR INDICATION
 *     6, 9  START FAILURE
 *     8     ERROR INDICATION
 *     1, 2, 3, 4, 7, 10, 14, 21  none
 *
 * unit      lent, M3AP_UNIT_OCTETS long; changed by answer 0 only. Another length, or octets that are no unit, get answer 21.
 * message   read. Any octets, any length.
 * offered   the MCE identity that a start is given; looked at in a start only.
 * room      lent. The reply fills its front, and the rest keeps its octets; without a reply all of it does.
 */
struct m3ap_answer m3ap_call(uint8_t *unit, size_t unit_len, const uint8_t *message, size_t message_len,
                             uint16_t offered, uint8_t *room, size_t room_len);

/* ---- the record of a message: octets only, so that no compiler puts anything between them. Numbers have the high octet first. */

/* Which message it is. */
#define M3AP_START_REQUEST 1
#define M3AP_START_RESPONSE 2
#define M3AP_START_FAILURE 3
#define M3AP_STOP_REQUEST 4
#define M3AP_STOP_RESPONSE 5
#define M3AP_RESET 6
#define M3AP_RESET_ACKNOWLEDGE 7
#define M3AP_ERROR_INDICATION 8
#define M3AP_SETUP_REQUEST 9
#define M3AP_SETUP_RESPONSE 10
#define M3AP_SETUP_FAILURE 11

/*
 * The value of a row of the message's table. there is 0 for a value that is absent, and then the others are 0 too; else 1 (2 for a Reset Type that
 * is part of the interface, whose items stand in the record), and of the others, zeros behind them:
 *     MME identity, MCE identity    its two octets
 *     TMGI                          PLMN (3), service (3)
 *     Session Identity              its octet
 *     Cause                         group, number in the group
 *     Time to Wait                  its number, 0 to 5
 *     MCE Name                      the place of its first character in the octets that were read (2), and how many characters it has (2)
 *     Reset Type, list of items     none
 *     Criticality Diagnostics       1 and the procedure code, or 0 and 0; likewise the triggering message; likewise the criticality;
 *                                   1 if there is a list, whose entries stand in the record, else 0
 *     any other value               is carried: its place in the octets that were read (2), and how many octets it has (2)
 */
struct m3ap_slot {
    uint8_t there;
    uint8_t value[7];
};

/* An item of a reset. there is 1 and the identity, or 0 and zeros. */
struct m3ap_item {
    uint8_t mme_there;
    uint8_t mme[2];
    uint8_t mce_there;
    uint8_t mce[2];
};

/* A listed element. error is 0 for not understood, 1 for missing. */
struct m3ap_entry {
    uint8_t criticality;
    uint8_t id[2];
    uint8_t error;
};

/*
 * Items stand there where a slot announces them: a Reset Type that is part of the interface, or an acknowledgement's list. Entries stand there where
 * Criticality Diagnostics say that there is a list. Otherwise their number is 0. Items and entries behind as many as the number before them says are
 * zeros, and so are slots behind the rows of the message's table.
 */
struct m3ap_record {
    uint8_t message;     /* one of the eleven numbers above */
    uint8_t criticality; /* of the frame, as received: 0 reject, 1 ignore, 2 notify. m3ap_write puts the one that the tables give */
    struct m3ap_slot slots[12];
    uint8_t item_count[2];
    struct m3ap_item items[256];
    uint8_t entry_count[2];
    struct m3ap_entry entries[256];
};

/* The rows of each table, as numbers of slots. */
#define M3AP_START_REQUEST_MME 0
#define M3AP_START_REQUEST_TMGI 1
#define M3AP_START_REQUEST_SESSION 2
#define M3AP_START_REQUEST_QOS 3
#define M3AP_START_REQUEST_DURATION 4
#define M3AP_START_REQUEST_AREA 5
#define M3AP_START_REQUEST_MINIMUM_TIME 6
#define M3AP_START_REQUEST_TNL 7
#define M3AP_START_REQUEST_TIME 8
#define M3AP_START_REQUEST_REESTABLISHMENT 9
#define M3AP_START_REQUEST_ALTERNATIVE_TNL 10
#define M3AP_START_REQUEST_CELLS 11
#define M3AP_RESPONSE_MME 0 /* START RESPONSE and STOP RESPONSE */
#define M3AP_RESPONSE_MCE 1
#define M3AP_RESPONSE_DIAGNOSTICS 2
#define M3AP_START_FAILURE_MME 0
#define M3AP_START_FAILURE_CAUSE 1
#define M3AP_START_FAILURE_DIAGNOSTICS 2
#define M3AP_STOP_REQUEST_MME 0
#define M3AP_STOP_REQUEST_MCE 1
#define M3AP_STOP_REQUEST_TIME 2
#define M3AP_RESET_CAUSE 0
#define M3AP_RESET_TYPE 1
#define M3AP_RESET_ACKNOWLEDGE_LIST 0
#define M3AP_RESET_ACKNOWLEDGE_DIAGNOSTICS 1
#define M3AP_ERROR_INDICATION_MME 0
#define M3AP_ERROR_INDICATION_MCE 1
#define M3AP_ERROR_INDICATION_CAUSE 2
#define M3AP_ERROR_INDICATION_DIAGNOSTICS 3
#define M3AP_SETUP_REQUEST_GLOBAL_ID 0
#define M3AP_SETUP_REQUEST_NAME 1
#define M3AP_SETUP_REQUEST_AREAS 2
#define M3AP_SETUP_RESPONSE_DIAGNOSTICS 0
#define M3AP_SETUP_FAILURE_CAUSE 0
#define M3AP_SETUP_FAILURE_WAIT 1
#define M3AP_SETUP_FAILURE_DIAGNOSTICS 2

/*
 * Reads a message. Answers 0 to 5 and 10. Answers 0 and 5 put the record of what was read; 10 takes their place where record_len, in octets, is
 * less than M3AP_RECORD_OCTETS. Whatever else: the octets at record stay as they are.
 */
struct m3ap_answer m3ap_read(const uint8_t *message, size_t message_len, struct m3ap_record *record, size_t record_len);

/*
 * Writes a message. Answers 0, 10, 11 and 12. A name and carried values lie in values: with the octets that m3ap_read has read, it is the message again, if that
 * holds only elements of its table, with the criticalities that the tables give, lacks no mandatory one, and was read with answer 0.
 * Two records, each with its values, that differ in any octet but the frame's criticality and the places of carried values, or in the octets of a
 * carried value, have messages that differ.
 *
 * record    read, record_len octets. Octets that are no record get 11: another size, a criticality over 2, a value that is none of its row's,
 *           items or entries that no slot announces, more than 256 of them, anything behind them.
 * values    read.
 * room      lent. The message fills its front, and the rest keeps its octets; with 10, 11 and 12 all of it does.
 */
struct m3ap_answer m3ap_write(const struct m3ap_record *record, size_t record_len, const uint8_t *values, size_t values_len,
                              uint8_t *room, size_t room_len);

/* ---- the setup of the interface */

/*
 * Writes the M3 SETUP REQUEST that the record says, and marks it open in the unit: then m3ap_call takes its answer. Answers 21, 12, 13, 11, 10 and 0, in
 * this order: the first that is due. Only 0 opens. A name is refused, never cut or replaced: two setups whose names differ, one with a name and one without
 * among them, have requests that differ.
 *
 * unit      lent, as for m3ap_call; changed by 0 only.
 * record    read, record_len octets: a record of M3 SETUP REQUEST, as m3ap_read would make it; its name and its carried values lie in values.
 * values    read.
 * room      lent. The request fills its front, and the rest keeps its octets; whatever is refused leaves all of it.
 */
struct m3ap_answer m3ap_setup(uint8_t *unit, size_t unit_len, const struct m3ap_record *record, size_t record_len, const uint8_t *values,
                              size_t values_len, uint8_t *room, size_t room_len);

/* A part of the request (of_label 0) or of the label (of_label 1): where it begins, and how many octets it has. */
struct m3ap_part {
    uint32_t of_label;
    uint32_t from;
    uint32_t octets;
};

/*
 * What is shown of a request: the characters of its name, where m3ap_read answers it with 0 as an M3 SETUP REQUEST that has one; otherwise the label, its
 * first 150 octets at most. The label's octets are not looked at.
 */
struct m3ap_part m3ap_shown(const uint8_t *request, size_t request_len, const uint8_t *label, size_t label_len);

/* ---- what a unit holds, and the console. Nothing here changes what is lent. */

struct m3ap_tmgi {
    uint8_t plmn[3];
    uint8_t service[3];
};

/* An association. Without has_session, session says nothing. There is one link today, 0. */
struct m3ap_association {
    uint16_t mme;
    uint16_t mce;
    struct m3ap_tmgi tmgi;
    bool has_session;
    uint8_t session;
    uint8_t link;
};

struct m3ap_counted {
    uint16_t answer; /* 0, or 21: for m3ap_count, a run of over 256, in which two share an identity of one series, or with a link other than 0 */
    size_t count;    /* 0 beside 21 */
};

/* How many associations of the run have the TMGI. run_len counts associations. */
struct m3ap_counted m3ap_count(const struct m3ap_association *run, size_t run_len, struct m3ap_tmgi tmgi);

/* How many associations that the unit holds have the TMGI. Answer 21 for octets that are no unit. */
struct m3ap_counted m3ap_count_in(const uint8_t *unit, size_t unit_len, struct m3ap_tmgi tmgi);

struct m3ap_row {
    uint32_t answer;                     /* 0, or 21 for octets that are no unit, and then all else is 0 */
    uint32_t held;                       /* how many associations are held, 0 to 256 */
    struct m3ap_association association; /* all zeros where k is not below held; session is 0 without has_session */
};

/* Association k, from 0, of those that the unit holds, in order of starting. */
struct m3ap_row m3ap_row(const uint8_t *unit, size_t unit_len, uint32_t k);

/* All that a unit remembers beside its associations. Nothing but held and open changes today: the others are those of a fresh unit. */
struct m3ap_marks {
    uint32_t answer;   /* 0, or 21 for octets that are no unit, and then all else is 0 */
    uint32_t held;     /* how many associations are held, 0 to 256 */
    uint32_t held_1;   /* likewise on a second link; 0 today */
    uint32_t open;     /* 1 if a setup request is open, else 0 */
    uint32_t open_1;   /* likewise on a second link; 0 today */
    uint32_t edition;  /* the release of TS 36.444; 18 today */
    uint32_t rooms;    /* how many associations can be held; 256 today */
    uint32_t next;     /* the MCE identity that is tried first where one is picked; 0 today */
    uint32_t settings; /* the number of the settings in force, 0 before any; 0 today */
};

struct m3ap_marks m3ap_marks(const uint8_t *unit, size_t unit_len);

#ifdef __cplusplus
}
#endif

#endif
