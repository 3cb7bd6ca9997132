/* What the cases reached. A run that has not reached everything fails: it would compare less than it says. */
#ifndef SEEN_H
#define SEEN_H

#include <stdbool.h>
#include <stdint.h>

/* clang-format off */
typedef enum {
    /* numbers, by what gave them */
    SEEN_RANK_NUMBER, SEEN_ORDER_NUMBER, SEEN_SELECT_NUMBER, SEEN_OFFER_NUMBER,
    SEEN_FRAME_P_NUMBER, SEEN_FRAME_E_NUMBER, SEEN_ROM_NUMBER, SEEN_UARTBOOT_NUMBER,
    SEEN_PRODUCT_NUMBER, SEEN_COMMAND_NUMBER, SEEN_IMAGE_HEADER_NUMBER, SEEN_HOST_NUMBER, SEEN_TRAY_NUMBER,
    /* trays by their list (see below): accepted, refused with each number, with 64 where the room is short too */
    SEEN_TRAY_0, SEEN_TRAY_64, SEEN_TRAY_65, SEEN_TRAY_64_AND_65,
    /* a good list's room (see below); pointers that are NULL, 1 to no fields, 2 to no room, 3 both; entries by their
       number; the only malformed field of three or more, by its place (see below) */
    SEEN_TRAY_ROOM, SEEN_TRAY_NULL, SEEN_TRAY_ENTRY, SEEN_TRAY_MALFORMED,
    /* rules that images broke, and opcodes whose payload was read */
    SEEN_RULE, SEEN_COMMAND_OPCODE,
    /* what sessions and hosts reached from a fresh record */
    SEEN_STANDING, SEEN_REASON, SEEN_ROM_P, SEEN_ROM_E, SEEN_UARTBOOT, SEEN_HOST, SEEN_OPCODE,
    /* headers from a fresh record, by opcode: accepted; with too few bytes, too many, more than the work buffer has
       too, or that alone; unknown ones, 1 where they have more bytes than the work buffer */
    SEEN_HEADER_ACCEPTED, SEEN_HEADER_SHORT, SEEN_HEADER_LONG, SEEN_HEADER_LONG_ABOVE, SEEN_HEADER_ABOVE,
    SEEN_HEADER_STRANGE,
    /* payloads by opcode: refused with each reason, in the order of reasons, here and below */
    SEEN_PAYLOAD_14, SEEN_PAYLOAD_15, SEEN_PAYLOAD_16, SEEN_PAYLOAD_17, SEEN_PAYLOAD_21,
    /* ranges by opcode: from the memory's first byte on, from its last, from the one after that; inside up to the end,
       from inside to one byte past it; to 2^32 and more. RAM's from the byte before RAM on, flash's from inside to 2^32
       and more; of a Copy, how both ranges lie (see below) */
    SEEN_RAM_FIRST, SEEN_RAM_LAST, SEEN_RAM_AFTER, SEEN_RAM_TO_END, SEEN_RAM_PAST_END, SEEN_RAM_WRAPS,
    SEEN_FLASH_FIRST, SEEN_FLASH_LAST, SEEN_FLASH_AFTER, SEEN_FLASH_TO_END, SEEN_FLASH_PAST_END, SEEN_FLASH_WRAPS,
    SEEN_RAM_BEFORE, SEEN_FLASH_INSIDE_WRAPS, SEEN_COPY_RANGES,
    /* by opcode: answers as long as the work buffer */
    SEEN_ANSWER_FILLS,
    /* commands by opcode: executed, from a fresh and from a given record; not acknowledged before that, or before the
       answer */
    SEEN_EXECUTED, SEEN_EXECUTED_GIVEN, SEEN_NOT_EXECUTED, SEEN_NOT_ANSWERED,
    /* payloads by opcode that are refused at execution: altered since they were accepted, or given with the record */
    SEEN_AGAIN_14, SEEN_AGAIN_15, SEEN_AGAIN_16, SEEN_AGAIN_17, SEEN_AGAIN_21,
    SEEN_GIVEN_14, SEEN_GIVEN_15, SEEN_GIVEN_16, SEEN_GIVEN_17, SEEN_GIVEN_21,
    /* by phase: what the session or the host had taken, or was to send, was altered between two calls */
    SEEN_ALTERED_P, SEEN_ALTERED_E, SEEN_ALTERED_UARTBOOT, SEEN_ALTERED_HOST,
    /* the host's CRC of an answer: 1 its low byte is wrong, 2 its high byte, 3 both */
    SEEN_HOST_CRC,
    /* reasons that the record has before there is room for their 15, and that replace another; by kind, a reason that
       success leaves */
    SEEN_REASON_BEFORE_15, SEEN_REASON_REPLACED, SEEN_REASON_KEPT,
    /* by kind: bytes and room for a session whose code runs, or a host that is over; by phase: a low byte of any size
       in a given record */
    SEEN_RUNNING_SHOWN, SEEN_WIDE_P, SEEN_WIDE_E, SEEN_WIDE_UARTBOOT, SEEN_WIDE_HOST,
    /* given records by phase: accepted with the first and with the last place, refused for a place at the end or beyond
       it alone */
    SEEN_FIRST_PLACE_P, SEEN_FIRST_PLACE_E, SEEN_FIRST_PLACE_UARTBOOT, SEEN_FIRST_PLACE_HOST,
    SEEN_LAST_PLACE_P, SEEN_LAST_PLACE_E, SEEN_LAST_PLACE_UARTBOOT, SEEN_LAST_PLACE_HOST,
    SEEN_PLACE_AT_END_P, SEEN_PLACE_AT_END_E, SEEN_PLACE_AT_END_UARTBOOT, SEEN_PLACE_AT_END_HOST,
    SEEN_PLACE_BEYOND_P, SEEN_PLACE_BEYOND_E, SEEN_PLACE_BEYOND_UARTBOOT, SEEN_PLACE_BEYOND_HOST,
    /* given records refused for one word alone: for the kind, by the session that was called; for the phase, by kind;
       for a phase that only E has; by phase for an opcode that is unknown or another command's, for a length that is 0,
       above its memory or another command's; accepted with the longest length */
    SEEN_KIND_REFUSED, SEEN_PHASE_REFUSED, SEEN_PHASE_OF_E, SEEN_OPCODE_UNKNOWN, SEEN_OPCODE_OTHER,
    SEEN_LENGTH_ZERO_P, SEEN_LENGTH_ZERO_E, SEEN_LENGTH_ZERO_UARTBOOT,
    SEEN_LENGTH_ABOVE_P, SEEN_LENGTH_ABOVE_E, SEEN_LENGTH_ABOVE_UARTBOOT,
    SEEN_LENGTH_OTHER,
    SEEN_LENGTH_MOST_P, SEEN_LENGTH_MOST_E, SEEN_LENGTH_MOST_UARTBOOT,
    /* given records where code runs, by address (see below): accepted with it, refused for it alone */
    SEEN_ADDRESS_ACCEPTED_P, SEEN_ADDRESS_ACCEPTED_E, SEEN_ADDRESS_ACCEPTED_UARTBOOT,
    SEEN_ADDRESS_REFUSED_P, SEEN_ADDRESS_REFUSED_E, SEEN_ADDRESS_REFUSED_UARTBOOT,
    /* the same by opcode, 0 for all that are unknown */
    SEEN_RUNNING_ACCEPTED, SEEN_RUNNING_REFUSED,
    /* a host's commands by opcode: with a payload of another length, of 65,535 bytes, of 65,536; unknown ones, 1 where
       they have more than 8 bits; answer buffers one byte short, exact, longer; causes of refusal that come together */
    SEEN_REQUEST_OTHER, SEEN_REQUEST_MOST, SEEN_REQUEST_ABOVE, SEEN_REQUEST_STRANGE,
    SEEN_BUFFER_SHORT, SEEN_BUFFER_EXACT, SEEN_BUFFER_LONGER, SEEN_CAUSES,
    /* a host's records refused for a phase alone that its command does not have: by phase, without a payload, without
       an answer, with an answer of 0 bytes; by opcode, where no greeting is looked for */
    SEEN_PHASE_NO_PAYLOAD, SEEN_PHASE_NO_ANSWER, SEEN_PHASE_EMPTY_ANSWER, SEEN_PHASE_NO_GREETING,
    /* bytes that end a host's command by phase, 1 for the greeting's last: 15 and others; 15 in the greeting's middle,
       by place */
    SEEN_ENDED_73, SEEN_ENDED_75, SEEN_GREETING_15,
    /* a number's bytes from the device, 1 its low byte is wrong, 2 its high byte, 3 both: the payload's CRC, the
       answer's length, that of an answer of 0 bytes; a length 0 in place of another, 1 where that is above 255 */
    SEEN_DEVICE_CRC, SEEN_LENGTH_BYTES, SEEN_LENGTH_BYTES_OF_0, SEEN_LENGTH_0,
    /* a low length byte 15, 1 where it is the awaited one; then a high byte, 1 where that is wrong */
    SEEN_LOW_15, SEEN_LENGTH_AFTER_15,
    /* by phase: a held number above 255 that makes up the right number; makes it up past 2^32 alone; or with its low
       byte alone */
    SEEN_SUM_WIDE, SEEN_SUM_WRAPS, SEEN_SUM_CUT,
    /* by opcode: commands done from a fresh record; done with a given reason kept; given reasons replaced */
    SEEN_DONE, SEEN_DONE_KEPT, SEEN_ENDED_REPLACED,
    /* on a line between host and session: commands done by opcode, refused by reason; a further command after one that
       was done (0) or refused (1) */
    SEEN_JOINED_DONE, SEEN_JOINED_REFUSED, SEEN_JOINED_AGAIN,
    /* recordings: the replay's number; which lengths of memories are refused, 1 work buffer, 2 RAM, 4 flash; with 1, 2
       and 3 in the place of what number; an empty file, 1 where it is lent as NULL */
    SEEN_REPLAY_NUMBER, SEEN_REPLAY_LENGTHS, SEEN_REPLAY_1, SEEN_REPLAY_2, SEEN_REPLAY_3, SEEN_REPLAY_NULL,
    /* a head that is right as far as it goes, by its length; with one wrong byte, by place; 81 where the version is
       wrong too */
    SEEN_HEAD_CUT, SEEN_HEAD_WRONG, SEEN_WRONG_BOTH,
    /* entries, 2 for few of them and 3 for many; their order and, by kind, their lengths (see below) */
    SEEN_ENTRIES, SEEN_ENTRY_ORDER, SEEN_ENTRY_HOST, SEEN_ENTRY_DEVICE,
    /* wrong entries, 1 where others come before; kinds that are unknown, 4 for those above 3, and 1 where such an entry
       is cut short too; how many bytes there are of one that is cut short (see below) */
    SEEN_AFTER_83, SEEN_AFTER_84, SEEN_UNKNOWN_KIND, SEEN_UNKNOWN_AND_CUT, SEEN_CUT_HOST, SEEN_CUT_DEVICE,
    /* where replayed bytes differ (see below); how far on, by 256, 4096 and 60000 bytes: all that are equal, or the
       first difference; host bytes after code runs, 1 with equal bytes; after a difference, 0 RAM and 1 flash were
       stored to */
    SEEN_REPLAY_ENDING, SEEN_EQUAL_FAR, SEEN_DIFFERS_FAR, SEEN_HOST_AFTER_RUN, SEEN_STORED_AFTER,
    SEENS
} seen_what;
/* clang-format on */

/* A tray's list: no, one or the most fields, one more than the most; a byte less or more than one field; the most
   fields and a part of another; any other, whole or not. */
typedef enum {
    LIST_NONE,
    LIST_ONE,
    LIST_MOST,
    LIST_ABOVE,
    LIST_SHORT,
    LIST_LONG,
    LIST_MOST_AND_PART,
    LIST_WHOLE,
    LIST_PART
} seen_list;

/* A tray's room: as long as the entries, longer, one number short, less than half of it, any other that is short. */
typedef enum { ROOM_EXACT, ROOM_LONGER, ROOM_ONE_SHORT, ROOM_FAR_SHORT, ROOM_SHORT } seen_room;

/* Where a tray's field lies. */
typedef enum { FIELD_FIRST, FIELD_BETWEEN, FIELD_LAST } seen_field;

/* A recording's entries: none, all of one kind, all of the host's first or all of the device's, any other. */
typedef enum { ORDER_NO_ENTRY, ORDER_ONE_KIND, ORDER_HOST_FIRST, ORDER_DEVICE_FIRST, ORDER_IN_TURNS } seen_order;

/* An entry's length: 0, 1, one byte's number, two bytes', the most. */
typedef enum { ENTRY_EMPTY, ENTRY_ONE, ENTRY_SHORT, ENTRY_LONG, ENTRY_MOST } seen_entry;

/* An entry that is cut short: after its kind, in its length, before its bytes, among them, before the last one. */
typedef enum { CUT_AFTER_KIND = 1, CUT_IN_LENGTH, CUT_BEFORE_BYTES, CUT_IN_BYTES, CUT_ONE_SHORT } seen_cut;

/* A replay: equal; differing in the first reply, in the last, between; with too few bytes recorded, none, too many. */
typedef enum {
    REPLAY_EQUAL,
    REPLAY_AT_FIRST,
    REPLAY_AT_LAST,
    REPLAY_BETWEEN,
    REPLAY_TOO_FEW,
    REPLAY_NONE,
    REPLAY_TOO_MANY
} seen_replay;

/* Where an address lies: RAM's first and last byte, the ones beside them, the last ones of 32 bits, any other. */
typedef enum {
    ADDRESS_FIRST,
    ADDRESS_LAST,
    ADDRESS_BEFORE,
    ADDRESS_BEHIND,
    ADDRESS_HIGHEST,
    ADDRESS_OTHER
} seen_address;

/* How a range lies: wholly in its memory, with its first byte outside, or past the end. A Copy has one in RAM, which
   counts three times, and one in flash. */
typedef enum { LIES_INSIDE, LIES_OUTSIDE, LIES_PAST_END, LIES } seen_lies;

/* Causes of which the first is given. */
typedef enum { CAUSES_71_72, CAUSES_71_4, CAUSES_72_4 } seen_causes;

void seen(seen_what what, uint32_t number);
/* Forgets all of it: what figures reached is not for cases to claim. */
void seen_anew(void);
/* Prints what is missing. */
bool all_seen(void);

#endif
