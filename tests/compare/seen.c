#include "seen.h"

#include "model.h"

#include <stdio.h>
#include <string.h>

enum { MOST = 128 };

static uint64_t counts[SEENS][MOST];

void seen(seen_what what, uint32_t number)
{
    if (number < MOST)
        counts[what][number]++;
}

void seen_anew(void)
{
    memset(counts, 0, sizeof counts);
}

typedef struct {
    const char *name;
    int numbers[24]; /* ends with -1 */
} wanted;

#define PHASES_P 0, 1, 2, 3, 6, 7, 8, 9, 10, 11, -1
#define PHASES_E 0, 1, 2, 3, 4, 5, 6, 7, 8, 9, 10, 11, -1
#define PHASES_UARTBOOT 0, 1, 2, 3, 4, 5, 6, 7, 8, 9, 10, 11, 12, 13, 14, 15, 16, 17, 18, 19, -1
#define PHASES_HOST 0, 1, 2, 3, 4, 5, 6, 7, 8, 9, 10, 11, 12, 13, 14, 15, 16, 17, -1
#define WITH_PAYLOAD 1, 2, 3, 4, 5, 8, 18, -1
#define EVERY_OPCODE 1, 2, 3, 4, 5, 8, 11, 12, 18, -1
#define WITH_ANSWER 2, 8, 11, -1
#define WITH_DATA 1, 18, -1
#define REFUSED_14 18, -1
#define REFUSED_15 2, 3, 4, 8, -1
#define REFUSED_16 WITH_PAYLOAD
#define REFUSED_17 2, 8, -1
#define REFUSED_21 1, 2, 3, 4, 8, 18, -1
#define RANGE_IN_RAM 1, 2, 3, 5, -1
#define RANGE_IN_FLASH 3, 4, 8, 18, -1
#define TAKES_CODE 6, 7, 8, 9, -1
#define HAS_OPCODE 5, 6, 7, 8, 9, 10, 11, 12, 13, 14, 15, 16, 17, -1
#define OF_A_FILE 0, 81, 82, 83, 84, -1
#define ENTRY_LENGTHS ENTRY_EMPTY, ENTRY_ONE, ENTRY_SHORT, ENTRY_LONG, ENTRY_MOST, -1
#define CUTS CUT_AFTER_KIND, CUT_IN_LENGTH, CUT_BEFORE_BYTES, CUT_IN_BYTES, CUT_ONE_SHORT, -1
#define IN_RAM ADDRESS_FIRST, ADDRESS_LAST, ADDRESS_OTHER, -1
#define OUTSIDE ADDRESS_BEFORE, ADDRESS_BEHIND, ADDRESS_HIGHEST, ADDRESS_OTHER, -1

static const wanted all[SEENS] = {
    [SEEN_RANK_NUMBER] = {"number of a rank", {0, 61, -1}},
    [SEEN_ORDER_NUMBER] = {"number of an order", {0, 61, -1}},
    [SEEN_SELECT_NUMBER] = {"number of the selector", {0, 3, 51, 52, 53, -1}},
    [SEEN_OFFER_NUMBER] = {"number of an offer", {0, 61, 62, 63, -1}},
    [SEEN_IMAGE_HEADER_NUMBER] = {"number of an image header", {0, 41, 42, 61, -1}},
    [SEEN_FRAME_P_NUMBER] = {"number of a frame for P", {0, 41, 42, 43, -1}},
    [SEEN_FRAME_E_NUMBER] = {"number of a frame for E", {0, 41, 42, 43, -1}},
    [SEEN_ROM_NUMBER] = {"number of a receiver", {0, 2, 4, -1}},
    [SEEN_UARTBOOT_NUMBER] = {"number of uartboot", {0, 1, 2, 3, 4, -1}},
    [SEEN_HOST_NUMBER] = {"number of a host", {0, 4, 71, 72, -1}},
    [SEEN_PRODUCT_NUMBER] = {"number of a product header", {0, 3, 51, 52, -1}},
    [SEEN_COMMAND_NUMBER] = {"number of a command", {0, 11, 12, -1}},
    [SEEN_TRAY_NUMBER] = {"number of a tray", {0, 64, 65, -1}},
    [SEEN_TRAY_0] = {"an accepted tray with a list of class", {LIST_NONE, LIST_ONE, LIST_MOST, LIST_WHOLE, -1}},
    [SEEN_TRAY_64] = {"a tray refused with 64 with a list of class",
                      {LIST_ABOVE, LIST_SHORT, LIST_LONG, LIST_MOST_AND_PART, LIST_PART, -1}},
    [SEEN_TRAY_65] = {"a tray refused with 65 with a list of class", {LIST_ONE, LIST_MOST, LIST_WHOLE, -1}},
    [SEEN_TRAY_64_AND_65] = {"a tray refused with 64 with short room and a list of class",
                             {LIST_ABOVE, LIST_LONG, LIST_MOST_AND_PART, LIST_PART, -1}},
    [SEEN_TRAY_ROOM] = {"a tray's room of class",
                        {ROOM_EXACT, ROOM_LONGER, ROOM_ONE_SHORT, ROOM_FAR_SHORT, ROOM_SHORT, -1}},
    [SEEN_TRAY_NULL] = {"a tray's NULLs of class", {0, 1, 2, 3, -1}},
    [SEEN_TRAY_ENTRY] = {"number of a tray's entry", {0, 61, -1}},
    [SEEN_TRAY_MALFORMED] = {"a tray's only malformed field at place", {FIELD_FIRST, FIELD_BETWEEN, FIELD_LAST, -1}},
    [SEEN_RULE] = {"rule of an image", {0, 1, 2, 3, 4, 5, 6, 7, -1}},
    [SEEN_COMMAND_OPCODE] = {"opcode of a command", {EVERY_OPCODE}},
    [SEEN_REASON] = {"reason", {0, 11, 12, 13, 14, 15, 16, 17, 18, 19, 20, 21, 31, 32, 33, 34, 73, 74, 75, -1}},
    [SEEN_ROM_P] = {"phase of kind P", {PHASES_P}},
    [SEEN_ROM_E] = {"phase of kind E", {PHASES_E}},
    [SEEN_UARTBOOT] = {"phase of uartboot", {PHASES_UARTBOOT}},
    [SEEN_HOST] = {"phase of a host", {PHASES_HOST}},
    [SEEN_STANDING] = {"standing", {1, 2, 3, -1}},
    [SEEN_OPCODE] = {"opcode accepted", {EVERY_OPCODE}},
    [SEEN_HEADER_ACCEPTED] = {"an accepted header of opcode", {EVERY_OPCODE}},
    [SEEN_HEADER_SHORT] = {"a header with too few bytes of opcode", {WITH_PAYLOAD}},
    [SEEN_HEADER_LONG] = {"a header with too many bytes of opcode", {2, 3, 4, 5, 8, 11, 12, -1}},
    [SEEN_HEADER_LONG_ABOVE] = {"a header with too many bytes, more than the work buffer's, of opcode",
                                {2, 3, 4, 5, 8, 11, 12, -1}},
    [SEEN_HEADER_ABOVE] = {"a header with more bytes than the work buffer of opcode", {1, 18, -1}},
    [SEEN_HEADER_STRANGE] = {"a header of an unknown opcode, long or not:", {0, 1, -1}},
    [SEEN_PAYLOAD_14] = {"a payload refused with 14 of opcode", {REFUSED_14}},
    [SEEN_PAYLOAD_15] = {"a payload refused with 15 of opcode", {REFUSED_15}},
    [SEEN_PAYLOAD_16] = {"a payload refused with 16 of opcode", {REFUSED_16}},
    [SEEN_PAYLOAD_17] = {"a payload refused with 17 of opcode", {REFUSED_17}},
    [SEEN_PAYLOAD_21] = {"a payload refused with 21 of opcode", {REFUSED_21}},
    [SEEN_RAM_FIRST] = {"a range from RAM's first byte of opcode", {RANGE_IN_RAM}},
    [SEEN_RAM_LAST] = {"a range from RAM's last byte of opcode", {RANGE_IN_RAM}},
    [SEEN_RAM_AFTER] = {"a range from the byte after RAM of opcode", {RANGE_IN_RAM}},
    [SEEN_RAM_TO_END] = {"a range to the end of RAM of opcode", {RANGE_IN_RAM}},
    [SEEN_RAM_PAST_END] = {"a range in RAM to one byte past it of opcode", {1, 2, 3, -1}},
    [SEEN_RAM_WRAPS] = {"a range of addresses past 2^32 of opcode", {RANGE_IN_RAM}},
    [SEEN_RAM_BEFORE] = {"a range from the byte before RAM of opcode", {RANGE_IN_RAM}},
    [SEEN_FLASH_FIRST] = {"a range from the flash's first byte of opcode", {RANGE_IN_FLASH}},
    [SEEN_FLASH_LAST] = {"a range from the flash's last byte of opcode", {RANGE_IN_FLASH}},
    [SEEN_FLASH_AFTER] = {"a range from the byte after the flash of opcode", {RANGE_IN_FLASH}},
    [SEEN_FLASH_TO_END] = {"a range to the end of flash of opcode", {RANGE_IN_FLASH}},
    [SEEN_FLASH_PAST_END] = {"a range in flash to one byte past it of opcode", {RANGE_IN_FLASH}},
    [SEEN_FLASH_WRAPS] = {"a range of offsets past 2^32 of opcode", {RANGE_IN_FLASH}},
    [SEEN_FLASH_INSIDE_WRAPS] = {"a range from inside flash past 2^32 of opcode", {4, -1}},
    [SEEN_COPY_RANGES] = {"a Copy whose ranges lie like", {0, 1, 2, 3, 4, 5, 6, 7, 8, -1}},
    [SEEN_ANSWER_FILLS] = {"an answer as long as the work buffer of opcode", {2, 8, -1}},
    [SEEN_EXECUTED] = {"an executed command of opcode", {EVERY_OPCODE}},
    [SEEN_EXECUTED_GIVEN] = {"a command executed from a given record of opcode", {EVERY_OPCODE}},
    [SEEN_NOT_EXECUTED] = {"a command not acknowledged of opcode", {WITH_PAYLOAD}},
    [SEEN_NOT_ANSWERED] = {"an answer not acknowledged of opcode", {WITH_ANSWER}},
    [SEEN_AGAIN_14] = {"an altered payload refused at execution with 14 of opcode", {REFUSED_14}},
    [SEEN_AGAIN_15] = {"an altered payload refused at execution with 15 of opcode", {REFUSED_15}},
    [SEEN_AGAIN_16] = {"an altered payload refused at execution with 16 of opcode", {REFUSED_16}},
    [SEEN_AGAIN_17] = {"an altered payload refused at execution with 17 of opcode", {REFUSED_17}},
    [SEEN_AGAIN_21] = {"an altered payload refused at execution with 21 of opcode", {REFUSED_21}},
    [SEEN_GIVEN_14] = {"a given payload refused at execution with 14 of opcode", {REFUSED_14}},
    [SEEN_GIVEN_15] = {"a given payload refused at execution with 15 of opcode", {REFUSED_15}},
    [SEEN_GIVEN_16] = {"a given payload refused at execution with 16 of opcode", {REFUSED_16}},
    [SEEN_GIVEN_17] = {"a given payload refused at execution with 17 of opcode", {REFUSED_17}},
    [SEEN_GIVEN_21] = {"a given payload refused at execution with 21 of opcode", {REFUSED_21}},
    [SEEN_ALTERED_P] = {"an altered code of kind P, phase", {7, 8, -1}},
    [SEEN_ALTERED_E] = {"an altered code of kind E, phase", {7, 8, -1}},
    [SEEN_ALTERED_UARTBOOT] = {"an altered work buffer, phase", {6, 7, 8, 9, 10, 11, 12, 13, 14, 15, 16, -1}},
    [SEEN_ALTERED_HOST] = {"an altered payload or answer of a host, phase", {3, 4, 5, 6, 12, 13, 14, -1}},
    [SEEN_HOST_CRC] = {"a host's CRC of class", {0, 1, 2, 3, -1}},
    [SEEN_REASON_BEFORE_15] = {"before the 15 a reason", {11, 12, 13, 14, 15, 16, 17, 18, 19, 21, 31, 32, 33, 74, -1}},
    [SEEN_REASON_REPLACED] = {"in place of another a reason",
                              {11, 12, 13, 14, 15, 16, 17, 18, 19, 20, 21, 31, 32, 33, 34, -1}},
    [SEEN_REASON_KEPT] = {"a reason that success leaves, of kind", {0, 1, 2, -1}},
    [SEEN_RUNNING_SHOWN] = {"bytes and room for what is over, of kind", {0, 1, 2, 3, -1}},
    [SEEN_WIDE_P] = {"a low byte above 255 of kind P, phase", {3, -1}},
    [SEEN_WIDE_E] = {"a low byte above 255 of kind E, phase", {3, 5, -1}},
    [SEEN_WIDE_UARTBOOT] = {"a low byte above 255 of uartboot, phase", {4, 16, -1}},
    [SEEN_WIDE_HOST] = {"a low byte above 255 of a host, phase", {6, 10, -1}},
    [SEEN_FIRST_PLACE_P] = {"the first place of kind P, phase", {PHASES_P}},
    [SEEN_FIRST_PLACE_E] = {"the first place of kind E, phase", {PHASES_E}},
    [SEEN_FIRST_PLACE_UARTBOOT] = {"the first place of uartboot, phase", {PHASES_UARTBOOT}},
    [SEEN_FIRST_PLACE_HOST] = {"the first place of a host, phase", {PHASES_HOST}},
    [SEEN_LAST_PLACE_P] = {"the last place of kind P, phase", {PHASES_P}},
    [SEEN_LAST_PLACE_E] = {"the last place of kind E, phase", {PHASES_E}},
    [SEEN_LAST_PLACE_UARTBOOT] = {"the last place of uartboot, phase", {PHASES_UARTBOOT}},
    [SEEN_LAST_PLACE_HOST] = {"the last place of a host, phase", {PHASES_HOST}},
    [SEEN_PLACE_AT_END_P] = {"a place at the end of kind P, phase", {PHASES_P}},
    [SEEN_PLACE_AT_END_E] = {"a place at the end of kind E, phase", {PHASES_E}},
    [SEEN_PLACE_AT_END_UARTBOOT] = {"a place at the end of uartboot, phase", {PHASES_UARTBOOT}},
    [SEEN_PLACE_AT_END_HOST] = {"a place at the end of a host, phase", {PHASES_HOST}},
    [SEEN_PLACE_BEYOND_P] = {"a place beyond the end of kind P, phase", {PHASES_P}},
    [SEEN_PLACE_BEYOND_E] = {"a place beyond the end of kind E, phase", {PHASES_E}},
    [SEEN_PLACE_BEYOND_UARTBOOT] = {"a place beyond the end of uartboot, phase", {PHASES_UARTBOOT}},
    [SEEN_PLACE_BEYOND_HOST] = {"a place beyond the end of a host, phase", {PHASES_HOST}},
    [SEEN_KIND_REFUSED] = {"a record refused for its kind by the session of kind", {0, 1, 2, 3, -1}},
    [SEEN_PHASE_REFUSED] = {"a record refused for its phase, of kind", {0, 1, 2, 3, -1}},
    [SEEN_PHASE_OF_E] = {"a record of kind P refused for its phase", {4, 5, -1}},
    [SEEN_OPCODE_UNKNOWN] = {"a record refused for an unknown opcode, phase", {HAS_OPCODE}},
    [SEEN_OPCODE_OTHER] = {"a record refused for another command's opcode, phase", {HAS_OPCODE}},
    [SEEN_LENGTH_ZERO_P] = {"a record refused for length 0 of kind P, phase", {TAKES_CODE}},
    [SEEN_LENGTH_ZERO_E] = {"a record refused for length 0 of kind E, phase", {TAKES_CODE}},
    [SEEN_LENGTH_ZERO_UARTBOOT] = {"a record refused for length 0 of an answer, phase",
                                   {11, 12, 13, 14, 15, 16, 17, -1}},
    [SEEN_LENGTH_ABOVE_P] = {"a record refused for a length above RAM of kind P, phase", {TAKES_CODE}},
    [SEEN_LENGTH_ABOVE_E] = {"a record refused for a length above RAM of kind E, phase", {TAKES_CODE}},
    [SEEN_LENGTH_ABOVE_UARTBOOT] = {"a record refused for a length above the work buffer, phase", {HAS_OPCODE}},
    [SEEN_LENGTH_OTHER] = {"a record refused for a length of another command, phase", {5, 6, 7, 8, 9, 10, -1}},
    [SEEN_LENGTH_MOST_P] = {"the longest code of kind P, phase", {TAKES_CODE}},
    [SEEN_LENGTH_MOST_E] = {"the longest code of kind E, phase", {TAKES_CODE}},
    [SEEN_LENGTH_MOST_UARTBOOT] = {"the longest payload or answer, phase", {HAS_OPCODE}},
    [SEEN_ADDRESS_ACCEPTED_P] = {"a running record of kind P with an address in RAM of class", {IN_RAM}},
    [SEEN_ADDRESS_ACCEPTED_E] = {"a running record of kind E with an address in RAM of class", {IN_RAM}},
    [SEEN_ADDRESS_ACCEPTED_UARTBOOT] = {"a running record of uartboot with an address in RAM of class", {IN_RAM}},
    [SEEN_ADDRESS_REFUSED_P] = {"a running record of kind P with an address outside of RAM of class", {OUTSIDE}},
    [SEEN_ADDRESS_REFUSED_E] = {"a running record of kind E with an address outside of RAM of class", {OUTSIDE}},
    [SEEN_ADDRESS_REFUSED_UARTBOOT] = {"a running record of uartboot with an address outside of RAM of class",
                                       {OUTSIDE}},
    [SEEN_RUNNING_ACCEPTED] = {"a running record with opcode", {5, -1}},
    [SEEN_RUNNING_REFUSED] = {"a running record refused for its opcode", {0, 1, 2, 3, 4, 8, 11, 12, 18, -1}},
    [SEEN_REQUEST_OTHER] = {"a host's payload of another length of opcode", {EVERY_OPCODE}},
    [SEEN_REQUEST_MOST] = {"a host's payload of 65535 bytes of opcode", {WITH_DATA}},
    [SEEN_REQUEST_ABOVE] = {"a host's payload of 65536 bytes of opcode", {WITH_DATA}},
    [SEEN_REQUEST_STRANGE] = {"a host's unknown opcode, wide or not:", {0, 1, -1}},
    [SEEN_BUFFER_SHORT] = {"an answer buffer one byte short of opcode", {WITH_ANSWER}},
    [SEEN_BUFFER_EXACT] = {"an answer buffer as long as the answer of opcode", {WITH_ANSWER}},
    [SEEN_BUFFER_LONGER] = {"an answer buffer longer than the answer of opcode", {WITH_ANSWER}},
    [SEEN_CAUSES] = {"causes of a host's refusal that come together, of class",
                     {CAUSES_71_72, CAUSES_71_4, CAUSES_72_4, -1}},
    [SEEN_PHASE_NO_PAYLOAD] = {"a command without payload refused for phase", {3, 4, 5, 6, 7, 8, -1}},
    [SEEN_PHASE_NO_ANSWER] = {"a command without answer refused for phase", {9, 10, 11, 12, 13, 14, 15, -1}},
    [SEEN_PHASE_EMPTY_ANSWER] = {"a Read of 0 bytes refused for phase", {11, 12, 13, 14, 15, -1}},
    [SEEN_PHASE_NO_GREETING] = {"a host's phase 16 refused of opcode", {2, 5, 8, 11, -1}},
    [SEEN_ENDED_73] = {"15 that ends a command, phase", {0, 1, 2, 4, 9, 15, 16, -1}},
    [SEEN_ENDED_75] = {"another byte that ends a command, phase", {0, 1, 2, 4, 10, 15, 16, -1}},
    [SEEN_GREETING_15] = {"15 in the middle of a greeting, place", {1, 2, -1}},
    [SEEN_DEVICE_CRC] = {"a device's CRC of class", {0, 1, 2, 3, -1}},
    [SEEN_LENGTH_BYTES] = {"an answer's length of class", {0, 1, 2, 3, -1}},
    [SEEN_LENGTH_BYTES_OF_0] = {"the length of an answer of 0 bytes of class", {0, 1, 2, 3, -1}},
    [SEEN_LENGTH_0] = {"a length 0 in place of another, of one byte or two:", {0, 1, -1}},
    [SEEN_LOW_15] = {"a low length byte 15, awaited or not:", {0, 1, -1}},
    [SEEN_LENGTH_AFTER_15] = {"a high length byte after the awaited 15, wrong or not:", {0, 1, -1}},
    [SEEN_SUM_WIDE] = {"a right number from a low byte above 255, phase", {6, 10, -1}},
    [SEEN_SUM_WRAPS] = {"a number that is right but for 2^32, phase", {6, 10, -1}},
    [SEEN_SUM_CUT] = {"a low byte above 255 that ends in the right byte, phase", {6, 10, -1}},
    [SEEN_DONE] = {"a host's command done of opcode", {EVERY_OPCODE}},
    [SEEN_DONE_KEPT] = {"a reason that a host's success leaves, of opcode", {EVERY_OPCODE}},
    [SEEN_ENDED_REPLACED] = {"in place of a given reason of a host a reason", {73, 74, 75, -1}},
    [SEEN_JOINED_DONE] = {"a command done on a line of opcode", {EVERY_OPCODE}},
    [SEEN_JOINED_REFUSED] = {"a command refused on a line with reason", {13, 14, 15, 16, 17, 18, 21, -1}},
    [SEEN_JOINED_AGAIN] = {"a further command on a line, after one that was done or refused:", {0, 1, -1}},
    [SEEN_REPLAY_NUMBER] = {"number of a replay", {0, 1, 2, 3, 81, 82, 83, 84, -1}},
    [SEEN_REPLAY_LENGTHS] = {"lengths of a replay's memories that are refused, of class", {1, 2, 3, 4, 5, 6, 7, -1}},
    [SEEN_REPLAY_1] = {"a replay refused with 1 in place of", {OF_A_FILE}},
    [SEEN_REPLAY_2] = {"a replay refused with 2 in place of", {OF_A_FILE}},
    [SEEN_REPLAY_3] = {"a replay refused with 3 in place of", {OF_A_FILE}},
    [SEEN_REPLAY_NULL] = {"an empty recording, NULL or not:", {0, 1, -1}},
    [SEEN_HEAD_CUT] = {"a recording cut short after byte", {0, 1, 2, 3, 4, -1}},
    [SEEN_HEAD_WRONG] = {"a recording with only one byte of its head wrong, place", {0, 1, 2, 3, 4, -1}},
    [SEEN_WRONG_BOTH] = {"a recording whose version is wrong too, with number", {81, -1}},
    [SEEN_ENTRIES] = {"entries of a recording, of class", {0, 1, 2, 3, -1}},
    [SEEN_ENTRY_ORDER] = {"entries in an order of class",
                          {ORDER_NO_ENTRY, ORDER_ONE_KIND, ORDER_HOST_FIRST, ORDER_DEVICE_FIRST, ORDER_IN_TURNS, -1}},
    [SEEN_ENTRY_HOST] = {"a host's entry of class", {ENTRY_LENGTHS}},
    [SEEN_ENTRY_DEVICE] = {"a device's entry of class", {ENTRY_LENGTHS}},
    [SEEN_AFTER_83] = {"an unknown entry, first or not:", {0, 1, -1}},
    [SEEN_AFTER_84] = {"an entry cut short, first or not:", {0, 1, -1}},
    [SEEN_UNKNOWN_KIND] = {"an unknown entry of kind", {0, 3, 4, -1}},
    [SEEN_UNKNOWN_AND_CUT] = {"an unknown entry, cut short or not:", {0, 1, -1}},
    [SEEN_CUT_HOST] = {"a host's entry cut short, of class", {CUTS}},
    [SEEN_CUT_DEVICE] = {"a device's entry cut short, of class", {CUTS}},
    [SEEN_REPLAY_ENDING] = {"a replay of class",
                            {REPLAY_EQUAL, REPLAY_AT_FIRST, REPLAY_AT_LAST, REPLAY_BETWEEN, REPLAY_TOO_FEW, REPLAY_NONE,
                             REPLAY_TOO_MANY, -1}},
    [SEEN_EQUAL_FAR] = {"equal bytes as far as class", {0, 1, 2, 3, -1}},
    [SEEN_DIFFERS_FAR] = {"a first difference as far on as class", {0, 1, 2, 3, -1}},
    [SEEN_HOST_AFTER_RUN] = {"recorded host bytes after code runs, equal or not:", {0, 1, -1}},
    [SEEN_STORED_AFTER] = {"after a difference a store in memory", {0, 1, -1}},
};

/* Whether what is wanted names a number. */
static bool is_wanted(seen_what what, int number)
{
    for (const int *n = all[what].numbers; *n >= 0; n++)
        if (*n == number)
            return true;
    return false;
}

/* The lists above name their opcodes themselves, so that a run wants them even where the model has lost one. None of
   the model's may be missing there. */
static bool opcodes_wanted(void)
{
    for (uint32_t i = 0; i < model_opcodes(); i++)
        if (!is_wanted(SEEN_OPCODE, model_opcode(i))) {
            printf("opcode %u is not in the lists of what a run must reach\n", model_opcode(i));
            return false;
        }
    return true;
}

bool all_seen(void)
{
    bool whole = opcodes_wanted();
    for (int what = 0; what < SEENS; what++) {
        if (!all[what].name) {
            printf("number %d of what a run must reach has no row\n", what);
            return false;
        }
        for (const int *n = all[what].numbers; *n >= 0; n++)
            if (counts[what][*n] == 0) {
                printf("no case reached %s %d\n", all[what].name, *n);
                whole = false;
            }
    }
    return whole;
}
