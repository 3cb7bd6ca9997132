/* Undalisho: the serial boot line of Dialog chips.
 *
 * It plays a chip's end of the line (the boot ROM's receiver, and the loader uartboot) and the host's end of uartboot,
 * makes the frame that a host sends to the receiver, names the flash slot that will start, orders versions, says what
 * headers and commands hold, and makes headers. What a function gives and writes follows from its arguments alone.
 *
 * For x86-64 Linux. To compile and link:
 *
 *     cc main.c $(pkg-config --cflags --libs --static undalisho)
 *
 * Rules that hold for all functions:
 *
 * - Number 0 in a result is success. Any other number is a refusal: the rest of the result is 0, and nothing that was
 *   lent has been written. Where several numbers fit, the one that is listed first is given.
 * - A pointer to bytes or to numbers may be NULL only where its length is 0. Bytes need no alignment; numbers have that
 *   of uint32_t.
 * - A record is eight words with the alignment of uint32_t, and never NULL.
 * - No two things that are lent to one call may overlap, and nobody else writes them until it returns.
 * - No function keeps a pointer once it has returned, has state of its own, or allocates. So sessions with records and
 *   memories of their own may be used from different threads at the same time.
 *
 * In these comments the value of a byte is written as two hexadecimal digits (02, 15, AA). Numbers of several bytes
 * have the low byte first.
 */
#ifndef UNDALISHO_H
#define UNDALISHO_H

#include <stddef.h>
#include <stdint.h>

#ifdef __cplusplus
extern "C" {
#endif

/* The lengths that memories may have, and the address of RAM's first byte. Flash offsets count from 0. */
enum {
    UND_RAM_FIRST = 0x07FC0000,
    UND_RAM_MAX = 131072,    /* RAM: at least 1 byte, at most this */
    UND_FLASH_SECTOR = 4096, /* flash: a multiple of this, not 0, */
    UND_FLASH_MAX = 4194304, /* and at most this */
    UND_WORK_MIN = 64,       /* work buffer: at least this, */
    UND_WORK_MAX = 65535     /* and at most this */
};

/* A byte of flash that is erased. */
enum { UND_FLASH_BLANK = 0xFF };

/* The line's bytes. */
enum {
    UND_LINE_START = 0x01,    /* begins a header */
    UND_LINE_GREETING = 0x02, /* the receiver's greeting, and the first byte of uartboot's */
    UND_LINE_ACK = 0x06,      /* accepts */
    UND_LINE_NAK = 0x15       /* refuses */
};

/* The numbers of refusals. Each function says which of them it gives, and when. */
enum {
    UND_BAD_WORK = 1,
    UND_BAD_RAM = 2,
    UND_BAD_FLASH = 3,
    UND_BAD_RECORD = 4,
    UND_EMPTY_CODE = 41,
    UND_LONG_CODE = 42,
    UND_SHORT_OUTPUT = 43,
    UND_NO_PRODUCT_HEADER = 51,
    UND_WRONG_PRODUCT_MARK = 52,
    UND_NO_VALID_IMAGE = 53,
    UND_MALFORMED_VERSION = 61,
    UND_INSTALLED_NOT_VALID = 62,
    UND_CANDIDATE_NOT_VALID = 63,
    UND_BAD_TRAY = 64,
    UND_SHORT_RANKS = 65,
    UND_BAD_COMMAND = 71,
    UND_SHORT_ANSWER = 72,
    UND_WRONG_RECORDING_MARK = 81,
    UND_WRONG_RECORDING_VERSION = 82,
    UND_UNKNOWN_ENTRY = 83,
    UND_SHORT_ENTRY = 84
};

/* ---- Versions ----
 *
 * A version field has 16 bytes: a text of one to four decimal numbers from 0 to 65535 with dots between them, then only
 * 00 up to the end. No number has a leading zero; a lone 0 is good. "1.10" and "65535.65535.6553" are good; "", "01.2",
 * "1..2" and "1.65536" are malformed.
 */

enum {
    UND_VERSION_FIELD = 16,               /* bytes of a field */
    UND_RANK_NUMBERS = 4,                 /* numbers of a rank */
    UND_TRAY_MAX = 1024,                  /* fields of a tray: at most this */
    UND_TRAY_ENTRY = UND_RANK_NUMBERS + 1 /* numbers of an entry of a tray */
};

typedef struct {
    uint32_t number;
    uint32_t rank[UND_RANK_NUMBERS];
} und_ranked;

/* The numbers of a version, missing ones 0.
 *
 * Number:  0
 *          61  the text is malformed, or field_len is not 16
 * Writes:  nothing that is lent
 */
und_ranked und_rank(const uint8_t *field, size_t field_len);

typedef struct {
    uint32_t number;
    int32_t order;
} und_ordered;

/* The order of two versions, number by number: -1 where a is lower than b, 0 where they are equal, 1 where a is higher.
 * 1.9 is lower than 1.10, and equal to 1.9.0.
 *
 * Number:  0
 *          61  one of the texts is malformed, or one of the lengths is not 16
 * Writes:  nothing that is lent
 */
und_ordered und_order(const uint8_t *a, size_t a_len, const uint8_t *b, size_t b_len);

/* The ranks of a tray: version fields, one after the other. Each gets an entry in `ranks`, in the same order: what
 * und_rank gives for it alone, its rank and then 0, or zeros and then 61 where it is malformed. The entry of field i,
 * from 0 on, begins at ranks[i * UND_TRAY_ENTRY]. A malformed field does not refuse the call, and neither does a tray
 * of no fields, for which nothing is written. ranks_len counts numbers, not bytes.
 *
 * Number:  0
 *          64  fields_len is not a multiple of 16, or the fields are more than UND_TRAY_MAX
 *          65  ranks_len is less than UND_TRAY_ENTRY for each field
 * Writes:  the entries, at the front of ranks; the numbers past them keep their contents
 */
uint32_t und_rank_tray(const uint8_t *fields, size_t fields_len, uint32_t *ranks, size_t ranks_len);

/* ---- Images ----
 *
 * A product header has 12 bytes: 70 52, two bytes that are not tested, the flash offset of image 1 (4 bytes), that of
 * image 2 (4 bytes). An image is a header of 64 bytes and the code after it:
 *
 *     byte  0  70 51
 *           2  AA
 *           3  id
 *           4  size of the code, 4 bytes: 1 to 131072
 *           8  CRC-32 of the code, 4 bytes: reflected polynomial 0xEDB88320, start and final XOR 0xFFFFFFFF
 *          12  version field, 16 bytes
 *          28  time, 4 bytes
 *          32  00: not encrypted
 *          33  reserved, 31 bytes
 *
 * It is valid if mark (70 51), flag (AA), size, CRC-32 and byte 32 are as above, and header and code lie wholly in the
 * flash or in the file.
 */

typedef struct {
    uint32_t number;
    uint32_t slot; /* 1 or 2; 0 when refused */
} und_selected;

/* The slot that will start, by the product header at an offset of the flash: that of the valid image; where both are
 * valid, that of the newer id; where the ids are equal, slot 1. The larger id is the newer, but of 255 and 0 it is 0,
 * which follows 255.
 *
 * Number:  0
 *          3   flash_len is not a length that flash may have
 *          51  the product header does not lie wholly in the flash
 *          52  it does not begin with 70 52
 *          53  neither image is valid
 * Writes:  nothing that is lent
 */
und_selected und_select(const uint8_t *flash, size_t flash_len, uint32_t header_offset);

/* The id that follows another: one more, and 0 after 255. It is the newer of the two. So where an image with `id`
 * starts, a valid one with this id in the other slot starts in its place. In the same slot it may not do: 1 follows 0,
 * and beside an image with 255 it is not the newer.
 *
 * Writes:  nothing that is lent
 */
uint8_t und_next_id(uint8_t id);

/* The files of an offer. */
enum { UND_FILE_INSTALLED = 1, UND_FILE_CANDIDATE = 2 };

typedef struct {
    uint32_t number;
    uint32_t file; /* the one that wins; 0 when refused */
    size_t place;  /* where its code begins in that file */
    size_t size;   /* how many bytes its code has */
} und_offered;

/* Of two image files the one with the higher version, the installed one if they are equal. A file is an image from its
 * first byte on; bytes after the code are allowed.
 *
 * Number:  0
 *          62  the installed file is not a valid image
 *          63  the candidate is not a valid image
 *          61  the text of one of the versions is malformed
 * Writes:  nothing that is lent
 */
und_offered und_offer(const uint8_t *installed, size_t installed_len, const uint8_t *candidate, size_t candidate_len);

/* The rules of an image, in order of test. */
enum {
    UND_RULE_HEADER = 1,    /* the header's 64 bytes lie wholly in the memory */
    UND_RULE_MARK = 2,      /* it begins with 70 51 */
    UND_RULE_FLAG = 3,      /* byte 2 is AA */
    UND_RULE_SIZE = 4,      /* the size is 1 to 131072 */
    UND_RULE_REACH = 5,     /* header and code lie wholly in the memory */
    UND_RULE_ENCRYPTED = 6, /* byte 32 is 00 */
    UND_RULE_CRC = 7        /* the CRC-32 of the code is the header's */
};

typedef struct {
    uint32_t rule; /* the first rule that the image breaks; 0: it is valid */
    uint32_t id;
    uint32_t size;        /* of the code, as the header has it */
    size_t version_place; /* where the version field begins in the memory */
    size_t code_place;    /* where the code begins, or would */
} und_image;

/* What an image header says, valid or not, and the first rule that the image breaks. The memory is a flash or, with
 * offset 0, a file; it may have any length. With rule UND_RULE_HEADER all other fields are 0. With a rule from
 * UND_RULE_MARK to UND_RULE_REACH the code need not lie in the memory; the version field does.
 *
 * Writes:  nothing that is lent
 */
und_image und_read_image(const uint8_t *memory, size_t memory_len, uint32_t offset);

typedef struct {
    uint32_t number;
    uint32_t first;  /* flash offset of image 1; 0 when refused */
    uint32_t second; /* flash offset of image 2; 0 when refused */
} und_product;

/* What a product header says. Where it is refused, und_select is refused with the same number.
 *
 * Number:  0
 *          3   flash_len is not a length that flash may have
 *          51  the product header does not lie wholly in the flash
 *          52  it does not begin with 70 52
 * Writes:  nothing that is lent
 */
und_product und_read_product(const uint8_t *flash, size_t flash_len, uint32_t header_offset);

typedef struct {
    uint32_t number;
    uint8_t bytes[64]; /* the header; all 00 when refused */
} und_image_header;

/* The image header of a code. Header and code, one after the other, are a valid image: at any offset of a flash, and
 * as a file. The reserved bytes are 00.
 *
 * Number:  0
 *          41  code_len is 0
 *          42  code_len is above 131072
 *          61  the text of the version is malformed, or version_len is not 16
 * Writes:  nothing that is lent
 */
und_image_header und_make_image_header(const uint8_t *code, size_t code_len, uint8_t id, const uint8_t *version,
                                       size_t version_len, uint32_t time);

typedef struct {
    uint8_t bytes[12];
} und_product_header;

/* The product header that names two flash offsets, whatever the flash holds there. The two bytes that are not tested
 * are 00.
 *
 * Writes:  nothing that is lent
 */
und_product_header und_make_product_header(uint32_t first, uint32_t second);

/* ---- Sessions ----
 *
 * A session plays one end of the line: the chip's (the receiver, uartboot) for a host, or the host's for a device. All
 * that it keeps is a record and memories, and the caller holds both: a fresh record begins a session, and each call is
 * lent the record as the last one left it, and the same memories with the same lengths. Nobody else writes these
 * between calls. A host's memories are its command and the buffer for the answer.
 *
 * A call is shown bytes that came from the other end (input) and room for bytes to it (reply, of a host output). Either
 * may be empty. It takes and sends bytes until it cannot go on, and reports why (standing):
 *
 *     UND_WANTS_BYTE  it needs a byte, and all of the input is taken
 *     UND_WANTS_ROOM  it must send a byte, and the reply is full
 *     UND_RUNS        code runs, at the address in record[UND_RECORD_HELD]; nothing is taken or sent any more
 *     UND_OVER        the host's command is done, or a reason has ended it; nothing is taken or sent any more
 *
 * It took the input's first `taken` bytes; the others are shown to the next call again, before any newer ones. What is
 * to be sent are the reply's first `sent` bytes; those past them keep their contents. How the stream is cut into calls,
 * and how much room each has, changes nothing in what the session takes, sends and stores in the end.
 *
 * A refused call has standing 0, has taken and sent nothing, and has written nothing, the record included.
 *
 * A session may refuse what came over the line. The call's number is 0 all the same; the reason is in
 * record[UND_RECORD_REASON] until a later one replaces it. In order of test, with the byte that is sent:
 *
 *     reason  sent  cause
 *     11      15    uartboot: unknown opcode
 *     12      15    a payload length that the opcode does not have
 *     13      15    a payload longer than the work buffer
 *     14      15    verify byte neither 0 nor 1
 *     15      15    count or size 0
 *     16      15    a range whose first byte is outside its memory
 *     21      15    a range that begins in its memory and runs past the end
 *     17      15    an answer longer than the work buffer
 *     18      15    flash differs from the data of a Direct write; what was stored stays
 *     19      15    the host's CRC of an answer differs
 *     20      none  a byte other than 06 after a payload's CRC (the command is not executed) or an answer's length
 *     31      15    receiver: a header that does not begin with 01
 *     32      15    kind P: code length 0
 *     33      15    code length above the RAM's
 *     34      none  a byte other than 06 after the XOR; the code stays in RAM and does not run
 *     73      none  host: 15 where 02, 03, 06 or another low byte of an answer's length is due
 *     74      15    the device's CRC of the payload differs
 *     75      none  any other byte that is not due, or an answer's length that is not; 0 never is
 *
 * Of a Copy, the range in RAM is tested for 16 and 21 before the range in flash.
 */

/* The reasons above. */
enum {
    UND_UNKNOWN_OPCODE = 11,
    UND_BAD_LENGTH = 12,
    UND_LONG_PAYLOAD = 13,
    UND_BAD_VERIFY = 14,
    UND_EMPTY_RANGE = 15,
    UND_OUTSIDE_MEMORY = 16,
    UND_LONG_ANSWER = 17,
    UND_VERIFY_DIFFERS = 18,
    UND_CRC_DIFFERS = 19,
    UND_NOT_ACKED = 20,
    UND_PAST_END = 21,
    UND_ROM_NO_START = 31,
    UND_ROM_EMPTY_CODE = 32,
    UND_ROM_LONG_CODE = 33,
    UND_ROM_NOT_ACKED = 34,
    UND_DEVICE_REFUSED = 73,
    UND_DEVICE_CRC = 74,
    UND_OUT_OF_FLOW = 75
};

/* A report's standing. The chip's end has the first three, the host's end the first two and the last. */
enum { UND_WANTS_BYTE = 1, UND_WANTS_ROOM = 2, UND_RUNS = 3, UND_OVER = 3 };

typedef struct {
    uint32_t number;
    uint32_t standing; /* 0 when refused */
    size_t taken;      /* how many bytes of the input */
    size_t sent;       /* how many bytes of the reply, or of a host's output */
} und_report;

/* A record's words. C may read them, and hands them back as they came. Those that a phase does not use are 0. A call
 * looks at the place in every phase, and refuses a record with a place that its phase does not have; it does not look
 * at other words that a phase does not use.
 */
enum {
    UND_RECORD_KIND = 0,   /* UND_KIND_P, UND_KIND_E, UND_KIND_UARTBOOT or UND_KIND_HOST */
    UND_RECORD_PHASE = 1,  /* what the session does next: see the tables of phases below */
    UND_RECORD_OPCODE = 2, /* uartboot: the command's */
    UND_RECORD_LENGTH = 3, /* of the code, the payload or the answer; a host does not use it */
    UND_RECORD_PLACE = 4,  /* of the next byte there, of the greeting or of a host's header, from 0; else 0 */
    UND_RECORD_HELD = 5,   /* the low byte of a number whose high byte comes next, or the address at which code runs */
    UND_RECORD_REASON = 6, /* the last reason, 0 at first */
    UND_RECORD_WORDS = 8   /* how many words there are; word 7 is 0 */
};

/* A record's kind. */
enum {
    UND_KIND_P = 0, /* the receiver whose lengths have two bytes (DA1453x) */
    UND_KIND_E = 1, /* the receiver that has extended lengths too (DA1458x) */
    UND_KIND_UARTBOOT = 2,
    UND_KIND_HOST = 3 /* the host's end of uartboot */
};

/* ---- The boot ROM's receiver ----
 *
 * It sends 02, then takes 01 and the code's length (2 bytes). Kind E: if that is 0, it takes two more bytes, and the
 * length is 65536 plus their number. It sends 06, takes the code, stored in RAM from the first byte on as it arrives,
 * sends the XOR of all code bytes, and takes one byte. If that is 06, the code runs, at UND_RAM_FIRST. A refused header
 * gets 15. After that, and after reason 34, it starts again at 02.
 *
 *     phase  the receiver                                            words used
 *     0      sends 02
 *     1, 2   takes 01, the low byte of the length
 *     3      takes the high byte of the length                       held
 *     4      takes the low byte of the extended length (E only)
 *     5      takes the high byte of the extended length (E only)     held
 *     6      sends 06                                                length
 *     7      takes code                                              length, place (below the length)
 *     8, 9   sends the XOR, takes the byte after it                  length
 *     10     sends 15
 *     11     runs the code                                           held (the address)
 */

/* Writes the record of a new receiver, all eight words. The kind is UND_KIND_P or UND_KIND_E; und_rom_call refuses a
 * record of any other.
 */
void und_rom_fresh(uint32_t kind, uint32_t record[8]);

/* A call to a receiver; see "Sessions".
 *
 * Number:  0
 *          2   ram_len is not a length that RAM may have
 *          4   the record is unsound: an unknown kind, a phase that the kind does not have, in phases 6 to 9 a length
 *              that is 0 or above ram_len, in phase 7 a place that is not below the length, in any other phase one that
 *              is not 0, in phase 11 an address outside of RAM. A record of kind P or E that was handed out for a RAM
 *              of this length is never refused.
 * Writes:  the record; the reply's first `sent` bytes; the code bytes that it took, in RAM
 */
und_report und_rom_call(uint32_t record[8], const uint8_t *input, size_t input_len, uint8_t *reply, size_t reply_len,
                        uint8_t *ram, size_t ram_len);

/* ---- The loader uartboot ----
 *
 * 1. It sends 02 01 00 03, drops bytes until 01, takes an opcode and the payload's length (2 bytes), sends 06 or 15.
 * 2. If the length is not 0, it takes the payload into the work buffer, checks it and sends 06 or 15; after 06 it sends
 *    the payload's CRC-16 (2 bytes) and takes one byte. Only if that is 06, it goes on.
 * 3. It executes the command, after the checks were made again on what the work buffer then holds. A failure sends 15,
 *    success without an answer sends nothing.
 * 4. An answer is in the work buffer, from its first byte on. It sends the answer's length (2 bytes), takes 06,
 *    sends the answer, takes the host's CRC-16 of it (2 bytes), and sends 06 if that is right, else 15.
 * 5. It starts again at 1, as it does after every 15 and every reason 20.
 *
 * CRC-16 has polynomial 0x1021, high bit first, start 0xFFFF, no final change. A store in flash leaves old AND new.
 *
 *     opcode            payload, with how many bytes each has       effect
 *     01  Write         RAM address 4, data 1 or more               stores in RAM
 *     02  Read          RAM address 4, count 2                      answers with RAM bytes
 *     03  Copy          RAM address 4, count 2, flash offset 4      stores RAM bytes in flash
 *     04  Erase         flash offset 4, size 4                      sets all sectors that touch the area to FF
 *     05  Run           RAM address 4                               runs code there
 *     08  Read QSPI     flash offset 4, count 2                     answers with flash bytes
 *     0B  Version       none                                        answers with the 7 characters 0.0.0.3
 *     0C  Chip erase    none                                        sets all flash to FF
 *     12  Direct write  verify 1, flash offset 4, data 1 or more    stores in flash, and compares if verify is 1
 *
 *     phase    uartboot                                              words used
 *     0        sends 02 01 00 03                                     place (below 4)
 *     1, 2     drops bytes until 01, takes the opcode
 *     3        takes the low byte of the length                      opcode
 *     4        takes the high byte of the length                     opcode, held
 *     5        sends the header's 06                                 opcode, length (of the payload)
 *     6        takes the payload                                     opcode, length, place (below the length)
 *     7, 8, 9  sends the payload's 06, its CRC's low and high byte   opcode, length
 *     10       takes the byte on which the command is executed       opcode, length
 *     11, 12   sends the answer's length, low and high byte          opcode, length (of the answer)
 *     13       takes 06                                              opcode, length
 *     14       sends the answer                                      opcode, length, place (below the length)
 *     15       takes the low byte of the host's CRC                  opcode, length
 *     16       takes its high byte                                   opcode, length, held
 *     17       sends 06                                              opcode, length
 *     18       sends 15
 *     19       runs code                                             opcode (05), held (the address)
 */

/* The opcodes. */
enum {
    UND_OP_WRITE = 0x01,
    UND_OP_READ = 0x02,
    UND_OP_COPY = 0x03,
    UND_OP_ERASE = 0x04,
    UND_OP_RUN = 0x05,
    UND_OP_READ_QSPI = 0x08,
    UND_OP_VERSION = 0x0B,
    UND_OP_CHIP_ERASE = 0x0C,
    UND_OP_DIRECT_WRITE = 0x12
};

typedef struct {
    uint32_t number;
    uint32_t address; /* in RAM */
    uint32_t offset;  /* in flash */
    uint32_t count;   /* how many bytes it stores, reads, copies or erases */
    uint32_t verify;  /* the verify byte of a Direct write */
} und_command;

/* What a command's payload says, each number 0 where the command has none. Only opcode and length are tested: a session
 * may still refuse the command, with reason 13 or a later one.
 *
 * Number:  0
 *          11  the opcode is unknown
 *          12  payload_len is not a length that the opcode has, or is above 65535
 * Writes:  nothing that is lent
 */
und_command und_read_command(uint32_t opcode, const uint8_t *payload, size_t payload_len);

/* Writes the record of a new uartboot session, all eight words. */
void und_uartboot_fresh(uint32_t record[8]);

/* A call to a uartboot session; see "Sessions". The work buffer holds the payload, later the answer: its length is the
 * most that either may have.
 *
 * Number:  0
 *          1   work_len is not a length that a work buffer may have
 *          2   ram_len is not a length that RAM may have
 *          3   flash_len is not a length that flash may have
 *          4   the record is unsound: a kind that is not UND_KIND_UARTBOOT, an unknown phase, in phases 5 to 17 an
 *              unknown opcode, a phase or a payload length that the opcode does not have, a length above work_len or an
 *              answer of length 0, in phase 19 an opcode that is not UND_OP_RUN or an address outside of RAM, in phases
 *              6 and 14 a place that is not below the length, in phase 0 one that is not below 4, in any other phase
 *              one that is not 0. A record that was handed out for memories of these lengths is never refused.
 * Writes:  the record; the reply's first `sent` bytes; RAM, flash and work buffer as the commands say
 */
und_report und_uartboot_call(uint32_t record[8], const uint8_t *input, size_t input_len, uint8_t *reply,
                             size_t reply_len, uint8_t *ram, size_t ram_len, uint8_t *flash, size_t flash_len,
                             uint8_t *work, size_t work_len);

/* Example: a uartboot session. read_line waits for bytes from the host and gives how many it read, 0 at the line's end;
 * write_line sends bytes to the host.
 *
 *     // Serves a host until code runs. Gives the address that runs, or 0 where a call is refused or the line ends.
 *     uint32_t serve(uint8_t *ram, size_t ram_len, uint8_t *flash, size_t flash_len)
 *     {
 *         uint32_t record[UND_RECORD_WORDS];
 *         uint8_t work[1024], reply[64], line[64];
 *         const uint8_t *input = line;
 *         size_t input_len = 0;
 *
 *         und_uartboot_fresh(record);
 *         for (;;) {
 *             und_report r = und_uartboot_call(record, input, input_len, reply, sizeof reply,
 *                                              ram, ram_len, flash, flash_len, work, sizeof work);
 *             if (r.number != 0)
 *                 return 0;
 *             write_line(reply, r.sent);
 *             input += r.taken;
 *             input_len -= r.taken;
 *             if (r.standing == UND_RUNS)
 *                 return record[UND_RECORD_HELD];
 *             if (r.standing == UND_WANTS_BYTE) {  // all input is taken
 *                 input = line;
 *                 input_len = read_line(line, sizeof line);
 *                 if (input_len == 0)
 *                     return 0;
 *             }                                    // else the reply was full, and there is room again
 *         }
 *     }
 */

/* ---- The host's end of uartboot ----
 *
 * It sends one command to a device, checks the device's CRC and collects the answer. The command, an opcode of the
 * table above with its payload, and the buffer for the answer are lent to each call, and are no part of the record. How
 * many bytes of answer are awaited follows from the command: for Read and Read QSPI the payload's count, for Version 7,
 * for all others none.
 *
 * 1. It takes the greeting, 02, any two bytes, 03. It sends 01, the opcode, the payload's length (2 bytes), takes 06.
 * 2. If there is a payload, it sends that, takes 06 and the device's CRC-16 of it (2 bytes), and sends 06 if the CRC is
 *    right. A wrong CRC is answered with 15, and reason 74 ends the command.
 * 3. Run is now done. For an answer it takes the length (2 bytes), sends 06, takes the answer into the buffer, from its
 *    first byte on, sends the answer's CRC-16 (2 bytes), takes 06, and is done. All other commands are done when the
 *    next greeting's 02 is shown. That byte is not taken.
 *
 * 15 where 02, 03 or 06 is due ends the command with reason 73, any other byte there with 75. Of an answer's length, a
 * low byte 15 that is not due ends it with 73; else both bytes are taken, and a length that is not the awaited one, or
 * is 0, ends it with 75. All these bytes are taken. Answer bytes that came before a reason stay in the buffer.
 *
 * The next command has a fresh record. Its first call is shown what the last one has not taken, such as the 02 that was
 * left in phase 16, which begins the next greeting. After an answer, and after reasons 73 and 74, uartboot greets by
 * itself. After 75 it is not known where the device stands.
 *
 *     phase   the host                                    commands                   words used
 *     0       takes 02, any byte, any byte, 03            all                        place (below 4)
 *     1       sends 01, opcode, length                    all                        place (below 4)
 *     2       takes the header's 06                       all
 *     3       sends the payload                           with a payload             place (below its length)
 *     4       takes the payload's 06                      with a payload
 *     5       takes the low byte of the device's CRC      with a payload
 *     6       takes its high byte                         with a payload             held
 *     7, 8    sends 06, sends 15 after reason 74          with a payload
 *     9       takes the low byte of the answer's length   with an answer
 *     10      takes its high byte                         with an answer             held
 *     11      sends 06                                    awaiting 1 byte or more
 *     12      takes the answer                            awaiting 1 byte or more    place (below the awaited length)
 *     13, 14  sends the answer's CRC, low and high byte   awaiting 1 byte or more
 *     15      takes 06                                    awaiting 1 byte or more
 *     16      looks for the next greeting's 02            without an answer, not Run
 *     17      is done, or was ended by the reason         all
 */

/* Writes the record of a new host, for one command, all eight words. */
void und_host_fresh(uint32_t record[8]);

/* A call to a host; see "Sessions". Where it reports UND_OVER, record[UND_RECORD_REASON] is 0 if the command is done,
 * from a record that was fresh; else it is the reason that has ended it.
 *
 * Number:  0
 *          71  the opcode is unknown, or payload_len is not a length that it has, or is above 65535
 *          72  answer_len is less than the awaited length
 *          4   the record is unsound: a kind that is not UND_KIND_HOST, an unknown phase or one that the command does
 *              not have, in phases 0 and 1 a place that is not below 4, in phase 3 one that is not below payload_len,
 *              in phase 12 one that is not below the awaited length, in any other phase one that is not 0. A record
 *              that was handed out for this command is never refused.
 * Writes:  the record; the output's first `sent` bytes; the answer bytes that it took, in the answer buffer
 */
und_report und_host_call(uint32_t record[8], uint32_t opcode, const uint8_t *payload, size_t payload_len,
                         const uint8_t *input, size_t input_len, uint8_t *output, size_t output_len, uint8_t *answer,
                         size_t answer_len);

/* Example: commands to a device. read_line waits for bytes from the device and gives how many it read, 0 where none
 * come in time; write_line sends bytes to the device.
 *
 *     // What came from the device and was not taken yet; all 0 at first. It is kept from one command to the next.
 *     struct unread {
 *         uint8_t line[64];
 *         size_t at, end;
 *     };
 *
 *     // Sends one command, and leaves its answer in the buffer. Gives 0 where it is done, the number of a refusal, the
 *     // reason that has ended it, or -1 where the device is silent.
 *     int send_command(struct unread *came, uint32_t opcode, const uint8_t *payload, size_t payload_len,
 *                      uint8_t *answer, size_t answer_len)
 *     {
 *         uint32_t record[UND_RECORD_WORDS];
 *         uint8_t output[64];
 *
 *         und_host_fresh(record);
 *         for (;;) {
 *             und_report r = und_host_call(record, opcode, payload, payload_len, came->line + came->at,
 *                                          came->end - came->at, output, sizeof output, answer, answer_len);
 *             if (r.number != 0)
 *                 return (int)r.number;
 *             write_line(output, r.sent);
 *             came->at += r.taken;
 *             if (r.standing == UND_OVER)
 *                 return (int)record[UND_RECORD_REASON];
 *             if (r.standing == UND_WANTS_BYTE) {  // all that came is taken
 *                 came->at = 0;
 *                 came->end = read_line(came->line, sizeof came->line);
 *                 if (came->end == 0)
 *                     return -1;
 *             }                                    // else the output was full, and there is room again
 *         }
 *     }
 */

/* ---- Recorded visits ----
 *
 * A recording is what went over the line between a host and uartboot, from the greeting on:
 *
 *     byte  0  42 4C 47 ("BLG")
 *           3  the form's version, 2 bytes: 1
 *           5  entries, one after the other, up to the end; there may be none
 *
 * An entry:
 *
 *     byte  0  kind: 1 the bytes are the host's, 2 they are the device's
 *           1  length, 2 bytes: 0 to 65535
 *           3  so many bytes
 *
 * What counts are the joined bytes of all entries of the host, and those of all entries of the device. How they are cut
 * into entries, and which entries of one kind lie between those of the other, makes no difference.
 */

enum {
    UND_RECORDING_VERSION = 1,
    UND_RECORDING_HEAD = 5, /* bytes before the first entry */
    UND_ENTRY_HEAD = 3,     /* bytes of an entry before its own */
    UND_ENTRY_MAX = 65535,  /* bytes of an entry: at most this */
    UND_ENTRY_HOST = 1,     /* kinds of entries */
    UND_ENTRY_DEVICE = 2
};

typedef struct {
    uint32_t number;
    uint32_t equal; /* 1: the device's bytes are the session's replies; 0: they differ, or the call is refused */
    size_t place;   /* where they differ; else 0 */
} und_replayed;

/* Plays a recording: a fresh uartboot session with the memories as lent takes the joined bytes of the host, and its
 * replies are compared with the joined bytes of the device. `place` is the first of the device's bytes, from 0, that
 * differs. Where too few are recorded it is their count; where too many, it is the first one past the replies. The
 * host's bytes after code runs are not taken, and make no difference.
 *
 * It takes time for the recording's length and for what its commands store and answer.
 *
 * Number:  0
 *          1   work_len is not a length that a work buffer may have
 *          2   ram_len is not a length that RAM may have
 *          3   flash_len is not a length that flash may have
 *          81  the mark is wrong or cut short
 *          82  the version is not UND_RECORDING_VERSION, or cut short
 *          83  an entry has an unknown kind
 *          84  an entry is cut short, in its length or in its bytes
 *              Of 81 to 84 it is what comes first in the recording. Nothing is played before all of it is judged.
 * Writes:  RAM, flash and work buffer as the session leaves them, whether the bytes are equal or not
 */
und_replayed und_replay(const uint8_t *recording, size_t recording_len, uint8_t *ram, size_t ram_len, uint8_t *flash,
                        size_t flash_len, uint8_t *work, size_t work_len);

/* ---- Boot frames ----
 *
 * What a host sends to a receiver: 01, the shortest length field that its kind has for the code, the code, 06. A fresh
 * receiver of that kind with RAM enough, fed the frame, has the code in RAM and runs it.
 */

typedef struct {
    uint32_t number;
    size_t length; /* of the frame; 0 when refused */
} und_framed;

/* Writes the boot frame of a code for kind P: code_len + 4 bytes.
 *
 * Number:  0
 *          41  code_len is 0
 *          42  code_len is above 65535
 *          43  out_len is less than the frame's length
 * Writes:  the first `length` bytes of out; those past them keep their contents
 */
und_framed und_frame_p(const uint8_t *code, size_t code_len, uint8_t *out, size_t out_len);

/* Writes the boot frame of a code for kind E: code_len + 4 bytes, or code_len + 6 where code_len is 65536 or more.
 *
 * Number:  0
 *          41  code_len is 0
 *          42  code_len is above 131071
 *          43  out_len is less than the frame's length
 * Writes:  the first `length` bytes of out; those past them keep their contents
 */
und_framed und_frame_e(const uint8_t *code, size_t code_len, uint8_t *out, size_t out_len);

#ifdef __cplusplus
}
#endif

#endif
