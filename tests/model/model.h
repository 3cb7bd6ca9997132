/* An independent model of the boot line: what every function over the C boundary must give.
   It is written from the rules alone and shares no text with the library. */
#ifndef MODEL_H
#define MODEL_H

#include <stdbool.h>
#include <stddef.h>
#include <stdint.h>

/* Checksums. */
uint16_t model_crc16(const uint8_t *bytes, size_t count);
uint32_t model_crc32(const uint8_t *bytes, size_t count);

/* Versions. */
enum {
    VERSION_FIELD = 16,
    TEXT_NUMBERS = 4, /* of a version's text, at most */
    RANK_NUMBERS = 4,
    TRAY_ENTRY = RANK_NUMBERS + 1, /* the rank, and then the number */
    MOST_TRAY = 1024               /* fields */
};

typedef struct {
    uint32_t number, rank[RANK_NUMBERS];
} model_ranked;

typedef struct {
    uint32_t number;
    int32_t order;
} model_ordered;

model_ranked model_rank(const uint8_t *field, size_t length);
model_ordered model_order(const uint8_t *a, size_t a_length, const uint8_t *b, size_t b_length);
/* The room counts numbers. */
uint32_t model_rank_tray(const uint8_t *fields, size_t length, uint32_t *ranks, size_t room);

/* Images, the slot that will start, offers. */
enum { PRODUCT_HEADER = 12, IMAGE_HEADER = 64, MOST_CODE = 131072 };

typedef struct {
    uint32_t number, slot;
} model_selected;

typedef struct {
    uint32_t number, file;
    size_t place, size;
} model_offered;

uint8_t model_next_id(uint8_t id);
model_selected model_select(const uint8_t *flash, size_t length, uint32_t header);
model_offered model_offer(const uint8_t *installed, size_t installed_length, const uint8_t *candidate,
                          size_t candidate_length);

/* What headers and commands say. */
typedef struct {
    uint32_t rule, id, size; /* the first rule that is broken, or 0 */
    size_t version_place, code_place;
} model_image;

typedef struct {
    uint32_t number, first, second;
} model_product;

typedef struct {
    uint32_t number, address, offset, count, verify;
} model_command;

model_image model_read_image(const uint8_t *memory, size_t length, uint32_t offset);
model_product model_read_product(const uint8_t *flash, size_t length, uint32_t header);
model_command model_read_command(uint32_t opcode, const uint8_t *payload, size_t length);

/* Headers that are made. */
typedef struct {
    uint32_t number;
    uint8_t bytes[IMAGE_HEADER];
} model_image_header;

typedef struct {
    uint8_t bytes[PRODUCT_HEADER];
} model_product_header;

model_image_header model_make_image_header(const uint8_t *code, size_t length, uint8_t id, const uint8_t *version,
                                           size_t version_length, uint32_t time);
model_product_header model_make_product_header(uint32_t first, uint32_t second);

/* Sessions. A record is eight words. */
enum { KIND_P, KIND_E, KIND_UARTBOOT, KIND_HOST };
enum { WORD_KIND, WORD_PHASE, WORD_OPCODE, WORD_LENGTH, WORD_PLACE, WORD_HELD, WORD_REASON, WORD_SPARE, WORDS };
enum { WANTS_BYTE = 1, WANTS_ROOM = 2, RUNS = 3, OVER = 3 }; /* OVER is the host's */
enum {
    RAM_BASE = 0x07FC0000,
    MOST_RAM = 131072,
    SECTOR = 4096,
    MOST_FLASH = 4194304,
    LEAST_WORK = 64,
    MOST_WORK = 65535
};
enum { ACK = 0x06, NAK = 0x15 };

typedef struct {
    uint8_t *ram, *flash, *work; /* the receiver has RAM alone, the host its answer buffer alone, as `work` */
    size_t ram_length, flash_length, work_length;
} model_memories;

/* Input that is shown to a call, and its reply room. */
typedef struct {
    const uint8_t *input;
    size_t shown, taken;
    uint8_t *reply;
    size_t room, sent;
} model_line;

typedef struct {
    uint32_t number, standing;
    size_t taken, sent;
} model_report;

bool model_ram_length(size_t length);
bool model_flash_length(size_t length);
bool model_work_length(size_t length);
/* The number of a uartboot session whose memories have lengths that are refused, else 0. */
uint32_t model_judge_memories(const model_memories *memories);

void model_fresh(uint32_t kind, uint32_t record[WORDS]);
/* A call to a receiver, or to uartboot; line->taken and line->sent are 0 at first. */
model_report model_rom_call(uint32_t record[WORDS], model_line *line, const model_memories *memories);
model_report model_uartboot_call(uint32_t record[WORDS], model_line *line, const model_memories *memories);

/* uartboot's commands. */
enum {
    OP_WRITE = 0x01,
    OP_READ = 0x02,
    OP_COPY = 0x03,
    OP_ERASE = 0x04,
    OP_RUN = 0x05,
    OP_READ_QSPI = 0x08,
    OP_VERSION = 0x0B,
    OP_CHIP_ERASE = 0x0C,
    OP_DIRECT_WRITE = 0x12
};

typedef struct {
    uint32_t reason; /* 0, or why it failed */
    uint32_t answer; /* bytes of answer at the front of the work buffer */
    bool runs;
    uint32_t address; /* where code runs */
} model_outcome;

/* How many opcodes there are, and each of them, in the order of their table (rules, 6.6). */
uint32_t model_opcodes(void);
uint8_t model_opcode(uint32_t i);
bool model_known(uint32_t opcode);
bool model_has_length(uint32_t opcode, uint64_t length);
bool model_has_answer(uint32_t opcode);
/* The reason against the payload of `length` bytes in the work buffer, or 0. */
uint32_t model_judge(uint32_t opcode, uint32_t length, const model_memories *memories);
model_outcome model_execute(uint32_t opcode, uint32_t length, const model_memories *memories);

/* The host's end of uartboot. A command as the host is lent it: */
typedef struct {
    uint32_t opcode;
    uint8_t *payload;
    size_t length;
} model_request;

/* 71 where the command is not one of the table, else 0. */
uint32_t model_judge_request(const model_request *request);
/* How many bytes of answer a command of the table must get; 0 where it has none. */
uint32_t model_awaited(const model_request *request);
model_report model_host_call(uint32_t record[WORDS], model_line *line, const model_request *request,
                             const model_memories *memories);

/* The whole stream at once, with room for every reply, from a fresh session: no phases, no record. */
typedef struct {
    uint8_t *replies;
    size_t taken, sent;
    uint32_t reason;
    bool over;        /* code runs, or the host's command is done or ended */
    uint32_t address; /* where code runs; 0 if none does */
} model_ending;

/* Both write the memories. The caller frees `replies`. The host's request and answer buffer are accepted ones. */
model_ending model_uncut(uint32_t kind, const uint8_t *stream, size_t length, const model_memories *memories);
model_ending model_uncut_host(const model_request *request, const uint8_t *stream, size_t length,
                              const model_memories *memories);

/* Recorded visits. */
enum { RECORDING_HEAD = 5, ENTRY_HEAD = 3, MOST_ENTRY = 65535, ENTRY_HOST = 1, ENTRY_DEVICE = 2 };

typedef struct {
    uint8_t *bytes;
    size_t count;
} model_bytes;

/* The joined bytes of each kind; where the file is refused, those of the entries before. */
typedef struct {
    uint32_t number;
    model_bytes host, device;
} model_recording;

typedef struct {
    uint32_t number, equal;
    size_t place; /* of the first difference; 0 where there is none */
} model_replayed;

model_recording model_read_recording(const uint8_t *file, size_t length);
void model_free_recording(model_recording *r);
/* Writes the memories. */
model_replayed model_replay(const uint8_t *file, size_t length, const model_memories *memories);

/* The boot frame. */
typedef struct {
    uint32_t number;
    size_t length;
} model_framed;

model_framed model_frame(uint32_t kind, const uint8_t *code, size_t length, uint8_t *out, size_t room);

#endif
