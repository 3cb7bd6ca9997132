#!/usr/bin/env python3
"""Wrong edits of the header, the Rattle sources and the archive, each made in a copy: agree.py has to refuse each
of them, for the right reason.

wrong_edits.py ROOT ARCHIVE
"""
import re
import shutil
import subprocess
import sys
import tempfile
from pathlib import Path

from agree import COMPARED, INSTALLED, Differs, agree

HEADER = "include/undalisho.h"
CAPI, OFFER = "crates/capi/src/lib.rt", "crates/offer/src/lib.rt"
CAPI_TRAY = "crates/capi_tray/src/lib.rt"
CAPI_FRAME, FRAME = "crates/capi_frame/src/lib.rt", "crates/frame/src/lib.rt"
CAPI_ROM, CAPI_UARTBOOT, CALLED = "crates/capi_rom/src/lib.rt", "crates/capi_uartboot/src/lib.rt", "crates/called/src/lib.rt"
CAPI_HOST = "crates/capi_host/src/lib.rt"
CAPI_REPLAY, VISIT = "crates/capi_replay/src/lib.rt", "crates/visit/src/lib.rt"
CAPI_INSPECT, IMAGE_HEADER = "crates/capi_inspect/src/lib.rt", "crates/inspect/src/image_header.rt"
CAPI_HEADERS, HEADERS, IMAGE = "crates/capi_headers/src/lib.rt", "crates/headers/src/lib.rt", "crates/image/src/lib.rt"
RANK, ORDER = "crates/version/src/rank.rt", "crates/version/src/order.rt"
READINGS = "tests/compare/readings.c"

# By file: what is wrong, a text that the file has once, what is put in its place, what the refusal says (a regular expression).
EDITS = {
    HEADER: [
        # Parameters and results.
        ("parameter of 64 bits", "uint32_t offset);", "uint64_t offset);", "conflicting types for 'und_read_image'"),
        ("parameter with a sign", "uint32_t offset);", "int32_t offset);", "conflicting types for 'und_read_image'"),
        ("length of 32 bits", "size_t field_len", "uint32_t field_len", "conflicting types for 'und_rank'"),
        ("length of 64 bits on any machine", "size_t field_len", "uint64_t field_len", "conflicting types for 'und_rank'"),
        ("parameters swapped", "uint32_t kind, uint32_t record[8]", "uint32_t record[8], uint32_t kind",
         "conflicting types for 'und_rom_fresh'"),
        ("length before its pointer", "const uint8_t *field, size_t field_len", "size_t field_len, const uint8_t *field",
         "conflicting types for 'und_rank'"),
        ("parameter left out", ", size_t field_len", "", "conflicting types for 'und_rank'"),
        ("parameter added", "size_t field_len", "size_t field_len, uint32_t more", "conflicting types for 'und_rank'"),
        ("number after the bytes", "und_read_command(uint32_t opcode, const uint8_t *payload, size_t payload_len",
         "und_read_command(const uint8_t *payload, size_t payload_len, uint32_t opcode", "conflicting types for 'und_read_command'"),
        ("opcode of 8 bits", "record[8], uint32_t opcode,", "record[8], uint8_t opcode,", "conflicting types for 'und_host_call'"),
        ("answer that is only read", "uint8_t *answer,\n", "const uint8_t *answer,\n", "conflicting types for 'und_host_call'"),
        ("output and answer swapped", "uint8_t *output, size_t output_len, uint8_t *answer,\n                         size_t answer_len",
         "uint8_t *answer, size_t answer_len, uint8_t *output,\n                         size_t output_len",
         "the header gives und_host_call the parameters"),
        ("record of a host that is only read", "host_fresh(uint32_t record[8])", "host_fresh(const uint32_t record[8])",
         "conflicting types for 'und_host_fresh'"),
        ("byte of 32 bits as parameter", "uint8_t id,", "uint32_t id,", "conflicting types for 'und_make_image_header'"),
        ("byte of 32 bits as result", "uint8_t und_next_id(", "uint32_t und_next_id(", "conflicting types for 'und_next_id'"),
        ("time of 64 bits", "uint32_t time);", "uint64_t time);", "conflicting types for 'und_make_image_header'"),
        ("const dropped", "(const uint8_t *field,", "(uint8_t *field,", "conflicting types for 'und_rank'"),
        ("const added", "uint8_t *input, size_t input_len, uint8_t *reply,\n                             size_t reply_len, uint8_t *ram",
         "uint8_t *input, size_t input_len, uint8_t *reply,\n                             size_t reply_len, const uint8_t *ram",
         "conflicting types for 'und_uartboot_call'"),
        ("record that is only read", "uartboot_fresh(uint32_t record[8])", "uartboot_fresh(const uint32_t record[8])",
         "conflicting types for 'und_uartboot_fresh'"),
        ("record of other words", "uartboot_fresh(uint32_t record[8])", "uartboot_fresh(uint64_t record[8])",
         "conflicting types for 'und_uartboot_fresh'"),
        ("record of nine words", "uartboot_fresh(uint32_t record[8])", "uartboot_fresh(uint32_t record[9])",
         r"argument 1 of type 'uint32_t\[8\]'.* with mismatched bound"),
        ("other struct as result", "und_framed und_frame_e(", "und_ranked und_frame_e(",
         "conflicting types for 'und_frame_e'"),
        ("result of another reading", "und_product und_read_product(", "und_selected und_read_product(",
         "conflicting types for 'und_read_product'"),
        ("other header as result", "und_product_header und_make_product_header(", "und_image_header und_make_product_header(",
         "conflicting types for 'und_make_product_header'"),
        ("result where there is none", "void und_uartboot_fresh(", "uint32_t und_uartboot_fresh(",
         "conflicting types for 'und_uartboot_fresh'"),
        ("lent memories swapped", "uint8_t *installed, size_t installed_len, const uint8_t *candidate, size_t candidate_len",
         "uint8_t *candidate, size_t candidate_len, const uint8_t *installed, size_t installed_len",
         "the header gives und_offer the parameters"),
        ("parameter renamed", "und_read_product(const uint8_t *flash, size_t flash_len, uint32_t header_offset",
         "und_read_product(const uint8_t *flash, size_t flash_len, uint32_t offset",
         "the header gives und_read_product the parameters"),
        ("offsets swapped", "uint32_t first, uint32_t second", "uint32_t second, uint32_t first",
         "the header gives und_make_product_header the parameters"),
        ("room of bytes", "uint32_t *ranks,", "uint8_t *ranks,", "conflicting types for 'und_rank_tray'"),
        ("room that is only read", "uint32_t *ranks,", "const uint32_t *ranks,", "conflicting types for 'und_rank_tray'"),
        ("room without a length", ", size_t ranks_len", "", "conflicting types for 'und_rank_tray'"),
        ("lengths of a tray swapped", "size_t fields_len, uint32_t *ranks, size_t ranks_len",
         "size_t ranks_len, uint32_t *ranks, size_t fields_len", "the header gives und_rank_tray the parameters"),
        ("struct in place of a number", "uint32_t und_rank_tray(", "und_ranked und_rank_tray(",
         "conflicting types for 'und_rank_tray'"),
        ("recording that is written", "(const uint8_t *recording,", "(uint8_t *recording,", "conflicting types for 'und_replay'"),
        ("recording without a length", ", size_t recording_len", "", "conflicting types for 'und_replay'"),
        ("flash that is only read", "size_t ram_len, uint8_t *flash,\n                        size_t flash_len,",
         "size_t ram_len, const uint8_t *flash,\n                        size_t flash_len,", "conflicting types for 'und_replay'"),
        ("memories of a replay swapped",
         "recording_len, uint8_t *ram, size_t ram_len, uint8_t *flash,\n                        size_t flash_len",
         "recording_len, uint8_t *flash, size_t flash_len, uint8_t *ram,\n                        size_t ram_len",
         "the header gives und_replay the parameters"),
        ("report in place of a replay", "und_replayed und_replay(", "und_report und_replay(", "conflicting types for 'und_replay'"),
        # Structs.
        ("fields swapped", "uint32_t number;\n    uint32_t slot;", "uint32_t slot;\n    uint32_t number;",
         'static assertion failed: "und_selected.number: place"'),
        ("fields of two widths swapped", "uint32_t number;\n    size_t length;", "size_t length;\n    uint32_t number;",
         'static assertion failed: "und_framed.number: place"'),
        ("places swapped", "size_t version_place; /* where the version field begins in the memory */\n    size_t code_place;",
         "size_t code_place;\n    size_t version_place;", 'static assertion failed: "und_image.version_place: place"'),
        ("image's id and size swapped", "uint32_t id;\n    uint32_t size; ", "uint32_t size;\n    uint32_t id; ",
         'static assertion failed: "und_image.id: place"'),
        ("images swapped", "uint32_t first;  /* flash offset of image 1; 0 when refused */\n    uint32_t second;",
         "uint32_t second;\n    uint32_t first;", 'static assertion failed: "und_product.first: place"'),
        ("address and offset swapped", "uint32_t address; /* in RAM */\n    uint32_t offset;",
         "uint32_t offset;\n    uint32_t address;", 'static assertion failed: "und_command.address: place"'),
        ("place of 32 bits", "size_t code_place;", "uint32_t code_place;",
         'static assertion failed: "und_image.code_place: type"'),
        ("byte of 8 bits", "uint32_t verify;", "uint8_t verify;", 'static assertion failed: "und_command.verify: type"'),
        ("field without its sign", " int32_t order;", " uint32_t order;",
         'static assertion failed: "und_ordered.order: type"'),
        ("field of 32 bits", "size_t length;", "uint32_t length;", 'static assertion failed: "und_framed.length: type"'),
        ("field of 64 bits on any machine", "size_t taken;", "uint64_t taken;",
         'static assertion failed: "und_report.taken: type"'),
        ("answer before its number", "uint32_t number;\n    uint32_t equal;", "uint32_t equal;\n    uint32_t number;",
         'static assertion failed: "und_replayed.number: place"'),
        ("answer of 8 bits", "uint32_t equal;", "uint8_t equal;", 'static assertion failed: "und_replayed.equal: type"'),
        ("difference's place of 32 bits", "size_t place;   /* where they", "uint32_t place; /* where they",
         'static assertion failed: "und_replayed.place: type"'),
        ("longer array", "rank[UND_RANK_NUMBERS]", "rank[UND_TRAY_ENTRY]", 'static assertion failed: "und_ranked.rank: type"'),
        ("longer header", "bytes[64]", "bytes[65]", 'static assertion failed: "und_image_header.bytes: type"'),
        ("shorter header", "bytes[12]", "bytes[11]", 'static assertion failed: "und_product_header.bytes: type"'),
        ("number after the bytes", "uint32_t number;\n    uint8_t bytes[64];", "uint8_t bytes[64];\n    uint32_t number;",
         'static assertion failed: "und_image_header.number: place"'),
        ("field renamed", "uint32_t slot;", "uint32_t image;", "'und_selected' has no member named 'slot'"),
        ("field left out", "size_t size;", "", "'und_offered' has no member named 'size'"),
        ("field added at the end", " int32_t order;", " int32_t order, more;",
         'static assertion failed: "und_ordered: size"'),
        ("field added where C leaves a gap", "size_t length;", "uint32_t more;\n    size_t length;",
         "missing initializer for field 'length' of 'und_framed'"),
        # Names.
        ("struct added", "/* ---- Versions", "typedef struct { int more; } und_more;\n/* ---- Versions",
         "the header has .'struct und_more'. that"),
        ("function left out", "und_ranked und_rank(const uint8_t *field, size_t field_len);", "",
         "lacks .'function und_rank'."),
        ("tray left out", "uint32_t und_rank_tray(const uint8_t *fields, size_t fields_len, uint32_t *ranks, size_t ranks_len);", "",
         "lacks .'function und_rank_tray'."),
        ("function added", "/* ---- Versions", "void und_more(void);\n/* ---- Versions",
         "the header has .'function und_more'. that"),
        ("reading left out", "und_image und_read_image(const uint8_t *memory, size_t memory_len, uint32_t offset);", "",
         "lacks .'function und_read_image'."),
        ("making left out", "und_product_header und_make_product_header(uint32_t first, uint32_t second);", "",
         "lacks .'function und_make_product_header'."),
        ("host left out", "void und_host_fresh(uint32_t record[8]);", "", "lacks .'function und_host_fresh'."),
        ("replay renamed", "und_replayed und_replay(", "und_replayed und_play(",
         "the header has .'function und_play'. that .*lacks .'function und_replay'."),
        ("function renamed", "und_ranked und_rank(", "und_ranked und_ranks(",
         "the header has .'function und_ranks'. that .*lacks .'function und_rank'."),
        ("variable added", "/* ---- Versions", "extern int und_state;\n/* ---- Versions",
         "'extern int und_state' is neither"),
        # Constants.
        ("wrong kind", "UND_KIND_E = 1", "UND_KIND_E = 0", "not so: .*UND_KIND_E"),
        ("wrong kind of a host", "UND_KIND_HOST = 3", "UND_KIND_HOST = 4", "not so: .*UND_KIND_HOST"),
        ("wrong standing", "UND_WANTS_ROOM = 2", "UND_WANTS_ROOM = 3", "not so: .*UND_WANTS_ROOM"),
        ("wrong word", "UND_RECORD_PLACE = 4", "UND_RECORD_PLACE = 5", "not so: .*UND_RECORD_PLACE"),
        ("wrong word for the address", "UND_RECORD_HELD = 5", "UND_RECORD_HELD = 7", "not so: .*UND_RECORD_HELD"),
        ("too few words", "UND_RECORD_WORDS = 8", "UND_RECORD_WORDS = 7", "not so: .*UND_RECORD_WORDS"),
        ("wrong rule header", "UND_RULE_HEADER = 1", "UND_RULE_HEADER = 8", "not so: .*UND_RULE_HEADER"),
        ("wrong rule mark", "UND_RULE_MARK = 2", "UND_RULE_MARK = 9", "not so: .*UND_RULE_MARK"),
        ("wrong rule flag", "UND_RULE_FLAG = 3", "UND_RULE_FLAG = 10", "not so: .*UND_RULE_FLAG"),
        ("wrong rule size", "UND_RULE_SIZE = 4", "UND_RULE_SIZE = 11", "not so: .*UND_RULE_SIZE"),
        ("wrong rule reach", "UND_RULE_REACH = 5", "UND_RULE_REACH = 12", "not so: .*UND_RULE_REACH"),
        ("wrong rule encrypted", "UND_RULE_ENCRYPTED = 6", "UND_RULE_ENCRYPTED = 13", "not so: .*UND_RULE_ENCRYPTED"),
        ("wrong rule crc", "UND_RULE_CRC = 7", "UND_RULE_CRC = 14", "not so: .*UND_RULE_CRC"),
        ("wrong start of a header", "UND_LINE_START = 0x01", "UND_LINE_START = 0x02", "not so: .*UND_LINE_ACK"),
        ("wrong greeting", "UND_LINE_GREETING = 0x02", "UND_LINE_GREETING = 0x03", "not so: .*UND_LINE_GREETING"),
        ("wrong ACK", "UND_LINE_ACK = 0x06", "UND_LINE_ACK = 0x07", "not so: .*UND_LINE_ACK"),
        ("wrong NAK", "UND_LINE_NAK = 0x15", "UND_LINE_NAK = 0x14", "not so: .*UND_LINE_NAK"),
        ("wrong file", "UND_FILE_CANDIDATE = 2", "UND_FILE_CANDIDATE = 1", "not so: .*UND_FILE_CANDIDATE"),
        ("wrong length of RAM", "UND_RAM_MAX = 131072", "UND_RAM_MAX = 131071", "not so: .*UND_RAM_MAX"),
        ("wrong length of flash", "UND_FLASH_MAX = 4194304", "UND_FLASH_MAX = 4190208", "not so: .*UND_FLASH_MAX"),
        ("wrong sector", "UND_FLASH_SECTOR = 4096", "UND_FLASH_SECTOR = 8192", "not so: .*UND_FLASH_SECTOR"),
        ("wrong length of the work buffer", "UND_WORK_MIN = 64", "UND_WORK_MIN = 65", "not so: .*UND_WORK_MIN"),
        ("rank of five numbers", "UND_RANK_NUMBERS = 4", "UND_RANK_NUMBERS = 5", 'static assertion failed: "und_ranked.rank: type"'),
        ("smaller tray", "UND_TRAY_MAX = 1024", "UND_TRAY_MAX = 1023", "not so: .*UND_TRAY_MAX"),
        ("entry without its number", "UND_RANK_NUMBERS + 1", "UND_RANK_NUMBERS", "not so: .*UND_TRAY_ENTRY"),
        ("longer entry", "UND_RANK_NUMBERS + 1", "UND_RANK_NUMBERS + 2", "not so: .*UND_TRAY_ENTRY"),
        ("shorter entry", "UND_ENTRY_MAX = 65535", "UND_ENTRY_MAX = 65534", "not so: .*UND_ENTRY_MAX"),
        ("host's and device's entries alike", "UND_ENTRY_DEVICE = 2", "UND_ENTRY_DEVICE = 1", "not so: .*UND_ENTRY_DEVICE"),
        ("longer head of an entry", "UND_ENTRY_HEAD = 3", "UND_ENTRY_HEAD = 4", "not so: .*UND_ENTRY_HEAD"),
        ("wrong address", "UND_RAM_FIRST = 0x07FC0000", "UND_RAM_FIRST = 0x07FC0001", "not so: .*UND_RAM_FIRST"),
        # Phases.
        ("running without its opcode", "opcode (05), held (the address)", "held (the address)",
         "the header has the phase 'uartboot 19: held', the library 'uartboot 19: opcode"),
        ("running with any opcode", "opcode (05), held", "opcode, held", "the header has the phase 'uartboot 19: opcode, held'"),
        ("receiver without its address", "runs the code                                           held (the address)",
         "runs the code", "the header has the phase 'P 11: ', the library 'P 11: held'"),
        ("greeting with five places", "sends 02 01 00 03                                     place (below 4)",
         "sends 02 01 00 03                                     place (below 5)", "the header has the phase 'uartboot 0: place"),
        ("place of one byte", "takes 06                                              opcode, length",
         "takes 06                                              opcode, length, place (below the length)",
         "the header has the phase 'uartboot 13: opcode, length, place"),
        ("code without places", "takes code                                              length, place (below the length)",
         "takes code                                              length", "the header has the phase 'P 7: length', the library"),
        ("phase of both kinds", "low byte of the extended length (E only)", "low byte of the extended length",
         "the header has the phase 'P 4: ', the library 'P 6: length'"),
        ("phase left out", " *     18       sends 15\n", "",
         "the header has the phase 'uartboot 19: .*, the library 'uartboot 18: '"),
        ("phase of commands that lack it", "takes the payload's 06                      with a payload",
         "takes the payload's 06                      all", "the header has the phase 'host 4: all', the library 'host 4: with a"),
        ("answer that may be empty", "sends 06                                    awaiting 1 byte or more",
         "sends 06                                    with an answer", "the header has the phase 'host 11: with an answer'"),
        ("greeting awaited after Run", "without an answer, not Run", "without an answer", "the header has the phase 'host 16: without an"),
        ("payload with places of its answer", "place (below its length)", "place (below the awaited length)",
         "the header has the phase 'host 3: with a payload; place .below the awaited length.'"),
        ("CRC that holds nothing", "takes its high byte                         with a payload             held",
         "takes its high byte                         with a payload", "the header has the phase 'host 6: with a payload', the library"),
        ("host that is never done", " *     17      is done, or was ended by the reason         all\n", "",
         "the header has the phase 'None', the library 'host 17: all'"),
    ],
    CAPI: [
        ("lent memories swapped", "installed: &[u8], candidate: &[u8]", "candidate: &[u8], installed: &[u8]",
         "the header gives und_offer the parameters"),
        ("slice that is written", "und_rank(field: &[u8])", "und_rank(field: &mut [u8])",
         "conflicting types for 'und_rank'"),
        ("unknown reference", "field: &[u8]", "field: &u8", "the parameter 'field: &u8' has a type that is not known"),
        ("unknown result", ") -> Ranked", ") -> bool", "the result type 'bool' is not known"),
        ("function that has no name for C", '#[unsafe(no_mangle)]\npub extern "C" fn und_rank', 'pub extern "C" fn und_rank',
         'not every extern "C" has the form'),
        ("function renamed", "fn und_rank(", "fn und_ranks(", "lacks .'function und_ranks'."),
    ],
    CAPI_TRAY: [
        ("room of bytes", "ranks: &mut [u32]", "ranks: &mut [u8]", "conflicting types for 'und_rank_tray'"),
        ("room that is only read", "ranks: &mut [u32]", "ranks: &[u32]", "conflicting types for 'und_rank_tray'"),
        ("room of one entry", "ranks: &mut [u32]", "ranks: &mut [u32; 5]", "conflicting types for 'und_rank_tray'"),
        ("function renamed", "fn und_rank_tray(", "fn und_tray(", "lacks .'function und_tray'."),
    ],
    CAPI_FRAME: [
        ("output that is only read", "und_frame_e(code: &[u8], out: &mut [u8])", "und_frame_e(code: &[u8], out: &[u8])",
         "conflicting types for 'und_frame_e'"),
    ],
    CAPI_ROM: [
        ("unknown parameter", "kind: u32,", "kind: u128,", "the parameter 'kind: u128' has a type that is not known"),
        ("report of its own", "use called::{Called, hand_back};",
         "use called::hand_back;\n\n#[repr(C)]\npub struct Called {\n    pub number: u32,\n}",
         "two structs 'Called' that differ"),
    ],
    CAPI_UARTBOOT: [
        ("lent memories swapped", "    flash: &mut [u8],\n    work: &mut [u8],", "    work: &mut [u8],\n    flash: &mut [u8],",
         "the header gives und_uartboot_call the parameters"),
    ],
    CAPI_HOST: [
        ("output and answer swapped", "    output: &mut [u8],\n    answer: &mut [u8],", "    answer: &mut [u8],\n    output: &mut [u8],",
         "the header gives und_host_call the parameters"),
        ("payload that is written", "payload: &[u8]", "payload: &mut [u8]", "conflicting types for 'und_host_call'"),
        ("function renamed", "fn und_host_fresh(", "fn und_host_new(", "lacks .'function und_host_new'."),
    ],
    CAPI_REPLAY: [
        ("recording that is written", "recording: &[u8]", "recording: &mut [u8]", "conflicting types for 'und_replay'"),
        ("flash that is only read", "flash: &mut [u8]", "flash: &[u8]", "conflicting types for 'und_replay'"),
        ("parameter renamed", "ram: &mut [u8]", "memory: &mut [u8]", "the header gives und_replay the parameters"),
        ("function renamed", "fn und_replay(", "fn und_play(", "lacks .'function und_play'."),
    ],
    VISIT: [("fields swapped", "pub equal: u32,\n    pub place: usize,", "pub place: usize,\n    pub equal: u32,",
             'static assertion failed: "und_replayed.equal: place"')],
    CALLED: [("counts swapped", "pub taken: usize,\n    pub sent: usize,", "pub sent: usize,\n    pub taken: usize,",
              'static assertion failed: "und_report.sent: place"')],
    CAPI_INSPECT: [
        ("slice that is written", "payload: &[u8]", "payload: &mut [u8]", "conflicting types for 'und_read_command'"),
        ("other struct as result", ") -> ImageRead", ") -> ProductRead", "conflicting types for 'und_read_image'"),
        ("function renamed", "fn und_read_product(", "fn und_product_at(", "lacks .'function und_product_at'."),
    ],
    CAPI_HEADERS: [
        ("parameter of another width", "id: u8,", "id: u32,", "conflicting types for 'und_make_image_header'"),
        ("offsets swapped", "first: u32, second: u32", "second: u32, first: u32",
         "the header gives und_make_product_header the parameters"),
        ("function renamed", "fn und_make_product_header(", "fn und_make_products(", "lacks .'function und_make_products'."),
    ],
    HEADERS: [("fields swapped", "pub number: u32,\n    pub bytes: [u8; HEADER],",
               "pub bytes: [u8; HEADER],\n    pub number: u32,",
               'static assertion failed: "und_image_header.bytes: place"')],
    IMAGE: [("longer header", "HEADER: usize = 64", "HEADER: usize = 65",
             'static assertion failed: "und_image_header.bytes: type"')],
    IMAGE_HEADER: [("fields swapped", "pub version_place: usize,\n    pub code_place: usize,",
                    "pub code_place: usize,\n    pub version_place: usize,",
                    'static assertion failed: "und_image.code_place: place"')],
    INSTALLED: [("function that is not called", "und_make_product_header(0,", "product(0,",
                 r"installed\.c does not call .'und_make_product_header'.")],
    READINGS: [("function that is not compared", "und_read_command(opcode,", "command(opcode,",
                r"tests/compare/\*\.c does not call .'und_read_command'.")],
    FRAME: [("unknown field", "pub length: usize,", "pub length: u128,", "'u128' is neither defined here in a form that")],
    OFFER: [("layout that is not C's", "#[repr(C)]\n", "", "'Offered' is neither defined here in a form that is known")],
    ORDER: [("fields swapped", "pub number: u32,\n    pub order: i32,", "pub order: i32,\n    pub number: u32,",
             'static assertion failed: "und_ordered.order: place"')],
    RANK: [("longer array", "NUMBERS: usize = 4", "NUMBERS: usize = 5",
            'static assertion failed: "und_ranked.rank: type"')],
}

# What is wrong, what objcopy is told, what the refusal says.
ARCHIVES = [
    ("function left out", "--localize-symbol=und_rank", "the archive .*lacks .'function und_rank'."),
    ("tray left out", "--localize-symbol=und_rank_tray", "the archive .*lacks .'function und_rank_tray'."),
    ("making left out", "--localize-symbol=und_make_image_header",
     "the archive .*lacks .'function und_make_image_header'."),
    ("reading left out", "--localize-symbol=und_read_image", "the archive .*lacks .'function und_read_image'."),
    ("host left out", "--localize-symbol=und_host_call", "the archive .*lacks .'function und_host_call'."),
    ("replay left out", "--localize-symbol=und_replay", "the archive .*lacks .'function und_replay'."),
    ("function renamed", "--redefine-sym=und_rank=und_ranks", "the archive has .'function und_ranks'."),
    ("symbol added", "--add-symbol=und_state=0,global,object", "the archive has .'A und_state'"),
]


# The header's names for numbers, reasons, opcodes and the like: each is tried with another value.
NUMBERED = r"\b(UND_(?!KIND|WANTS|RUNS|RECORD_|RULE|LINE|FILE|RAM_|WORK_|FLASH_MAX|FLASH_SECTOR|RANK_NUMBERS)\w+) = (\d\w*)"


def numbered_edits(root):
    for name, value in re.findall(NUMBERED, Path(root, HEADER).read_text()):
        yield f"wrong {name}", f"{name} = {value}", f"{name} = {int(value, 0) + 100}", f"not so: .*{name}"


def copy_of(root, tree):
    """The files that agree.py reads."""
    patterns = (HEADER, INSTALLED, COMPARED, "crates/*/src/**/*.rt")
    for path in (path for pattern in patterns for path in Path(root).glob(pattern)):
        copy = tree / path.relative_to(root)
        copy.parent.mkdir(parents=True, exist_ok=True)
        shutil.copyfile(path, copy)


def expect_refusal(what, says, tree, archive):
    try:
        agree(tree, archive)
    except Differs as differs:
        if not re.search(says, str(differs)):
            sys.exit(f"boundary: a wrong edit was refused, but not with '{says}': {what}\n{differs}")
        return
    sys.exit(f"boundary: a wrong edit was not refused: {what}")


def try_edit(tree, archive, name, what, old, new, says):
    path = tree / name
    text = path.read_text()
    if text.count(old) != 1:
        sys.exit(f"boundary: the wrong edit '{what}' of {name} wants '{old}' to be there once")
    path.write_text(text.replace(old, new))
    expect_refusal(f"{name}: {what}", says, tree, archive)
    path.write_text(text)


def try_archive(tree, archive, what, word, says):
    wrong = tree / "wrong.a"
    subprocess.run(["objcopy", word, archive, str(wrong)], check=True)
    expect_refusal(f"archive: {what}", says, tree, wrong)


def main():
    if len(sys.argv) != 3:
        sys.exit(__doc__)
    root, archive = sys.argv[1:]
    edits = [(name, *edit) for name, its in EDITS.items() for edit in its]
    edits += [(HEADER, *edit) for edit in numbered_edits(root)]
    with tempfile.TemporaryDirectory() as folder:
        copy_of(root, Path(folder))
        for edit in edits:
            try_edit(Path(folder), archive, *edit)
        for edit in ARCHIVES:
            try_archive(Path(folder), archive, *edit)
    print(f"boundary: {len(edits) + len(ARCHIVES)} wrong edits of header, Rattle sources and archive refused")


if __name__ == "__main__":
    main()
