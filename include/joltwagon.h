/* Joltwagon: the proved back end of a 6809 assembler, for C.
 *
 * Link crates/joltwagon/out/libjoltwagon.a, which `rt lib` in crates/joltwagon writes (x86-64). The library keeps no state, allocates
 * nothing and calls nothing but memset, the one symbol that it leaves undefined, so every function may be called from any thread.
 *
 * A call returns its refusal, one of enum jw_refusal, 0 for none; above it jw_settle and jw_hex return the number of passes, and
 * jw_why the field that the refusal is about, so that theirs is JW_REFUSAL(returned), and where the first two succeed `returned`
 * itself is not 0. What else a call has to say goes into a lent slice of 16-bit cells, the answer. A refusal leaves everything that
 * was lent as it was. An answer that is shorter than its layout is JW_NO_ROOM, after every other refusal. Where one row is lent
 * (jw_make, jw_assemble, jw_why, jw_build), a slice shorter than its layout is JW_UNKNOWN; so is a table of segments without its
 * first cell. In every other table what is left over at its end is no row. A longer slice is fine: what lies beyond the layout is
 * not looked at and not changed.
 *
 * What the caller owes, since nothing in C can check it: each pointer is valid, aligned and not null, also where the length is
 * 0; each length is how many elements there are (elements, not bytes); and a slice that is written (not const) overlaps no other
 * slice of the same call. Everything else may be wrong, and is then refused.
 *
 * Numbers and layouts are those of docs/ROWS.md. What each call answers is its contract in crates/joltwagon/src.
 */
#ifndef JOLTWAGON_H
#define JOLTWAGON_H

#include <stddef.h>
#include <stdint.h>

#ifdef __cplusplus
extern "C" {
#endif

/* ---- numbers ---- */

enum jw_refusal {
    JW_ACCEPTED = 0,
    JW_UNKNOWN = 1,              /* a number is unknown, a row too short, a flag neither 0 nor 1, or the values disagree */
    JW_NO_SUCH_MODE = 2,         /* the row has no such mode */
    JW_VALUE_MISSING = 3,        /* required value missing */
    JW_BAD_REGISTER = 4,         /* register not allowed here, wrong count, own stack pointer pushed */
    JW_SINGLE_STEP_INDIRECT = 5, /* single step made indirect */
    JW_BAD_WIDTH = 6,            /* value's width does not fit; a value on an inherent form */
    JW_DIRECT_NOT_ALLOWED = 7,   /* Direct not allowed */
    JW_BRANCH_TOO_FAR = 8,       /* branch too far, widening off */
    JW_NO_ROOM = 9,              /* lent buffer or answer too short */
    JW_BAD_LABEL = 10,           /* label undefined, defined twice, or above 511 */
    JW_TOO_DEEP = 11,            /* expression deeper than 32, or node number unknown */
    JW_SEGMENT_REPEATED = 12,    /* segment start repeated, not 0 */
    JW_NOT_SETTLED = 13,         /* 64 passes and not settled */
    JW_UNDEFINED = 14,           /* opcode or postbyte undefined; a direct opcode under an unknown page */
    JW_CUT_SHORT = 15,           /* bytes end inside an instruction */
    JW_BROKEN_TEXT = 16,         /* text breaks Intel's rules */
    JW_OVER_LIMIT = 17,          /* more than 1,024 statements or nodes, 64 segments, or 256 values in a statement */
    JW_BEYOND = 18               /* a byte beyond 65535 */
};

enum jw_operation {
    JW_NEG = 0, JW_COM = 3, JW_LSR = 4, JW_ROR = 6, JW_ASR = 7, JW_ASL = 8, JW_ROL = 9, JW_DEC = 10,
    JW_INC = 12, JW_TST = 13, JW_JMP = 14, JW_CLR = 15, JW_NEGA = 16, JW_COMA = 19, JW_LSRA = 20,
    JW_RORA = 22, JW_ASRA = 23, JW_ASLA = 24, JW_ROLA = 25, JW_DECA = 26, JW_INCA = 28, JW_TSTA = 29,
    JW_CLRA = 31, JW_NEGB = 32, JW_COMB = 35, JW_LSRB = 36, JW_RORB = 38, JW_ASRB = 39, JW_ASLB = 40,
    JW_ROLB = 41, JW_DECB = 42, JW_INCB = 44, JW_TSTB = 45, JW_CLRB = 47, JW_SUBA = 48, JW_CMPA = 49,
    JW_SBCA = 50, JW_SUBD = 51, JW_ANDA = 52, JW_BITA = 53, JW_LDA = 54, JW_STA = 55, JW_EORA = 56,
    JW_ADCA = 57, JW_ORA = 58, JW_ADDA = 59, JW_CMPX = 60, JW_JSR = 61, JW_LDX = 62, JW_STX = 63,
    JW_SUBB = 64, JW_CMPB = 65, JW_SBCB = 66, JW_ADDD = 67, JW_ANDB = 68, JW_BITB = 69, JW_LDB = 70,
    JW_STB = 71, JW_EORB = 72, JW_ADCB = 73, JW_ORB = 74, JW_ADDB = 75, JW_LDD = 76, JW_STD = 77, JW_LDU = 78,
    JW_STU = 79, JW_BRA = 80, JW_BRN = 81, JW_BHI = 82, JW_BLS = 83, JW_BCC = 84, JW_BCS = 85, JW_BNE = 86,
    JW_BEQ = 87, JW_BVC = 88, JW_BVS = 89, JW_BPL = 90, JW_BMI = 91, JW_BGE = 92, JW_BLT = 93, JW_BGT = 94,
    JW_BLE = 95, JW_LBRA = 96, JW_LBRN = 97, JW_LBHI = 98, JW_LBLS = 99, JW_LBCC = 100, JW_LBCS = 101,
    JW_LBNE = 102, JW_LBEQ = 103, JW_LBVC = 104, JW_LBVS = 105, JW_LBPL = 106, JW_LBMI = 107, JW_LBGE = 108,
    JW_LBLT = 109, JW_LBGT = 110, JW_LBLE = 111, JW_LBSR = 112, JW_BSR = 113, JW_CMPD = 114, JW_CMPY = 115,
    JW_LDY = 116, JW_LDS = 117, JW_STY = 118, JW_STS = 119, JW_SWI2 = 120, JW_CMPU = 121, JW_CMPS = 122,
    JW_SWI3 = 123, JW_NOP = 124, JW_SYNC = 125, JW_DAA = 126, JW_SEX = 127, JW_RTS = 128, JW_ABX = 129,
    JW_RTI = 130, JW_MUL = 131, JW_SWI = 132, JW_ORCC = 133, JW_ANDCC = 134, JW_CWAI = 135, JW_EXG = 136,
    JW_TFR = 137, JW_PSHS = 138, JW_PULS = 139, JW_PSHU = 140, JW_PULU = 141, JW_LEAX = 142, JW_LEAY = 143,
    JW_LEAS = 144, JW_LEAU = 145, JW_LSL = 146, JW_LSLA = 147, JW_LSLB = 148, JW_BHS = 149, JW_BLO = 150,
    JW_LBHS = 151, JW_LBLO = 152
};

enum jw_mode {
    JW_MODE_REGISTER = 0,
    JW_MODE_OFFSET = 1,
    JW_MODE_PC_RELATIVE = 2,
    JW_MODE_INC_DEC = 3,
    JW_MODE_EXTENDED = 4,
    JW_MODE_DIRECT = 5,
    JW_MODE_IMMEDIATE = 6,
    JW_MODE_INHERENT = 7
};

enum jw_form {
    JW_FORM_INHERENT = 0,
    JW_FORM_IMMEDIATE = 1,
    JW_FORM_DIRECT = 2,
    JW_FORM_INDEXED = 3,
    JW_FORM_EXTENDED = 4,
    JW_FORM_RELATIVE = 5,
    JW_FORM_REGISTER = 6
};

enum jw_register {
    JW_A = 0,
    JW_B = 1,
    JW_D = 2,
    JW_X = 3,
    JW_Y = 4,
    JW_U = 5,
    JW_S = 6,
    JW_PC = 7,
    JW_CC = 8,
    JW_DP = 9
};

enum jw_step {
    JW_STEP_NONE = 0,
    JW_STEP_INC = 1,  /* ,R+  */
    JW_STEP_INC2 = 2, /* ,R++ */
    JW_STEP_DEC = 3,  /* ,-R  */
    JW_STEP_DEC2 = 4  /* ,--R */
};

enum jw_kind {
    JW_KIND_INHERENT = 1,
    JW_KIND_IMMEDIATE = 2,
    JW_KIND_MEMORY = 3,
    JW_KIND_BRANCH = 4,
    JW_KIND_PUSH = 5,
    JW_KIND_PAIR = 6,
    JW_KIND_OFFSET = 7,
    JW_KIND_PC = 8,
    JW_KIND_ACCUMULATOR = 9,
    JW_KIND_STEP = 10,
    JW_KIND_ADDRESS = 11
};

/* The field of a record that a refusal of jw_why is about: of JW_UNKNOWN the first in this order, which is the record's, that is wrong. */
enum jw_field {
    JW_FIELD_NONE = 0,
    JW_FIELD_OPERATION = 1,
    JW_FIELD_MODE = 2, /* JW_NO_SUCH_MODE */
    JW_FIELD_INDIRECT = 3, /* JW_SINGLE_STEP_INDIRECT */
    JW_FIELD_FORCED = 4,
    JW_FIELD_STEP = 5,
    JW_FIELD_WIDENING = 6, /* JW_BRANCH_TOO_FAR */
    JW_FIELD_REGISTERS = 7, /* how many, and which: JW_BAD_REGISTER */
    JW_FIELD_PAGE = 8, /* JW_DIRECT_NOT_ALLOWED, where the page is unknown */
    JW_FIELD_VALUES = 9 /* JW_VALUE_MISSING, JW_BAD_WIDTH; JW_DIRECT_NOT_ALLOWED, where the page is known */
};

/* Why an accepted instruction is as long as it is. */
enum jw_reason {
    JW_REASON_PLAIN = 0, /* nothing was to be decided */
    JW_REASON_ADDRESS = 1, /* in mode Extended: extended exactly if JW_WHY_FORCED, JW_WHY_UNKNOWN or JW_WHY_ELSEWHERE is set, else direct */
    JW_REASON_BRANCH = 2, /* one that is written short stays so exactly if JW_WHY_NEAR is set; one that is written long is long */
    JW_REASON_PC_RELATIVE = 3, /* one byte of distance exactly if JW_WHY_NEAR is set, else two */
    JW_REASON_OFFSET = 4 /* a constant offset, held in as many bits as JW_WHY_BITS says */
};

/* A page is what is known of the register DP: its number, 0 to 255, which is the high byte of every address that a direct code reaches; or
 * JW_PAGE_UNKNOWN. Another number where a page is asked for is JW_UNKNOWN. */
enum { JW_PAGE_UNKNOWN = 256 };

/* ---- layouts: the cell at which each part stands, and how many cells there are ---- */

/* A size: four cells, the lowest 16 bits first. */
enum { JW_SIZE_CELLS = 4 };

/* An operand record. The operand is its first 15 cells; a flag is 0 or 1. */
enum {
    JW_OPERATION = 0,
    JW_MODE = 1,
    JW_INDIRECT = 2,
    JW_FORCED = 3,
    JW_STEP = 4,
    JW_WIDENING = 5,
    JW_REGISTER_COUNT = 6,
    JW_REGISTERS = 7, /* eight cells. Those beyond the count are not looked at; a kept row hands them back, what is above 255 as 255 */
    JW_OPERAND_CELLS = 15,
    JW_RECORD_PRESENT = 15, /* a present row, so that `record + JW_RECORD_PRESENT` can be lent as one */
    JW_RECORD_CELLS = 21
};

/* What a build takes anew: the page, and the values. */
enum {
    JW_PAGE = 0, /* 0 to 255, or JW_PAGE_UNKNOWN */
    JW_VALUES_GIVEN = 1,
    JW_UNSIGNED = 2, /* a number, and its width in the next cell */
    JW_SIGNED = 4,   /* likewise; so the answer of jw_node may go to `present + JW_UNSIGNED` */
    JW_PRESENT_CELLS = 6
};

/* A kept instruction: the operand's 15 cells, then what a build keeps. The form and the trial mark are those of a fresh build with the last values and
 * page; only the widening is remembered. */
enum { JW_FORM = 15, JW_TRIAL = 16, JW_WIDENED = 17, JW_KEPT_CELLS = 18 };

/* The answer of jw_assemble and jw_build. */
enum {
    JW_BUILT_LENGTH = 0,
    JW_BUILT_BYTES = 1, /* five cells, 0 beyond the length */
    JW_BUILT_FORGETS_PAGE = 6, /* a flag: whatever the page was, this instruction leaves it unknown. Without it the page stays as it was */
    JW_BUILT_KEPT = 7, /* a kept instruction */
    JW_BUILT_CELLS = 25
};

/* The answer of jw_why: a build, which is read by the names above, and behind it the reason; what a reason does not use is 0. */
enum {
    JW_WHY_KIND = 25, /* one of enum jw_reason */
    JW_WHY_FORCED = 26, /* a flag: forced to extended */
    JW_WHY_UNKNOWN = 27, /* a flag: the page is unknown */
    JW_WHY_ELSEWHERE = 28, /* a flag: the page is known, and the address's high byte is another */
    JW_WHY_NUMBER = 29, /* modulo 65536: the distance, from the end of the branch as written or of the one-byte form on PC; or the offset */
    JW_WHY_NEAR = 30, /* a flag: the distance lies in -128..127 */
    JW_WHY_BITS = 31, /* the bits that hold the offset: 0 for zero, 5 in the postbyte, 8 or 16 behind it; on PC 8 or 16, for zero too */
    JW_WHY_CELLS = 32
};

/* The answer of jw_decode and jw_next; what a kind does not use is 0. */
enum {
    JW_READ_LENGTH = 0,
    JW_READ_OPERATION = 1,
    JW_READ_KIND = 2,
    JW_READ_INDIRECT = 3,
    JW_READ_STEP = 4,
    JW_READ_REGISTERS = 5, /* a set: bit n is register n, D is A with B */
    JW_READ_FIRST = 6,
    JW_READ_SECOND = 7,
    JW_READ_NUMBER = 8,
    JW_READ_CELLS = 9
};

/* The answers of jw_node (both values), jw_label, jw_segment_of (first and last address) and jw_read_text (two sizes). */
enum { JW_NODE_CELLS = 4, JW_LABEL_CELLS = 2, JW_SEGMENT_CELLS = 2, JW_TEXT_CELLS = 8 };

/* Lent tables. An object with data that counts more values than are left is JW_UNKNOWN. */
enum { JW_NODE_ROW = 3, JW_LABEL_ROW = 3, JW_OBJECT_ROW = 3, JW_VALUE_ROW = 2, JW_RUN_ROW = 2 };

/* A table of segments: the number of starts, then the starts. 64 cells hold as many as there may be. Where starts are looked for, a number
 * beyond the table means the whole table. */
enum { JW_SEGMENTS_CELLS = 64 };

/* A statement. Its items stand in a table of their own: node numbers for FCB and FDB (JW_NONE is a hole), characters for FCC. It has no page of
 * its own: a pass begins at page 0, and JW_SETDP and the instructions that leave the page unknown change it for what follows. */
enum {
    JW_STATEMENT_KIND = 0,
    JW_STATEMENT_LABEL = 1, /* its own label, or JW_NONE */
    JW_STATEMENT_NODE = 2,  /* the node of its operand, or JW_NONE; of JW_SETDP the page itself, 0 to 255 */
    JW_STATEMENT_FIRST = 3, /* its first item */
    JW_STATEMENT_COUNT = 4, /* how many items */
    JW_STATEMENT_OPERAND = 5,
    JW_STATEMENT_CELLS = 20
};

enum { JW_NONE = 65535 };

enum jw_statement {
    JW_BARE_LABEL = 0,
    JW_INSTRUCTION = 1,
    JW_RMB = 2,
    JW_FCB = 3,
    JW_FDB = 4,
    JW_FCC = 5,
    JW_ORG = 6,
    JW_SETDP = 7
};

/* The number that a size says. */
static inline uint64_t jw_size(const uint16_t *cells)
{
    return (uint64_t)cells[0] | (uint64_t)cells[1] << 16 | (uint64_t)cells[2] << 32 | (uint64_t)cells[3] << 48;
}

/* What jw_settle, jw_hex and jw_why return: the refusal in the low 16 bits, and in the high 16 what is told beside it. Of jw_settle and jw_hex that is
 * the number of passes made, also beside a refusal, so that `if (jw_hex(..))` is no test; this is:
 *
 *     uint32_t returned = jw_hex(..);
 *     if (JW_REFUSAL(returned) != JW_ACCEPTED)
 *         return JW_REFUSAL(returned);
 *
 * Of jw_why it is one of enum jw_field: JW_FIELD_NONE where the record was accepted, so also beside JW_NO_ROOM, and where the row is too short. */
#define JW_REFUSAL(returned) ((returned) & 0xFFFF)
#define JW_PASSES(returned) ((returned) >> 16)
#define JW_FIELD(returned) ((returned) >> 16)

/* ---- instructions ---- */

/* Makes an instruction of a record: the answer is its kept row. */
uint8_t jw_make(const uint16_t *record, size_t record_len, uint16_t *answer, size_t answer_len);

/* A fresh instruction, made and built from one record. */
uint8_t jw_assemble(const uint16_t *record, size_t record_len, uint16_t address, uint16_t *answer, size_t answer_len);

/* What jw_assemble answers, and why: the answer is the build and its reason. Returns the refusal, which is jw_assemble's, and the field that it is
 * about (JW_REFUSAL, JW_FIELD). */
uint32_t jw_why(const uint16_t *record, size_t record_len, uint16_t address, uint16_t *answer, size_t answer_len);

/* Builds a kept instruction: the answer has its bytes, and its row after the build. Of a row that a call handed out, the bytes are those of a fresh
 * instruction with these values and this page, but that a branch that was made long stays long. */
uint8_t jw_build(const uint16_t *kept, size_t kept_len, const uint16_t *present, size_t present_len, uint16_t address,
                 uint16_t *answer, size_t answer_len);

/* Lays a list of records, rows of JW_RECORD_CELLS, fresh and end to end from an address on, into the front of `out`: the answer is how
 * many bytes, a size. At most 1,024 rows. */
uint8_t jw_lay(const uint16_t *list, size_t list_len, uint16_t address, uint8_t *out, size_t out_len, uint16_t *answer,
               size_t answer_len);

/* ---- decoding ---- */

/* Each call takes the page under which it reads, 0 to 255 or JW_PAGE_UNKNOWN, and one page serves a whole run, whatever the run does to the register
 * DP. A page that is none is JW_UNKNOWN, before every other refusal. A direct code is read as the address in the page; under an unknown one it is
 * JW_UNDEFINED, also where its address is cut off. */

/* The instruction at the front of bytes that stand from an address on. */
uint8_t jw_decode(const uint8_t *bytes, size_t bytes_len, uint16_t address, uint16_t page, uint16_t *answer, size_t answer_len);

/* The instruction that begins at a place of a run, whose first byte stands at the address. */
uint8_t jw_next(const uint8_t *bytes, size_t bytes_len, uint16_t address, uint16_t page, size_t at, uint16_t *answer,
                size_t answer_len);

/* How many instructions a run has: the answer is a size. */
uint8_t jw_count(const uint8_t *bytes, size_t bytes_len, uint16_t address, uint16_t page, uint16_t *answer, size_t answer_len);

/* ---- expressions and labels ---- */

/* Both values of a node at a location: unsigned and signed, each a number and its width. */
uint8_t jw_node(const uint16_t *nodes, size_t nodes_len, const uint16_t *labels, size_t labels_len, uint16_t node,
                uint16_t location, uint16_t *answer, size_t answer_len);

/* The value of a label, as stored in its width: a number and its width. */
uint8_t jw_label(const uint16_t *nodes, size_t nodes_len, const uint16_t *labels, size_t labels_len, uint16_t label,
                 uint16_t *answer, size_t answer_len);

/* Moves each label whose address lies from left to right, both ends counted, on by `by`, modulo 65536. Refuses nothing. */
void jw_move_labels(uint16_t *labels, size_t labels_len, uint16_t left, uint16_t right, uint16_t by);

/* ---- segments ---- */

/* Adds a start. 0 again is free. JW_OVER_LIMIT goes by the number of starts that the table says, though it be beyond the table: adding 7
 * to {100, 5} is JW_OVER_LIMIT, to {50, 5} it is JW_NO_ROOM. */
uint8_t jw_add_segment(uint16_t *segments, size_t segments_len, uint16_t start);

/* The first and the last address of the segment that an address lies in. */
uint8_t jw_segment_of(const uint16_t *segments, size_t segments_len, uint16_t address, uint16_t *answer, size_t answer_len);

/* ---- text ---- */

/* How long the text of the objects is: the answer is a size. */
uint8_t jw_text_size(const uint16_t *objects, size_t objects_len, const uint16_t *values, size_t values_len, uint16_t *answer,
                     size_t answer_len);

/* Writes the text of the objects to the front of `out`: the answer is its length, a size. */
uint8_t jw_write_text(const uint16_t *objects, size_t objects_len, const uint16_t *values, size_t values_len, uint8_t *out,
                      size_t out_len, uint16_t *answer, size_t answer_len);

/* Reads a text: its data bytes to the front of `bytes`, one run after the other, and the first and the last address of each run
 * to the front of `runs`. The answer is two sizes: how many bytes, and how many runs. */
uint8_t jw_read_text(const uint8_t *text, size_t text_len, uint8_t *bytes, size_t bytes_len, uint16_t *runs, size_t runs_len,
                     uint16_t *answer, size_t answer_len);

/* ---- statements ---- */

/* Makes passes over a list of statements until one changes no label address and no size: the label table gets the addresses. At most 1,024
 * statements, 512 labels and 64 passes. The table must have the row of every label that a statement bears, else JW_NO_ROOM. A row that
 * no statement bears gets the address 0, and is undefined unless it has an expression: {1, 1234, 9} becomes {0, 0, 9}. Returns
 * the refusal and the passes (JW_REFUSAL, JW_PASSES). Stack: 14,528 bytes, measured by painting it, where a call took most (the
 * expression of an FCB deeper than 32). */
uint32_t jw_settle(const uint16_t *list, size_t list_len, const uint16_t *items, size_t items_len, const uint16_t *nodes,
                   size_t nodes_len, uint16_t *labels, size_t labels_len);

/* From a list of statements to the text of its settled pass: the label table gets the addresses as from jw_settle, the object and value tables
 * what jw_write_text takes, the front of `out` the text, and the answer is its length, a size. Returns the refusal and the passes
 * (JW_REFUSAL, JW_PASSES). Stack: 14,944 bytes, measured likewise. */
uint32_t jw_hex(const uint16_t *list, size_t list_len, const uint16_t *items, size_t items_len, const uint16_t *nodes,
                size_t nodes_len, uint16_t *labels, size_t labels_len, uint16_t *objects, size_t objects_len, uint16_t *values,
                size_t values_len, uint8_t *out, size_t out_len, uint16_t *answer, size_t answer_len);

#ifdef __cplusplus
}
#endif

#endif
