/* Calls every function of include/joltwagon.h. Expected answers are the cases of documents 01 and 02, or follow from their rules by hand.
 * Prints what it compared; its exit status is 0 if nothing differs. */
#include "../../include/joltwagon.h"

#include <stdio.h>
#include <string.h>

static int compared, differing;

static void same(const char *what, long got, long wanted)
{
    compared++;
    if (got != wanted) {
        differing++;
        printf("%s: %ld, not %ld\n", what, got, wanted);
    }
}

static void same_bytes(const char *what, const void *got, const void *wanted, size_t n)
{
    compared++;
    if (memcmp(got, wanted, n) != 0) {
        differing++;
        printf("%s: other bytes\n", what);
    }
}

enum { UNTOUCHED = 0xBEEF };

static void untouched(const char *what, const uint16_t *cells, size_t n)
{
    compared++;
    for (size_t i = 0; i < n; i++)
        if (cells[i] != UNTOUCHED) {
            differing++;
            printf("%s: cell %zu was changed\n", what, i);
            return;
        }
}

static void fill(uint16_t *cells, size_t n)
{
    for (size_t i = 0; i < n; i++)
        cells[i] = UNTOUCHED;
}

/* A record with one register, or none (-1), and one value for both evaluations; no value for width 0. */
static void record_of(uint16_t *r, uint16_t operation, uint16_t mode, int reg, uint16_t number, uint16_t width)
{
    memset(r, 0, JW_RECORD_CELLS * sizeof *r);
    r[JW_OPERATION] = operation;
    r[JW_MODE] = mode;
    if (reg >= 0) {
        r[JW_REGISTER_COUNT] = 1;
        r[JW_REGISTERS] = (uint16_t)reg;
    }
    uint16_t *now = r + JW_RECORD_PRESENT;
    now[JW_VALUES_GIVEN] = width != 0;
    now[JW_UNSIGNED] = now[JW_SIGNED] = number;
    now[JW_UNSIGNED + 1] = now[JW_SIGNED + 1] = width;
}

/* jw_why refuses a record as jw_assemble does, and else has its answer in front. */
static void as_assembled(const char *what, const uint16_t *record, size_t cells, uint16_t address)
{
    uint16_t build[JW_BUILT_CELLS], answer[JW_WHY_CELLS];
    fill(build, JW_BUILT_CELLS);
    fill(answer, JW_WHY_CELLS);
    uint8_t refusal = jw_assemble(record, cells, address, build, JW_BUILT_CELLS);
    uint32_t returned = jw_why(record, cells, address, answer, JW_WHY_CELLS);
    same(what, JW_REFUSAL(returned), refusal);
    same_bytes(what, answer, build, sizeof build);
}

/* A build's bytes, and the zeros and the cells behind them. */
static void built_as(const char *what, const uint16_t *record, uint16_t address, const char *bytes, size_t n)
{
    uint16_t answer[JW_BUILT_CELLS + 2];
    fill(answer, JW_BUILT_CELLS + 2);
    same(what, jw_assemble(record, JW_RECORD_CELLS, address, answer, JW_BUILT_CELLS + 2), JW_ACCEPTED);
    same(what, answer[JW_BUILT_LENGTH], (long)n);
    for (size_t i = 0; i < 5; i++)
        same(what, answer[JW_BUILT_BYTES + i], i < n ? (uint8_t)bytes[i] : 0);
    untouched(what, answer + JW_BUILT_CELLS, 2);
    as_assembled(what, record, JW_RECORD_CELLS, address);
}

static void builds(void)
{
    uint16_t r[JW_RECORD_CELLS], answer[JW_BUILT_CELLS];
    record_of(r, JW_LDA, JW_MODE_OFFSET, JW_X, 0, 8);
    built_as("LDA 0,X", r, 0, "\xA6\x84", 2);
    record_of(r, JW_LDA, JW_MODE_OFFSET, JW_Y, 16, 8);
    built_as("LDA 16,Y", r, 0, "\xA6\xA8\x10", 3);
    record_of(r, JW_LDA, JW_MODE_OFFSET, JW_S, 128, 16);
    built_as("LDA 128,S", r, 0, "\xA6\xE9\x00\x80", 4);
    record_of(r, JW_LDA, JW_MODE_PC_RELATIVE, JW_PC, 0x183, 16);
    built_as("LDA t,PCR", r, 0x100, "\xA6\x8D\x00\x7F", 4);
    record_of(r, JW_BRA, JW_MODE_EXTENDED, -1, 0x182, 16);
    r[JW_WIDENING] = 1;
    built_as("BRA", r, 0x100, "\x16\x00\x7F", 3);
    record_of(r, JW_LDA, JW_MODE_EXTENDED, -1, 0xFF, 16);
    built_as("LDA $FF", r, 0, "\x96\xFF", 2);
    r[JW_RECORD_PRESENT + JW_PAGE] = JW_PAGE_UNKNOWN;
    built_as("LDA $FF under an unknown page", r, 0, "\xB6\x00\xFF", 3);
    same("LDA $FF", jw_assemble(r, JW_RECORD_CELLS, 0, answer, JW_BUILT_CELLS), JW_ACCEPTED);
    same("LDA $FF keeps the page", answer[JW_BUILT_FORGETS_PAGE], 0);
    record_of(r, JW_TFR, JW_MODE_REGISTER, JW_A, 0, 0);
    r[JW_REGISTER_COUNT] = 2;
    r[JW_REGISTERS + 1] = JW_DP;
    built_as("TFR A,DP", r, 0, "\x1F\x8B", 2);
    same("TFR A,DP", jw_assemble(r, JW_RECORD_CELLS, 0, answer, JW_BUILT_CELLS), JW_ACCEPTED);
    same("TFR A,DP forgets the page", answer[JW_BUILT_FORGETS_PAGE], 1);
    r[JW_RECORD_PRESENT + JW_PAGE] = JW_PAGE_UNKNOWN;
    same("TFR A,DP", jw_assemble(r, JW_RECORD_CELLS, 0, answer, JW_BUILT_CELLS), JW_ACCEPTED);
    same("TFR A,DP forgets what is unknown", answer[JW_BUILT_FORGETS_PAGE], 1);
}

static void refused(const char *what, const uint16_t *record, size_t cells, size_t room, int refusal)
{
    uint16_t answer[JW_BUILT_CELLS];
    fill(answer, JW_BUILT_CELLS);
    same(what, jw_assemble(record, cells, 0x100, answer, room), refusal);
    untouched(what, answer, JW_BUILT_CELLS);
    as_assembled(what, record, cells, 0x100);
}

static void refusals(void)
{
    uint16_t r[JW_RECORD_CELLS];
    record_of(r, JW_LDA, JW_MODE_INC_DEC, JW_X, 0, 0);
    r[JW_STEP] = JW_STEP_INC;
    r[JW_INDIRECT] = 1;
    refused("[,X+]", r, JW_RECORD_CELLS, JW_BUILT_CELLS, JW_SINGLE_STEP_INDIRECT);
    r[JW_INDIRECT] = 2;
    refused("a flag of 2", r, JW_RECORD_CELLS, JW_BUILT_CELLS, JW_UNKNOWN);
    r[JW_INDIRECT] = 0;
    refused("a short record", r, JW_RECORD_CELLS - 1, JW_BUILT_CELLS, JW_UNKNOWN);
    refused("a short answer", r, JW_RECORD_CELLS, JW_BUILT_CELLS - 1, JW_NO_ROOM);
    r[JW_OPERATION] = 256 + JW_LDA;
    refused("an operation above 255", r, JW_RECORD_CELLS, JW_BUILT_CELLS, JW_UNKNOWN);
    record_of(r, JW_STA, JW_MODE_IMMEDIATE, -1, 1, 8);
    refused("STA #1", r, JW_RECORD_CELLS, JW_BUILT_CELLS, JW_NO_SUCH_MODE);
    refused("STA #1 before the answer's length", r, JW_RECORD_CELLS, 0, JW_NO_SUCH_MODE);
}

/* A kept instruction: at each build Direct or Extended, as a fresh one is, with the mark of a fresh one; far, near, far is D10. */
static void kept(void)
{
    uint16_t r[JW_RECORD_CELLS], row[JW_KEPT_CELLS], answer[JW_BUILT_CELLS];
    uint16_t *now = r + JW_RECORD_PRESENT;
    const size_t flags[] = {JW_INDIRECT, JW_FORCED, JW_WIDENING, JW_TRIAL, JW_WIDENED};
    record_of(r, JW_LDA, JW_MODE_EXTENDED, -1, 0x20, 16);
    r[JW_REGISTERS] = 255;
    r[JW_REGISTERS + 1] = 256;
    same("make", jw_make(r, JW_RECORD_CELLS, row, JW_KEPT_CELLS), JW_ACCEPTED);
    same("made Direct", row[JW_FORM], JW_FORM_DIRECT);
    same("made on trial", row[JW_TRIAL], 1);
    same("a register beyond the count", row[JW_REGISTERS], 255);
    same("one above 255", row[JW_REGISTERS + 1], 255);
    now[JW_UNSIGNED] = now[JW_SIGNED] = 0x1234;
    same("build", jw_build(row, JW_KEPT_CELLS, now, JW_PRESENT_CELLS, 0, answer, JW_BUILT_CELLS), JW_ACCEPTED);
    same("built Extended", answer[JW_BUILT_BYTES], 0xB6);
    same("the form", answer[JW_BUILT_KEPT + JW_FORM], JW_FORM_EXTENDED);
    same("the mark went", answer[JW_BUILT_KEPT + JW_TRIAL], 0);
    memcpy(row, answer + JW_BUILT_KEPT, sizeof row);
    now[JW_UNSIGNED] = now[JW_SIGNED] = 0x20;
    same("build again", jw_build(row, JW_KEPT_CELLS, now, JW_PRESENT_CELLS, 0, answer, JW_BUILT_CELLS), JW_ACCEPTED);
    same("Direct again", answer[JW_BUILT_BYTES], 0x96);
    same("the mark is back", answer[JW_BUILT_KEPT + JW_TRIAL], 1);
    memcpy(row, answer + JW_BUILT_KEPT, sizeof row);
    now[JW_PAGE] = JW_PAGE_UNKNOWN;
    same("an unknown page", jw_build(row, JW_KEPT_CELLS, now, JW_PRESENT_CELLS, 0, answer, JW_BUILT_CELLS), JW_ACCEPTED);
    same("Extended again (D10)", answer[JW_BUILT_BYTES], 0xB6);
    fill(answer, JW_BUILT_CELLS);
    row[JW_MODE] = JW_MODE_DIRECT;
    row[JW_TRIAL] = 0;
    same("only mode Direct is 7", jw_build(row, JW_KEPT_CELLS, now, JW_PRESENT_CELLS, 0, answer, JW_BUILT_CELLS), JW_DIRECT_NOT_ALLOWED);
    same("a short row", jw_build(row, JW_KEPT_CELLS - 1, now, JW_PRESENT_CELLS, 0, answer, JW_BUILT_CELLS), JW_UNKNOWN);
    same("short values", jw_build(row, JW_KEPT_CELLS, now, JW_PRESENT_CELLS - 1, 0, answer, JW_BUILT_CELLS), JW_UNKNOWN);
    for (size_t i = 0; i < sizeof flags / sizeof *flags; i++) {
        row[flags[i]] += 2;
        same("a flag of 2 or 3", jw_build(row, JW_KEPT_CELLS, now, JW_PRESENT_CELLS, 0, answer, 0), JW_UNKNOWN);
        row[flags[i]] -= 2;
    }
    now[JW_VALUES_GIVEN] = 2;
    same("values given twice", jw_build(row, JW_KEPT_CELLS, now, JW_PRESENT_CELLS, 0, answer, JW_BUILT_CELLS), JW_UNKNOWN);
    now[JW_VALUES_GIVEN] = 1;
    untouched("refused builds", answer, JW_BUILT_CELLS);
    same("a short answer", jw_make(r, JW_RECORD_CELLS, answer, JW_KEPT_CELLS - 1), JW_NO_ROOM);
    untouched("a short answer", answer, JW_BUILT_CELLS);
}

/* LDA of an address under a page: its bytes, or its refusal. */
struct addressed {
    const char *what;
    uint16_t mode, forced, number, width, page;
    uint8_t refusal, length, bytes[3];
};

static const struct addressed ADDRESSED[] = {
    {"$2005 under 20", JW_MODE_EXTENDED, 0, 0x2005, 16, 0x20, JW_ACCEPTED, 2, {0x96, 0x05}},
    {"$2005 under 0", JW_MODE_EXTENDED, 0, 0x2005, 16, 0, JW_ACCEPTED, 3, {0xB6, 0x20, 0x05}},
    {"$2005 under no known page", JW_MODE_EXTENDED, 0, 0x2005, 16, JW_PAGE_UNKNOWN, JW_ACCEPTED, 3, {0xB6, 0x20, 0x05}},
    {"5 under 20", JW_MODE_EXTENDED, 0, 5, 8, 0x20, JW_ACCEPTED, 3, {0xB6, 0x00, 0x05}},
    {"5 under 0", JW_MODE_EXTENDED, 0, 5, 8, 0, JW_ACCEPTED, 2, {0x96, 0x05}},
    {"5 under no known page", JW_MODE_EXTENDED, 0, 5, 8, JW_PAGE_UNKNOWN, JW_ACCEPTED, 3, {0xB6, 0x00, 0x05}},
    {"$FF10 under FF", JW_MODE_EXTENDED, 0, 0xFF10, 16, 0xFF, JW_ACCEPTED, 2, {0x96, 0x10}},
    {">$2005 under 20", JW_MODE_EXTENDED, 1, 0x2005, 16, 0x20, JW_ACCEPTED, 3, {0xB6, 0x20, 0x05}},
    {"<$2005 under 20", JW_MODE_DIRECT, 1, 0x2005, 16, 0x20, JW_ACCEPTED, 2, {0x96, 0x05}},
    {"<$2005 under 0", JW_MODE_DIRECT, 1, 0x2005, 16, 0, JW_DIRECT_NOT_ALLOWED, 0, {0}},
    {"<$2005 under no known page", JW_MODE_DIRECT, 1, 0x2005, 16, JW_PAGE_UNKNOWN, JW_DIRECT_NOT_ALLOWED, 0, {0}},
    {"<5 under 0", JW_MODE_DIRECT, 1, 5, 8, 0, JW_ACCEPTED, 2, {0x96, 0x05}},
    {"<5 under 20", JW_MODE_DIRECT, 1, 5, 8, 0x20, JW_DIRECT_NOT_ALLOWED, 0, {0}},
    {"<5 under no known page", JW_MODE_DIRECT, 1, 5, 8, JW_PAGE_UNKNOWN, JW_DIRECT_NOT_ALLOWED, 0, {0}},
    {"<5, wide, under 0", JW_MODE_DIRECT, 1, 5, 16, 0, JW_BAD_WIDTH, 0, {0}},
    {"<5, wide, under 20", JW_MODE_DIRECT, 1, 5, 16, 0x20, JW_DIRECT_NOT_ALLOWED, 0, {0}},
    {"<5, wide, under no known page", JW_MODE_DIRECT, 1, 5, 16, JW_PAGE_UNKNOWN, JW_DIRECT_NOT_ALLOWED, 0, {0}},
    {"5, wide, unforced and Direct, under 0", JW_MODE_DIRECT, 0, 5, 16, 0, JW_ACCEPTED, 2, {0x96, 0x05}},
};

static void built_under_pages(void)
{
    uint16_t r[JW_RECORD_CELLS];
    for (size_t i = 0; i < sizeof ADDRESSED / sizeof *ADDRESSED; i++) {
        const struct addressed *a = ADDRESSED + i;
        record_of(r, JW_LDA, a->mode, -1, a->number, a->width);
        r[JW_FORCED] = a->forced;
        r[JW_RECORD_PRESENT + JW_PAGE] = a->page;
        if (a->refusal == JW_ACCEPTED)
            built_as(a->what, r, 0, (const char *)a->bytes, a->length);
        else
            refused(a->what, r, JW_RECORD_CELLS, JW_BUILT_CELLS, a->refusal);
    }
}

/* A kept instruction takes the page anew at each build: LDA $2005 is Direct, with the mark of it, where the page is 20. */
static void kept_under_pages(void)
{
    const uint16_t pages[] = {JW_PAGE_UNKNOWN, 0x20, 0, 0x20, 0x21};
    uint16_t r[JW_RECORD_CELLS], answer[JW_BUILT_CELLS];
    uint16_t *kept = answer + JW_BUILT_KEPT, row[JW_KEPT_CELLS];
    record_of(r, JW_LDA, JW_MODE_EXTENDED, -1, 0x2005, 16);
    same("make", jw_make(r, JW_RECORD_CELLS, row, JW_KEPT_CELLS), JW_ACCEPTED);
    for (size_t i = 0; i < sizeof pages / sizeof *pages; i++) {
        int near = pages[i] == 0x20;
        r[JW_RECORD_PRESENT + JW_PAGE] = pages[i];
        same("build", jw_build(row, JW_KEPT_CELLS, r + JW_RECORD_PRESENT, JW_PRESENT_CELLS, 0, answer, JW_BUILT_CELLS), JW_ACCEPTED);
        same("by its page", answer[JW_BUILT_BYTES], near ? 0x96 : 0xB6);
        same("the form", kept[JW_FORM], near ? JW_FORM_DIRECT : JW_FORM_EXTENDED);
        same("the mark", kept[JW_TRIAL], near);
        memcpy(row, kept, sizeof row);
    }
}

enum { REASON_CELLS = JW_WHY_CELLS - JW_BUILT_CELLS };

/* An accepted record: its length, and the reason behind its build. What lies beyond is not changed, and one cell too few is 9 beside no field. */
static void explained(const char *what, const uint16_t *record, uint16_t address, uint16_t length, const uint16_t *reason)
{
    uint16_t answer[JW_WHY_CELLS + 1];
    as_assembled(what, record, JW_RECORD_CELLS, address);
    fill(answer, JW_WHY_CELLS + 1);
    same(what, jw_why(record, JW_RECORD_CELLS, address, answer, JW_WHY_CELLS - 1), JW_NO_ROOM);
    untouched(what, answer, JW_WHY_CELLS + 1);
    same(what, jw_why(record, JW_RECORD_CELLS, address, answer, JW_WHY_CELLS + 1), JW_ACCEPTED);
    same(what, answer[JW_BUILT_LENGTH], length);
    same_bytes(what, answer + JW_WHY_KIND, reason, REASON_CELLS * sizeof *reason);
    untouched(what, answer + JW_WHY_CELLS, 1);
}

/* The facts of an address, each alone and together; under an unknown page there is no page to differ from. */
static const struct {
    const char *what;
    uint16_t operation, forced, number, width, page, length, facts[3];
} EXTENDED[] = {
    {"LDA 5", JW_LDA, 0, 5, 8, 0, 2, {0, 0, 0}},
    {"LDA $2005 under 20", JW_LDA, 0, 0x2005, 16, 0x20, 2, {0, 0, 0}},
    {"LDY $20FF under 20", JW_LDY, 0, 0x20FF, 16, 0x20, 3, {0, 0, 0}},
    {"LDA >5", JW_LDA, 1, 5, 8, 0, 3, {1, 0, 0}},
    {"LDA 5 under no known page", JW_LDA, 0, 5, 8, JW_PAGE_UNKNOWN, 3, {0, 1, 0}},
    {"LDA $100 under no known page", JW_LDA, 0, 0x100, 16, JW_PAGE_UNKNOWN, 3, {0, 1, 0}},
    {"LDA $FF, wide", JW_LDA, 0, 0xFF, 16, 0, 2, {0, 0, 0}},
    {"LDA $100", JW_LDA, 0, 0x100, 16, 0, 3, {0, 0, 1}},
    {"LDA 5 under 20", JW_LDA, 0, 5, 8, 0x20, 3, {0, 0, 1}},
    {"LDY $2100 under 20", JW_LDY, 0, 0x2100, 16, 0x20, 4, {0, 0, 1}},
    {"LDA >5 under no known page", JW_LDA, 1, 5, 8, JW_PAGE_UNKNOWN, 3, {1, 1, 0}},
    {"LDA >$2005", JW_LDA, 1, 0x2005, 16, 0, 3, {1, 0, 1}},
};

/* Distances from 0x100: a branch's from the end of the record's own operation, that of a PC form from the end of its one-byte one. */
static const struct {
    const char *what;
    uint16_t operation, mode, indirect, target, length, distance, near;
} DISTANT[] = {
    {"BRA, 127", JW_BRA, JW_MODE_EXTENDED, 0, 0x181, 2, 127, 1},
    {"BRA, 128", JW_BRA, JW_MODE_EXTENDED, 0, 0x182, 3, 128, 0},
    {"BRA, -128", JW_BRA, JW_MODE_EXTENDED, 0, 0x82, 2, (uint16_t)-128, 1},
    {"BRA, -129", JW_BRA, JW_MODE_EXTENDED, 0, 0x81, 3, (uint16_t)-129, 0},
    {"BNE, 127", JW_BNE, JW_MODE_EXTENDED, 0, 0x181, 2, 127, 1},
    {"BNE, 128", JW_BNE, JW_MODE_EXTENDED, 0, 0x182, 4, 128, 0},
    {"BRA, -32768", JW_BRA, JW_MODE_EXTENDED, 0, 0x8102, 3, 0x8000, 0},
    {"LBRA, 0", JW_LBRA, JW_MODE_EXTENDED, 0, 0x103, 3, 0, 1},
    {"LBRA, 128", JW_LBRA, JW_MODE_EXTENDED, 0, 0x183, 3, 128, 0},
    {"LBNE, 127", JW_LBNE, JW_MODE_EXTENDED, 0, 0x183, 4, 127, 1},
    {"LBNE, 128", JW_LBNE, JW_MODE_EXTENDED, 0, 0x184, 4, 128, 0},
    {"LBNE, -128", JW_LBNE, JW_MODE_EXTENDED, 0, 0x84, 4, (uint16_t)-128, 1},
    {"LDA, 127 on PC", JW_LDA, JW_MODE_PC_RELATIVE, 0, 0x182, 3, 127, 1},
    {"LDA, 128 on PC", JW_LDA, JW_MODE_PC_RELATIVE, 0, 0x183, 4, 128, 0},
    {"LDA, -128 on PC", JW_LDA, JW_MODE_PC_RELATIVE, 0, 0x83, 3, (uint16_t)-128, 1},
    {"LDA, -129 on PC", JW_LDA, JW_MODE_PC_RELATIVE, 0, 0x82, 4, (uint16_t)-129, 0},
    {"LDY, 127 on PC", JW_LDY, JW_MODE_PC_RELATIVE, 0, 0x183, 4, 127, 1},
    {"LDY, 128 on PC", JW_LDY, JW_MODE_PC_RELATIVE, 0, 0x184, 5, 128, 0},
    {"LDA, 127 on PC, indirect", JW_LDA, JW_MODE_PC_RELATIVE, 1, 0x182, 3, 127, 1},
    {"LDA, 128 on PC, indirect", JW_LDA, JW_MODE_PC_RELATIVE, 1, 0x183, 4, 128, 0},
};

/* Offsets of LDA: the number is sign-extended; width 0 is no value. */
static const struct {
    const char *what;
    uint16_t indirect, reg, number, width, length, offset, bits;
} OFFSETS[] = {
    {",X", 0, JW_X, 0, 0, 2, 0, 0},
    {"0,X", 0, JW_X, 0, 8, 2, 0, 0},
    {"0,S, wide", 0, JW_S, 0, 16, 2, 0, 0},
    {"[0,U]", 1, JW_U, 0, 8, 2, 0, 0},
    {"15,X", 0, JW_X, 15, 8, 2, 15, 5},
    {"16,Y", 0, JW_Y, 16, 8, 3, 16, 8},
    {"-16,U", 0, JW_U, 0xF0, 8, 2, (uint16_t)-16, 5},
    {"-17,S", 0, JW_S, 0xEF, 8, 3, (uint16_t)-17, 8},
    {"-16,X, wide", 0, JW_X, (uint16_t)-16, 16, 2, (uint16_t)-16, 5},
    {"-17,X, wide", 0, JW_X, (uint16_t)-17, 16, 4, (uint16_t)-17, 16},
    {"16,X, wide", 0, JW_X, 16, 16, 4, 16, 16},
    {"128,X", 0, JW_X, 128, 16, 4, 128, 16},
    {"[5,X]", 1, JW_X, 5, 8, 3, 5, 8},
    {"[5,X], wide", 1, JW_X, 5, 16, 4, 5, 16},
    {",PC", 0, JW_PC, 0, 0, 3, 0, 8},
    {"0,PC", 0, JW_PC, 0, 8, 3, 0, 8},
    {"0,PC, wide", 0, JW_PC, 0, 16, 4, 0, 16},
    {"[5,PC]", 1, JW_PC, 5, 8, 3, 5, 8},
};

static void reasons(void)
{
    uint16_t r[JW_RECORD_CELLS];
    for (size_t i = 0; i < sizeof EXTENDED / sizeof *EXTENDED; i++) {
        const uint16_t *facts = EXTENDED[i].facts;
        record_of(r, EXTENDED[i].operation, JW_MODE_EXTENDED, -1, EXTENDED[i].number, EXTENDED[i].width);
        r[JW_FORCED] = EXTENDED[i].forced;
        r[JW_RECORD_PRESENT + JW_PAGE] = EXTENDED[i].page;
        explained(EXTENDED[i].what, r, 0x100, EXTENDED[i].length, (const uint16_t[]){JW_REASON_ADDRESS, facts[0], facts[1], facts[2], 0, 0, 0});
    }
    for (size_t i = 0; i < sizeof DISTANT / sizeof *DISTANT; i++) {
        int counted = DISTANT[i].mode == JW_MODE_PC_RELATIVE;
        record_of(r, DISTANT[i].operation, DISTANT[i].mode, counted ? JW_PC : -1, DISTANT[i].target, 16);
        r[JW_INDIRECT] = DISTANT[i].indirect;
        r[JW_WIDENING] = 1;
        uint16_t kind = counted ? JW_REASON_PC_RELATIVE : JW_REASON_BRANCH;
        explained(DISTANT[i].what, r, 0x100, DISTANT[i].length, (const uint16_t[]){kind, 0, 0, 0, DISTANT[i].distance, DISTANT[i].near, 0});
    }
    for (size_t i = 0; i < sizeof OFFSETS / sizeof *OFFSETS; i++) {
        record_of(r, JW_LDA, JW_MODE_OFFSET, OFFSETS[i].reg, OFFSETS[i].number, OFFSETS[i].width);
        r[JW_INDIRECT] = OFFSETS[i].indirect;
        explained(OFFSETS[i].what, r, 0x100, OFFSETS[i].length, (const uint16_t[]){JW_REASON_OFFSET, 0, 0, 0, OFFSETS[i].offset, 0, OFFSETS[i].bits});
    }
    record_of(r, JW_BRA, JW_MODE_EXTENDED, -1, 0, 16);
    explained("BRA 0 at FFFE", r, 0xFFFE, 2, (const uint16_t[]){JW_REASON_BRANCH, 0, 0, 0, 0, 1, 0});
}

/* Where nothing was to be decided. */
static void plain_reasons(void)
{
    const uint16_t plain[REASON_CELLS] = {JW_REASON_PLAIN};
    uint16_t r[JW_RECORD_CELLS];
    record_of(r, JW_NOP, JW_MODE_INHERENT, -1, 0, 0);
    explained("NOP", r, 0x100, 1, plain);
    record_of(r, JW_LDA, JW_MODE_IMMEDIATE, -1, 5, 8);
    explained("LDA #5", r, 0x100, 2, plain);
    record_of(r, JW_PSHS, JW_MODE_REGISTER, JW_A, 0, 0);
    explained("PSHS A", r, 0x100, 2, plain);
    record_of(r, JW_LDA, JW_MODE_REGISTER, JW_B, 0, 0);
    r[JW_REGISTER_COUNT] = 2;
    r[JW_REGISTERS + 1] = JW_X;
    explained("LDA B,X", r, 0x100, 2, plain);
    record_of(r, JW_LDA, JW_MODE_INC_DEC, JW_X, 0, 0);
    r[JW_STEP] = JW_STEP_INC;
    explained("LDA ,X+", r, 0x100, 2, plain);
    record_of(r, JW_LDA, JW_MODE_EXTENDED, -1, 0x1234, 16);
    r[JW_INDIRECT] = 1;
    explained("LDA [$1234]", r, 0x100, 4, plain);
    r[JW_FORCED] = 1;
    explained("LDA [>$1234]", r, 0x100, 4, plain);
    record_of(r, JW_LDA, JW_MODE_DIRECT, -1, 5, 8);
    r[JW_FORCED] = 1;
    explained("LDA <5", r, 0x100, 2, plain);
}

/* A refused record: the field stands above the refusal, whatever cells the answer has, and nothing is written. */
static void blamed(const char *what, const uint16_t *record, size_t cells, uint32_t refusal, uint32_t field)
{
    uint16_t answer[JW_WHY_CELLS];
    as_assembled(what, record, cells, 0x100);
    fill(answer, JW_WHY_CELLS);
    uint32_t returned = jw_why(record, cells, 0x100, answer, JW_WHY_CELLS);
    same(what, JW_REFUSAL(returned), refusal);
    same(what, JW_FIELD(returned), field);
    same(what, jw_why(record, cells, 0x100, answer, 0), returned);
    untouched(what, answer, JW_WHY_CELLS);
}

/* What makes LDA ,X+ with the value 5 a 1, in the order of the record. */
static const struct {
    const char *what;
    uint16_t place, wrong, field;
} WRONG[] = {
    {"operation 1", JW_OPERATION, 1, JW_FIELD_OPERATION},
    {"an operation above 255", JW_OPERATION, 256 + JW_LDA, JW_FIELD_OPERATION},
    {"mode 8", JW_MODE, 8, JW_FIELD_MODE},
    {"indirect 2", JW_INDIRECT, 2, JW_FIELD_INDIRECT},
    {"forced 2", JW_FORCED, 2, JW_FIELD_FORCED},
    {"step 5", JW_STEP, 5, JW_FIELD_STEP},
    {"no step", JW_STEP, JW_STEP_NONE, JW_FIELD_STEP},
    {"widening 2", JW_WIDENING, 2, JW_FIELD_WIDENING},
    {"nine registers", JW_REGISTER_COUNT, 9, JW_FIELD_REGISTERS},
    {"register 10", JW_REGISTERS, 10, JW_FIELD_REGISTERS},
    {"page 257", JW_RECORD_PRESENT + JW_PAGE, JW_PAGE_UNKNOWN + 1, JW_FIELD_PAGE},
    {"values given twice", JW_RECORD_PRESENT + JW_VALUES_GIVEN, 2, JW_FIELD_VALUES},
    {"a number beyond its width", JW_RECORD_PRESENT + JW_UNSIGNED, 256, JW_FIELD_VALUES},
    {"width 7", JW_RECORD_PRESENT + JW_UNSIGNED + 1, 7, JW_FIELD_VALUES},
    {"two numbers", JW_RECORD_PRESENT + JW_SIGNED, 6, JW_FIELD_VALUES},
};

/* Of two that are wrong the first is told. */
static void wrong_fields(void)
{
    uint16_t right[JW_RECORD_CELLS], r[JW_RECORD_CELLS];
    record_of(right, JW_LDA, JW_MODE_INC_DEC, JW_X, 5, 8);
    right[JW_STEP] = JW_STEP_INC;
    explained("LDA ,X+", right, 0x100, 2, (const uint16_t[REASON_CELLS]){JW_REASON_PLAIN});
    blamed("a short record", right, JW_RECORD_CELLS - 1, JW_UNKNOWN, JW_FIELD_NONE);
    blamed("no record", right, 0, JW_UNKNOWN, JW_FIELD_NONE);
    for (size_t i = 0; i < sizeof WRONG / sizeof *WRONG; i++) {
        for (size_t j = i; j < sizeof WRONG / sizeof *WRONG; j++) {
            memcpy(r, right, sizeof r);
            r[WRONG[i].place] = WRONG[i].wrong;
            r[WRONG[j].place] = WRONG[j].wrong;
            blamed(WRONG[i].what, r, JW_RECORD_CELLS, JW_UNKNOWN, WRONG[i].field);
        }
        blamed("a short record", r, JW_RECORD_CELLS - 1, JW_UNKNOWN, JW_FIELD_NONE);
    }
}

static void blamed_fields(void)
{
    uint16_t r[JW_RECORD_CELLS];
    record_of(r, JW_STA, JW_MODE_IMMEDIATE, -1, 1, 8);
    blamed("STA #1", r, JW_RECORD_CELLS, JW_NO_SUCH_MODE, JW_FIELD_MODE);
    record_of(r, JW_BRA, JW_MODE_EXTENDED, -1, 0x100, 16);
    r[JW_INDIRECT] = 1;
    blamed("BRA [$100]", r, JW_RECORD_CELLS, JW_NO_SUCH_MODE, JW_FIELD_MODE);
    record_of(r, JW_LDA, JW_MODE_EXTENDED, -1, 0, 0);
    blamed("LDA of nothing", r, JW_RECORD_CELLS, JW_VALUE_MISSING, JW_FIELD_VALUES);
    record_of(r, JW_PSHS, JW_MODE_REGISTER, JW_S, 0, 0);
    blamed("PSHS S", r, JW_RECORD_CELLS, JW_BAD_REGISTER, JW_FIELD_REGISTERS);
    record_of(r, JW_LDA, JW_MODE_OFFSET, JW_A, 5, 8);
    blamed("LDA 5,A", r, JW_RECORD_CELLS, JW_BAD_REGISTER, JW_FIELD_REGISTERS);
    record_of(r, JW_LDA, JW_MODE_INC_DEC, JW_X, 0, 0);
    r[JW_STEP] = JW_STEP_DEC;
    r[JW_INDIRECT] = 1;
    blamed("LDA [,-X]", r, JW_RECORD_CELLS, JW_SINGLE_STEP_INDIRECT, JW_FIELD_INDIRECT);
    record_of(r, JW_LDA, JW_MODE_IMMEDIATE, -1, 256, 16);
    blamed("LDA #256", r, JW_RECORD_CELLS, JW_BAD_WIDTH, JW_FIELD_VALUES);
    record_of(r, JW_NOP, JW_MODE_INHERENT, -1, 1, 8);
    blamed("NOP 1", r, JW_RECORD_CELLS, JW_BAD_WIDTH, JW_FIELD_VALUES);
    record_of(r, JW_LDA, JW_MODE_DIRECT, -1, 5, 16);
    r[JW_FORCED] = 1;
    blamed("LDA <5, wide", r, JW_RECORD_CELLS, JW_BAD_WIDTH, JW_FIELD_VALUES);
    r[JW_RECORD_PRESENT + JW_PAGE] = 0x20;
    blamed("LDA <5 under 20", r, JW_RECORD_CELLS, JW_DIRECT_NOT_ALLOWED, JW_FIELD_VALUES);
    r[JW_RECORD_PRESENT + JW_PAGE] = JW_PAGE_UNKNOWN;
    blamed("LDA <5 under no known page", r, JW_RECORD_CELLS, JW_DIRECT_NOT_ALLOWED, JW_FIELD_PAGE);
    record_of(r, JW_BRA, JW_MODE_EXTENDED, -1, 0x182, 16);
    blamed("BRA, 128", r, JW_RECORD_CELLS, JW_BRANCH_TOO_FAR, JW_FIELD_WIDENING);
}

/* A number that is no page is 1 before all else: before the 2 of STA #1, the 18 of bytes beyond 65535 and the 9 of no cells; nothing is changed. */
static void no_page(uint16_t number)
{
    const uint8_t bytes[] = {0x96, 0x05};
    uint16_t r[JW_RECORD_CELLS], row[JW_KEPT_CELLS], answer[JW_BUILT_CELLS];
    uint16_t *page = r + JW_RECORD_PRESENT + JW_PAGE;
    uint8_t out[4] = {0x55, 0x55, 0x55, 0x55};
    record_of(r, JW_LDA, JW_MODE_EXTENDED, -1, 5, 8);
    same("make", jw_make(r, JW_RECORD_CELLS, row, JW_KEPT_CELLS), JW_ACCEPTED);
    fill(answer, JW_BUILT_CELLS);
    *page = number;
    same("no page: build", jw_build(row, JW_KEPT_CELLS, r + JW_RECORD_PRESENT, JW_PRESENT_CELLS, 0, answer, JW_BUILT_CELLS), JW_UNKNOWN);
    same("no page: lay", jw_lay(r, JW_RECORD_CELLS, 0, out, sizeof out, answer, JW_SIZE_CELLS), JW_UNKNOWN);
    same("no page: make", jw_make(r, JW_RECORD_CELLS, answer, JW_KEPT_CELLS), JW_UNKNOWN);
    refused("no page: assemble", r, JW_RECORD_CELLS, JW_BUILT_CELLS, JW_UNKNOWN);
    record_of(r, JW_STA, JW_MODE_IMMEDIATE, -1, 1, 8);
    *page = number;
    refused("no page, no such mode, no cells", r, JW_RECORD_CELLS, 0, JW_UNKNOWN);
    same("no page: decode", jw_decode(bytes, 2, 0x100, number, answer, JW_READ_CELLS), JW_UNKNOWN);
    same("no page: next", jw_next(bytes, 2, 0x100, number, 0, answer, JW_READ_CELLS), JW_UNKNOWN);
    same("no page: count", jw_count(bytes, 2, 0x100, number, answer, JW_SIZE_CELLS), JW_UNKNOWN);
    same("no page, beyond, no cells: decode", jw_decode(bytes, 2, 0xFFFF, number, answer, 0), JW_UNKNOWN);
    same("no page, beyond, no cells: next", jw_next(bytes, 2, 0xFFFF, number, 2, answer, 0), JW_UNKNOWN);
    same("no page, beyond, no cells: count", jw_count(bytes, 2, 0xFFFF, number, answer, 0), JW_UNKNOWN);
    same("no page, nothing to count", jw_count(bytes, 0, 0, number, answer, JW_SIZE_CELLS), JW_UNKNOWN);
    untouched("no page", answer, JW_BUILT_CELLS);
    same_bytes("nothing was laid", out, "\x55\x55\x55\x55", 4);
}

/* Two records end to end: LDA 0,X and BRA to the first. */
static void laying(void)
{
    uint16_t list[2 * JW_RECORD_CELLS], answer[JW_SIZE_CELLS];
    uint8_t out[8];
    memset(out, 0x55, sizeof out);
    record_of(list, JW_LDA, JW_MODE_OFFSET, JW_X, 0, 8);
    record_of(list + JW_RECORD_CELLS, JW_BRA, JW_MODE_EXTENDED, -1, 0x100, 16);
    same("lay", jw_lay(list, 2 * JW_RECORD_CELLS, 0x100, out, sizeof out, answer, JW_SIZE_CELLS), JW_ACCEPTED);
    same("four bytes", (long)jw_size(answer), 4);
    same_bytes("laid", out, "\xA6\x84\x20\xFC\x55\x55\x55\x55", 8);
    memset(out, 0x55, sizeof out);
    fill(answer, JW_SIZE_CELLS);
    same("too far", jw_lay(list, 2 * JW_RECORD_CELLS, 0x200, out, sizeof out, answer, JW_SIZE_CELLS), JW_BRANCH_TOO_FAR);
    same("too far before no cells", jw_lay(list, 2 * JW_RECORD_CELLS, 0x200, out, sizeof out, answer, 0), JW_BRANCH_TOO_FAR);
    same("no room", jw_lay(list, 2 * JW_RECORD_CELLS, 0x100, out, 3, answer, JW_SIZE_CELLS), JW_NO_ROOM);
    same("no cells", jw_lay(list, 2 * JW_RECORD_CELLS, 0x100, out, sizeof out, answer, JW_SIZE_CELLS - 1), JW_NO_ROOM);
    same("beyond", jw_lay(list, JW_RECORD_CELLS, 0xFFFF, out, sizeof out, answer, JW_SIZE_CELLS), JW_BEYOND);
    same_bytes("nothing was laid", out, "\x55\x55\x55\x55\x55\x55\x55\x55", 8);
    untouched("refused lists", answer, JW_SIZE_CELLS);
}

/* Each record of a list has a page of its own. */
static void laid_under_pages(void)
{
    uint16_t list[2 * JW_RECORD_CELLS], answer[JW_SIZE_CELLS];
    uint8_t out[5];
    record_of(list, JW_LDA, JW_MODE_EXTENDED, -1, 0x2005, 16);
    list[JW_RECORD_PRESENT + JW_PAGE] = 0x20;
    record_of(list + JW_RECORD_CELLS, JW_LDA, JW_MODE_EXTENDED, -1, 0x2005, 16);
    same("lay under two pages", jw_lay(list, 2 * JW_RECORD_CELLS, 0, out, sizeof out, answer, JW_SIZE_CELLS), JW_ACCEPTED);
    same("five bytes", (long)jw_size(answer), 5);
    same_bytes("laid under two pages", out, "\x96\x05\xB6\x20\x05", 5);
}

static void decoding(void)
{
    const uint8_t bytes[] = {0xA6, 0x84, 0x39, 0x34, 0x86};
    uint16_t answer[JW_READ_CELLS];
    same("decode", jw_decode(bytes, 5, 0x100, 0, answer, JW_READ_CELLS), JW_ACCEPTED);
    const uint16_t lda[] = {2, JW_LDA, JW_KIND_OFFSET, 0, 0, 0, JW_X, 0, 0};
    same_bytes("LDA 0,X", answer, lda, sizeof lda);
    same("next", jw_next(bytes, 5, 0x100, 0, 3, answer, JW_READ_CELLS), JW_ACCEPTED);
    const uint16_t pshs[] = {2, JW_PSHS, JW_KIND_PUSH, 0, 0, 1 << JW_A | 1 << JW_B | 1 << JW_PC, 0, 0, 0};
    same_bytes("PSHS PC,B,A", answer, pshs, sizeof pshs);
    same("count", jw_count(bytes, 5, 0x100, 0, answer, JW_SIZE_CELLS), JW_ACCEPTED);
    same("three", (long)jw_size(answer), 3);
    fill(answer, JW_READ_CELLS);
    same("cut short", jw_decode(bytes, 1, 0x100, 0, answer, JW_READ_CELLS), JW_CUT_SHORT);
    same("at the end", jw_next(bytes, 5, 0x100, 0, 5, answer, JW_READ_CELLS), JW_CUT_SHORT);
    same("undefined", jw_decode((const uint8_t *)"\x01", 1, 0, 0, answer, JW_READ_CELLS), JW_UNDEFINED);
    same("beyond", jw_count(bytes, 5, 0xFFFC, 0, answer, JW_SIZE_CELLS), JW_BEYOND);
    same("no room", jw_count(bytes, 5, 0x100, 0, answer, JW_SIZE_CELLS - 1), JW_NO_ROOM);
    untouched("refused reads", answer, JW_READ_CELLS);
}

static void read_memory(const char *what, const uint8_t *bytes, uint16_t length, uint16_t page, uint16_t operation, uint16_t address)
{
    uint16_t answer[JW_READ_CELLS];
    same(what, jw_decode(bytes, length, 0x100, page, answer, JW_READ_CELLS), JW_ACCEPTED);
    same_bytes(what, answer, (const uint16_t[]){length, operation, JW_KIND_MEMORY, 0, 0, 0, 0, 0, address}, sizeof answer);
}

/* A direct code reaches into the page that it is read under, and is undefined, as soon as it is there, where that is unknown. */
static void read_under_pages(void)
{
    const uint8_t direct[] = {0x96, 0x05}, prefixed[] = {0x10, 0x9E, 0x05}, extended[] = {0xB6, 0x20, 0x05}, run[] = {0x1F, 0x8B, 0x96, 0x05};
    const uint16_t unknown = JW_PAGE_UNKNOWN;
    uint16_t answer[JW_READ_CELLS];
    read_memory("96 05 under 0", direct, 2, 0, JW_LDA, 0x0005);
    read_memory("96 05 under 20", direct, 2, 0x20, JW_LDA, 0x2005);
    read_memory("96 05 under FF", direct, 2, 0xFF, JW_LDA, 0xFF05);
    read_memory("10 9E 05 under 20", prefixed, 3, 0x20, JW_LDY, 0x2005);
    read_memory("B6 20 05 under 0", extended, 3, 0, JW_LDA, 0x2005);
    read_memory("B6 20 05 under no known page", extended, 3, unknown, JW_LDA, 0x2005);
    same("behind TFR A,DP", jw_next(run, 4, 0x100, 0x20, 2, answer, JW_READ_CELLS), JW_ACCEPTED);
    same("in the same page", answer[JW_READ_NUMBER], 0x2005);
    same("TFR A,DP and LDA", jw_count(run, 4, 0x100, 0x20, answer, JW_SIZE_CELLS), JW_ACCEPTED);
    same("two", (long)jw_size(answer), 2);
    fill(answer, JW_READ_CELLS);
    same("96 05 under no known page", jw_decode(direct, 2, 0x100, unknown, answer, JW_READ_CELLS), JW_UNDEFINED);
    same("96 under no known page", jw_decode(direct, 1, 0x100, unknown, answer, JW_READ_CELLS), JW_UNDEFINED);
    same("96 under 0", jw_decode(direct, 1, 0x100, 0, answer, JW_READ_CELLS), JW_CUT_SHORT);
    same("10 9E under no known page", jw_decode(prefixed, 2, 0x100, unknown, answer, JW_READ_CELLS), JW_UNDEFINED);
    same("10 under no known page", jw_decode(prefixed, 1, 0x100, unknown, answer, JW_READ_CELLS), JW_CUT_SHORT);
    same("the place of 96 05 under no known page", jw_next(run, 4, 0x100, unknown, 2, answer, JW_READ_CELLS), JW_UNDEFINED);
    same("a run with 96 05 under no known page", jw_count(run, 4, 0x100, unknown, answer, JW_SIZE_CELLS), JW_UNDEFINED);
    same("beyond before undefined", jw_decode(direct, 2, 0xFFFF, unknown, answer, JW_READ_CELLS), JW_BEYOND);
    untouched("refused reads", answer, JW_READ_CELLS);
}

/* The sheet leaves two bits of a PC postbyte open: all four settings are read as the same form. Those of 9F are not open. */
static void open_bits(void)
{
    uint16_t answer[JW_READ_CELLS];
    for (uint8_t xx = 0; xx < 0x80; xx += 0x20) {
        const uint8_t near[] = {0xA6, 0x8C | xx, 0x7F}, far[] = {0xA6, 0x9D | xx, 0xFF, 0x00};
        same("near", jw_decode(near, sizeof near, 0x100, 0, answer, JW_READ_CELLS), JW_ACCEPTED);
        same_bytes("LDA $182,PCR", answer, (const uint16_t[]){3, JW_LDA, JW_KIND_PC, 0, 0, 0, 0, 0, 0x182}, sizeof answer);
        same("far", jw_decode(far, sizeof far, 0x100, 0, answer, JW_READ_CELLS), JW_ACCEPTED);
        same_bytes("LDA [$4,PCR]", answer, (const uint16_t[]){4, JW_LDA, JW_KIND_PC, 1, 0, 0, 0, 0, 0x4}, sizeof answer);
        const uint8_t address[] = {0xA6, 0x9F | xx, 0x12, 0x34};
        same("9F alone", jw_decode(address, sizeof address, 0x100, 0, answer, JW_READ_CELLS), xx == 0 ? JW_ACCEPTED : JW_UNDEFINED);
    }
}

static void evaluating(void)
{
    /* 0: the constant -1; 1: label 0; 2: node 0 + node 1 */
    const uint16_t nodes[] = {0, 0xFFFF, 0, 1, 0, 0, 4, 0, 1};
    /* label 0 is an address, 0x1000; label 1 is node 0 */
    uint16_t labels[] = {1, 0x1000, 0, 2, 0x2000, 0};
    uint16_t answer[JW_NODE_CELLS];
    same("node", jw_node(nodes, 9, labels, 6, 2, 0, answer, JW_NODE_CELLS), JW_ACCEPTED);
    const uint16_t sum[] = {0x0FFF, 16, 0x0FFF, 16};
    same_bytes("0x1000 - 1", answer, sum, sizeof sum);
    same("label", jw_label(nodes, 9, labels, 6, 1, answer, JW_LABEL_CELLS), JW_ACCEPTED);
    const uint16_t stored[] = {0xFF, 8};
    same_bytes("-1 as stored", answer, stored, sizeof stored);
    fill(answer, JW_NODE_CELLS);
    same("no such node", jw_node(nodes, 9, labels, 6, 3, 0, answer, JW_NODE_CELLS), JW_TOO_DEEP);
    same("no such label", jw_label(nodes, 9, labels, 6, 2, answer, JW_LABEL_CELLS), JW_BAD_LABEL);
    same("no room", jw_label(nodes, 9, labels, 6, 1, answer, 1), JW_NO_ROOM);
    untouched("refused values", answer, JW_NODE_CELLS);
    jw_move_labels(labels, 6, 0x1000, 0x1000, 0xFFFF);
    same("moved", labels[1], 0x0FFF);
    same("outside the range", labels[4], 0x2000);
}

static void segments(void)
{
    uint16_t table[JW_SEGMENTS_CELLS] = {0}, answer[JW_SEGMENT_CELLS];
    same("add", jw_add_segment(table, JW_SEGMENTS_CELLS, 0x4000), JW_ACCEPTED);
    same("add below", jw_add_segment(table, JW_SEGMENTS_CELLS, 0x1000), JW_ACCEPTED);
    same("0 is free", jw_add_segment(table, JW_SEGMENTS_CELLS, 0), JW_ACCEPTED);
    const uint16_t two[] = {2, 0x1000, 0x4000};
    same_bytes("two starts", table, two, sizeof two);
    same("repeated", jw_add_segment(table, JW_SEGMENTS_CELLS, 0x4000), JW_SEGMENT_REPEATED);
    same("a full table", jw_add_segment(table, 3, 0x5000), JW_NO_ROOM);
    same("no table", jw_add_segment(table, 0, 0x5000), JW_UNKNOWN);
    same_bytes("two starts still", table, two, sizeof two);
    same("segment", jw_segment_of(table, JW_SEGMENTS_CELLS, 0x1234, answer, JW_SEGMENT_CELLS), JW_ACCEPTED);
    same("from", answer[0], 0x1000);
    same("to", answer[1], 0x3FFF);
    for (uint16_t start = 1; table[0] < 63; start++)
        same("up to 64", jw_add_segment(table, JW_SEGMENTS_CELLS, start), JW_ACCEPTED);
    same("a 65th", jw_add_segment(table, JW_SEGMENTS_CELLS, 0x5000), JW_OVER_LIMIT);
    fill(answer, JW_SEGMENT_CELLS);
    same("no table", jw_segment_of(table, 0, 0, answer, JW_SEGMENT_CELLS), JW_UNKNOWN);
    same("no room", jw_segment_of(table, JW_SEGMENTS_CELLS, 0, answer, 1), JW_NO_ROOM);
    untouched("refused segments", answer, JW_SEGMENT_CELLS);
    /* A count beyond the table: the starts are the whole table, and 17 goes by the count. */
    uint16_t many[] = {100, 5}, some[] = {50, 5};
    same("100 starts counted", jw_add_segment(many, 2, 7), JW_OVER_LIMIT);
    same("50 starts counted", jw_add_segment(some, 2, 7), JW_NO_ROOM);
    same("the one that is there", jw_add_segment(many, 2, 5), JW_SEGMENT_REPEATED);
    same("its segment", jw_segment_of(many, 2, 7, answer, JW_SEGMENT_CELLS), JW_ACCEPTED);
    same("from 5", answer[0], 5);
    same("to the end", answer[1], 0xFFFF);
}

static void texts(void)
{
    static const char wanted[] = ":03010000A6843999\n:00000001FF\n";
    const uint16_t objects[] = {1, 0x100, 2}, values[] = {0xA684, 16, 0x39, 8};
    uint16_t answer[JW_TEXT_CELLS], runs[2];
    uint8_t text[64], bytes[4] = {0x55, 0x55, 0x55, 0x55};
    size_t n = sizeof wanted - 1;
    same("size", jw_text_size(objects, 3, values, 4, answer, JW_SIZE_CELLS), JW_ACCEPTED);
    same("its length", (long)jw_size(answer), (long)n);
    memset(text, 'x', sizeof text);
    same("no room", jw_write_text(objects, 3, values, 4, text, n - 1, answer, JW_SIZE_CELLS), JW_NO_ROOM);
    same("no cells", jw_write_text(objects, 3, values, 4, text, n, answer, JW_SIZE_CELLS - 1), JW_NO_ROOM);
    same("a wrong width before no cells", jw_write_text(objects, 3, values, 3, text, n, answer, 0), JW_UNKNOWN);
    same("nothing was written", text[0], 'x');
    same("write", jw_write_text(objects, 3, values, 4, text, sizeof text, answer, JW_SIZE_CELLS), JW_ACCEPTED);
    same("its length again", (long)jw_size(answer), (long)n);
    same_bytes("the text", text, wanted, n);
    same("what follows", text[n], 'x');
    fill(answer, JW_TEXT_CELLS);
    runs[0] = runs[1] = UNTOUCHED;
    same("no room for bytes", jw_read_text(text, n, bytes, 2, runs, 2, answer, JW_TEXT_CELLS), JW_NO_ROOM);
    same("no cells", jw_read_text(text, n, bytes, 4, runs, 2, answer, JW_TEXT_CELLS - 1), JW_NO_ROOM);
    same("a broken text before no cells", jw_read_text(text, n - 2, bytes, 4, runs, 2, answer, 0), JW_BROKEN_TEXT);
    untouched("refused texts", answer, JW_TEXT_CELLS);
    untouched("refused texts", runs, 2);
    same("bytes as they were", bytes[0], 0x55);
    same("read", jw_read_text(text, n, bytes, 4, runs, 2, answer, JW_TEXT_CELLS), JW_ACCEPTED);
    same("three bytes", (long)jw_size(answer), 3);
    same("one run", (long)jw_size(answer + JW_SIZE_CELLS), 1);
    same_bytes("the bytes", bytes, "\xA6\x84\x39\x55", 4);
    same("first", runs[0], 0x100);
    same("last", runs[1], 0x102);
}

/* The passes stand above the refusal. */
enum { TWO_PASSES = 2 << 16 };

/* LDA label; label RMB 4; FCC "ab": the label is 2 once LDA is Direct. */
static void settling(void)
{
    uint16_t list[3 * JW_STATEMENT_CELLS] = {0}, labels[JW_LABEL_ROW] = {0, 0x55, 0};
    const uint16_t nodes[] = {1, 0, 0, 0, 4, 0}, items[] = {'a', 'b'};
    uint16_t *lda = list, *rmb = lda + JW_STATEMENT_CELLS, *fcc = rmb + JW_STATEMENT_CELLS;
    lda[JW_STATEMENT_KIND] = JW_INSTRUCTION;
    lda[JW_STATEMENT_LABEL] = fcc[JW_STATEMENT_LABEL] = JW_NONE;
    lda[JW_STATEMENT_NODE] = 0;
    lda[JW_STATEMENT_OPERAND + JW_OPERATION] = JW_LDA;
    lda[JW_STATEMENT_OPERAND + JW_MODE] = JW_MODE_EXTENDED;
    rmb[JW_STATEMENT_KIND] = JW_RMB;
    rmb[JW_STATEMENT_LABEL] = 0;
    rmb[JW_STATEMENT_NODE] = 1;
    fcc[JW_STATEMENT_KIND] = JW_FCC;
    fcc[JW_STATEMENT_NODE] = JW_NONE;
    fcc[JW_STATEMENT_COUNT] = 2;
    uint32_t returned = jw_settle(list, 3 * JW_STATEMENT_CELLS, items, 2, nodes, 6, labels, JW_LABEL_ROW);
    same("settle", JW_REFUSAL(returned), JW_ACCEPTED);
    same("two passes", JW_PASSES(returned), 2);
    const uint16_t found[] = {1, 2, 0};
    same_bytes("the label", labels, found, sizeof found);
    static const char wanted[] = ":02000000960266\n:02000600616235\n:00000001FF\n";
    uint16_t objects[9], values[8], answer[JW_SIZE_CELLS];
    uint8_t out[64];
    size_t n = sizeof wanted - 1;
    labels[1] = 0x55;
    fill(objects, 9);
    fill(values, 8);
    fill(answer, JW_SIZE_CELLS);
    memset(out, 'x', sizeof out);
    returned = jw_hex(list, 60, items, 2, nodes, 6, labels, 3, objects, 9, values, 8, out, n - 1, answer, JW_SIZE_CELLS);
    same("no room for the text", returned, JW_NO_ROOM | TWO_PASSES);
    returned = jw_hex(list, 60, items, 2, nodes, 6, labels, 3, objects, 9, values, 7, out, n, answer, JW_SIZE_CELLS);
    same("no room for values", returned, JW_NO_ROOM | TWO_PASSES);
    returned = jw_hex(list, 60, items, 2, nodes, 6, labels, 3, objects, 9, values, 8, out, n, answer, JW_SIZE_CELLS - 1);
    same("no cells", returned, JW_NO_ROOM | TWO_PASSES);
    returned = jw_hex(list, 60, items, 2, nodes, 6, labels, 2, objects, 9, values, 8, out, n, answer, JW_SIZE_CELLS);
    same("no room for the label", returned, JW_NO_ROOM | TWO_PASSES);
    returned = jw_settle(list, 60, items, 2, nodes, 6, labels, 2);
    same("nor in jw_settle", returned, JW_NO_ROOM | TWO_PASSES);
    returned = jw_hex(list, 60, items, 1, nodes, 6, labels, 3, objects, 9, values, 8, out, n, answer, 0);
    same("an unknown character before no cells", returned, JW_UNKNOWN | TWO_PASSES);
    untouched("refused: objects", objects, 9);
    untouched("refused: values", values, 8);
    untouched("refused: answer", answer, JW_SIZE_CELLS);
    same("refused: the label", labels[1], 0x55);
    same("refused: the text", out[0], 'x');
    returned = jw_hex(list, 60, items, 2, nodes, 6, labels, 3, objects, 9, values, 8, out, sizeof out, answer, JW_SIZE_CELLS);
    same("hex", returned, JW_ACCEPTED | TWO_PASSES);
    same("its length", (long)jw_size(answer), (long)n);
    same_bytes("its text", out, wanted, n);
    same("what follows", out[n], 'x');
    same_bytes("its label", labels, found, sizeof found);
    const uint16_t stand[] = {1, 0, 2, 0, 2, 0, 1, 6, 2}, data[] = {0x96, 8, 2, 8, 'a', 8, 'b', 8};
    same_bytes("its objects", objects, stand, sizeof stand);
    same_bytes("its values", values, data, sizeof data);

    labels[1] = 0x55;
    fcc[JW_STATEMENT_COUNT] = 257;
    returned = jw_settle(list, 3 * JW_STATEMENT_CELLS, items, 2, nodes, 6, labels, JW_LABEL_ROW);
    same("too many characters", returned, JW_OVER_LIMIT);
    fcc[JW_STATEMENT_COUNT] = 3;
    returned = jw_settle(list, 3 * JW_STATEMENT_CELLS, items, 2, nodes, 6, labels, JW_LABEL_ROW);
    same("an unknown character", JW_REFUSAL(returned), JW_UNKNOWN);
    same("after two passes", JW_PASSES(returned), 2);
    same("the label as it was", labels[1], 0x55);
}

/* Settling finds every label's row anew: what no statement bears is undefined unless it has an expression, and its address is 0. */
static void stale_labels(void)
{
    uint16_t labels[] = {1, 1234, 9, 2, 1234, 9, 1, 1234};
    const uint16_t none[] = {0}, after[] = {0, 0, 9, 2, 0, 9, 1, 1234};
    uint32_t returned = jw_settle(none, 0, none, 0, none, 0, labels, 8);
    same("no statement", JW_REFUSAL(returned), JW_ACCEPTED);
    same("one pass", JW_PASSES(returned), 1);
    same_bytes("old rows", labels, after, sizeof after);
}

/* A statement without a label: its kind, and its node or, of SETDP, its page. */
static void statement_of(uint16_t *s, uint16_t kind, uint16_t node)
{
    memset(s, 0, JW_STATEMENT_CELLS * sizeof *s);
    s[JW_STATEMENT_KIND] = kind;
    s[JW_STATEMENT_LABEL] = JW_NONE;
    s[JW_STATEMENT_NODE] = node;
}

static void instruction_of(uint16_t *s, uint16_t operation, uint16_t mode, uint16_t node)
{
    statement_of(s, JW_INSTRUCTION, node);
    s[JW_STATEMENT_OPERAND + JW_OPERATION] = operation;
    s[JW_STATEMENT_OPERAND + JW_MODE] = mode;
    s[JW_STATEMENT_OPERAND + JW_WIDENING] = 1;
}

static void tfr_to_dp(uint16_t *s)
{
    instruction_of(s, JW_TFR, JW_MODE_REGISTER, JW_NONE);
    s[JW_STATEMENT_OPERAND + JW_REGISTER_COUNT] = 2;
    s[JW_STATEMENT_OPERAND + JW_REGISTERS] = JW_A;
    s[JW_STATEMENT_OPERAND + JW_REGISTERS + 1] = JW_DP;
}

/* SETDP $20; LDA $2005; TFR A,DP; LDA $2005; SETDP 0; LDA 5. SETDP has no bytes and no object; its label is where it stands. */
static void setdp(void)
{
    static const char wanted[] = ":0900000096051F8BB6200596053C\n:00000001FF\n";
    const uint16_t nodes[] = {0, 0x2005, 0, 0, 5, 0}, none[] = {0};
    uint16_t list[6][JW_STATEMENT_CELLS], labels[JW_LABEL_ROW] = {0}, objects[15], values[18], answer[JW_SIZE_CELLS];
    uint8_t out[64];
    size_t n = sizeof wanted - 1;
    statement_of(list[0], JW_SETDP, 0x20);
    instruction_of(list[1], JW_LDA, JW_MODE_EXTENDED, 0);
    tfr_to_dp(list[2]);
    instruction_of(list[3], JW_LDA, JW_MODE_EXTENDED, 0);
    statement_of(list[4], JW_SETDP, 0);
    list[4][JW_STATEMENT_LABEL] = 0;
    instruction_of(list[5], JW_LDA, JW_MODE_EXTENDED, 1);
    fill(objects, 15);
    uint32_t returned = jw_hex(list[0], 6 * JW_STATEMENT_CELLS, none, 0, nodes, 6, labels, 3, objects, 15, values, 18, out, sizeof out, answer,
                               JW_SIZE_CELLS);
    same("SETDP", returned, JW_ACCEPTED | TWO_PASSES);
    same("its length", (long)jw_size(answer), (long)n);
    same_bytes("its text", out, wanted, n);
    const uint16_t stand[] = {1, 0, 2, 1, 2, 2, 1, 4, 3, 1, 7, 2, UNTOUCHED, UNTOUCHED, UNTOUCHED}, found[] = {1, 7, 0};
    same_bytes("its objects", objects, stand, sizeof stand);
    same_bytes("its label", labels, found, sizeof found);
    labels[1] = 0x55;
    returned = jw_settle(list[0], 6 * JW_STATEMENT_CELLS, none, 0, nodes, 6, labels, 3);
    same("settled", returned, JW_ACCEPTED | TWO_PASSES);
    same_bytes("its label again", labels, found, sizeof found);
}

/* LDA 5; TFR A,DP; LDA 5; SETDP $20: each pass begins at page 0, and the page that TFR leaves is not 0 either. */
static void setdp_behind(void)
{
    static const char wanted[] = ":0700000096051F8BB60005F9\n:00000001FF\n";
    const uint16_t nodes[] = {0, 5, 0}, none[] = {0};
    uint16_t list[4][JW_STATEMENT_CELLS], labels[1], objects[9], values[14], answer[JW_SIZE_CELLS];
    uint8_t out[64];
    instruction_of(list[0], JW_LDA, JW_MODE_EXTENDED, 0);
    tfr_to_dp(list[1]);
    instruction_of(list[2], JW_LDA, JW_MODE_EXTENDED, 0);
    statement_of(list[3], JW_SETDP, 0x20);
    uint32_t returned = jw_hex(list[0], 4 * JW_STATEMENT_CELLS, none, 0, nodes, 3, labels, 0, objects, 9, values, 14, out, sizeof out, answer,
                               JW_SIZE_CELLS);
    same("SETDP at the end", returned, JW_ACCEPTED | TWO_PASSES);
    same_bytes("LDA 5 twice", out, wanted, sizeof wanted - 1);
}

/* SETDP $20, then a SETDP with this number and label, and a branch that reaches its target as long as LDA $2005 is Direct: with another page in
 * force it is made long, which takes a third pass. Label 0 is the first statement's, label 1 the target. */
static uint32_t second_setdp(uint16_t number, uint16_t label)
{
    const uint16_t nodes[] = {1, 1, 0, 0, 0x2005, 0, 0, 125, 0}, none[] = {0};
    uint16_t list[6][JW_STATEMENT_CELLS], labels[2 * JW_LABEL_ROW];
    statement_of(list[0], JW_SETDP, 0x20);
    list[0][JW_STATEMENT_LABEL] = 0;
    statement_of(list[1], JW_SETDP, number);
    list[1][JW_STATEMENT_LABEL] = label;
    instruction_of(list[2], JW_BRA, JW_MODE_EXTENDED, 0);
    instruction_of(list[3], JW_LDA, JW_MODE_EXTENDED, 1);
    statement_of(list[4], JW_RMB, 2);
    statement_of(list[5], JW_BARE_LABEL, JW_NONE);
    list[5][JW_STATEMENT_LABEL] = 1;
    fill(labels, 2 * JW_LABEL_ROW);
    uint32_t returned = jw_settle(list[0], 6 * JW_STATEMENT_CELLS, none, 0, nodes, 9, labels, 2 * JW_LABEL_ROW);
    if (JW_REFUSAL(returned) != JW_ACCEPTED)
        untouched("refused: the labels", labels, 2 * JW_LABEL_ROW);
    return returned;
}

/* 1 for a number above 255, before the 10 of its label; what is refused sets nothing. */
static void refused_setdp(void)
{
    enum { THREE_PASSES = 3 << 16, FIRST = 0 };
    same("SETDP $20 again", second_setdp(0x20, JW_NONE), JW_ACCEPTED | TWO_PASSES);
    same("SETDP 5", second_setdp(5, JW_NONE), JW_ACCEPTED | THREE_PASSES);
    same("SETDP 255", second_setdp(255, JW_NONE), JW_ACCEPTED | THREE_PASSES);
    same("SETDP 256", second_setdp(JW_PAGE_UNKNOWN, JW_NONE), JW_UNKNOWN | TWO_PASSES);
    same("SETDP 65535", second_setdp(JW_NONE, JW_NONE), JW_UNKNOWN | TWO_PASSES);
    same("SETDP 256, a label twice", second_setdp(JW_PAGE_UNKNOWN, FIRST), JW_UNKNOWN | TWO_PASSES);
    same("SETDP 5, a label twice", second_setdp(5, FIRST), JW_BAD_LABEL | TWO_PASSES);
}

/* What is left over at a table's end is no row, and is not looked at. */
static void cut_short(void)
{
    uint16_t list[2 * JW_RECORD_CELLS], answer[JW_TEXT_CELLS];
    uint8_t out[64];
    record_of(list, JW_LDA, JW_MODE_OFFSET, JW_X, 0, 8);
    fill(list + JW_RECORD_CELLS, JW_RECORD_CELLS);
    same("a record cut short", jw_lay(list, 2 * JW_RECORD_CELLS - 1, 0, out, sizeof out, answer, JW_SIZE_CELLS), JW_ACCEPTED);
    same("one record", (long)jw_size(answer), 2);
    same("two whole records", jw_lay(list, 2 * JW_RECORD_CELLS, 0, out, sizeof out, answer, JW_SIZE_CELLS), JW_UNKNOWN);
    const uint16_t nodes[] = {1, 0, 0, 0, 7}, labels[] = {1, 0x1000, 0, 1, 0x2000};
    same("a node cut short", jw_node(nodes, 5, labels, 5, 1, 0, answer, JW_NODE_CELLS), JW_TOO_DEEP);
    same("a whole node", jw_node(nodes, 5, labels, 5, 0, 0, answer, JW_NODE_CELLS), JW_ACCEPTED);
    same("a label cut short", jw_label(nodes, 5, labels, 5, 1, answer, JW_LABEL_CELLS), JW_BAD_LABEL);
    const uint16_t objects[] = {1, 0x100, 1, 9, 9}, values[] = {0x39, 8, 999};
    same("object and value cut short", jw_write_text(objects, 5, values, 3, out, sizeof out, answer, JW_SIZE_CELLS), JW_ACCEPTED);
    size_t n = (size_t)jw_size(answer);
    uint16_t runs[] = {UNTOUCHED, UNTOUCHED};
    uint8_t bytes[1];
    same("a run cut short", jw_read_text(out, n, bytes, 1, runs, 1, answer, JW_TEXT_CELLS), JW_NO_ROOM);
    same("a whole run", jw_read_text(out, n, bytes, 1, runs, 2, answer, JW_TEXT_CELLS), JW_ACCEPTED);
    same("more values counted than are left", jw_text_size(objects, 3, values, 1, answer, JW_SIZE_CELLS), JW_UNKNOWN);
    const uint16_t statements[2 * JW_STATEMENT_CELLS] = {[JW_STATEMENT_LABEL] = JW_NONE, [JW_STATEMENT_CELLS] = 99};
    uint32_t returned = jw_settle(statements, 2 * JW_STATEMENT_CELLS - 1, nodes, 0, nodes, 0, runs, 0);
    same("a statement cut short", JW_REFUSAL(returned), JW_ACCEPTED);
    returned = jw_settle(statements, 2 * JW_STATEMENT_CELLS, nodes, 0, nodes, 0, runs, 0);
    same("a whole statement", JW_REFUSAL(returned), JW_UNKNOWN);
}

int main(void)
{
    builds();
    refusals();
    kept();
    built_under_pages();
    kept_under_pages();
    reasons();
    plain_reasons();
    wrong_fields();
    blamed_fields();
    no_page(JW_PAGE_UNKNOWN + 1);
    no_page(0xFFFF);
    laying();
    laid_under_pages();
    decoding();
    read_under_pages();
    open_bits();
    evaluating();
    segments();
    texts();
    settling();
    stale_labels();
    setdp();
    setdp_behind();
    refused_setdp();
    cut_short();
    printf("C: %d compared, %d differ\n", compared, differing);
    return differing != 0;
}
