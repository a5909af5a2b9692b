/* Oxbreathe for C: ADIF text read, written, mapped to contacts, and planned against a log. Link liboxbreathe.a, which
 * `make library` writes to target/staticlib; it is for x86-64.
 *
 * The contract. Every call takes any bytes and any numbers, ends, and gives its answer or the number of one refusal. A
 * refused reading, index, search or plan leaves every table it was lent zero throughout, and a refused writing leaves
 * its output untouched; an accepted one leaves zero behind the part it uses, or touches nothing behind what it wrote.
 * Nothing is kept, allocated or shared: the answer, the tables and the outputs hang on the arguments alone.
 * docs/PROMISES.md says where each of these promises is proved.
 *
 * What is lent. A text is a pointer and its length in bytes, with no 0 at its end; so is a contact list, and an
 * output. A table is a pointer and how many elements it has; what it held before does not matter. The library cannot
 * test pointers: none is NULL, even where the length is 0, each has as many elements behind it as is said, and what is
 * lent to be written overlaps nothing else of the call.
 *
 * How a refusal is told. The first field of an answer is `refusal`: 0, or a number of `enum ox_refusal`. All other
 * fields of a refused answer are 0 or false, but for those that the answer's comment says. A call that is refused for
 * several causes tells the first, in the order that its comment gives.
 *
 * The indented lines are examples. All of them stand in one program, which the gate compiles and runs. */
#ifndef OXBREATHE_H
#define OXBREATHE_H

#include <assert.h>
#include <stdbool.h>
#include <stddef.h>
#include <stdint.h>

#ifdef __cplusplus
extern "C" {
#endif

/* A literal as a text: its bytes and their number. */
#define OX_TEXT(literal) (literal), (sizeof(literal) - 1)

enum ox_refusal {
    OX_ACCEPTED = 0,
    OX_TOO_LONG = 1,           /* a text, a list or what would be written is above OX_LONGEST bytes */
    OX_NOT_UTF8 = 2,           /* a text is not UTF-8: `place` is the first bad byte */
    OX_UNTERMINATED_TAG = 3,   /* a tag has no > */
    OX_MISSING_LENGTH = 4,     /* a field has no length: `name`, `name_length` */
    OX_BAD_LENGTH = 5,         /* a length is no number of 64 bits: the same */
    OX_TRUNCATED_VALUE = 6,    /* a value is longer than what is left: the same, and `wanted`, `left` */
    OX_CUT_CHARACTER = 7,      /* a value ends inside a character: `name`, `name_length` */
    OX_MANY_NAMES = 8,         /* a record has a 257th name */
    OX_MANY_RECORDS = 9,       /* there is a 65,536th record */
    OX_FEW_ROWS = 10,          /* a finished record needs more rows than the table has left */
    OX_BAD_ROW = 11,           /* rows or a contact that are none of the text, or out of order */
    OX_BAD_NAME = 12,          /* a name that would not read back */
    OX_SHORT_OUTPUT = 13,      /* the output is too short */
    OX_HIGH_FREQUENCY = 14,    /* a frequency to write is 8,589,934,592,000,000 Hz or more */
    OX_INEXACT_FREQUENCY = 15, /* a frequency is a number outside the exact window */
    OX_LIST_VERSION = 16,      /* a contact list's version is not 1 */
    OX_MALFORMED_LIST = 17,    /* a contact list is malformed, or a contact to be put into one */
    OX_IDS_NOT_RISING = 18,    /* the ids of contacts do not rise strictly */
    OX_SHORT_TABLE = 19        /* the index, the fates, the confirmations or the matches are too few */
};

#define OX_LONGEST 16777216   /* bytes of a text, a list or an output */
#define OX_MOST_RECORDS 65535 /* of a text */
#define OX_MOST_NAMES 256     /* of a record */


/* ==== Plain texts, as Rust's str =================================================================================
 *
 * Each call refuses a text with 1, then with 2. Of two texts: 1 for either, 2 for the first, 2 for the second, whose
 * places are counted on after the first. */

typedef struct ox_checked {
    uint32_t refusal;
    size_t place; /* of the first bad byte with 2; of an accepted text its length */
} ox_checked;

typedef struct ox_trimmed {
    uint32_t refusal;
    size_t place; /* of the first bad byte with 2, as in the answers below */
    size_t start, end;
} ox_trimmed;

typedef struct ox_told {
    uint32_t refusal;
    size_t place;
    bool yes;
} ox_told;

typedef struct ox_ordered {
    uint32_t refusal;
    size_t place;
    uint32_t order; /* 0 less, 1 equal, 2 greater */
} ox_ordered;

typedef struct ox_found {
    uint32_t refusal;
    size_t place;
    size_t at;
} ox_found;

typedef struct ox_numbered {
    uint32_t refusal;
    size_t place;
    bool present;
    bool negative; /* never of 0 */
    uint64_t size;
} ox_numbered;

typedef struct ox_written {
    uint32_t refusal;
    size_t length; /* the bytes written, at the front of the output */
} ox_written;

/* Is it a text? Refuses: 1, 2.
 *
 *     assert(ox_text_check(OX_TEXT("N\xC3\xA9vache")).refusal == OX_ACCEPTED);
 *     ox_checked cut = ox_text_check(OX_TEXT("N\xC3"));
 *     assert(cut.refusal == OX_NOT_UTF8 && cut.place == 1);
 */
ox_checked ox_text_check(const char *text, size_t length);

/* Where the text starts behind white space, and where it ends before it; of a blank text both are its length.
 * Refuses: 1, 2.
 *
 *     ox_trimmed kept = ox_text_trim(OX_TEXT("  W1AW "));
 *     assert(kept.start == 2 && kept.end == 6);
 */
ox_trimmed ox_text_trim(const char *text, size_t length);

/* Is there nothing but white space? Refuses: 1, 2.
 *
 *     assert(ox_text_blank(OX_TEXT(" \t\n")).yes);
 */
ox_told ox_text_blank(const char *text, size_t length);

/* Are the two the same, byte for byte? Refuses: 1, 2.
 *
 *     assert(!ox_text_same(OX_TEXT("40m"), OX_TEXT("40M")).yes);
 */
ox_told ox_text_same(const char *a, size_t a_length, const char *b, size_t b_length);

/* The same, the case of ASCII letters aside. Refuses: 1, 2.
 *
 *     assert(ox_text_same_raised(OX_TEXT("40m"), OX_TEXT("40M")).yes);
 */
ox_told ox_text_same_raised(const char *a, size_t a_length, const char *b, size_t b_length);

/* The byte order of the two in ASCII capitals. Refuses: 1, 2.
 *
 *     assert(ox_text_order_raised(OX_TEXT("band"), OX_TEXT("CALL")).order == 0);
 */
ox_ordered ox_text_order_raised(const char *a, size_t a_length, const char *b, size_t b_length);

/* The first place from `from` on where `byte` stands; the length where there is none. Refuses: 1, 2.
 *
 *     assert(ox_text_find(OX_TEXT("<CALL:4>"), 1, ':').at == 5);
 *     assert(ox_text_find(OX_TEXT("<CALL:4>"), 6, ':').at == 8);
 */
ox_found ox_text_find(const char *text, size_t length, size_t from, uint8_t byte);

/* The number that the text spells: digits, perhaps behind a +, at most 2^64 - 1. Refuses: 1, 2.
 *
 *     ox_numbered number = ox_text_unsigned(OX_TEXT("+020"));
 *     assert(number.present && number.size == 20);
 *     assert(!ox_text_unsigned(OX_TEXT(" 20")).present);
 */
ox_numbered ox_text_unsigned(const char *text, size_t length);

/* The same with a + or a -, from -2^63 to 2^63 - 1, by sign and size. Refuses: 1, 2.
 *
 *     ox_numbered entity = ox_text_signed(OX_TEXT("-7"));
 *     assert(entity.present && entity.negative && entity.size == 7);
 */
ox_numbered ox_text_signed(const char *text, size_t length);

/* Writes a number in decimal. Refuses: 13.
 *
 *     char digits[20];
 *     assert(ox_text_digits(1800, digits, sizeof digits).length == 4 && memcmp(digits, "1800", 4) == 0);
 *     assert(ox_text_digits(1800, digits, 3).refusal == OX_SHORT_OUTPUT);
 */
ox_written ox_text_digits(uint64_t number, char *out, size_t room);


/* ==== Bands, modes and classes of modes ==========================================================================
 *
 * A text in an answer is a place, so that nothing is copied. Entries of the tables are numbered from 0. */

enum ox_kind {
    OX_ABSENT = 0,
    OX_AS_IT_STANDS = 1, /* `length` bytes of the text from `start` */
    OX_IN_CAPITALS = 2,  /* those bytes, their ASCII letters raised */
    OX_BAND_NAME = 3,    /* the name of entry `start` of the bands */
    OX_MODE_NAME = 4     /* the name of entry `start` of the modes */
};

typedef struct ox_place {
    uint32_t kind;
    uint32_t start;
    uint32_t length;
} ox_place;

typedef struct ox_span {
    uint32_t first; /* entry of a table */
    uint32_t count;
} ox_span;

typedef struct ox_name {
    uint8_t bytes[12]; /* with 0 behind the name, where that is shorter */
    size_t length;     /* 0: there is no such entry */
} ox_name;

typedef struct ox_placed {
    uint32_t refusal;
    size_t place;
    ox_place entry;
} ox_placed;

typedef struct ox_normalized {
    uint32_t refusal;
    size_t place;
    ox_place mode;    /* in the text of the mode */
    ox_place submode; /* in the text of the submode; where `split`, in that of the mode */
    bool split;
} ox_normalized;

enum ox_class { OX_PHONE = 0, OX_CW = 1, OX_DIGITAL = 2, OX_IMAGE = 3 };

typedef struct ox_classified {
    uint32_t refusal;
    size_t place;
    bool present;
    uint32_t mode_class; /* of enum ox_class */
} ox_classified;

/* The band of a frequency, both ends of a band inside, or absent. Refuses nothing.
 *
 *     ox_place band = ox_band_for_freq_hz(7300000);
 *     assert(band.kind == OX_BAND_NAME && memcmp(ox_entry_name(band.kind, band.start).bytes, "40m", 4) == 0);
 *     assert(ox_band_for_freq_hz(7300001).kind == OX_ABSENT);
 */
ox_place ox_band_for_freq_hz(uint64_t hz);

/* The entries of all bands, low to high. Refuses nothing.
 *
 *     assert(ox_band_all().count == 19);
 */
ox_span ox_band_all(void);

/* The name of an entry of the bands (OX_BAND_NAME) or of the modes (OX_MODE_NAME). Refuses nothing.
 *
 *     assert(memcmp(ox_entry_name(OX_MODE_NAME, 0).bytes, "SSB", 4) == 0);
 *     assert(ox_entry_name(OX_BAND_NAME, 19).length == 0);
 */
ox_name ox_entry_name(uint32_t kind, uint32_t entry);

/* The band that the text names, white space at its ends and the case of letters aside. Refuses: 1, 2.
 *
 *     assert(ox_band_canonical(OX_TEXT(" 2190M ")).entry.kind == OX_BAND_NAME);
 *     assert(ox_band_canonical(OX_TEXT("40 m")).entry.kind == OX_ABSENT);
 */
ox_placed ox_band_canonical(const char *text, size_t length);

/* Whether it names one. Refuses: 1, 2.
 *
 *     assert(ox_band_known(OX_TEXT("70cm")).yes);
 */
ox_told ox_band_known(const char *text, size_t length);

/* ADIF's MODE and SUBMODE for a mode and a submode as they were written; the submode counts only where `given`.
 * Refuses: 1, 2, as of two texts.
 *
 *     ox_normalized ft4 = ox_mode_normalize(OX_TEXT("ft4"), OX_TEXT(""), false);
 *     assert(memcmp(ox_entry_name(ft4.mode.kind, ft4.mode.start).bytes, "MFSK", 5) == 0);
 *     assert(ft4.split && ft4.submode.kind == OX_IN_CAPITALS && ft4.submode.start == 0 && ft4.submode.length == 3);
 */
ox_normalized ox_mode_normalize(const char *mode, size_t mode_length, const char *submode, size_t submode_length,
                                bool given);

/* The class of the mode that the text names. Refuses: 1, 2.
 *
 *     assert(ox_mode_class(OX_TEXT(" ft8")).mode_class == OX_DIGITAL);
 *     assert(!ox_mode_class(OX_TEXT("telepathy")).present);
 */
ox_classified ox_mode_class(const char *text, size_t length);

/* The class that the text names. Refuses: 1, 2.
 *
 *     assert(ox_class_named(OX_TEXT("Image")).mode_class == OX_IMAGE);
 */
ox_classified ox_class_named(const char *text, size_t length);

/* The modes of a class, entries of the modes; none where there is no such class. Refuses nothing.
 *
 *     ox_span phone = ox_class_modes(OX_PHONE);
 *     assert(phone.first == 0 && phone.count == 4);
 */
ox_span ox_class_modes(uint32_t mode_class);

/* The name of a class; no bytes where there is none. Refuses nothing.
 *
 *     assert(memcmp(ox_class_name(OX_CW).bytes, "cw", 3) == 0);
 */
ox_name ox_class_name(uint32_t mode_class);


/* ==== Frequencies ============================================================================================= */

typedef struct ox_frequency {
    uint32_t refusal;
    size_t place;
    bool present; /* false: the text is no number, or one below zero */
    uint64_t hz;
} ox_frequency;

/* Whole hertz of a text of megahertz. The exact window of 15: the digits are at most 2^53, the power of ten is from
 * -22 to 22. Refuses: 1, 2, 15.
 *
 *     assert(ox_mhz_to_hz(OX_TEXT("14.074")).hz == 14074000);
 *     assert(!ox_mhz_to_hz(OX_TEXT("-0.1")).present);
 *     assert(ox_mhz_to_hz(OX_TEXT("9007199254740993")).refusal == OX_INEXACT_FREQUENCY);
 */
ox_frequency ox_mhz_to_hz(const char *mhz, size_t length);

/* Writes a frequency as megahertz with six decimals; 17 bytes are always enough. Refuses: 14, 13. What it writes of up to
 * 10^12 Hz, at most 14 bytes, is read by ox_mhz_to_hz as the same number.
 *
 *     char mhz[17];
 *     assert(ox_hz_to_mhz(7150000, mhz, sizeof mhz).length == 8 && memcmp(mhz, "7.150000", 8) == 0);
 *     size_t length = ox_hz_to_mhz(14097087, mhz, sizeof mhz).length;
 *     assert(ox_mhz_to_hz(mhz, length).hz == 14097087);
 */
ox_written ox_hz_to_mhz(uint64_t hz, char *out, size_t room);


/* ==== Reading ================================================================================================= */

/* A row of a table, five numbers: a field of a record. Names stand as in the text; inside a record they rise strictly,
 * in byte order of their capitals. An empty name is at place 0. */
enum { OX_ROW = 5 };

typedef struct ox_row {
    uint32_t record; /* from 1 */
    uint32_t name, name_length;
    uint32_t value, value_length;
} ox_row;

static inline ox_row ox_row_at(const uint32_t *table, size_t row) {
    const uint32_t *n = table + OX_ROW * row;
    ox_row r = {n[0], n[1], n[2], n[3], n[4]};
    return r;
}

/* The place in the text: with 2 the first bad byte; with 3 to 8 the < of the tag; with 9 and 10 the < of the tag that
 * closed the record, or the text's length where the end or an APP_LOTW_EOF closed it. Whether there is one goes by the
 * number, since 0 is a place too. */
typedef struct ox_read_answer {
    uint32_t refusal;
    size_t place;             /* with 2 to 10 */
    size_t name, name_length; /* with 4 to 7: the name of the tag */
    uint64_t wanted, left;    /* with 6: the length that the tag gives, and the bytes that were there */
    size_t records;
    size_t rows; /* that the records take */
} ox_read_answer;

/* Reads ADIF text into a table of `numbers` numbers, OX_ROW a row. One row for each < of the text is always enough.
 * Refuses: 1, 2; then tag by tag 3, 4, 5, 6, 7, 8, and at a record's end 9, 10.
 *
 *     static const char log[] = "<CALL:4>W1AW <band:3>40m <EOR>";
 *     uint32_t table[3 * OX_ROW];
 *     ox_read_answer read = ox_read(log, sizeof log - 1, table, 3 * OX_ROW);
 *     assert(read.refusal == OX_ACCEPTED && read.records == 1 && read.rows == 2);
 *     ox_row first = ox_row_at(table, 0);
 *     assert(memcmp(log + first.name, "band", 4) == 0 && memcmp(log + first.value, "40m", 3) == 0);
 *
 *     read = ox_read(OX_TEXT("<BAND:3>40m <CALL:9>W1AW"), table, 3 * OX_ROW);
 *     assert(read.refusal == OX_TRUNCATED_VALUE && read.place == 12 && read.name == 13);
 *     assert(read.wanted == 9 && read.left == 4 && table[0] == 0);
 */
ox_read_answer ox_read(const char *text, size_t length, uint32_t *table, size_t numbers);


/* ==== Writing ====================================================================================================
 *
 * Each call writes to the front of an output of `room` bytes, all or nothing. */

/* Writes the first `count` rows of a table as records: `<NAME:LENGTH>value` and a space for each row, the name in
 * capitals, `<EOR>` and a newline behind each record. Record numbers start at 1 and stay or rise by one. Refuses: 1
 * for the text; 11 for the count; row by row 11, 12, 8, 9; then 1 for the output; 13.
 *
 *     uint32_t row[OX_ROW] = {1, 0, 4, 4, 4};
 *     char out[40];
 *     ox_written line = ox_write(OX_TEXT("callW1AW"), row, OX_ROW, 1, out, sizeof out);
 *     assert(line.length == 19 && memcmp(out, "<CALL:4>W1AW <EOR>\n", 19) == 0);
 */
ox_written ox_write(const char *text, size_t length, const uint32_t *table, size_t numbers, size_t count, char *out,
                    size_t room);

/* Writes the header of rigflow's journal, 45 bytes. Refuses: 13.
 *
 *     char header[45];
 *     assert(ox_journal_header(header, sizeof header).length == 45);
 *     assert(memcmp(header, "<ADIF_VER:5>3.1.6 <PROGRAMID:7>rigflow <EOH>\n", 45) == 0);
 */
ox_written ox_journal_header(char *out, size_t room);

/* Writes the header of an export: the version of ADIF, that of the program, and when it was made. Refuses: 11 for a
 * text that is not UTF-8, 1 for a text or the output, 13.
 *
 *     char export_header[200];
 *     ox_written made = ox_export_header(OX_TEXT("3.1.6"), OX_TEXT("0.1"), OX_TEXT("20260301 120000"), export_header,
 *                                        sizeof export_header);
 *     assert(made.refusal == OX_ACCEPTED && memcmp(export_header + made.length - 6, "<EOH>\n", 6) == 0);
 */
ox_written ox_export_header(const char *version, size_t version_length, const char *program, size_t program_length,
                            const char *created, size_t created_length, char *out, size_t room);

/* Writes a station's fields, trimmed, blank ones left out, to stand in front of a record's. Refuses: 11 for a text that
 * is not UTF-8, 1 for a text, blank or not, or the output, 13.
 *
 *     char station[100];
 *     ox_written mine = ox_station_fields(OX_TEXT("DL0XX"), OX_TEXT(" JO62 "), OX_TEXT(""), OX_TEXT(""), OX_TEXT(""),
 *                                         OX_TEXT(""), OX_TEXT(""), station, sizeof station);
 *     static const char my[] = "<MY_GRIDSQUARE:4>JO62 <OPERATOR:5>DL0XX <STATION_CALLSIGN:5>DL0XX ";
 *     assert(mine.length == sizeof my - 1 && memcmp(station, my, mine.length) == 0);
 */
ox_written ox_station_fields(const char *call, size_t call_length, const char *grid, size_t grid_length,
                             const char *name, size_t name_length, const char *state, size_t state_length,
                             const char *county, size_t county_length, const char *cq, size_t cq_length,
                             const char *itu, size_t itu_length, char *out, size_t room);


/* ==== Contacts (QSOs) ============================================================================================
 *
 * A contact is a struct over the text of its record: thirteen columns, each a place in the text, and the numbers that
 * three of them spell. The other fields of the record stay rows. */

enum ox_columns {
    OX_CALL,
    OX_QSO_DATE,
    OX_TIME_ON,
    OX_BAND,
    OX_MODE,
    OX_SUBMODE,
    OX_FREQ,
    OX_FREQ_RX,
    OX_BAND_RX,
    OX_RST_SENT,
    OX_RST_RCVD,
    OX_GRIDSQUARE,
    OX_DXCC,
    OX_COLUMNS /* how many; as a column: none of them */
};

/* Flags of a contact are numbers, 0 or 1: with any other the contact is refused with 11. */
typedef struct ox_hertz {
    uint8_t given;
    uint64_t hz;
} ox_hertz;

typedef struct ox_dxcc {
    uint8_t given;
    uint8_t negative;
    uint64_t size;
} ox_dxcc;

typedef struct ox_qso {
    ox_place columns[OX_COLUMNS];
    ox_hertz freq, freq_rx;
    ox_dxcc dxcc;
} ox_qso;

typedef struct ox_column_answer {
    uint32_t refusal;
    size_t place;    /* of the first bad byte with 2 */
    uint32_t column; /* of enum ox_columns */
} ox_column_answer;

typedef struct ox_qso_answer {
    uint32_t refusal;
    ox_qso qso;
} ox_qso_answer;

typedef struct ox_qso_written {
    uint32_t refusal;
    size_t length;
    ox_qso qso; /* as it was lent, refused or not */
} ox_qso_written;

/* The column that a field's name names, the case of letters aside; OX_COLUMNS for an extra field. Refuses: 1, 2.
 *
 *     assert(ox_column(OX_TEXT("Time_On")).column == OX_TIME_ON);
 *     assert(ox_column(OX_TEXT("NAME")).column == OX_COLUMNS);
 *     assert(ox_column(OX_TEXT("NAM\377")).refusal == OX_NOT_UTF8);
 */
ox_column_answer ox_column(const char *name, size_t length);

/* A record as a contact: `count` rows of a table from row `first` on, as ox_read gives them.
 * Refuses: 1; 11 for rows that the table has not or that are no record of the text, with an empty contact; 15, with the
 * contact, both of its frequencies absent.
 *
 *     static const char record[] = "<CALL:4>W1AW <QSO_DATE:8>20260301 <TIME_ON:4>1200 <BAND:3>40M <MODE:3>usb <EOR>";
 *     #define RECORD record, sizeof record - 1
 *     uint32_t rows[6 * OX_ROW];
 *     size_t count = ox_read(RECORD, rows, 6 * OX_ROW).rows;
 *     ox_qso_answer contact = ox_record_to_qso(RECORD, rows, 6 * OX_ROW, 0, count);
 *     assert(contact.refusal == OX_ACCEPTED && contact.qso.columns[OX_FREQ].kind == OX_ABSENT);
 *     assert(memcmp(record + contact.qso.columns[OX_BAND].start, "40M", 3) == 0);
 */
ox_qso_answer ox_record_to_qso(const char *text, size_t length, const uint32_t *table, size_t numbers, size_t first,
                               size_t count);

/* The same, normalised: what a log keeps of a record. Refuses as ox_record_to_qso.
 *
 *     ox_qso_answer normal = ox_record_to_normal_qso(RECORD, rows, 6 * OX_ROW, 0, count);
 *     assert(normal.qso.columns[OX_BAND].kind == OX_BAND_NAME);
 *     ox_place phone_mode = normal.qso.columns[OX_MODE];
 *     assert(memcmp(ox_entry_name(phone_mode.kind, phone_mode.start).bytes, "SSB", 4) == 0);
 */
ox_qso_answer ox_record_to_normal_qso(const char *text, size_t length, const uint32_t *table, size_t numbers,
                                      size_t first, size_t count);

/* A contact with its mode, submode, band and band_rx normalised, and nothing else changed. Refuses: 1; 11 for a contact
 * that is none of the text, or has a flag that is neither 0 nor 1; both give the contact back as it was.
 *
 *     ox_qso_answer again = ox_normalize_qso(RECORD, contact.qso);
 *     assert(memcmp(again.qso.columns, normal.qso.columns, sizeof again.qso.columns) == 0);
 *     assert(ox_normalize_qso(OX_TEXT(""), contact.qso).refusal == OX_BAD_ROW);
 */
ox_qso_answer ox_normalize_qso(const char *text, size_t length, ox_qso qso);

/* Writes a contact as a record, with the first `count` rows of the table as its extra fields, in byte order of the
 * names. CALL, QSO_DATE, TIME_ON and MODE are always written, an empty BAND never, BAND_RX only beside FREQ_RX; a
 * column wins over an extra field of its name. Refuses: 1 for the text; 14; 11 for the contact or the count; row by
 * row 11, 12, 8; then 1 for the output; 13.
 *
 *     char adif[200];
 *     ox_qso_written back = ox_write_qso(RECORD, normal.qso, rows, 0, 0, adif, sizeof adif);
 *     static const char expected[] = "<BAND:3>40m <CALL:4>W1AW <MODE:3>SSB <QSO_DATE:8>20260301 <TIME_ON:4>1200 <EOR>\n";
 *     assert(back.length == sizeof expected - 1 && memcmp(adif, expected, back.length) == 0);
 */
ox_qso_written ox_write_qso(const char *text, size_t length, ox_qso qso, const uint32_t *table, size_t numbers,
                            size_t count, char *out, size_t room);


/* ==== Duplicates =================================================================================================
 *
 * Two contacts are tested each over its own text: `a` with `q`, `b` with `o`. These five refuse: 1 for a text, 11 for a
 * contact that is none of its text. */

typedef struct ox_timed {
    uint32_t refusal;
    size_t place;
    bool present;     /* false: the texts name no moment */
    uint64_t seconds; /* since the first day of year 0 */
} ox_timed;

/* The moment of a date, 8 digits, and a time of day, 4 or 6, white space around them aside. Refuses: 1, 2, as of two
 * texts.
 *
 *     assert(ox_parse_dt(OX_TEXT("00000102"), OX_TEXT("000001")).seconds == 86401);
 *     assert(!ox_parse_dt(OX_TEXT("20260231"), OX_TEXT("1200")).present);
 */
ox_timed ox_parse_dt(const char *date, size_t date_length, const char *time, size_t time_length);

/* The match in the log: the calls untrimmed and the case of letters aside, mode and band exactly.
 *
 *     assert(ox_in_log(RECORD, normal.qso, RECORD, again.qso).yes);
 *     assert(!ox_in_log(RECORD, normal.qso, RECORD, contact.qso).yes);
 */
ox_told ox_in_log(const char *a, size_t a_length, ox_qso q, const char *b, size_t b_length, ox_qso o);

/* The match in the file: call, mode and band trimmed, the case of the calls aside.
 *
 *     assert(ox_in_file(RECORD, normal.qso, RECORD, again.qso).yes);
 */
ox_told ox_in_file(const char *a, size_t a_length, ox_qso q, const char *b, size_t b_length, ox_qso o);

/* rigflow's natural key: as the match in the log, the second call trimmed.
 *
 *     assert(ox_same_natural_key(RECORD, normal.qso, RECORD, again.qso).yes);
 */
ox_told ox_same_natural_key(const char *a, size_t a_length, ox_qso q, const char *b, size_t b_length, ox_qso o);

/* Whether both have moments no further apart than `window` seconds.
 *
 *     assert(ox_within_window(RECORD, normal.qso, RECORD, contact.qso, 0).yes);
 *     assert(!ox_within_window(RECORD, normal.qso, RECORD, contact.qso, -1).yes);
 */
ox_told ox_within_window(const char *a, size_t a_length, ox_qso q, const char *b, size_t b_length, ox_qso o,
                         int64_t window);

/* Both: one natural key, and within the window.
 *
 *     assert(ox_is_duplicate(RECORD, normal.qso, RECORD, again.qso, 1800).yes);
 */
ox_told ox_is_duplicate(const char *a, size_t a_length, ox_qso q, const char *b, size_t b_length, ox_qso o,
                        int64_t window);


/* ==== Contact lists ==============================================================================================
 *
 * The contacts that a log has already, as bytes, numbers big-endian: the version 1; how many contacts, 4 bytes; and of
 * each contact the length of what follows, 2 bytes, its id, 8 bytes (1 to 2^63 - 1, strictly rising), a byte of the
 * services that confirmed it, and call, date, time, band and mode, each a length byte and UTF-8. A date has 8 digits, a
 * time 4 or 6. ox_contacts_start and ox_contacts_append write such a list.
 *
 * A list is refused with 1; 17 where it is empty; 16; 17 where it has no whole count; then contact by contact with 17,
 * 18; 17 where the contacts do not end with the list. */

enum ox_service { OX_LOTW = 1, OX_EQSL = 2, OX_QRZ = 4, OX_QSL = 8 };

/* A contact in the index. `call` to `mode` are the places in the list of those texts, each of its length byte. What else
 * there is, is the index's own. */
typedef struct ox_contact {
    uint64_t id;
    uint64_t seconds; /* of its moment, since the first day of year 0 */
    uint32_t head;    /* the last contact of the chain of this number, by number and one, or 0 */
    uint32_t next;    /* the contact before this one in its own chain, likewise */
    uint32_t code;    /* which contacts of one call, mode and band share */
    uint32_t services;
    uint32_t call;
    uint32_t date;
    uint32_t time;
    uint32_t band;
    uint32_t mode;
    uint32_t timed; /* 1 where it has a moment */
} ox_contact;

/* A list's mark: how many contacts, and the largest id, 0 where there is none. */
typedef struct ox_mark_answer {
    uint32_t refusal;
    size_t contacts;
    uint64_t largest;
} ox_mark_answer;

typedef struct ox_fresh_answer {
    uint32_t refusal;
    bool fresh;
} ox_fresh_answer;

typedef struct ox_append_answer {
    uint32_t refusal;
    size_t length; /* of the whole list */
} ox_append_answer;

/* Begins a list: five bytes, no contact. Refuses: 13.
 *
 *     uint8_t list[100];
 *     size_t used = ox_contacts_start(list, sizeof list).length;
 *     assert(used == 5);
 */
ox_append_answer ox_contacts_start(uint8_t *out, size_t room);

/* Puts a contact behind the `used` bytes of a list whose mark is `contacts` and `largest`, and counts it. A contact
 * takes 16 bytes and its texts. Of the list the version and the count are looked at, in constant time. Refuses: 1 for
 * the list or a text; 17 where the list is empty; 16; 17 where it has no whole count, or another than `contacts`, or
 * the largest that there is; 17 for a contact that is none; 18 where its id is not above `largest`; 1 for the list
 * with it; 13.
 *
 *     used = ox_contacts_append(list, sizeof list, used, 0, 0, 7, OX_LOTW, OX_TEXT("W1AW"), OX_TEXT("20260301"),
 *                               OX_TEXT("1200"), OX_TEXT("40m"), OX_TEXT("SSB")).length;
 *     assert(used == 5 + 16 + 22);
 */
ox_append_answer ox_contacts_append(uint8_t *out, size_t room, size_t used, size_t contacts, uint64_t largest,
                                    uint64_t id, uint8_t services, const char *call, size_t call_length,
                                    const char *date, size_t date_length, const char *time, size_t time_length,
                                    const char *band, size_t band_length, const char *mode, size_t mode_length);

/* A list's mark. Refuses as a list.
 *
 *     ox_mark_answer mark = ox_contacts_check(list, used);
 *     assert(mark.refusal == OX_ACCEPTED && mark.contacts == 1 && mark.largest == 7);
 */
ox_mark_answer ox_contacts_check(const uint8_t *list, size_t length);

/* Whether a list has this mark: a plan that was made against that mark is then fresh. Refuses as a list.
 *
 *     assert(ox_contacts_fresh(mark.contacts, mark.largest, list, used).fresh);
 */
ox_fresh_answer ox_contacts_fresh(size_t contacts, uint64_t largest, const uint8_t *list, size_t length);

/* Builds the index of a list, a record for each contact, and gives the mark. Refuses as a list, then 19.
 *
 *     ox_contact index[1];
 *     assert(ox_contacts_index(list, used, index, 1).refusal == OX_ACCEPTED);
 *     assert(index[0].id == 7 && memcmp(list + index[0].call, "\4W1AW", 5) == 0);
 */
ox_mark_answer ox_contacts_index(const uint8_t *list, size_t length, ox_contact *index, size_t contacts);

/* Puts for each contact of `other` into `found` the number, from 1, of the first contact of `list` that it matches
 * within `window` seconds, or 0, and gives the mark of `other`. The index is left as ox_contacts_index builds it.
 * Refused, both are zero throughout. Refuses as `list`, 19 for the index, as `other`, 19 for `found`.
 *
 *     uint64_t matches[1];
 *     assert(ox_contacts_search(list, used, list, used, 1800, index, 1, matches, 1).contacts == 1 && matches[0] == 1);
 */
ox_mark_answer ox_contacts_search(const uint8_t *list, size_t length, const uint8_t *other, size_t other_length,
                                  int64_t window, ox_contact *index, size_t contacts, uint64_t *found, size_t count);


/* ==== Plans =================================================================================================== */

enum ox_fate {
    OX_IMPORTABLE = 1,
    OX_DUPLICATE_IN_LOG = 2,
    OX_DUPLICATE_IN_FILE = 3, /* of an earlier importable record */
    OX_UNUSABLE = 4,
    OX_CONFIRMED = 5, /* it bears a confirmation of a contact in the log */
    OX_UNMATCHED = 6, /* it bears one, and the log has no such contact */
    OX_IGNORED = 7    /* of a download, which imports nothing */
};

/* Why a record is unusable; 0 where it is not. */
enum ox_reason { OX_NO_CALL = 1, OX_BAD_DATE = 2, OX_BAD_TIME = 3, OX_NO_MODE = 4, OX_INEXACT = 5 };

/* What becomes of a record: [0] its fate, [1] the reason. The other numbers are room to work in, zero afterwards. */
typedef uint32_t ox_fate_row[28];

/* A contact that a service newly confirms: [0] and [1] its id, low half first, [2] the service, [3] and [4] the place
 * in the text and the length of the date, both 0 where there is none. */
typedef uint32_t ox_confirmation_row[5];

typedef struct ox_counts {
    uint64_t total;
    uint64_t importable;
    uint64_t confirmations;     /* contacts and services newly confirmed */
    uint64_t already_confirmed; /* and those that the log knows */
    uint64_t duplicates;
    uint64_t unmatched;
    uint64_t unusable;
} ox_counts;

typedef struct ox_plan_answer {
    uint32_t refusal;
    size_t place; /* these five as in ox_read_answer, of the text and never of the list */
    size_t name, name_length;
    uint64_t wanted, left;
    size_t records;       /* rows of the fates in use */
    size_t rows;          /* rows of the table in use */
    size_t confirmations; /* rows of the confirmations in use */
    size_t contacts;      /* the list's mark, which the plan keeps */
    uint64_t largest;
    ox_counts counts;
} ox_plan_answer;

/* What importing a text would do to the log whose contacts the list has, two contacts being one within `window`
 * seconds; where `download`, what a download of confirmations would do. Always enough are: of the table a row for each
 * < of the text; of the index a record for each contact; of the fates OX_MOST_RECORDS, or a row for two < and one more;
 * of the confirmations four rows for each record, or for each contact.
 * Refuses: as the list; 19 for the index; as ox_read; 19 for the fates; 19 for the confirmations.
 *
 *     static const char file[] = "<CALL:4>w1aw <QSO_DATE:8>20260301 <TIME_ON:4>1210 <BAND:3>40M <MODE:3>USB <EOR>"
 *                                "<QSO_DATE:8>20260301 <EOR>";
 *     uint32_t file_rows[8 * OX_ROW];
 *     ox_fate_row fates[2];
 *     ox_confirmation_row confirmations[4];
 *     ox_plan_answer plan = ox_plan(file, sizeof file - 1, list, used, 1800, false, file_rows, 8 * OX_ROW, index, 1,
 *                                   fates, 2, confirmations, 4);
 *     assert(plan.refusal == OX_ACCEPTED && plan.records == 2 && plan.confirmations == 0);
 *     assert(fates[0][0] == OX_DUPLICATE_IN_LOG && fates[1][0] == OX_UNUSABLE && fates[1][1] == OX_NO_CALL);
 *
 *     ox_plan_answer none = ox_plan(OX_TEXT("<BAND:3>40m <CALL>W1AW <EOR>"), list, used, 1800, false, file_rows,
 *                                   8 * OX_ROW, index, 1, fates, 2, confirmations, 4);
 *     assert(none.refusal == OX_MISSING_LENGTH && none.place == 12);
 */
ox_plan_answer ox_plan(const char *text, size_t length, const uint8_t *list, size_t list_length, int64_t window,
                       bool download, uint32_t *table, size_t numbers, ox_contact *index, size_t contacts,
                       ox_fate_row *fates, size_t records, ox_confirmation_row *confirmations, size_t count);

#define OX_SUMMARY 268 /* bytes, the longest summary */

/* Writes what a plan counts as one line of UTF-8, without a newline. Refuses: 13.
 *
 *     char summary[OX_SUMMARY];
 *     ox_written sums = ox_plan_summary(plan.counts, summary, sizeof summary);
 *     static const char in_words[] = "2 records \302\267 0 to import"
 *                                    " \302\267 1 duplicate (skipped) \302\267 1 unusable";
 *     assert(sums.length == sizeof in_words - 1 && memcmp(summary, in_words, sums.length) == 0);
 */
ox_written ox_plan_summary(ox_counts counts, char *out, size_t room);


/* ==== The layout that the library was built with ============================================================== */

#define OX_LAYOUT(type, size, last, offset)                                                                            \
    static_assert(sizeof(type) == (size) && offsetof(type, last) == (offset), "layout of " #type)

OX_LAYOUT(ox_checked, 16, place, 8);
OX_LAYOUT(ox_trimmed, 32, end, 24);
OX_LAYOUT(ox_told, 24, yes, 16);
OX_LAYOUT(ox_ordered, 24, order, 16);
OX_LAYOUT(ox_found, 24, at, 16);
OX_LAYOUT(ox_numbered, 32, size, 24);
OX_LAYOUT(ox_written, 16, length, 8);
OX_LAYOUT(ox_place, 12, length, 8);
OX_LAYOUT(ox_span, 8, count, 4);
OX_LAYOUT(ox_name, 24, length, 16);
OX_LAYOUT(ox_placed, 32, entry, 16);
OX_LAYOUT(ox_normalized, 48, split, 40);
OX_LAYOUT(ox_classified, 24, mode_class, 20);
OX_LAYOUT(ox_frequency, 32, hz, 24);
OX_LAYOUT(ox_row, 20, value_length, 16);
OX_LAYOUT(ox_read_answer, 64, rows, 56);
OX_LAYOUT(ox_hertz, 16, hz, 8);
OX_LAYOUT(ox_dxcc, 16, size, 8);
OX_LAYOUT(ox_qso, 208, dxcc, 192);
OX_LAYOUT(ox_column_answer, 24, column, 16);
OX_LAYOUT(ox_qso_answer, 216, qso, 8);
OX_LAYOUT(ox_qso_written, 224, qso, 16);
OX_LAYOUT(ox_timed, 32, seconds, 24);
OX_LAYOUT(ox_contact, 56, timed, 52);
OX_LAYOUT(ox_mark_answer, 24, largest, 16);
OX_LAYOUT(ox_fresh_answer, 8, fresh, 4);
OX_LAYOUT(ox_append_answer, 16, length, 8);
OX_LAYOUT(ox_counts, 56, unusable, 48);
OX_LAYOUT(ox_plan_answer, 144, counts, 88);

#undef OX_LAYOUT

#ifdef __cplusplus
}
#endif

#endif
