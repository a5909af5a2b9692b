/* Every call of the library as C makes it: what it answers, what it refuses, and what a refusal leaves behind. Where a
 * call takes several texts, numbers or contacts, they differ, so that two of them exchanged would be seen. */
#include "oxbreathe.h"
#include <stdio.h>
#include <stdlib.h>
#include <string.h>

int self_test(void);

static unsigned passed, failed;

static void check(bool holds, const char *what, int line) {
    if (holds)
        passed++;
    else {
        failed++;
        printf("selftest.c:%d: not so: %s\n", line, what);
    }
}
#define CHECK(condition) check((condition), #condition, __LINE__)

/* A text one byte too long, of blanks. */
static char *too_long;
#define TOO_LONG too_long, OX_LONGEST + 1
#define NOTHING "", 0

static bool all_are(const void *bytes, size_t length, unsigned char byte) {
    const unsigned char *b = bytes;
    for (size_t i = 0; i < length; i++)
        if (b[i] != byte)
            return false;
    return true;
}
#define FILL(table) memset((table), 0xEE, sizeof(table))
#define IS_ZERO(table) all_are(&(table), sizeof(table), 0)
#define IS_UNTOUCHED(table) all_are(&(table), sizeof(table), 0xEE)

/* An output is `text` at its front and untouched behind it. */
static bool is_output(const char *out, size_t room, size_t length, const char *text) {
    return length == strlen(text) && memcmp(out, text, length) == 0 && all_are(out + length, room - length, 0xEE);
}

static bool is_name(ox_name name, const char *text) {
    return name.length == strlen(text) && memcmp(name.bytes, text, name.length) == 0 &&
           all_are(name.bytes + name.length, sizeof name.bytes - name.length, 0);
}

static void texts(void) {
    CHECK(ox_text_check(OX_TEXT("N\303\251vache")).place == 8);
    CHECK(ox_text_check(NOTHING).refusal == OX_ACCEPTED);
    ox_checked bad = ox_text_check(OX_TEXT("N\303"));
    CHECK(bad.refusal == OX_NOT_UTF8 && bad.place == 1);
    ox_checked longer = ox_text_check(TOO_LONG);
    CHECK(longer.refusal == OX_TOO_LONG && longer.place == 0);
    CHECK(ox_text_check(too_long, OX_LONGEST).place == OX_LONGEST);

    ox_trimmed kept = ox_text_trim(OX_TEXT("\343\200\20040m \n"));
    CHECK(kept.refusal == OX_ACCEPTED && kept.start == 3 && kept.end == 6);
    kept = ox_text_trim(OX_TEXT(" \377"));
    CHECK(kept.refusal == OX_NOT_UTF8 && kept.place == 1 && kept.start == 0 && kept.end == 0);
    CHECK(ox_text_trim(TOO_LONG).refusal == OX_TOO_LONG);

    CHECK(ox_text_blank(OX_TEXT(" \t")).yes && !ox_text_blank(OX_TEXT(" x")).yes);
    CHECK(ox_text_blank(OX_TEXT("\200")).refusal == OX_NOT_UTF8 && !ox_text_blank(OX_TEXT("\200")).yes);
    CHECK(ox_text_blank(TOO_LONG).refusal == OX_TOO_LONG);

    CHECK(ox_text_same(OX_TEXT("a"), OX_TEXT("a")).yes && !ox_text_same(OX_TEXT("a"), OX_TEXT("A")).yes);
    ox_told second = ox_text_same(OX_TEXT("ab"), OX_TEXT("c\377"));
    CHECK(second.refusal == OX_NOT_UTF8 && second.place == 3 && !second.yes);
    CHECK(ox_text_same(OX_TEXT("\377"), TOO_LONG).refusal == OX_TOO_LONG);
    CHECK(ox_text_same_raised(OX_TEXT("40m"), OX_TEXT("40M")).yes);
    CHECK(!ox_text_same_raised(OX_TEXT("\303\251"), OX_TEXT("\303\211")).yes);
    second = ox_text_same_raised(OX_TEXT("ab"), OX_TEXT("c\377"));
    CHECK(second.refusal == OX_NOT_UTF8 && second.place == 3 && !second.yes);
    CHECK(ox_text_same_raised(TOO_LONG, NOTHING).refusal == OX_TOO_LONG);
    CHECK(ox_text_order_raised(OX_TEXT("a"), OX_TEXT("B")).order == 0);
    CHECK(ox_text_order_raised(OX_TEXT("a"), OX_TEXT("A")).order == 1);
    CHECK(ox_text_order_raised(OX_TEXT("b"), OX_TEXT("A")).order == 2);
    CHECK(ox_text_order_raised(OX_TEXT("\377"), OX_TEXT("A")).refusal == OX_NOT_UTF8);

    CHECK(ox_text_find(OX_TEXT("<A:1>"), 1, ':').at == 2);
    CHECK(ox_text_find(OX_TEXT("<A:1>"), SIZE_MAX, ':').at == 5);
    CHECK(ox_text_find(OX_TEXT("\377"), 0, ':').refusal == OX_NOT_UTF8);

    ox_numbered most = ox_text_unsigned(OX_TEXT("18446744073709551615"));
    CHECK(most.present && !most.negative && most.size == UINT64_MAX);
    CHECK(!ox_text_unsigned(OX_TEXT("18446744073709551616")).present);
    CHECK(ox_text_unsigned(OX_TEXT("1\377")).place == 1);
    ox_numbered least = ox_text_signed(OX_TEXT("-9223372036854775808"));
    CHECK(least.present && least.negative && least.size == (uint64_t)1 << 63);
    CHECK(!ox_text_signed(OX_TEXT("9223372036854775808")).present);
    CHECK(!ox_text_signed(OX_TEXT("-0")).negative);
    CHECK(ox_text_signed(TOO_LONG).refusal == OX_TOO_LONG);

    char out[24];
    FILL(out);
    CHECK(ox_text_digits(1800, out, 3).refusal == OX_SHORT_OUTPUT && IS_UNTOUCHED(out));
    CHECK(is_output(out, sizeof out, ox_text_digits(1800, out, 4).length, "1800"));
}

static void bands_and_modes(void) {
    CHECK(ox_band_all().first == 0 && ox_band_all().count == 19);
    ox_place band = ox_band_for_freq_hz(7300000);
    CHECK(band.kind == OX_BAND_NAME && is_name(ox_entry_name(band.kind, band.start), "40m"));
    CHECK(ox_band_for_freq_hz(7300001).kind == OX_ABSENT && ox_band_for_freq_hz(UINT64_MAX).kind == OX_ABSENT);
    CHECK(is_name(ox_entry_name(OX_MODE_NAME, 3), "DIGITALVOICE"));
    CHECK(is_name(ox_entry_name(OX_MODE_NAME, 31), "") && is_name(ox_entry_name(5, 0), ""));

    ox_placed named = ox_band_canonical(OX_TEXT(" 70CM "));
    CHECK(named.entry.kind == OX_BAND_NAME && is_name(ox_entry_name(OX_BAND_NAME, named.entry.start), "70cm"));
    named = ox_band_canonical(OX_TEXT("70cm\377"));
    CHECK(named.refusal == OX_NOT_UTF8 && named.place == 4 && named.entry.kind == OX_ABSENT);
    CHECK(ox_band_canonical(TOO_LONG).refusal == OX_TOO_LONG);
    CHECK(ox_band_known(OX_TEXT("20m")).yes && !ox_band_known(OX_TEXT("21m")).yes);
    CHECK(ox_band_known(OX_TEXT("\377")).refusal == OX_NOT_UTF8);

    ox_normalized m = ox_mode_normalize(OX_TEXT(" usb"), NOTHING, false);
    CHECK(m.mode.kind == OX_MODE_NAME && is_name(ox_entry_name(OX_MODE_NAME, m.mode.start), "SSB"));
    m = ox_mode_normalize(OX_TEXT("data"), OX_TEXT(" js8 "), true);
    CHECK(is_name(ox_entry_name(m.mode.kind, m.mode.start), "MFSK") && !m.split);
    CHECK(m.submode.kind == OX_IN_CAPITALS && m.submode.start == 1 && m.submode.length == 3);
    m = ox_mode_normalize(OX_TEXT("ft4"), OX_TEXT("\377"), true);
    CHECK(m.refusal == OX_NOT_UTF8 && m.place == 3 && m.mode.kind == OX_ABSENT && m.submode.kind == OX_ABSENT);
    CHECK(ox_mode_normalize(NOTHING, TOO_LONG, false).refusal == OX_TOO_LONG);

    CHECK(ox_mode_class(OX_TEXT("ft8")).mode_class == OX_DIGITAL && !ox_mode_class(OX_TEXT("x")).present);
    CHECK(ox_mode_class(OX_TEXT("\377")).refusal == OX_NOT_UTF8);
    ox_classified image = ox_class_named(OX_TEXT(" IMAGE"));
    CHECK(image.present && image.mode_class == OX_IMAGE && !ox_class_named(OX_TEXT("SSB")).present);
    CHECK(ox_class_named(TOO_LONG).refusal == OX_TOO_LONG);
    CHECK(ox_class_modes(OX_CW).first == 4 && ox_class_modes(OX_CW).count == 1 && ox_class_modes(4).count == 0);
    CHECK(is_name(ox_class_name(OX_DIGITAL), "digital") && is_name(ox_class_name(4), ""));
}

static void frequencies(void) {
    CHECK(ox_mhz_to_hz(OX_TEXT(" 14.074 ")).hz == 14074000);
    CHECK(ox_mhz_to_hz(OX_TEXT("1e14")).hz == UINT64_MAX);
    CHECK(!ox_mhz_to_hz(OX_TEXT("-0.1")).present && ox_mhz_to_hz(OX_TEXT("nan")).present);
    CHECK(ox_mhz_to_hz(OX_TEXT("9007199254740993")).refusal == OX_INEXACT_FREQUENCY);
    CHECK(ox_mhz_to_hz(OX_TEXT("7\377")).place == 1 && ox_mhz_to_hz(TOO_LONG).refusal == OX_TOO_LONG);

    char out[24];
    FILL(out);
    CHECK(ox_hz_to_mhz(8589934592000000, out, sizeof out).refusal == OX_HIGH_FREQUENCY && IS_UNTOUCHED(out));
    CHECK(ox_hz_to_mhz(14074000, out, 8).refusal == OX_SHORT_OUTPUT && IS_UNTOUCHED(out));
    CHECK(is_output(out, sizeof out, ox_hz_to_mhz(14074000, out, 9).length, "14.074000"));
    FILL(out);
    CHECK(is_output(out, sizeof out, ox_hz_to_mhz(8589934591999999, out, 17).length, "8589934591.999999"));
}

/* Two contacts of W1AW, with the ids 7 and 9; gives the list's length. */
static size_t list_of_two(uint8_t *list, size_t room) {
#define REST OX_TEXT("40m"), OX_TEXT("SSB")
    ox_append_answer list_is = ox_contacts_start(list, room);
    list_is = ox_contacts_append(list, room, list_is.length, 0, 0, 7, OX_LOTW, OX_TEXT("W1AW"), OX_TEXT("20260301"),
                                 OX_TEXT("1200"), REST);
    list_is = ox_contacts_append(list, room, list_is.length, 1, 7, 9, 0, OX_TEXT("W1AW"), OX_TEXT("20260301"),
                                 OX_TEXT("1800"), REST);
    return list_is.length;
#undef REST
}

/* A reading is refused, and so is a plan against two contacts; both leave what they were lent zero. */
static void refused(const char *text, size_t length, uint32_t *table, size_t numbers, ox_read_answer why) {
    memset(table, 0xEE, numbers * sizeof *table);
    ox_read_answer read = ox_read(text, length, table, numbers);
    CHECK(read.refusal == why.refusal && read.place == why.place);
    CHECK(read.name == why.name && read.name_length == why.name_length);
    CHECK(read.wanted == why.wanted && read.left == why.left && read.records == 0 && read.rows == 0);
    CHECK(all_are(table, numbers * sizeof *table, 0));

    uint8_t list[96];
    size_t list_length = list_of_two(list, sizeof list);
    ox_contact index[2];
    ox_fate_row fates[2];
    ox_confirmation_row confirmations[2];
    memset(table, 0xEE, numbers * sizeof *table);
    FILL(index);
    FILL(fates);
    FILL(confirmations);
    ox_plan_answer plan = ox_plan(text, length, list, list_length, 1800, false, table, numbers, index, 2, fates, 2,
                                  confirmations, 2);
    CHECK(plan.refusal == why.refusal && plan.place == why.place);
    CHECK(plan.name == why.name && plan.name_length == why.name_length);
    CHECK(plan.wanted == why.wanted && plan.left == why.left && plan.records == 0 && plan.contacts == 0);
    CHECK(all_are(table, numbers * sizeof *table, 0) && IS_ZERO(index) && IS_ZERO(fates) && IS_ZERO(confirmations));
}

/* Each refusal of the reader but for those of too much, with the place of the tag or of the end. */
static void refused_readings(void) {
    static const struct {
        const char *text;
        ox_read_answer why;
    } cases[] = {
        {"<A:1>x<EOR>\377", {OX_NOT_UTF8, 11, 0, 0, 0, 0, 0, 0}},
        {"<A:1>x<EOR><A", {OX_UNTERMINATED_TAG, 11, 0, 0, 0, 0, 0, 0}},
        {"<A:1>x<EOR>< AB >x", {OX_MISSING_LENGTH, 11, 13, 2, 0, 0, 0, 0}},
        {"<A:18446744073709551616>x", {OX_BAD_LENGTH, 0, 1, 1, 0, 0, 0, 0}},
        {"\303\251 <:x>", {OX_BAD_LENGTH, 3, 0, 0, 0, 0, 0, 0}},
        {"<N:3><B><A:18446744073709551615>x", {OX_TRUNCATED_VALUE, 8, 9, 1, UINT64_MAX, 1, 0, 0}},
        {"first <A:1>\303\251<EOR>", {OX_CUT_CHARACTER, 6, 7, 1, 0, 0, 0, 0}},
        {"<A:1>x<B:1>y<C:1>z<D:1>w<EOR>", {OX_FEW_ROWS, 24, 0, 0, 0, 0, 0, 0}},
        {"<A:1>x<EOR><A:1>y<B:1>z<C:1>w", {OX_FEW_ROWS, 29, 0, 0, 0, 0, 0, 0}},
        {"<A:1>x<EOR><A:1>y<B:1>z<C:1>w<APP_LOTW_EOF> more", {OX_FEW_ROWS, 48, 0, 0, 0, 0, 0, 0}},
    };
    uint32_t table[3 * OX_ROW + 1];
    for (size_t i = 0; i < sizeof cases / sizeof *cases; i++)
        refused(cases[i].text, strlen(cases[i].text), table, 3 * OX_ROW + 1, cases[i].why);
    ox_read_answer longer = {OX_TOO_LONG, 0, 0, 0, 0, 0, 0, 0};
    refused(TOO_LONG, table, OX_ROW, longer);
}

/* 257 names in one record and in a header, and 65,536 records, the last closed by the end, EOR or APP_LOTW_EOF. */
static void too_many(void) {
    static char text[OX_MOST_RECORDS * 16];
    static uint32_t table[(OX_MOST_RECORDS + 1) * OX_ROW];
    size_t length = 0, numbers = sizeof table / sizeof *table;
    ox_read_answer names = {OX_MANY_NAMES, 0, 0, 0, 0, 0, 0, 0}, records = {OX_MANY_RECORDS, 0, 0, 0, 0, 0, 0, 0};
    for (int i = 0; i < OX_MOST_NAMES; i++)
        length += (size_t)sprintf(text + length, "<A%d:0>", i);
    FILL(table);
    CHECK(ox_read(text, length, table, numbers).refusal == OX_ACCEPTED && IS_ZERO(table));
    names.place = length;
    length += (size_t)sprintf(text + length, "<A%d:0>", OX_MOST_NAMES);
    refused(text, length, table, numbers, names);
    length += (size_t)sprintf(text + length, "<EOH><A:0><EOR>");
    refused(text, length, table, numbers, names);

    length = 0;
    for (int i = 0; i < OX_MOST_RECORDS; i++)
        length += (size_t)sprintf(text + length, "<A:0><EOR>");
    CHECK(ox_read(text, length, table, numbers).records == OX_MOST_RECORDS);
    length += (size_t)sprintf(text + length, "<A:0>");
    records.place = length;
    refused(text, length, table, numbers, records);
    refused(text, length + (size_t)sprintf(text + length, "<EOR> more"), table, numbers, records);
    records.place += (size_t)sprintf(text + length, "<APP_LOTW_EOF> more");
    refused(text, records.place, table, numbers, records);
}

static void reading(void) {
    static const char text[] = "<call:4>W1AW <NOTE:5><EOR><EOR> <A:+02:S>xy";
    uint32_t table[4 * OX_ROW + 2];
    FILL(table);
    ox_read_answer read = ox_read(text, sizeof text - 1, table, sizeof table / 4);
    CHECK(read.refusal == OX_ACCEPTED && read.records == 2 && read.rows == 3);
    ox_row note = ox_row_at(table, 1), last = ox_row_at(table, 2);
    CHECK(note.record == 1 && note.name_length == 4 && memcmp(text + note.value, "<EOR>", note.value_length) == 0);
    CHECK(last.record == 2 && last.value_length == 2 && memcmp(text + last.value, "xy", 2) == 0);
    CHECK(all_are(table + 3 * OX_ROW, sizeof table - 3 * OX_ROW * sizeof *table, 0));
    refused_readings();
    too_many();
}

static void writing(void) {
    static const char text[] = "callW1AWEOR";
    uint32_t rows[] = {1, 0, 4, 4, 4, 2, 0, 4, 4, 0};
    char out[64];
    FILL(out);
    CHECK(ox_write(OX_TEXT(text), rows, 10, 3, out, sizeof out).refusal == OX_BAD_ROW && IS_UNTOUCHED(out));
    CHECK(ox_write(OX_TEXT(text), rows, 10, 2, out, 33).refusal == OX_SHORT_OUTPUT && IS_UNTOUCHED(out));
    CHECK(ox_write(TOO_LONG, rows, 10, 2, out, sizeof out).refusal == OX_TOO_LONG && IS_UNTOUCHED(out));
    ox_written written = ox_write(OX_TEXT(text), rows, 10, 2, out, sizeof out);
    CHECK(is_output(out, sizeof out, written.length, "<CALL:4>W1AW <EOR>\n<CALL:0> <EOR>\n"));
    uint32_t control[] = {1, 8, 3, 0, 0}, outside[] = {1, 0, 4, 8, 4};
    FILL(out);
    CHECK(ox_write(OX_TEXT(text), control, 5, 1, out, sizeof out).refusal == OX_BAD_NAME && IS_UNTOUCHED(out));
    CHECK(ox_write(OX_TEXT(text), outside, 5, 1, out, sizeof out).refusal == OX_BAD_ROW && IS_UNTOUCHED(out));

    CHECK(ox_journal_header(out, 44).refusal == OX_SHORT_OUTPUT && IS_UNTOUCHED(out));
    written = ox_journal_header(out, sizeof out);
    CHECK(is_output(out, sizeof out, written.length, "<ADIF_VER:5>3.1.6 <PROGRAMID:7>rigflow <EOH>\n"));

    char header[128];
    FILL(header);
    written = ox_export_header(OX_TEXT("3.1.6"), OX_TEXT("\377"), NOTHING, header, 0);
    CHECK(written.refusal == OX_BAD_ROW && IS_UNTOUCHED(header));
    written = ox_export_header(OX_TEXT("3.1.6"), OX_TEXT("1"), NOTHING, header, 50);
    CHECK(written.refusal == OX_SHORT_OUTPUT && IS_UNTOUCHED(header));
    written = ox_export_header(TOO_LONG, OX_TEXT("1"), NOTHING, header, 50);
    CHECK(written.refusal == OX_TOO_LONG && IS_UNTOUCHED(header));
    written = ox_export_header(OX_TEXT("3.1.6"), OX_TEXT("1"), NOTHING, header, sizeof header);
    CHECK(is_output(header, sizeof header, written.length,
                    "<ADIF_VER:5>3.1.6 <PROGRAMID:7>rigflow <PROGRAMVERSION:1>1 <CREATED_TIMESTAMP:0> <EOH>\n"));

    char fields[160];
    FILL(fields);
#define STATION(call, itu, room) ox_station_fields(call, NOTHING, NOTHING, NOTHING, NOTHING, NOTHING, itu, fields, room)
    CHECK(STATION(OX_TEXT("DL0XX"), OX_TEXT("\377"), 80).refusal == OX_BAD_ROW && IS_UNTOUCHED(fields));
    CHECK(STATION(OX_TEXT("DL0XX"), OX_TEXT(" 28"), 9).refusal == OX_SHORT_OUTPUT && IS_UNTOUCHED(fields));
    /* too long, though nothing of it would be written; but not UTF-8 comes first */
    CHECK(STATION(OX_TEXT("DL0XX"), TOO_LONG, 160).refusal == OX_TOO_LONG && IS_UNTOUCHED(fields));
#define LONGEST too_long, OX_LONGEST
    CHECK(STATION(OX_TEXT("DL0XX"), LONGEST, 0).refusal == OX_SHORT_OUTPUT && IS_UNTOUCHED(fields));
    CHECK(STATION(OX_TEXT("\377"), TOO_LONG, 160).refusal == OX_BAD_ROW && IS_UNTOUCHED(fields));
    written = STATION(OX_TEXT("DL0XX"), OX_TEXT(" 28"), 80);
#undef STATION
    CHECK(is_output(fields, sizeof fields, written.length,
                    "<MY_ITU_ZONE:2>28 <OPERATOR:5>DL0XX <STATION_CALLSIGN:5>DL0XX "));
    FILL(fields);
    written = ox_station_fields(OX_TEXT("DL0XX"), OX_TEXT("JO62"), OX_TEXT("Anna"), OX_TEXT("BB"), OX_TEXT("Barnim"),
                                OX_TEXT("14"), OX_TEXT("28"), fields, sizeof fields);
    CHECK(is_output(fields, sizeof fields, written.length,
                    "<MY_CNTY:6>Barnim <MY_CQ_ZONE:2>14 <MY_GRIDSQUARE:4>JO62 <MY_ITU_ZONE:2>28 <MY_NAME:4>Anna "
                    "<MY_STATE:2>BB <OPERATOR:5>DL0XX <STATION_CALLSIGN:5>DL0XX "));
}

/* A record and its contact. */
typedef struct contact {
    const char *text;
    size_t length;
    uint32_t table[8 * OX_ROW];
    size_t rows;
    ox_qso qso;
} contact;

static contact contact_of(const char *text) {
    contact c = {text, strlen(text), {0}, 0, {{{0, 0, 0}}, {0, 0}, {0, 0}, {0, 0, 0}}};
    c.rows = ox_read(text, c.length, c.table, 8 * OX_ROW).rows;
    c.qso = ox_record_to_normal_qso(text, c.length, c.table, 8 * OX_ROW, 0, c.rows).qso;
    return c;
}

static bool same_qso(ox_qso a, ox_qso b) {
    return memcmp(a.columns, b.columns, sizeof a.columns) == 0 && a.freq.given == b.freq.given &&
           a.freq.hz == b.freq.hz && a.freq_rx.given == b.freq_rx.given && a.freq_rx.hz == b.freq_rx.hz &&
           a.dxcc.given == b.dxcc.given && a.dxcc.negative == b.dxcc.negative && a.dxcc.size == b.dxcc.size;
}

static void contacts(void) {
    CHECK(ox_column(OX_TEXT("dxcc")).column == OX_DXCC && ox_column(OX_TEXT("CALL")).column == OX_CALL);
    CHECK(ox_column(OX_TEXT("BAND_RX")).column == OX_BAND_RX && ox_column(NOTHING).column == OX_COLUMNS);
    ox_column_answer bad = ox_column(OX_TEXT("DXCC\377"));
    CHECK(bad.refusal == OX_NOT_UTF8 && bad.place == 4 && bad.column == 0);
    bad = ox_column(TOO_LONG);
    CHECK(bad.refusal == OX_TOO_LONG && bad.place == 0 && bad.column == 0);

    contact c = contact_of("<CALL:4>w1aw<BAND:3>40M<MODE:3>usb<FREQ:5>7.155<DXCC:3>291<NAME:5>Hiram<EOR>");
    ox_qso_answer mapped = ox_record_to_qso(c.text, c.length, c.table, 8 * OX_ROW, 0, c.rows);
    CHECK(mapped.refusal == OX_ACCEPTED && mapped.qso.freq.given == 1 && mapped.qso.freq.hz == 7155000);
    CHECK(mapped.qso.dxcc.given == 1 && !mapped.qso.dxcc.negative && mapped.qso.dxcc.size == 291);
    CHECK(!mapped.qso.freq_rx.given && mapped.qso.columns[OX_TIME_ON].kind == OX_ABSENT);
    CHECK(mapped.qso.columns[OX_CALL].kind == OX_AS_IT_STANDS && mapped.qso.columns[OX_CALL].start == 8);
    ox_qso_answer none = ox_record_to_qso(c.text, c.length, c.table, 8 * OX_ROW, 6, 5);
    ox_qso empty = {{{0, 0, 0}}, {0, 0}, {0, 0}, {0, 0, 0}};
    CHECK(none.refusal == OX_BAD_ROW && same_qso(none.qso, empty));
    CHECK(ox_record_to_qso(TOO_LONG, c.table, 8 * OX_ROW, 0, c.rows).refusal == OX_TOO_LONG);

    ox_qso_answer normal = ox_record_to_normal_qso(c.text, c.length, c.table, 8 * OX_ROW, 0, c.rows);
    CHECK(normal.refusal == OX_ACCEPTED && normal.qso.columns[OX_BAND].kind == OX_BAND_NAME);
    CHECK(ox_record_to_normal_qso(c.text, 3, c.table, 8 * OX_ROW, 0, c.rows).refusal == OX_BAD_ROW);
    contact inexact = contact_of("<CALL:1>A<FREQ:16>9007199254740993<FREQ_RX:1>7<EOR>");
    ox_qso_answer refused = ox_record_to_normal_qso(inexact.text, inexact.length, inexact.table, 8 * OX_ROW, 0, 3);
    CHECK(refused.refusal == OX_INEXACT_FREQUENCY && !refused.qso.freq.given && !refused.qso.freq_rx.given);
    CHECK(refused.qso.columns[OX_CALL].length == 1);

    /* one row of the second record, from row 2 on */
    static const char two[] = "<CALL:4>G4ZZ<BAND:3>20m<EOR><CALL:4>W1AW<EOR>";
    uint32_t rows[3 * OX_ROW];
    CHECK(ox_read(OX_TEXT(two), rows, 3 * OX_ROW).rows == 3);
    ox_qso_answer behind = ox_record_to_qso(OX_TEXT(two), rows, 3 * OX_ROW, 2, 1);
    CHECK(behind.refusal == OX_ACCEPTED && memcmp(two + behind.qso.columns[OX_CALL].start, "W1AW", 4) == 0);
    behind = ox_record_to_normal_qso(OX_TEXT(two), rows, 3 * OX_ROW, 2, 1);
    CHECK(behind.refusal == OX_ACCEPTED && memcmp(two + behind.qso.columns[OX_CALL].start, "W1AW", 4) == 0);

    ox_qso_answer again = ox_normalize_qso(c.text, c.length, mapped.qso);
    CHECK(again.refusal == OX_ACCEPTED && same_qso(again.qso, normal.qso));
    again = ox_normalize_qso(c.text, 3, mapped.qso);
    CHECK(again.refusal == OX_BAD_ROW && same_qso(again.qso, mapped.qso));

    /* a flag that is neither 0 nor 1 */
    char out[128];
    FILL(out);
    for (int flag = 0; flag < 4; flag++) {
        bool refused_by_all = true;
        for (int value = 2; value < 256; value++) {
            ox_qso q = normal.qso;
            *(flag == 0 ? &q.freq.given : flag == 1 ? &q.freq_rx.given : flag == 2 ? &q.dxcc.given : &q.dxcc.negative) =
                (uint8_t)value;
            again = ox_normalize_qso(c.text, c.length, q);
            refused_by_all &= again.refusal == OX_BAD_ROW && same_qso(again.qso, q);
            ox_qso_written unwritten = ox_write_qso(c.text, c.length, q, c.table, 0, 0, out, sizeof out);
            refused_by_all &= unwritten.refusal == OX_BAD_ROW && same_qso(unwritten.qso, q) && IS_UNTOUCHED(out);
            ox_told apart = ox_in_log(c.text, c.length, normal.qso, c.text, c.length, q);
            refused_by_all &= apart.refusal == OX_BAD_ROW && !apart.yes;
        }
        CHECK(refused_by_all);
    }

    uint32_t *name = c.table + 5 * OX_ROW; /* the sixth row: NAME */
    ox_qso_written back = ox_write_qso(c.text, c.length, normal.qso, name, OX_ROW, 1, out, 20);
    CHECK(back.refusal == OX_SHORT_OUTPUT && back.length == 0 && same_qso(back.qso, normal.qso) && IS_UNTOUCHED(out));
    ox_qso high = normal.qso;
    high.freq.hz = 8589934592000000;
    back = ox_write_qso(c.text, c.length, high, name, OX_ROW, 1, out, sizeof out);
    CHECK(back.refusal == OX_HIGH_FREQUENCY && same_qso(back.qso, high) && IS_UNTOUCHED(out));
    back = ox_write_qso(c.text, c.length, normal.qso, name, OX_ROW, 2, out, sizeof out);
    CHECK(back.refusal == OX_BAD_ROW && IS_UNTOUCHED(out));
    back = ox_write_qso(c.text, c.length, normal.qso, name, OX_ROW, 1, out, sizeof out);
    CHECK(is_output(out, sizeof out, back.length,
                    "<BAND:3>40m <CALL:4>w1aw <DXCC:3>291 <FREQ:8>7.155000 <MODE:3>SSB <NAME:5>Hiram <QSO_DATE:0> "
                    "<TIME_ON:0> <EOR>\n"));
}

static void duplicates(void) {
    CHECK(ox_parse_dt(OX_TEXT(" 00000102"), OX_TEXT("0000 ")).seconds == 86400);
    CHECK(!ox_parse_dt(OX_TEXT("20260231"), OX_TEXT("1200")).present);
    CHECK(ox_parse_dt(OX_TEXT("20260301"), OX_TEXT("12\377")).place == 10);
    CHECK(ox_parse_dt(TOO_LONG, OX_TEXT("1200")).refusal == OX_TOO_LONG);

    contact a = contact_of("<CALL:4>W1AW<QSO_DATE:8>20260301<TIME_ON:4>1200<BAND:3>40m<MODE:3>SSB<EOR>");
    contact b = contact_of("<CALL:5>w1aw <QSO_DATE:8>20260301<TIME_ON:4>1230<BAND:3>40m<MODE:3>SSB<EOR>");
    contact c = contact_of("<MODE:3>SSB<CALL:4>w1aw<TIME_ON:4>1200<QSO_DATE:8>20260301<BAND:3>40m<EOR>");
#define A a.text, a.length, a.qso
#define B b.text, b.length, b.qso
#define C c.text, c.length, c.qso
    CHECK(ox_in_log(A, A).yes && !ox_in_log(A, B).yes && ox_in_file(A, B).yes);
    /* each contact over its own text, whose fields stand elsewhere */
    CHECK(ox_in_log(A, C).yes && ox_in_file(A, C).yes && ox_same_natural_key(A, C).yes);
    CHECK(ox_within_window(A, C, 0).yes && ox_is_duplicate(A, C, 0).yes);
    CHECK(ox_same_natural_key(A, B).yes && !ox_same_natural_key(B, A).yes);
    CHECK(ox_within_window(A, B, 1800).yes && !ox_within_window(A, B, 1799).yes);
    CHECK(!ox_within_window(A, A, -1).yes && ox_within_window(A, B, INT64_MAX).yes);
    CHECK(ox_is_duplicate(A, B, 1800).yes && !ox_is_duplicate(A, B, 0).yes);
    CHECK(ox_in_log(A, b.text, 3, b.qso).refusal == OX_BAD_ROW);
    CHECK(ox_in_file(A, b.text, 3, b.qso).refusal == OX_BAD_ROW);
    CHECK(ox_same_natural_key(a.text, 3, a.qso, B).refusal == OX_BAD_ROW);
    CHECK(ox_within_window(A, TOO_LONG, b.qso, 1800).refusal == OX_TOO_LONG);
    ox_told bad = ox_is_duplicate(a.text, 3, a.qso, B, 1800);
    CHECK(bad.refusal == OX_BAD_ROW && bad.place == 0 && !bad.yes);
#undef A
#undef B
#undef C
}

static void lists(void) {
    uint8_t list[96];
    FILL(list);
    CHECK(ox_contacts_start(list, 4).refusal == OX_SHORT_OUTPUT && IS_UNTOUCHED(list));
    CHECK(ox_contacts_start(list, sizeof list).length == 5 && memcmp(list, "\1\0\0\0\0\xEE", 6) == 0);
#define APPEND(room, used, contacts, largest, id, services, date)                                                      \
    ox_contacts_append(list, room, used, contacts, largest, id, services, OX_TEXT("W1AW"), date, 8, OX_TEXT("1200"),   \
                       OX_TEXT("40m"), OX_TEXT("SSB"))
    uint8_t before[sizeof list];
    memcpy(before, list, sizeof list);
    CHECK(APPEND(sizeof list, 0, 0, 0, 7, 0, "20260301").refusal == OX_MALFORMED_LIST);
    CHECK(APPEND(sizeof list, 4, 0, 0, 7, 0, "20260301").refusal == OX_MALFORMED_LIST);
    CHECK(APPEND(sizeof list, 5, 1, 0, 7, 0, "20260301").refusal == OX_MALFORMED_LIST);
    CHECK(APPEND(sizeof list, 5, 4294967294, 0, 7, 0, "20260301").refusal == OX_MALFORMED_LIST);
    CHECK(APPEND(sizeof list, 5, 0, 0, 7, 16, "20260301").refusal == OX_MALFORMED_LIST);
    CHECK(APPEND(sizeof list, 5, 0, 0, 7, 0, "2026-3-1").refusal == OX_MALFORMED_LIST);
    CHECK(APPEND(sizeof list, 5, 0, 7, 7, 0, "20260301").refusal == OX_IDS_NOT_RISING);
    CHECK(APPEND(sizeof list, OX_LONGEST, 0, 0, 7, 0, "20260301").refusal == OX_TOO_LONG);
    CHECK(APPEND(sizeof list, OX_LONGEST + 1, 0, 0, 7, 0, "20260301").refusal == OX_TOO_LONG);
    CHECK(APPEND(37, 5, 0, 0, 7, 0, "20260301").refusal == OX_SHORT_OUTPUT);
    CHECK(ox_contacts_append(list, sizeof list, 5, 0, 0, 7, 0, TOO_LONG, OX_TEXT("20260301"), OX_TEXT("1200"), NOTHING,
                             NOTHING).refusal == OX_TOO_LONG);
    CHECK(memcmp(before, list, sizeof list) == 0);
    FILL(list); /* five bytes that are no list, and a count that cannot grow */
    CHECK(APPEND(sizeof list, 5, 0xEEEEEEEE, 0, 7, 0, "20260301").refusal == OX_LIST_VERSION && IS_UNTOUCHED(list));
    memset(list, 0xFF, 5);
    list[0] = 1;
    CHECK(APPEND(sizeof list, 5, UINT32_MAX, 0, 7, 0, "20260301").refusal == OX_MALFORMED_LIST && list[4] == 0xFF);
    FILL(list);
#undef APPEND
    size_t length = list_of_two(list, sizeof list);
    CHECK(length == 5 + 2 * (16 + 22) && list[4] == 2 && list[length] == 0xEE);
    static const char first[] = "\0\44\0\0\0\0\0\0\0\7\1\4W1AW\10" "20260301\4" "1200\3" "40m\3SSB";
    CHECK(memcmp(list + 5, first, sizeof first - 1) == 0);

    ox_mark_answer mark = ox_contacts_check(list, length);
    CHECK(mark.refusal == OX_ACCEPTED && mark.contacts == 2 && mark.largest == 9);
    CHECK(ox_contacts_check((const uint8_t *)"", 0).refusal == OX_MALFORMED_LIST);
    CHECK(ox_contacts_check((const uint8_t *)"\2", 1).refusal == OX_LIST_VERSION);
    CHECK(ox_contacts_check((const uint8_t *)TOO_LONG).refusal == OX_TOO_LONG);
    CHECK(ox_contacts_fresh(2, 9, list, length).fresh && !ox_contacts_fresh(2, 8, list, length).fresh);
    ox_fresh_answer stale = ox_contacts_fresh(2, 9, list, length - 1);
    CHECK(stale.refusal == OX_MALFORMED_LIST && !stale.fresh);

    ox_contact index[3];
    FILL(index);
    CHECK(ox_contacts_index(list, length, index, 1).refusal == OX_SHORT_TABLE && IS_ZERO(index[0]));
    CHECK(IS_UNTOUCHED(index[1]));
    CHECK(ox_contacts_index(list, length, index, 3).largest == 9 && IS_ZERO(index[2]));
    CHECK(index[1].id == 9 && index[0].services == OX_LOTW);
    CHECK(memcmp(list + index[1].call, "\4W1AW", 5) == 0 && memcmp(list + index[1].date, "\10" "20260301", 9) == 0);
    CHECK(memcmp(list + index[1].time, "\0041800", 5) == 0);
    CHECK(memcmp(list + index[1].band, "\3" "40m", 4) == 0 && memcmp(list + index[1].mode, "\3SSB", 4) == 0);
    CHECK(index[1].timed == 1 && index[1].seconds == ox_parse_dt(OX_TEXT("20260301"), OX_TEXT("1800")).seconds);
    /* one chain: its last contact is the second, which the first is before */
    CHECK(index[0].code == index[1].code && index[0].head + index[1].head == 2);
    CHECK(index[0].next == 0 && index[1].next == 1);

    uint64_t matches[4];
    FILL(matches);
    mark = ox_contacts_search(list, length, list, length, 1800, index, 3, matches, 4);
    CHECK(mark.contacts == 2 && matches[0] == 1 && matches[1] == 2 && matches[2] == 0 && matches[3] == 0);
    ox_contacts_search(list, length, list, length, 21600, index, 3, matches, 4);
    CHECK(matches[1] == 1);
    uint8_t other[48]; /* one contact, like the second of the list */
    size_t used = ox_contacts_start(other, sizeof other).length;
    used = ox_contacts_append(other, sizeof other, used, 0, 0, 4, 0, OX_TEXT("W1AW"), OX_TEXT("20260301"),
                              OX_TEXT("1801"), OX_TEXT("40m"), OX_TEXT("SSB")).length;
    mark = ox_contacts_search(list, length, other, used, 1800, index, 3, matches, 4);
    CHECK(mark.contacts == 1 && mark.largest == 4 && matches[0] == 2 && matches[1] == 0);
    FILL(matches);
    mark = ox_contacts_search(list, length, list, length, 1800, index, 3, matches, 1);
    CHECK(mark.refusal == OX_SHORT_TABLE && matches[0] == 0 && IS_ZERO(index));
    FILL(matches);
    FILL(index);
    mark = ox_contacts_search(list, length, list, 7, 1800, index, 3, matches, 4);
    CHECK(mark.refusal == OX_MALFORMED_LIST && IS_ZERO(matches) && IS_ZERO(index));
    FILL(index);
    mark = ox_contacts_search(list, length - 1, list, length, 1800, index, 3, matches, 4);
    CHECK(mark.refusal == OX_MALFORMED_LIST && IS_ZERO(index));
    list[14] = 9; /* the first id becomes the second */
    CHECK(ox_contacts_check(list, length).refusal == OX_IDS_NOT_RISING);
}

/* The tables of a plan, all of them used. */
typedef struct tables {
    uint32_t table[22 * OX_ROW];
    ox_contact index[2];
    ox_fate_row fates[5];
    ox_confirmation_row confirmations[2];
} tables;

static ox_plan_answer planned(tables *t, const char *file, size_t length, const uint8_t *list, size_t list_length,
                              bool download, size_t records, size_t confirmations) {
    memset(t, 0xEE, sizeof *t);
    return ox_plan(file, length, list, list_length, 1800, download, t->table, 22 * OX_ROW, t->index, 2, t->fates,
                   records, t->confirmations, confirmations);
}

static void plans(void) {
    /* a duplicate in the log, one to import, one like it, an unusable record, and a card for contact 9 */
    static const char file[] =
        "<CALL:4>w1aw<QSO_DATE:8>20260301<TIME_ON:4>1210<BAND:3>40M<MODE:3>USB<EOR>"
        "<CALL:4>G4ZZ<QSO_DATE:8>20260301<TIME_ON:4>1210<BAND:3>40M<MODE:3>USB<EOR>"
        "<CALL:4>g4zz<QSO_DATE:8>20260301<TIME_ON:4>1211<FREQ:4>7.15<MODE:3>SSB<EOR>"
        "<CALL:4>G4ZZ<EOR>"
        "<CALL:4>W1AW<QSO_DATE:8>20260301<TIME_ON:4>1801<BAND:3>40m<MODE:3>SSB<QSL_RCVD:1>Y<EOR>";
    uint8_t list[96];
    size_t length = list_of_two(list, sizeof list);
    static tables t;
    ox_plan_answer plan = planned(&t, OX_TEXT(file), list, length, false, 5, 2);
    CHECK(plan.refusal == OX_ACCEPTED && plan.records == 5 && plan.rows == 22 && plan.confirmations == 1);
    CHECK(plan.contacts == 2 && plan.largest == 9 && plan.counts.total == 5 && plan.counts.importable == 1);
    CHECK(plan.counts.duplicates == 2 && plan.counts.unusable == 1 && plan.counts.confirmations == 1);
    CHECK(plan.counts.already_confirmed == 0 && plan.counts.unmatched == 0);
    CHECK(t.fates[0][0] == OX_DUPLICATE_IN_LOG && t.fates[1][0] == OX_IMPORTABLE);
    CHECK(t.fates[2][0] == OX_DUPLICATE_IN_FILE && t.fates[3][0] == OX_UNUSABLE && t.fates[3][1] == OX_BAD_DATE);
    CHECK(t.fates[4][0] == OX_CONFIRMED && all_are(t.fates[4] + 1, 27 * 4, 0));
    CHECK(t.confirmations[0][0] == 9 && t.confirmations[0][1] == 0 && t.confirmations[0][2] == OX_QSL);
    CHECK(memcmp(file + t.confirmations[0][3], "20260301", t.confirmations[0][4]) == 0 && IS_ZERO(t.confirmations[1]));
    plan = planned(&t, OX_TEXT(file), list, length, true, 5, 2);
    CHECK(t.fates[1][0] == OX_IGNORED && t.fates[4][0] == OX_CONFIRMED && plan.counts.importable == 0);
    plan = planned(&t, OX_TEXT(file), (const uint8_t *)"\1\0\0\0", 5, false, 5, 0);
    CHECK(t.fates[0][0] == OX_IMPORTABLE && t.fates[4][0] == OX_UNMATCHED && plan.counts.unmatched == 1);

    /* what is lent is zero after each refusal */
    plan = planned(&t, OX_TEXT(file), list, length - 1, false, 5, 2);
    CHECK(plan.refusal == OX_MALFORMED_LIST && all_are(&t, sizeof t, 0));
    plan = planned(&t, OX_TEXT("first <CALL:9>W1AW"), list, length - 1, false, 5, 2);
    CHECK(plan.refusal == OX_MALFORMED_LIST && plan.place == 0 && plan.name == 0 && plan.wanted == 0);
    plan = planned(&t, OX_TEXT(file), list, length, false, 4, 2);
    CHECK(plan.refusal == OX_SHORT_TABLE && IS_ZERO(t.table) && IS_ZERO(t.index) && IS_ZERO(t.confirmations));
    plan = planned(&t, OX_TEXT(file), list, length, false, 5, 0);
    CHECK(plan.refusal == OX_SHORT_TABLE && IS_ZERO(t.table) && IS_ZERO(t.index) && IS_ZERO(t.fates));

    char out[OX_SUMMARY];
    FILL(out);
    ox_counts counts = {3, 1, 0, 0, 1, 0, 1};
    CHECK(ox_plan_summary(counts, out, 60).refusal == OX_SHORT_OUTPUT && IS_UNTOUCHED(out));
    CHECK(is_output(out, sizeof out, ox_plan_summary(counts, out, sizeof out).length,
                    "3 records \302\267 1 to import \302\267 1 duplicate (skipped) \302\267 1 unusable"));
    FILL(out);
    ox_counts distinct = {.total = 2, .importable = 3, .confirmations = 4, .already_confirmed = 5,
                          .duplicates = 6, .unmatched = 7, .unusable = 8};
    CHECK(is_output(out, sizeof out, ox_plan_summary(distinct, out, sizeof out).length,
                    "2 records \302\267 3 to import \302\267 4 confirmations \302\267 5 already confirmed \302\267 "
                    "6 duplicates (skipped) \302\267 7 confirmations unmatched \302\267 8 unusable"));
    ox_counts most = {UINT64_MAX, UINT64_MAX, UINT64_MAX, UINT64_MAX, UINT64_MAX, UINT64_MAX, UINT64_MAX};
    CHECK(ox_plan_summary(most, out, sizeof out).length == OX_SUMMARY);
}

int self_test(void) {
    too_long = malloc(OX_LONGEST + 1);
    if (!too_long) {
        perror("no memory");
        return 2;
    }
    memset(too_long, ' ', OX_LONGEST + 1);
    texts();
    bands_and_modes();
    frequencies();
    reading();
    writing();
    contacts();
    duplicates();
    lists();
    plans();
    free(too_long);
    printf("%u passed, %u failed\n", passed, failed);
    return failed > 0 || passed == 0;
}
