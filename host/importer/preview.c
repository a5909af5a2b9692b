/* What an importer in C does before it imports: it tells what importing a file would do.
 *   preview FILE [LOG]    both ADIF; the contacts of LOG are those that the log has already, by default none
 *   preview --self-test   every call of the library, see selftest.c
 * It prints a line a record, as showplan does, with the reason in words; what would be confirmed; and the summary. Of a
 * refused file it prints the number of the refusal and the place, as showplan does, with the meaning in words.
 * Exit status: 0 previewed, 1 refused, 2 bad usage, an unreadable file or no memory. */
#include "oxbreathe.h"
#include <inttypes.h>
#include <stdio.h>
#include <stdlib.h>
#include <string.h>

int self_test(void);

enum { WINDOW = 1800 };

static const char *const refusals[] = {
    "accepted",
    "above 16,777,216 bytes",
    "not UTF-8",
    "a tag without its >",
    "a field without a length",
    "a length that is no number",
    "a value longer than what is left",
    "a value that ends inside a character",
    "a 257th name in one record",
    "a 65,536th record",
    "more rows than the table has left",
    "rows or a contact that are none of the text",
    "a name that cannot be written",
    "an output too short",
    "a frequency too high to write",
    "a frequency outside the exact window",
    "a contact list of another version",
    "a malformed contact list",
    "contact ids that do not rise",
    "a lent table too short",
};
static const char *const fates[] = {"",         "importable", "duplicate-in-log", "duplicate-in-file",
                                    "unusable", "confirmed",  "unmatched",        "ignored"};
static const char *const reasons[] = {"", "no CALL", "bad QSO_DATE", "bad TIME_ON", "no MODE", "inexact FREQ"};

static const char *service(uint32_t bit) {
    switch (bit) {
    case OX_LOTW:
        return "lotw";
    case OX_EQSL:
        return "eqsl";
    case OX_QRZ:
        return "qrz";
    default:
        return "qsl";
    }
}

static void *or_die(void *made, const char *what) {
    if (made)
        return made;
    perror(what);
    exit(2);
}

static void *lent(size_t count, size_t size) { return or_die(calloc(count + 1, size), "no memory"); }

typedef struct text {
    const char *path;
    char *bytes;
    size_t length;
} text;

/* A file, as much of it as may be read and one byte more: the library says where that is too much. */
static text read_file(const char *path) {
    FILE *file = or_die(fopen(path, "rb"), path);
    text t = {path, lent(OX_LONGEST + 1, 1), 0};
    t.length = fread(t.bytes, 1, OX_LONGEST + 1, file);
    if (ferror(file))
        or_die(NULL, path);
    fclose(file);
    return t;
}

/* A field is a tag, so that there are no more rows. */
static size_t tags_in(text t) {
    size_t tags = 0;
    for (size_t i = 0; i < t.length; i++)
        tags += t.bytes[i] == '<';
    return tags;
}

/* The number of a refusal, its place in the file and what it means, with the field where the library tells it. */
static int refused(text t, ox_read_answer why) {
    printf("refused %" PRIu32, why.refusal);
    if (why.refusal >= OX_NOT_UTF8 && why.refusal <= OX_FEW_ROWS)
        printf(" %zu", why.place);
    printf(": %s: %s", t.path, refusals[why.refusal]);
    if (why.refusal >= OX_MISSING_LENGTH && why.refusal <= OX_CUT_CHARACTER)
        printf(", field %.*s", (int)why.name_length, t.bytes + why.name);
    if (why.refusal == OX_TRUNCATED_VALUE)
        printf(": %" PRIu64 " bytes wanted, %" PRIu64 " left", why.wanted, why.left);
    printf("\n");
    return 1;
}

/* The bytes that a place stands for, of which there are at most 255 in a contact list, and one more where there are too
 * many. */
typedef struct word {
    char bytes[256];
    size_t length;
} word;
#define LENT(word) word.bytes, word.length

static word spelled(text t, ox_place place) {
    word w = {{0}, 0};
    if (place.kind == OX_BAND_NAME || place.kind == OX_MODE_NAME) {
        ox_name name = ox_entry_name(place.kind, place.start);
        memcpy(w.bytes, name.bytes, w.length = name.length);
    } else if (place.kind != OX_ABSENT) {
        w.length = place.length < sizeof w.bytes ? place.length : sizeof w.bytes;
        memcpy(w.bytes, t.bytes + place.start, w.length);
        for (size_t i = 0; i < w.length && place.kind == OX_IN_CAPITALS; i++)
            if (w.bytes[i] >= 'a' && w.bytes[i] <= 'z')
                w.bytes[i] = (char)(w.bytes[i] - 'a' + 'A');
    }
    return w;
}

static word trimmed(word w) {
    ox_trimmed kept = ox_text_trim(LENT(w));
    memmove(w.bytes, w.bytes + kept.start, w.length = kept.end - kept.start);
    return w;
}

typedef struct list {
    uint8_t bytes[OX_LONGEST];
    size_t length, contacts;
    uint64_t largest;
} list;

/* Puts a contact behind the others; what is none, since a list has no place for it, is left out. */
static void append(list *l, text log, uint64_t id, ox_qso qso) {
    word call = spelled(log, qso.columns[OX_CALL]), band = spelled(log, qso.columns[OX_BAND]);
    word mode = spelled(log, qso.columns[OX_MODE]);
    word date = trimmed(spelled(log, qso.columns[OX_QSO_DATE])), time = trimmed(spelled(log, qso.columns[OX_TIME_ON]));
    ox_append_answer more = ox_contacts_append(l->bytes, sizeof l->bytes, l->length, l->contacts, l->largest, id, 0,
                                               LENT(call), LENT(date), LENT(time), LENT(band), LENT(mode));
    if (more.refusal == OX_ACCEPTED) {
        l->length = more.length;
        l->contacts++;
        l->largest = id;
    }
}

/* The contacts of a log as a list, each with the number of its record as its id. */
static int list_log(list *l, text log) {
    size_t numbers = tags_in(log) * OX_ROW;
    uint32_t *table = lent(numbers, sizeof *table);
    ox_read_answer read = ox_read(log.bytes, log.length, table, numbers);
    for (size_t first = 0, next = 0; first < read.rows; first = next) {
        uint32_t number = ox_row_at(table, first).record;
        while (next < read.rows && ox_row_at(table, next).record == number)
            next++;
        append(l, log, number, ox_record_to_normal_qso(log.bytes, log.length, table, numbers, first, next - first).qso);
    }
    free(table);
    return read.refusal ? refused(log, read) : 0;
}

static void show(text file, ox_plan_answer plan, ox_fate_row *told, ox_confirmation_row *confirmations) {
    for (size_t i = 0; i < plan.records; i++) {
        printf("%zu %s %" PRIu32, i + 1, fates[told[i][0]], told[i][1]);
        if (told[i][1])
            printf(" (%s)", reasons[told[i][1]]);
        printf("\n");
    }
    for (size_t i = 0; i < plan.confirmations; i++) {
        const uint32_t *row = confirmations[i];
        printf("contact %" PRIu64 " is confirmed by %s, %.*s\n", (uint64_t)row[1] << 32 | row[0], service(row[2]),
               (int)row[4], file.bytes + row[3]);
    }
    char summary[OX_SUMMARY];
    printf("%.*s\n", (int)ox_plan_summary(plan.counts, summary, sizeof summary).length, summary);
}

/* The plan of a file against a list, in tables that are large enough for any. */
static int preview(text file, const list *l) {
    size_t tags = tags_in(file), numbers = tags * OX_ROW;
    size_t records = tags / 2 + 1 < OX_MOST_RECORDS ? tags / 2 + 1 : OX_MOST_RECORDS;
    size_t most = 4 * (records < l->contacts ? records : l->contacts);
    uint32_t *table = lent(numbers, sizeof *table);
    ox_contact *index = lent(l->contacts, sizeof *index);
    ox_fate_row *told = lent(records, sizeof *told);
    ox_confirmation_row *confirmations = lent(most, sizeof *confirmations);
    ox_plan_answer plan = ox_plan(file.bytes, file.length, l->bytes, l->length, WINDOW, false, table, numbers, index,
                                  l->contacts, told, records, confirmations, most);
    if (plan.refusal == OX_ACCEPTED)
        show(file, plan, told, confirmations);
    free(table);
    free(index);
    free(told);
    free(confirmations);
    ox_read_answer why = {plan.refusal, plan.place, plan.name, plan.name_length, plan.wanted, plan.left, 0, 0};
    return plan.refusal ? refused(file, why) : 0;
}

int main(int count, char **arguments) {
    if (count == 2 && strcmp(arguments[1], "--self-test") == 0)
        return self_test();
    if (count < 2 || count > 3) {
        fprintf(stderr, "preview FILE [LOG]\n");
        return 2;
    }
    list *l = lent(1, sizeof *l);
    l->length = ox_contacts_start(l->bytes, sizeof l->bytes).length;
    int status = 0;
    if (count == 3) {
        text log = read_file(arguments[2]);
        status = list_log(l, log);
        free(log.bytes);
    }
    if (status == 0) {
        text file = read_file(arguments[1]);
        status = preview(file, l);
        free(file.bytes);
    }
    free(l);
    return status;
}
