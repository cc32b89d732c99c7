/* The panel's firmware. It reads a message into a few rows of its own, tests all that it expects of a floor, and only then shows it. It
 * looks at no byte of the message itself: what it knows of names, marks and values is what the calls answer. */
#include "panel.h"

#include <stdio.h>
#include <string.h>

#include "tanklefrost.h"

/* The words of a row that are looked at, and the kind of a table. */
enum { KIND = 0, MARK = 1, COUNT = 5, ORDER = 7, TABLE_KIND = 8 };

/* The rows of a floor: the table, its schema, and a key and a leaf for each field. A few more are there for other tables, so that the
 * panel can say what is wrong with them. */
enum { TABLE_ROW = 0, SCHEMA_ROW = 1, FIRST_LEAF_ROW = 3, ROWS = 16, WORDS = ROWS * TANKLEFROST_ROW_WORDS };

/* The fields of a floor in schema order, with the marks that each may have. */
enum field { TEMPERATURE, ALERT, TIME, FIELDS };
static const char *const names[FIELDS] = {"temperature", "alert", "time"};
static const char marks[FIELDS][2] = {{'I', 'd'}, {'T', 'T'}, {'m', 'm'}};

/* The lowest and the highest temperature that a room may have, in tenths of a degree. */
enum { LOWEST = -400, HIGHEST = 800 };

struct message {
    const uint8_t *bytes;
    size_t length;
    uint32_t rows[WORDS];
};

static uint32_t word(const struct message *m, size_t row, size_t number)
{
    return m->rows[row * TANKLEFROST_ROW_WORDS + number];
}

static size_t leaf_row(int field)
{
    return FIRST_LEAF_ROW + 2 * (size_t)field;
}

static struct tanklefrost_scalar value(const struct message *m, int field, size_t record)
{
    return tanklefrost_value_in_table(m->bytes, m->length, m->rows, WORDS, TABLE_ROW, leaf_row(field), &record, 1);
}

/* A room's temperature in tenths of a degree; answers whether there is one. No comparison holds of a NaN. */
static int temperature(const struct message *m, size_t record, int *tenths)
{
    struct tanklefrost_scalar v = value(m, TEMPERATURE, record);
    double t = v.value_case == TANKLEFROST_SINGLE ? tanklefrost_single(v.bits) * 10.0 : (double)tanklefrost_signed(v.bits);
    if (v.number != TANKLEFROST_DONE || !(t >= LOWEST && t <= HIGHEST)) {
        return 0;
    }
    *tenths = (int)(t < 0 ? t - 0.5 : t + 0.5);
    return 1;
}

/* The tests below answer whether they hold, and where they don't, say in the head line what is wrong. */

static int is_accepted(const struct message *m, char *head)
{
    uint64_t answer = tanklefrost_rows_needed(m->bytes, m->length);
    uint32_t number = tanklefrost_answer_number(answer), needed = tanklefrost_answer_rows(answer);
    if (number != TANKLEFROST_DONE) {
        snprintf(head, PANEL_WIDTH, "refused: number %u at byte %u", (unsigned)number, (unsigned)tanklefrost_answer_place(answer));
        return 0;
    }
    if (needed > ROWS) {
        snprintf(head, PANEL_WIDTH, "not a floor: it has %u rows", (unsigned)needed);
        return 0;
    }
    return 1;
}

/* The calls with the message only go by the new edition, so it is read by the same. */
static int is_table(struct message *m, char *head)
{
    struct tanklefrost_reading read = tanklefrost_read(TANKLEFROST_NEW_EDITION, m->bytes, m->length, m->rows, WORDS);
    if (read.number != TANKLEFROST_DONE || word(m, TABLE_ROW, KIND) != TABLE_KIND) {
        snprintf(head, PANEL_WIDTH, "not a floor: it is not a table");
        return 0;
    }
    return 1;
}

static int has_field(const struct message *m, int field, char *head)
{
    const char *name = names[field];
    struct tanklefrost_member leaf =
        tanklefrost_lookup(m->bytes, m->length, m->rows, WORDS, SCHEMA_ROW, (const uint8_t *)name, strlen(name));
    uint32_t mark;
    if (leaf.number != TANKLEFROST_DONE) {
        snprintf(head, PANEL_WIDTH, "not a floor: there is no %s", name);
        return 0;
    }
    if (leaf.row != leaf_row(field)) {
        snprintf(head, PANEL_WIDTH, "not a floor: %s is out of place", name);
        return 0;
    }
    mark = word(m, leaf.row, MARK);
    if (mark != (uint32_t)marks[field][0] && mark != (uint32_t)marks[field][1]) {
        snprintf(head, PANEL_WIDTH, "not a floor: %s has the mark %c", name, (int)mark);
        return 0;
    }
    return 1;
}

static int has_fields(const struct message *m, char *head)
{
    int field;
    for (field = 0; field < FIELDS; field++) {
        if (!has_field(m, field, head)) {
            return 0;
        }
    }
    if (word(m, SCHEMA_ROW, COUNT) != FIELDS) {
        snprintf(head, PANEL_WIDTH, "not a floor: its fields are %u, not %u", (unsigned)word(m, SCHEMA_ROW, COUNT), (unsigned)FIELDS);
        return 0;
    }
    return 1;
}

static int has_rooms(const struct message *m, char *head)
{
    if (word(m, TABLE_ROW, ORDER) != 0) {
        snprintf(head, PANEL_WIDTH, "not a floor: its rooms are in dimensions");
        return 0;
    }
    if (word(m, TABLE_ROW, COUNT) != PANEL_ROOMS) {
        snprintf(head, PANEL_WIDTH, "not a floor: its rooms are %u, not %u", (unsigned)word(m, TABLE_ROW, COUNT), (unsigned)PANEL_ROOMS);
        return 0;
    }
    return 1;
}

/* What is said of a room: its temperature, or that there is none. */
static void say(char *words, size_t room, int there, int tenths, int alert)
{
    unsigned away = (unsigned)(tenths < 0 ? -tenths : tenths);
    if (there) {
        snprintf(words, room, "%s%u.%u degrees", tenths < 0 ? "-" : "", away / 10, away % 10);
    } else {
        snprintf(words, room, "no temperature%s", alert ? "" : ", no alert");
    }
}

/* Shows a room whose alert mark is set, or whose temperature can't be right: nobody would hear that it is cold. Answers the mark. */
static int show_room(struct panel *panel, const struct message *m, size_t record)
{
    uint64_t time = value(m, TIME, record).bits;
    int tenths = 0, there = temperature(m, record, &tenths), alert = value(m, ALERT, record).bits == 1;
    char words[26];
    if (alert || !there) {
        say(words, sizeof words, there, tenths, alert);
        snprintf(panel->lines[panel->count++], PANEL_WIDTH, "room %2u  %s  %02u:%02u:%02u", (unsigned)record + 1, words,
                 (unsigned)(time / 3600 % 24), (unsigned)(time / 60 % 60), (unsigned)(time % 60));
    }
    return alert;
}

void panel_show(struct panel *panel, const uint8_t *message, size_t length)
{
    struct message m = {message, length, {0}};
    size_t record;
    unsigned alerts = 0;

    memset(panel, 0, sizeof *panel);
    if (!is_accepted(&m, panel->head) || !is_table(&m, panel->head) || !has_fields(&m, panel->head) || !has_rooms(&m, panel->head)) {
        return;
    }
    for (record = 0; record < PANEL_ROOMS; record++) {
        alerts += (unsigned)show_room(panel, &m, record);
    }
    snprintf(panel->head, PANEL_WIDTH, "%u rooms, alert marks: %u", (unsigned)PANEL_ROOMS, alerts);
}
