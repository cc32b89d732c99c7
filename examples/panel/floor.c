/* A floor of forty rooms, as its messages reach the panel minute by minute: by rows, by columns, some that must be refused, and some that
 * are accepted and are not a floor's. `floor FILE..` shows the messages of files instead, one after another on the same panel.
 *
 *     examples/panel/build
 *     target/floor
 *     target/floor samples/floor-rows.bjd samples/report.bjd
 */
#include <stdio.h>
#include <string.h>

#include "panel.h"
#include "tanklefrost.h"

/* With room for one byte over the limit, so that a longer file is refused. */
struct message {
    uint8_t bytes[TANKLEFROST_LIMIT + 1];
    size_t length;
};

static void put(struct message *m, const void *bytes, size_t count)
{
    memcpy(m->bytes + m->length, bytes, count);
    m->length += count;
}

static void put_little(struct message *m, uint32_t number, size_t count)
{
    for (; count != 0; count--, number >>= 8) {
        m->bytes[m->length++] = (uint8_t)number;
    }
}

/* What the rooms measure at a minute: room 7 is cold, every ninth room has an alert mark in even minutes, room 40 in odd ones. */
static void put_temperature(struct message *m, unsigned room, unsigned minute)
{
    int tenths = room == 7 ? -15 : 200 + (int)((room * 7 + minute) % 40);
    put_little(m, (uint32_t)tenths, 2);
}

static void put_alert(struct message *m, unsigned room, unsigned minute)
{
    int set = minute % 2 == 0 ? room % 9 == 7 : room == 40;
    put(m, set ? "T" : "F", 1);
}

static void put_time(struct message *m, unsigned room, unsigned minute)
{
    put_little(m, 8 * 3600 + 60 * minute + room, 4);
}

/* `[` by rows or `{` by columns, the schema, forty records. */
static void floor_message(struct message *m, char opening, unsigned minute)
{
    unsigned room;
    m->length = 0;
    put(m, &opening, 1);
    put(m, "${U\013temperatureIU\005alertTU\004timem}#U\050", 35);
    if (opening == '[') {
        for (room = 1; room <= PANEL_ROOMS; room++) {
            put_temperature(m, room, minute);
            put_alert(m, room, minute);
            put_time(m, room, minute);
        }
        return;
    }
    for (room = 1; room <= PANEL_ROOMS; room++) {
        put_temperature(m, room, minute);
    }
    for (room = 1; room <= PANEL_ROOMS; room++) {
        put_alert(m, room, minute);
    }
    for (room = 1; room <= PANEL_ROOMS; room++) {
        put_time(m, room, minute);
    }
}

static void show(struct panel *panel, const char *what, const struct message *m)
{
    size_t i;
    panel_show(panel, m->bytes, m->length);
    printf("%s\n  %s\n", what, panel->head);
    for (i = 0; i < PANEL_ROOMS; i++) {
        if (panel->lines[i][0] != 0) {
            printf("  %s\n", panel->lines[i]);
        }
    }
}

/* Ten minutes of a floor. The mark of temperature is byte 16 of its messages, its name begins at byte 5. */
static void show_minutes(struct panel *panel, struct message *m)
{
    floor_message(m, '[', 0);
    show(panel, "minute 0, by rows", m);
    floor_message(m, '{', 1);
    show(panel, "minute 1, by columns", m);
    floor_message(m, '{', 2);
    show(panel, "minute 2, by columns", m);
    floor_message(m, '[', 3);
    m->length -= 1;
    show(panel, "minute 3, cut short", m);
    floor_message(m, '[', 4);
    m->bytes[36 + 2] = 'X';
    show(panel, "minute 4, an alert mark that is none", m);
    floor_message(m, '[', 5);
    m->bytes[m->length++] = 'Z';
    show(panel, "minute 5, a byte after the message", m);
    m->length = 0;
    put(m, "[$U#U\002\001\002", 8);
    show(panel, "minute 6, a message without the table", m);
    floor_message(m, '{', 7);
    m->bytes[16] = 'h';
    show(panel, "minute 7, temperatures of another mark", m);
    floor_message(m, '{', 8);
    memcpy(m->bytes + 5, "pressure mb", 11);
    show(panel, "minute 8, a field by another name", m);
    floor_message(m, '[', 9);
    show(panel, "minute 9, by rows", m);
}

/* What arrives is what the file holds, whatever it was meant to be. */
static int show_file(struct panel *panel, struct message *m, const char *name)
{
    FILE *file = fopen(name, "rb");
    if (file == NULL) {
        perror(name);
        return 0;
    }
    m->length = fread(m->bytes, 1, sizeof m->bytes, file);
    fclose(file);
    show(panel, name, m);
    return 1;
}

int main(int count, char **names)
{
    static struct panel panel;
    static struct message m;
    int i, read = 1;

    if (count < 2) {
        show_minutes(&panel, &m);
    }
    for (i = 1; i < count; i++) {
        read &= show_file(&panel, &m, names[i]);
    }
    return !read;
}
