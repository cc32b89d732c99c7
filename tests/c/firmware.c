/* The example firmware (examples/panel/panel.c) on floors, and on messages that are not a floor's: each of those is shown after a good
 * floor, and nothing of the floor may be left on the panel, to the byte. */
#include "lent.h"
#include "panel.h"

#define TEMPERATURE "U\013temperature"
#define ALERT "U\005alert"
#define TIME "U\004time"
#define FORTY "#U\050"

enum { BEGIN = 36, RECORD = 9, CALLER = 17 };

static struct bytes m;
static uint8_t good[1024];
static size_t good_length;

static void put_text(const char *text)
{
    for (; *text != 0; text++) {
        put_byte(&m, (unsigned char)*text);
    }
}

static void put_little(uint64_t number, size_t count)
{
    for (; count != 0; count--, number >>= 8) {
        put_byte(&m, (unsigned char)number);
    }
}

/* A room's value under a mark: 21.5 degrees, or 215 tenths; the alert mark of one room; a second of the day. */
static void put_value(char mark, unsigned room)
{
    switch (mark) {
    case 'd': put_little(0x41AC0000, 4); break;
    case 'D': put_little(0x4035800000000000, 8); break;
    case 'h': put_little(0x4D60, 2); break;
    case 'I': case 'u': put_little(215, 2); break;
    case 'T': put_little(room == CALLER ? 'T' : 'F', 1); break;
    case 'm': put_little(8 * 3600 + room, 4); break;
    default: put_little(room, 1); break;
    }
}

/* A table by rows (`[`) or by columns (`{`): what follows `$`, then a value for each of the marks in each room. */
static void table(char opening, const char *head, const char *marks, unsigned rooms)
{
    unsigned room, i, width = (unsigned)strlen(marks);
    m.size = 0;
    put_byte(&m, (unsigned char)opening);
    put_text("$");
    put_text(head);
    for (i = 0; i < rooms * width; i++) {
        room = (opening == '[' ? i / width : i % rooms) + 1;
        put_value(marks[opening == '[' ? i % width : i / rooms], room);
    }
}

static void floor_of(char opening, const char *mark)
{
    char head[64], marks[4] = {*mark, 'T', 'm', 0};
    snprintf(head, sizeof head, "{" TEMPERATURE "%s" ALERT "T" TIME "m}" FORTY, mark);
    table(opening, head, marks, PANEL_ROOMS);
}

/* The message on a panel, lent between guards. */
static void show(struct panel *panel, int at_end)
{
    struct lent l = lend(m.at, m.size, at_end);
    panel_show(panel, l.bytes, l.size);
    take_back(l);
}

/* The panel shows these lines and no other byte: after a good floor, and on a panel full of other bytes. */
static int shows(const char *head, const char *line)
{
    struct panel shown, expected;
    int at_end, same = 1;
    memset(&expected, 0, sizeof expected);
    memcpy(expected.head, head, strlen(head));
    memcpy(expected.lines[0], line, strlen(line));
    expected.count = *line != 0;
    for (at_end = 0; at_end < 2; at_end++) {
        panel_show(&shown, good, good_length);
        CHECK(shown.count == 1 && shown.lines[0][0] != 0);
        show(&shown, at_end);
        same &= memcmp(&shown, &expected, sizeof shown) == 0;
        memset(&shown, GUARD, sizeof shown);
        show(&shown, at_end);
        same &= memcmp(&shown, &expected, sizeof shown) == 0;
    }
    if (!same) {
        printf("%s | %s, not: %s\n", shown.head, shown.lines[0], head);
    }
    return same;
}

static int is_floor(const char *temperature)
{
    char line[PANEL_WIDTH];
    snprintf(line, sizeof line, "room 17  %s degrees  08:00:17", temperature);
    return shows("40 rooms, alert marks: 1", line);
}

/* A floor whose room 17 has an alert mark and no temperature. */
static int has_none(void)
{
    return shows("40 rooms, alert marks: 1", "room 17  no temperature  08:00:17");
}

static int is_no_floor(const char *why)
{
    char head[PANEL_WIDTH];
    snprintf(head, sizeof head, "not a floor: %s", why);
    return shows(head, "");
}

static int is_refused(unsigned number, unsigned place)
{
    char head[PANEL_WIDTH];
    snprintf(head, sizeof head, "refused: number %u at byte %u", number, place);
    return shows(head, "");
}

static void other_fields(char opening)
{
    table(opening, "{" "U\010humidity" "I" "U\014acknowledged" "T" "U\006serial" "m}" FORTY, "ITm", 40);
    CHECK(is_no_floor("there is no temperature"));
    table(opening, "{" TEMPERATURE "I" "U\005alerT" "T" TIME "m}" FORTY, "ITm", 40);
    CHECK(is_no_floor("there is no alert"));
    table(opening, "{" TEMPERATURE "I" ALERT "T" "U\005time " "m}" FORTY, "ITm", 40);
    CHECK(is_no_floor("there is no time"));
    table(opening, "{" ALERT "T" TEMPERATURE "I" TIME "m}" FORTY, "TIm", 40);
    CHECK(is_no_floor("temperature is out of place"));
    table(opening, "{" TEMPERATURE "I" TIME "m" ALERT "T}" FORTY, "ImT", 40);
    CHECK(is_no_floor("alert is out of place"));
    table(opening, "{" TEMPERATURE "I" TEMPERATURE "I" ALERT "T" TIME "m}" FORTY, "IITm", 40);
    CHECK(is_no_floor("alert is out of place"));
    table(opening, "{" TEMPERATURE "I" ALERT "T" TIME "m" "U\002noU}" FORTY, "ITmU", 40);
    CHECK(is_no_floor("its fields are 4, not 3"));
    table(opening, "{" TEMPERATURE "I" ALERT "T}" FORTY, "IT", 40);
    CHECK(is_no_floor("there is no time"));
    table(opening, "{" TEMPERATURE "I" ALERT "T" TIME "m" "U\001aUU\001bUU\001cUU\001dUU\001eU}" FORTY, "ITmUUUUU", 40);
    CHECK(is_no_floor("it has 18 rows"));
}

static void other_marks(char opening)
{
    floor_of(opening, "h");
    CHECK(is_no_floor("temperature has the mark h"));
    floor_of(opening, "u");
    CHECK(is_no_floor("temperature has the mark u"));
    floor_of(opening, "D");
    CHECK(is_no_floor("temperature has the mark D"));
    table(opening, "{" TEMPERATURE "I" ALERT "U" TIME "m}" FORTY, "IUm", 40);
    CHECK(is_no_floor("alert has the mark U"));
    table(opening, "{" TEMPERATURE "I" ALERT "T" TIME "d}" FORTY, "ITd", 40);
    CHECK(is_no_floor("time has the mark d"));
    table(opening, "{" TEMPERATURE "[II]" ALERT "T" TIME "m}" FORTY, opening == '[' ? "IITm" : "dTm", 40);
    CHECK(is_no_floor("temperature has the mark ["));
    table(opening, "{" TEMPERATURE "{U\001tI}" ALERT "T" TIME "m}" FORTY, "ITm", 40);
    CHECK(is_no_floor("temperature has the mark {"));
    table(opening, "{U\003air{" TEMPERATURE "I}" ALERT "T" TIME "m}" FORTY, "ITm", 40);
    CHECK(is_no_floor("there is no temperature"));
}

static void other_rooms(char opening)
{
    table(opening, "{" TEMPERATURE "I" ALERT "T" TIME "m}#U\051", "ITm", 41);
    CHECK(is_no_floor("its rooms are 41, not 40"));
    table(opening, "{" TEMPERATURE "I" ALERT "T" TIME "m}#U\047", "ITm", 39);
    CHECK(is_no_floor("its rooms are 39, not 40"));
    table(opening, "{" TEMPERATURE "I" ALERT "T" TIME "m}#[]", "ITm", 0);
    CHECK(is_refused(6, 34));
    table(opening, "{" TEMPERATURE "I" ALERT "T" TIME "m}#[U\005U\010]", "ITm", 40);
    CHECK(is_no_floor("its rooms are in dimensions"));
    table(opening, "{" TEMPERATURE "I" ALERT "T" TIME "m}#[U\050]", "ITm", 40);
    CHECK(is_no_floor("its rooms are in dimensions"));
    table(opening, "{" TEMPERATURE "I" ALERT "T" TIME "m}#i\050", "ITm", 40);
    CHECK(is_floor("21.5"));
}

/* Bits of a single as the temperature of room 17, in a floor by rows. */
static int single_is(uint32_t bits, const char *temperature)
{
    size_t i;
    floor_of('[', "d");
    for (i = 0; i < 4; i++) {
        m.at[BEGIN + (CALLER - 1) * RECORD + i] = (unsigned char)(bits >> 8 * i);
    }
    return *temperature == 0 ? has_none() : is_floor(temperature);
}

static int tenths_are(int tenths, const char *temperature)
{
    floor_of('[', "I");
    m.at[BEGIN + (CALLER - 1) * 7] = (unsigned char)tenths;
    m.at[BEGIN + (CALLER - 1) * 7 + 1] = (unsigned char)((unsigned)tenths >> 8);
    return *temperature == 0 ? has_none() : is_floor(temperature);
}

static void temperatures(void)
{
    CHECK(single_is(0x41A20000, "20.3"));   /* 20.25 */
    CHECK(single_is(0x41E0CCCD, "28.1"));
    CHECK(single_is(0x80000000, "0.0"));    /* -0 */
    CHECK(single_is(0xBFC00000, "-1.5"));
    CHECK(single_is(0xC2200000, "-40.0"));
    CHECK(single_is(0xC2200001, ""));       /* below -40 */
    CHECK(single_is(0x42A00000, "80.0"));
    CHECK(single_is(0x42A00001, ""));       /* above 80 */
    CHECK(single_is(0x7F800000, ""));       /* infinity, both */
    CHECK(single_is(0xFF800000, ""));
    CHECK(single_is(0x7FC00000, ""));       /* NaN: quiet, of either sign, and signalling */
    CHECK(single_is(0xFFC00000, ""));
    CHECK(single_is(0x7F800001, ""));
    CHECK(single_is(0x7F7FFFFF, ""));       /* the largest */
    CHECK(single_is(0x00000001, "0.0"));    /* the smallest */
    CHECK(tenths_are(-15, "-1.5"));
    CHECK(tenths_are(-4, "-0.4"));
    CHECK(tenths_are(-400, "-40.0") && tenths_are(-401, ""));
    CHECK(tenths_are(800, "80.0") && tenths_are(801, ""));
    CHECK(tenths_are(-32768, "") && tenths_are(32767, ""));
}

/* A room that has no temperature is shown where it has no alert mark too, and hides no other. */
static void no_temperature(void)
{
    struct panel panel;
    floor_of('{', "I");
    m.at[BEGIN + 2 * 2 + 1] = 0x7F;
    memset(&panel, GUARD, sizeof panel);
    show(&panel, 1);
    CHECK(strcmp(panel.head, "40 rooms, alert marks: 1") == 0 && panel.count == 2);
    CHECK(strcmp(panel.lines[0], "room  3  no temperature, no alert  08:00:03") == 0);
    CHECK(strcmp(panel.lines[1], "room 17  21.5 degrees  08:00:17") == 0);
    CHECK(panel.lines[2][0] == 0);
}

static void other_messages(void)
{
    m.size = 0;
    CHECK(is_refused(2, 0));
    put_text("Z");
    CHECK(is_no_floor("it is not a table"));
    m.size = 0;
    put_text("[$U#U\002\001\002");
    CHECK(is_no_floor("it is not a table"));
    m.size = 0;
    put_hex(&m, "45 5501 5504 8047FA6A");
    CHECK(is_no_floor("it is not a table"));
    m.size = 0;
    put_text("[SU\023a floor of 40 rooms]");
    CHECK(is_no_floor("it is not a table"));
    m.size = 0;
    put_text("[");
    put_hex(&m, "5A*40");
    put_text("]");
    CHECK(is_no_floor("it has 41 rows"));

    /* with no-ops after it, it is the same floor; then a byte after it, a boolean that is none, a floor and an extension
     * in an array */
    floor_of('{', "I");
    put_text("NNN");
    CHECK(is_floor("21.5"));
    put_text("E");
    CHECK(is_refused(9, BEGIN + 40 * 7 + 3));
    floor_of('[', "I");
    m.at[BEGIN + 2] = 'X';
    CHECK(is_refused(4, BEGIN + 2));
    floor_of('{', "I");
    put_text("EU\013U\001x]]");
    memmove(m.at + 1, m.at, m.size - 2);
    m.at[0] = '[';
    CHECK(is_no_floor("it is not a table"));
}

static void sample(const char *path)
{
    FILE *file = fopen(path, "rb");
    struct panel panel;
    int byte;
    if (file == NULL) {
        perror(path);
        exit(2);
    }
    m.size = 0;
    while ((byte = getc(file)) != EOF) {
        put_byte(&m, (unsigned char)byte);
    }
    fclose(file);
    memset(&panel, GUARD, sizeof panel);
    show(&panel, 1);
    CHECK(strcmp(panel.head, "40 rooms, alert marks: 4") == 0 && panel.count == 4);
    CHECK(strcmp(panel.lines[0], "room  4  21.0 degrees  00:03:00") == 0);
    CHECK(strcmp(panel.lines[1], "room 18  28.1 degrees  00:17:00") == 0);
    CHECK(strcmp(panel.lines[2], "room 19  20.3 degrees  00:18:00") == 0);
    CHECK(strcmp(panel.lines[3], "room 32  21.3 degrees  00:31:00") == 0);
    CHECK(panel.lines[4][0] == 0);
}

/* Every length of a floor that is cut short, and every bit of one changed: what is shown is a floor, or no line at all. */
static void cut_and_changed(char opening, const char *mark)
{
    struct panel panel, empty;
    size_t i, line, whole;
    floor_of(opening, mark);
    whole = m.size;
    for (m.size = 0; m.size < whole; m.size++) {
        CHECK(is_refused(2, (unsigned)m.size));
    }
    memset(&empty, 0, sizeof empty);
    for (i = 0; i < 8 * whole; i++) {
        m.at[i / 8] ^= (unsigned char)(1 << i % 8);
        panel_show(&panel, good, good_length);
        show(&panel, 1);
        m.at[i / 8] ^= (unsigned char)(1 << i % 8);
        if (strcmp(panel.head, "40 rooms, alert marks: 1") == 0) {
            CHECK(panel.count == 1 || panel.count == 2);
            for (line = 0; line < panel.count; line++) {
                CHECK(strncmp(panel.lines[line], "room 17", 7) == 0 || strstr(panel.lines[line], "no temperature, no alert") != NULL);
                memset(panel.lines[line], 0, sizeof panel.lines[line]);
            }
            panel.count = 0;
        }
        CHECK(panel.count == 0 && memcmp(panel.lines, empty.lines, sizeof panel.lines) == 0);
    }
}

int main(void)
{
    const char openings[2] = {'[', '{'};
    int i;

    floor_of('[', "d");
    good_length = m.size;
    memcpy(good, m.at, m.size);
    for (i = 0; i < 2; i++) {
        floor_of(openings[i], "I");
        CHECK(is_floor("21.5"));
        floor_of(openings[i], "d");
        CHECK(is_floor("21.5"));
        other_fields(openings[i]);
        other_marks(openings[i]);
        other_rooms(openings[i]);
        cut_and_changed(openings[i], "I");
        cut_and_changed(openings[i], "d");
    }
    temperatures();
    no_temperature();
    other_messages();
    sample("samples/floor-rows.bjd");
    sample("samples/floor-columns.bjd");
    free(m.at);
    return report("firmware");
}
