/* The panel at the nurses' desk: what a floor's message of this minute shows. */
#ifndef PANEL_H
#define PANEL_H

#include <stddef.h>
#include <stdint.h>

enum { PANEL_ROOMS = 40, PANEL_WIDTH = 48 };

/* What stands on the panel: a head line, and a line for each room whose alert mark is set or that has no temperature. Rooms are
 * numbered 1 to 40; room n is record n - 1 of the message. */
struct panel {
    char head[PANEL_WIDTH];
    char lines[PANEL_ROOMS][PANEL_WIDTH];
    size_t count;
};

/* Shows a floor's message. It is one table, by rows or by columns, of forty records that are counted, not put in dimensions, with the
 * fields
 *
 *   temperature   `I`, tenths of a degree, or `d`, degrees; outside -40 to 80 degrees there is none
 *   alert         `T`
 *   time          `m`, seconds, since midnight or since 1970: the time of day is shown
 *
 * by these names, in this order, and no others. A message that is refused is shown by number and place. Any other message that is
 * accepted is shown by what keeps it from being a floor's. In both cases no line is left of what stood on the panel before. */
void panel_show(struct panel *panel, const uint8_t *message, size_t length);

#endif
