/* room.h: which limit a call passes where its step answers 22. */
#ifndef ROOM_H
#define ROOM_H

#include "view.h"

/* Writes, as part of a line, which of the two limits it is, the reserve of the process's module or the area of 256 words, with the numbers. The
 * process stands at the call. False, and nothing is written, where it stands at no call, or the call has room. */
bool write_room(struct view *v, unsigned process);

#endif
