/* Stories: short sessions from a fresh table that tell one of 01's rules from a shortcut. */
#ifndef STORIES_H
#define STORIES_H

#include "random.h"

/* The number of rooms a story needs. */
enum { STORY_ROOMS = 4 };

/* A story, each line ending in a semicolon; each digit is a room, and those but 0 may be taken for others. */
const char *any_story(struct random *random);

#endif
