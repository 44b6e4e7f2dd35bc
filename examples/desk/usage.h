/* What the desk says of itself. */
#ifndef DESK_USAGE_H
#define DESK_USAGE_H

extern const char usage[];

#endif
