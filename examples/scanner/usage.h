/* What the scanner says of itself. */
#ifndef SCANNER_USAGE_H
#define SCANNER_USAGE_H

extern const char usage[];

#endif
