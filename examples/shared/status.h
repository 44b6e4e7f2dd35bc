/* How a host ends. */
#ifndef SHARED_STATUS_H
#define SHARED_STATUS_H

/* The exit status. Of several inputs the worst one counts, which is the greatest. */
enum status { ALL_ACCEPTED = 0, SOME_REFUSED = 1, NOT_DONE = 2 };

/* The status, once all that was printed is out; NOT_DONE where that failed, which is told. */
int done(enum status status);

#endif
