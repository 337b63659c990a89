/*
 * The points of a change at which a test may end the run. They are there only
 * in the build for tests, with DESK_STOPS defined.
 */

#ifndef FILE_STOPS_H
#define FILE_STOPS_H

#ifdef DESK_STOPS

/* With this status a run ends at a point. It is none of desk's own. */
enum { STOPPED = 77 };

/*
 * Ends the process at once if the point is the one that DESK_STOP names:
 *
 *   copy-flush    the old store is written beside, and not flushed yet
 *   copy-rename   it is flushed, and not STORE.desk-before yet
 *   copy-renamed  it is, and nothing of the new store is written yet
 *   flush         all is written beside the store, and not flushed yet
 *   rename        it is flushed, and not in the store's place yet
 *   renamed       it is in the store's place, and nothing was answered yet
 *
 * If DESK_HOLD names it, the process opens the pipe held for writing and then
 * the pipe go for reading, both in its own directory: it is at the point when
 * the test has opened the first, and goes on when the test opens the second.
 */
void stop_at(const char *point);

#else

#define stop_at(point) ((void)0)

#endif

#endif
