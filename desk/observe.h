/* Watches the plain model play a paper, and counts the calls, the edges of their registers and the situations met. */
#ifndef OBSERVE_H
#define OBSERVE_H

#include <stdint.h>

#define OBSERVE_SITUATIONS(X) \
    X(QUEUE_5, "a queue of 5 or more waiters for one sequence") \
    X(QUEUE_15, "a queue of 15 waiters for one sequence") \
    X(BEHIND_WAITER, "only shared rows are held, and a shared request waits behind an unshared waiter") \
    X(SHARED_TWO, "two shared rows of one sequence are held") \
    X(GRANT_TWO, "one event grants two or more") \
    X(RING_2, "deadlock, a ring of 2 owners") \
    X(RING_3, "deadlock, a ring of 3 owners") \
    X(RING_4, "deadlock, a ring of 4 owners") \
    X(RING_5, "deadlock, a ring of 5 owners") \
    X(RING_6, "deadlock, a ring of 6 owners") \
    X(RING_7, "deadlock, a ring of 7 or more owners") \
    X(RING_16, "deadlock, a ring of 16 owners") \
    X(BY_WAITER, "deadlock, by way of a waiter that holds nothing") \
    X(CHAIN_2, "a request waits for one that waits too, and no chain leads back") \
    X(CHAIN_10, "a chain of 10 or more links that does not lead back") \
    X(CHAIN_15, "a chain of 15 links that does not lead back") \
    X(TRY_RING, "locked, conditionally, where unconditionally it would be deadlock") \
    X(ROWS_32, "32 rows") \
    X(TABLE_FREE, "lcktable for a request that would be held") \
    X(TABLE_WAIT, "lcktable for a request that would wait") \
    X(TABLE_HELD, "held, with 32 rows") \
    X(TABLE_LOCKED, "locked, with 32 rows") \
    X(TABLE_DEADLOCK, "deadlock, with 32 rows") \
    X(HELD_LOCKED, "held, for a conditional request that another's row stands against") \
    X(SHORTER, "two sequences alike in the shorter one's length, held by two processes") \
    X(LIVE_16, "16 processes") \
    X(PLACE_AGAIN, "a place used again after an end") \
    X(PID_256, "a PID above 255") \
    X(MASK_16, "badcall for the masks of fshell, with 16 processes") \
    X(CHILD_TRAP, "a child takes its parent's trap as abort") \
    X(CHILD_IGNORES, "a child takes its parent's ignore") \
    X(MASK_ABORT, "a child aborts by mask what its parent ignores") \
    X(MASK_IGNORE, "a child ignores by mask what its parent does not") \
    X(MASK_KILL, "a mask would have a child ignore kill, and it does not") \
    X(TICK_ENDS_2, "a tick ends two or more") \
    X(TICK_ENDS_3, "a tick ends three or more") \
    X(TICK_GRANT, "a tick ends an owner and grants its lock to another") \
    X(TICK_TIME_TRAP, "a tick wakes one by time and traps it") \
    X(TICK_TIME_END, "a tick wakes one by time and ends it: in the ended mask only") \
    X(TICK_GRANT_TRAP, "a tick grants one its lock and traps it: it keeps the row") \
    X(TICK_GRANT_END, "a tick grants one its lock and ends it: in the ended mask only") \
    X(TICK_TRAP_TWO, "a tick traps two or more") \
    X(TRAP_WAITER, "a trap takes a lock waiter out of the queue") \
    X(TRAP_GRANT, "a trap takes a lock waiter out of the queue and so grants another its lock") \
    X(TRAP_TIMED, "a trap wakes a timed sleeper") \
    X(TRAP_PAUSE, "a trap wakes from pause") \
    X(TRAP_AWAKE, "a trap of one that is awake") \
    X(TRAP_SELF, "a process kills itself with a signal that it traps") \
    X(TRAP_AGAIN, "a signal whose trap is pending comes again: nothing changes") \
    X(TAKE_LOWEST, "take of the lowest of two or more") \
    X(TAKE_NONE, "take of nothing") \
    X(REPORT_NEVER, "wake report: never") \
    X(REPORT_GRANTED, "wake report: granted") \
    X(REPORT_SIGNAL, "wake report: signal, no seconds left") \
    X(REPORT_LEFT, "wake report: signal, with the seconds left") \
    X(REPORT_TIME, "wake report: time") \
    X(KILL_SELF, "a process ends itself by kill") \
    X(KILL_GRANT, "kill ends another and grants its lock") \
    X(KILL_SLEEPER, "kill ends a sleeper") \
    X(KILL_EQUAL, "kill of another by an unprivileged process with the same user id") \
    X(EXIT_GRANT, "exit grants a lock") \
    X(OLD_TRAP, "signal returns an old trap address") \
    X(ALARM_NEW, "an alarm replaced by another") \
    X(ALARM_OFF, "an alarm turned off") \
    X(SLEEP_0, "sleep of 0 seconds") \
    X(FIRST_ASLEEP, "process 1 sleeps") \
    X(ALL_ASLEEP, "all processes sleep") \
    X(PRIV_USER, "priv: setuser") \
    X(PRIV_GROUP, "priv: setgroup") \
    X(PRIV_PRIOR, "priv: setprior") \
    X(PRIV_KILL, "priv: kill") \
    X(FIRST_KIND, "badcall for the kind, though the caller is no one") \
    X(FIRST_CALLER, "badcaller, though the call number is unlisted") \
    X(FIRST_SLEEP, "asleep, though the call number is unlisted") \
    X(FIRST_TRAP, "trap, though the call number is unlisted") \
    X(BEYOND_CALL, "badcall for an indirect number above 255 whose low byte alone would not be refused") \
    X(BEYOND_LISTED, "badcall for an indirect number above 255 whose low byte alone would be notmodelled") \
    X(BEYOND_PID, "badcall for a kill above 65,535 whose low half alone would not be refused") \
    X(FIRST_ARGUMENT, "badcall for an argument, though it would be priv too") \
    X(FIRST_NOPROC, "noproc, though unprivileged") \
    X(EVENTS_1, "a paper of 1 event") \
    X(EVENTS_1000, "a paper of 1,000 events") \
    X(SEQUENCES_0, "a paper with no sequence") \
    X(SEQUENCES_64, "a paper with 64 sequences") \
    X(PERFECT, "a perfect sheet") \
    X(NONE_RIGHT, "a sheet with answers, none of them right") \
    X(MISSING, "answers missing") \
    X(SURPLUS, "answers over") \
    X(RIGHT_SURPLUS, "all right and answers over: not perfect") \
    X(EMPTY_SHEET, "a sheet with no answers") \
    X(BAD_BOTH, "badpaper, though the sheet is bad too") \
    X(BLANK_SHEET, "blank, though the sheet is bad too") \
    X(BAD_ROOM, "badpaper, though there is no room for a key") \
    X(BLANK_ROOM, "blank, though there is no room for a key") \
    X(PAPER_SHORT, "badpaper, too short for a header: its length is told") \
    X(PAPER_SHORT_VERSION, "badpaper, too short for a header: its length is told, though the version is broken too") \
    X(PAPER_VERSION, "badpaper at 0, the version") \
    X(PAPER_EVENTS, "badpaper at 2, the event count") \
    X(PAPER_EVENT_OFFSET, "badpaper at 4, the event offset") \
    X(PAPER_SEQUENCES, "badpaper at 6, the sequence count") \
    X(PAPER_SEQUENCE_OFFSET, "badpaper at 8, the sequence offset") \
    X(PAPER_LENGTH, "badpaper at 10, the length, though the file's own length fits the counts") \
    X(PAPER_COUNTS, "badpaper at 10, though the length there is the file's own") \
    X(PAPER_CUT, "badpaper at 10: only the file is too short") \
    X(PAPER_LONG, "badpaper at 10: only the file is too long") \
    X(PAPER_OVER, "badpaper at 10: only the file is too long, by 65,536 bytes") \
    X(PAPER_EVENT, "badpaper at the sequence number of an event") \
    X(PAPER_LAST_EVENT, "badpaper at the sequence number of the last event of two or more") \
    X(PAPER_EVENT_1000, "badpaper at 20,010, the sequence number of the last event of 1,000") \
    X(PAPER_TWO, "badpaper at a field of the header, though another behind it there is broken too") \
    X(PAPER_VERSION_LENGTH, "badpaper at 0, the version, though the length is broken too") \
    X(PAPER_HEADER_EVENT, "badpaper at a field of the header, though the sequence number of an event is broken too") \
    X(PAPER_LENGTH_EVENT, "badpaper at 10, the length, though the sequence number of an event is broken too") \
    X(PAPER_TWO_EVENTS, "badpaper at the sequence number of an event, though a later one's is broken too") \
    X(SHEET_SHORT, "badsheet, too short for a header: its length is told") \
    X(SHEET_SHORT_VERSION, "badsheet, too short for a header: its length is told, though the version is broken too") \
    X(SHEET_VERSION, "badsheet at 0, the version") \
    X(SHEET_RANGE, "badsheet at 2, an answer count above 1,000") \
    X(SHEET_RANGE_ONLY, "badsheet at 2, an answer count above 1,000 that the file's length fits") \
    X(SHEET_CUT, "badsheet at 2: the file is too short") \
    X(SHEET_LONG, "badsheet at 2: the file is too long") \
    X(SHEET_OVER, "badsheet at 2: the file is too long, by 65,536 bytes") \
    X(SHEET_OFFSET, "badsheet at 4, the offset") \
    X(SHEET_VERSION_LENGTH, "badsheet at 0, the version, though the file's length is broken too") \
    X(SHEET_VERSION_OFFSET, "badsheet at 0, the version, though the offset is broken too") \
    X(SHEET_LENGTH_OFFSET, "badsheet at 2, for the file's length, though the offset is broken too") \
    X(WRITE_FIRST, "written: the first item, over anything") \
    X(WRITE_EXACT, "written: a paper that exactly fills its buffer") \
    X(WRITE_LONGEST, "written: the longest paper") \
    X(WRITE_MOVE, "written: an event ahead of two sequences or more, which move up") \
    X(SEQUENCE_64, "written: sequence 64") \
    X(EVENT_1000, "written: event 1,000") \
    X(NAMES_LAST, "written: an event that names the last sequence") \
    X(SHORT_ITEM, "written: an item short of bytes") \
    X(LONG_ITEM, "written: an item with bytes over") \
    X(NO_ITEM, "written: an item of no bytes") \
    X(OTHER_UPPER, "written, though the writer's upper half is not its paper's length") \
    X(WRITE_CHANGED, "written, though an event or a sequence was changed since the last call") \
    X(WRITE_SHORT, "badpaper for a writer: the buffer is shorter than its paper") \
    X(WRITE_HEADER, "badpaper for a writer: a number of the header is changed, and no count") \
    X(WRITE_COUNTS, "badpaper for a writer: the header is that of other counts") \
    X(WRITE_SAME_LENGTH, "badpaper for a writer: the header is that of other counts, and the paper as long") \
    X(WRITE_BEYOND, "badpaper for a writer: counts that no paper has, though the buffer has them too") \
    X(WRITE_EVENT, "badpaper for a writer: only the sequence number of an event is changed") \
    X(WRITE_LAST_EVENT, "badpaper for a writer: only that of the last event of two or more") \
    X(WRITE_REFUSAL, "badpaper for a writer that is a refusal") \
    X(WRITE_BAD_ORDER, "badpaper for a writer, though it would be order too") \
    X(WRITE_BAD_FULL, "badpaper for a writer, though it would be full too") \
    X(WRITE_BAD_ROOM, "badpaper for a writer, though there would be no room either") \
    X(ORDER_SEQUENCE, "order: a sequence after an event") \
    X(ORDER_EVENT, "order: an event that names one sequence more than there are") \
    X(ORDER_FIRST, "order: the first item is an event that names a sequence") \
    X(ORDER_FULL_SEQUENCE, "order, though it would be full too: a sequence") \
    X(ORDER_FULL_EVENT, "order, though it would be full too: an event") \
    X(ORDER_ROOM_SEQUENCE, "order, though there is no room: a sequence") \
    X(ORDER_ROOM_EVENT, "order, though there is no room: an event") \
    X(SEQUENCE_65, "full: sequence 65") \
    X(EVENT_1001, "full: event 1,001") \
    X(FULL_ROOM_SEQUENCE, "full, though there is no room: a sequence") \
    X(FULL_ROOM_EVENT, "full, though there is no room: an event") \
    X(ONE_SHORT, "noroom: one byte short of the paper with the new item") \
    X(NO_MORE_ROOM, "noroom: a buffer just as long as the old paper") \
    X(NO_BUFFER, "noroom: a buffer of no bytes")

#define OBSERVE_NUMBER(name, text) OBSERVE_##name,
enum observe_situation { OBSERVE_SITUATIONS(OBSERVE_NUMBER) OBSERVE_COUNT };
#undef OBSERVE_NUMBER

void observe_saw(enum observe_situation situation);

/* Plays a legal paper. Returns 0 if the plain model comes to what cannot be. */
int observe_paper(const uint8_t *paper);

/* Prints all counts, and names what was not reached; returns how many these are. */
unsigned observe_print(void);

#endif
