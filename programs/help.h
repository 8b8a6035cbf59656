/* The texts of `yard help`. The gate runs the example of each and compares what it prints (.ci/examples). */
#ifndef YARD_HELP_H
#define YARD_HELP_H

#define COMMANDS "run|dump|timeline|record|verify|notes|plan|game|mattered"

#define HELP \
    "usage: yard COMMAND [FILE]      by a link to yard also yardCOMMAND [FILE]\n" \
    "       yard help [COMMAND]      the form of its input, and an example\n" \
    "       yard --version\n" \
    "A command reads FILE, or standard input where none is named, and prints its answer on standard output.\n" \
    "A FILE whose name begins with - is given as ./-NAME.\n" \
    "\n" \
    "command    reads              prints\n" \
    "run        a session          what the set answers, line by line\n" \
    "dump       a session          the memory that it leaves\n" \
    "timeline   a session          a row for each event, a column for each task\n" \
    "record     a session          its recording\n" \
    "verify     a recording        same, or line=N, the first line that is not what the set prints\n" \
    "notes      two lanes' notes   an order that explains both, or none\n" \
    "plan       calls of one task  how many records suffice, and what each call comes to\n" \
    "game       a session, game=N  lanes=MOVE if the lanes can force task 0's insert through, else office\n" \
    "mattered   a session          event=N, the first step without which other calls end, or none\n" \
    "\n" \
    "status\n" \
    "0  the answer is yes\n" \
    "1  the answer is no: line=N, none, office\n" \
    "2  the input was refused: the last line is refuse=NUMBER, and standard error says which line and why;\n" \
    "   of record also a recording from which a line of the input was left out\n" \
    "3  a read or a write failed, there is no such file, or an argument is wrong; standard error says which\n"

/* what every input has alike */
#define LINES \
    "input: lines of at most 40 bytes, each closed by byte 10; numbers are decimal, without leading zeros,\n" \
    "at most 4294967295\n"

#define SESSION_LINES \
    "    tasks=TASKS             1 to 8\n" \
    "    nodes=NODES             1 to 64\n" \
    "    buckets=BUCKETS         1 to 200\n" \
    "    version=VERSION         1 or 2; may be left out, which is 1\n" \
    "    blank=no                no insert of tag 0 can be started; may be left out\n" \
    "then any number of events\n" \
    "    start=TASK,insert,TAG   also remove and contains; tasks are numbered from 0\n" \
    "    start=TASK,grow         also shrink\n" \
    "    step=TASK\n"

#define SESSION LINES SESSION_LINES

#define HELP_RUN \
    "yard run [FILE]: what the set answers to a session, line by line\n" \
    SESSION \
    "output: for each event one of\n" \
    "    at=TASK,LINE            the call goes on; its next step does this line of Figure 2\n" \
    "    end=TASK,ANSWER,STEPS   the call has ended; of an insert and a remove a fourth number follows,\n" \
    "                            how many tags its bucket then has\n" \
    "    refuse=NUMBER           nothing was changed; docs/FITTERS.md has the numbers and remedies\n" \
    "then size=SIZE, tags=COUNT, and tag=TAG for each tag in the set\n" \
    "status: 0 the session ran, whether events were refused or not; 2 it was refused itself (10, or 1, 2, 3\n" \
    "or 11 of its opening); 3 trouble\n" \
    "example:\n" \
    "    printf 'tasks=1\\nnodes=3\\nbuckets=4\\nstart=0,insert,17\\nstep=0\\nstep=0\\nstep=0\\nstep=0\\n' | yard run\n" \
    "prints:\n" \
    "    at=0,32\n" \
    "    at=0,33\n" \
    "    at=0,36\n" \
    "    end=0,yes,3,1\n" \
    "    refuse=6\n" \
    "    size=1\n" \
    "    tags=1\n" \
    "    tag=17\n" \
    "and ends with status 0\n"

#define HELP_DUMP \
    "yard dump [FILE]: the memory that a session leaves after its last event, for a fitter with Figure 2\n" \
    SESSION \
    "output: the state, the tasks and their next lines, the records and who holds them, the tags and the\n" \
    "bucket that decides each (docs/FITTERS.md)\n" \
    "status: 0 the dump; 2 the session was refused, and only its refuse=NUMBER is printed; 3 trouble\n" \
    "example:\n" \
    "    printf 'tasks=1\\nnodes=3\\nbuckets=4\\nstart=0,insert,17\\nstep=0\\nstep=0\\n' | yard dump\n" \
    "and ends with status 0\n"

#define HELP_TIMELINE \
    "yard timeline [FILE]: a session as rows, one for each event, with a column for each task\n" \
    SESSION \
    "output: for each event where every task stood when it came, and what the set answers; then the listing, as\n" \
    "of yard run (docs/FITTERS.md)\n" \
    "status: 0 the timeline; 2 the session was refused; 3 trouble\n" \
    "example:\n" \
    "    printf 'tasks=2\\nnodes=3\\nbuckets=4\\nstart=0,insert,17\\nstart=1,grow\\nstep=0\\nstep=1\\n' | yard timeline\n" \
    "and ends with status 0\n"

#define HELP_RECORD \
    "yard record [FILE]: the recording of a session, which yard verify can check later\n" \
    SESSION \
    "output: the header's lines, each event's line with its output line after it, the listing. A line outside\n" \
    "the grammar is left out, and the listing follows at once\n" \
    "status: 0 the whole session is recorded; 2 a line was left out, or the opening was refused and only\n" \
    "refuse=NUMBER is printed; 3 trouble: the listing is missing, so that it is no recording\n" \
    "example:\n" \
    "    printf 'tasks=1\\nnodes=3\\nbuckets=4\\nstart=0,insert,17\\nstep=0\\n' | yard record\n" \
    "prints:\n" \
    "    tasks=1\n" \
    "    nodes=3\n" \
    "    buckets=4\n" \
    "    start=0,insert,17\n" \
    "    at=0,32\n" \
    "    step=0\n" \
    "    at=0,33\n" \
    "    size=1\n" \
    "    tags=0\n" \
    "and ends with status 0\n"

#define HELP_VERIFY \
    "yard verify [FILE]: whether a recording is what the set prints when its events are run afresh\n" \
    "input: what yard record writes: a session's header lines, each event's line with its output line after\n" \
    "it, then size=SIZE, tags=COUNT, and tag=TAG for each tag (yard help run has the form of each line)\n" \
    "output: one of\n" \
    "    same\n" \
    "    line=N                  the first line, counted from 1, that is not what the set prints\n" \
    "    refuse=NUMBER           10 a line outside the grammar or not closed, 12 a line is missing;\n" \
    "                            1, 2, 3 or 11 of the opening\n" \
    "status: 0 same; 1 line=N; 2 refused; 3 trouble\n" \
    "example:\n" \
    "    printf 'tasks=1\\nnodes=3\\nbuckets=4\\nstart=0,insert,17\\nat=0,33\\nsize=1\\ntags=0\\n' | yard verify\n" \
    "prints:\n" \
    "    line=5\n" \
    "and ends with status 1\n"

#define HELP_NOTES \
    "yard notes [FILE]: one order of two lanes' ended calls that explains the answers of both, from an empty set\n" \
    LINES \
    "    note=LANE,insert,TAG,ANSWER     LANE 1 or 2; also remove and contains; ANSWER yes, no or full\n" \
    "at most six for each lane, which stand in the lane's own order; the lanes' lines may be mixed\n" \
    "output: the same lines in an order that keeps both lanes', lane 1's call where both can come next; or none;\n" \
    "or refuse=NUMBER\n" \
    "status: 0 an order; 1 none; 2 refused (10 a line outside the grammar, 13 more than six calls of a lane, or\n" \
    "a resize, as note=1,grow,done); 3 trouble\n" \
    "example:\n" \
    "    printf 'note=1,insert,5,yes\\nnote=1,remove,5,no\\nnote=2,contains,5,no\\nnote=2,remove,5,yes\\n' | yard notes\n" \
    "prints:\n" \
    "    note=2,contains,5,no\n" \
    "    note=1,insert,5,yes\n" \
    "    note=2,remove,5,yes\n" \
    "    note=1,remove,5,no\n" \
    "and ends with status 0\n"

#define HELP_PLAN \
    "yard plan [FILE]: how many records always suffice, and what each call of one task then comes to\n" \
    LINES \
    "    tasks=TASKS             1 to 8\n" \
    "    version=VERSION         1 or 2; may be left out, which is 1\n" \
    "then at most 64 calls, made one after the other by one task\n" \
    "    call=insert,TAG         also remove and contains\n" \
    "    call=grow               also shrink\n" \
    "output: nodes=NODES, buckets=BUCKETS, and for each call in a freshly opened set plan=ANSWER,STEPS,TAKEN,\n" \
    "where TAKEN is how many bucket records it takes; or refuse=NUMBER\n" \
    "status: 0 a plan; 2 refused (10 a line outside the grammar, 1 the tasks, 11 the version, 9 more than 64\n" \
    "calls); 3 trouble\n" \
    "example:\n" \
    "    printf 'tasks=2\\ncall=insert,17\\ncall=grow\\ncall=contains,17\\ncall=remove,17\\ncall=shrink\\n' | yard plan\n" \
    "prints:\n" \
    "    nodes=6\n" \
    "    buckets=200\n" \
    "    plan=yes,3,0\n" \
    "    plan=done,7,0\n" \
    "    plan=yes,5,0\n" \
    "    plan=yes,10,1\n" \
    "    plan=done,14,1\n" \
    "and ends with status 0\n"

#define HELP_GAME \
    "yard game [FILE]: whether the lanes, tasks 0 and 1, can force task 0's insert through within N of their\n" \
    "turns, whatever the office, task 2, does\n" \
    SESSION \
    "and as the last line\n" \
    "    game=N                  1 to 6; there are three tasks or more, and task 0 runs an insert\n" \
    "output: lanes=MOVE, a first move that wins (0 or 1, the task to step, or pass); office, if the lanes\n" \
    "cannot; or refuse=NUMBER\n" \
    "status: 0 lanes; 1 office; 2 refused (10, 1, 2, 3 or 11 as of a session, 16 the game); 3 trouble\n" \
    "example:\n" \
    "    printf 'tasks=3\\nnodes=8\\nbuckets=200\\nstart=0,insert,5\\ngame=3\\n' | yard game\n" \
    "prints:\n" \
    "    lanes=0\n" \
    "and ends with status 0\n"

#define HELP_MATTERED \
    "yard mattered [FILE]: the first step of a session without which another list of calls ends\n" \
    SESSION \
    "at most 256 of them\n" \
    "output: event=N, where that step stands among the events, starts and steps counted from 1; or none; or\n" \
    "refuse=NUMBER\n" \
    "status: 0 event=N; 1 none; 2 refused (10, 1, 2, 3 or 11 as of a session, 15 more than 256 events); 3 trouble\n" \
    "example:\n" \
    "    printf 'tasks=1\\nnodes=3\\nbuckets=4\\nstart=0,insert,17\\nstep=0\\nstep=0\\nstep=0\\n' | yard mattered\n" \
    "prints:\n" \
    "    event=2\n" \
    "and ends with status 0\n"

#endif
