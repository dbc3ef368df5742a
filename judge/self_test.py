"""Shows that the judge refuses wrong reports: lawful ones with mistakes, and with each word and each line changed."""
import pathlib

from drafts import Draft, apart, double, drop, entry, exchange, in_serial_form, line, line_changes, move, split, start, steps
from drafts import strand_goes, swap, ticket, word_changes
from copies import judge_copy
from judge import judge, judge_one_map, judge_record, unseen
from reports import Unlawful
from scripts import read_script

LAWFUL = pathlib.Path(__file__).resolve().parent / "lawful"
# Reports of copies.
COPIES = LAWFUL.parent / "copied"

# A report, what is done to it, and the edits that do it.
WRONG = [
    ("moved", "another bit in the flush of the global turn alone", entry("global", 1, "0:04ec883b:0", "0:04ec883b:1")),
    (
        "moved",
        "another bit in both tellings of a flush",
        entry("global", 1, "0:04ec883b:0", "0:04ec883b:1"),
        entry("local 0", 2, "0:0", "0:1"),
    ),
    ("moved", "another hash in a flush", entry("global", 1, "0:04ec883b:0", "0:df8eb2bb:0")),
    (
        "moved",
        "a flush from the head",
        entry("global", 1, "0:04ec883b:0 1:df8eb2bb:0", "1:df8eb2bb:0 0:04ec883b:0"),
        entry("local 0", 2, "0:0 1:0", "1:0 0:0"),
    ),
    ("moved", "a rotation from the head", entry("global", 1, "inactive 2 0:0 1:0", "inactive 2 1:0 0:0")),
    (
        "moved",
        "a visit of active where inactive isn't shorter",
        entry("global", 1, "active 0 inactive", "active 1 0:0 inactive"),
    ),
    (
        "moved",
        "no global push behind a push moved",
        drop("global", 2),
        line("global inactive", "global inactive 0"),
        line("global free 0", "global free"),
    ),
    ("moved", "a push done of an element that was flushed", entry("local 0", 3, "moved", "done")),
    ("moved", "a push moved before the flush", swap("local 0", 2)),
    ("moved", "a push moved of an element that is pending", entry("local 0", 3, "push 0", "push 1")),
    ("moved", "a push moved on a lock where the element never was", move("local 0", 3, "local 1", 0)),
    ("moved", "gained in another order", entry("local 0", 0, "gain 2 1 0 got 0", "gain 2 0 1 got 1")),
    ("moved", "a refill that gains what the global turn didn't give", entry("local 0", 2, "gain 1 1", "gain 2 0 1")),
    ("moved", "the tail of the local free list", entry("local 0", 1, "df8eb2bb 1", "df8eb2bb 0")),
    ("moved", "a pop for a key of another hash", entry("local 0", 1, "df8eb2bb", "bb60a9ce")),
    (
        "moved",
        "an element held by the own CPU",
        entry("global", 1, "0:0:h1", "0:0:h0"),
        entry("bucket 1", 3, "held 1", "held 0"),
    ),
    ("moved", "an eviction for which no look asked", entry("global", 1, "0:0:h1", "0:1")),
    ("moved", "a probe that isn't answered", drop("bucket 1", 3)),
    ("moved", "a probe answered in the bucket of another hash", move("bucket 1", 3, "bucket 0", 0)),
    ("moved", "probes answered in another order", swap("bucket 1", 3), steps(0, 5)),
    (
        "moved",
        "an update in the bucket of another hash",
        move("bucket 0", 0, "bucket 1", 5),
        line("bucket 0 1 03 c3", "bucket 1 1 03 c3"),
    ),
    ("moved", "a shrink for one more", entry("global", 0, "shrink 126", "shrink 127")),
    ("moved", "a shrink that stops early", entry("global", 1, "2 0:0:h1 1:0:r forced 0", "1 0:0:h1 forced 1 1:r")),
    ("moved", "no shrink where too little was free", entry("global", 0, "shrink 126 0 forced 0", "shrink no")),
    ("moved", "another reply", line("2 ok", "2 enoent")),
    ("moved", "another element offered", entry("bucket 0", 0, "offer 1", "offer 0")),
    ("moved", "a cursor where nothing is inactive", line("global cursor -", "global cursor 0")),
    ("moved", "an element on no list at the end", line("local 0 pending 1", "local 0 pending")),
    ("held", "ENOMEM from the first search alone", entry("local 0", 1, "second 1 0:h0", "second 0"), drop("bucket 0", 1)),
    ("held", "ENOMEM without a look at the last CPU", drop("local 0", 1), drop("bucket 0", 1), drop("bucket 0", 0)),
    ("held", "ENOMEM without a round", drop("local 0", 1), drop("bucket 0", 1), drop("bucket 0", 0), drop("local 1", 1)),
    (
        "held",
        "an element held by a CPU that isn't there",
        entry("local 0", 1, "0:0:h0", "0:0:h3"),
        entry("bucket 0", 0, "held 0", "held 3"),
    ),
    ("held", "ok in place of ENOMEM", line("2 enomem", "2 ok")),
    ("held", "a probe before the update, and in the bucket after it", swap("bucket 0", 1)),
    ("stolen", "a round that begins at another CPU", steps(0, 5)),
    ("stolen", "a round that leaves a CPU out", drop("local 2", 0)),
    (
        "stolen",
        "another steal cursor",
        entry("local 2", 3, "cursor 1", "cursor 2"),
        line("local 2 steal 1", "local 2 steal 2"),
    ),
    ("stolen", "a steal cursor that isn't kept", line("local 0 steal 2", "local 0 steal 0")),
    (
        "stolen",
        "a steal of a used key in the first search",
        entry("local 0", 2, "first 1 0:1 second 1 0:r", "first 1 0:1:r second 0"),
    ),
    ("stolen", "a second search behind one that gave", entry("local 1", 4, "second 0", "second 1 1:r")),
    ("stolen", "pending before the free list", entry("local 0", 1, "steal free 1 first 0", "steal pending 0 first 1 0:0:r")),
    (
        "stolen",
        "a steal without an element added",
        drop("local 0", 5),
        line("local 0 pending 1", "local 0 pending"),
        line("local 0 steal 2", "local 0 steal 0"),
    ),
    ("stolen", "another CPU's value", entry("bucket 0", 7, "b600000000000000c6", "c600000000000000b6")),
    ("stolen", "the old value behind a write", line("bucket 0 0 06 00 b6 c6", "bucket 0 0 06 00 b6 00")),
    ("own", "a push on another CPU's set", entry("lru 0", 2, "push 0", "push 1")),
    (
        "own",
        "no push behind a deletion",
        drop("lru 0", 2),
        line("lru 0 inactive", "lru 0 inactive 0"),
        line("lru 0 free 0", "lru 0 free"),
    ),
    ("own", "ENOMEM without a forced search", entry("lru 0", 1, "forced 1 0:h1", "forced 0"), drop("bucket 1", 3)),
    ("own", "a shrink for one less", entry("lru 0", 1, "shrink 4", "shrink 3")),
    ("cursor", "a rotation from the tail where there is a cursor", entry("lru 0", 6, "1:0 0:1 5:1 4:0", "5:1 4:0 3:0 2:0")),
    (
        "cursor",
        "one visit more than the limit",
        entry("lru 0", 5, "inactive 4 5:0 4:0 3:0 2:0", "inactive 5 5:0 4:0 3:0 2:0 1:0"),
    ),
    ("cursor", "no visit of active where inactive is shorter", entry("lru 0", 7, "active 2 0:0 5:0", "active 0")),
    ("cursor", "the element freed first is taken", entry("lru 0", 6, "got 1", "got 4")),
    (
        "cursor",
        "the old element of a key isn't pushed free",
        drop("lru 0", 8),
        line("lru 0 inactive 2 5 1", "lru 0 inactive 2 0 5 1"),
        line("lru 0 free 0 3 4", "lru 0 free 3 4"),
    ),
    ("spare", "another spare", entry("bucket 1", 2, "replaced 0 3", "replaced 2 3")),
    ("spare", "a full map without a look at each freelist", drop("freelist 0", 2)),
    ("spare", "freelists in another order", steps(0, 6)),
    (
        "spare",
        "a push on another CPU's freelist",
        move("freelist 1", 3, "freelist 0", 3),
        entry("freelist 0", 4, "empty", "pop 2"),
        drop("freelist 1", 3),
    ),
    (
        "walks",
        "a batch that takes a part of a bucket",
        entry("bucket 1", 8, "taken 1 1:01=a1", "taken 0"),
        drop("freelist 0", 4),
    ),
    ("walks", "a batch with more room than it asked for", entry("bucket 0", 5, "keep 1", "keep 3")),
    (
        "walks",
        "a batch that goes on behind a bucket without room",
        line("7 ok taken 1 next 1 03=a3", "7 enoent taken 1 next 2 03=a3"),
    ),
    ("walks", "a batch that keeps what it takes", entry("bucket 0", 6, "drop", "keep"), drop("freelist 0", 3)),
    ("walks", "a walk that leaves a bucket out", drop("bucket 0", 4)),
    ("walks", "a batch that updates another key", entry("bucket 1", 1, "01 a1", "05 a1")),
    ("walks", "one entry more done", line("2 e2big done 2", "2 e2big done 3")),
    (
        "batches",
        "the elements taken are freed in order",
        swap("local 0", 2),
        steps(0, 12),
        line("local 0 free 1 0", "local 0 free 0 1"),
    ),
    ("batches", "a next key that isn't the next one", entry("bucket 1", 3, "key 01", "key 02"), line("3 ok 01", "3 ok 02")),
    ("batches", "ENOSPC for a bucket that fits", entry("bucket 0", 0, "taken 0", "over 0")),
    ("spare", "an element in two places", line("spare 1 3", "spare 1 2")),
]
# The same of tickets and of the record's line, each with what has to refuse it.
REFUSED = [
    ("moved", "a ticket twice", "the ticket 3 stands twice", ticket("local 0", 1, 3)),
    ("moved", "a number left out", "no entry has the ticket 12", ticket("global", 2, 13)),
    (
        "own",
        "two tickets of one history exchanged",
        "the order of the tickets of lru 0",
        exchange("lru 0", 1, "lru 0", 2),
    ),
    (
        "moved",
        "two tickets of two locks exchanged, of one CPU",
        "the order of the tickets of the CPUs [0]",
        exchange("global", 0, "local 0", 0),
    ),
    (
        "spare",
        "two tickets of two locks exchanged, of two CPUs of a serial run",
        "the order of the tickets of the CPUs [0, 1]",
        exchange("bucket 1", 3, "freelist 0", 3),
    ),
    ("moved", "a record of another form", "another record", line("record 2", "record 1")),
    ("moved", "no line that tells which record it is", "no line of the record", line("record 2")),
    ("moved", "the record of a script of version 2", "another record", line("record 2", "record 3")),
    ("phases", "the record of a script of version 1", "another record", line("record 3", "record 2")),
    ("phases", "a start one too high", "the ticket 3 of phase 1 is below its start", start(1, 4, [])),
    ("phases", "a start one too low", "the ticket 2 of phase 0 isn't below the start of phase 1", start(1, 2, [])),
    ("joined", "the start of an empty phase one too high", "the ticket of the start of phase 1", start(1, 5, [0])),
    ("joined", "a start above the number of entries", "the ticket of the start of phase 1", start(1, 13, [0])),
    ("parted", "a start that falls behind an empty phase", "the ticket of the start of phase 2", start(2, 0, [])),
    ("phases", "a first phase that doesn't start with ticket 0", "the start of phase 0", start(0, 1, [])),
    ("phases", "an element that is marked before the first phase", "the start of phase 0", start(0, 0, [0])),
    (
        "phases",
        "an entry of phase 1 with a ticket below its start",
        "the ticket 2 of phase 1 is below its start",
        exchange("global", 1, "bucket 0", 0),
    ),
    (
        "phases",
        "an entry of phase 1 with a ticket of phase 2",
        "the ticket 9 of phase 2 is below its start",
        exchange("bucket 0", 2, "bucket 0", 3),
        swap("bucket 0", 2),
    ),
    ("phases", "an element that isn't there is marked", "the elements that are marked at the start of phase 2", start(2, 10, [1])),
    (
        "parted",
        "marked elements that don't ascend",
        "the elements that are marked at the start of phase 1",
        start(1, 3, [1, 0]),
    ),
    (
        "spares",
        "an element that is marked on a map that doesn't evict",
        "the elements that are marked at the start of phase 2",
        start(2, 5, [0]),
    ),
    ("phases", "no strand of a phase", "the strands of the phases and CPUs", strand_goes("1 0,1")),
    ("joined", "no strand of an empty phase", "the strands of the phases and CPUs", strand_goes("1 0,1")),
    ("joined", "no strand of a CPU without a step", "the strands of the phases and CPUs", strand_goes("3 1")),
    ("phases", "a strand for each CPU in a phase of one CPU", "the strands of the phases and CPUs", split(0)),
    ("joined", "a strand for each CPU in an empty phase", "the strands of the phases and CPUs", split(1)),
    ("alone", "a strand for each CPU where all calls are of one", "the strands of the phases and CPUs", split(0)),
    ("joined", "calls beside each other in one strand", "call 3: no turn with a part Push", in_serial_form()),
    (
        "phases",
        "a bit that the turns before don't leave",
        "ticket 7, in a phase that runs in serial order: the bit of element 0",
        entry("local 0", 1, "first 1 0:0:r second 0", "first 1 0:1 second 1 0:r"),
    ),
    ("phases", "a bit that an addition cleared", "the elements that are marked at the end of phase 1", start(2, 10, [0])),
    ("joined", "a bit that a lookup set", "the elements that are marked at the end of phase 0", start(1, 4, [])),
    ("joined", "a bit that changes in an empty phase", "the elements that are marked at the end of phase 1", start(2, 4, [])),
    ("parted", "a bit that no turn set", "a bit that no turn set, at the end of phase 2", start(3, 13, [0])),
    (
        "spares",
        "the spare that the CPU had at first",
        "call 4: the spare",
        entry("bucket 0", 3, "replaced 2 0", "replaced 1 0"),
        entry("bucket 0", 4, "got 2 a3", "got 1 a3"),
    ),
    (
        "held",
        "another CPU that holds an element",
        "ticket 6: element 0 isn't in the hand of CPU 2",
        entry("local 0", 1, "first 1 0:0:h0 second 1 0:h0", "first 1 0:0:h2 second 1 0:h2"),
        entry("bucket 0", 0, "held 0", "held 2"),
        entry("bucket 0", 1, "held 0", "held 2"),
    ),
    ("inside", "a turn of a bucket that another CPU holds", "ticket 1: bucket 1 is held", exchange("bucket 1", 0, "freelist 1", 0)),
]
# The same of turns and replies that aren't those of one map, where nothing else is asked.
NO_MAPS = [
    # what a turn tells
    (
        "stolen",
        "an update that writes nothing, where a lookup tells",
        "ticket 37, on the one map: the value of key 06",
        entry("bucket 0", 7, "b600000000000000c6", "b60000000000000000"),
        line("9 ok 0000000000000000b600000000000000c600000000000000", "9 ok 0000000000000000b6000000000000000000000000000000"),
        line("bucket 0 0 06 00 b6 c6", "bucket 0 0 06 00 b6 00"),
    ),
    (
        "stolen",
        "a lookup that reads another CPU's part",
        "ticket 10, on the one map: the value of key 01",
        entry("bucket 1", 2, "got 0 a1", "got 0 00"),
        line("3 ok a1", "3 ok 00"),
    ),
    (
        "joined",
        "a lookup of a key that is gone",
        "ticket 11, on the one map: whether key 01 is there",
        entry("bucket 0", 4, "none", "got 0 a1"),
        line("6 enoent", "6 ok a1"),
    ),
    (
        "batches",
        "a delete of a key that isn't there",
        "ticket 14, on the one map: whether key 01 is there",
        entry("bucket 1", 7, "none", "gone 0"),
        line("7 enoent done 0", "7 ok done 1"),
    ),
    (
        "spare",
        "an update that adds a key that is there",
        "ticket 9, on the one map: an update that added, of key 01",
        entry("bucket 1", 2, "replaced 0 3", "added 0"),
    ),
    (
        "spare",
        "E2BIG of a key that is there",
        "ticket 9, on the one map: an update that full, of key 01",
        entry("bucket 1", 2, "replaced 0 3", "full"),
        line("4 ok", "4 e2big"),
    ),
    (
        "held",
        "E2BIG of a map that evicts",
        "ticket 9, on the one map: an update that full, of key 01",
        entry("bucket 0", 2, "added 0", "full"),
        line("1 ok", "1 e2big"),
    ),
    (
        "stolen",
        "a key in another bucket",
        "ticket 9, on the one map: the bucket of key 02",
        move("bucket 1", 1, "bucket 0", 0),
    ),
    (
        "batches",
        "no next key where one is there",
        "ticket 10, on the one map: a first key that isn't there, or none where there is one",
        entry("bucket 1", 5, "key 02", "none"),
        line("5 ok 02", "5 enoent"),
    ),
    (
        "batches",
        "a next key that isn't there",
        "ticket 7, on the one map: a next key that isn't there",
        entry("bucket 1", 3, "key 01", "key 03"),
        line("3 ok 01", "3 ok 03"),
    ),
    (
        "batches",
        "a batch that tells a part of a bucket",
        "ticket 11, on the one map: how many keys the bucket has",
        entry("bucket 1", 6, "taken 2 1:02=b2 0:01=a1", "taken 1 1:02=b2"),
        line("6 enoent taken 2 next 2 02=b2 01=a1", "6 enoent taken 1 next 2 02=b2"),
    ),
    (
        "between",
        "a batch that is one moment, its first",
        "ticket 6, on the one map: the keys and values of the bucket",
        entry("bucket 1", 2, "=11000000000000002200000000000000", "=11000000000000000000000000000000"),
        line(
            "2 enoent taken 1 next 2 01=11000000000000002200000000000000",
            "2 enoent taken 1 next 2 01=11000000000000000000000000000000",
        ),
    ),
    (
        "between",
        "a batch that is one moment, its last",
        "ticket 2, on the one map: how many keys the bucket has",
        entry("bucket 0", 0, "taken 0", "taken 1 1:03=00000000000000003300000000000000"),
        line(
            "2 enoent taken 1 next 2 01=11000000000000002200000000000000",
            "2 enoent taken 2 next 2 03=00000000000000003300000000000000 01=11000000000000002200000000000000",
        ),
    ),
    # by what a key goes
    (
        "stolen",
        "an eviction that isn't told",
        "ticket 20, on the one map: more keys than elements",
        drop("bucket 1", 4),
    ),
    (
        "stolen",
        "an element that another key has",
        "ticket 9, on the one map: no turn took the key of element 0 out",
        entry("bucket 1", 1, "added 1", "added 0"),
    ),
    (
        "moved",
        "a delete whose moment is that of its push",
        "ticket 6, on the one map: whether element 0 has a key",
        exchange("bucket 1", 1, "local 0", 3),
    ),
    (
        "moved",
        "an eviction of an element without a key",
        "ticket 6, on the one map: whether element 0 has a key",
        entry("bucket 1", 3, "held 1", "removed"),
    ),
    (
        "moved",
        "an eviction in another bucket",
        "ticket 7, on the one map: the bucket of the key that goes",
        move("bucket 1", 4, "bucket 0", 0),
    ),
    (
        "stolen",
        "an update that writes nothing, where the lists at the end tell",
        "the keys and values at the end aren't those of the one map",
        line("bucket 0 0 06 00 b6 c6", "bucket 0 0 06 00 b6 00"),
    ),
    (
        "over-full",
        "a key that goes at the end",
        "the keys and values at the end aren't those of the one map",
        line("bucket 1 1 02 22 00"),
    ),
    # what a call is answered
    (
        "alone",
        "an update that answers ok and has no turn on a key",
        "call 1: no turn of its own at which the map answers",
        drop("bucket 0", 0),
        entry("bucket 0", 0, "gone 0", "none"),
        line("2 ok", "2 enoent"),
    ),
    ("joined", "a second turn of a lookup", "ticket 4, on the one map: a further turn on keys of call 2", double("bucket 0", 1)),
    (
        "walks",
        "an entry of a batch that has no turn",
        "call 2: no turn of its own at which the map answers",
        drop("bucket 1", 2),
    ),
    (
        "walks",
        "a batch that updates another key",
        "ticket 3, on the one map: a turn of another call",
        entry("bucket 1", 1, "01 a1", "05 a1"),
    ),
    (
        "stolen",
        "a lookup by another CPU",
        "ticket 10, on the one map: the call, or its CPU",
        entry("bucket 1", 2, "0 3 lookup", "1 3 lookup"),
    ),
    (
        "held",
        "ENOMEM of a call that has a turn",
        "ticket 9, on the one map: a further turn on keys of call 1",
        line("1 ok", "1 enomem"),
    ),
    (
        "joined",
        "ENOENT in place of the value",
        "call 2: the reply is 'enoent', and the map answers 'ok a1'",
        line("2 ok a1", "2 enoent"),
    ),
    (
        "batches",
        "a reply that leaves a pair out",
        "ticket 11, on the one map: what is told of bucket 1",
        line("6 enoent taken 2 next 2 02=b2 01=a1", "6 enoent taken 1 next 2 02=b2"),
    ),
    (
        "batches",
        "a batch that passes a bucket without a turn",
        "ticket 5, on the one map: no turn of bucket 0",
        drop("bucket 0", 0),
    ),
    (
        "between",
        "a walk that leaves a key out",
        "ticket 7, on the one map: what is told of bucket 0",
        line("5 ok taken 2 next 2 03=33 01=22", "5 ok taken 1 next 2 01=22"),
    ),
    (
        "between",
        "a walk that hands over another CPU's part",
        "ticket 8, on the one map: what is told of bucket 1",
        line("5 ok taken 2 next 2 03=33 01=22", "5 ok taken 2 next 2 03=33 01=11"),
    ),
    # the order of calls
    (
        "joined",
        "two calls of a CPU the other way round",
        "ticket 3: a turn of CPU 0 behind its later call",
        exchange("bucket 0", 0, "bucket 0", 1),
    ),
    (
        "phases",
        "an entry of phase 2 before one of phase 1",
        "ticket 10: phase 1 behind phase 2",
        exchange("bucket 0", 2, "bucket 0", 3),
    ),
]
# The same with edits that leave what no run leaves, and yet a record: of it neither bits nor the form of strands are asked, nor that
# starts of phases never fall.
RECORDS = [
    ("alone", "a strand for each CPU where all calls are of one", apart()),
    ("joined", "a strand for each CPU in an empty phase", apart()),
    ("parted", "a start that falls behind an empty phase", start(2, 0, [])),
    ("joined", "a start above the number of entries", start(1, 13, [0])),
    ("parted", "a bit that no turn set", start(3, 13, [0])),
    ("spares", "an element that is marked on a map that doesn't evict", start(2, 5, [0])),
    ("phases", "a bit that the turns before don't leave", entry("local 0", 1, "first 1 0:0:r second 0", "first 1 0:1 second 1 0:r")),
]
# Reports that runs left, and what races are made for that none of these saw.
UNSEEN = [
    ("moved held stolen", []),
    ("held stolen", ["a push that found its element moved"]),
    ("moved stolen", ["an ENOMEM"]),
    ("moved held", ["a theft"]),
    ("spare walks", ["a theft", "an ENOMEM", "a push that found its element moved"]),
    ("", ["a theft", "an ENOMEM", "a push that found its element moved"]),
]
# Scripts that are none.
NO_SCRIPTS = [
    ("a line `phase` in version 1", "bpfmap 1\n{map}\nphase\n"),
    ("a token behind `phase`", "bpfmap 2\n{map}\nphase 1\n"),
    ("`Phase`", "bpfmap 2\n{map}\nPhase\n"),
    ("65 phases", "bpfmap 2\n{map}\n" + 64 * "phase\n"),
    ("a version that isn't there", "bpfmap 3\n{map}\n"),
    ("a version with a zero before it", "bpfmap 02\n{map}\n"),
]
# The same with edits that leave a lawful report, and why they do.
LAWFUL_EDITS = [
    (
        "moved",
        "a push moved dropped",
        "a CPU that reads the home word after the flush makes no turn of the local lock",
        drop("local 0", 3),
    ),
    (
        "moved",
        "two turns of a bucket in another order",
        "they are of two CPUs and two keys, so either may come first",
        swap("bucket 1", 1),
    ),
    (
        "moved",
        "two tickets of two locks exchanged, of two CPUs",
        "neither turn waits for the other, so either may come first",
        exchange("bucket 1", 1, "local 0", 1),
    ),
    (
        "joined",
        "the bit of an element that was pushed free",
        "where CPUs run beside each other no entry tells when a lookup's bit came",
        start(3, 11, [0]),
    ),
]
# Lines in which a word can be changed alone, and why.
LAWFUL_CHANGES = {}


def edited(text, edits):
    draft = Draft(text)
    assert draft.text() == text
    for edit in edits:
        edit(draft)
    return draft.text()


def refusal(script, report, judges=judge):
    """Why a report is refused; none where it isn't."""
    try:
        judges(script, report)
    except Unlawful as why:
        return why
    return None


def texts_in(folder):
    return {file.stem: (file.with_suffix(".bpfmap").read_text(), file.read_text()) for file in sorted(folder.glob("*.report"))}


def lawful_test(texts, judges):
    """Asks for lawful reports. The answer is how many aren't."""
    failed = 0
    for name, (script, report) in texts.items():
        why = refusal(script, report, judges)
        print(f"{name}:", "lawful" if why is None else f"REFUSED: {why}")
        failed += why is not None
    return failed


def refused_test(texts, rows, judges):
    """Asks that each mistake is refused by its rule. The answer is how many aren't."""
    failed = 0
    for name, what, wanted, *edits in rows:
        script, report = texts[name]
        why = refusal(script, edited(report, edits), judges)
        print(f"{name}, {what}:", f"refused: {why}" if str(why) == wanted else f"IS NOT REFUSED BY {wanted!r}: {why}")
        failed += str(why) != wanted
    return failed


def change_test(texts, judges):
    """Asks that each change of a word or a line is refused. The answer is how many aren't."""
    failed = 0
    for name, (script, report) in texts.items():
        for kind, changes in (("word", word_changes), ("line", line_changes)):
            refused = 0
            for number, changed in changes(report):
                if refusal(script, changed, judges) is not None:
                    refused += 1
                    continue
                old, new = report.splitlines()[number], changed.splitlines()[number]
                reasons = [why for start, why in LAWFUL_CHANGES.items() if kind == "word" and old.startswith(start)]
                print(f"{name}, {old!r} changed to {new!r}:", f"passes: {reasons[0]}" if reasons else "PASSES")
                failed += not reasons
            print(f"{name}: refused {refused} changes of a {kind}")
    return failed


def self_test():
    texts, copied = texts_in(LAWFUL), texts_in(COPIES)
    failed = lawful_test(texts, judge) + lawful_test(copied, judge_copy)
    for name, what, *edits in WRONG:
        script, report = texts[name]
        why = refusal(script, edited(report, edits))
        print(f"{name}, {what}:", "PASSES" if why is None else f"refused: {why}")
        failed += why is None
    failed += refused_test(texts, REFUSED, judge) + refused_test(texts, NO_MAPS, judge_one_map)
    for name, what, *edits in RECORDS:
        script, report = texts[name]
        changed = edited(report, edits)
        asked = refusal(script, changed, judge_record), refusal(script, changed)
        print(f"{name}, {what}:", "a record of no run" if asked[0] is None and asked[1] is not None else f"NOT ONE: {asked}")
        failed += asked[0] is not None or asked[1] is None
    for name, what, reason, *edits in LAWFUL_EDITS:
        script, report = texts[name]
        why = refusal(script, edited(report, edits))
        print(f"{name}, {what}:", f"passes: {reason}" if why is None else f"REFUSED: {why}")
        failed += why is not None
    for names, wanted in UNSEEN:
        found = unseen([judge(*texts[name]) for name in names.split()])
        print(f"runs that left {names or 'nothing'}:", f"they saw all but {found}" if found == wanted else f"NOT {wanted}: {found}")
        failed += found != wanted
    for what, text in NO_SCRIPTS:
        is_read = True
        try:
            read_script(text.format(map="map hash key 1 value 1 max 1 cpus 2"))
        except (IndexError, KeyError, TypeError, ValueError):
            is_read = False
        print(f"a script with {what}:", "IS READ" if is_read else "refused")
        failed += is_read
    failed += change_test(texts, judge) + change_test(copied, judge_copy)
    if failed:
        raise SystemExit(f"{failed} failed")
