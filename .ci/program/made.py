"""Runs whose input and output are made: prefixes, numbers of up to 30 digits, keys and values at their limits, and long texts.

`runs` gives each as what it is, its words, its input, its output, its errors and its status. An output of None may be any.
"""

RUN, JUDGE = "run --nodes 2 --capacity 16", "judge"
EVENT, NO_NUMBER = "event,0,10,0\n", "refused,number\n"

# What is asked with a reading, a key and a value.
ASKED = """write,0,{reading},{key},{value}
get,0,{key}
send,0,{reading},1,{key}
deliver,1,{reading},1
get,1,{key}
pull,0,{reading},{key},{value}
erase,0,{reading},{key}
get,0,{key}
"""

ACCEPTED = """event,0,{reading},0
entry,{key},{reading},0,0,0,{value}
event,1,{reading},1
event,2,{reading},2
entry,{key},{reading},0,0,0,{value}
event,3,{reading},2
event,4,{reading},3
gone,{key},{reading},3,0,4
"""

LONG_KEY = """refused,key-size
none,{key}
refused,key-size
refused,no-message
none,{key}
refused,key-size
refused,key-size
none,{key}
"""

LONG_VALUE = """refused,value-size
none,{key}
refused,no-entry
refused,no-message
none,{key}
refused,value-size
event,0,{reading},0
gone,{key},{reading},0,0,0
"""

GREAT_READING = """refused,reading-too-large
none,{key}
refused,reading-too-large
refused,reading-too-large
none,{key}
refused,reading-too-large
refused,reading-too-large
none,{key}
"""

# A reading, the bytes of a key and of a value, and the answer. A record keeps up to 22 bytes in place.
LIMITS = [
    (1, 22, 0, ACCEPTED),
    (1, 22, 22, ACCEPTED),
    (1, 23, 23, ACCEPTED),
    (1, 256, 23, ACCEPTED),
    (9_223_372_036_854_775_807, 256, 4_096, ACCEPTED),
    (9_223_372_036_854_775_808, 256, 4_096, GREAT_READING),
    (1, 257, 4_096, LONG_KEY),
    (1, 257, 4_097, LONG_KEY),
    (1, 256, 4_097, LONG_VALUE),
]

RECORD = "write,0,10,a,x"

TRACE = """send,0,10,10,0
receive,1,5,0,10,1
local,1,5,4,9
local,1,5,10,2
local,1,6,10,2
local,0,9,11,0
"""

# The most records that a script or a trace may have, and a log.
MOST, MOST_OF_LOG = 1_048_576, 16_777_216


def at_limits():
    """Keys, values and readings at their limits and past them."""
    for reading, key, value, answer in LIMITS:
        parts = {"reading": reading, "key": ("0123456789" * 26)[:key], "value": ("abcdefghij" * 410)[:value]}
        yield f"{key} and {value} bytes at {reading}", RUN, ASKED.format(**parts), answer.format(**parts)


def prefixes():
    """Each prefix of a record, and of a trace, as a line that ends."""
    for length in range(1, len(RECORD) + 1):
        row = "refused,word\n" if length < 5 else "refused,fields\n" if length < 13 else EVENT
        yield f"a record's first {length} bytes", RUN, RECORD[:length] + "\n", row
    for length in range(1, len(TRACE) + 1):
        yield f"a trace's first {length} bytes", JUDGE, TRACE[:length].removesuffix("\n") + "\n", None


def digits():
    """Readings of 0 to 30 digits: the digit 1 with zeros before it, and nines."""
    for zeros in range(30):
        row = "event,0,1,0\n" if zeros < 20 else NO_NUMBER
        yield f"a 1 after {zeros} zeros", RUN, f"write,0,{'0' * zeros}1,a,x\n", row
    for count in range(31):
        nines = "9" * count
        row = f"event,0,{nines},0\n" if 0 < count < 19 else "refused,reading-too-large\n" if count == 19 else NO_NUMBER
        yield f"{count} nines", RUN, f"write,0,{nines},a,x\n", row


def long_records():
    """Fields of a mebibyte, and many fields."""
    ones, commas = "1" * 1_048_576, "," * 100_000
    asked = [ones, f"write,0,{ones},a,x", f"write,0,10,{ones},x", f"write,0,10,a,{ones}", f"explain,{ones}", ""]
    rows = "refused,word\nrefused,number\nrefused,key-size\nrefused,value-size\nrefused,number\n"
    yield "long fields", RUN, "\n".join(asked), rows
    yield "many fields", RUN, f"{commas}\nwrite,0,10,a{commas}x\n", "refused,word\nrefused,fields\n"


def numbered(line, count=6_000):
    """A line for each number below a count."""
    return "".join(line.format(number) for number in range(count))


def many_rows():
    """Answers of more than one batch of rows: a long table, and many verdicts."""
    asked = numbered("write,0,1,{},v\n") + "table,0\n"
    rows = numbered("event,{0},1,{0}\n") + "table,0,6000\n" + numbered("entry,{0},1,{0},0,{0},v\n")
    yield "a long table", "run --nodes 2 --capacity 6000", asked, rows
    yield "many verdicts", JUDGE, numbered("local,0,10,10,{}\n"), numbered("verdict,{},least\n")


def sent_again():
    """A log in which 61 messages are sent again: each receive is of the second send, or else of the first, after which its count leads."""
    log = "".join(f"send,a,{at},{at},0,m{at}\nsend,a,{at + 5},{at + 5},0,m{at}\nreceive,b,{at + 5},{at + 5},1,m{at}\n" for at in range(20, 1240, 20))
    yield "61 messages sent again, last", "audit --resent last", log, "count,least,183\nnode,a,122,0,1,1\nnode,b,61,0,3,2\nmessages,122,61,0,61\nskew,a,b,0,2,3\nresent,61\n"
    causes = "".join(f"cause,{3 * place},b,ahead,{20 * place + 5},0\n" for place in range(1, 62))
    rows = f"count,least,122\ncount,ahead,61\n{causes}node,a,122,0,1,1\nnode,b,61,0,3,3\nmessages,122,61,0,61\nskew,a,b,-5,1,3\nresent,61\n"
    yield "61 messages sent again, first", "audit --resent first", log, rows


def long_logs():
    """Logs with names at their limit and past it, a long label, and more blank lines than one read gives."""
    name, label = "a" * 256, "label " * 1_000
    known, longer = f"local,{name},1,1,0\n", f"local,a{name},1,1,0\n"
    yield "a name of 256 bytes", "audit --strict", known, f"count,least,1\nnode,{name},1,0,1,1\nmessages,0,0,0,0\n"
    yield "a name of 257 bytes", "audit", known + longer, "bad,2,name,node\n", "hlc: bad log\n", 4
    yield "a long label", "audit --ask event,1", f"local,a,1,1,0,{label}\n", f"event,1,a,1,1,0,1,0,least,{label}\n"
    log = "\ufefflocal,a,1,1,0\n" + "\r\n\n\n" * 4_000 + "local,a,2,2,0\r\nlocal,a,3,3,0\r\n"
    rows = "event,1,a,1,1,0,1,0,least\nevent,12002,a,2,2,0,2,0,least\nevent,12003,a,3,3,0,3,0,least\n"
    yield "lines after many blank ones", "audit --ask event,1 --ask event,12002 --ask event,12003", log, rows


def as_many_as_may_be():
    """As many records as a text may have, and one more: a script is answered up to it, and of a trace there is no verdict, nor anything of a log."""
    too_long = "hlc: too many records\n", 1
    words, record, rows = "run --nodes 2 --capacity 4", "x\n", "refused,word\n" * MOST
    yield "as many records as may be", words, record * MOST, rows
    yield "one record more", words, record * (MOST + 1), rows, *too_long
    claim = "local,0,10,10,0\n"
    rows = "verdict,0,least\n" + "".join(f"verdict,{place},not-above,{place - 1}\n" for place in range(1, MOST))
    yield "as many claims as may be", JUDGE, claim * MOST, rows
    yield "one claim more", JUDGE, claim * (MOST + 1), "", *too_long
    for words in "audit", "vectors", "draw-log":
        yield f"one record more, {words}", f"{words} --jsonl", record * (MOST_OF_LOG + 1), "", f"hlc: too many records: a log has at most {MOST_OF_LOG}\n", 1


def forgotten():
    """A watch that remembers a million messages: a receive of the first of them shows how far clocks are apart, and one of the message before waits."""
    sends = "".join(f"send,a,{at},{at},0,m{at}\n" for at in range(11, 1_000_012))
    rows = "node,a,1000001,0,1\nnode,b,2,11,1000003\nmessages,1000001,2\nwaiting,1\nforgotten,0\nleft-out,0\nskew,a,b,2,2,1000002\n"
    yield "a message too many to remember", "watch", sends + "receive,b,10,12,1,m12\nreceive,b,1,12,2,m11\n", rows


def runs():
    """All of them. Most end well, and tell of no error."""
    for made in at_limits, prefixes, digits, long_records, many_rows, sent_again, long_logs, as_many_as_may_be, forgotten:
        for what, words, given, output, *end in made():
            yield what, words, given, output, *(end or ("", 0))
