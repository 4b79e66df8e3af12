"""Import and export at every border, run by tests/tables. No expected number and no expected byte is computed from another answer: the
five numbers are written beside each case, from the request's sentences (the comment above each group), and so is the table; a file that
must be written is given by its records."""
from common import C1, C2, C5, C6, C7, C9, C10, C11, S, TOP, UNIT, numbers, run

IMPORT, EXPORT = range(2)
# (name, call, file, table, length of the output, length of the answer, five numbers, what is written)
cases = []
HEADER = b"task,job,release,start,end,core\n"
ROOM = 40000


def imports(name, file, table, records, size, room=None, answer=20):
    """The table is imported: what is written is the file with these records, and has so many bytes."""
    written = run(*file[:3], records)
    cases.append((name, IMPORT, run(*file), table, size if room is None else room, answer, (5, size, 0, 0, 0), written))


def no_import(name, file, table, number, place=0, room=ROOM, answer=20):
    cases.append((name, IMPORT, file, table, room, answer, (4, number, place, 0, 0), b""))


def exports(name, file, table, size, room=None, answer=20):
    cases.append((name, EXPORT, run(*file), b"", size if room is None else room, answer, (5, size, 0, 0, 0), table))


def no_export(name, file, number, place=0, room=ROOM, answer=20):
    cases.append((name, EXPORT, file, b"", room, answer, (4, number, place, 0, 0), b""))


# "lines by start, then by record place": the worked runs as text.
C1_TEXT = HEADER + b"2,0,0,0,17,1\n3,0,0,0,15,2\n0,0,1,15,17,2\n0,1,10,17,19,1\n1,0,1,17,25,2\n"
C2_TEXT = HEADER + b"2,0,0,0,17,1\n3,0,0,0,15,2\n0,0,1,15,17,2\n1,0,1,17,25,1\n"
C5_TEXT = HEADER + b"0,0,0,0,5,1\n1,0,5,5,10,1\n2,0,5,5,6,2\n3,0,2,6,9,2\n"
C6_TEXT = HEADER + b"2,0,0,0,17,1\n3,0,0,0,15,2\n0,0,1,15,18,2\n0,1,10,17,19,1\n1,0,1,17,25,2\n"
C7_TEXT = HEADER + b"2,0,0,0,17,1\n0,0,1,15,17,2\n0,1,10,17,19,1\n1,0,1,17,25,2\n"
C9_TEXT = HEADER + b"".join(b"0,%d,%d,%d,%d,1\n" % (j, j, j, j + 1) for j in range(512))
for name, file, text, bytes_of_file, bytes_of_text in (
    ("C1", C1, C1_TEXT, 220, 101), ("C2", C2, C2_TEXT, 196, 86), ("C5", C5, C5_TEXT, 196, 81), ("C6", C6, C6_TEXT, 220, 101),
    ("C7", C7, C7_TEXT, 196, 88), ("C9", C9, C9_TEXT, 12328, 9834), ("C11", C11, HEADER, 40, 32),
):
    exports(f"{name} as a table", file, text, bytes_of_text)
    # "for each file whose records rise strictly by task and job, import of export gives the same file back"
    imports(f"{name} from its table", file, text, file[3], bytes_of_file)

# "in any order": the file's own records are ignored, whatever they are; "missing jobs import".
one = run(*C1)
BACKWARDS = HEADER + b"3,0,0,0,15,2\n2,0,0,0,17,1\n1,0,1,17,25,2\n0,1,10,17,19,1\n0,0,1,15,17,2\n"
imports("lines backwards", C1, BACKWARDS, C1[3], 220)
imports("into a file without records", (2, 20, S, []), BACKWARDS, C1[3], 220)
imports("into a file whose records do not rise", (2, 20, S, C1[3][::-1]), BACKWARDS, C1[3], 220)
imports("into a file with one job three times", (2, 20, S, [(0, 0, 9, 9, 9, 9)] * 3), BACKWARDS, C1[3], 220)
imports("a job is missing", C1, C7_TEXT, C7[3], 196)
imports("all jobs are missing", C1, HEADER, [], 100)
imports("jobs that do not exist", C11, HEADER + b"9,9,9,9,9,9\n7,8,0,0,0,0\n", [(7, 8, 0, 0, 0, 0), (9, 9, 9, 9, 9, 9)], 88)
imports("the greatest number", C11, HEADER + b"4294967295," * 5 + b"4294967295\n", [(TOP,) * 6], 64)
imports("zeros", C11, HEADER + b"0,0,0,0,0,0\n", [(0,) * 6], 64)
imports("order by task, and then by job", C11,
        HEADER + b"2,1,0,0,0,0\n1,4294967295,0,0,0,0\n10,0,0,0,0,0\n1,9,0,0,0,0\n1,10,0,0,0,0\n2147483648,0,0,0,0,0\n",
        [(1, 9, 0, 0, 0, 0), (1, 10, 0, 0, 0, 0), (1, TOP, 0, 0, 0, 0), (2, 1, 0, 0, 0, 0), (10, 0, 0, 0, 0, 0), (2**31, 0, 0, 0, 0, 0)], 184)

# "11 comes last"; bytes of the output past what is written keep their values, and a refusal changes none.
for name, room in (("exactly", 220), ("one byte more", 221), ("much more", 5000)):
    imports(f"room: {name}", C1, C1_TEXT, C1[3], 220, room)
for room in (219, 1, 0):
    no_import(f"room for {room} bytes", one, C1_TEXT, 11, room=room)
for name, room in (("exactly", 101), ("one byte more", 102), ("much more", 5000)):
    exports(f"room: {name}", C1, C1_TEXT, 101, room)
for room in (100, 32, 1, 0):
    no_export(f"room for {room} bytes", one, 11, room=room)
no_import("a bad line, and no room", one, HEADER + b"x\n", 12, 2, room=0)
no_import("a job twice, and no room", one, HEADER + b"0,0,0,0,0,0\n0,0,0,0,0,0\n", 13, 3, room=0)
no_export("records that do not rise, and no room", run(2, 20, S, C1[3][::-1]), 14, room=0)

# The five numbers go into the first 20 bytes of the answer; a shorter one is met first of all, and no byte changes.
for answer in (21, 40):
    imports(f"answer of {answer} bytes", C1, C1_TEXT, C1[3], 220, answer=answer)
    no_import(f"answer of {answer} bytes, refused", one, b"", 12, 1, answer=answer)
    exports(f"answer of {answer} bytes", C1, C1_TEXT, 101, answer=answer)
    no_export(f"answer of {answer} bytes, refused", b"", 1, answer=answer)
for answer in (0, 1, 19):
    no_import(f"answer of {answer} bytes", one, C1_TEXT, 0, answer=answer)
    no_import(f"answer of {answer} bytes, file refused", b"", b"", 0, answer=answer)
    no_export(f"answer of {answer} bytes", one, 0, answer=answer)

# "Refusals, after the file's own": each with a table that is good and one that is bad, and with no room for either.
OWN = (
    ("no byte", b"", 1, 0), ("cut in the records", one[:-1], 1, 0), ("setting's count", numbers(3) + one[4:], 2, 0),
    ("no core", numbers(2, 0) + one[8:], 3, 0), ("no task", numbers(2, 2, 20, 0) + one[16:], 4, 0),
    ("a task without a period", run(2, 20, S[:2] + [(0, 1, 1, 0, 0)], []), 5, 2), ("513 jobs", run(*C10), 6, 0),
    ("513 records", one[:96] + numbers(513) + one[100:], 7, 0), ("a byte behind the records", one + b"\n", 8, 0),
)
for name, file, number, place in OWN:
    no_import(f"{name}, good table", file, C1_TEXT, number, place)
    no_import(f"{name}, bad table", file, b"", number, place)
    no_import(f"{name}, no room", file, C1_TEXT, number, place, room=0)
    no_export(name, file, number, place)
    no_export(f"{name}, no room", file, number, place, room=0)

# 12: "a line is bad if it isn't the header (line 1)".
for name, table in (
    ("no byte", b""), ("a line feed", b"\n"), ("no header", C1_TEXT[len(HEADER):]), ("header without its line feed", HEADER[:-1]),
    ("a byte of the header missing", HEADER[1:]), ("a byte before the header", b" " + C1_TEXT), ("a byte-order mark", b"\xef\xbb\xbf" + C1_TEXT),
    ("header with CR", HEADER[:-1] + b"\r\n"), ("header with a space behind", HEADER[:-1] + b" \n"), ("header in capitals", HEADER.upper()),
    ("header with a comma behind", HEADER[:-1] + b",\n"), ("header with another word", HEADER.replace(b"core", b"cpus")),
    ("header with two words exchanged", HEADER.replace(b"task,job", b"job,task")), ("an empty line before the header", b"\n" + C1_TEXT),
    ("header with quotes", b'"' + HEADER[:-1] + b'"\n'), ("header closed by CR", C1_TEXT.replace(b"\n", b"\r")),
    ("header closed by a zero byte", HEADER[:-1] + b"\0"), ("header in letters of 16 bits", b"".join(bytes((c, 0)) for c in HEADER)),
):
    no_import(f"line 1: {name}", one, table, 12, 1)
for cut in range(len(HEADER)):
    no_import(f"header cut to {cut} bytes", one, HEADER[:cut], 12, 1)

# 12: "or six numbers below 2^32 so written, or lacks its line feed": line 2, then the same behind a line that is right.
BAD = (
    b"\n", b"\r\n", b" \n", b"x\n", b"0\n", b"0,0,0,0,0\n", b"0,0,0,0,0,\n", b",0,0,0,0,0\n", b"0,0,0,0,0,0,\n", b",0,0,0,0,0,0\n", b"0,0,0,0,0,0,0\n",
    b"0,0,,0,0,0\n", b",,,,,\n", b"0,0,0,0,0,0\r\n", b"0,0,0,0,0,0\r", b"0,0,0,0,0,0", b"0,0,0,0,0,0 \n", b" 0,0,0,0,0,0\n", b"0, 0,0,0,0,0\n",
    b"0,0,0,0,0 ,0\n", b"0\t,0,0,0,0,0\n", b"+0,0,0,0,0,0\n", b"0,-0,0,0,0,0\n", b"0,0,-1,0,0,0\n", b'"0",0,0,0,0,0\n', b"'0',0,0,0,0,0\n",
    b"00,0,0,0,0,0\n", b"0,00,0,0,0,0\n", b"0,0,01,0,0,0\n", b"0,0,0,010,0,0\n", b"0,0,0,0,00000000001,0\n", b"0,0,0,0,0,04294967295\n",
    b"4294967296,0,0,0,0,0\n", b"0,4294967296,0,0,0,0\n", b"0,0,4294967296,0,0,0\n", b"0,0,0,4294967296,0,0\n", b"0,0,0,0,4294967296,0\n",
    b"0,0,0,0,0,4294967296\n", b"0,0,0,0,0,4294967297\n", b"0,0,0,0,0,4300000000\n", b"0,0,0,0,0,9999999999\n", b"0,0,0,0,0,10000000000\n",
    b"0,0,0,0,0,42949672950\n", b"0,0,0,0,0,18446744073709551615\n", b"0,0,0,0,0,18446744073709551616\n", b"0,0,0,0,0,18446744073709551617\n",
    b"0,0,0,0,0," + b"1" * 1000 + b"\n", b"1" * 100000 + b"\n", b"0;0;0;0;0;0\n", b"0,0,0,0,0;0\n", b"0.0,0,0,0,0,0\n", b"1e0,0,0,0,0,0\n", b"0x0,0,0,0,0,0\n",
    b"0,0,0,0,0,0\0\n", b"\0000,0,0,0,0,0\n", b"0,0,0,0,0,\0\n", b"\xb00,0,0,0,0,0\n", b"0,0,0,0,0,\xb0\n", b"0\xac0,0,0,0,0\n", b"\xef\xbb\xbf0,0,0,0,0,0\n",
    b"0,0,0,0,0,/\n", b"0,0,0,0,0,:\n", b"0,0,0,0,0,0 0\n", b"0,0,0,0,0,0#\n", b"\xff\n", HEADER, b"0,0,0,0,0,0,0,0,0,0,0,0\n",
)
for bad in BAD:
    no_import(f"line 2: {bad[:40]}", one, HEADER + bad, 12, 2)
    no_import(f"line 3: {bad[:40]}", one, HEADER + b"5,5,5,5,5,5\n" + bad, 12, 3)
    no_import(f"line 2, and lines behind it: {bad[:40]}", one, HEADER + bad.rstrip(b"\r\n") + b" \n" + b"0,0,0,0,0,0\n", 12, 2)
no_import("the last line is not closed", one, C1_TEXT[:-1], 12, 6)
no_import("an empty line at the end", one, C1_TEXT + b"\n", 12, 7)
no_import("a zero byte at the end", one, C1_TEXT + b"\0", 12, 7)
no_import("CR LF throughout", one, C1_TEXT.replace(b"\n", b"\r\n"), 12, 1)

# 13: "a task and job already given by an earlier line"; "each line is judged for these in turn before the next line is read".
A, B, BAD_LINE = b"1,2,3,4,5,6\n", b"2,1,3,4,5,6\n", b"1,2,3\n"
no_import("a line twice", one, HEADER + A + A, 13, 3)
no_import("a job twice", one, HEADER + A + b"1,2,0,0,0,0\n", 13, 3)
no_import("a job twice, far apart", one, HEADER + A + b"".join(b"7,%d,0,0,0,0\n" % j for j in range(300)) + A, 13, 303)
no_import("two jobs twice", one, HEADER + A + B + B + A, 13, 4)
no_import("a job three times", one, HEADER + A + A + A, 13, 3)
no_import("a job twice, and then a bad line", one, HEADER + A + A + BAD_LINE, 13, 3)
no_import("a bad line, and then a job twice", one, HEADER + A + BAD_LINE + A, 12, 3)
no_import("a bad line that begins like an earlier one", one, HEADER + A + A[:-1], 12, 3)
imports("task and job exchanged", C11, HEADER + A + B, [(1, 2, 3, 4, 5, 6), (2, 1, 3, 4, 5, 6)], 88)
imports("texts that run into each other", C11, HEADER + b"1,11,0,0,0,0\n11,1,0,0,0,0\n111,0,0,0,0,0\n",
        [(1, 11, 0, 0, 0, 0), (11, 1, 0, 0, 0, 0), (111, 0, 0, 0, 0, 0)], 112)
imports("jobs that differ in a high bit", C11, HEADER + b"65536,0,0,0,0,0\n0,65536,0,0,0,0\n0,0,0,0,0,0\n",
        [(0, 0, 0, 0, 0, 0), (0, 65536, 0, 0, 0, 0), (65536, 0, 0, 0, 0, 0)], 112)

# 7: "a 513th record line", after 12 of this line and before 13; its place is 0 0 0.
LINES = [b"%d,%d,0,0,0,0\n" % (k // 16, k % 16) for k in range(514)]
FULL, FULL_RECORDS = HEADER + b"".join(LINES[:512]), [(k // 16, k % 16, 0, 0, 0, 0) for k in range(512)]
imports("512 lines", C11, FULL, FULL_RECORDS, 12328)
imports("512 lines backwards", C11, HEADER + b"".join(reversed(LINES[:512])), FULL_RECORDS, 12328)
imports("the longest file", (1, 1, [UNIT] * 32, []), FULL, FULL_RECORDS, 12948)
no_import("the longest file, and a byte too little room", run(1, 1, [UNIT] * 32, []), FULL, 11, room=12947)
no_import("513 lines", one, FULL + LINES[512], 7)
no_import("513 lines, and no room", one, FULL + LINES[512], 7, room=0)
no_import("the 513th repeats", one, FULL + LINES[0], 7)
no_import("the 513th repeats its neighbour", one, FULL + LINES[511], 7)
no_import("the 513th is bad", one, FULL + BAD_LINE, 12, 514)
no_import("the 513th is empty", one, FULL + b"\n", 12, 514)
no_import("the 513th is not closed", one, FULL + LINES[512][:-1], 12, 514)
no_import("the 514th is bad", one, FULL + LINES[512] + BAD_LINE, 7)
no_import("the 512th repeats", one, HEADER + b"".join(LINES[:511]) + LINES[0], 13, 513)
no_import("the 512th is bad", one, HEADER + b"".join(LINES[:511]) + BAD_LINE, 12, 513)
no_import("the 512th repeats, and there is a 513th", one, HEADER + b"".join(LINES[:511]) + LINES[0] + LINES[512], 13, 513)
no_import("many lines", one, FULL + LINES[512] * 20000, 7)
no_import("line 3 is bad, and many follow", one, HEADER + A + BAD_LINE + LINES[0] * 50000, 12, 3)

# "Export gives 14 when records don't rise strictly": by task, and then by job.
for name, records in (
    ("a record twice", [(0, 0, 1, 2, 3, 4)] * 2), ("a job twice", [(0, 0, 1, 2, 3, 4), (0, 0, 5, 6, 7, 8)]),
    ("jobs fall", [(0, 1, 1, 2, 3, 4), (0, 0, 1, 2, 3, 4)]), ("tasks fall", [(1, 0, 1, 2, 3, 4), (0, 1, 1, 2, 3, 4)]),
    ("the last two", C1[3][:3] + [C1[3][4], C1[3][3]]), ("the first two", [C1[3][1], C1[3][0]] + C1[3][2:]),
    ("across 2^31", [(2**31, 0, 0, 0, 0, 0), (0, 0, 0, 0, 0, 0)]), ("the last of 512", FULL_RECORDS[:511] + [FULL_RECORDS[510]]),
):
    no_export(f"no strict rise: {name}", run(2, 20, S, records), 14)
exports("a strict rise across 2^31", (2, 20, S, [(2**31 - 1, 0, 0, 0, 0, 0), (2**31, 0, 0, 0, 0, 0)]),
        HEADER + b"2147483647,0,0,0,0,0\n2147483648,0,0,0,0,0\n", 74)
exports("a strict rise across 2^16", (2, 20, S, [(0, 65535, 0, 0, 0, 0), (0, 65536, 0, 0, 0, 0), (65535, 0, 0, 0, 0, 0), (65536, 0, 0, 0, 0, 0)]),
        HEADER + b"0,65535,0,0,0,0\n0,65536,0,0,0,0\n65535,0,0,0,0,0\n65536,0,0,0,0,0\n", 96)
exports("equal starts stay in the order of the records", (2, 20, S, [(0, 9, 0, 5, 1, 3), (1, 0, 0, 5, 0, 2), (2, 0, 0, 4, 9, 1)]),
        HEADER + b"2,0,0,4,9,1\n0,9,0,5,1,3\n1,0,0,5,0,2\n", 68)
exports("starts at the borders of text", (2, 20, S, [(0, 0, 0, TOP, 0, 0), (0, 1, 0, 10, 0, 0), (0, 2, 0, 9, 0, 0), (0, 3, 0, 2**31, 0, 0)]),
        HEADER + b"0,2,0,9,0,0\n0,1,0,10,0,0\n0,3,0,2147483648,0,0\n0,0,0,4294967295,0,0\n", 99)
exports("no record", (2, 20, S, []), HEADER, 32)
# six numbers of ten digits, with their commas and line feed, are 66 bytes: 32 + 512 * 66
LONGEST = [(TOP - 1, TOP - 511 + k, TOP, TOP, TOP, TOP) for k in range(512)]
LONGEST_TEXT = HEADER + b"".join(b"4294967294,%d,4294967295,4294967295,4294967295,4294967295\n" % (TOP - 511 + k) for k in range(512))
exports("the longest table", (2, 20, S, LONGEST), LONGEST_TEXT, 33824)
imports("from the longest table", (2, 20, S, []), LONGEST_TEXT, LONGEST, 12388)
no_export("the longest table, and a byte too little room", run(2, 20, S, LONGEST), 11, room=33823)
