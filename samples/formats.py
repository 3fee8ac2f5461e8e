#!/usr/bin/env python3
"""Tries on the program what docs/FORMATS.md says of the texts: which are taken, which are refused, and how; and that its
reports on the samples are lawful.

    python3 samples/formats.py PROGRAM

where PROGRAM is `dstm`, as `rt run` builds it at crates/dstm/out/dstm. It writes each case that differs, and how many were tried.
"""

import subprocess
import sys
from pathlib import Path

USAGE = "usage: dstm run, check, gen or demo\n"
RUN_LIMIT = 4_194_304
CHECK_LIMIT = 8_388_608


class Trial:
    """Runs the program on one text after the other, and counts what differs from what is wanted."""

    def __init__(self, program):
        self.program = program
        self.tried = 0
        self.differ = 0

    def call(self, words, text):
        ran = subprocess.run([self.program, *words], input=text.encode("latin-1"), capture_output=True)
        return ran.returncode, ran.stdout.decode("latin-1"), ran.stderr.decode("latin-1")

    def expect(self, name, words, text, status, error="", output=None):
        self.tried += 1
        ended, wrote, told = self.call(words, text)
        if (ended, told) != (status, error) or output not in (None, wrote):
            self.differ += 1
            print(f"{name}: {' '.join(words)} on {text[:80]!r}: status {ended}, {told!r}, {wrote[:80]!r}")

    # ---- workloads

    def taken(self, name, text):
        self.expect(name, ["run"], text, 0)

    def refused(self, name, text, line, reason):
        self.expect(name, ["run"], text, 2, f"dstm: line {line}: {reason}\n", "")

    def replies(self, operations, replies, declared="dstm 3\nbank 2 100\nlist 1\ntree 1\n"):
        """The replies of one transaction on a new store."""
        self.tried += 1
        ended, wrote, told = self.call(["run"], f"{declared}tx 0 {operations}\n")
        found = wrote.split("\n")[1].split(" ", 3)[3] if ended == 0 else told
        if found != replies:
            self.differ += 1
            print(f"{operations}: {found!r}, and not {replies!r}")

    # ---- reports

    def check(self, name, workload, report, status, error, verdict):
        self.expect(name, ["check"], f"{workload}---\n{report}", status, error, verdict)

    def lawful(self, name, workload, report):
        self.check(name, workload, report, 0, "", "lawful\n")

    def unlawful(self, name, workload, report, line):
        self.check(name, workload, report, 6, "", f"not lawful: line {line}\n")

    def unread(self, name, workload, report, line):
        self.check(name, workload, report, 2, f"dstm: report line {line}: form\n", "")


def lines_of_a_workload(t):
    t.taken("the last line may lack its line feed", "dstm 1\nbank 1 1\ntx 0 total")
    t.taken("a header alone", "dstm 1\n")
    t.taken("comments hold anything", "# x\n#\ndstm 1\n# \x01\xff\t\nbank 1 1\n#tx\ntx 0 total\n")
    t.taken("lines without fields", "\n   \ndstm 1\n \nbank 1 1\n\ntx 0 total\n  \n")
    t.taken("spaces around fields", "  dstm   1  \n  bank 1   1 \n  tx  0  total  \n")
    t.taken("declarations in any order", "dstm 3\ntree 3\nlist 3\nbank 1 1\nworkers 2\ntx 1 member tree 3 ; member list 3 ; total\n")
    t.refused("a # elsewhere begins no comment", "dstm 1\nbank 1 1 # x\n", 2, "extra")
    t.refused("a # behind a space begins no comment", " # x\ndstm 1\n", 1, "header")
    for header in ["dstm 0", "dstm 4", "dstm 01", "dstm", "dstm 1 1", "Dstm 1", "dstm x", "tx 0 total"]:
        t.refused("header", f"{header}\n", 1, "header")
    t.refused("the first line that is no comment is the header", "#\nbank 1 1\n", 2, "header")
    t.refused("no line is a header", "# a\n\n", 3, "header")
    t.refused("no line is a header, without a line feed", "# a", 2, "header")
    t.refused("nothing at all", "", 1, "header")
    for byte in "\x00\t\r\x7f\x80\xff":
        t.refused("a byte that is not printable", f"dstm 1\nbank 1 1\ntx 0 total{byte}\n", 3, "bytes")
    t.refused("bytes before header", "dst\x01 9\n", 1, "bytes")
    t.refused("bytes before all others", "dstm 1\nfoo \x01\n", 2, "bytes")
    t.refused("a tab is a field", "dstm 1\n\t\n", 2, "bytes")
    t.refused("the first bad line", "dstm 1\nfoo\nbar\n", 2, "unknown")
    t.refused("its first fault", "dstm 1\nbank 5000 x y\n", 2, "out of range")


def declarations(t):
    for number in ["01", "+1", "-1", "1.0", "x", ";"]:
        t.refused("a number is a plain decimal", f"dstm 1\nbank {number} 1\n", 2, "number")
    t.refused("; is no number of a declaration", "dstm 1\nbank 1 ;\n", 2, "number")
    t.refused("orelse is no number of a declaration", "dstm 3\nworkers orelse\n", 2, "number")
    for workers in [1, 32]:
        t.taken("workers", f"dstm 1\nworkers {workers}\nbank 1 1\ntx {workers - 1} total\n")
    t.refused("without `workers` there is one", "dstm 1\nbank 1 1\ntx 1 total\n", 3, "out of range")
    for line in ["workers 0", "workers 33", "workers 18446744073709551616", "bank 0 1", "bank 4097 1", "bank 1 1000000001",
                 "list 0", "list 1025", "tree 0", "tree 65536"]:
        t.refused("range", f"dstm 1\n{line}\n", 2, "out of range")
    t.taken("the largest bank", "dstm 1\nbank 4096 1000000000\ntx 0 balance 4095\n")
    t.taken("the largest list", "dstm 1\nlist 1024\n")
    t.taken("the largest tree", "dstm 1\ntree 65535\n")
    for line in ["workers", "bank", "bank 1", "list", "tree"]:
        t.refused("a number is missing", f"dstm 1\n{line}\n", 2, "missing")
    for line in ["workers 1", "bank 1 1", "list 1", "tree 1"]:
        word = line.split()[0]
        t.refused("a field too many", f"dstm 1\n{line} 1\n", 2, "extra")
        t.refused("a second declaration", f"dstm 1\n{line}\n{line}\n", 3, "twice")
        t.refused("twice before its numbers are read", f"dstm 1\n{line}\n{word} x\n", 3, "twice")
        t.refused("behind a transaction", f"dstm 1\ntree 9\ntx 0 member tree 1\n{line}\n", 4, "late")
        bank = "" if word == "bank" else "bank 1 1\n"
        again = f"dstm 1\n{line}\n{bank}tx 0 total\n{line}\n"
        t.refused("late, even a second one", again, again.count("\n"), "late")
    for line in ["foo 1", "dstm 1", "total", ";"]:
        t.refused("no line begins so", f"dstm 1\n{line}\n", 2, "unknown")


def transactions(t):
    first = "workers 2\nbank 2 100\nlist 4\ntree 4\n"

    def taken(version, operations):
        t.taken("transaction", f"dstm {version}\n{first}tx {operations}\n")

    def refused(version, operations, reason):
        t.refused("transaction", f"dstm {version}\n{first}tx {operations}\n", 6, reason)

    for worker, reason in [("", "missing"), ("2 total", "out of range"), ("x total", "number"), ("; total", "number")]:
        refused(1, worker, reason)
    refused(3, "orelse", "number")
    for operations in ["", "; total", "total ;", "total ; ; total"]:
        refused(1, f"0 {operations}", "missing")
    for operations in ["foo", "put 1 1", "get 1", "await tree 1", "orelse"]:
        refused(1, f"0 {operations}", "unknown")
    for operations in ["await tree 1", "orelse"]:
        refused(2, f"0 {operations}", "unknown")
    taken(2, "0 put 1 18446744073709551615 ; get 1")
    taken(1, "0 transfer 0 1 9999999999999 ; insert list 1048574 ; insert tree 1048574")
    for version in [1, 2]:
        refused(version, "0 total orelse total", "extra")
        refused(version, "0 balance orelse", "number")
        refused(version, "0 insert orelse 1", "unknown")
    refused(3, "0 balance orelse", "number")
    for operations in ["total total", "balance 0 1"]:
        refused(1, f"0 {operations}", "extra")
    for operations in ["total ; await balance 0 1", "total orelse total ; await list 3", "await total", "await foo", "insert bank 1", "insert 1"]:
        refused(3, f"0 {operations}", "unknown")
    for operations in ["await", "await ; total", "await orelse total", "orelse total", "total orelse", "total orelse orelse total",
                       "total orelse ; total", "total ; orelse total", "transfer", "transfer 0", "transfer 0 1", "balance", "insert",
                       "insert list", "remove tree", "member", "put", "put 1", "get", "transfer ; 1 1", "transfer 0 ; 1", "transfer 0 1 ;",
                       "balance ;", "insert ; 1", "insert list ;", "put ; 1", "put 1 ;", "get ;", "await balance ; 1", "await balance 0 ;",
                       "await list ;"]:
        refused(3, f"0 {operations}", "missing")
    for operations in ["transfer 2 0 1", "transfer 0 2 1", "balance 2", "transfer 0 1 10000000000000", "insert list 1048575",
                       "member tree 1048575", "transfer 0 1 18446744073709551616", "put 1 18446744073709551616", "await balance 2 1",
                       "await balance 0 10000000000000", "await list 1048575"]:
        refused(3, f"0 {operations}", "out of range")
    for operations in ["transfer x 0 1", "balance 00", "insert list -1"]:
        refused(1, f"0 {operations}", "number")
    for version, operations in [(1, "transfer x"), (1, "balance"), (1, "total"), (1, "insert list x"), (1, "remove tree"), (2, "put x"),
                                (2, "get"), (3, "await balance"), (3, "await list"), (3, "await tree x")]:
        t.refused("not declared", f"dstm {version}\ntx 0 {operations}\n", 2, "undeclared")
    t.refused("told at the structure", "dstm 1\ntree 3\ntx 0 insert list\n", 3, "undeclared")
    taken(3, "0 await list 3 orelse await tree 3 orelse total")
    taken(1, "0 " + " ; ".join(["total"] * 8))
    taken(3, "0 " + " ; ".join(["total"] * 6) + " orelse total")
    refused(1, "0 " + " ; ".join(["total"] * 8) + " x", "extra")
    for count, behind in [(8, " ; total"), (8, " ;"), (7, " orelse total"), (8, " orelse total")]:
        refused(3, "0 " + " ; ".join(["total"] * count) + behind, "too many")
    many = "dstm 1\nbank 1 1\n" + "tx 0 total\n" * 20_000
    t.taken("20,000 transactions", many)
    t.refused("too many before the worker is read", f"{many}tx x\n", 20_003, "too many")
    t.refused("behind 20,000 transactions", f"{many}foo\n", 20_003, "unknown")


def operations(t):
    t.replies("transfer 0 1 100 ; transfer 0 1 1 ; transfer 0 1 0 ; balance 1 ; total", "ok ; poor ; ok ; 200 ; 200")
    t.replies("insert list 1 ; insert list 1 ; insert list 2 ; member list 1 ; remove list 1 ; remove list 1 ; member list 1",
              "true ; false ; full ; true ; true ; false ; false")
    t.replies("put 1 7 ; put 1 8 ; get 1 ; put 2 1 ; insert tree 1 ; get 1 ; get 2 ; insert tree 2",
              "true ; false ; 8 ; full ; false ; 8 ; none ; full")
    t.replies("insert tree 3 ; get 3", "true ; 0")
    t.replies("await balance 0 100 ; total", "true ; 200")
    t.replies("await balance 0 101 ; total orelse await list 1 orelse balance 0", "100")
    t.replies("await balance 0 1 orelse total", "true")
    t.expect("branches", ["run"], "dstm 3\nbank 2 100\ntx 0 await balance 0 150 ; transfer 0 1 1 orelse transfer 1 0 60\n"
             "tx 0 await balance 0 150 ; total\n", 0, "", "dstm report 3\n3 0 0.0 ok\n4 0 0.1 true ; 200\nbank 160 40\nend 2\n")


def lines_of_a_report(t):
    workload = "dstm 1\nworkers 2\nbank 2 100\nlist 4\ntree 4\ntx 0 transfer 0 1 30 ; insert tree 5\ntx 1 insert list 3\n"
    report = "dstm report 1\n6 0 0.0 ok ; true\n7 1 0.1 true\nbank 70 130\nlist 3\ntree 5\nend 2\n"
    lines = report.split("\n")[:-1]

    def with_line(place, line):
        return "".join(f"{it}\n" for it in [*lines[:place], line, *lines[place + 1 :]])

    def lines_at(*places):
        return "".join(f"{lines[it]}\n" for it in places)

    t.lawful("a report", workload, report)
    t.lawful("the last line may lack its line feed", workload, report[:-1])
    for text in [workload, workload[:-1]]:
        t.expect("no line is ---", ["check"], text, 2, "dstm: line 8: no report\n", "")
    t.expect("--- and a space", ["check"], f"{workload}--- \n{report}", 2, "dstm: line 8: unknown\n", "")
    t.expect("a workload that is refused", ["check"], f"dstm 1\nfoo\n---\n{report}", 2, "dstm: line 2: unknown\n", "")
    t.unread("nothing behind ---", workload, "", 1)
    t.unread("the first --- counts", workload, f"---\n{report}", 1)
    for header in ["dstm report 2", "dstm report", "dstm report 1 ", " dstm report 1", "dstm  report 1", "dstm report 01", "report 1",
                   "dstm report 1 1", "", "# x"]:
        t.unread("header", workload, with_line(0, header), 1)
    for row in ["6 0 0.0", "6 0 0.0 ok ;", "6 0 0.0 ok true", "6 0 0.0 ok ; true ", "6  0 0.0 ok ; true", "6 0 0 ok ; true", "6 0 0.0.0 ok",
                "6 0 .0 ok", "6 0 0. ok", "6 0 00.0 ok", "06 0 0.0 ok", "6 4294967296 0.0 ok", "18446744073709551616 0 0.0 ok",
                "6 0 18446744073709551616.0 ok", "6 0 0.18446744073709551616 ok", "6 0 0.0 18446744073709551616", "6 0 0.0 none",
                "6 0 0.0 never", "6 0 0.0 foo", "6 0 0.0 ok;true", "6 0 0.0 " + " ; ".join(["ok"] * 9), "# x", "", "6 0", "6", "x 0 0.0 ok",
                "6 0 0.0 ok ; ; ok", "6 0 0.0 01", "total"]:
        t.unread("row", workload, with_line(1, row), 2)
    for row in ["6 4294967295 0.0 ok", "18446744073709551615 0 0.0 ok", "6 0 0.0 18446744073709551615", "6 0 0.0 " + " ; ".join(["ok"] * 8)]:
        t.unlawful("a row that is read", workload, with_line(1, row), 2)
    t.unlawful("the last round and number", workload, with_line(1, "6 0 18446744073709551615.18446744073709551615 ok ; true"), 3)
    for bank in ["bank 70 x", "bank  70 130", "bank 70 130 ", "bank 070 130", "bank 18446744073709551616"]:
        t.unread("bank", workload, with_line(3, bank), 4)
    for keys in ["list x", "list 3 ", "list 18446744073709551616"]:
        t.unread("list", workload, with_line(4, keys), 5)
    for items in ["tree 5:1", "tree x", "tree 5 "]:
        t.unread("tree", workload, with_line(5, items), 6)
    for end in ["end", "end x", "end 2 2", "end 02", "end 2 ", "end 18446744073709551616", ""]:
        t.unread("end", workload, with_line(6, end), 7)
    t.unread("a line behind the end", workload, f"{report}end 2\n", 8)
    t.unread("an empty line behind the end", workload, f"{report}\n", 8)
    t.unread("it ends too early", workload, lines_at(0, 1, 2, 3, 4, 5), 7)
    t.unread("a header alone", workload, lines_at(0), 2)
    t.unread("a row behind a structure", workload, lines_at(0, 1, 3, 2, 4, 5, 6), 4)
    t.unread("structures in another order", workload, lines_at(0, 1, 2, 4, 3, 5, 6), 5)
    t.unread("a structure twice", workload, lines_at(0, 1, 2, 3, 3, 4, 5, 6), 5)

    def changed(old, new):
        return report.replace(old, new)

    t.unlawful("not the first of its worker", workload, changed("6 0 0.0", "7 0 0.0"), 2)
    t.unlawful("another worker", workload, changed("6 0 0.0", "6 1 0.0"), 2)
    t.unlawful("a row twice", workload, with_line(2, "6 0 0.1 ok ; true"), 3)
    t.unlawful("a number again", workload, changed("7 1 0.1", "7 1 0.0"), 3)
    t.unlawful("an earlier round", workload, changed("6 0 0.0", "6 0 1.0"), 3)
    t.lawful("a later round", workload, changed("7 1 0.1", "7 1 1.0"))
    t.lawful("a number is missing", workload, changed("7 1 0.1", "7 1 0.9"))
    t.unlawful("another reply", workload, changed("ok ; true", "poor ; true"), 2)
    t.unlawful("a reply is missing", workload, changed("ok ; true", "ok"), 2)
    t.unlawful("another balance", workload, changed("70 130", "71 129"), 4)
    t.unlawful("another key of the list", workload, changed("list 3", "list 4"), 5)
    t.unlawful("another key of the tree", workload, changed("tree 5", "tree 6"), 6)
    t.unlawful("no line of the bank", workload, changed("bank 70 130\n", ""), 4)
    t.unlawful("no line of the tree", workload, changed("tree 5\n", ""), 6)
    t.unlawful("keys in another order", workload.replace("list 3", "list 3 ; insert list 2"),
               changed("0.1 true", "0.1 true ; true").replace("list 3\n", "list 3 2\n"), 5)
    t.unlawful("another count", workload, changed("end 2", "end 3"), 7)
    t.unlawful("rows are missing", workload, "dstm report 1\n6 0 0.0 ok ; true\nbank 70 130\nlist\ntree 5\nend 1\n", 6)
    t.unlawful("a structure that is not declared", "dstm 1\nbank 1 1\n", "dstm report 1\nbank 1\nlist\nend 0\n", 3)

    second = workload.replace("dstm 1", "dstm 2")
    newer = changed("report 1", "report 2").replace("tree 5", "tree 5:0")
    t.lawful("version 2", second, newer)
    t.unread("its version is that of the workload", workload, newer, 1)
    t.unread("from version 2 on a key has a value", second, newer.replace("tree 5:0", "tree 5"), 6)
    t.unread("a key has one value", second, newer.replace("tree 5:0", "tree 5:0:1"), 6)
    t.unread("never belongs to version 3", second, newer.replace("0.1 true", "0.1 never"), 3)
    t.unlawful("none belongs to version 2 too", second, newer.replace("0.1 true", "0.1 none"), 3)
    waits = "dstm 3\nworkers 2\nbank 1 1\ntx 0 await balance 0 2\ntx 1 total\n"
    t.lawful("never", waits, "dstm report 3\n5 1 0.0 1\n4 0 1.0 never\nbank 1\nend 2\n")
    t.unlawful("never although another can begin", waits, "dstm report 3\n4 0 0.0 never\n5 1 0.1 1\nbank 1\nend 2\n", 2)


def samples(t):
    """The reports of both engines on the samples, and on generated workloads of several workers."""
    texts = {path.name: path.read_text() for path in sorted(Path(__file__).parent.glob("*.txt"))}
    for words in ["gen 7 2000 8", "gen 7 2000 32"]:
        texts[words] = t.call(words.split(), "")[1]
    for name, text in texts.items():
        for words in ["run", "run --engine tl2"]:
            t.lawful(f"{name}, {words}", text, t.call(words.split(), text)[1])


def lengths(t):
    t.taken("as long as run reads", "dstm 1\n" + "#" * (RUN_LIMIT - 8) + "\n")
    t.expect("too long for run", ["run"], "dstm 1\n" + "#" * (RUN_LIMIT - 7) + "\n", 2, "dstm: input too long\n", "")
    report = "dstm report 1\nend 0\n"
    room = CHECK_LIMIT - len(f"dstm 1\n\n---\n{report}")
    t.lawful("as long as check reads", "dstm 1\n" + "#" * room + "\n", report)
    t.expect("too long for check", ["check"], "dstm 1\n" + "#" * (room + 1) + f"\n---\n{report}", 2, "dstm: input too long\n", "")


def commands(t):
    for line in ["", "foo", "--help", "-h", "--version", "run x", "run --help", "run --", "check x", "check --seed 1", "gen", "gen 1", "gen 1 2",
                 "gen 1 2 3 4", "gen 1 20001 1", "gen 1 1 0", "gen 1 1 33", "gen 18446744073709551616 1 1", "gen 01 1 1", "gen --seed 1 1 1 1",
                 "demo 1 1", "demo 1 20001 1", "demo 1 1 33", "demo 1 1 1 --seed 1", "run --manager", "run --manager foo", "run --manager Polka",
                 "run --manager=polka --manager=polka", "run --seed", "run --seed x", "run --seed 01", "run --seed 18446744073709551616",
                 "run --seed 1 --seed 1", "run --all-write --all-write", "run --release --release", "run --all-write=1", "run --release x",
                 "run --engine", "run --engine tl3", "run --engine TL2", "run --engine tl2 --engine tl2", "run --engine=tl2 --manager=polka",
                 "run --engine tl2 --all-write", "run --release --engine tl2", "demo 1 1 1 --engine tl2", "check --engine dstm",
                 "run -m polka", "run --man polka"]:
        t.expect("no command", line.split(), "dstm 1\n", 1, USAGE, "")
    for line in ["run", "run --manager polite", "run --manager=karma", "run --manager greedy --seed 18446744073709551615",
                 "run --release --all-write --seed=0 --manager polka", "run --engine dstm --manager karma", "run --engine=tl2",
                 "run --seed 7 --engine tl2", "gen 0 0 1", "gen 18446744073709551615 20000 32"]:
        t.expect("a command", line.split(), "dstm 1\n", 0)
    t.expect("demo", ["demo", "7", "100", "3"], "", 0, "", "transactions 100\ntotal 8000\nlawful\n")


def main():
    if len(sys.argv) != 2:
        sys.exit(__doc__.strip())
    trial = Trial(sys.argv[1])
    for part in [lines_of_a_workload, declarations, transactions, operations, lines_of_a_report, samples, lengths, commands]:
        part(trial)
    print(f"{trial.tried} tried, {trial.differ} differ")
    sys.exit(1 if trial.differ else 0)


if __name__ == "__main__":
    main()
