"""Starts a PostgreSQL of its own in a temporary folder, and asks it: test.py INSTALL.., the command that installs the
extension below the folder that its last word, DESTDIR=, then names. Root runs the server as the user postgres. The last
line is `N passed, M failed`."""

import contextlib
import os
import re
import shutil
import subprocess
import sys
import tempfile
from pathlib import Path

HOSTILE = "([ab]{0,60}a){60}c"
ROWS = [
    ("CREATE EXTENSION gaxtrel; "
     "SELECT provolatile, proisstrict, proparallel FROM pg_proc WHERE proname LIKE 'gaxtrel%'", "i|t|s\ni|t|s"),
    ("SELECT gaxtrel_match('abc', '^b|c$'), gaxtrel_match('abc', '^b'), gaxtrel_match('', 'a*')", "t|f|t"),
    ("SELECT gaxtrel_match(NULL, 'a') IS NULL, gaxtrel_match('a', NULL) IS NULL, gaxtrel_part(NULL, 'a') IS NULL",
     "t|t|t"),
    ("SELECT gaxtrel_part('xabcde', 'ab|abcd|bc'), gaxtrel_part('b', 'a*') IS NULL, gaxtrel_part('', 'a') IS NULL",
     "abcd|t|t"),
    ("SELECT gaxtrel_part('äb', '.'), gaxtrel_part('aäb', '[^a]b'), gaxtrel_part('a😀', 'a.')", "ä|äb|a😀"),
    (r"SELECT gaxtrel_match(E'a\nb', '^b'), gaxtrel_match(E'a\n', '^$'), gaxtrel_match(E'a\nb', 'a.b'), "
     r"gaxtrel_part(E'x\nab\nabb', 'ab+$')", "t|t|f|ab"),
    ("SELECT gaxtrel_match('a', 'a(b')", "ERROR:  invalid regular expression: UnclosedGroup at 1"),
    (r"SELECT gaxtrel_part('a', '(a)\1')", "ERROR:  invalid regular expression: BackReference at 3"),
    ("SELECT count(*) FROM (VALUES ('a', 'a'), ('a', 'b'), ('b', 'b'), ('b', 'a+')) t(s, p) WHERE gaxtrel_match(s, p)",
     "2"),
    # the lines of a thousand texts, beside (?n)
    ("SELECT count(*), count(*) FILTER (WHERE gaxtrel_match(s, p) <> (s ~ ('(?n)' || p))) FROM (SELECT "
     "translate(md5(k::text), '0123456789', E'\\n\\naabbaabb') s FROM generate_series(1, 1000) k) t, "
     "(VALUES ('^a'), ('b$'), ('^$'), ('a.b'), ('[^a]+c'), ('^(ab|c)*$')) patterns(p)",
     "6000|0"),
    (f"SELECT gaxtrel_match(repeat('ab', 5000) || 'bc', '{HOSTILE}')", "f"),
    # matchers are freed
    ("DO $$ BEGIN FOR k IN 1..5000 LOOP PERFORM gaxtrel_match(s, 'a{' || k % 200 || '}b|c[d-f]+') "
     "FROM (VALUES ('ab'), ('c')) t(s); END LOOP; END $$; "
     r"SELECT substring(pg_read_file('/proc/self/status') FROM 'VmRSS:\s+(\d+)')::int < 50000", "t"),
    ("SET max_parallel_workers_per_gather = 2; SET parallel_setup_cost = 0; SET parallel_tuple_cost = 0; "
     "SET min_parallel_table_scan_size = 0; CREATE TABLE t AS SELECT k || ' ab' s FROM generate_series(1, 100000) k; "
     "SELECT count(*) FROM t WHERE gaxtrel_match(s, '7 ab$')", "10000"),
]

LATE = [(4_000, 0.1), (64_000, 2.0)]
"""Lengths of lines, and how many seconds late a search of a megabyte of them may heed a time limit."""

FOLDER = Path(tempfile.mkdtemp())
PLACES = [subprocess.check_output(["pg_config", f"--{place}"], text=True).strip()
          for place in ("bindir", "pkglibdir", "sharedir")]
BIN = f"{FOLDER}{PLACES[0]}"


def run(*words: str) -> None:
    """Runs a command as the server's user."""
    user = ["runuser", "-u", "postgres", "--"] if os.getuid() == 0 else []
    subprocess.run([*user, *words], cwd=FOLDER, stdout=subprocess.DEVNULL, timeout=120, check=True)


def start() -> None:
    """The server's files are links to those of the machine, and programs look for files beside themselves."""
    for place in PLACES:
        Path(f"{FOLDER}{place}").parent.mkdir(parents=True, exist_ok=True)
        subprocess.run(["cp", "-rs", place, f"{FOLDER}{place}"], check=True)
    for program in ("postgres", "initdb", "pg_ctl"):
        os.remove(f"{BIN}/{program}")
        shutil.copy(f"{PLACES[0]}/{program}", BIN)
    subprocess.run([*sys.argv[1:-1], sys.argv[-1] + str(FOLDER)], stdout=subprocess.DEVNULL, check=True)
    if os.getuid() == 0:
        shutil.chown(FOLDER, "postgres")
    run(f"{BIN}/initdb", "-D", "data", "-U", "postgres", "-A", "trust", "-E", "UTF8", "--locale=C.UTF-8", "--no-sync")
    run(f"{BIN}/pg_ctl", "-D", "data", "-l", "log", "-w", "-o", f"-c listen_addresses= -k {FOLDER}", "start")


def psql(sql: str) -> str:
    """What psql answers."""
    ran = subprocess.run(["psql", "-qAtX", "-h", str(FOLDER), "-U", "postgres"], input=sql.encode(), timeout=120,
                         stdout=subprocess.PIPE, stderr=subprocess.STDOUT, check=False)
    return ran.stdout.decode().strip()


def lateness(length: int) -> float:
    """How many seconds after a time limit of 0.2 s a search of lines ends, none of which is matched."""
    said = psql(f"""CREATE TEMP TABLE t AS SELECT string_agg(line || E'bc\n', '') s
        FROM (SELECT string_agg(translate(md5(k::text), '0123456789cdef', 'ababababababab'), '') line
              FROM generate_series(0, 31999) k GROUP BY k / {length // 32}) lines;
        SET statement_timeout = 200;
        \\timing on
        SELECT gaxtrel_match(s, '{HOSTILE}') FROM t""")
    late = float(re.findall(r"Time: ([\d.]+)", said)[-1]) / 1000 - 0.2
    return late if "due to statement timeout" in said else float("inf")


def failures() -> int:
    """How many rows fail."""
    failed = 0
    for sql, wanted in ROWS:
        given = psql(sql)
        if given != wanted:
            failed += 1
            print(f"{sql}: {given}")
    for length, most in LATE:
        late = lateness(length)
        print(f"a time limit is heeded {late:.3f} s late in lines of {length:,} bytes")
        failed += late > most
    return failed


try:
    start()
    failed = failures()
finally:
    with contextlib.suppress(subprocess.CalledProcessError):
        run(f"{BIN}/pg_ctl", "-D", "data", "-m", "immediate", "stop")
    shutil.rmtree(FOLDER)
print(f"{len(ROWS) + len(LATE) - failed} passed, {failed} failed")
sys.exit(failed > 0)
