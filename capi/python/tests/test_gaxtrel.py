"""The package: each call, errors, threads, and what Python's own rules ask of a class."""

from __future__ import annotations

import array
import copy
import mmap
import pickle
import sys
import tempfile
import threading
import unittest
from pathlib import Path

import gaxtrel
from gaxtrel import Kind, Syntax


class Searches(unittest.TestCase):
    def setUp(self) -> None:
        self.pattern = gaxtrel.compile(b"ab|abcd|bc")

    def test_is_match(self) -> None:
        self.assertTrue(self.pattern.is_match(b"xabcde"))
        self.assertFalse(self.pattern.is_match(b"xacde"))
        self.assertFalse(self.pattern.is_match(b""))

    def test_search_takes_the_leftmost_longest_part(self) -> None:
        found = self.pattern.search(b"xabcdebc")
        self.assertEqual((found.start(), found.end(), found.span(), found.group()), (1, 5, (1, 5), b"abcd"))
        self.assertEqual(repr(found), "<gaxtrel.Match span=(1, 5) match=b'abcd'>")
        self.assertEqual(self.pattern.search(b"xabcdebc", 2).span(), (2, 4))
        self.assertIsNone(self.pattern.search(b"xabcdebc", 7))

    def test_any_number_is_a_place(self) -> None:
        self.assertEqual(self.pattern.search(b"ab", -7).span(), (0, 2))
        for start in (2, 3, 2**64, 2**64 + 1, 2**200):
            self.assertIsNone(self.pattern.search(b"ab", start))
            self.assertEqual(list(self.pattern.finditer(b"ab", start)), [])
            self.assertEqual(list(self.pattern.lines(b"ab", start)), [])

    def test_finditer(self) -> None:
        self.assertEqual([found.group() for found in self.pattern.finditer(b"xabcdebc")], [b"abcd", b"bc"])
        self.assertEqual([found.span() for found in self.pattern.finditer(b"a\0ab")], [(2, 4)])
        spans = [found.span() for found in self.pattern.finditer(b"ab" * 500)]
        self.assertEqual(spans, [(2 * k, 2 * k + 2) for k in range(500)])

    def test_an_empty_part_is_none(self) -> None:
        pattern = gaxtrel.compile(b"a*")
        self.assertTrue(pattern.is_match(b"b"))
        self.assertIsNone(pattern.search(b"b"))
        self.assertEqual([found.span() for found in pattern.finditer(b"baab")], [(1, 3)])

    def test_lines_of_a_text(self) -> None:
        pattern, text = gaxtrel.compile_lines(b"^a\nz$", Syntax.BASIC), b"xa\nab\n\nxyz\nzx\nbz"
        self.assertEqual([line.group() for line in pattern.lines(text)], [b"ab", b"xyz", b"bz"])
        self.assertEqual([line.group() for line in pattern.lines(text, 6)], [b"xyz", b"bz"])
        self.assertEqual(pattern.count_lines(text), 3)
        self.assertEqual(pattern.count_lines(b""), 0)

    def test_options(self) -> None:
        pattern = gaxtrel.compile(b"A.b", Syntax.FIXED, fold=True, whole=True)
        self.assertTrue(pattern.is_match(b"a.B"))
        self.assertFalse(pattern.is_match(b"a.Bc") or pattern.is_match(b"axB"))

    def test_limit(self) -> None:
        self.pattern.limit(6)
        self.assertTrue(self.pattern.is_match(b"xabcd"))
        for call in ("is_match", "fullmatch", "search", "finditer"):
            self.assertRaises(gaxtrel.Stopped, getattr(self.pattern, call), b"xabcde")
        self.assertRaises(gaxtrel.Stopped, self.pattern.count_lines, b"ab\nab\nab\n")
        self.assertRaises(gaxtrel.Stopped, list, self.pattern.lines(b"xyz\nxyz\nab\n"))
        self.pattern.limit(0)
        self.assertTrue(self.pattern.is_match(b"xabcde"))
        for wrong in (-1, 2**64):
            self.assertRaises(OverflowError, self.pattern.limit, wrong)

    def test_fullmatch(self) -> None:
        self.assertEqual(self.pattern.fullmatch(b"abcd").span(), (0, 4))
        self.assertIsNone(self.pattern.fullmatch(b"abc"))
        self.assertIsNone(self.pattern.fullmatch(b"x"))
        self.assertEqual(gaxtrel.compile(b"a*").fullmatch(b"").span(), (0, 0))
        self.assertIsNone(gaxtrel.compile_lines(b"a\nb").fullmatch(b"ab"))
        self.assertEqual(gaxtrel.compile(b"A", fold=True, whole=True).fullmatch(memoryview(b"a")).group(), b"a")

    def test_any_buffer(self) -> None:
        line = b"xabcdebc\nxab"
        with tempfile.TemporaryFile() as file:
            file.write(line)
            file.flush()
            mapped = mmap.mmap(file.fileno(), 0, access=mmap.ACCESS_READ)
            for text in (line, bytearray(line), memoryview(line), mapped,
                         memoryview(line).cast("I"), array.array("B", line)):
                self.assertTrue(self.pattern.is_match(text))
                self.assertEqual(self.pattern.search(text).group(), b"abcd")
                self.assertEqual([found.group() for found in self.pattern.finditer(text, 5)], [b"bc", b"ab"])
                self.assertEqual([found.group() for found in self.pattern.lines(text)], [b"xabcdebc", b"xab"])
                self.assertEqual(self.pattern.count_lines(text), 2)
            mapped.close()
        text = bytearray(b"ab")
        for _ in range(3):
            self.assertTrue(self.pattern.is_match(text))
            text.append(7)  # which no view hinders
        self.assertFalse(self.pattern.is_match(bytearray()))
        self.assertRaises(BufferError, self.pattern.is_match, memoryview(b"abc")[::2])

    def test_version(self) -> None:
        version = (Path(__file__).resolve().parents[3] / "VERSION").read_text(encoding="ascii").strip()
        self.assertEqual(gaxtrel.__version__, version)

    def test_no_pattern_and_the_empty_one(self) -> None:
        self.assertFalse(gaxtrel.compile_lines(b"").is_match(b""))
        self.assertTrue(gaxtrel.compile_lines(b"\n").is_match(b"a"))

    def test_which(self) -> None:
        pattern = gaxtrel.compile_lines(b"ab\n^x\nB$\n[0-9]", fold=True, apart=True)
        for line, numbers in {b"xab": [0, 1, 2], b"7b": [2, 3], b"z": [], b"": []}.items():
            self.assertEqual(pattern.which(line), numbers)
            self.assertEqual(pattern.is_match(line), bool(numbers))
        self.assertEqual(self.pattern.which(b"abc"), [0])
        self.assertEqual(gaxtrel.compile_lines(b"a\nb\n" * 500, apart=True).which(b"b"), list(range(1, 1000, 2)))
        with self.assertRaisesRegex(ValueError, "joined"):
            gaxtrel.compile_lines(b"a\nb").which(b"a")
        with self.assertRaises(gaxtrel.Error) as refused:
            gaxtrel.compile_lines(b"a\n(b\n[", apart=True)
        self.assertEqual((refused.exception.kind, refused.exception.pattern), (Kind.UnclosedGroup, 1))

    def test_work_is_bounded(self) -> None:
        pattern = gaxtrel.compile(b"a|a*[bc]")
        line = b"a" * 20_000
        self.assertEqual(sum(1 for _ in pattern.finditer(line)), len(line))
        work = pattern.work
        self.assertLessEqual(work.built + work.reused, len(line) + 1)
        self.assertLessEqual(work.passed, len(line) + 1)


class Errors(unittest.TestCase):
    def refusal(self, *words: object) -> gaxtrel.Error:
        with self.assertRaises(gaxtrel.Error) as refused:
            gaxtrel.compile(*words)
        return refused.exception

    def test_kind_and_place(self) -> None:
        error = self.refusal(rb"\(a\)\1", Syntax.BASIC)
        self.assertEqual((error.kind, error.at, error.pattern), (Kind.BackReference, 5, 0))
        self.assertEqual(str(error), "pattern 1: BackReference at 5")
        self.assertIsInstance(error, ValueError)

    def test_number_of_several(self) -> None:
        with self.assertRaises(gaxtrel.Error) as refused:
            gaxtrel.compile_lines(b"a\n(b\n[")
        error = refused.exception
        self.assertEqual((error.kind, error.at, error.pattern), (Kind.UnclosedGroup, 0, 1))
        again = pickle.loads(pickle.dumps(error))
        self.assertEqual((again.kind, again.at, again.pattern), (Kind.UnclosedGroup, 0, 1))

    def test_each_kind(self) -> None:
        for pattern, kind in {b"[a": Kind.UnclosedBracket, b"[[:x:]]": Kind.BadClass,
                              b"[[.ab.]]": Kind.BadCollatingSymbol, b"[b-a]": Kind.BadRange,
                              b"(a": Kind.UnclosedGroup, b"a{2,1}": Kind.BadInterval, b"a{256}": Kind.IntervalTooLarge,
                              b"*a": Kind.NothingToRepeat, b"a\\": Kind.TrailingBackslash,
                              b"\\w": Kind.UndefinedEscape, b"\\1": Kind.BackReference,
                              b"(" * 300 + b")" * 300: Kind.TooDeep, b"(a{255}){255}": Kind.TooLarge}.items():
            self.assertEqual(self.refusal(pattern).kind, kind, pattern)
        self.assertEqual(self.refusal(rb"a\)", Syntax.BASIC).kind, Kind.UnopenedGroup)
        with self.assertRaises(gaxtrel.Error) as refused:
            gaxtrel.compile_lines(b"a\n" * 65_536)
        self.assertEqual((refused.exception.kind, refused.exception.pattern), (Kind.TooManyPatterns, 65_535))

    def test_types(self) -> None:
        for wrong in (bytearray(b"a"), memoryview(b"a")):
            self.assertRaises(TypeError, gaxtrel.compile, wrong)
        for wrong in ("a", None, 7):
            self.assertRaises(TypeError, gaxtrel.compile, wrong)
            for call in ("is_match", "which", "fullmatch", "search", "finditer", "count_lines"):
                self.assertRaises(TypeError, getattr(gaxtrel.compile(b"a"), call), wrong)
            self.assertRaises(TypeError, list, map(list, [gaxtrel.compile(b"a").lines(wrong)]))
        self.assertRaises(ValueError, gaxtrel.compile, b"a", 3)

    def test_closed(self) -> None:
        with gaxtrel.compile(b"a") as pattern:
            self.assertTrue(pattern.is_match(b"a"))
        for call in ("is_match", "which", "fullmatch", "search", "finditer", "count_lines"):
            self.assertRaises(ValueError, getattr(pattern, call), b"a")
        self.assertRaises(ValueError, pattern.limit, 1)
        pattern.close()


class Objects(unittest.TestCase):
    def test_copies_are_patterns_of_their_own(self) -> None:
        pattern = gaxtrel.compile_lines(b"a\nb", fold=True, whole=True, apart=True)
        for again in (copy.copy(pattern), copy.deepcopy(pattern), pickle.loads(pickle.dumps(pattern))):
            again.close()
            self.assertTrue(pattern.is_match(b"B"))
            self.assertFalse(pattern.which(b"BA"))

    def test_a_pattern_with_each_thread(self) -> None:
        def work(seen: list[bool]) -> None:
            pattern = gaxtrel.compile(b"(a|aa)*b{1,20}[0-9]+")
            seen.append(all(pattern.is_match(b"x" * k + b"aaab7") for k in range(1000)))

        self.run_threads(work)

    def test_one_pattern_for_all_threads(self) -> None:
        pattern = gaxtrel.compile(b"(a|aa)*b{1,20}[0-9]+")

        def work(seen: list[bool]) -> None:
            for k in range(500):
                line = b"x" * k + b"aaab7"
                if pattern.search(line).span() != (k, k + 5) or pattern.is_match(line[:-1]):
                    return
            seen.append(True)

        self.run_threads(work)

    def test_a_session_goes_on(self) -> None:
        with gaxtrel.Session() as session:
            self.assertEqual(session.answer(b"file f 2\nab\nb\npatterns 1\na\nchanges\n"),
                             b"ok\nok\nh 0 0 0 2 1\nr 0 - ab\nstatus 0\n")
            self.assertEqual(session.answer(b"splice 0 1 1 1\nba\nchanges"),
                             b"ok\nh 0 1 1 1 1\nr 1 - ba\nstatus 0\n")
            self.assertEqual(session.answer(b""), b"")
            self.assertEqual(session.answer(b"close 7\n"), b"refused NoSuchFile\n")
            self.assertEqual(session.answer(b"file g 1000\n" + b"xay\n" * 1000 + b"page 0 9000\n").count(b"\np "),
                             1002)
            with self.assertRaises(TypeError):
                session.answer("show\n")  # type: ignore[arg-type]
            with self.assertRaises(TypeError):
                copy.copy(session)
        with self.assertRaises(ValueError):
            session.answer(b"show\n")
        for states in (0, 65537, -1):
            with self.assertRaises(ValueError):
                gaxtrel.Session(states)

    def test_no_line_is_taken_for_a_command(self) -> None:
        with gaxtrel.Session() as session:
            self.assertEqual(session.edit(b"file f 2", b"show\nab\n"), b"ok\n")
            self.assertEqual(session.edit(b"patterns 1", memoryview(b"show")), b"ok\n")
            self.assertEqual(session.edit(b"show"), b"o show\nstatus 0\n")
            self.assertEqual(session.edit(b"close 7"), b"refused NoSuchFile\n")
            for command, lines in ((b"file g 1", b"a\nb\n"), (b"file g 2", b"a\n"), (b"show\nshow", b"")):
                self.assertRaises(ValueError, session.edit, command, lines)
            self.assertRaises(TypeError, session.edit, "show")
        self.assertRaises(ValueError, session.edit, b"show")

    def test_each_refused_request_of_python(self) -> None:
        try:
            from _testcapi import remove_mem_hooks, set_nomemory
        except ImportError:
            self.skipTest("this Python can't refuse memory")
        pattern, session, line = gaxtrel.compile(b"a|(bc)+"), gaxtrel.Session(), bytearray(b"abcbc" * 300)
        session.answer(b"file f 1\nab\n")
        refusals = 0
        for call, *words in ((pattern.fullmatch, b"bc"), (pattern.search, line, 1000), (pattern.finditer, line),
                             (gaxtrel.compile_lines(b".\n" * 900, apart=True).which, b"abc"),
                             (pattern._next_line, line, 1000),
                             (session._answer, b"page 0 9\n"), (session._edit, b"page 0 9", b""),
                             (gaxtrel.compile(b"")._compile, b"a(", 1, False, False, False, False)):
            wanted, refused, number = str(call(*words)).split(" at ")[0], True, 0
            while refused:
                refused, given = False, None
                set_nomemory(number, number + 1)
                try:
                    given = call(*words)
                except MemoryError:
                    refused = True
                finally:
                    remove_mem_hooks()
                refusals += refused
                self.assertTrue(refused or str(given).split(" at ")[0] == wanted)
                number += 1
        self.assertGreater(refusals, 1100)  # one for each part of finditer and most numbers of which

    def test_one_session_for_all_threads(self) -> None:
        session = gaxtrel.Session(1)
        session.answer(b"patterns 1\n[ab]\n")

        def work(seen: list[bool]) -> None:
            seen.append(all(session.answer(b"file f 1\na\n") == b"ok\n" for _ in range(100)))

        self.run_threads(work)
        self.assertEqual(session.answer(b"page 0 0\n"), b"hits 800\nstatus 0\n")

    def run_threads(self, work: object) -> None:
        seen: list[bool] = []
        threads = [threading.Thread(target=work, args=(seen,)) for _ in range(8)]
        for thread in threads:
            thread.start()
        for thread in threads:
            thread.join()
        self.assertEqual(seen, [True] * 8)


if __name__ == "__main__":
    result = unittest.TextTestRunner().run(unittest.defaultTestLoader.loadTestsFromModule(sys.modules["__main__"]))
    failed = len(result.failures) + len(result.errors)
    print(f"{result.testsRun - failed} passed, {failed} failed")
    sys.exit(failed > 0)
