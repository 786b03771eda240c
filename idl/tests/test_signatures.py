"""Tests of the converter: run by checks/idl.sh, or as python3 idl/tests/test_signatures.py from the repository."""

from __future__ import annotations

import os
import re
import subprocess
import sys
import tempfile
import unittest
from pathlib import Path
from typing import Callable, Dict, List, Tuple

HERE = Path(__file__).resolve().parent
REPOSITORY = HERE.parent.parent
GIOPDUMP = REPOSITORY / "crates/giopdump/out/giopdump"
IDL = Path("/usr/share/idl/omniORB")
sys.path.insert(0, str(HERE))

from conversations import CONVERSATIONS  # noqa: E402

ARGUMENTS: Dict[str, List[str]] = {"first": ["-Wbversion=1"], "only": ["-Wbonly=O::Wanted"]}
# The texts that are written in version 2 too, in which operations have no interfaces, and wide text, arrays in arrays and types
# within themselves no form.
OLDER = ("half_equal", "wide", "arrays", "recursive")


def omniidl(*words: str, cwd: Path = HERE) -> subprocess.CompletedProcess[str]:
    """Runs omniidl with the back end."""
    backend = ["-p", str(HERE.parent), "-bgiopdump_signatures"]
    command = ["omniidl", f"-I{IDL}", f"-I{IDL}/COS", *backend, *words]
    environment = dict(os.environ, PYTHONDONTWRITEBYTECODE="1")
    return subprocess.run(command, cwd=cwd, env=environment, capture_output=True, text=True, timeout=120)


def dump(*words: str) -> subprocess.CompletedProcess[str]:
    """Runs the dumper."""
    return subprocess.run([str(GIOPDUMP), *words], capture_output=True, text=True, timeout=120)


def with_files(contents: Dict[str, bytes], folder: str) -> Dict[str, str]:
    """Writes files to a folder; gives their paths."""
    paths = {name: os.path.join(folder, name) for name in contents}
    for name, content in contents.items():
        Path(paths[name]).write_bytes(content)
    return paths


def refusal_of(signatures: str) -> str:
    """What the dumper says against a signature file; nothing where it takes it."""
    with tempfile.TemporaryDirectory() as folder:
        path = with_files({"f.sig": signatures.encode()}, folder)["f.sig"]
        done = dump("--types", path, "/dev/null")
        return done.stderr if done.returncode else ""


class Texts(unittest.TestCase):
    """Each small IDL text gives the signature file beside it, which the dumper takes."""

    def test_each_text(self) -> None:
        texts = sorted(HERE.glob("*.idl"))
        self.assertGreaterEqual(len(texts), 15)
        for text in texts:
            with self.subTest(text.name):
                done = omniidl(*ARGUMENTS.get(text.stem, []), text.name)
                self.assertEqual(done.returncode, 0, done.stderr)
                self.assertEqual(done.stdout, text.with_suffix(".sig").read_text())
                self.assertEqual(refusal_of(done.stdout), "")

    def test_version_2(self) -> None:
        for text in OLDER:
            with self.subTest(text):
                done = omniidl("-Wbversion=2", f"{text}.idl")
                self.assertEqual(done.stdout, (HERE / f"{text}_2.sig").read_text())
                self.assertEqual(refusal_of(done.stdout), "")

    def test_several_files(self) -> None:
        files = {"one.idl": b"interface I { void o(in long n); };", "an other.idl": b"interface J { void p(); };"}
        with tempfile.TemporaryDirectory() as folder:
            paths = with_files(files, folder)
            done = omniidl(*paths.values())
            all_in_one = b"".join(f'#include "{path}"\n'.encode() for path in reversed(paths.values()))
            included = omniidl(with_files({"all.idl": all_in_one}, folder)["all.idl"])
        self.assertEqual((done.returncode, included.returncode), (0, 0), done.stderr)
        self.assertEqual(done.stdout, included.stdout.replace("from all.idl", "from one.idl, an other.idl"))
        self.assertEqual(done.stderr, included.stderr)

        with tempfile.TemporaryDirectory() as folder:
            path = with_files({"o\x1b\u00e9.idl": b"interface I { void o(); };"}, folder)["o\x1b\u00e9.idl"]
            done = omniidl(path)
        self.assertEqual(done.returncode, 0, done.stderr)
        self.assertIn("// Written by giopdump_signatures from o\\x1b\\xc3\\xa9.idl.\n", done.stdout)
        self.assertIn("\n// I (o\\x1b\\xc3\\xa9.idl:1)\n", done.stdout)

    def test_names_in_comments_are_single_lines(self) -> None:
        done = omniidl("left_out.idl")
        for line in done.stdout.splitlines():
            self.assertTrue(
                line == "" or line.startswith(("//", "signatures", "operation", "exception", "struct", "  ", "}")), line
            )


class Errors(unittest.TestCase):
    """Standard error ends with a summary; what can't be done has a message and no output."""

    def test_summary(self) -> None:
        self.assertEqual(
            omniidl("left_out.idl").stderr.splitlines()[-3:],
            [
                "giopdump_signatures: whole: 10 operations, 2 exceptions, 5 types",
                "giopdump_signatures: by half: 0 operations",
                "giopdump_signatures: left out: 5 operations, 0 exceptions (1 for abstract interface, 1 for fixed, "
                "1 for long double, 2 for value type)",
            ],
        )

    def test_summary_by_half(self) -> None:
        self.assertEqual(
            omniidl("-Wbversion=2", f"{OLDER[0]}.idl").stderr.splitlines()[-3:],
            [
                "giopdump_signatures: whole: 2 operations, 0 exceptions, 1 type",
                "giopdump_signatures: by half: 16 operations (12 for equal names, unequal parameters, 4 for long double)",
                "giopdump_signatures: left out: 6 operations, 0 exceptions (4 for equal names, unequal "
                "parameters, 2 for long double)",
            ],
        )

    def test_summary_by_interface(self) -> None:
        self.assertEqual(
            omniidl("interfaces.idl").stderr.splitlines()[-4:],
            [
                "giopdump_signatures: whole: 13 operations, 0 exceptions, 0 types",
                "giopdump_signatures: by half: 0 operations",
                "giopdump_signatures: left out: 3 operations, 0 exceptions (3 for equal names, unequal parameters)",
                "giopdump_signatures: by interface: 8 operations, if the file has keys of objects (giop-keys)",
            ],
        )

    def test_refused(self) -> None:
        rows = [
            (["-Wbonly=O::Nobody", "only.idl"], "there is no interface O::Nobody"),
            (["-Wbonly=", "only.idl"], "unknown argument only="),
            (["-Wball", "only.idl"], "unknown argument all"),
            (["-Wbversion=4", "only.idl"], "unknown argument version=4"),
            (["-Wbonly=O::\x1b[2J\n", "only.idl"], "there is no interface O::\\x1b[2J\\x0a\n"),
            (["-Wb\u00e9", "only.idl"], "unknown argument \\xc3\\xa9; there is\n"),
            (["no_such_file.idl"], "does not exist"),
        ]
        for words, message in rows:
            with self.subTest(words):
                done = omniidl(*words)
                self.assertEqual((done.returncode, done.stdout), (1, ""))
                self.assertIn(message, done.stderr)

    def test_several_files_need_the_preprocessor(self) -> None:
        done = omniidl("-N", "only.idl", "bounds.idl")
        self.assertEqual((done.returncode, done.stdout), (1, ""))
        self.assertIn("several IDL files need the preprocessor: leave out -N\n", done.stderr)

    def test_broken_idl(self) -> None:
        with tempfile.TemporaryDirectory() as folder:
            path = with_files({"broken.idl": b"interface {"}, folder)["broken.idl"]
            done = omniidl(path)
        self.assertEqual((done.returncode, done.stdout), (1, ""))


def numbered(template: str, count: int, between: str = " ") -> str:
    """A template for each number from 0."""
    return between.join(template.format(n) for n in range(count))


TAKES_T = "interface I { void o(in T x); };"


class Limits(unittest.TestCase):
    """What a signature file may have at most is written, and one more is left out."""

    def converted(self, idl: str, *words: str) -> str:
        with tempfile.TemporaryDirectory() as folder:
            path = with_files({"limits.idl": idl.encode()}, folder)["limits.idl"]
            done = omniidl(*words, path)
        self.assertEqual(done.returncode, 0, done.stderr)
        self.assertEqual(refusal_of(done.stdout), "")
        return done.stdout

    def assert_limit(self, most: int, make: Callable[[int], str]) -> None:
        """`make` gives an IDL text with an operation `o` that needs so many of something."""
        self.assertRegex(self.converted(make(most)), r"(?m)^operation .*\bo\(")
        over = self.converted(make(most + 1))
        self.assertNotRegex(over, r"(?m)^operation .*\bo\(")
        self.assertIn(f"{most} at most", over)

    def test_members(self) -> None:
        self.assert_limit(256, lambda n: f"struct T {{ {numbered('long m{};', n)} }}; {TAKES_T}")

    def test_parameters(self) -> None:
        self.assert_limit(255, lambda n: f"interface I {{ long o({numbered('inout long p{}', n, ', ')}); }};")

    def test_enumerators(self) -> None:
        self.assert_limit(1024, lambda n: f"enum T {{ {numbered('e{}', n, ', ')} }}; {TAKES_T}")

    def test_cases(self) -> None:
        self.assert_limit(
            256, lambda n: f"union T switch (long) {{ {numbered('case {0}: long c{0};', n)} }}; {TAKES_T}"
        )

    def test_labels(self) -> None:
        self.assert_limit(1024, lambda n: f"union T switch (long) {{ {numbered('case {}:', n)} long c; }}; {TAKES_T}")

    def test_levels(self) -> None:
        leaves = [
            ("long v", "long v", 22), ("string<3> v", "string<3> v", 22), ("Object v", "Object v", 17),
            ("sequence<octet> v", "sequence<octet> v", 22), ("sequence<long> v", "sequence<long> v", 21),
            ("long v[2]", "long v[2]", 21), ("octet v[2]", "octet v[2]", 21),
        ]  # fmt: skip
        for idl, signature, most in leaves:
            with self.subTest(idl):
                for count in (most, most + 1):
                    inner = "struct S0 { %s; }; "
                    nested = " ".join(f"struct S{n} {{ S{n - 1} v; }};" for n in range(1, count))
                    text = self.converted(inner % idl + nested + f" interface I {{ void o(in S{count - 1} x); }};")
                    by_hand = inner % signature + nested + f" operation void o(in S{count - 1} x);"
                    self.assertEqual(bool(re.search(r"(?m)^operation void o", text)), count == most)
                    self.assertEqual(refusal_of("signatures 1; " + by_hand).strip().endswith(": depth"), count != most)

    def test_typedefs_of_each_other(self) -> None:
        rows = [
            ("typedef T{0} T{1};", False), ("typedef sequence<T{0}> T{1};", True), ("typedef T{0} T{1}[2];", True),
            ("struct T{1} {{ T{0} v; }};", True),
        ]  # fmt: skip
        for template, refused in rows:
            with self.subTest(template):
                chain = " ".join(template.format(n, n + 1) for n in range(8000))
                uses = "interface I { void o(in T8000 x); void p(in T5 x); };"
                text = self.converted(f"typedef long T0; {chain} {uses}")
                refusal = "// left out: I::o (limits.idl:1): 100 levels deep or more, 24 at most"
                self.assertEqual(refusal in text, refused)
                self.assertEqual(bool(re.search(r"(?m)^operation void o\(in long x\);$", text)), not refused)
                self.assertRegex(text, r"(?m)^operation void p\(in ")
                self.assertLess(len(text), 10000)

    def test_a_name_of_many_interfaces(self) -> None:
        kinds = ("long", "string", "double", "long double")
        rows = [(f"I{n}", kinds[n % 4]) for n in range(146)]
        idl = " ".join(f"interface {name} {{ void f(in {kind} x); long g(in {kind} x); }};" for name, kind in rows)
        named = [f"I{n}::f (limits.idl:1)" for n in (1, 2, 3, 5, 6, 7, 9, 10)]
        others = f"unequal parameters: {', '.join(named)} and 101 more"
        text = self.converted(idl, "-Wbversion=2")
        self.assertIn(f"// left out: I0::f (limits.idl:1): {others}\n", text)
        self.assertIn("// left out: I2::f (limits.idl:1): unequal parameters: I0::f (limits.idl:1)\n", text)
        self.assertIn("// g (limits.idl:1) travels like I0::g (limits.idl:1) as far as that has types\n", text)
        self.assertEqual(re.findall(r"(?m)^operation .* [fg]\(.*$", text), ["operation long g();"])
        self.assertLess(max(map(len, text.splitlines())), 300)
        self.assertLess(len(text), 146 * 300)
        text = self.converted(idl)
        self.assertIn(f"// f without an interface: rest ({others})\noperation void f(in long x)\n  of ", text)
        self.assertIn("// g (limits.idl:1) travels like I2::g (limits.idl:1)\n", text)
        self.assertEqual(text.count('\n// key "" of "IDL:I'), 146)
        self.assertLess(max(map(len, text.splitlines())), 300)
        self.assertLess(len(text), 146 * 400)

    def test_an_operations_name(self) -> None:
        for length, there in ((128, True), (129, False)):
            name = "n" * length
            self.assertEqual(f" {name}(" in self.converted(f"interface I {{ void {name}(); }};"), there)

    def test_operations(self) -> None:
        text = self.converted("interface I { " + numbered("void o{}();", 4095) + " };")
        self.assertEqual(len(re.findall(r"(?m)^operation ", text)), 4096)
        self.assertEqual(len(re.findall(r"(?m)^// left out: I::o409[45] .*4096 at most$", text)), 1)

    def test_interfaces(self) -> None:
        def made(count: int) -> str:
            return numbered("interface I{0} {{ void f(in long x); }};", count - 1) + " interface J { void f(); };"

        for count, there in ((1024, True), (1025, False)):
            text = self.converted(made(count))
            self.assertEqual('\noperation void f() of "IDL:J:1.0";\n' in text, there)
            self.assertEqual("// left out: J::f (limits.idl:1): 1025 interfaces, 1024 at most\n" in text, not there)

    def test_a_file_that_is_too_long(self) -> None:
        parameters = numbered("in unsigned long " + "p" * 58 + "{:06}", 250, ", ")
        idl = "interface I { " + " ".join(f"void o{n}({parameters});" for n in range(60)) + " };"
        with tempfile.TemporaryDirectory() as folder:
            done = omniidl(with_files({"long.idl": idl.encode()}, folder)["long.idl"])
        self.assertEqual((done.returncode, done.stdout), (1, ""))
        self.assertIn("1048576 at most: choose interfaces with -Wbonly", done.stderr)


class Conversations(unittest.TestCase):
    """Messages that were encoded apart from the converter are read by the files that it writes."""

    def test_each(self) -> None:
        for conversation in CONVERSATIONS:
            with self.subTest(conversation.idl), tempfile.TemporaryDirectory() as folder:
                done = omniidl(f"{conversation.idl}.idl")
                paths = with_files(
                    {
                        "sig": (done.stdout + conversation.keys).encode(),
                        "req": conversation.requests.encode(),
                        "giop": b"".join(conversation.messages),
                    },
                    folder,
                )
                dumped = dump("--types", paths["sig"], "--requests", paths["req"], paths["giop"])
                self.assertEqual(dumped.returncode, 0, dumped.stderr)
                told = dumped.stdout.splitlines()
                lines = [line for line in told if not re.match(r"m\d+ (start|header)|total", line)]
                self.assertEqual("\n".join(lines) + "\n", conversation.lines)


class CosFiles(unittest.TestCase):
    """The services' IDL files that omniORB ships: each that omniidl takes is written, and the dumper takes that."""

    maxDiff = None

    def row(self, path: Path) -> str:
        """The counts of a file, or that omniidl itself refuses it."""
        plain = subprocess.run(
            ["omniidl", f"-I{IDL}", f"-I{IDL}/COS", path.name], cwd=path.parent, capture_output=True, timeout=120
        )
        if plain.returncode:
            return f"{path.name}: refused by omniidl"
        done = omniidl(path.name, cwd=path.parent)
        self.assertEqual(done.returncode, 0, done.stderr)
        self.assertEqual(refusal_of(done.stdout), "")
        counts = [line.split(": ", 1)[1] for line in done.stderr.splitlines() if line.startswith("giopdump_signatures")]
        return f"{path.name}: {'; '.join(counts)}"

    def test_each(self) -> None:
        rows = [self.row(path) for path in sorted((IDL / "COS").glob("*.idl"))]
        table = "\n".join(rows) + "\n"
        figures = re.findall(r"whole: (\d+) op.*by half: (\d+) op.*left out: (\d+) op", table)
        print(
            f"{len(rows)} COS files: {len(figures)} written and taken by giopdump, "
            f"{len(rows) - len(figures)} refused by omniidl itself; operations whole "
            f"{sum(int(each[0]) for each in figures)}, by half {sum(int(each[1]) for each in figures)}, "
            f"left out {sum(int(each[2]) for each in figures)}"
        )
        self.assertEqual(table, (HERE / "cos.txt").read_text())


class Examples(unittest.TestCase):
    """The converted files in examples/ are what the converter writes; the dumper takes each, and its streams."""

    def test_the_streams(self) -> None:
        examples = REPOSITORY / "examples"
        for path in sorted(examples.glob("*.sig")):
            self.assertEqual(refusal_of(path.read_text()), "", path.name)
        requests, calls = examples / "naming.giop", examples / "naming.req"
        words = ["--signatures", str(examples / "naming.sig")]
        asked = dump(*words, str(requests))
        answered = dump(*words, "--requests", str(calls), str(examples / "naming-replies.giop"))
        self.assertEqual("".join(re.findall(r"(?m)^m\d+ call (.*\n)", asked.stdout)), calls.read_text())
        for done, total in (
            (asked, "total messages 7 faults 0 octets 711\n"),
            (answered, "total messages 6 faults 0 octets 511\n"),
        ):
            self.assertEqual(done.returncode, 0)
            self.assertTrue(done.stdout.endswith(total))
            self.assertNotRegex(done.stdout, r"(?m)^m\d+ (rest|fault|unfinished)")

    def test_each(self) -> None:
        rows: List[Tuple[Path, str, List[str]]] = [
            (IDL / "COS/CosNaming.idl", "naming", ["-Wbversion=1"]),
            (REPOSITORY / "examples/event.idl", "event", []),
            (IDL / "COS/CosNotifyChannelAdmin.idl", "notification", []),
        ]
        for idl, example, words in rows:
            with self.subTest(example):
                done = omniidl(*words, idl.name, cwd=idl.parent)
                self.assertEqual(done.stdout, (REPOSITORY / f"examples/{example}.sig").read_text())


if __name__ == "__main__":
    unittest.main(verbosity=1)
