"""The split of an LLVM module: what each part has, that the parts link to the same program, and what is not split."""
import os
import re
import shutil
import subprocess
import sys
import unittest
from unittest import mock

from support import TOOLS, InFolder

sys.path.insert(0, TOOLS)

from qss_dev import split_module as splitting  # noqa: E402
from qss_dev.split_module import NotSplit, split_module  # noqa: E402

HEAD = """; ModuleID = 'module.bc'
source_filename = "test"
target triple = "x86_64-unknown-linux-gnu"

@s.0 = private unnamed_addr constant [4 x i8] c"%d\\0A\\00", align 1
@s.1 = private constant [1 x i32] [i32 7], align 4
@s.2 = private constant [1 x ptr] [ptr @"a::chosen"], align 8

"""
TAIL = """
declare i32 @printf(ptr, ...) #0

attributes #0 = { nounwind }

!llvm.ident = !{!0}
!0 = !{!"test"}
"""


def function(name, calls, extra="", linkage="internal ", pad=0):
    """A function that returns its argument plus 1, after calls of others with what the call before returned."""
    lines = [f"; Function Attrs: nounwind\ndefine {linkage}i32 @{name}(i32 %a) #0 {{", "start:"]
    value = "%a"
    for number, it in enumerate(calls):
        lines.append(f"  %c{number} = call i32 @{it}(i32 {value})")
        value = f"%c{number}"
    lines += extra.splitlines()
    for number in range(pad):
        lines.append(f"  %p{number} = xor i32 {value}, {number + 3}")
        value = f"%p{number}"
    return "\n".join([*lines, f"  %r = add i32 {value}, 1", "  ret i32 %r", "}", "", ""])


LOAD = "  %x = load i32, ptr @s.1, align 4"
SHOWN = "  %w = call i32 (ptr, ...) @printf(ptr @s.0, i32 %c2)"
IS_CHOSEN = """  %f = load ptr, ptr @s.2, align 8
  %y = call i32 %f(i32 1)
  %s = icmp eq ptr %f, @"a::chosen"
  %z = zext i1 %s to i32
  %w = call i32 (ptr, ...) @printf(ptr @s.0, i32 %y)
  %v = call i32 (ptr, ...) @printf(ptr @s.0, i32 %z)"""
MODULE = "".join(
    (
        HEAD,
        function('"a::dead"', ['"a::large"']),
        function('"a::small"', ['"a::deep"'], LOAD),
        function('"a::deep"', []),
        function('"a::chosen"', []),
        function('"a::large"', ['"a::only"', '"a::small"'], IS_CHOSEN, pad=20),
        function('"a::only"', [], pad=9),
        function('"a::other"', ['"a::large"', '"a::small"', '"a::large"'], SHOWN, pad=30),
        function("main", ['"a::other"', '"a::large"', '"a::small"'], SHOWN, linkage="", pad=9),
        TAIL,
    )
)
# How the first part, with main, and the second one have each function.
WHERE = {
    "main": ["define", ""],
    "a::other": ["define internal", ""],
    "a::large": ["declare hidden", "define hidden"],
    "a::only": ["", "define internal"],
    "a::small": ["define linkonce_odr hidden"] * 2,
    "a::deep": ["define internal"] * 2,
    "a::chosen": ["", "define linkonce_odr hidden"],
    "printf": ["declare"] * 2,
}


class Split(InFolder):
    def parts(self, text=MODULE, count=2):
        with mock.patch.object(splitting, "COPIED_LINES", 15):
            return split_module(text, count)

    def kinds(self, part):
        """Of each function that a part has or declares, how it does, by the function's name."""
        found = re.findall(r'^(define|declare) ((?:\w+ )*)i32 @"?([\w:]+)', part, re.M)
        return {name: f"{verb} {how}".strip() for verb, how, name in found}

    def test_where_each_function_is(self):
        kinds = [self.kinds(it) for it in self.parts()]
        self.assertEqual({name: [it.get(name, "") for it in kinds] for one in kinds for name in one}, WHERE)

    def test_what_each_part_keeps(self):
        for part in self.parts():
            self.assertIn('source_filename = "test"\ntarget triple', part)
            self.assertIn("attributes #0 = { nounwind }\n!llvm.ident = !{!0}\n!0 = ", part)
            self.assertNotIn("@s.2 = private", part)
        self.assertIn("@s.1 = linkonce_odr hidden constant [1 x i32] [i32 7], align 4", "".join(self.parts()))

    def test_the_same_text_gives_the_same_parts(self):
        self.assertEqual(self.parts(), self.parts())
        script = (
            "import sys; sys.path.insert(0, %r)\nfrom qss_dev.split_module import split_module\n"
            "sys.stdout.write(''.join(split_module(sys.stdin.read(), 3)))" % TOOLS
        )
        made = {
            subprocess.run(
                [sys.executable, "-c", script],
                input=MODULE.encode(),
                stdout=subprocess.PIPE,
                check=True,
                env={**os.environ, "PYTHONHASHSEED": seed},
            ).stdout
            for seed in "123"
        }
        self.assertEqual(made, {"".join(split_module(MODULE, 3)).encode()})

    def test_another_form_is_not_split(self):
        for old, new in (
            ("!llvm.ident", "module asm"),
            ("@s.1 = private constant", "@s.1 = global"),
            ("%r = add i32 %p8, 1", "store ptr blockaddress(@main, %start), ptr null"),
            ('"a::large"', "large"),
            ("attributes #0", "$c = comdat any\nattributes #0"),
            (" {\n", "\n{\n"),
        ):
            with self.subTest(new):
                self.assertIn(old, MODULE)
                with self.assertRaises(NotSplit):
                    self.parts(MODULE.replace(old, new))

    def test_the_parts_link_to_the_same_program(self):
        rt = shutil.which("rt")
        kit = rt and os.path.dirname(subprocess.run([rt, "doc"], stdout=subprocess.PIPE, text=True).stdout)
        if not kit or not os.path.exists(f"{kit}/toolchain/bin/clang"):
            self.skipTest("the kit's clang is not there")
        printed = {self.printed(kit, [MODULE]), *(self.printed(kit, self.parts(count=it)) for it in (1, 2, 3, 7))}
        self.assertEqual(len(printed), 1)
        self.assertEqual(printed.pop().count(b"\n1\n"), 3)

    def printed(self, kit, texts):
        """What a program of these parts prints."""
        objects = [f"{self.folder}/{it}.o" for it in range(len(texts))]
        for made, text in zip(objects, texts):
            source = self.file("part.ll", text)
            words = [f"{kit}/toolchain/bin/clang", "--target=x86_64-unknown-linux-gnu", "-fPIE", "-O2", "-c"]
            subprocess.run([*words, source, "-o", made], check=True, stderr=subprocess.PIPE)
        words = [f"{kit}/bin/rattle-link", "--target", "x86_64-unknown-linux-gnu", "--toolchain", f"{kit}/toolchain"]
        made = f"{self.folder}/program"
        subprocess.run([*words, "-o", made, *objects], check=True, stderr=subprocess.PIPE)
        return subprocess.run([made], stdout=subprocess.PIPE).stdout


if __name__ == "__main__":
    unittest.main()
