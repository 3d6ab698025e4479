"""The tool stack-use: the least limits, the frames that objdump shows, and the program's need of stack."""
import os
import unittest

from support import BUILT, PROVED, InFolder, module_of, run

# What a call of these verbs may need, in KiB: as much as the kernel maps at the start. Other calls may need more.
SMALL, MOST, ANY = ("run", "devs", "run2", "print", "gen"), "128", "256"
# What a call of the program without proofs may need: its checks at run time have larger frames.
UNPROVED = "512"
SCRIPT = "#!/bin/sh\necho $1 $2\n"
LISTING = """
out/qss:     file format elf64-x86-64

0000000000001000 <small>:
    1000:\tret

0000000000001010 <qss_top::large>:
    1010:\tpush   %rbp
    1011:\tpush   %r15
    1013:\tsub    $0x1038,%rsp
    101a:\tcall   1000 <small>
    101f:\tpush   %rax
    1020:\tadd    $0x1038,%rsp
    1027:\tret

0000000000001030 <signed>:
    1030:\tadd    $0xffffffffffffff80,%rsp
    1034:\tsub    $0xffffffffffffff80,%rsp

0000000000001040 <by_lea>:
    1040:\tlea    -0x48(%rsp),%rsp

0000000000001050 <in_pieces>:
    1050:\tsub    $0xc00,%rsp
    1057:\tmovq   $0x0,(%rsp)
    105f:\tsub    $0x30,%rsp
    1063:\tmov    %rdi,%rax
    1066:\tsub    $0x10,%rsp

0000000000001070 <in_a_loop>:
    1070:\tpush   %rbp
    1071:\tmov    %rsp,%rbp
    1074:\tmov    %rsp,%r11
    1077:\tsub    $0x2f400,%r11
    107e:\tsub    $0xc00,%rsp
    1085:\tmovq   $0x0,(%rsp)
    108d:\tcmp    %r11,%rsp
    1090:\tjne    107e <in_a_loop+0xe>
    1092:\tsub    $0x248,%rsp
"""


class Parts(unittest.TestCase):
    def setUp(self):
        self.module = module_of("stack-use")

    def test_frames(self):
        frames = {function: size for size, function in self.module.frames_of(LISTING.splitlines(True))}
        wanted = {"small": 8, "qss_top::large": 24 + 0x1038, "signed": 8 + 128, "by_lea": 8 + 0x48}
        pieces = {"in_pieces": 8 + 0xC00 + 0x30, "in_a_loop": 16 + 0x2F400 + 0x248}
        self.assertEqual(frames, {**wanted, **pieces})

    def test_least_number(self):
        for least in (1, 2, 17, 99, 100):
            self.assertEqual(self.module.least_number(100, lambda number: number >= least), least)

    def test_the_deep_model(self):
        text = self.module.deep_model()
        depths = [text[:place].count("(") - text[:place].count(")") for place in range(len(text))]
        self.assertEqual(max(depths), 64)


class Limits(InFolder):
    def test_another_program(self):
        program = self.file("echo", SCRIPT)
        os.chmod(program, 0o755)
        status, out, err = run("stack-use", "print", "--frames", "0", "--program", program)
        self.assertEqual((status, err), (0, ""))
        self.assertRegex(out, r"^print +[1-9]\d* KiB\n$")
        status, out, err = run("stack-use", "print", "--frames", "0", "--most", "3", "--program", program)
        self.assertEqual((status, err), (1, ""))

    def test_faults(self):
        self.assert_fault(run("stack-use", "walk"), "'walk' is not a verb: the verbs are run, devs,")
        program = self.file("killed", "#!/bin/sh\nkill -9 $$\n")
        os.chmod(program, 0o755)
        self.assert_fault(run("stack-use", "gen", "--program", program), "gen 1 4: it does not end without a limit")

    @unittest.skipUnless(os.path.exists(BUILT), "the program is not built")
    def test_each_verb_needs_little(self):
        calls = ((*SMALL, "--shallow", "--most", MOST), ("--most", ANY))
        if BUILT != PROVED:
            calls = (("--most", UNPROVED),)
        for words in calls:
            status, out, err = run("stack-use", "--frames", "0", *words)
            self.assertEqual((status, err), (0, ""), out)


if __name__ == "__main__":
    unittest.main()
