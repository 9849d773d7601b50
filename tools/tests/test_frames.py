"""tools/frames on disassembled texts: what is read, and what is reported."""
import pathlib
import shutil
import subprocess
import sys
import tempfile
import unittest

FRAMES = pathlib.Path(__file__).resolve().parent.parent / "frames"
RULES = """\
pub const MAX_INSTRS: u32 = 64;
pub const INLINE_WORDS: usize = 29;
pub const MAX_WORDS: usize = MAX_INSTRS as usize * INLINE_WORDS + 6;
pub const SHORT_WORDS: usize = 8 * INLINE_WORDS + 6;
"""
X86, ARM = 62, 183
FINISH = ["mov    rdx,r15", "call   39b <hilofanur_translate+0x39b>", "to memcpy-0x4"]
GO_ON = ["call   3e7 <hilofanur_translate+0x3e7>", "to .text.translator::go_on-0x4"]
WHOLE = ["mov    edx,0x3c0", "mov    rsi,r14", "call   163 <hilofanur_translate+0x163>", "to memcpy-0x4"]
PROBED = ["sub    rsp,0x1000", "mov    QWORD PTR [rsp],0x0", "sub    rsp,0xda8"]
LOOPED = ["mov    r11,rsp", "sub    r11,0x1800", "sub    rsp,0xc00", "mov    QWORD PTR [rsp],0x0", "cmp    rsp,r11",
          "jne    a <f+0xa>", "sub    rsp,0x6a8"]
LOOPED_ARM = ["sub\tx9, sp, #0x1, lsl #12", "stp\tx28, x27, [sp, #16]", "sub\tx9, x9, #0x800", "sub\tsp, sp, #0xc00",
              "cmp\tsp, x9", "str\txzr, [sp]", "b.ne\t24 <f+0x24>  // b.any", "sub\tsp, sp, #0x6a0"]
FILL = ["ret"] * 8


def text(functions):
    """As objdump prints it: each function's instructions, and after a call what it refers to."""
    lines = []
    for name, instructions in functions.items():
        lines.append(f"0000000000000000 <{name}>:")
        for at, instruction in enumerate(instructions):
            to = instruction.removeprefix("to ")
            lines.append(f"\t\t\t{at:x}: R_X86_64_PLT32\t{to}" if to != instruction else f"  {at:x}:\t{to}")
    return "\n".join(lines) + "\n"


class Frames(unittest.TestCase):
    def setUp(self):
        self.functions = {
            "hilofanur_translate": ["push   rbp", "sub    rsp,0x478", *FINISH, *GO_ON, *FILL],
            "translator::go_on": [*PROBED, *FINISH, *FILL],
            "not_reached": [*WHOLE, *FILL],
        }

    def run_frames(self, machine=X86):
        with tempfile.TemporaryDirectory() as folder:
            room = pathlib.Path(folder)
            (room / "tools").mkdir()
            (room / "crates/rules/src").mkdir(parents=True)
            (room / "crates/rules/src/lib.rt").write_text(RULES)
            shutil.copy(FRAMES, room / "tools")
            (room / "a").write_bytes(b"!<arch>\n\x7fELF" + bytes(14) + bytes([machine, 0]))
            (room / "text").write_text(text(self.functions))
            (room / "objdump").write_text(f"#!/bin/sh\ncat {room}/text\n")
            (room / "objdump").chmod(0o755)
            words = [sys.executable, "-B", room / "tools/frames", room / "a", room / "objdump"]
            return subprocess.run(words, capture_output=True, text=True)

    def reports(self, *problems, machine=X86):
        ran = self.run_frames(machine)
        self.assertEqual((ran.stderr, ran.stdout.splitlines(), ran.returncode), ("", list(problems), 1))

    def test_right(self):
        ran = self.run_frames()
        said = "frames: no copy of a block emitter; bytes of stack: hilofanur_translate 1144, translator::go_on 7592\n"
        self.assertEqual((ran.stderr, ran.stdout, ran.returncode), ("", said, 0))

    def test_copy_of_the_short_emitter(self):
        self.functions["hilofanur_translate"] += WHOLE
        self.reports("hilofanur_translate: a copy of 960 bytes; the short emitter's array has 952")

    def test_copy_in_a_function_that_is_called(self):
        self.functions["translator::go_on"] += WHOLE
        self.reports("translator::go_on: a copy of 960 bytes; the short emitter's array has 952")

    def test_copy_on_aarch64(self):
        self.functions["hilofanur_translate"] += ["mov\tw2, #0x3c0   \t// #960", "bl\t0 <memcpy>", "to memcpy"]
        self.reports("hilofanur_translate: a copy of 960 bytes; the short emitter's array has 952", machine=ARM)

    def test_copy_of_an_instruction_is_none(self):
        self.functions["hilofanur_translate"] += ["mov    edx,0x78", *WHOLE[1:]]
        self.assertEqual(self.run_frames().returncode, 0)

    def test_long_frame_in_translate(self):
        self.functions["hilofanur_translate"][1] = "sub    rsp,0x1ea8"
        self.reports("hilofanur_translate: a frame of 7848 bytes; the long emitter's array has 7448")

    def test_long_frame_on_aarch64(self):
        self.functions["hilofanur_translate"][1:2] = ["sub\tsp, sp, #0x1, lsl #12", "sub\tsp, sp, #0xd90"]
        self.reports("hilofanur_translate: a frame of 7568 bytes; the long emitter's array has 7448", machine=ARM)

    def test_long_frame_by_a_loop(self):
        self.functions["hilofanur_translate"][1:2] = LOOPED
        self.reports("hilofanur_translate: a frame of 7848 bytes; the long emitter's array has 7448")

    def test_long_frame_by_a_loop_on_aarch64(self):
        self.functions["hilofanur_translate"][1:2] = LOOPED_ARM
        self.reports("hilofanur_translate: a frame of 7840 bytes; the long emitter's array has 7448", machine=ARM)

    def test_go_on_inside(self):
        self.functions["hilofanur_translate"] = ["push   rbp", "sub    rsp,0x478", *FINISH, *FILL]
        self.reports("translator::go_on is no function of its own")

    def test_no_code(self):
        self.functions["translator::go_on"] = ["sub    rsp,0x1da8", "ret"]
        self.reports("translator::go_on: 2 lines of code")

    def test_length_set_nowhere(self):
        self.functions["hilofanur_translate"] = ["call   0 <memcpy>", "to memcpy-0x4", *GO_ON, *FILL]
        self.assertIn("ValueError: no length", self.run_frames().stderr)


if __name__ == "__main__":
    unittest.main()
