"""tools/exports on a small header and a small crate: what is read, and what is told of."""
import importlib.machinery
import importlib.util
import pathlib
import unittest

path = pathlib.Path(__file__).resolve().parent.parent / "exports"
loader = importlib.machinery.SourceFileLoader("exports", str(path))
tool = importlib.util.module_from_spec(importlib.util.spec_from_loader(loader.name, loader))
loader.exec_module(tool)

HEADER = """
/* A comment (with brackets). */
#define HILOFANUR_STATE 264
#define HILOFANUR_BYTES(limit) \\
    ((size_t)4 * f(limit))
enum hilofanur_end { HILOFANUR_SPENT = 2 /* used (up) */ };
struct hilofanur_next {
    uint64_t pc; /* the next */
};
struct hilofanur_small_answer {
    uint32_t refusal; /* 0 */
    uint64_t length;
};
typedef struct hilofanur_next hilofanur_block(
    void *x0, uint64_t a);
struct hilofanur_small_answer hilofanur_small(
    const uint8_t *guest, size_t guest_length, uint32_t limit, bool flag, uint8_t *output, size_t output_length);
struct hilofanur_small_answer hilofanur_again(uint8_t *index, uint16_t count);
uint64_t hilofanur_number(const uint8_t *index, uint8_t byte);
void hilofanur_nothing(uint8_t *index);
"""

CODE = """\
// #[unsafe(no_mangle)] in a comment
#[repr(C)]
#[derive(Drop)]
pub struct SmallAnswer {
    pub refusal: u32,
    pub length: u64,
}

pub struct Other {
    pub inside: u8,
}

#[unsafe(no_mangle)]
pub extern "C" fn hilofanur_small(
    guest: &[u8],
    limit: u32,
    flag: bool,
    output: &mut [u8],
) -> SmallAnswer
    ensures { one (result) }
{
    inner(guest)
}

// of 264 bytes
#[unsafe(no_mangle)]
pub extern "C" fn hilofanur_again(index: &mut [u8; 264], count: u16) -> SmallAnswer
{
}

#[unsafe(no_mangle)]
pub extern "C" fn hilofanur_number(index: &[u8; block_log::INDEX_BYTES], byte: u8) -> u64
{
}

#[unsafe(no_mangle)]
pub extern "C" fn hilofanur_nothing(index: &mut [u8; 264])
    ensures { index.new ≡ index.old }
{
}

fn inner(guest: &[u8]) -> SmallAnswer
{
}
"""


class Exports(unittest.TestCase):
    def test_the_same(self):
        self.assertEqual(list(tool.differences(CODE, HEADER)), [])
        self.assertEqual(len(tool.of_code(CODE)[0]), 4)

    def tells(self, text, code=CODE, header=HEADER):
        found = list(tool.differences(code, header))
        self.assertTrue(any(text in line for line in found), found)

    def in_header(self, old, new, text):
        self.assertEqual(HEADER.count(old), 1, old)
        self.tells(text, header=HEADER.replace(old, new))

    def in_code(self, old, new, text):
        self.assertEqual(CODE.count(old), 1, old)
        self.tells(text, code=CODE.replace(old, new))

    def test_functions(self):
        self.in_header("void hilofanur_nothing", "void hilofanur_another", "hilofanur_another: ")
        self.in_header("void hilofanur_nothing(uint8_t *index);\n", "", "hilofanur_nothing: the header has none")
        self.tells("hilofanur_nothing: ", code=CODE.replace("fn hilofanur_nothing", "fn hilofanur_another"))
        self.tells("the crate exports nothing", code="", header="")

    def test_parameters(self):
        self.in_header("uint32_t limit", "uint64_t limit", "hilofanur_small: ")
        self.in_header("uint16_t count", "uint8_t count", "hilofanur_again: ")
        self.in_header("uint32_t limit, bool flag", "bool flag, uint32_t limit", "hilofanur_small: ")
        self.in_header("const uint8_t *index", "uint8_t *index", "hilofanur_number: ")
        self.in_header("size_t guest_length, ", "", "hilofanur_small: ")
        self.in_code("byte: u8", "byte: u16", "hilofanur_number: ")
        self.in_code("output: &mut [u8]", "output: &[u8]", "hilofanur_small: ")

    def test_answers(self):
        self.in_header("uint64_t hilofanur_number", "uint32_t hilofanur_number", "hilofanur_number: ")
        self.in_header("uint64_t length;", "uint32_t length;", "struct hilofanur_small_answer: ")
        self.in_code("    pub refusal: u32,\n    pub length: u64,", "    pub length: u64,\n    pub refusal: u32,", "small_answer: ")
        self.in_code("#[repr(C)]\n", "", "no #[repr(C)]")

    def test_what_is_not_foreseen(self):
        self.in_header("bool flag", "struct hilofanur_next flag", "hilofanur_small: ")
        self.in_header("uint8_t byte", "double byte", "hilofanur_number: ")
        self.in_code("byte: u8", "byte: f64", "f64 byte, which is not foreseen")
        self.in_code("byte: u8", "byte: u128", "u128 byte, which is not foreseen")
        self.in_code("byte: u8", "byte: Option<u8>", "which is not foreseen")
        self.tells("cannot be read", header=HEADER + "char *hilofanur_name(uint64_t n);\n")
        self.tells("cannot be read", code=CODE + '#[unsafe(no_mangle)]\npub fn hilofanur_name() -> u64\n')


if __name__ == "__main__":
    unittest.main()
