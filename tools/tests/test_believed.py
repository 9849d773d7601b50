"""tools/believed on small trees: what the contracts reach, how it is counted, and what is reported."""
from trees import TreeTest

LIB = "crates/hilofanur/src/lib.rt"
WORD = "crates/word/specs/Word.antt"
MANUALS = "the manuals, demand 3 and helper blocks"


class Believed(TreeTest):
    def report(self, *arguments):
        """What a right tree gives."""
        ran = self.run_tool("believed", *arguments)
        self.assertEqual((ran.stderr, ran.returncode), ("", 0))
        return ran.stdout.splitlines()

    def part(self, title):
        """The lines of `--all` from the one that ends in the title to the next blank one."""
        lines = self.report("--all")
        first = next(n for n, line in enumerate(lines) if line.endswith(title))
        return [line.split() for line in lines[first:lines.index("", first)]]

    def reports(self, *problems):
        ran = self.run_tool("believed")
        self.assertEqual((ran.stderr.splitlines(), ran.returncode), (list(problems), 1))

    def test_contract_reaches_through_imports(self):
        names = [line[-1] for line in self.part("  hilofanur_twice")]
        self.assertEqual([name for name in names if "/" not in name], ["hilofanur_twice", "Answer", "add", "twice"])

    def test_lines_with_comments(self):
        part = self.part("  hilofanur_twice")
        self.assertIn(["4", f"{WORD}:6", "twice"], part)
        self.assertIn(["3", "crates/le/specs/Le.antt:4", "add"], part)
        self.assertIn(["3", f"{LIB}:5", "Answer"], part)
        self.assertEqual(part[0], ["3", "10", "hilofanur_twice"])

    def test_demand_3_is_a_root(self):
        part = self.part("  demand 3")
        self.assertEqual([line[-1] for line in part if "/" not in line[-1]], ["3", "Ends", "Demand3"])
        self.assertEqual(part[0], ["2", "7", "demand", "3"])
        self.assertEqual(self.part("  hilofanur_same"), [["0", "0", "hilofanur_same"]])

    def test_all_roots(self):
        self.assertEqual(self.part("  all roots together")[0], ["5", "17", "all", "roots", "together"])

    def test_groups_with_and_without_comments(self):
        lines = self.report()
        self.assertIn(f"     4     14  {MANUALS}; 9 are text of specs/", lines)
        place = "Translate, Place and List, the boundary, limits and refusals"
        self.assertIn(f"     1      3  {place}; 0 are text of specs/", lines)

    def test_unreached(self):
        lines = self.report()
        first = lines.index("     1      5  of specs/ are reached by nothing")
        self.assertEqual(lines[first + 1], f"     1      5  {WORD}: lonely")

    def test_reached_by_proofs(self):
        self.write("crates/word/proofs/Laws.antt", "use Rattle.word.specs.Word.{lonely}\n")
        lines = self.report()
        first = lines.index("     1      5  of specs/ are reached by no contract, but by proofs")
        self.assertEqual(lines[first + 1], f"     1      5  {WORD}: lonely")

    def test_contract_inside(self):
        self.write("crates/word/src/lib.rt", """\
ghost use Rattle.std.specs.Prelude.{◌≡◌};
ghost use Rattle.word.specs.Word.{lonely};

pub fn seven() -> u64
    ensures { result ≡ lonely }
{
    7
}
""")
        title = "     1      5  of specs/ are reached only by contracts inside, what the code's parts promise one another"
        self.assertIn(title, self.report())

    def test_name_in_a_comment(self):
        self.change(WORD, "twice n = add n n", "twice n = add n n -- lonely {- lonely -}")
        self.assertIn("     1      5  of specs/ are reached by nothing", self.report())

    def test_bound_name(self):
        self.change(WORD, "twice n = add n n", "twice lonely = add lonely lonely")
        self.assertIn("     1      5  of specs/ are reached by nothing", self.report())

    def test_kit(self):
        lines = self.report()
        first = lines.index("Names of the kit that the roots reach: 4")
        self.assertEqual(lines[first + 1:], ["     3 Rattle.std.specs.Prelude", "     1 mathlib.Core.Path"])

    def test_name_nowhere(self):
        self.change(LIB, "≡ twice n", "≡ thrice n")
        self.reports(f"{LIB}:11: thrice is not resolved")

    def test_name_nowhere_in_a_definition(self):
        self.change(WORD, "twice n = add n n", "twice n = add n m")
        self.reports(f"{WORD}:7: m is not resolved")

    def test_import_nowhere(self):
        self.change(WORD, "Le.{add}", "Le.{add, sum}")
        self.reports(f"{WORD}:2: Rattle.le.specs.Le: sum is nowhere")

    def test_crate_nowhere(self):
        self.change(WORD, "Rattle.le.specs", "Rattle.lee.specs")
        self.reports(f"{WORD}:2: Rattle.lee.specs.Le: add is nowhere", f"{WORD}:7: add is not resolved")

    def test_clause_of_memory(self):
        self.change(LIB, "ensures { result.value", "ensures* whole { result.value")
        self.assertEqual(self.part("  hilofanur_twice")[0], ["3", "10", "hilofanur_twice"])

    def test_clause_that_is_not_read(self):
        self.change(LIB, "    ensures demand3", "    decreases { n }\n    ensures demand3")
        self.assertIn(f"{LIB}:18: a clause that is not read", self.run_tool("believed").stderr)

    def test_form_that_is_not_read(self):
        self.change(WORD, "abbrev pub lonely", "mutual\n\nabbrev pub lonely")
        self.reports(f"{WORD}:9: `mutual` begins a form that is not read")

    def test_no_demand_3(self):
        self.change(LIB, "    ensures demand3 { Demand3 n result }\n", "")
        self.reports(f"{LIB}:1: no clause of an exported function cites Demand3")

    def test_only_exported_functions_are_roots(self):
        text = (self.root / LIB).read_text()
        self.write(LIB, text.replace('#[unsafe(no_mangle)]\npub extern "C" fn hilofanur_twice', "pub fn twice", 1))
        self.assertEqual(self.part("  all roots together")[0], ["2", "7", "all", "roots", "together"])

    def test_imports(self):
        self.assertEqual(self.report("--imports"), [])
        self.change(WORD, "twice n = add n n", "twice n = n")
        self.assertEqual(self.report("--imports"), [f"{WORD}:2: add"])
