"""tools/papers on small trees: a right one passes, and of a wrong one exactly what is wrong is reported."""
from trees import TreeTest

GUARANTEES = "docs/GUARANTEES.md"


class Papers(TreeTest):
    def reports(self, *lines):
        ran = self.run_tool("papers")
        self.assertEqual((ran.stdout.splitlines(), ran.stderr, ran.returncode), (list(lines), "", 1))

    def test_right_tree(self):
        ran = self.run_tool("papers")
        self.assertEqual(ran.stdout, "papers: 7 held; 1 must-fail edits are named in none\n", ran.stderr)
        self.assertEqual(ran.returncode, 0)

    # ---- paths and links

    def test_path(self):
        self.change("README.md", "`docs/CRATES.md`", "`docs/CRATE.md`")
        self.reports("README.md:3: docs/CRATE.md is not there")

    def test_path_below_a_crate(self):
        self.change(GUARANTEES, "`specs/Le.antt`", "`specs/Lee.antt`")
        self.reports(f"{GUARANTEES}:17: specs/Lee.antt is not there")

    def test_path_of_a_folder(self):
        self.write("machines/README.md", "# Machines\n\n`./record` and `include/small.h`\n")
        self.reports("machines/README.md:3: ./record is not there")
        self.write("machines/record", "")
        self.assertEqual(self.run_tool("papers").returncode, 0)

    def test_link(self):
        self.change("README.md", "docs/GUARANTEES.md#", "docs/GUARANTEE.md#")
        self.reports("README.md:3: the link docs/GUARANTEE.md#what-is-proved leads nowhere")

    def test_link_to_a_heading(self):
        self.change(GUARANTEES, "## What is proved", "## What is shown")
        self.reports("README.md:3: the link docs/GUARANTEES.md#what-is-proved leads nowhere")

    def test_code_blocks_are_not_read(self):
        self.change("README.md", "# Small\n", "# Small\n\n```\n`docs/none`" + 99 * " x" + "\n```\n")
        self.reports("README.md:4: 209 columns, at most 100")

    # ---- citations

    def no_item(self, old, new, where, line):
        self.change(GUARANTEES, f"`{old}`", f"`{new}`")
        self.reports(f"{GUARANTEES}:{line}: {new} is not in {where}")

    def test_argument_is_no_item(self):
        self.no_item("lonely", "n", "crates/word/specs/Word.antt", 6)

    def test_helper_is_no_item(self):
        self.no_item("lonely", "seven", "crates/word/specs/Word.antt", 6)

    def test_word_of_the_language_is_no_item(self):
        self.no_item("lonely", "use", "crates/word/specs/Word.antt", 6)

    def test_header_text_is_no_item(self):
        self.no_item("SMALL_SPENT", "a_field", "include/small.h", 9)

    def test_parameter_is_no_item(self):
        self.no_item("small_twice", "number", "include/small.h", 9)

    def test_local_is_no_item(self):
        self.no_item("MOST", "local", "rust/one/src/lib.rs", 10)

    def test_call_is_no_item(self):
        self.no_item("MOST", "outer", "rust/one/src/lib.rs", 10)

    def test_comment_is_no_item(self):
        self.no_item("counted", "Other", "rust/one/src/lib.rs", 10)

    def test_field_type_is_no_item(self):
        self.no_item("refusal", "uint32_t", "include/small.h", 9)

    def test_variant_type_is_no_item(self):
        self.no_item("inner", "u64", "rust/one/src/lib.rs", 10)

    def test_last_of_a_list(self):
        self.no_item("begin", "began", "rust/one/src/lib.rs", 10)

    def test_token(self):
        self.change(GUARANTEES, "`word` in `crates.txt`", "`wor` in `crates.txt`")
        self.reports(f"{GUARANTEES}:12: wor is not in crates.txt")

    def test_token_of_a_folder(self):
        self.no_item("sum-*", "sun-*", "crates/word/must-fail", 13)

    def test_item_of_a_folder(self):
        self.no_item("One::begin", "One::began", "rust/one", 13)

    def test_cited_path(self):
        self.change(GUARANTEES, "`lonely` in\n`crates/word/specs/Word.antt`", "`lonely` in\n`Word.antt`")
        self.reports(f"{GUARANTEES}:6: Word.antt is not there")

    def test_field_of_a_record(self):
        self.change(GUARANTEES, "`x0` of", "`x1` of")
        self.reports(f"{GUARANTEES}:7: x1 is no member of Ends")

    def test_field_of_another_record(self):
        self.change(GUARANTEES, "`first` of", "`Plain` of")
        self.reports(f"{GUARANTEES}:10: Plain is no member of One")

    def test_record_below_its_field(self):
        self.change(GUARANTEES, "`value` of `Answer`", "`valu` of `Answer`")
        self.reports(f"{GUARANTEES}:12: valu is no member of Answer")

    def test_record_without_a_file(self):
        self.change(GUARANTEES, "`first` of `One`", "`first` of `Two`")
        self.reports(f"{GUARANTEES}:10: Two is in no file above")

    # ---- edits, figures, crates, landings

    def test_edit(self):
        self.change(GUARANTEES, "edits `sum-wrong`", "edits `sum-lost`, and\n`sum-left`")
        self.reports(f"{GUARANTEES}:7: no must-fail edit sum-left")

    def test_figure(self):
        self.change(GUARANTEES, "| 14 | 9 |", "| 14 | 11 |")
        self.reports(f"{GUARANTEES}:22: tools/believed has | the manuals, demand 3 and helper blocks | 14 | 9 |")

    def test_figure_of_another_tree(self):
        self.change("crates/le/specs/Le.antt", "-- a sum\n", "")
        self.reports(f"{GUARANTEES}:22: tools/believed has | the manuals, demand 3 and helper blocks | 13 | 9 |")

    def test_figure_left_out(self):
        self.change(GUARANTEES, "| the index | 0 | 0 |\n", "")
        self.reports(f"{GUARANTEES}:19: tools/believed also has | the index | 0 | 0 |")

    def test_figure_of_no_group(self):
        self.change(GUARANTEES, "| the index | 0 | 0 |\n", "| the index | 0 | 0 |\n| the rest | 0 | 0 |\n")
        self.reports(f"{GUARANTEES}:26: tools/believed has no such row")

    def test_no_figures(self):
        self.change(GUARANTEES, "<!-- /believed -->", "")
        self.reports(f"{GUARANTEES}:1: no table between <!-- believed --> and <!-- /believed -->")

    def test_figure_repeated(self):
        self.change("README.md", "See", "`tools/believed` counts 14\nlines. See")
        self.reports("README.md:3: repeats a figure of tools/believed")

    def test_what_believed_reports(self):
        self.change("crates/word/specs/Word.antt", "= add n n", "= sum n n")
        self.change("crates/word/specs/Word.antt", "Le.{add}", "Le.{sum}")
        ran = self.run_tool("papers")
        self.assertIn("crates/word/specs/Word.antt:2: Rattle.le.specs.Le: sum is nowhere", ran.stdout)
        self.assertEqual(ran.returncode, 1)

    def test_crate_without_a_row(self):
        self.change("docs/CRATES.md", "| `le`, `word` |", "| `le` and word |")
        self.reports("docs/CRATES.md:1: no row for the crate word")

    def test_no_crates(self):
        (self.root / "docs/CRATES.md").unlink()
        self.change("README.md", " and `docs/CRATES.md`", "")
        crates = ("le", "word", "translation", "hilofanur")
        missing = [f"docs/CRATES.md:1: no row for the crate {name}" for name in crates]
        self.reports("docs/CRATES.md:1: is not there", *missing)

    def test_landing_without_a_line(self):
        self.write("docs/landings/02.md", "# 2\n")
        self.reports("docs/LANDINGS.md:1: no line for landings/02.md")

    def test_line_without_a_landing(self):
        self.change("docs/LANDINGS.md", "- [1]", "- [2](landings/02.md)\n- [1]")
        self.reports("docs/LANDINGS.md:1: landings/02.md is not there")

    def test_long_landing(self):
        self.write("docs/landings/01.md", 40 * "x.\n")
        self.assertEqual(self.run_tool("papers").returncode, 0)
        self.write("docs/landings/01.md", 41 * "x.\n")
        self.reports("docs/landings/01.md:41: above 40 lines")

    # ---- prose

    def test_long_sentence(self):
        self.write("docs/landings/01.md", "First.\n\n- " + 17 * "a b " + "c\n\n- " + 18 * "a b\n" + ".\n")
        self.reports("docs/landings/01.md:5: a sentence of 37 words: a b a b a b ..")

    def test_sentences_end_at_marks(self):
        self.write("machines/README.md", 35 * "a\n" + "b; " + 34 * "a\n" + "b: c\n")
        self.reports("machines/README.md:1: a sentence of 36 words: a a a a a a ..")

    def test_long_line(self):
        self.write("rust/one/README.md", 120 * "x" + "\n" + 121 * "x" + "\n")
        self.reports("rust/one/README.md:2: 121 columns, at most 120")

    def test_long_row(self):
        self.write("rust/one/README.md", f"|{198 * 'x'}|\n|{199 * 'x'}|\n")
        self.reports("rust/one/README.md:2: 201 columns, at most 200")

    def test_readme(self):
        self.change("README.md", "# Small\n", f"# Small\n{100 * 'x'}\n{101 * 'x'}\n|{100 * 'x'}\n")
        self.reports("README.md:3: 101 columns, at most 100", "README.md:4: 101 columns, at most 100")
