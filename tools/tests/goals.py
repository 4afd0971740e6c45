"""`tools/goals` finds a mutant that is refused at another goal than that of its first line."""

import pathlib
import subprocess
import unittest

ROOT = pathlib.Path(__file__).resolve().parents[2]

# The first line of one names the clause `judged` of `Tag::validate`; that of the next, which is of
# an `impl`, names no function. The third names the clause without a name, and a goal.
TAG, ORDER = "font_tags/faults_of_a_tag_swapped.edit", "font_base/ordered_without_identity.edit"
CUT = "font_lines/whole_number_cut_to_its_range.edit"
OF_CUT = "./proofs/numbers/magnitude_of_digits/Answers.antt:13:9: error: "

# A mutant, what `rt` says of it, and whether this is another goal.
ROWS = [
    (TAG, "note: src/tag.rt:OWN:5: .. (`returns-then-clause-judged`); ..", False),
    (TAG, "note: src/tag.rt:OWN:5: .. (`returns`)", True),
    (TAG, "note: src/tag.rt:OWN:5: .. (`overflow`)", True),
    (TAG, "note: src/tag.rt:OWN:5: .. (`returns-clause-valid`)", True),
    (TAG, "note: src/tag.rt:OTHER:5: .. (`returns`)", True),
    (TAG, "./proofs/tag/Tag/validate/Answers.antt:9:5: error: `returns-clause-judged`: ..", False),
    (TAG, "./proofs/tag/Tag/validate/Answers.antt:9:5: error: `returns-clause-valid`: ..", True),
    (TAG, "./proofs/tag/Tag/new_checked/Answers.antt:9:5: error: `returns-clause-judged`", True),
    (TAG, "", True),
    (CUT, OF_CUT + "`returns-in-digit`: ..", False),
    (CUT, OF_CUT + "`loop-digit-preserved`: ..", False),
    (CUT, OF_CUT + "`loop-digit-bounded`: ..", True),
    (CUT, OF_CUT + "`returns-clause-value`: ..", True),
    (ORDER, "a.rt:9:5: .. (`matches_eq-x`)", False),
    (ORDER, "a.rt:9:5: .. (`returns-clause-matches_eq`)", True),
]


def misnamed(output: str) -> tuple[int, list[str]]:
    """Returns the status, and what is said of the mutants that are not refused where they say."""
    run = subprocess.run([ROOT / "tools/goals"], input=output, capture_output=True, text=True)
    return run.returncode, run.stderr.splitlines()


class Goals(unittest.TestCase):
    def test_goals_are_compared_with_clauses(self) -> None:
        source = (ROOT / "crates/font_tags/src/tag.rt").read_text()
        for name, told, is_other in ROWS:
            for word, code in ("OWN", "fn validate("), ("OTHER", "fn as_bytes("):
                self.assertTrue(code in source, f"tag.rt has no `{code}`, which this test names")
                told = told.replace(word, str(1 + source[: source.index(code)].count("\n")))
            status, wrong = misnamed(f"rt: must-fail {name}: refused, as it must be: {told}\n")
            found = any(it.startswith(name) for it in wrong)
            self.assertEqual((status, found), (1, is_other), told)

    def test_each_mutant_is_looked_for(self) -> None:
        edits = list(ROOT.glob("crates/*/must-fail/*.edit"))
        status, wrong = misnamed("")
        self.assertEqual((status, len(wrong)), (1, len(edits)))
