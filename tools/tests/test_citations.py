"""What the docs cite is there."""

import tempfile
import unittest
from pathlib import Path

from rudavesh import citations, places


class Docs(unittest.TestCase):
    def test_everything_cited_is_there(self):
        found = citations.missing(places.ROOT)
        if found:
            self.fail("\n" + "\n".join(map(str, found)))

    def test_no_exemption_without_need(self):
        for document, name in citations.EXEMPT:
            self.assertIn(f"`{name}`", (places.ROOT / document).read_text(encoding="utf-8"))


class Checker(unittest.TestCase):
    """A repository of one crate, and what is said of one line of its docs."""

    def setUp(self):
        folder = tempfile.TemporaryDirectory()
        self.addCleanup(folder.cleanup)
        self.root = Path(folder.name)
        for path, text in {
            "crates.txt": "hall:\nrun: hall\n",
            "crates/hall/specs/Fate.antt": "abbrev fate : N\nnext-one = fate\n",
            "crates/hall/src/fate.rt": "pub fn judged(kept: u8) -> u8\n",
            "crates/hall/must-fail/first.edit": "wrong: late\nrefused by: judged\n",
            "crates/run/specs/Fate.antt": "other = 1\n",
            "model/tests/bench.rs": "fn p1_turns() {\n}\n",
            "tools/strip": "",
            "docs/landings/BASE.md": "",
        }.items():
            file = self.root / path
            file.parent.mkdir(parents=True, exist_ok=True)
            file.write_text(text)

    def said(self, text):
        (self.root / "README.md").write_text(text + "\n")
        return [str(one) for one in citations.missing(self.root)]

    def test_what_is_there(self):
        for text in (
            "`crates/hall/specs/Fate.antt`, `hall/specs/Fate.antt`, `hall/src/`, `crates/*/specs/`, `docs/landings/`, `specs/`, "
            "`Fate.antt`",
            "`hall/{specs,src}`, `crates/hall/{specs/Fate,specs/Fate}.antt`, `crates/hall`, `hall/late`, `crates.txt`",
            '`./tools/strip README.md --title "The shift" > shift.svg` and `tools/strip`',
            "`target/log/NAME.out`, `/dev/fd/3`, `1 + 2`, `x = y`, `a name`, `logic=proved`",
            "`fate` in `crates/hall/specs/Fate.antt`",
            "| `hall` Fate.antt `fate`, `next-one`; `run` Fate.antt `other` | Fate.antt `other` (`what`), `hall` src/fate.rt `judged` |",
            "`hall::fate::judged(kept)`, `libc::read`; edits `hall/late`, `late`; model `p1_turns`",
            "```\n`no/such/path`\n```",
        ):
            self.assertEqual(self.said(text), [], text)

    def test_one_sentence_for_each_that_is_not(self):
        for text, name, place in (
            ("see `crates/hall/specs/Angle.antt`", "crates/hall/specs/Angle.antt", "in the repository"),
            ("see `hall/{specs,proofs}`", "hall/proofs", "in the repository"),
            ("see `crates/*/none/`", "crates/*/none/", "in the repository"),
            ("see `Angle.antt`", "Angle.antt", "in the repository"),
            ("see `tools/records --help`", "tools/records", "in the repository"),
            ("see `hall/early`", "hall/early", "in the repository"),
            ("`angle` in `crates/hall/specs/Fate.antt`", "angle", "in crates/hall/specs/Fate.antt"),
            ("`hall` Angle.antt", "Angle.antt", "a file of hall"),
            ("`halls` Fate.antt `fate`", "halls", "a crate, though Fate.antt is cited as a file of it"),
            ("Angle.antt `angle`", "Angle.antt", "a file of any crate"),
            ("`hall` Fate.antt `fate`, `other`", "other", "in hall Fate.antt"),
            ("Fate.antt `next`", "next", "in Fate.antt"),
            ("`hall` src/fate.rt `fated`", "fated", "in hall src/fate.rt"),
            ("`hall::fate::judge(kept)`", "hall::fate::judge(kept)", "in the code of hall"),
            ("edits `hall/late`, `early`", "early", "a wrong answer of hall"),
            ("model `p2_turns`", "p2_turns", "a test of the model"),
        ):
            self.assertEqual(self.said(text), [f"README.md:1 cites `{name}`, which is not {place}."], text)
