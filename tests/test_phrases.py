"""Plain English: which phrases are no longer written, in documents, helps, messages and comments."""

import tempfile
from pathlib import Path

from .support.cases import Cases
from .support.phrases import all_found, found_in


class Phrases(Cases):
    """Phrases that are banned."""

    def test_files(self) -> None:
        """No document, help, message or comment has one of them."""
        self.assertEqual(list(all_found()), [], "what to write instead follows each of them")

    def found(self, suffix: str, text: str) -> list:
        """The phrases that are found in a file of this kind."""
        with tempfile.TemporaryDirectory(prefix="metad-phrases-") as room:
            path = Path(room, f"text{suffix}")
            path.write_text(text)
            return [(line, phrase) for line, phrase, _ in found_in(path)]

    def test_pages(self) -> None:
        """They are found in prose, also over the end of a line, and not in blocks of code."""
        text = "A session that was\ntold so.\n```\nby chance\n```\nFor want of memory.\n"
        self.assertEqual(self.found(".md", text), [(1, "was told"), (6, "want of memory")])
        self.assertEqual(self.found(".md", "Behind a front, and behind the native front; the line behind it.\n"), [(1, "behind")])
        self.assertEqual(self.found(".md", "[x](y-by-chance) `beside` by\nitself\n"), [(1, "by itself")])
        self.assertEqual(self.found(".md", "It comes to rest, stands for a place, and comes to nothing.\n"), [(1, "comes to")])

    def test_sources(self) -> None:
        """They are found in comments and texts of sources, and not in names."""
        code = 'def by_chance(beside):\n    """What is told\n    anew."""\n    return beside  # by chance\n'
        self.assertEqual(self.found(".py", code), [(2, "is told"), (3, "anew"), (4, "by chance")])
        code = "//! What stands\n//! here.\nfn beside() {}\n// by chance\n/// What is\n/// none.\n"
        self.assertEqual(self.found(".rt", code), [(1, "stands"), (5, "is none")])
        self.assertEqual(self.found(".antt", "-- What is\n-- told, `anew`.\nanew = told\n"), [(1, "is told")])
        self.assertEqual(self.found(".md", "0 if there is none; a slot is none.\n"), [(1, "is none")])
        self.assertEqual(self.found(".rs", 'const HELP: &str = r#"\nwhat is told\n"#;\n'), [(2, "is told")])
