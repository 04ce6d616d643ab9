"""A small crate for tests of edits."""

import json
import tempfile
import tomllib
import unittest
from pathlib import Path

SOURCE = """use std::fmt;

const LIMIT: usize = 4;

pub trait Compared {
    fn is_same(&self) -> bool
        ensures same { result ≡ true };
}

fn free() -> u8 {
    1
}

impl<T: Compared> Compared for Box<T> {
    fn is_same(&self) -> bool {
        true
    }
}

pub struct Name {
    first: u8,
}

impl Name {
    pub fn first(&self) -> u8
        ensures value { result ≡ 2 }
        ensures small { result ≤ 4 }
    {
        2
    }

    pub(super) fn second(
        &self,
        other: u8,
    ) -> u8
        ensures { result ≡ 3 }
    {
        3
    }

    pub(crate) fn law(&self)
        ensures { 1 ≡ 1 }
    {}
}
"""


class InCrate(unittest.TestCase):
    """Tests with a crate of the file above."""

    def setUp(self):
        folder = tempfile.TemporaryDirectory()
        self.addCleanup(folder.cleanup)
        self.top = Path(folder.name)
        self.crate = self.top / "crates" / "low"
        (self.crate / "src").mkdir(parents=True)
        (self.crate / "src/lib.rt").write_text(SOURCE)

    def edit(self, name, old="        2", crate="low", **keys):
        """Writes a table into the edits of a crate, in place of another one of that name; returns the file."""
        path = self.top / "crates" / crate / "edits.toml"
        kept = tomllib.loads(path.read_text()) if path.is_file() else {}
        kept[name] = {"file": "src/lib.rt", "old": old, **keys}
        path.write_text("\n".join(table_as_text(it, keys) for it, keys in kept.items()))
        return path


def table_as_text(name, keys):
    """A table of simple keys, and of tables in `also`."""
    simple = [f"{key} = {json.dumps(value, ensure_ascii=False)}" for key, value in keys.items() if key != "also"]
    also = ["\n".join([f"[[{name}.also]]", *(f"{key} = {json.dumps(value)}" for key, value in it.items())]) for it in keys.get("also", [])]
    return "\n".join([f"[{name}]", *simple, *also])
