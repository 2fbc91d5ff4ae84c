#!/usr/bin/env python3
"""Tests tools/trace.py on a small page: what it finds missing, and what it lets pass.

    tools/tests/trace.py    prints one line; the status is 1 where something is wrong

The tool runs as it is, in a small repository in a temporary folder.
"""
import os, shutil, subprocess, sys, tempfile

TOOLS = os.path.dirname(os.path.dirname(os.path.abspath(__file__)))

SPECS = """-- Jars on a shelf.
abbrev pub by_contract : ℕ → ℕ
by_contract n = in_body n

unfoldable pub in_body : ℕ → ℕ
in_body n = n  -- none_names_it

abbrev pub by_theorem : ℕ → ℕ
by_theorem n = n

abbrev pub by_private : ℕ → ℕ
by_private n = n

abbrev pub by_proof : ℕ → ℕ
by_proof n = n

abbrev pub by_later_clause : ℕ → ℕ
by_later_clause n = n

abbrev pub by_requires : ℕ → ℕ
by_requires n = n

abbrev pub none_names_it : ℕ → ℕ
none_names_it n = n

abbrev pub twice : ℕ → ℕ
twice n = n
"""
OTHER = """-- Another file with a name that also stands in Shelf.
abbrev pub twice : ℕ → ℕ
twice n = n
"""
CODE = """ghost use Rattle.shelf.specs.Shelf.{
  by_contract,
  by_later_clause,
  by_private,
  by_requires,
};
ghost use Rattle.shelf.specs.Other.{twice};

#[tactic(auto, unfolding(crate::specs::Shelf::none_names_it))]
pub fn put(n: u64) -> u64
    requires { by_requires n ≡ n }
    ensures put { result ≡ by_contract n }
    ensures put_twice { result ≡ twice n }
{
    n
}

fn kept(n: u64) -> u64
    ensures { result ≡ by_private n }
{
    n
}

impl Jar {
    pub fn fill(&mut self, n: u64)
        ensures {
          self.new ≡ by_later_clause { n } self.old
        }
    {
    }
}
"""
PROOFS = """-- Laws.
use Rattle.shelf.specs.Shelf.{by_theorem as told, by_proof}

pub law : (n : ℕ) → told n ≡ n
unfolding by_proof
law n = by_proof n

helper : (n : ℕ) → by_proof n ≡ n
helper n = refl
"""
PAGE = """# Where each sentence stands

| Sentence | Definition | Theorem |
|---|---|---|
| one | `by_contract`, `in_body`, `by_theorem` (shelf/specs/Shelf.antt), `twice` (shelf/specs/Other.antt) | `law` (shelf/proofs/Laws.antt), `put`, `fill` (shelf/src/lib.rt) |
| two | `by_later_clause` (shelf/specs/Shelf.antt) | - |
| three | `by_private`, `by_proof`, `by_requires`, `none_names_it`, `twice` (shelf/specs/Shelf.antt) | - |
| four | `not_there` (shelf/specs/Shelf.antt), `alone` | - |
| five | nothing | - |
"""
UNREACHED = "docs/TRACE.md:7: %s of crates/shelf/specs/Shelf.antt is reached from no public contract and no theorem"
FOUND = [UNREACHED % name for name in ("by_private", "by_proof", "by_requires", "none_names_it", "twice")] + [
    "docs/TRACE.md:8: not_there does not stand in crates/shelf/specs/Shelf.antt",
    "docs/TRACE.md:8: alone is cited without a file",
    "docs/TRACE.md:9: no place: | five | nothing | - |",
    "trace: 5 rows, 14 names cited, 8 faults",
]


def main():
    with tempfile.TemporaryDirectory() as root:
        files = {"crates/shelf/specs/Shelf.antt": SPECS, "crates/shelf/specs/Other.antt": OTHER, "crates/shelf/src/lib.rt": CODE, "crates/shelf/proofs/Laws.antt": PROOFS, "docs/TRACE.md": PAGE}
        for path, text in files.items():
            os.makedirs(os.path.dirname(os.path.join(root, path)), exist_ok=True)
            with open(os.path.join(root, path), "w", encoding="utf-8") as out:
                out.write(text)
        os.makedirs(os.path.join(root, "tools"))
        shutil.copy(os.path.join(TOOLS, "trace.py"), os.path.join(root, "tools"))
        run = subprocess.run([sys.executable, "tools/trace.py"], capture_output=True, encoding="utf-8", cwd=root, env=dict(os.environ, PYTHONDONTWRITEBYTECODE="1"))
    said = (run.stdout + run.stderr).splitlines()
    wrong = [f"trace test: not said: {line}" for line in FOUND if line not in said] + [f"trace test: said: {line}" for line in said if line not in FOUND]
    if run.returncode != 1:
        wrong.append(f"trace test: the status is {run.returncode} and not 1")
    print("\n".join(wrong) if wrong else "trace test: what is missing is found, and nothing else")
    return 1 if wrong else 0


if __name__ == "__main__":
    sys.exit(main())
