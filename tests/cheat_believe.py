#!/usr/bin/env python3
"""Tries to hide a definition from docs/believe: each way in a copy of the sources, where its count has to stay or to rise,
or the program has to refuse."""
import os
import re
import shutil
import subprocess
import sys
import tempfile
from pathlib import Path

TOP = Path(__file__).resolve().parent.parent
HEADLINE = "sd_run run_lines promise so_far + sd_readers restore_to restored + sd_disk DirDisk for Disk".split()
SHOWN = STEP = "crates/sd_world/specs/Promise.antt"
ALLOWED = "crates/sd_journal/specs/Tell.antt"
IMPORT = "use Rattle.sd_journal.specs.Tell.{MayShow, Told, tell}"
USED = "MayShow told shown"
# A definition that STEP reaches by one line.
SPAN_IMPORT = "use Rattle.sd_disk.specs.Spans.{LeavesOnly}"
SPAN_USED = "LeavesOnly g old.disk new.disk"
DEFINED = """abbrev pub MayShow : Told → Shown → Type 0
MayShow told shown = (shown ≡ told.last) ⊎ ((told.pending ≢ None) × (shown ≡ told.pending))
"""


def copy_of(folder):
    for path in [*TOP.glob("docs/*"), *TOP.glob("crates/*/specs"), *TOP.glob("crates/*/src"), *TOP.glob("crates/*/proofs")]:
        target = folder / path.relative_to(TOP)
        target.parent.mkdir(parents=True, exist_ok=True)
        (shutil.copytree if path.is_dir() else shutil.copy)(path, target)


def count(folder):
    """How many definitions are told, or None where the program refuses."""
    ran = subprocess.run([sys.executable, folder / "docs/believe", *HEADLINE], capture_output=True, text=True)
    told = re.match(r"(\d+) definitions", ran.stdout)
    assert told or ran.returncode == 1 and "can't be followed" in ran.stderr, ran.stderr
    return int(told[1]) if told else None


def write(path, text):
    """Writes a file of a copy, which may be a link to the file of another copy."""
    path.unlink(missing_ok=True)
    path.write_text(text)


def edit(folder, name, *pairs):
    path = folder / name
    text = path.read_text()
    for old, new in pairs:
        assert text.count(old) == 1, (name, old, text.count(old))
        text = text.replace(old, new)
    write(path, text)


def a_premise_of_the_function(folder):
    edit(folder, "crates/sd_run/src/running.rt", ("    watch: &mut S,\n) -> (D, Result<(), Stop>)\n",
         "    watch: &mut S,\n) -> (D, Result<(), Stop>)\n"
         "    requires { IsWholeRun D.Disk script.lines.items disk disk (W.contents out.old.writer) None }\n"))
    return 1  # it has to rise


def a_ghost_value_of_the_function(folder):
    edit(folder, "crates/sd_run/src/running.rt", ("    watch: &mut S,\n) -> (D, Result<(), Stop>)\n",
         "    watch: &mut S,\n) -> (D, Result<(), Stop>)\n"
         "    ghost run: { IsWholeRun D.Disk script.lines.items disk disk (W.contents out.old.writer) None }\n"))
    return 1


def a_file_of_proofs(folder):
    (folder / "crates/sd_journal/proofs/Hidden.antt").write_text(
        "use Rattle.sd_journal.specs.Allowed.{Shown}\n"
        "use Rattle.sd_journal.specs.Tell.{Told}\n" + DEFINED)
    edit(folder, ALLOWED, (DEFINED, ""))
    edit(folder, SHOWN, (IMPORT, "use Rattle.sd_journal.specs.Tell.{Told, tell}\n"
         "use Rattle.sd_journal.proofs.Hidden.{MayShow}"))


def an_operator_in_two_parts(folder):
    edit(folder, ALLOWED, (DEFINED, DEFINED.replace("pub MayShow :", "pub in◌may_show◌ :")
         .replace("MayShow told shown =", "in told may_show shown =")))
    edit(folder, SHOWN, (IMPORT, IMPORT.replace("MayShow", "in◌may_show◌")), (USED, "in told may_show shown"))


def a_name_of_signs(folder):
    edit(folder, ALLOWED, (DEFINED, DEFINED.replace("MayShow", "⊑?")))
    edit(folder, SHOWN, (IMPORT, IMPORT.replace("MayShow", "⊑?")), (USED, USED.replace("MayShow", "⊑?")))


def a_module_of_another_name(folder):
    edit(folder, STEP, (SPAN_IMPORT, "use Rattle.sd_disk.specs.Spans as it"), (SPAN_USED, "it." + SPAN_USED))


def a_whole_name(folder):
    edit(folder, STEP, (SPAN_IMPORT, ""), (SPAN_USED, "Rattle.sd_disk.specs.Spans." + SPAN_USED))


def a_module_that_is_passed_on(folder):
    lib = folder / "crates/sd_receipts/specs/Lib.antt"
    write(lib, lib.read_text() + "pub use Rattle.sd_disk.specs.Spans\n")
    edit(folder, STEP, (SPAN_IMPORT, SPAN_IMPORT.replace("sd_disk", "sd_receipts")))


def an_import_of_two_lines(folder):
    edit(folder, STEP, (SPAN_IMPORT, SPAN_IMPORT.replace("{", "{\n    ")))


def an_import_of_a_whole_module(folder):
    edit(folder, STEP, (SPAN_IMPORT, "use Rattle.sd_disk.specs.Spans"))


def a_parameter_of_a_module(folder):
    edit(folder, STEP, ("-- ---- one event, and a list of them\n",
         "-- ---- one event, and a list of them\n\nmodule _ {D : Type 0} (g : Ghosts D) (span : D → D → LeavesOnly g) where\n"),
         (SPAN_USED, "span old.disk new.disk"))


def a_clause_of_the_trait(folder):
    edit(folder, "crates/sd_disk/src/disk.rt", ("    ghost is_honest: { Self → Type 0 };",
         "    ghost is_honest: { Self → Type 0 };\n\n    ghost more: { (disk : Self) → CoversSteps (λ _ _. ⊥) (may_leave disk) };"),
         ("Crash.{Follows, ", "Crash.{CoversSteps, Follows, "))
    return 1


def a_value_as_a_law(folder):
    edit(folder, "crates/sd_disk/src/disk.rt", ("    ghost is_honest: { Self → Type 0 };", "    ghost is_honest: { (disk : Self) → Type 0 };"))


CHEATS = [a_premise_of_the_function, a_ghost_value_of_the_function, a_file_of_proofs, an_operator_in_two_parts,
          a_name_of_signs, a_module_of_another_name, a_whole_name, a_module_that_is_passed_on, an_import_of_two_lines,
          an_import_of_a_whole_module, a_parameter_of_a_module, a_clause_of_the_trait, a_value_as_a_law]


def main():
    seen = []
    with tempfile.TemporaryDirectory() as scratch:
        plain = Path(scratch) / "plain"
        copy_of(plain)
        before = count(plain)
        for cheat in CHEATS:
            folder = Path(scratch) / cheat.__name__
            shutil.copytree(plain, folder, copy_function=os.link)
            rises = cheat(folder) or 0
            now = count(folder)
            fine = now is None or now >= before + rises
            print(f"{'ok' if fine else 'HIDDEN'} {cheat.__name__}: {before} before, {'refused' if now is None else now} now")
            seen.append(fine)
            shutil.rmtree(folder)
    sys.exit(not all(seen))


main()
