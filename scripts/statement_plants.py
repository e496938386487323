#!/usr/bin/env python3
"""Plants edits of the sources that change what a clause says, while its text stays: both scripts that show statements see each.

  scripts/statement_plants.py

scripts/statements.py refuses the sources, or writes another file of statements; scripts/theorem.py refuses them, or writes another
SAFETY.txt. A plant in a page names a definition that is gone: scripts/documents.py reports it. Nothing of the repository is changed.
The last line says what passed; the status is 0 if each plant was seen, and nothing else.
"""
import os
import shutil
import sys
import tempfile

import documents
import statements
import theorem
from theorem_reader import Project

ROOT = os.path.dirname(os.path.dirname(os.path.realpath(__file__)))
RUN = 'crates/codec_payload_buffer_runs/src/run.rt'
HEADLINE = 'crates/codec_payload_buffer_runs/specs/Headline.antt'
SENT = 'crates/codec_payload_buffer_runs/specs/SentStream.antt'
TURNS = 'crates/codec_payload_session/src/reporter.rt'
EQUAL = 'infix 5 ◌≡◌\nabbrev pub ◌≡◌ : {A : Type 0} → A → A → Type 0\nx ≡ y = Unit {0}\n'
# The crates whose statements are read.
CRATES = ['codec_payload_buffer_runs', 'codec_payload_contiguity', 'codec_payload_session']
# Name, file, the old text, the new text; what scripts/statements.py does, and scripts/theorem.py, which shows what SAFETY reaches and is
# not called where that is nothing.
PLANTS = [
    ('another name of the standard library', RUN, ' IfOk, IfErr,', ' IfErr as IfOk, IfErr,', 'refuses', 'refuses'),
    ('the same in a definition', HEADLINE, ' length, map,', ' is_some as length, map,', 'refuses', 'refuses'),
    ('a new name for a name of the standard library', HEADLINE, ' map, take,', ' map, drop as take_first, take,', 'shows', 'nothing'),
    ('an operator of its own', HEADLINE, 'use Rattle.std.specs.Prelude.{◌≡◌, ', EQUAL + '\nuse Rattle.std.specs.Prelude.{', 'refuses', 'refuses'),
    ('a definition named as one of the standard library', SENT, '\nabbrev pub ', '\nabbrev pub map : ℕ → ℕ\nmap n = n\n\nabbrev pub ', 'shows', 'nothing'),
    ('another definition under a used name', HEADLINE, '{contiguity_for}', '{no_ids as contiguity_for}', 'shows', 'shows'),
    ('a theorem in a private module', TURNS, 'pub fn reports_take_turns()\n    ensures { TakeTurns }', 'pub fn reports_take_turns()\n    ensures { Unit {0} }', 'shows', 'nothing'),
    ('a function in front that ends in its head', RUN, '/// Does the steps', '/// Does nothing.\npub fn nothing()\n    ensures { Unit {0} }\n{}\n\n/// Does the steps', 'shows', 'nothing'),
]
NOTHING = ('nothing', RUN, '', '', 'nothing', 'nothing')
PAGE_PLANTS = 4


def edited(text, old, new):
    """The text with its first such place edited."""
    if old not in text:
        raise ValueError(f'no {old!r}')
    return text.replace(old, new, 1)


def seen_by_statements(files, before):
    """What scripts/statements.py does with these sources."""
    project = statements.Project(files)
    texts = {c: project.text(c) for c in project.crates}
    return 'refuses' if project.faults else 'shows' if texts != before else 'nothing'


def seen_by_theorem(root, before):
    """What scripts/theorem.py does with the sources of a folder."""
    project, text = written(root)
    return 'refuses' if project.faults else 'shows' if text != before else 'nothing'


def written(root):
    """The sources of a folder as read, and SAFETY.txt of them."""
    project = Project(root)
    return project, theorem.theorem_of(project, 'SAFETY').write(theorem.words_of('SAFETY'), theorem.FILES['SAFETY']['parts'])


def copied(folder):
    """A copy of what scripts/theorem.py reads."""
    for crate in os.listdir('crates'):
        for part in ('src', 'specs'):
            if os.path.isdir(f'crates/{crate}/{part}'):
                shutil.copytree(f'crates/{crate}/{part}', f'{folder}/crates/{crate}/{part}')
    os.makedirs(f'{folder}/scripts')
    shutil.copy('scripts/theorem_comments.txt', f'{folder}/scripts')


def plants_in_pages():
    """Plants in pages and tests: what each is, what scripts/documents.py reports, and what it should."""
    page, path = '`HasNoSuchName` and `IsAlone` are proved.', '`Receiver::has_no_such_name` is proved.'
    tests, witness = documents.witness_tests(), 'store_premises_can_be_met'
    theorems = 'crates/codec_payload_forward_runs/src/theorems.rt'
    yield 'a name that is gone', documents.not_stated('a page', page), 'a page: no public statement has HasNoSuchName'
    yield 'a method that is gone', documents.not_stated('a page', path), 'a page: no public statement has has_no_such_name'
    yield 'a lemma that is gone', documents.not_found('a page', '`has_no_' + 'such_lemma`'), 'a page: no source has has_no_' + 'such_lemma'
    yield 'a witness without a test', documents.witnesses(tests.replace(f'#[test]\nfn {witness}', f'fn {witness}')), \
        f'{theorems}: no test of rust/tests/wire executes the run of {witness}'


def main():
    """Tries all plants."""
    os.chdir(ROOT)
    files, failed = {path: text for path, text in statements.from_tree().items() if path.split('/')[1] in CRATES}, 0
    project = statements.Project(files)
    before = {c: project.text(c) for c in project.crates}
    with tempfile.TemporaryDirectory() as folder:
        copied(folder)
        safety = written(folder)[1]
        for name, path, old, new, by_statements, by_theorem in [*PLANTS, NOTHING]:
            text = edited(files[path], old, new)
            with open(f'{folder}/{path}', 'w', encoding='utf-8') as out:
                out.write(text)
            found = seen_by_statements({**files, path: text}, before), by_theorem
            if by_theorem != 'nothing' or name == 'nothing':
                found = found[0], seen_by_theorem(folder, safety)
            with open(f'{folder}/{path}', 'w', encoding='utf-8') as out:
                out.write(files[path])
            if found != (by_statements, by_theorem):
                failed += 1
                print(f'{name}: statements.py {found[0]}, theorem.py {found[1]}; expected {by_statements}, {by_theorem}')
    for name, found, expected in plants_in_pages():
        if list(found) != [expected]:
            failed += 1
            print(f'{name}: documents.py does not report it')
    print(f'{len(PLANTS) + 1 + PAGE_PLANTS - failed} plants seen, {failed} not')
    return 1 if failed else 0


if __name__ == '__main__':
    sys.exit(main())
