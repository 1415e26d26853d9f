"""Tries the mutants of every crate, many in one check: the prover must refuse each.

    checks/wrong-bodies [--jobs N] [--since REV] [--anew] [--write] [-v] [CRATE..]
    rt ci | checks/wrong-bodies --beside-ci [--jobs N] [--anew] [--write] [-v] [CRATE..]
    checks/wrong-bodies --self-test [--jobs N] [CRATE..]
    checks/wrong-bodies --unaimed [CRATE..]
    checks/wrong-bodies --hard [CRATE..]

A mutant is an edit, a block of crates/CRATE/mutants.edits, described in CONTRIBUTING.md. A check continues after a
refused function and has a line for each, so edits of different functions share one check, and each is judged by the
line of its own function:

- `no proof: expected ..; search did not prove ..`, or `not proved` with an open goal in its own body: refused by a
  clause.
- An error in its folder of `proofs/`: refused, but only because a written proof no longer fits; counted separately.
- Anything else is tried separately, as `rt must-fail` does, and only that reports "not refused" or "bad edit".

This is sound because each mutant changes only one body, or a copy of the function that nothing calls: other functions
see contracts, not bodies or proofs. Unchanged functions must be proved, or call a refused one without an error of their
own. The crate without edits must be proved. Errors about missing names do not count.

A refusal is remembered by a checksum of everything that it depends on: the edit, the body with its proof answers, the
statements of its crate and those below, the prover, and this program. This machine remembers its own, and the
repository, in mutants/refused.txt, those of a run with --write; each run tries a random tenth of the latter again.
--anew tries all.

--hard tries those again that are refused only because a proof answer no longer fits, without the proof answers of their
function. A mutant that is then proved was never refused by the contract; one that isn't is refused only if the
unchanged body is proved without its answers. It takes hours, and is no part of CI.

Each edit that isn't refused has a line, and each crate; the last line is "N passed, M failed". The status is 0 only
if all were refused."""
import os

from checks.lib import command

from . import run, self_test


def main():
    parser = command.parser(__doc__)
    parser.add_argument("--jobs", type=int, default=len(os.sched_getaffinity(0)), help="checks at a time")
    parser.add_argument(
        "--since", metavar="REV", help="only crates that changed since REV, or whose libraries' contracts did"
    )
    parser.add_argument(
        "--beside-ci", action="store_true", help="try those of each crate once rt ci says that it's proved"
    )
    parser.add_argument("--self-test", action="store_true", help="try planted edits, whose verdicts are known")
    parser.add_argument("--anew", action="store_true", help="try those too whose refusal is remembered")
    parser.add_argument(
        "--write", action="store_true", help="have the repository remember what is refused, of all crates"
    )
    parser.add_argument(
        "--unaimed", action="store_true", help="list the public functions that no edit changes, and try none"
    )
    parser.add_argument(
        "--hard", action="store_true", help="try those that an answer alone refuses, without the answers"
    )
    parser.add_argument("-v", action="store_true", help="say of each edit why it was refused")
    parser.add_argument("crates", nargs="*", metavar="CRATE", help="the crates whose mutants are tried, by default all")
    given = parser.parse_args()
    if given.write and (given.crates or given.since):
        parser.error("--write is for all crates")
    return self_test.main(given.jobs, given.crates) if given.self_test else run.main(given)
