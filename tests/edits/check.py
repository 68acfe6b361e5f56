# That the must-fail edits show something. The gate, .ci/run, leaves what rt said in target/gate.log, with the first error of each edit. An
# edit that adds a call or renames a local makes the proof files unfit for the code, and is refused whatever the contract says. The first
# error shows that, where rt has no other to show: it passes over errors of names as long as there is one. So an edit also may not change a
# condition after which a goal is named that a proof file cites. Neither shows that the fact at which an edit of the right shape is refused is
# false: that is read by a person. Run from the repository's top (tests/edits/run does).
import glob
import os
import re
import sys

LOG = "target/gate.log"
TRIED = re.compile(r"^rt: must-fail (\S+)\.edit: (.*)$", re.M)
REFUSED = "refused, as it must be: "
# What a first error says where the proof files do not fit the code, or the code's form is not covered by the prover's rules.
UNFIT = [
    (r"has no `\S+` that can be named from here", "a goal that the code no longer has"),
    (r"is not in scope", "a name that is not there"),
    (r"this λ is checked against [^\n]*which is not a function", "more answers than goals"),
    (r"this λ has \d+ binders, but its type has room for only", "an answer for another kind of goal"),
    (r"record `\S+` has no field", "a step that the code no longer has"),
    (r"does not cover|not covered", "a form that is not covered"),
]


def fault_of(said):
    if said is None:
        return "the gate's log says nothing of it"
    if not said.startswith(REFUSED):
        return said[:200]
    error = said[len(REFUSED) :]
    return next((f"{kind}: {error[:200]}" for pattern, kind in UNFIT if re.search(pattern, error)), None)


def main():
    if not os.path.isfile(LOG):
        print(f"no {LOG}; the gate, .ci/run, leaves it")
        return 1
    with open(LOG, encoding="utf-8", errors="replace") as file:
        tried = dict(TRIED.findall(file.read()))
    passed, faults = 0, []
    for path in sorted(glob.glob("crates/*/must-fail/*.edit")):
        fault = fault_of(tried.get("/".join(path.split("/")[1::2])[: -len(".edit")]))
        if fault is None:
            passed += 1
        else:
            faults.append(f"{path}: {fault}")
    for fault in faults:
        print(fault)
    print(f"{passed} passed, {len(faults)} failed")
    return 1 if faults else 0


sys.exit(main())
