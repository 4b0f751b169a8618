"""Respells this repository's own definitions, lemmas and variables as the installed Rattle spells its own.

Run once at the top of the repository, after the kit's port.py. Words are in snake case; a dash stays only where it joins
two names, as in `known-append`. Goals and steps that Rattle names, Rust's names, strings and inputs are left alone.
"""

import glob
import re

# A dash that joins two names stays, and a fact keeps its capital. The lemma `not-before` gives way to the field of that name.
JOINED = {
    "entered-all-append": "entered_all-append",
    "known-entered-all": "known-entered_all",
    "once-known": "Once-known",
    "once-push": "Once-push",
    "not-before": "not_over_before",
}
JOINED |= {name: name for name in (
    "known-append", "known-push", "known-entered", "entered-known", "entered-earliest", "laid-push", "onward-add",
)}

DASHED = """
accepted-exactly accepted-line accepted-none after-n alike-known alike-new also-before answers-are-pinned anywhere-kept
arrived-keeps arrives-within before-none before-push byte-back byte-forth bytes-equivalence called-ended called-keeps
called-says came-says carries-over-where columned-only columns-a-b-c come-arrived come-on come-tried contents-pass
counts-its-steps counts-on cut-back cut-forth cut-found cut-none dash-forth digit-back digit-forth digit-no-space
each-entered each-entered-all each-passes earliest-of-all either-some ended-stays entered-after failed-not-done few-rows
field-forth field-no-space finished-at-the-count first-forth first-known first-pair first-table go-before go-carries
go-counted go-guarded go-keeps growing-begins growing-ends growing-full growing-known growing-list growing-new
guards-only-break hex-back hex-forth hex-no-space holds-of-every-run i-is is-done-or-not k-is known-and-not known-like
known-new knows-all knows-itself laid-front last-forth limits-only-break line-back line-forth listed-all long-field
mapped-some more-before more-carries more-counted more-guarded more-keeps more-over n-is next-not-done no-space
none-from-not none-sharing not-both not-later nothing-twice numbers-equivalence of-each once-each once-like
once-new one-count one-enter one-enter-all one-full one-position onward-before onward-over operands-pass outside-text
over-or-not pair-bad pair-from-some pair-good passes-always passes-as passes-first passes-le passes-lt passes-mapped
passes-some performed-ended performed-keeps performed-says refused-first refused-not resting-changes-nothing row-long
row-passes row-text rows-first run-carries run-counted run-guarded run-keeps run-limited said-is same-slice same-table
search-begins search-ends search-finds search-goes-on size-passes size-text size-told sizes-first sizes-pass some-entry
stays-over steps-within stops-early-only tables-before then-back then-forth tried-keeps two-runs-are-one unknown-text
unspaced-more unspaced-none up-to-keeps up-to-says used-is when-some
""".split()

CAMEL = """
asItEnds byteBefore byteOfDigits declaredOf digitOf digitText earliestAfter emptyFlaw enteredAll everyTable fieldBefore
fieldBytes fieldText fieldThen firstRow flagAt flagFlaw functionOf goOn guardsLater hexBytes hexText identifierOf
instructionOf instructionRowOf kindFlaw lineTables lineText mapOutcome mapRun noBytes notBefore numberFlaw ofEnter
ofEnterAll ofPosition onField operandsFlaw optionalFlaw outcomeOf outcomeOfTables outcomeText partFlaw refusalText
restingAt rootFlaw rootOf rowFlaw rowRefusal rowsVerdict settledTwice shapeFlaw sizeVerdict terminalFlaw terminalOf
toldBefore usedAfter whenTrue withRest withoutLast
""".split()


def snake(name):
    return re.sub(r"([A-Z])", lambda m: "_" + m.group(1).lower(), name)


NAMES = {name: name.replace("-", "_") for name in DASHED}
NAMES |= {name: snake(name) for name in CAMEL}
NAMES |= JOINED
# After a dot stand fields, none of whose names has a dash, and goals, whose names Rattle makes.
NAME = re.compile(
    r"(?<![\w'◌.-])(" + "|".join(sorted(map(re.escape, NAMES), key=len, reverse=True)) + r")(?![\w'◌-])"
    + r"|(?<=\.)(" + "|".join(sorted(CAMEL, key=len, reverse=True)) + r")(?![\w'◌-])"
)


def main():
    places = 0
    files = glob.glob("crates/*/src/*.rt") + glob.glob("crates/*/specs/*.antt") + glob.glob("crates/*/proofs/**/*.antt", recursive=True)
    for path in sorted(files):
        with open(path, encoding="utf-8") as file:
            text = file.read()
        respelt, count = NAME.subn(lambda m: NAMES[m.group()], text)
        if respelt != text:
            places += count
            with open(path, "w", encoding="utf-8") as file:
                file.write(respelt)
    print(f"respell: {places} places of {len(NAMES)} names")


if __name__ == "__main__":
    main()
