"""Prints the lists of docs/DESIGN-PASS.md, old and new side by side: usage: design_pass.py CONTRACTS OLD NEW
CONTRACTS is contracts.py of the toolchain's folder port; OLD and NEW are folders with crates/. By text alone: what differs only in a name of the
page's table of types, or in that a number stands as a reason, is told apart from what differs otherwise; a reader judges."""

import collections
import importlib.util
import json
import os
import re
import subprocess
import sys

RESULTS = {  # the types that went, as the definitions have them now
    "BitsAnswer": "Result ℕ Refusal", "Outcome": "Result Unit ℕ", "Opened": "Result Cursor Refusal", "Place": "Option ℕ",
    "ReservationCase": "Option ReservationRequirement", "GrantingDelayCase": "Option BasicSlotgrantGrantingDelay",
    "CapAllocCase": "Option BasicSlotgrantCapAlloc", "UlDlCase": "Option UlDlAssignment", "AllocTypeCase": "Option ChanAllocType",
    "AccessCodeCase": "Option AccessCode", "BaseFrameLengthCase": "Option BaseFrameLength", "AddrTypeCase": "Option MacResourceAddrType",
    "SlotgrantAnswer": "Result BasicSlotgrant Refusal", "ChannelAllocationAnswer": "Result ChanAllocElement Refusal",
    "AccessAssignAnswer": "Result AccessAssign Refusal", "MacAccessAnswer": "Result MacAccess Refusal", "MacDataAnswer": "Result MacData Refusal",
    "MacResourceAnswer": "Result MacResource Refusal", "ChanAllocLen": "Result Bits ℕ", "HeaderLen": "Result Bits ℕ", "Frame18Pattern": "Option ℕ",
    "OptionalPower": "Option ℕ", "OptionalGrant": "Option BasicSlotgrant", "OptionalAllocation": "Option ChanAllocElement",
    "TrafficChannel": "Option ℕ", "UplinkUsage": "Option AccessAssignUlUsage", "UplinkMarker": "Option ℕ", "LastOne": "Option ℕ",
    "PduEnd": "Option ℕ", "Second": "Option ℕ", "StepAnswer": "Result Option BlockEntry Refusal", "BitsRead": "Read ℕ",
    "SlotgrantRead": "Read BasicSlotgrant", "ChannelAllocationRead": "Read ChanAllocElement", "AccessAssignRead": "Read AccessAssign",
    "MacAccessRead": "Read MacAccess", "MacDataRead": "Read MacData", "MacResourceRead": "Read MacResource",
}
SIGNATURES = [  # and as the signatures do
    (r"\bBitsRead\b", "Read<u64>"), (r"\bSlotgrantRead\b", "Read<BasicSlotgrant>"), (r"\bChannelAllocationRead\b", "Read<ChanAllocElement>"),
    (r"\bAccessAssignRead\b", "Read<AccessAssign>"), (r"\bMacAccessRead\b", "Read<MacAccess>"), (r"\bMacDataRead\b", "Read<MacData>"),
    (r"\bMacResourceRead\b", "Read<MacResource>"), (r"\bFrame18Pattern\b|\bOptionalPower\b|\bUplinkMarker\b|\bTrafficChannel\b", "Option<u8>"),
    (r"\bOptionalGrant\b", "Option<BasicSlotgrant>"), (r"\bOptionalAllocation\b", "Option<ChanAllocElement>"), (r"\bSecond\b", "Option<u16>"),
    (r"\bChanAllocLen\b|\bHeaderLen\b", "Result<Bits, u8>"), (r"\bOutcome\b", "Result<(), u8>"), (r"\bOpened\b", "Result<Cursor, Refusal>"),
    (r"\bBitsAnswer\b", "Result<u64, Refusal>"), (r"\bPlace\b|\bLastOne\b|\bPduEnd\b", "Option<usize>"),
    (r"\bUplinkUsage\b", "Option<AccessAssignUlUsage>"), (r"\bStepAnswer\b", "Result<Option<BlockEntry>, Refusal>"),
    (r"-> OctetCount\b", "-> Result<OctetCount, u8>"), (r"-> LenAndFill\b", "-> Result<LenAndFill, u8>"),
]
REASONS = ["ReadPastEnd", "WritePastEnd", "ValueTooWide", "WrongPduType", "ExtendedCarrier", "Augmented", "UsageMarker", "Length", "NullPdu",
           "EncryptedAddress", "NoFrame18Pattern", "NoFillBit", "BadWindow", "DelayCount"]
THERE = r"(?:(?:[A-Z]\w*'?\.)?(?:Value|Window|Case|Pattern|Level|Element|Channel|Usage|Marker|Bit|Number|At|Len|Entry)|(?:[A-Z]\w*Answer'?|Read')\.Read|Ok|Some|some)"
ABSENT = r"(?:[A-Z]\w*'?\.)?(?:Nothing|Without|Before|Nowhere|Unknown|End|none)"


def flat(text):
    return " ".join(text.replace("(", " ").replace(")", " ").split())


def word(pattern):
    return r"(?<![\w.'])" + pattern + r"(?![\w'])"


def old_form(t):
    for name, now in sorted(RESULTS.items(), key=lambda x: -len(x[0])):
        t = re.sub(word(name) + r"(?!\.)", now, t)
    t = re.sub(word(r"(?:[A-Z]\w*'?\.)?Done"), "#S tt", t)
    t = re.sub(word(THERE), "#S", t)
    t = re.sub(word(r"(?:[A-Z]\w*'?\.)?Refused"), "#E", t)
    t = re.sub(word(ABSENT), "#N", t)
    return flat(re.sub(r"(?:OctetCount|LenAndFill)\.Counted", "#S", t).replace("get_elem?", "slice_get"))


def new_form(t):
    t = re.sub(r"\brefused_by (result|[a-z]\w*)", r"\1", t.replace("Unit {0}", "Unit"))
    t = re.sub(r"\(refused_by ([\w.]+)\)", r"\1", t)
    t = re.sub(r"reason = reason (\([^()]*\)|\w+)", r"number = \1", t)
    for i, r in enumerate(REASONS, 1):
        t = re.sub(r"reason = %s\b" % r, "number = %d" % i, t)
        t = re.sub(r"(read_refused c) %s\b" % r, r"\1 %d" % i, t)
    t = re.sub(r"number (\w+)\.reason", r"\1.number", re.sub(r"reason = (\w+)", r"number = \1", t))
    t = re.sub(r"\(reason (\w+)\)", r"\1", re.sub(r"Err \(reason (\([^()]*\)|\w+)\)", r"Err \1", t))
    t = re.sub(r"(Result (?:\([^()]*\)|\w+)) Reason\b", r"\1 ℕ", t)
    t = re.sub(word("(?:Ok|Some|some)"), "#S", t)
    t = re.sub(word("(?:None|none)"), "#N", re.sub(word("Err"), "#E", t))
    return flat(t.replace("judged", "number"))


def alike(old, new):
    return len(old) == len(new) and all(old_form(a).replace("judged", "number") == new_form(b) for a, b in zip(old, new))


def definitions(contracts, root, folder):
    """The definitions and laws below crates/*/folder, each with its texts, by crate and name."""
    out = collections.OrderedDict()
    for crate in sorted(os.listdir(root + "/crates")):
        for d, _, files in sorted(os.walk("%s/crates/%s/%s" % (root, crate, folder))):
            for f in sorted(files):
                if f.endswith(".antt") and f not in ("Answers.antt", "Invariants.antt"):
                    for name, texts in contracts.definitions(open(d + "/" + f).read()).items():
                        out.setdefault((crate, name), []).extend(" ".join(t.split()) for t in texts)
    return out


def is_law(text):
    return not re.match(r"(?:pub )?(?:abbrev|unfoldable|record|data|infix)", text)


def statement(text, name):
    """A law without its proof: up to the first line that begins with its name again."""
    i = text.find(" : ")
    ends = [k for k in [text.find(" unfolding ", i)] if k > 0] + [i + m.start() for m in re.finditer(" " + re.escape(name) + "(?= |$)", text[i:])]
    return text[: min(ends)] if ends else text


def listed(names):
    by = collections.OrderedDict()
    for crate, name in names:
        by.setdefault(crate, []).append("`%s`" % name)
    return ["- %s: %s" % (crate, ", ".join(v)) for crate, v in by.items()] + [""]


def pair(head, old, new):
    return ["- " + head, "  - old " + old, "  - new " + new]


def quoted(texts):
    return "`%s`" % " ; ".join(texts)


def place(row):
    crate, file, name = row.split(" ", 2)
    return crate, "%s %s" % ("lib" if file == "src/lib.rt" else file[4:-3], name)


def signatures(d):
    same, judged, rest = [], [], collections.OrderedDict()
    for row, old, new in d["signatures changed"]:
        old, new = [re.sub(r",? \)", ")", t).replace("( ", "(") for t in (old, new)]
        now = old
        for a, b in SIGNATURES:
            now = re.sub(a, b, now)
        if re.sub(r"\s", "", now) == re.sub(r"\s", "", re.sub(r"Result<(.*?), Reason>", r"Result<\1, u8>", new)):
            same.append(place(row))
        elif old.endswith("-> u8") and new.endswith("-> Result<(), Reason>") and now[:-5].strip() == new[: -len("-> Result<(), Reason>")].strip():
            judged.append(place(row))
        else:
            rest.setdefault((old, new), []).append("`%s: %s`" % place(row))
    out = ["### Functions: signatures", "", "Of %d functions, %d with an `ensures`, there are %d and %d; impls of traits have their contracts in the trait. Private functions are among them; what they answer is in the contracts of the public ones that call them." % (d["functions"][0], d["with ensures"][0], d["functions"][1], d["with ensures"][1]), ""]
    out += ["The same but for the names of types in the table above:", ""] + listed(same)
    out += ["`-> u8`, a refusal's number or 0, is `-> Result<(), Reason>`, all else the same:", ""] + listed(judged) + ["The others:", ""]
    for (old, new), names in rest.items():
        out += pair(", ".join(names), "`%s`" % old, "`%s`" % new)
    return out + [""]


def clauses(d):
    same, rest = [], []
    for row, old_r, old_e, new_r, new_e in d["contracts changed"]:
        texts = [[c[1] for c in part] for part in (old_r, old_e, new_r, new_e)]
        if alike(texts[0], texts[2]) and alike(texts[1], texts[3]):
            same.append(place(row))
        else:
            said = [" ".join("%s %s" % (w, " and ".join("`%s`" % " ".join(t.split()) for t in p)) for w, p in (("requires", r), ("ensures", e)) if p) for r, e in ((texts[0], texts[1]), (texts[2], texts[3]))]
            rest += pair("`%s: %s`" % place(row), *said)
    out = ["### Functions: clauses", "", "`result ≡ x`, where `result` was a refusal's number, is `refused_by result ≡ x`, and a parameter that was one, as `number`, is `refused_by judged`; a name of the table above is the new one:", ""]
    out += listed(same) + ["The others:", ""] + rest + ["", "### Functions that are not found again", ""]
    out += listed((row.split(" ")[0], row.split(" ")[2]) for row in d["functions not found again"])
    return out + ["No longer `pub`: " + ", ".join("`%s`" % x for x in d["no longer pub"]), ""]


def compared(old, new, elsewhere):
    """The same, laws whose proof alone differs, alike and other definitions, alike and other laws, and what went."""
    same, proofs, alikes, others, laws, other_laws, gone = 0, 0, [], [], [], [], []
    for (crate, name), was in old.items():
        now = new.get((crate, name)) or elsewhere.get((crate, name)) or next((v for (_, n), v in list(new.items()) + list(elsewhere.items()) if n == name), None)
        if now is None:
            gone.append((crate, name))
        elif was == now:
            same += 1
        else:
            law = is_law(was[0])
            a, b = ([statement(t, name) for t in was], [statement(t, name) for t in now]) if law else (was, now)
            if law and a == b:
                proofs += 1
            elif alike(a, b):
                (laws if law else alikes).append((crate, name))
            else:
                (other_laws if law else others).append((crate, name, a, b))
    return same, proofs, alikes, others, laws, other_laws, gone


def texts(rows):
    return [line for crate, name, old, new in rows for line in pair("%s `%s`" % (crate, name), quoted(old), quoted(new))] + [""]


def main(tool, old, new):
    spec = importlib.util.spec_from_file_location("contracts", tool)
    contracts = importlib.util.module_from_spec(spec)
    spec.loader.exec_module(contracts)
    d = json.loads(subprocess.run([sys.executable, tool, old, new, "--json"], capture_output=True, text=True).stdout)
    out = signatures(d) + clauses(d)
    specs, proofs = [[definitions(contracts, root, folder) for root in (old, new)] for folder in ("specs", "proofs")]
    same, only_proofs, alikes, others, laws, other_laws, gone = compared(specs[0], specs[1], proofs[1])
    differ = only_proofs + len(alikes) + len(others) + len(laws) + len(other_laws)
    out += ["### Definitions, invariants and types of specs/", "", "%d definitions and laws are the same, %d differ; where only a case or a type has another name, or a number stands as the reason of it, the meaning is the one above it. Laws whose proof alone differs: %d." % (same, differ, only_proofs), ""]
    out += ["The same but for the names of cases and types in the table above:", ""] + listed(alikes) + ["The others:", ""] + texts(others)
    out += ["### Laws of specs/ whose statement is spelt otherwise", "", "The same but for those names:", ""] + listed(laws) + ["The others:", ""] + texts(other_laws)
    out += ["### Definitions and laws of specs/ that went", ""] + listed(gone)
    same, only_proofs, alikes, others, laws, other_laws, gone = compared(proofs[0], proofs[1], specs[1])
    out += ["### Laws of proofs/", "", "%d statements are the same." % (same + only_proofs), "", "The same but for those names:", ""] + listed(alikes + laws)
    out += ["The others:", ""] + texts(others + other_laws)
    out += ["Not found again: " + ", ".join("%s `%s`" % x for x in gone), ""]
    out += ["New: " + ", ".join("%s `%s`" % x for x in proofs[1] if x not in proofs[0] and x not in specs[0]), "", "### Edits whose text changed", ""]
    for crate, file, was, now in d["edits and outputs"]["changed"]:
        out += pair("%s `%s`" % (crate, file), "`%s`" % was, "`%s`" % now)
    print("\n".join(out))


if __name__ == "__main__":
    main(*sys.argv[1:4])
