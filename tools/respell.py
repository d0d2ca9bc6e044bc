#!/usr/bin/env python3
"""Spells the repository's own definitions and lemmas as today's Rattle does: words in snake case, `add_one` for `add-one` and `addOne`.

usage: python3 tools/respell.py [--check]

It was run once, right after the change to today's Rattle, and is kept for those who compare with what came before. It reads what the .antt files of crates/
declare, and turns those names there, in the clauses of the .rt files, in the must-fail edits, and in the code spans of README.md and docs/.
A dash stays between a definition and a word on lists or numbers, as in `count-append`, and behind the name of a definition of several words. Two names that would fall together
stay apart by `_lem` on the lemma's. Types, modules, the functions of src/ and names of std stay. --check prints the table and writes nothing.
"""
import glob
import re
import sys

TOKEN = r"[^\s(){}.;,@\"«»`]+"
SIGNATURE = re.compile(r"^( *)((?:abbrev |unfoldable |pub |data |record )*)(%s)(?= |$)" % TOKEN)
NOT_NAMES = ("use", "module", "let", "elim", "in", "where", "mutual", "unfolding", "ghost", "open", "|", "λ", "[", "×")
WORDS = {"append", "set", "length", "cons", "map", "take", "drop", "reverse", "sum", "head", "tail", "add", "mul", "sub", "min", "max", "get_or", "snoc", "replicate"}
OUTSIDE = re.compile(r"^ *(?:pub )?use ((?!Rattle\.)%s(?:\.%s)*|Rattle\.(?:std|core|check|io|libc)(?:\.%s)*)\.\{([^}]*)\}" % (TOKEN, TOKEN, TOKEN), re.M)
OURS = re.compile(r"^ *(?:pub )?(?:ghost )?use Rattle\.(?!std\.|core\.|check\.)(%s(?:\.%s)*)\.\{([^}]*)\}" % (TOKEN, TOKEN), re.M)


# Aliases and variables, which have no signature of their own.
LOCAL = {
    "NO-STATE": "no_state", "use-final": "use_final", "keptPlace": "kept_place", "entryBy": "entry_by", "costsFor": "output_costs", "placesFor": "places_for",
    "sameEntry": "same_entry", "rankedSeq": "ranked_seq", "rankedRank": "ranked_rank", "headsOf": "all_heads", "rankedTokens": "ranked_tokens",
    "listWords": "output_words", "historyKey": "history_key", "listPlaces": "output_places",
}


# What a definition is called whose name in snake case is a lemma's or a field's elsewhere.
INSTEAD = {
    "arc_on_lem": "arc_onto",
    "link_on_lem": "link_onto",
    "cut_off_lem": "past_cutoff",
    "words_on_lem": "words_along",
    "in_hand_lem": "path_in_hand",
    "per_state_lem": "for_states",
    "per_record_lem": "for_records",
    "per_kept_lem": "for_kept",
    "by_own_lem": "by_own_head",
    "counts_at_lem": "counts_in_place",
    "expand_by_lem": "expand_arc_by",
    "join_put_lem": "join_written",
    "link_put_lem": "link_written",
    "kept_before_lem": "kept_is_before",
    "kept_from_lem": "kept_starts_from",
    "kept_in_lem": "kept_read_in",
    "kept_is_lem": "kept_found",
    "look_by_lem": "look_arc_by",
    "own_left_lem": "own_still_left",
    "part_to_lem": "part_up_to",
    "state_in_lem": "state_among",
    "step_by_lem": "step_arc_by",
    "token_is_lem": "token_itself",
    "was_there_lem": "was_present",
}


def antt_files():
    return sorted(glob.glob("crates/*/specs/**/*.antt", recursive=True) + glob.glob("crates/*/proofs/**/*.antt", recursive=True))


def of_a_function(path):
    return re.search(r"/proofs/.*/(Proof|Answers|Invariants)\.antt$", path) is not None


def declared():
    """The names that specs and lemma files declare, each with whether it is a definition."""
    names = {}
    for path in antt_files():
        if of_a_function(path):
            continue
        inside = False
        for line in open(path, encoding="utf-8"):
            if line.lstrip().startswith("--"):
                continue
            m = SIGNATURE.match(line)
            if not m or m[3] in NOT_NAMES:
                continue
            rest = line[m.end():]
            if "record " in m[2] or "data " in m[2]:
                inside = True
                names[m[3]] = True
                continue
            if not m[1]:
                inside = False
            if not re.match(r"\s*(:|[({])", rest) or ":" not in rest or "=" in rest.split(":")[0]:
                continue
            marked = bool(re.search("abbrev|unfoldable", m[2])) or inside
            names[m[3]] = names.get(m[3], False) or marked
    return names


def snake(word):
    return re.sub(r"(?<=[a-z0-9])([A-Z])", lambda m: "_" + m[1].lower(), word)


def camel(word):
    return re.match(r"^[a-z][a-z0-9]*[A-Z]", word) is not None


def table():
    names = declared()
    definitions = {n for n, is_definition in names.items() if is_definition and "-" not in n}
    to = {}
    for name in sorted(names):
        if not re.match(r"^[A-Za-z]", name) or not (camel(name) or "-" in name):
            continue
        parts = name.split("-")
        head = parts[0]
        new = snake(head) if camel(head) else head
        behind_definition = head in definitions and (camel(head) or re.match(r"^[A-Z]", head) or "_" in head)
        for i, part in enumerate(parts[1:]):
            both = (head in definitions) and part in WORDS and len(parts) == 2
            dash = "-" if both or (i == 0 and behind_definition) else "_"
            new += dash + (snake(part) if camel(part) else part)
        if re.search(r"[A-Z]", head[:1]) and "-" in name and new[len(head)] == "_":
            new = head + "-" + new[len(head) + 1:]
        to[name] = new
    taken = set(names) | WORDS
    for name in sorted(to):
        # A definition whose name a lemma has keeps it, and the lemma gives way.
        if names[name] and to[name] in names and not names[to[name]] and to[name] not in to:
            to[to[name]] = to[name] + "_lem"
            taken.discard(to[name])
    used = {}
    for name in sorted(to, key=lambda n: (not names[n], n)):
        new = to[name]
        while (new in taken and new != name) or new in used:
            new += "_lem"
        to[name] = new
        used[new] = name
    return {a: INSTEAD.get(b, b) for a, b in to.items() if a != b} | LOCAL


def imported(text, pattern):
    out = set()
    for m in pattern.finditer(text):
        if re.search(r"\.(Tie|Statement|Goals|Given)$", m[1]):
            continue
        out |= {it.split(" as ")[0].strip() for it in m[2].split(",")}
    return out


def in_antt(text, to, of_function):
    outside = imported(text, OUTSIDE)
    ours = imported(text, OURS)

    def one(m):
        token, before = m[0], m.string[max(0, m.start() - 1):m.start()]
        if token not in to or (token in outside and token not in ours):
            return token
        if of_function and token not in ours and not (camel(token) and "-" not in token):
            return token
        if before == "." and not camel(token) and "-" in token and of_function:
            return token
        return to[token]

    def code(line):
        return line if line.lstrip().startswith("--") else re.sub(TOKEN, one, line)

    def comment(line):
        return re.sub(r"`([^`\n]+)`", lambda m: "`" + re.sub(TOKEN, one, m[1]) + "`", line) if line.lstrip().startswith("--") else line

    return "\n".join(comment(code(it)) for it in text.split("\n"))


CLAUSE = re.compile(r"(?<![\w`])(?:requires|ensures|ghost)\*?(?: \w+:?)? ?\{")


def in_rt(text, to):
    """The clauses and the ghost use items."""
    outside = set()
    for m in re.finditer(r"ghost use (?:Rattle\.(?:std|core|check|io|libc)|(?!Rattle\.)\w+)[\w.·]*\.\{([^}]*)\}", text):
        outside |= {it.split(" as ")[0].strip() for it in m[1].split(",")}

    def one(m):
        return m[0] if m[0] in outside else to.get(m[0], m[0])

    out, at = [], 0
    spans = [(m.start(), text.index(";", m.start())) for m in re.finditer(r"(?m)^ *ghost use Rattle\.(?!std\.|core\.|check\.)", text)]
    for m in CLAUSE.finditer(text):
        depth, end = 1, m.end()
        while depth:
            depth += {"{": 1, "}": -1}.get(text[end], 0)
            end += 1
        spans.append((m.end(), end))
    for start, end in sorted(spans):
        if start < at:
            continue
        out += [text[at:start], re.sub(TOKEN, one, text[start:end])]
        at = end
    out.append(text[at:])
    text = "".join(out)
    return re.sub(r"(?m)^( *//[^\n]*)$", lambda m: re.sub(r"`([^`\n]+)`", lambda s: "`" + to.get(s[1], s[1]) + "`", m[1]), text)


def in_edit(text, to):
    def line(it):
        if it.startswith(("old:", "new:")):
            return it[:4] + re.sub(TOKEN, lambda m: to.get(m[0], m[0]) if camel(m[0]) or "-" in m[0] else m[0], it[4:])
        return it

    return "\n".join(line(it) for it in text.split("\n"))


def in_md(text, to):
    return re.sub(r"`([^`\n]+)`", lambda s: "`" + re.sub(TOKEN, lambda m: to.get(m[0], m[0]), s[1]) + "`" if "/" not in s[1] else s[0], text)


def main(argv):
    to = table()
    if "--check" in argv:
        print("\n".join(f"{a}\t{b}" for a, b in sorted(to.items())))
        return
    work = [(p, lambda t, p=p: in_antt(t, to, of_a_function(p))) for p in antt_files()]
    work += [(p, lambda t: in_rt(t, to)) for p in sorted(glob.glob("crates/*/src/**/*.rt", recursive=True))]
    work += [(p, lambda t: in_edit(t, to)) for p in sorted(glob.glob("crates/*/must-fail/*.edit"))]
    work += [(p, lambda t: in_md(t, to)) for p in ["README.md"] + sorted(glob.glob("docs/**/*.md", recursive=True))]
    for path, turn in work:
        with open(path, encoding="utf-8") as f:
            old = f.read()
        new = turn(old)
        if new != old:
            with open(path, "w", encoding="utf-8") as f:
                f.write(new)


main(sys.argv[1:])
