#!/usr/bin/env python3
"""Names that were changed, and the change itself: crates, modules, files of definitions and laws, and words.

    tools/renames.py tree [GROUP...]     change this repository, its folders and files too
    tools/renames.py patch < OLD > NEW   turn a patch that was made before

A group is a name of GROUPS below; without one, all are taken, in their order. A patch is turned whole, the names of its files too."""
import pathlib
import re
import subprocess
import sys

# Crates: old name, new name. `readback` and `passes` are one crate now.
CRATES = [
    ("own", "check_keys"),
    ("audit", "check_table"),
    ("memory", "build_memory"),
    ("whole", "build_rules"),
    ("tables", "build_tables"),
    ("build", "build_values"),
    ("nest", "build_nested"),
    ("order", "write_order"),
    ("roster", "write_numbers"),
    ("lay", "write_bytes"),
    ("readback", "laid"),
    ("passes", "laid"),
]


class Rule:
    """A pattern and what stands in its place, in the files of some crates (None: everywhere). With `code`, comments are left alone."""

    def __init__(self, pattern, new, crates=None, code=False):
        self.pattern, self.new, self.crates, self.code = re.compile(pattern, re.M), new, crates, code

    def holds(self, path):
        crate = re.match(r"crates/(\w+)/", path)
        return self.crates is None or bool(crate and crate[1] in self.crates)

    def on(self, text):
        if not self.code:
            return self.pattern.sub(self.new, text)
        comment = re.compile(r"[+ -]?\s*(--|//)")
        return "".join(line if comment.match(line) else self.pattern.sub(self.new, line) for line in text.splitlines(True))


def crate(old, new):
    """The places where a crate's name stands: its folder, antt's and Rattle's paths, code in documents."""
    return [
        Rule(rf"(?<![\w])crates/{old}(?=[/`\s])", f"crates/{new}"),
        Rule(rf"Rattle·{old}(?=[.·])", f"Rattle·{new}"),
        Rule(rf"(?<![\w:]){old}::(?=[A-Za-z])", f"{new}::"),
        Rule(rf"(?<=calls-){old}(?=·)", new.replace("_", "-")),
    ]


def module(name, old, new):
    """A module of a crate: its file, its proofs' folder, and every path to it."""
    return [
        Rule(rf"(?<=crates/{name}/src/){old}(?=\.rt)", new),
        Rule(rf"(?<=crates/{name}/proofs/){old}(?=/)", new),
        Rule(rf"(?<=file: src/){old}(?=\.rt)", new, {name}),
        Rule(rf"(?<=crate::){old}(?=::)", new, {name}),
        Rule(rf"(?<=\bmod ){old}(?=;)", new, {name}),
        Rule(rf"(?<![\w]){name}::{old}(?=\b)", f"{name}::{new}"),
        Rule(rf"(?<=Rattle·{name}·proofs\.proofs\.){old}(?=\.)", new),
        Rule(rf"(?<=Rattle·{name}·specs\.specs\.declared\.){old}(?=\.)", new),
        Rule(rf"(?<=Rattle·{name}\.specs\.declared\.){old}(?=\.)", new),
        Rule(rf"(?<=Rattle·{name}\.proofs\.){old}(?=\.)", new),
    ]


def page(name, folder, old, new):
    """A file of definitions (specs) or of laws (proofs)."""
    return [
        Rule(rf"(?<=crates/{name}/{folder}/){old}(?=\.antt)", new),
        Rule(rf"(?<=file: {folder}/){old}(?=\.antt)", new, {name}),
        Rule(rf"(?<=Rattle·{name}·{folder}\.{folder}\.){old}(?=[.\s]|$)", new),
        Rule(rf"(?<=Rattle·{name}\.{folder}\.){old}(?=[.\s]|$)", new),
        Rule(rf"(?<=^pub mod ){old}$", new, {name}),
    ]


def exact(old, new, crates=None):
    """A whole name. One that is an English word too is left alone in comments."""
    return [Rule(rf"(?<![\w′'-]){re.escape(old)}(?![\w-])", new, crates, code=old.isalpha() and old.islower())]


def part(old, new, crates=None):
    """A word between the hyphens of a law's name or of a path into a proof's context."""
    return [Rule(rf"(?<=[\w′]-){old}(?![\w′])|(?<![\w′'-]){old}(?=-[\w])", new, crates, code=True)]


def function(old, new, crates=None):
    """A function: its name, its proof's folder and the names that the prover makes of it."""
    kebab = [text.replace("_", "-") for text in (old, new)]
    return [Rule(rf"(?<![\w]){old}(?![\w])", new, crates), Rule(rf"(?<![A-Za-z0-9′]){kebab[0]}(?![A-Za-z′])", kebab[1], crates)]


def apart(old, new, module, pages):
    """A module that went to a crate of its own with its files of definitions and laws: paths, and names seen from other crates. A name that stands inside
    the old crate (`Rattle·old·specs.specs`) is left: in the new crate it is the crate's own, elsewhere another's."""
    pages = "|".join(pages)
    return [
        Rule(rf"(?<![\w])crates/{old}/(?=src/{module}\.rt|proofs/{module}/|(?:specs|proofs)/(?:{pages})\.antt)", f"crates/{new}/"),
        Rule(rf"Rattle·{old}\.(?=proofs\.{module}\.|(?:specs|proofs)\.(?:{pages})\b)", f"Rattle·{new}."),
        Rule(rf"(?<![\w:]){old}::(?={module}::)", f"{new}::"),
        Rule(rf"(?<=calls-){old}(?=·{module}·)", new.replace("_", "-")),
    ]


CHECK = {"check_keys", "check_table"}
MEMORY = {"build_memory", "build_rules", "build_tables", "build_values", "build_nested", "history", "write", "write_numbers", "write_order"}
WRITE = {"write", "write_numbers", "write_bytes", "write_order"}
LAID = WRITE | {"image", "laid", "demands"}

GROUPS = {f"crate-{old}": crate(old, new) for old, new in CRATES}
GROUPS["crate-views"] = apart("view", "view_part", "part", ["Part", "PartLaws"]) + apart("view", "view_through", "through", ["Through", "ThroughLaws"])

# Crates that an edit proves anew are small: these went apart from larger ones.
GROUPS["crate-apart"] = (
    apart("words", "key_hash", "hash", ["Hash", "HashLaws"])
    + apart("text", "key_order", "(?:compare|keyorder|prefix)", ["Compare", "Order", "Prefix", "CompareLaws", "OrderLaws", "PrefixLaws"])
    + apart("layout", "file_header", "header", ["Header", "HeaderLaws", "HeaderReads"])
    + apart("read", "read_chain", "chain", ["Chain", "ChainLaws", "MatchLaws"])
    + apart("read", "read_find", "(?:find|manner)", ["Find", "FindLaws"])
    + apart("check_table", "check_rules", "(?:bits|rules|survey)", ["Bits", "Rules", "Broken", "Survey", "BitsLaws", "KeyText", "RuleLaws", "KeepLaws", "ChildLaws", "SurveyLaws"])
    + apart("write_bytes", "write_parts", "(?:numbered|put|slot)", ["Numbered", "Slot", "KindLaws", "SlotLaws", "PutLaws", "FilterLaws"])
    + apart("write", "write_slots", "(?:children|numbered|slot)", ["NumberedAs", "StateLaws", "SiblingLaws", "SlotLaws", "RosterLaws", "TurnLaws", "ItemLaws", "PlanLaws"])
    + apart("view_through", "view_layered", "layered", ["LayeredLaws"])
    + apart("check_keys", "check_hash", "tally", ["Tally", "Key", "TallyLaws", "KeyLaws"])
    + apart("gvdb", "answers", "manner", ["Checking", "Header", "Manner", "Reading", "Worked"])
    + apart("gvdb", "answers_build", "(?:building|writing)", ["Building", "Writing"])
)

# An item's own key is its joined key.
GROUPS["joined-key"] = (
    function("own_key", "joined_key", CHECK)
    + function("find_own", "find_joined", CHECK)
    + function("own_matches", "joined_matches", CHECK)
    + exact("ownKey", "joinedKey", CHECK)
    + exact("ownFrom", "joinedFrom", CHECK)
    + exact("Own", "JoinedKey", CHECK)
    + exact("joined-own", "joined-there", {"check_table"})
    + part("own", "joined", CHECK)
    + [Rule(r"(?<![\w-])own-parent(?![A-Za-z])", "self-parent")]
    + page("read", "proofs", "OwnParent", "SelfParent")
    + exact("ownParent", "selfParent")
    + part("own", "its", {"history", "build_memory", "demands"})
    + part("own", "one", {"build_rules"})
)

# A place in a joined key is the front that is left of it.
GROUPS["front"] = (
    module("check_keys", "place", "front")
    + page("check_keys", "specs", "Place", "Front")
    + page("check_keys", "proofs", "PlaceLaws", "FrontLaws")
    + exact("frontOf", "frontBytes", CHECK)
    + exact("Placed", "FrontFits", {"check_keys"})
    + exact("Place", "Front", {"check_keys"})
    + exact("placeAt", "frontAt", {"check_keys"})
    + function("place_at", "front_at", {"check_keys"})
    + exact("place", "front", {"check_keys"})
    + exact("placed", "fitting", {"check_keys"})
    + part("placed", "fitting", {"check_keys"})
    + part("place", "front", {"check_keys"})
)

# The check's bits are bits, and the walk that sets them is a survey.
GROUPS["bits"] = (
    module("check_table", "marks", "bits")
    + page("check_table", "specs", "Marks", "Bits")
    + page("check_table", "proofs", "MarksLaws", "BitsLaws")
    + function("is_marked", "has_bit", {"check_table"})
    + function("set_mark", "set_bit", {"check_table"})
    + function("mark_all", "survey_all", {"check_table"})
    + function("mark_children", "survey_children", {"check_table"})
    + function("mark_child", "survey_child", {"check_table"})
    + function("mark_container", "survey_container", {"check_table"})
    + function("check_marked", "check_surveyed", {"check_table"})
    + exact("withMark", "withBit", {"check_table"})
    + exact("marked", "hasBit", {"check_table"})
    + exact("Marking", "Surveying", {"check_table"})
    + exact("marks", "bits", {"check_table"})
    + [Rule(r"(?<![\w-])marks₀", "bits₀", {"check_table"})]
    + exact("bit-same", "one-bit-same", {"check_table"})
    + exact("bit-other", "one-bit-other", {"check_table"})
    + part("marks", "bits", {"check_table"})
    + part("marked", "bit-set", {"check_table"})
    + part("mark", "bit", {"check_table"})
    + exact("unmarked", "no-bit", {"check_table"})
)

# Memory is valid, and fully valid where a write judges it; a table that passes the check is sound. A function is named by what it decides.
GROUPS["valid"] = (
    exact("wholeSound", "fullyValid")
    + exact("insertSound", "insertAtKey")
    + function("insert_sound", "insert_at_key")
    + exact("tableSound", "nestAtKey", MEMORY | {"demands"})
    + function("table_sound", "nest_at_key", {"build_nested"})
    + exact("insertWalked", "insertBelowPath")
    + function("insert_walked", "insert_below_path")
    + exact("insertAlong", "insertOrReplace")
    + function("insert_along", "insert_or_replace")
    + function("judge_whole", "judge_fully")
    + page("build_rules", "specs", "Whole", "Valid")
    + page("build_rules", "proofs", "WholeLaws", "ValidLaws")
    + page("build_rules", "proofs", "WholeFacts", "ValidFacts")
    + exact("sound-memory", "valid-memory")
    + exact("Sound", "Valid", MEMORY)
    + exact("sound", "valid", MEMORY | {"demands"})
    + part("sound", "valid", MEMORY)
    + part("unsound", "invalid", MEMORY)
    + exact("reached-sound", "reached-valid")
    + exact("sound-facts", "valid-facts")
    + exact("sound-holds", "valid-holds")
    + exact("honest-sound", "honest-valid")
    + exact("placeRight", "rangesValid")
    + function("place_right", "ranges_valid", {"build_rules"})
    + exact("keyRight", "keyValid")
    + function("key_right", "key_valid", {"build_rules"})
    + exact("parentRight", "parentValid")
    + function("parent_right", "parent_valid", {"build_rules"})
    + exact("guestRight", "guestValid")
    + function("guest_right", "guest_valid", {"build_rules"})
    + exact("itemRight", "itemValid")
    + function("items_right", "items_valid", {"build_rules"})
    + function("item_right", "item_valid", {"build_rules"})
    + exact("kindRight", "kindValid")
    + exact("hashRight", "hashValid")
    + exact("valuePlaced", "valueWithin")
    + function("value_placed", "value_within", {"build_rules"})
    + exact("keyPlaced", "keyWithin")
    + exact("right-place", "ranges-of")
    + part("place", "ranges", {"build_rules"})
    + exact("item-misplaced", "item-out-of-range", {"build_rules"})
    + exact("right", "valid", {"build_rules"})
    + part("right", "valid", {"build_rules"})
    + exact("right-guest", "valid-guest")
    + exact("right-key", "valid-key")
    + exact("right-parent", "valid-parent")
    + exact("whole-right", "fully-valid", {"write"})
)

# What holds of every builder that a history reaches is that it is consistent; right is a side.
GROUPS["consistent"] = (
    page("history", "specs", "Right", "Consistent")
    + page("history", "proofs", "Right", "Consistent")
    + exact("Right", "Consistent", {"history"})
    + exact("right", "consistent", {"history"})
    + exact("right′", "consistent′", {"history"})
    + part("right", "consistent", {"history"})
)

# A table that is known and not placed is free-standing; a root is an item without parent.
GROUPS["free-standing"] = (
    exact("takes", "freeStanding", MEMORY | {"model", "demands", "gvdb"})
    + function("takes_items", "is_free_standing")
    + part("takes", "free-standing", MEMORY | {"demands"})
    + exact("isRoot", "freeStanding", {"write", "demands"})
    + function("is_root", "is_free_standing", {"write"})
    + exact("rootAnswer", "tableAnswer", {"write"})
    + exact("FromRoot", "FromTable", {"write"})
    + exact("root-known", "free-known", {"write"})
    + exact("root-unknown", "free-unknown", {"write"})
    + exact("root-below", "free-below", {"write"})
    + exact("root-empty", "table-empty", {"write"})
    + exact("root-sheet", "table-numbered", {"write"})
    + function("write_root", "index_and_write", {"write"})
    + function("write_with", "write_unless_empty", {"write"})
    + [Rule(r"slice-write-sheet", "slice-write-numbered", {"write"})]
    + function("write_sheet", "write_if_fits", {"write"})
    + exact("sheetAnswer", "fitAnswer", {"write"})
    + exact("RootsWritable", "FreeStandingWritable", {"demands"})
    + exact("root-writable", "free-standing-writable", {"demands"})
)

# A new table is added and has a number; what is laid for it is by index.
GROUPS["added"] = (
    exact("Numbered", "Added", MEMORY | {"model", "demands", "gvdb", "worked", "replay"})
    + exact("numberedNumber", "addedNumber")
    + exact("numberedTable", "addedTable")
    + exact("numberedAnswer", "addedAnswer")
    + exact("unnumbered", "notAdded")
    + exact("alike-unnumbered", "alike-not-added")
)

# Bytes spell a number, little endian.
GROUPS["little-endian"] = (
    exact("number", "littleEndian", {"words"})
    + exact("number-spelled", "little-endian-spelled")
    + exact("number-below", "little-endian-below", {"words"})
    + exact("numbers-same", "little-endian-same")
    + exact("same-numbers", "same-little-endian", {"text"})
)

# An item has an index, in a file and in an image; its place in key order is a rank; where its key or its value starts is an offset.
GROUPS["index"] = (
    page("image", "specs", "Number", "Index")
    + page("image", "specs", "Numbering", "Indexing")
    + page("image", "proofs", "NumberLaws", "IndexLaws")
    + module("write_order", "number", "buckets")
    + exact("numberOf", "laidIndex", LAID)
    + exact("byNumber", "byIndex", LAID)
    + exact("parentNumber", "parentIndex", LAID)
    + exact("numbered", "byBucket", {"image", "laid", "write_order", "write_numbers", "write"})
    + exact("Numbering", "Indexing", {"image"})
    + exact("itemNumber", "itemIndex", WRITE)
    + exact("numbersFrom", "indicesFrom", WRITE)
    + exact("numbersPut", "indicesPut", WRITE)
    + function("number_all", "index_all", WRITE)
    + function("number_items", "index_items", WRITE)
    + function("number_links", "index_links", WRITE)
    + function("number_run", "index_run", WRITE)
    + function("number_table", "index_table", WRITE)
    + [
        Rule(r"(?<=pub fn )number(?=\()", "index_by_bucket", {"write_order"}),
        Rule(r"(?<=buckets::)number(?=[;:(`])", "index_by_bucket"),
        Rule(r"(?<=proofs\.buckets\.)number(?=\.)", "index_by_bucket", {"write_order"}),
        Rule(r"(?<=proofs/buckets/)number(?=/)", "index_by_bucket"),
        Rule(r"(?<=^    )number(?=\()", "index_by_bucket", {"write_numbers", "write"}),
        Rule(
            r"(?<=Need-)number(?=-requires)|(?<![\w-])number(?=-requires|-spec)|(?<=slice-aggregate-)number(?=$|[\s:)]|-2)|(?<=\.)number(?= \.ensures)",
            "index-by-bucket",
            {"write_numbers", "write", "write_order"},
        ),
    ]
    + exact("numbers", "indices", {"write_order", "write_numbers"})
    + [Rule(r"(?<![\w-])numbers(?=[′₀])", "indices", {"write_order", "write_numbers"})]
    + part("numbers", "indices", LAID - {"demands", "write_bytes"})
    + part("numbered", "indexed", LAID - {"demands", "write_bytes"})
    + part("number", "index", LAID - {"demands", "write_bytes"})
    + exact("Laid", "IndexedAs", {"write_numbers"})
    + part("laid", "indexed-as", {"write_numbers"})
    + exact("own", "ofTable", {"write_numbers"})
    + exact("owned", "allOfTable", {"write_numbers"})
    + page("write_numbers", "proofs", "OwnLaws", "OfTableLaws")
    + part("own", "of-table", {"write_numbers"})
    + part("owned", "all-of-table", {"write_numbers", "demands"})
    + exact("slotOf", "firstSlotOf", {"write_numbers"})
)
GROUPS["rank-and-offset"] = (
    exact("placesBefore", "ranksBefore", {"image"})
    + exact("places-each", "ranks-each")
    + exact("places-descend", "ranks-descend", {"image"})
    + exact("valuePlace", "valueOffset", {"laid"})
    + part("place", "offset", {"laid", "write_bytes"})
    + exact("place-fits", "offset-fits", {"image"})
    + exact("place-zero", "offset-zero", {"image"})
    + exact("place-rises", "offset-rises", {"image"})
    + exact("place-next", "offset-next", {"image"})
    + exact("place-once", "offset-once", {"image"})
    + exact("place-same", "offset-same", {"image"})
)
GROUPS["pointer"] = (
    exact("openedPlace", "openedPointer")
    + function("opened_place", "opened_pointer")
    + exact("placeStart", "pointerStart")
    + exact("placeEnd", "pointerEnd")
    + function("place_start", "pointer_start")
    + function("place_end", "pointer_end")
    + exact("atPlace", "atLooked", {"view", "view_through"})
    + exact("lookedPlace", "lookedPointer")
    + exact("valuedPlace", "valuedPointer")
    + [Rule(r"(?<=Looked[.:])(:?)Place\b", r"\1Pointer"), Rule(r"^    Place(?= \{ start: u32)", "    Pointer", {"read"})]
    + exact("value-placed", "value-pointer", {"read"})
    + exact("nested-placed", "nested-pointer", {"read"})
)

# The array that a write lays from is the numbered table; the children of one parent are siblings.
GROUPS["numbered-table"] = (
    page("write_bytes", "specs", "Sheet", "Numbered")
    + module("write_bytes", "sheet", "numbered")
    + page("write", "specs", "Sheeted", "NumberedAs")
    + page("write", "proofs", "SheetLaws", "NumberedLaws")
    + page("write", "proofs", "KinLaws", "SiblingLaws")
    + exact("Sheeted", "NumberedAs", {"write"})
    + exact("SlotSheet", "NumberedSlots", {"write"})
    + exact("StartSheet", "NumberedStart", {"write"})
    + exact("ChildSheet", "NumberedChildren", {"write"})
    + exact("FromSheet", "FromNumbered", {"write"})
    + exact("SheetFits", "NumberedFits", WRITE)
    + [Rule(r"\bsheet(?=Bytes\b|Image\b|Plan\b|Size\b|Tables\b|Slots\b)", "numbered", WRITE)]
    + function("fill_sheet", "fill_numbered", {"write"})
    + function("start_sheet", "start_numbered", {"write"})
    + exact("sheet", "numbered", WRITE)
    + [Rule(r"(?<![\w-])sheet(?=₀)", "numbered", WRITE)]
    + exact("sheeted", "numbered-as", {"write"})
    + part("sheet", "numbered", WRITE)
    + exact("Kin", "Siblings", {"write"})
    + exact("kin", "siblings", {"write"})
    + function("order_kin", "order_siblings", {"write"})
    + part("kin", "siblings", {"write"})
    + exact("kids", "childItems", {"write"})
    + part("kids", "child-items", {"write"})
)
GROUPS["standing"] = (
    exact("Shelf", "Standing")
    + exact("noShelf", "noStanding")
    + exact("shelfAt", "standingAt")
    + exact("shelfOf", "standingOf")
    + exact("shelfFrom", "standingFrom", {"history"})
    + exact("shelf", "standing", {"history"})
    + part("shelf", "standing", {"history"})
)
GROUPS["extended"] = (
    exact("Laid", "Extended", {"build_values", "history"})
    + exact("laid", "extended", {"build_values", "history"})
    + exact("laid-entries", "extended-entries", {"history"})
)
GROUPS["build-fields"] = (
    module("build_memory", "place", "fields")
    + exact("Place", "NewItem", {"build_memory", "build_values"})
    + [Rule(r"(?<![\w.-])place(?=[:,;)]| =|\.| \.)", "new", {"build_memory", "build_values"}, code=True)]
    + exact("by-place", "by-field")
)

# The laws of every history: a page is named by its subject.
GROUPS["history-pages"] = [
    rule
    for old, new in [
        ("Bytes", "Utf8Bytes"),
        ("Index", "TidySearch"),
        ("Made", "TidyMade"),
        ("Replaced", "TidyReplaced"),
        ("Low", "TidyTables"),
        ("Way", "WayDown"),
        ("Grow", "GoodContainers"),
        ("Calls", "GoodInsert"),
        ("Value", "HonestCalls"),
        ("Nest", "HonestNesting"),
        ("Found", "ModelSearch"),
        ("Walking", "ModelWalk"),
        ("Same", "ModelSteps"),
        ("Alike", "ModelInsert"),
        ("Model", "ModelCalls"),
        ("Nested", "ModelNesting"),
        ("Others", "OtherTables"),
    ]
    for rule in page("history", "proofs", old, new)
]


def turned(text, path, groups):
    for group in groups:
        for rule in GROUPS[group]:
            if rule.holds(path):
                text = rule.on(text)
    return text


def tree(groups):
    root = pathlib.Path(__file__).resolve().parent.parent
    for name in subprocess.run(["git", "ls-files"], cwd=root, capture_output=True, text=True, check=True).stdout.splitlines():
        path = root / name
        if path.suffix not in {".rt", ".antt", ".md", ".edit"} or name.startswith("docs/CHANGES"):
            continue
        text = path.read_text()
        new = turned(text, name, groups)
        if new != text:
            path.write_text(new)
        moved = turned(name, name, groups)
        if moved != name:
            (root / moved).parent.mkdir(parents=True, exist_ok=True)
            subprocess.run(["git", "mv", name, moved], cwd=root, check=True)


def patch(text):
    """A patch, file by file: which rules hold depends on the file."""
    crates = [group for group in GROUPS if group.startswith("crate-")]
    rest = [group for group in GROUPS if not group.startswith("crate-")]
    for piece in re.split(r"(?m)^(?=diff --git )", text):
        piece = turned(piece, "", crates)
        name = re.match(r"diff --git a/(\S+)", piece)
        yield turned(piece, name[1] if name else "", rest)


if __name__ == "__main__":
    if sys.argv[1:2] == ["tree"]:
        tree(sys.argv[2:] or list(GROUPS))
    elif sys.argv[1:] == ["patch"]:
        sys.stdout.write("".join(patch(sys.stdin.read())))
    else:
        sys.exit(__doc__)
