//! What `--help` says.

pub const USAGE: &str = "\
gvdb: checks, lists, merges, dumps and builds GVDB files

    gvdb check FILE...               every table of each file: sound, or what is broken
    gvdb list FILE [PREFIX]          keys with kind and size
    gvdb tree FILE                   containers and nested tables, drawn
    gvdb get FILE KEY                one value, of a file or of a file over another
    gvdb diff A B                    in what two files differ, key by key
    gvdb same A B                    whether they are alike, by the exit status alone
    gvdb merge OWN OTHER -o OUT      both files' values into one; no value is lost unsaid
    gvdb dump FILE                   a file as lines of text
    gvdb build -o OUT                lines of text as a file
    gvdb COMMAND --help              more, with an example
    gvdb --version

Where a file is read, - is standard input. Keys are given as `gvdb list` prints them: a
backslash is \\\\, a tab \\t, a newline \\n, a return \\r, and a byte of any other control
character, or of one that is not seen, \\xHH. File names are printed so too.

The names in a file are found by a hash, of which there are two forms: in the plain one a
byte of a name counts 0 to 255, as in gvdb-rs, in the signed one -128 to 127, as in GLib and
dconf. They differ for names with letters above 127. Where a file is read, --form auto takes
the form in which its root table and those nested in it are sound, else that of the root
table, plain first; --form plain and --form signed name one. Files are written in the plain
form unless --form signed is given.

A table may have a filter, at which most lookups of keys that are not there end: build and
merge lay one where --bloom N is given, and only there. A lookup asks it for one bit, as in
gvdb-rs and GLib; with --strict for a second one too, by the table's first word. What --bloom
lays has both.

Exit status: 0 done; 1 the answer is no (not sound, no such key, not alike, a conflict, a
refusal); 2 bad usage, or something cannot be read or written.
";

pub const CHECK: &str = "\
gvdb check FILE... [--strict] [--form plain|signed|auto] [--json]

Checks each table of each file, nested ones too, against six rules: (1) the key of each
item reads, (2) a lookup of it finds the item, (3) its kind is known, (4) its value opens,
(5) a container's children are there, name it and stand once, (6) the parent of an item is
a container that lists it. Of a table that is not sound the first broken rule is told, as
soon as it is found; of rule 1 why the key does not read, and at which byte of its fragment
it is not UTF-8. A table that is sound in GLib's form of the hash alone is told so, and how
many filter words a table has. Exit status: 0 all sound, 1 one is not, 2 one cannot be read.

    --strict  judge rule 2 by the strict lookup, which asks a filter for two bits; what is sound
              so is sound without it too
    --form F  the form: plain, signed (GLib's), or auto as if not given; see gvdb --help
    --json    one list, with an object for each file; `why` and `at` are those of rule 1,
              `filter_words` is 0 for a table without a filter

    gvdb check owners/*.gvdb
";

pub const LIST: &str = "\
gvdb list FILE [PREFIX] [--values] [--table KEY]... [--form plain|signed|auto]
          [--no-check] [--json]

Lists the keys of the root table that start with PREFIX, in ascending order. The size is
in bytes for a value, in items for a table, and for a container in items right below it.
A key is printed so that it can be given back, here and to `gvdb get`: see gvdb --help.
A table that is not sound is listed as lookups answer, and it is said.

    --values      hex of values of at most 32 bytes, behind a TAB
    --table KEY   the nested table at KEY instead; again for one in that
    --form F      the form: plain, signed (GLib's), or auto as if not given; see gvdb --help
    --no-check    do not ask whether the table is sound, which can take long, nor for its
                  form: that is plain then, unless one is named
    --json        one object, with every byte of each value, and the number of filter words of
                  the table and of those nested in it

    gvdb list anna.gvdb /parcel/12/ --values
";

pub const TREE: &str = "\
gvdb tree FILE [--form plain|signed|auto] [--json]

Draws the containers and nested tables of a file, with the size of each value: below a
container its children, in stored order. Exit status 1 where a table is not sound: it is
drawn as far as it reads, and it is said; a child that is refused stands in its place, with
the number.

    --form F  the form: plain, signed (GLib's), or auto as if not given; see gvdb --help
    --json    one object; what is below an item is in its list `below`

    gvdb tree anna.gvdb
";

pub const GET: &str = "\
gvdb get FILE KEY [--under DISTRICT] [--table KEY]... [--strict]
         [--form plain|signed|auto] [--hex | --raw | --json]

Writes the value at KEY: its bytes as they are to a pipe or a file, hex to a terminal.
Keys are given as `gvdb list` prints them.

With --under, DISTRICT is asked where FILE has no such key, or no such table, and only there:
what FILE answers stands, a refusal too. Which file the value is from is told on standard
error, and a refusal names the file that refused. Both files have to be there, with a header.

    --under DISTRICT
                  the file under FILE
    --table KEY   look in the nested table at KEY, in each file; again for one in that
    --strict      look up KEY and the tables by the strict lookup, in each file; see gvdb --help
    --form F      the form: plain, signed (GLib's), or auto as if not given; see gvdb --help
    --hex, --raw  hex, or the bytes, wherever it goes
    --json        one object; with --under, `from` is own or under

    gvdb get anna.gvdb /parcel/12/year | xxd
    gvdb get anna.gvdb /parcel/14/owner --under district.gvdb
";

pub const DIFF: &str = "\
gvdb diff A B [--json]

Names every key that does not stand alike in both files, nested tables key by key: `only in
A`, `only in B`, `value` with both values where they differ, `kind` where one is a value, a
table or a container and the other is not, `order` where the children that a container has
in both are stored in another order. A count stands last. Both files have to pass the check.
Exit status: 0 alike, 1 not, 2 one cannot be read or is not sound.

    --json    one object, with every byte of the values

    gvdb diff anna.gvdb district.gvdb
";

pub const SAME: &str = "\
gvdb same A B

Whether two files are alike, as `gvdb diff` has it; nothing is printed.
Exit status: 0 alike, 1 not, 2 one cannot be read or is not sound.

    gvdb same anna.gvdb copy.gvdb && echo alike
";

pub const MERGE: &str = "\
gvdb merge OWN OTHER -o OUT [--keep own|other] [--decide FILE] [--base BASE] [--dry-run]
           [--report FILE] [--replace] [--without-containers] [--separator C|none]
           [--form plain|signed|auto] [--bloom N] [--json]

Writes the values of both files into OUT. Every key that stands in both is named with both
values. `same`: the values are equal, nothing is lost. `conflict`: they differ, or one is a
value and the other a table. A conflict refuses the merge and nothing is written, unless
--keep or --decide decides; what is dropped is named even then, with every byte, each value
of a dropped table too. Nested tables in both files are merged by the same rule. A container
holds nothing: a value or table stands against it, and what is below it stays. The children
of a container stand in OWN's order, behind them what is only in OTHER, in OTHER's.

With --base, what only one file changed or removed since BASE is no conflict: it is named
and done. What one changed and the other removed is a conflict. An empty BASE holds nothing.

All files have to pass the check. OUT is checked and read back before it is put in place,
and is there whole or not at all. Runs that write one file take turns; where another program
has changed OUT meanwhile, nothing is written. Files with big-endian values are merged only
with each other, and OUT is big-endian then. OUT holds at most 1,024 items (containers
included) in 64 tables, nested 8 deep, with keys of 1,024 bytes, in 16 MiB: else the merge
is refused. A word - for a file is standard input, or output (the report goes to standard
error then).

    -o OUT           the file to write; it may be OWN or OTHER
    --keep WHICH     own or other: which side of a conflict is kept
    --decide FILE    lines `own KEY` and `other KEY` decide conflicts, each for that key, or
                     for all below a key that ends in the separator or is a table's; the
                     nearest decides, --keep the rest. KEY is written as by `gvdb dump`, or
                     in quotes as in the report: a refused merge's report is such a file
                     once the sides that are not wanted are deleted from it
    --base BASE      the file that both come from
    --dry-run        tell the whole report and write nothing
    --report FILE    the report with every byte of each value; written for a refused merge too
    --replace        OUT or the report may be there: each value of the old OUT that the new
                     one does not have is named; a report replaces nothing but a report
    --without-containers
                     leave out containers that cannot be laid; the report names them
    --separator C    makes the containers of OUT; / if not given, none for no containers
    --form F         the form of OUT: plain if not given, signed (GLib's), or auto, OWN's; files
                     are read in the form in which they are sound
    --bloom N        give each table of OUT N filter words, 0 to 1,024; none if not given, and
                     the report notes which file had some
    --json           the report as one object

    gvdb merge anna.gvdb district.gvdb -o merged.gvdb --keep own --report merged.txt
";

pub const DUMP: &str = "\
gvdb dump FILE [--separator C|none] [--form plain|signed|auto] [--json]

Writes a file as lines, which `gvdb build` lays again: the keys ascend, but for the children
of a container, which stand in their order.

    key TAB hex                 a value of the root table
    table TAB key TAB hex       a value of the nested table at the key `table`; deeper ones
                                have more fields in front
    key TAB {}                  a nested table, which may be empty
    key TAB []                  a container that the separator does not make
    big-endian                  the values are

In keys a backslash is \\\\, a tab \\t, a newline \\n, a return \\r, and a byte of any other
control character, or of one that is not seen, \\xHH. Other containers have no lines: the
separator makes them. The file has to pass the check. A word - for FILE is standard input.

    --separator C    the separator that `build` will be given; / if not given
    --form F         the form: plain, signed (GLib's), or auto as if not given; no line
                     tells it, nor the filter, so `build` is told again
    --json           one object with every item, containers too

    gvdb dump anna.gvdb | sed s/oak/beech/ | gvdb build -o changed.gvdb
";

pub const BUILD: &str = "\
gvdb build -o OUT [--replace] [--separator C|none] [--without-containers] [--big-endian]
           [--form plain|signed] [--bloom N] [--empty]

Lays a file from lines on standard input, as `gvdb dump --help` describes them. The children
of a container are stored in the order of the lines that are first to name them. A key that
stands twice is refused, and so is one that is both a value and a table, and a container that
cannot be laid. Empty lines are passed over. Input without a line of content, with a byte
order mark, or whose last line has no end is refused: it may be cut, or no such lines. Keys
are UTF-8: of another the line and the byte are told, and a list in Latin-1 is turned by
iconv -f latin1 -t utf8. OUT is checked and read back before it is put in place; what changed
there since the run began refuses it.

    -o OUT           the file to write; - is standard output
    --replace        OUT may be there: each value of it that the new one does not have is named
    --separator C    makes the containers; / if not given, none for no containers
    --without-containers
                     leave out containers that cannot be laid, and name them
    --big-endian     the header says that the values are big-endian; so does a line
    --form F         the form: plain if not given, or signed, as GLib reads it
    --bloom N        give each table N filter words, 0 to 1,024, of four bytes each; none if not
                     given. With half as many as items, seven of eight lookups of keys that are
                     not there end at the filter
    --empty          input without a line of content lays an empty table

    printf '/parcel/12/year\\te9070000\\n' | gvdb build -o anna.gvdb
";
