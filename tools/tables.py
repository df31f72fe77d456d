#!/usr/bin/env python3
# Writes the files of crates/tables that have a line for each row, from tools/coefficients.txt: src/ (decimals),
# specs/ (bits) and proofs/.
# Run it after a change of the coefficients; then, in crates/tables, `rt fmt` and `rt check`.
import pathlib
import struct

here = pathlib.Path(__file__).resolve().parent
crate = here.parent / "crates" / "tables"


class Table:
    def __init__(self, module, name, index, fields, says):
        self.module = module
        self.name = name  # in coefficients.txt
        self.index = index
        self.fields = fields
        self.says = says
        self.title = module.capitalize()
        self.kind = self.title + "Row"
        self.functions = [module + "_row", module + "_lane_row"]

    def rows(self):
        words = [line.split() for line in (here / "coefficients.txt").read_text().splitlines()]
        numbers = [w[2] for w in words if w[0] == self.name]
        size = len(self.fields)
        return [numbers[i : i + size] for i in range(0, len(numbers), size)]


TABLES = [
    Table(
        "exp",
        "EXP_T",
        "i",
        ["value", "rest"],
        "Row i is for 2^(i/64): `value` is the nearest f64, and `rest` what its rounding lost, relative to it.",
    ),
    Table(
        "log",
        "LOG_T",
        "j",
        ["centre", "inverse", "high", "low"],
        "Row j is for the j-th of 64 parts of the numbers from 0.698 to 1.396: a centre, its inverse, and its log as `high` + `low`.",
    ),
    Table(
        "erfc",
        "ERFC_T",
        "j",
        ["centre", "value"] + ["a%d" % k for k in range(1, 12)],
        "Row j is for numbers within 1/32 of j/16: a centre, erfc there, and the coefficients of the powers of the distance to it.",
    ),
]


def decimal(word):
    """The shortest decimal that reads back to the same bits."""
    return repr(struct.unpack("<d", struct.pack("<Q", int(word, 16)))[0])


def bits(word):
    return "bits 0x" + "_".join(word[i : i + 4] for i in range(0, 16, 4))


def constant(name, table, values):
    yield "const %s: %s = %s {" % (name, table.kind, table.kind)
    yield from ("    %s: %s," % p for p in zip(table.fields, values))
    yield "};"
    yield ""


def source(t, rows):
    yield "// The table of `%s`. %s" % (t.module, t.says)
    yield "// Written by tools/tables.py."
    yield "ghost use Rattle.std.specs.Prelude.{◌≡◌};"
    yield "ghost use Rattle.tables.specs.%s.{%s_row_of};" % (t.title, t.module)
    yield ""
    yield "#[derive(Clone, Copy)]"
    yield "pub struct %s {" % t.kind
    yield from ("    pub %s: f64," % f for f in t.fields)
    yield "}"
    yield ""
    yield "// Constants, since a `-` in an arm would be a step of the code: a long table would take ten times as long to check."
    for k, row in enumerate(rows):
        yield from constant("ROW%d" % k, t, map(decimal, row))
    yield from constant("NONE", t, ["0.0"] * len(t.fields))
    yield "// A `match` compiles to one load for a field; an array would be built anew at each call."
    yield "// Call it from one place only: else it is not inlined, and the whole row goes by way of the stack."
    yield from function(t, rows, t.functions[0])
    for name in t.functions[1:]:
        yield ""
        yield "// The same for many numbers at once, whose one place is another."
        yield from function(t, rows, name)


def function(t, rows, name):
    yield "pub fn %s(%s: u64) -> %s" % (name, t.index, t.kind)
    yield "    ensures { result ≡ %s_row_of %s }" % (t.module, t.index)
    yield "{"
    yield "    match %s {" % t.index
    yield from ("        %d => ROW%d," % (k, k) for k in range(len(rows)))
    yield "        _ => NONE,"
    yield "    }"
    yield "}"


def spec(t, rows):
    record = lambda values: "record { %s }" % "; ".join("%s = %s" % p for p in zip(t.fields, values))
    yield "-- The table of `%s`, each number by its bits. %s" % (t.module, t.says)
    yield "-- Written by tools/tables.py."
    yield "use Rattle.std.specs.Prelude.{List, [], ◌∷◌, ℕ, get_or}"
    yield "use Rattle.num.specs.F64.{bits, zero·}"
    yield "use Rattle.tables.specs.declared.%s.%s.{%s}" % (t.module, t.kind, t.kind)
    yield ""
    yield "unfoldable pub %s_rows : List %s" % (t.module, t.kind)
    yield "%s_rows =" % t.module
    yield from ("    %s ∷" % record(map(bits, row)) for row in rows)
    yield "    []"
    yield ""
    yield "abbrev pub no_row : %s" % t.kind
    yield "no_row = %s" % record(["zero·"] * len(t.fields))
    yield ""
    yield "unfoldable pub %s_row_of : ℕ → %s" % (t.module, t.kind)
    yield "%s_row_of %s = get_or %s_rows %s no_row" % (t.module, t.index, t.module, t.index)


def proof(t, rows, name):
    yield "-- `tables::%s` meets its contract: each arm by its key, the last by `past`." % name
    yield "-- Written by tools/tables.py."
    yield "use mathlib.Core.Path.{refl}"
    yield "use Rattle.tables.specs.%s.{%s_row_of, %s_rows}" % (t.title, t.module, t.module)
    yield "use Rattle.tables.proofs.Rows.{at, past}"
    yield "use Rattle.tables.proofs.%s.%s.Goals as goal" % (t.module, name)
    for k in range(len(rows)):
        yield from answer(t, "returns-in-%d" % k, "at %s_rows _ _ %d c.in-%d.is refl" % (t.module, k, k))
    yield from answer(t, "returns-in_default", "past %s_rows _ _ c.in_default.in_default-own.rest" % t.module)


def answer(t, goal, by):
    yield ""
    yield "pub %s : goal.%s" % (goal, goal)
    yield "unfolding %s_row_of %s_rows" % (t.module, t.module)
    yield "%s c = %s" % (goal, by)


def write(path, lines):
    path.parent.mkdir(parents=True, exist_ok=True)
    path.write_text("\n".join(lines) + "\n")


if __name__ == "__main__":
    for t in TABLES:
        rows = t.rows()
        write(crate / "src" / (t.module + ".rt"), source(t, rows))
        write(crate / "specs" / (t.title + ".antt"), spec(t, rows))
        for name in t.functions:
            write(crate / "proofs" / t.module / name / "Answers.antt", proof(t, rows, name))
