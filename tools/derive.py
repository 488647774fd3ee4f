#!/usr/bin/env python3
"""Writes what your own types need to be written and read: the impls of `Serialize`, `Deserialize`, `RoundTrip` and `NeverNull`, and of `EqualByContents` where a type derives `PartialEq`,
and the definitions that they cite.

    tools/derive.py CRATE FILE..

In each FILE, such as src/cat.rt of the crate CRATE, stand one struct with named fields, or one enum whose variants have nothing or one value, both without
parameters. The impls are put after the type, and before it the line `use` that they need. The definitions go to specs/NAME.antt of the crate, where `NAME` is the name of the file with
a capital letter; declare it in specs/Lib.antt. A type that another one holds comes before it. Where a type has changed, remove its impls first. Then run `rt fmt` in the crate.

The types of fields: `bool`, the integer types, `char`, `String`, `Double`, `()`, `ObjectId`, `DateTime`, `Timestamp`, `Decimal128`, `Uuid`, `Binary`,
`DbPointer`, `Regex`, `JavaScriptCodeWithScope`, `Document`, `Bson`, `Vec<T>`, `Option<T>`, `BTreeMap<String, T>`, and types of other FILEs. An `Option<T>` needs a `T` that is never written as Null.
"""
import collections
import os
import re
import sys

STRUCT = re.compile(r"pub struct (\w+) \{\n(.*?)^\}", re.DOTALL | re.MULTILINE)
ENUM = re.compile(r"pub enum (\w+) \{\n(.*?)^\}", re.DOTALL | re.MULTILINE)
FIELD = re.compile(r"    pub (\w+): (.*),")
DERIVES_EQUAL = re.compile(r"#\[derive\([^)]*\bPartialEq\b")
VARIANT = re.compile(r"    (\w+)(?:\((.*)\))?,")


class Type:
    """A type: its form, the type of its contents and what a datum gives, and of a value `x` what it is written as, its contents, that it is one of the type, and
    the two laws, where `h` says that it is one of the type. `equal` gives the text of why two values are `==`: of these two, of an equation between what they are parts of,
    and of the place of their contents in that; it is None where `==` is none that is derived."""

    def __init__(self, form, Contents, taken, written, contents, holds, returns, not_null, equal):
        self.form, self.Contents, self.taken = form, Contents, taken
        self.written, self.contents, self.holds, self.returns, self.not_null = written, contents, holds, returns, not_null
        self.equal = equal


# the types whose law of never being Null asks that the value is one of the type
KNOWING = ("id", "date", "stamp", "decimal", "binary", "pointer", "regex", "document", "scoped")


def same(lemma, *arguments):
    """Why two values without parts are `==`: by a lemma, of what each of them contains."""
    return lambda x, y, e, place: " ".join([lemma, *(fill(of, x) for of in arguments), *(fill(of, y) for of in arguments), equation(e, place)])


def equation(e, place):
    """The equation between the parts at a place, from that between the wholes."""
    return f"(λ i. ({e} i){place})" if place else e


def leaf(word, Contents, taken, written, contents, holds, name, argument="{x}", known="{h}", equal=None):
    law = f"{name}_returns {argument} {known}".strip() if argument else f"{name}_returns"
    null = f"{name}_not_null {argument} {known.removesuffix(' {h}.2')}" if name in KNOWING else f"{name}_not_null {argument}"
    return Type(f"leaf leaves.{word}", Contents, taken, written, contents, holds, law, None if name in ("unit", "tree") else null, equal or same(f"{name}_equal", argument))


LEAVES = {
    "bool": leaf("Bool", "Bool", "taken_bool", "Ok (boolean {x})", "{x}", "Unit {0}", "bool", known=""),
    "char": leaf("Char", "ℕ", "taken_char", "Ok (character {x})", "{x}", "IsScalar {x}", "char", equal=same("nat_equal", "{x}")),
    "String": leaf("String", "Utf8", "taken_text", "Ok (str (string_bytes {x}))", "string_bytes {x}", "is_utf8 (string_bytes {x}) ≡ true", "string", "(string_bytes {x})", equal=same("string_equal", "{x}")),
    "Double": leaf("Double", "Bytes", "taken_double", "Ok (double {x}.0)", "{x}.0", "HasBytes 8 {x}.0", "double", "{x}.0", equal=same("bytes_equal", "{x}.0")),
    "()": leaf("Unit", "Unit {0}", "taken_unit", "Ok unit", "tt", "Unit {0}", "unit", "", "", equal=lambda x, y, e, place: "refl"),
    "ObjectId": leaf("ObjectId", "Bytes", "taken_id", "Ok (id_datum {x}.0)", "{x}.0", "HasBytes 12 {x}.0", "id", "{x}.0", equal=same("bytes_equal", "{x}.0")),
    "DateTime": leaf("DateTime", "ℤ", "taken_date", "Ok (date_datum (millis {x}))", "millis {x}", "FitsSigned w64 (millis {x})", "date", "(millis {x})", equal=same("int_equal", "(millis {x})")),
    "Timestamp": leaf("Timestamp", "ℤ × ℤ", "taken_stamp", "Ok (stamp_datum (pos {x}.time, pos {x}.increment))", "(pos {x}.time, pos {x}.increment)",
                      "(({x}.time < 2 ^ 32) × ({x}.increment < 2 ^ 32))", "stamp", "{x}.time {x}.increment", "{h}.0 {h}.1"),
    "Decimal128": leaf("Decimal128", "Bytes", "taken_decimal", "Ok (decimal_datum {x}.0)", "{x}.0", "HasBytes 16 {x}.0", "decimal", "{x}.0", equal=same("bytes_equal", "{x}.0")),
    "DbPointer": leaf("DbPointer", "Utf8 × Bytes", "taken_pointer", "Ok (pointer_datum (string_bytes {x}.namespace, {x}.id.0))", "(string_bytes {x}.namespace, {x}.id.0)",
                      "((is_utf8 (string_bytes {x}.namespace) ≡ true) × HasBytes 12 {x}.id.0)", "pointer", "(string_bytes {x}.namespace) {x}.id.0", "{h}.0 {h}.1"),
    "Regex": leaf("Regex", "Utf8 × Utf8", "taken_regex", "Ok (regex_datum ({x}.pattern, {x}.options))", "({x}.pattern, {x}.options)",
                  "((is_utf8 {x}.pattern ≡ true) × (is_utf8 {x}.options ≡ true) × (sorted {x}.options ≡ {x}.options))", "regex", "{x}.pattern {x}.options", "{h}.0 {h}.1 {h}.2"),
    "Uuid": leaf("Uuid", "Bytes", "taken_uuid", "Ok (uuid_value {x}.0)", "{x}.0", "HasBytes 16 {x}.0", "uuid", "{x}.0", equal=same("bytes_equal", "{x}.0")),
    "JavaScriptCodeWithScope": leaf("CodeWithScope", "Utf8 × Pairs", "taken_scoped", "Ok (scoped_datum (scoped_contents {x}))", "scoped_contents {x}", "IsTreeScoped (scoped_contents {x})", "scoped", "(scoped_contents {x})", equal=same("scoped_equal", "(string_bytes {x}.code)", "(pairs_of {x}.scope)")),
    "Document": leaf("Document", "Pairs", "taken_document", "Ok (document_datum (pairs_of {x}))", "pairs_of {x}", "IsTreeDocument (pairs_of {x})", "document", "(pairs_of {x})", equal=same("pairs_equal", "(pairs_of {x})")),
    "Bson": leaf("Bson", "Tree", "taken_tree", "Ok (tree_datum (tree_of {x}))", "tree_of {x}", "IsTree (tree_of {x})", "tree", "(tree_of {x})"),
    "Binary": leaf("Binary", "ℕ × Bytes", "taken_binary", "Ok (binary_datum ({x}.subtype.0, {x}.bytes.items))", "({x}.subtype.0, {x}.bytes.items)",
                   "(({x}.subtype.0 < 256) × AreBytes {x}.bytes.items)", "binary", "{x}.subtype.0 {x}.bytes.items", "{h}.0 {h}.1"),
}
for bits in ("8", "16", "32", "64"):
    signed, unsigned = f"i{bits}", f"u{bits}"
    LEAVES[signed] = leaf(signed.upper(), "ℤ", f"taken_{signed}", f"Ok (integer {signed} {{x}})", "{x}", f"FitsSigned w{bits} {{x}}", signed, equal=same("int_equal", "{x}"))
    LEAVES[unsigned] = leaf(unsigned.upper(), "ℕ", f"taken_{unsigned}", f"Ok (integer {unsigned} (pos {{x}}))", "{x}", f"{{x}} < 2 ^ {bits}", unsigned, equal=same("nat_equal", "{x}"))

EXTENDED = ("id", "date", "stamp", "decimal", "uuid", "binary", "pointer", "regex")
TREES = ("tree", "document", "scoped")

VALUE = "Rattle.bson.specs.Value"

# where each word of a definition comes from
WORDS = {
    "Rattle.std.specs.Prelude": "◌≡◌ ◌<◌ ◌^◌ ℕ ℤ pos Bool true List map Option option_map Ok refl codes string_bytes FitsSigned",
    "Rattle.std.specs.Char": "IsScalar",
    "Rattle.std.specs.Int": "w8 w16 w32 w64",
    "Rattle.std.specs.List": "All",
    "Rattle.std.specs.Str": "is_utf8",
    "Rattle.std.proofs.Common": "ap",
    "Rattle.bson.specs.Instant": "millis",
    "Rattle.bson.specs.Outcome": "result_map",
    "Rattle.bson.specs.Sorted": "sorted",
    "Rattle.bson.specs.Sound": "HasBytes",
    "Rattle.bson.specs.Text": "AreBytes Bytes Utf8",
    "Rattle.bson.specs.Form": "Form Fields Variants leaf",
    "Rattle.bson.specs.Value": "Value FieldValues boolean integer i8 i16 i32 i64 u8 u16 u32 u64 double character str unit",
    "Rattle.bson.specs.TypeAnswers": "Reading Writing",
    "Rattle.bson.specs.TypeLaws": "Returns IsNeverNull",
    "Rattle.bson.specs.Scalars": " ".join(sorted({type.taken for name, type in LEAVES.items() if type.taken.removeprefix("taken_") not in EXTENDED + TREES})),
    "Rattle.bson.specs.ExtendedTypes": " ".join(f"{'uuid_value' if name == 'uuid' else name + '_datum'} taken_{name}" for name in EXTENDED),
    "Rattle.bson.specs.BsonView": "pairs_of tree_of",
    "Rattle.bson.specs.Tree": "Pairs Tree",
    "Rattle.bson.specs.TypeTrees": "scoped_contents " + " ".join(f"{name}_datum taken_{name}" for name in TREES) + " IsTree IsTreeDocument IsTreeScoped",
    "Rattle.bson.specs.Sequences": "written_items written_sequence taken_sequence",
    "Rattle.bson.specs.Options": "written_option taken_option IsOptional",
    "Rattle.bson.specs.Maps": "written_entries written_map map_contents taken_map IsMapOf",
    "Rattle.bson.specs.Structs": "no_fields and_field written_structure then_field last_field taken_structure",
    "Rattle.bson.specs.OwnVariants": "written_unit written_newtype unit_or newtype_or no_variant",
    "Rattle.bson.specs.ScalarsBack": " ".join(f"{name}_{law}" for name in "bool i8 i16 i32 i64 u8 u16 u32 u64 double char string unit str".split() for law in ("returns", "not_null")),
    "Rattle.bson.specs.ExtendedBack": " ".join(f"{name}_{law}" for name in EXTENDED for law in ("returns", "not_null")),
    "Rattle.bson.specs.TreesBack": "tree_returns document_returns document_not_null scoped_returns scoped_not_null",
    "Rattle.bson.specs.SequencesBack": "sequence_returns sequence_not_null",
    "Rattle.bson.specs.OptionsBack": "option_returns",
    "Rattle.bson.specs.MapsBack": "map_returns map_not_null",
    "Rattle.bson.specs.StructsBack": "ReturnFields field_returns last_returns structure_returns structure_not_null",
    "Rattle.bson.specs.Equal": "bool_equal nat_equal int_equal bytes_equal string_equal stamp_equal tree_equal pairs_equal binary_equal regex_equal pointer_equal scoped_equal and_equal option_equal items_equal map_equal",
    "Rattle.bson.specs.VariantsBack": "unit_variant_returns newtype_variant_returns unit_variant_not_null newtype_variant_not_null",
}


# what each impl is written with, and what only some are
TRAITS = "Datum Deserialize NeverNull RoundTrip Serialize Shape ShapeError de ser".split()
EQUAL = "EqualByContents"
HELPERS = "FieldShapes StructFields VariantShapes add_field is_unit_variant newtype_value newtype_variant not_fitting struct_datum unit_variant".split()


# the type of another file: the name of its definitions, and why two of its values are `==`, as in `Type`
Own = collections.namedtuple("Own", "home equal")


def own(name, equal):
    """The type of another file."""
    word = snake(name)
    return Type(f"{word}_form", f"{name}Contents", f"taken_{word}", f"written_{word} {{x}}", f"{word}_contents {{x}}", f"Is{name} {{x}}", f"{word}_returns {{x}} {{h}}", f"{word}_not_null {{x}}", equal)


def snake(name):
    return re.sub(r"(?<!^)(?=[A-Z])", "_", name).lower()


def function(template, depth, known=False):
    """A template as a function of the value."""
    x, h = f"x{depth}", f"h{depth}"
    plain = re.fullmatch(r"(\w+) \{x\}( \{h\})?", template)
    if plain and (known == bool(plain[2])):
        return plain[1]
    return f"(λ {x} {h}. {fill(template, x, h)})" if known else f"(λ {x}. {fill(template, x)})"


def equal_function(type, depth):
    """Why two values are `==`, as a function of them and of the equation of their contents."""
    return f"(λ x{depth} y{depth} e{depth}. {type.equal(f'x{depth}', f'y{depth}', f'e{depth}', '')})"


def equal_contents(type, x, y):
    """That the contents of two values are equal. Of pairs and of `tt` the type is said, since none is found."""
    first, second = fill(type.contents, x), fill(type.contents, y)
    return f"◌≡◌ {{A = {type.Contents}}} {enclosed(first)} {enclosed(second)}" if re.search(r",|\btt\b", first) else f"{first} ≡ {second}"


def fill(template, x, h="h"):
    return template.replace("{x}", x).replace("{h}", h)


def typed(text, names, depth=0):
    """The type that a text of Rust names."""
    if text in LEAVES:
        return LEAVES[text]
    if text in names:
        return own(text, names[text].equal)
    outer = re.fullmatch(r"(Vec|Option|BTreeMap)<(?:String, )?(.*)>", text)
    if not outer:
        sys.exit(f"no type that is known here: {text}")
    part = typed(outer[2], names, depth + 1)
    w, c, t, f = function(part.written, depth), function(part.contents, depth), enclosed(part.taken), enclosed(part.form)
    p, r = function(part.holds, depth), function(part.returns, depth, True)

    def equal(lemma, of):
        """Why two values are `==` that are made of such parts."""
        return part.equal and (lambda x, y, e, place: f"{lemma} {c} _ {equal_function(part, depth)} {x}{of} {y}{of} {equation(e, place)}")

    if outer[1] == "Vec":
        return Type(f"form.sequence {f}", f"List {enclosed(part.Contents)}", f"taken_sequence {t}", f"written_sequence {w} {{x}}.items", f"map {c} {{x}}.items", f"All {p} {{x}}.items",
                    f"sequence_returns {w} {c} {t} {f} {p} {r} {{x}}.items {{h}}", f"sequence_not_null (written_items {w} {{x}}.items)", equal("items_equal", ".items"))
    if outer[1] == "BTreeMap":
        return Type(f"form.map (leaf leaves.String) {f}", f"List (Utf8 × {enclosed(part.Contents)})", f"taken_map {t}", f"written_map {w} {{x}}.entries", f"map_contents {c} {{x}}.entries", f"IsMapOf {p} {{x}}",
                    f"map_returns {w} {c} {t} {f} {p} {r} {{x}} {{h}}", f"map_not_null (written_entries {w} {{x}}.entries)", equal("map_equal", ""))
    if part.not_null is None:
        sys.exit(f"{text}: a value of the inner type may be written as Null")
    x, h = f"x{depth}", f"h{depth}"
    n = f"(λ {x} {h}. {fill(part.not_null, x, h)})"
    return Type(f"form.optional {f}", f"Option {enclosed(part.Contents)}", f"taken_option {t}", f"written_option {w} {{x}}", f"option_map {c} {{x}}", f"IsOptional {p} {{x}}",
                f"option_returns {w} {c} {t} {f} {p} {r} {n} {{x}} {{h}}", None, equal("option_equal", ""))


def enclosed(term):
    return term if " " not in term or is_enclosed(term) else f"({term})"


def is_enclosed(term):
    """Whether the bracket that begins a term is closed at its end."""
    depth = 0
    for place, mark in enumerate(term):
        depth += {"(": 1, ")": -1}.get(mark, 0)
        if depth == 0:
            return term.startswith("(") and place + 1 == len(term)
    return False


def struct_definitions(name, fields, names):
    """The definitions of a struct: for each field what it and those after it are. Their names have a hyphen, as no name of a type's own definitions has."""
    it = snake(name)
    parts = [(field, typed(text, names), f"{it}.{field}") for field, text in fields]
    known = ["h"] if len(parts) == 1 else [f"h.{i}" for i in range(len(parts))]
    lines = ["-- ---- written", ""]
    for i, (field, type, x) in reversed(list(enumerate(parts))):
        behind = f"({parts[i + 1][0]}-written {it})" if i + 1 < len(parts) else "no_fields"
        lines += [f"abbrev pub written-{field} : {name} → Writing Value", f"written-{field} {it} = {fill(type.written, x)}", ""]
        lines += [f"-- the field `{field}` and those behind it", f"abbrev pub {field}-written : {name} → Writing FieldValues", f'{field}-written {it} = and_field (codes "{field}") (written-{field} {it}) {behind}', ""]
    first = parts[0][0]
    lines += [f"abbrev pub written_{it} : {name} → Writing Value", f'written_{it} {it} = written_structure (codes "{name}") ({first}-written {it})', "", "-- ---- read", ""]
    Contents = ""
    for i, (field, type, x) in reversed(list(enumerate(parts))):
        last = i + 1 == len(parts)
        Contents = type.Contents if last else f"{enclosed(type.Contents)} × {enclosed(Contents)}"
        behind = "form.no_fields" if last else f"{parts[i + 1][0]}-fields"
        lines += [f"abbrev pub {field}-fields : Fields", f'{field}-fields = form.field (codes "{field}") {enclosed(type.form)} {behind}', ""]
        lines += [f"abbrev pub {field}-taken : FieldValues → Reading {enclosed(Contents)}", f'{field}-taken = last_field (codes "{field}") {enclosed(type.taken)}' if last else f'{field}-taken = then_field (codes "{field}") {enclosed(type.taken)} {parts[i + 1][0]}-taken', ""]
        contents = fill(type.contents, x) if last else f"({fill(type.contents, x)}, {parts[i + 1][0]}-contents {it})"
        lines += [f"abbrev pub {field}-contents : {name} → {enclosed(Contents)}", f"{field}-contents {it} = {contents}", ""]
    lines += [f"abbrev pub {it}_form : Form", f'{it}_form = form.structure form.dropped (codes "{name}") {first}-fields', ""]
    lines += [f"abbrev pub {name}Contents : Type 0", f"{name}Contents = {Contents}", ""]
    lines += [f"abbrev pub {it}_contents : {name} → {name}Contents", f"{it}_contents {it} = {first}-contents {it}", ""]
    lines += [f"abbrev pub taken_{it} : Value → Reading {name}Contents", f'taken_{it} = taken_structure (codes "{name}") {first}-taken', "", "-- ---- the laws, by those of the types of the fields", ""]
    holds = " × ".join(f"({fill(type.holds, x)})" if len(parts) > 1 else fill(type.holds, x) for field, type, x in parts)
    lines += [f"abbrev pub Is{name} : {name} → Type 0", f"Is{name} {it} = {holds}", ""]
    for i, (field, type, x) in reversed(list(enumerate(parts))):
        term = f'(codes "{field}") {enclosed(type.form)} {enclosed(fill(type.contents, x))} {enclosed(type.taken)} (written-{field} {it})'
        law = enclosed(fill(type.returns, x, known[i]))
        lines += [f"{field}-returns : ({it} : {name}) → Is{name} {it} → ReturnFields {field}-fields ({field}-contents {it}) {field}-taken ({field}-written {it})"]
        if i + 1 == len(parts):
            lines += [f"{field}-returns {it} h = last_returns {term} {law}", ""]
        else:
            more = parts[i + 1][0]
            lines += [f"{field}-returns {it} h =", f"    field_returns {term} {more}-fields ({more}-contents {it}) {more}-taken ({more}-written {it}) {law} ({more}-returns {it} h)", ""]
    lines += [f"pub {it}_returns : ({it} : {name}) → Is{name} {it} → Returns {it}_form ({it}_contents {it}) taken_{it} (written_{it} {it})",
              f'{it}_returns {it} h = structure_returns (codes "{name}") {first}-fields ({first}-contents {it}) {first}-taken ({first}-written {it}) refl ({first}-returns {it} h)', ""]
    lines += [f"pub {it}_not_null : ({it} : {name}) → IsNeverNull (written_{it} {it})", f'{it}_not_null {it} = structure_not_null (codes "{name}") ({first}-written {it}) refl']
    return lines


def struct_equal(fields, names):
    """Why two values of a struct are `==`: field by field."""
    (field, text), *rest = fields
    first = typed(text, names).equal
    if not rest:
        return first and (lambda x, y, e, place: first(f"{x}.{field}", f"{y}.{field}", e, place))
    others = struct_equal(rest, names)
    return first and others and (lambda x, y, e, place: f"and_equal _ _ ({first(f'{x}.{field}', f'{y}.{field}', e, place + '.0')}) ({others(x, y, e, place + '.1')})")


def enum_equal(module, name, variants, names):
    """Why two values of an enum are `==`: variant by variant."""
    parts = [typed(text, names) if text else None for _, text in variants]
    if not all(type.equal for type in parts if type):
        return None
    facts = " ".join(equal_function(type, 0) if type else "refl" for type in parts)
    return lambda x, y, e, place: f"{snake(name)}_equal ⟦<crate::{module}::{name} as PartialEq>⟧.eq {facts} {x} {y} {equation(e, place)}"


def enum_equal_lemma(name, variants, names):
    """The law of `==` of an enum, from those of its variants."""
    it = snake(name)
    parts = [(variant, typed(text, names) if text else None) for variant, text in variants]
    case = lambda variant, type, letter: f"(cases.{variant} {letter})" if type else f"cases.{variant}"
    lines = ["", "-- Two values are `==` where their contents are equal, if those of each variant are.", f"pub {it}_equal : (E : {name} → {name} → Bool)"]
    for variant, type in parts:
        if type:
            lines += [f"    → ((x y : _) → let p : {name} = cases.{variant} x in let q : {name} = cases.{variant} y in {equal_contents(type, 'x', 'y')} → E p q ≡ true)"]
        else:
            lines += [f"    → E cases.{variant} cases.{variant} ≡ true"]
    lines += [f"    → (x y : {name}) → {it}_contents x ≡ {it}_contents y → E x y ≡ true"]
    laws = " ".join(f"law-{variant}" for variant, _ in parts)
    for variant, type in parts:
        proof = f"law-{variant} x y cc" if type else f"law-{variant}"
        lines += [f"{it}_equal E {laws} {case(variant, type, 'x')} {case(variant, type, 'y')} e = {proof}"]
    if len(parts) > 1:
        lines += [f"{it}_equal E {laws} x y e = absurd cc"]
    return lines


def enum_definitions(name, variants, names):
    """The definitions of an enum."""
    it, letter = snake(name), "x"
    parts = [(variant, typed(text, names) if text else None) for variant, text in variants]
    case = lambda variant, type: f"(cases.{variant} {letter})" if type else f"cases.{variant}"
    made = lambda variant: f"{snake(variant)}-{it}"
    lines = ["-- ---- written", "", f"abbrev pub written_{it} : {name} → Writing Value"]
    for variant, type in parts:
        lines += [f'written_{it} {case(variant, type)} = ' + (f'written_newtype (codes "{variant}") ({fill(type.written, letter)})' if type else f'written_unit (codes "{variant}")')]
    form, taken = "form.no_variants", "no_variant"
    for variant, type in reversed(parts):
        content = f"(form.newtype_content {enclosed(type.form)})" if type else "form.unit_content"
        form = f'form.variant (codes "{variant}") {content} {enclosed(form)}'
        taken = f'newtype_or (codes "{variant}") {made(variant)} {enclosed(type.taken)} {enclosed(taken)}' if type else f'unit_or (codes "{variant}") {made(variant)} {enclosed(taken)}'
    lines += ["", "-- ---- read", "", f"abbrev pub {it}_variants : Variants", f"{it}_variants = {form}", "", f"abbrev pub {it}_form : Form", f"{it}_form = form.enumeration {it}_variants", ""]
    lines += [f"pub data {name}Contents : Type 0 where"] + [f"  {made(variant)} : " + (f"{enclosed(type.Contents)} → " if type else "") + f"{name}Contents" for variant, type in parts]
    lines += ["", f"abbrev pub {it}_contents : {name} → {name}Contents"]
    lines += [f"{it}_contents {case(variant, type)} = {made(variant)}" + (f" {enclosed(fill(type.contents, letter))}" if type else "") for variant, type in parts]
    lines += ["", f"abbrev pub taken_{it} : Value → Reading {name}Contents", f"taken_{it} = {taken}", "", "-- ---- the laws, by those of the types of the variants", "", f"abbrev pub Is{name} : {name} → Type 0"]
    lines += [f"Is{name} {case(variant, type)} = " + (fill(type.holds, letter) if type else "Unit {0}") for variant, type in parts]
    lines += ["", f"pub {it}_returns : ({it} : {name}) → Is{name} {it} → Returns {it}_form ({it}_contents {it}) taken_{it} (written_{it} {it})"]
    for variant, type in parts:
        if type:
            c, w = enclosed(fill(type.contents, letter)), enclosed(fill(type.written, letter))
            lines += [f"{it}_returns {case(variant, type)} h =", f'    newtype_variant_returns {it}_variants (codes "{variant}") {enclosed(type.form)} {c} {enclosed(type.taken)} ({made(variant)} {c}) taken_{it} {w} refl (λ v e. ap (result_map {made(variant)}) e) {enclosed(fill(type.returns, letter))}']
        else:
            lines += [f'{it}_returns {case(variant, type)} h = unit_variant_returns {it}_variants (codes "{variant}") {made(variant)} taken_{it} refl refl']
    lines += ["", f"pub {it}_not_null : ({it} : {name}) → IsNeverNull (written_{it} {it})"]
    for variant, type in parts:
        lines += [f"{it}_not_null {case(variant, type)} = " + (f'newtype_variant_not_null (codes "{variant}") {enclosed(fill(type.written, letter))}' if type else f'unit_variant_not_null (codes "{variant}")')]
    return lines


def words_used(lines, crate, names):
    """The lines that bring in the words of these lines."""
    text = "\n".join(line for line in lines if not line.startswith("--"))
    words = set(re.findall(r"[\w'][\w'-]*", re.sub(r'"[^"]*"|⟦[^⟧]*⟧|(?<=[\w-])\.\w+', "", text)))
    words |= {f"◌{sign}◌" for sign in "≡<^" if f" {sign} " in text}
    defined = set(re.findall(r"^(?:abbrev |pub |data )*([\w-]+) :", text, re.MULTILINE))
    out = []
    for home, known in WORDS.items():
        used = [word for word in known.split() if word in words and word not in defined]
        if home == VALUE and out and "form." in text:
            out.append("use Rattle.bson.specs.Form as form")
        if home == VALUE and "leaves." in text:
            out.append("use Rattle.bson.specs.Leaves as leaves")
        if used:
            out.append(f"use {home}.{{{', '.join(used)}}}")
    for other, (home, _) in names.items():
        it = snake(other)
        used = [word for word in (f"written_{it}", f"{it}_form", f"{other}Contents", f"{it}_contents", f"taken_{it}", f"Is{other}", f"{it}_returns", f"{it}_not_null", f"{it}_equal") if word in words and word not in defined]
        if used:
            out.append(f"use Rattle.{crate}.specs.{home}.{{{', '.join(used)}}}")
    return out


def uses(lines, crate, module, name, names, is_enum):
    """The lines that bring in the words of the definitions, and the type."""
    out = words_used(lines, crate, names)
    out.append(f"use Rattle.{crate}.specs.declared.{module}.{name}.{{{name}}}")
    if is_enum:
        out.append(f"use Rattle.{crate}.specs.declared.{module}.{name}.TheVariants as cases")
    return out


def struct_code(name, fields):
    """The bodies of the calls of a struct: of `to_datum`, `shape`, `from_datum` and `known`."""
    to = ["let mut fields = Vec::new(alloc);"] + [f'add_field(&mut fields, "{field}", self.{field}.to_datum(alloc)?)?;' for field, _ in fields] + [f'Ok(struct_datum("{name}", fields))']
    shape = ["let mut fields = FieldShapes::new(alloc);"] + [f'fields.add(alloc, "{field}", <{text} as Deserialize<\'de>>::shape(alloc)?)?;' for field, text in fields] + [f'fields.into_struct(alloc, "{name}")']
    of = [f'let mut fields = StructFields::of("{name}", datum)?;'] + [f'let {field} = fields.next(alloc, "{field}")?;' for field, _ in fields]
    of += ["fields.end()?;", f"Ok({name} {{ " + ", ".join(field for field, _ in fields) + " })"]
    return to, shape, of, [f"self.{field}.known();" for field, _ in fields]


def enum_code(name, variants):
    """The bodies of the calls of an enum."""
    to, known = ["match self {"], ["match self {"]
    shape = ["let mut variants = VariantShapes::new(alloc);"]
    of = []
    for variant, text in variants:
        if text:
            to += [f"    {name}::{variant}(value) => {{", "        let value = value.to_datum(alloc)?;", f'        let datum = newtype_variant(alloc, "{variant}", value)?;', "        Ok(datum)", "    }"]
            known += [f"    {name}::{variant}(value) => value.known(),"]
            shape += [f'variants.add_newtype(alloc, "{variant}", <{text} as Deserialize<\'de>>::shape(alloc)?)?;']
        else:
            to += [f'    {name}::{variant} => Ok(unit_variant("{variant}")),']
            known += [f"    {name}::{variant} => {{}}"]
            shape += [f'variants.add_unit(alloc, "{variant}")?;']
    for variant, text in variants:
        if text:
            left = "_datum" if (variant, text) == variants[-1] else "datum"
            of += [f'let {left} = match newtype_value(datum, "{variant}") {{', "    Ok(value) => {", f"        let value = <{text} as Deserialize<'de>>::from_datum(alloc, value)?;", f"        return Ok({name}::{variant}(value));", "    }", "    Err(datum) => datum,", "};"]
        else:
            of += [f'if is_unit_variant(&datum, "{variant}") {{', f"    return Ok({name}::{variant});", "}"]
    return to + ["}"], shape + ["variants.into_enum()"], of + ["Err(not_fitting())"], known + ["}"]


def imports(code, compares):
    """What the impls are written with, in front of the file."""
    text = "\n".join(line for lines in code for line in lines)
    own = [name for name in HELPERS if f"{name}(" in text or f"{name}::" in text]
    names = sorted(TRAITS + own + [EQUAL] * compares, key=lambda it: (it[0].islower(), it))
    return f"use bson::{{{', '.join(names)}}};\nuse std::alloc::Global;\n"


def impls(crate, module, name, code):
    """The text of the impls."""
    to, shape, of, known = ("\n".join(f"        {line}" for line in lines) for lines in code)
    it, home = snake(name), f"Rattle.{crate}.specs.{module}"
    return f"""
impl Serialize for {name} {{
    ghost use {home}.{{written_{it}}};

    ghost written = {{ written_{it} }};

    fn to_datum(&self, alloc: Global) -> ser::Result<Datum<'_>> {{
{to}
    }}
}}

impl<'de> Deserialize<'de> for {name} {{
    ghost use {home}.{{{it}_form, {name}Contents, {it}_contents, taken_{it}}};

    ghost form = {{ {it}_form }};

    ghost Contents = {{ {name}Contents }};

    ghost contents = {{ {it}_contents }};

    ghost taken = {{ taken_{it} }};

    fn shape(alloc: Global) -> Result<Shape, ShapeError> {{
{shape}
    }}

    fn from_datum(alloc: Global, datum: Datum<'de>) -> de::Result<{name}> {{
{of}
    }}
}}

impl<'de> RoundTrip<'de> for {name} {{
    ghost use {home}.{{Is{name}, {it}_returns}};

    ghost is_value = {{ Is{name} }};

    fn known(&self) {{
{known}
    }}

    ghost returns = {{ {it}_returns }};
}}

impl<'de> NeverNull<'de> for {name} {{
    ghost use {home}.{{{it}_not_null}};

    ghost not_null = {{ λ {it} _. {it}_not_null {it} }};
}}
"""


def equal_impl(crate, name, equal, names):
    """The text of the impl by which values of equal contents are `==`."""
    term = f"λ x y e. {equal('x', 'y', 'e', '')}"
    lines = "".join(f"    ghost {line};\n" for line in words_used([term], crate, names))
    return f"""
impl<'de> {EQUAL}<'de> for {name} {{
{lines}
    ghost equal = {{ {term} }};
}}
"""


def parts_of(path, pattern, body):
    """The fields or the variants in the body of a type, each with its type."""
    parts = []
    for line in body.splitlines():
        found = pattern.fullmatch(line)
        if found:
            parts.append(found.group(1, 2))
        elif line.strip() and not line.strip().startswith("#["):
            sys.exit(f"{path}: neither a field `pub name: Type,` nor a variant with nothing or one value: {line.strip()}")
    if not parts:
        sys.exit(f"{path}: no field and no variant")
    for name, _ in parts:
        if pattern is FIELD and name in ("alloc", "fields"):
            sys.exit(f"{path}: a field of the name `{name}`, which the impls use")
    return parts


def judge_name(path, name, lines):
    """Ends where a definition of the type has a name that the definitions of types use."""
    known = {word for words in WORDS.values() for word in words.split()} | {"form", "leaves", "cases", "h", "x", "y", "e", "Global"} | set(TRAITS + HELPERS + [EQUAL])
    own = {name, snake(name)} | set(re.findall(r"^(?:abbrev |pub |data )*([\w-]+) :", "\n".join(lines), re.MULTILINE))
    if own & known:
        sys.exit(f"{path}: no type of the name `{name}`, since `{min(own & known)}` is a word of the definitions")


def main(crate, paths):
    names = {}
    for path in paths:
        with open(path, encoding="utf-8") as file:
            whole = file.read()
        text = re.sub(r"^ *///?.*\n", "", whole, flags=re.MULTILINE)
        module = os.path.basename(path).removesuffix(".rt")
        home = module[0].upper() + module[1:]
        struct, enum = STRUCT.search(text), ENUM.search(text)
        if len(STRUCT.findall(text)) + len(ENUM.findall(text)) != 1:
            sys.exit(f"{path}: not one struct with named fields, or one enum")
        name, body = (struct or enum).group(1, 2)
        if f" Serialize for {name} " in text:
            sys.exit(f"{path}: it has the impls")
        parts = parts_of(path, FIELD if struct else VARIANT, body)
        lines = struct_definitions(name, parts, names) if struct else enum_definitions(name, parts, names)
        equal = None
        if DERIVES_EQUAL.search(text):
            equal = struct_equal(parts, names) if struct else enum_equal(module, name, parts, names)
        if equal and enum:
            lines += enum_equal_lemma(name, parts, names)
        judge_name(path, name, lines)
        specs = os.path.join(os.path.dirname(os.path.dirname(os.path.abspath(path))), "specs")
        with open(f"{specs}/{home}.antt", "w", encoding="utf-8") as file:
            head = uses(lines, crate, module, name, names, not struct)
            file.write("\n".join([f"-- What a `{name}` is written as, read from and contains. Source: serde's data model.", *head, "", *lines]) + "\n")
        code = struct_code(name, parts) if struct else enum_code(name, parts)
        names[name] = Own(home, equal)
        last = equal_impl(crate, name, equal, names) if equal else ""
        with open(path, "w", encoding="utf-8") as file:
            file.write(imports(code, bool(equal)) + ("" if whole.startswith("use ") else "\n") + whole.rstrip("\n") + "\n" + impls(crate, home, name, code) + last)


if __name__ == "__main__":
    if len(sys.argv) < 3:
        sys.exit("usage: tools/derive.py CRATE FILE..")
    main(sys.argv[1], sys.argv[2:])
