#!/usr/bin/env python3
"""The places of src/ that a plainer form of today's Rattle may stand for, by point:  tools/places.py [-l]

Each pattern is looked for line by line in crates/*/src/**/*.rt; with -l each place is printed."""
import pathlib
import re
import sys

PATTERNS = [
    ("1 Option, Result, enums", [
        ("an Option in an Option", r"-> Option<Option<|-> Option<\(\)>"),
        ("a flag beside a value", r"\(bool, |bool> \{|Result<bool>"),
        ("a number for a kind", r"\b(kind|number): u8\b|\bflag: u8\b|fn \w*number\w*\(|\bmode: i16\b|unit: i16|order ==|bits: i32"),
        ("a value that stands for none", r"\bUNKNOWN\b|\bNO_STEP\b|\bNO_ROW\b|file\.is_empty|\bSome\(0\)|at: 0,"),
        ("None or Some by hand", r"None => (None|Err|return|0)|=> Some\(n\.|\{ Some\(\w+\) \} else \{ None \}|^\s+None$"),
    ]),
    ("2 twins", [
        ("a type or a size in the name", r"fn (u8|u16|u32|u64|i16|i32|i64|bool)_\w+|fn \w*(node|buffer|count)s?(_in|_at)?\b|struct (Nodes|Buffers|Counts|SlipRows)|fn (two|three|four)|past_(two|three|four)\(.*->|fn is_second"),
        ("fields beside a slice, again", r"let Some\(at\) = field\.target"),
    ]),
    ("3 loops", [
        ("while, loop", r"^\s*(while|loop)\b"),
        ("for over numbers", r"^\s*for \w+ in [\w.]+\.\."),
    ]),
    ("4 equality, copies, conversions, printing", [
        ("conversions", r"fn (number|from_number|header_type|reading_form|bare|of_frame|plainly)\("),
        ("zeros written out", r"(: 0|: None|length: 0|\[0; 8\]),$"),
        ("printing", r"\b(word|number|signed|mark|digits|placed|batch)\((to|&mut)"),
        ("no Debug and no comparison", r"derive\((Clone, Copy|Drop)\)"),
    ]),
    ("5 what travels together", [
        ("bytes beside a table", r"(bytes|&self|self,? bytes): &\[u8\],? .*(Table|of: TableType)|self, bytes: &\[u8\]"),
        ("a slip's length", r"64 ≤ length bytes"),
        ("the runtime, a reading and its metadata", r"rt: &HostRuntime"),
        ("marker and size", r"marked: bool,"),
    ]),
    ("6 buffers with a length, arenas", [
        ("an array and how much of it", r"\[[A-Za-z_]\w*; (\w+)\],|\blen: usize,|\bgot: usize,|mut \[u8\], at: usize"),
        ("places in bytes", r"16 \* k|4 \* k|8 \* k"),
    ]),
    ("7 steps by number", [
        ("a switch on a step", r"Expected::|TableType::"),
    ]),
]


def lines():
    for path in sorted(pathlib.Path("crates").glob("*/src/**/*.rt")):
        for at, line in enumerate(path.read_text().splitlines(), 1):
            if not line.lstrip().startswith(("//", "ghost use", "use ")):
                yield f"{path}:{at}", line


def main():
    long = "-l" in sys.argv[1:]
    listed = list(lines())
    for point, patterns in PATTERNS:
        print(point)
        for name, pattern in patterns:
            found = [(place, line) for place, line in listed if re.search(pattern, line)]
            print(f"  {len(found):3} {name}")
            for place, line in found if long else []:
                print(f"        {place}: {line.strip()}")


main()
