r"""The inputs that the wrong versions name, as a reader writes them:

    word cats                                  also "a{", as bytes are written, and "a" * 65
    text "Feeds, hopping"
    next word of "cats dogs" from 4
    sheet G(gate 0), 1 eed→ee, ed→, end        a rule may have a condition before it, and `action 1` or `opens 1` behind it;
                                               `17 × G(gate 0)` is a record 17 times, `bytes 03 00` are bytes as they stand
    translate SHEET into 8 numbers             each of the lent numbers is 7
    run SHEET on cats                          with the table that the sheet makes,
    run SHEET with the table 0 1 1 0 on cats   or with another
    lines "group\nm>0 s -> -\n" into 19 bytes  each of the lent bytes is 7
    lookup cats in the list cats→cat, close    a word of a list, and its stem, may be in quotes; `bytes` and `×` as in a sheet
    word cats with the list cats→cat, close
    text "Cats" with the list cats→cat, close
    check of the list cats→cat, close          how many words it lists, or the place of its first faulty record
    vocabulary "feed fe\n"
    call numbers::pair(1, 2)                   a function itself; `on the room "cats"` lends it bytes of that name
"""

import ast
import re
import struct
import sys
from dataclasses import dataclass
from pathlib import Path

ROOT = Path(__file__).resolve().parent.parent
sys.path.insert(0, str(ROOT / "compare"))

from probing import CHECK, LOOKUP, MAKE, NEXT, RUN, TEXT, TEXT_WITH_LIST, TRANSLATE, VOCABULARY, WORD, WORD_WITH_LIST
from second.lists import LISTED
from second.sheets import END, GROUP, RULE, Faulty, read_sheet, record
from second.tables import nodes_of

BYTES = r'(?:[a-z]+|"(?:[^"\\]|\\.)*")(?: \* [\d,]+)?'


def bytes_of(text):
    """Small letters, or bytes in quotes; as often as is said behind them."""
    once, _, times = text.partition(" * ")
    quoted = once if once.startswith('"') else f'"{once}"'
    return ast.literal_eval("b" + quoted) * int(times.replace(",", "") or 1)


def rule_of(text):
    parts = re.fullmatch(r"(?:(\d+) )?([^ →]*)→(\S*)(?: action (\d+))?(?: opens (\d+))?", text)
    if not parts:
        raise ValueError(f"not a record: {text}")
    condition, ending, replacement, action, opens = parts.groups(default="")
    head = bytes([int(condition or 0), int(action or 0), int(opens or 0), len(ending)])
    return record(RULE, head + ending.encode() + replacement.encode())


def of_sheet(text):
    if gate := re.fullmatch(r"G\(gate (\d+)\)", text):
        return record(GROUP, struct.pack("<H", int(gate[1])))
    return record(END, b"") if text == "end" else rule_of(text)


def of_list(text):
    if text == "close":
        return record(END, b"")
    parts = re.fullmatch(f"({BYTES})→({BYTES})?", text)
    if not parts:
        raise ValueError(f"not a record of a list: {text}")
    word, stem = map(bytes_of, parts.groups(default=""))
    return record(LISTED, bytes([len(word)]) + word + stem)


def record_of(text, made):
    if times := re.match(r"(\d+) × ", text):
        return record_of(text[times.end() :], made) * int(times[1])
    return bytes.fromhex(text.removeprefix("bytes ")) if text.startswith("bytes ") else made(text)


def records_of(text, made):
    """The bytes of records; `made` reads one that is not given by its bytes."""
    return b"".join(record_of(part, made) for part in text.split(", ") if part)


def sheet_of(text):
    return records_of(text, of_sheet)


def list_of(text):
    return records_of(text, of_list)


def table_of(sheet):
    """The numbers that the sheet makes; none where it is faulty."""
    try:
        return sum(nodes_of(read_sheet(sheet)), [])
    except Faulty:
        return []


def run_request(sheet, table, word):
    sheet = sheet_of(sheet)
    return RUN, sheet, list(map(int, table.split())) if table else table_of(sheet), bytes_of(word)


@dataclass
class Call:
    path: str  # of the function, such as numbers::pair
    expression: str
    room: str  # bytes that are lent, or nothing


def check_of_list(exceptions):
    """No request reaches the check of a list alone."""
    listed = ", ".join(f"{byte}u8" for byte in list_of(exceptions))
    return Call("lists::check", f"lists::check(&[{listed}])", "")


REQUESTS = [
    (f"word ({BYTES})", lambda word: (WORD, bytes_of(word))),
    (f"text ({BYTES})", lambda text: (TEXT, bytes_of(text))),
    (rf"next word of ({BYTES}) from (\d+)", lambda text, place: (NEXT, bytes_of(text), int(place))),
    ("sheet(?: (.*))?", lambda sheet: (CHECK, sheet_of(sheet or ""))),
    (r"translate (.*) into (\d+) numbers", lambda sheet, count: (TRANSLATE, sheet_of(sheet), [7] * int(count))),
    (rf"run (.*?)(?: with the table ([\d ]+))? on ({BYTES})", run_request),
    (rf"lines ({BYTES}) into (\d+) bytes", lambda lines, count: (MAKE, bytes_of(lines), b"\7" * int(count))),
    (rf"lookup ({BYTES}) in the list (.*)", lambda word, exceptions: (LOOKUP, list_of(exceptions), bytes_of(word))),
    (rf"word ({BYTES}) with the list (.*)", lambda word, exceptions: (WORD_WITH_LIST, list_of(exceptions), bytes_of(word))),
    (rf"text ({BYTES}) with the list (.*)", lambda text, exceptions: (TEXT_WITH_LIST, list_of(exceptions), bytes_of(text))),
    ("check of the list (.*)", check_of_list),
    (f"vocabulary ({BYTES})", lambda vocabulary: (VOCABULARY, bytes_of(vocabulary))),
]


def input_of(shown):
    """The request to `probe`, or the call, that is written so."""
    call = re.fullmatch(rf"call (([\w:]+)\(.*?\))(?: on the room ({BYTES}))?", shown)
    if call:
        return Call(call[2], call[1], call[3] or "")
    for form, made in REQUESTS:
        if parts := re.fullmatch(form, shown):
            return made(*parts.groups())
    raise ValueError(f"not an input: {shown}")


# A call, as a program


def result_of(call):
    """The type that the function's source gives its result, or nothing."""
    crate, *modules, name = call.path.split("::")
    source = ROOT / "crates" / crate / "src" / f"{'/'.join(modules) or 'lib'}.rt"
    signature = re.search(rf"^pub (?:extern \"C\" )?fn {name}\([^)]*\)(?: -> (.*))?$", source.read_text(), re.MULTILINE)
    return (signature[1] or "").replace("'static ", "")


def written(kind):
    """The statements that write a result of this type."""
    if kind.startswith("["):
        return "output::table(to, &result)?;" if kind.startswith("[u16") else "output::bytes(to, &result)?;"
    if kind.startswith("Result<usize, "):
        return "let reply = answers::in_numbers(result); output::reply(to, reply.number, reply.value)?;"
    return {
        "": "",
        "bool": "output::byte(to, if result { 1 } else { 0 })?;",
        "u8": "output::byte(to, result)?;",
        "usize": "output::number(to, result)?;",
        "u64": "output::number(to, (result % 4294967296) as usize)?; output::number(to, (result / 4294967296) as usize)?;",
        "&[u8]": "output::bytes(to, result)?;",
        "Run": "output::number(to, result.end)?; output::byte(to, if result.small { 1 } else { 0 })?;",
        "Option<usize>": "match result { Some(value) => output::reply(to, 1, value)?, None => output::reply(to, 0, 0)? }",
    }[kind]


def program_of(call):
    """A program that makes the call and writes its result, and then the room. It does so for a byte on standard input: without
    one it writes nothing."""
    kind = result_of(call)
    room = bytes_of(call.room) if call.room else b""
    same = len(set(room)) == 1
    lent = f"[{room[0]}u8; {len(room)}]" if same else f"[{', '.join(f'{byte}u8' for byte in room)}]"
    lines = [
        f"let mut room = {lent};" if room else "",
        f"{'let result = ' if kind else ''}{call.expression};",
        written(kind),
        "output::bytes(to, &room)?;" if room else "",
    ]
    return f"""use requests::input;
use requests::output;
use std::io;
use std::io::Write;

fn shown(to: &mut impl Write) -> io::Result<()> {{
    {' '.join(filter(None, lines))}
    Ok(())
}}

fn main(rt: HostRuntime) -> io::Result<()> {{
    match input::first_byte(&mut rt.stdin())? {{
        Some(_) => shown(&mut rt.stdout()),
        None => Ok(()),
    }}
}}
"""


def values_of(call, coded):
    """What the program of a call wrote: its result and the room."""
    kind = result_of(call)
    in_numbers = kind.startswith("Result<usize, ")
    sizes = {"": 0, "bool": 1, "u8": 1, "usize": 4, "u64": 8, "Run": 5, "Option<usize>": 5}
    size = 5 if in_numbers else sizes.get(kind, len(coded))
    result, room = coded[:size], coded[size:]
    if len(result) < size:
        return [coded]
    if kind.startswith("[u16"):
        values = [list(struct.unpack(f"<{size // 2}H", result))]
    elif in_numbers:
        values = list(struct.unpack("<BI", result))
    elif kind == "Run":
        values = [int.from_bytes(result[:4], "little"), "true" if result[4] else "false"]
    elif kind == "Option<usize>":
        values = [f"Some({int.from_bytes(result[1:], 'little')})" if result[0] else "None"]
    elif kind == "bool":
        values = ["true" if result[0] else "false"]
    elif kind in ("u8", "usize", "u64"):
        values = [int.from_bytes(result, "little")]
    else:
        values = [result] if kind else []
    return values + ([room] if call.room else [])
