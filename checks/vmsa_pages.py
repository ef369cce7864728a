#!/usr/bin/env -S python3 -B
"""The crate vmsa_page and a plain reader make the same of VMSA pages and of JSON texts, both ways.

    vmsa_pages.py                   the comparison
    vmsa_pages.py --write FOLDER    also writes what the program is given, and what it has to put
    vmsa_pages.py --full N          with N pages of random bytes at every place, half a second each

The reader was written from docs/VMSA.md alone, and is compared with known answers first. Pages are of random bytes, at
every place, at many or at few, and some end early. Each goes to JSON and back, most texts also in another spelling and
broken, the same in each run. A program over the crate, made for this check alone, puts a line for each. Ends with 77
where `rt` is missing.
"""
import argparse
import random
import sys

import crate_program
from lists import Refused
from random_vmsas import broken, random_page, spelled
from vmsa_cases import KNOWN
from vmsas import SIZE, page_of, text_of

CASES, PAGES, BROKEN, SEED = 52, 10, 4, 18      # pages of a case, and broken texts of each
FULL = 8                                        # pages of random bytes at every place, unless it is told how many

PROGRAM = '''//! What the crate makes of each line of the input: of `p` and the bytes of a page its text, of a text its
//! page or why it has none.
#![tactic(auto)]

use std::io::{self, Read};
use vmsa_page::{VmsaRefusal, read_page, read_vmsa_json, vmsa_text, write_page};

fn main(rt: HostRuntime) -> io::Result<()> {
    let mut input = Vec::new(rt.alloc());
    rt.stdin().read_to_end(&mut input)?;
    for line in input.split(|byte| *byte == b'\\n') {
        match line.strip_prefix(b"p ") {
            Some(digits) => put_text(&rt, digits)?,
            None => put_page(&rt, line)?,
        }
    }
    Ok(())
}

/// The text of a page.
fn put_text(rt: &HostRuntime, digits: &[u8]) -> io::Result<()> {
    let page = hex::decode(rt.alloc(), digits).unwrap();
    let vmsa = read_page(rt.alloc(), &page).unwrap();
    let text = vmsa_text(rt.alloc(), &vmsa).unwrap();
    println!(rt; "{}", str::from_utf8(&text).unwrap())
}

/// The page of a text.
fn put_page(rt: &HostRuntime, text: &[u8]) -> io::Result<()> {
    match read_vmsa_json(rt.alloc(), text) {
        Ok(vmsa) => {
            let mut page = [1; 4096];
            write_page(&vmsa, &mut page);
            println!(rt; "{}", hex::encode(rt.alloc(), &page).unwrap())
        }
        Err(VmsaRefusal::NotJson) => println!(rt; "no JSON"),
        Err(VmsaRefusal::Field { place }) => println!(rt; "place {}", place),
        Err(VmsaRefusal::Memory) => println!(rt; "want of memory"),
    }
}
'''


def line_of(answer):
    """The line that the program has to put for a text: of its page, or of what is behind `igvm: json refused`."""
    return answer.hex() if isinstance(answer, bytes) else answer.replace(": vmsa ", "place ") or "no JSON"


def answer_of(text):
    """The line by the plain reader."""
    try:
        return line_of(page_of(text.encode()))
    except Refused as refused:
        return line_of(refused.where)


def both_ways(page):
    """What the program is given of a page, and the lines that it has to put."""
    text = text_of(page)
    return ("p " + page.hex(), text), (text, page.ljust(SIZE, b"\0").hex())


def random_lines(chance):
    """The same of some random pages, and of their texts in other spellings."""
    for _ in range(PAGES):
        page = random_page(chance)
        there, (text, back) = both_ways(page)
        yield from (there, (text, back), (spelled(chance, text), back))
        for _ in range(BROKEN):
            found = broken(chance, text)
            yield found, answer_of(found)


def joined(lines):
    given, wanted = zip(*lines)
    return "\n".join(given).encode(), "\n".join(wanted) + "\n"


def all_lines(full):
    """What the program is given and what it has to put, line by line, by the name of a case."""
    chance = random.Random(SEED)
    known = [(text, line_of(answer)) for text, answer in KNOWN]
    return {"known": known, **{f"random_{n}": [*random_lines(chance)] for n in range(CASES)},
            **{f"full_{n}": both_ways(chance.randbytes(SIZE)) for n in range(full)}}


def faults_of(texts):
    """Where the plain reader itself is wrong: known answers, and texts of pages that are known. And what is missing."""
    for given, wanted in texts:
        if answer_of(given) != wanted:
            yield f"{given[:100]}: the reader says {answer_of(given)[:60]}"
    answers = {wanted for _, wanted in texts}
    yield from (f"no text is answered place {place}" for place in range(25) if f"place {place}" not in answers)


def main():
    arguments = argparse.ArgumentParser(description="the crate vmsa_page and a plain reader on many pages and texts")
    arguments.add_argument("--write", metavar="FOLDER")
    arguments.add_argument("--full", metavar="N", type=int, default=FULL)
    options = arguments.parse_args()
    folder = options.write
    groups = all_lines(options.full)
    texts = [line for lines in groups.values() for line in lines if not line[0].startswith("p ")]
    faults = [*faults_of(texts)]
    cases = {name: joined(lines) for name, lines in groups.items()}
    if folder:
        crate_program.write_cases(folder, cases)
    status, lines = (1, faults) if faults else crate_program.run(PROGRAM, ["vmsa_page", "hex"], cases)
    for line in lines:
        print(f"vmsa pages: {line}")
    if not status:
        pages, accepted = CASES * PAGES + options.full, sum(len(wanted) == 2 * SIZE for _, wanted in texts)
        print(f"vmsa pages: {pages} pages and {len(texts)} texts agree, {accepted} texts accepted")
    return status


if __name__ == "__main__":
    sys.exit(main())
