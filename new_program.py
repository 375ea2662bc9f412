#!/usr/bin/env python3
"""Begins a crate with a program of your own, which compresses a column and prints its tree.

    python3 new_program.py CRATE document|values

CRATE, as `my_program`, is the new crate's name. With `document` the program reads a document from standard input, as
`./vx compress` does; with `values` it makes the column itself, out of integers, and decodes the tree again. The crate
has a line in crates.txt, and the input and output by which `rt ci` tries the program.
"""

import sys

sys.dont_write_bytecode = True
from new_scheme import check_name, list_crates, write_crate

# The crates that the program names: the documents and the listing, the compressor with arrays and types, and the kit's errors.
BELOW = "vx_program vx_btrblocks anyhow"

DOCUMENT = """//! Reads a document from standard input, compresses its column over the shipped schemes, and prints the tree.
#![tactic(auto)]

use anyhow::{Result, bail};
use std::alloc::Global;
use std::io::Read;
use vx_btrblocks::{ArrayRef, BtrBlocksCompressor, ExecutionCtx, NoScheme};
use vx_program::{Document, Input, StdSource, Unread, listing_text, read_all, read_document};

// All bytes of the reader, of which a document has at most 2^26.
fn bytes_of<R: Read>(alloc: Global, reader: R) -> Result<Vec<u8>>
where
    R: Drop,
{
    let mut source = StdSource::new(reader);
    match read_all(alloc, &mut source)? {
        Input::Whole(bytes) => Ok(bytes),
        Input::TooLong => bail!("the document has more than 2^26 bytes"),
        Input::Fault => bail!("a read failed"),
    }
}

// The tree of the document's column. The document's sample words say where its samples are taken.
fn tree_of(alloc: Global, bytes: Vec<u8>) -> Result<ArrayRef> {
    match read_document(alloc, bytes) {
        Ok(Document { column, words }) => {
            let plain = column.into_plain(alloc)?;
            let mut ctx = ExecutionCtx::new(alloc, words);
            let compressor = BtrBlocksCompressor::<NoScheme>::shipped(alloc)?;
            Ok(compressor.compress_owned(plain, &mut ctx)?)
        }
        Err(Unread::BadDocument) => bail!("the bytes are no document"),
        Err(Unread::NoMemory) => bail!("no memory"),
    }
}

fn main(rt: HostRuntime) -> Result<()> {
    let alloc = rt.alloc();
    let bytes = bytes_of(alloc, rt.reader())?;
    let tree = tree_of(alloc, bytes)?;
    print!(rt; "{}", listing_text(alloc, &tree)?)?;
    Ok(())
}
"""

VALUES = """//! Makes a column, compresses it over the shipped schemes, prints the tree, and decodes it again.
#![tactic(auto)]

use anyhow::Result;
use std::alloc::Global;
use vx_btrblocks::Nullability::NonNullable;
use vx_btrblocks::{
    ArrayRef, BtrBlocksCompressor, ExecutionCtx, IntList, Ints, NoScheme, VortexResult, Words,
};
use vx_program::listing_text;

// A thousand moments, one a minute.
fn moments(alloc: Global) -> VortexResult<Vec<i64>> {
    let mut rows = Vec::new(alloc);
    for minute in 0..1000_u16 {
        rows.push(1_000_000_000 + 60 * i64::from(minute))?;
    }
    Ok(rows)
}

// The rows as a plain column without nulls.
fn column_of(rows: Vec<i64>) -> VortexResult<ArrayRef> {
    let column = ArrayRef::primitive(Ints::I64(IntList::from_vec(rows)), None, NonNullable)?;
    Ok(column)
}

// The column's tree. The sample words say where samples are taken; any will do, and the same ones give the same tree.
fn compressed(alloc: Global, column: &ArrayRef) -> VortexResult<ArrayRef> {
    let words = Words::from_vec(vec![in alloc; 0]?);
    let mut ctx = ExecutionCtx::new(alloc, words);
    let compressor = BtrBlocksCompressor::<NoScheme>::shipped(alloc)?;
    compressor.compress(column, &mut ctx)
}

fn main(rt: HostRuntime) -> Result<()> {
    let alloc = rt.alloc();
    let column = column_of(moments(alloc)?)?;
    let tree = compressed(alloc, &column)?;
    print!(rt; "{}", listing_text(alloc, &tree)?)?;
    let plain = tree.canonical(alloc)?;
    println!(rt;
        "{} bytes, and {} as a plain column",
        tree.nbytes(),
        plain.nbytes()
    )?;
    Ok(())
}
"""

# The source, and what the program is tried on and has to write.
FILES = {
    "document": {
        "src/main.rt": DOCUMENT,
        "stdin": '{"type":"i32?","rows":[null,20,20,null,20,20,20,20],"words":[0]}',
        "stdout": "vortex.masked i32? len=8 size=6\n  vortex.constant i32? len=8 size=5 value=20\n",
    },
    "values": {
        "src/main.rt": VALUES,
        "stdin": "",
        "stdout": "vortex.sequence i64 len=1000 size=0 first=1000000000 step=60\n0 bytes, and 8000 as a plain column\n",
    },
}


def main():
    if len(sys.argv) != 3 or sys.argv[2] not in FILES:
        sys.exit(__doc__.strip())
    crate, kind = sys.argv[1:]
    check_name(crate)
    write_crate(crate, FILES[kind])
    list_crates([f"{crate}: {BELOW}"])
    print(f"crates/{crate} stands, and is listed in crates.txt. In its folder `rt try` runs it, and `rt run` proves and builds it first.")


if __name__ == "__main__":
    main()
