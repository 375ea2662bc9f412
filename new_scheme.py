#!/usr/bin/env python3
"""Begins a crate with a scheme of your own, as a copy of a scheme of `vx_examples`.

    python3 new_scheme.py CRATE TYPE finishing|part|texts

CRATE, as `my_schemes`, is the new crate's name, and TYPE, as `MyScheme`, the scheme's. A copy with `finishing` is of
`QuickPacking`, which finishes its tree; one with `part` is of `SpanFrame`, whose part is compressed again; one with
`texts` is of `JoinedTexts`, which takes texts and has a part. Beside the crate stands CRATE_tests with a test, and both
have a line in crates.txt.
"""

import re
import subprocess
import sys
from pathlib import Path

TOP = Path(__file__).resolve().parent

KINDS = {
    "finishing": ("QuickPacking", "quick_packing", "example.int.quickpacking", "compressor", "BitPacked", 0),
    "part": ("SpanFrame", "span_frame", "example.int.frame", "compressor_with_frames", "FoR", 1000),
    "texts": ("JoinedTexts", "joined_texts", "example.text.joined", "compressor_with_texts", "VarBin", 0),
}

# Words of the files of each scheme; a copy of another one leaves them out.
FILES = {
    "finishing": ("QuickPacking", "quick_packing", "QuickLemmas"),
    "part": ("SpanFrame", "span_frame"),
    "texts": ("JoinedTexts", "joined_texts"),
}
LEFT_OUT = {kind: [word for other, words in FILES.items() if other != kind for word in words] for kind in FILES}

# The wrong body that the check has to refuse: its name, the line and what it becomes.
EDITS = {
    "finishing": ("negative_values_are_packed", "        return EstimateVerdict::Skip;", "        return EstimateVerdict::AlwaysUse;"),
    "part": (
        "reference_is_one_too_small",
        "    one_part(alloc, differences(alloc, array, least)?)",
        "    one_part(alloc, differences(alloc, array, least - 1)?)",
    ),
    "texts": ("part_is_the_column_itself", "    one_part(alloc, array.row_offsets(alloc)?)", "    one_part(alloc, array.copy(alloc)?)"),
}

TEST = """//! Tests of `{type}`, with ample memory.
#![tactic(auto)]

#[cfg(test)]
mod tests {{
{uses}

    // 1,024 rows from {least} to {greatest}.
    fn rows(alloc: Global) -> VortexResult<Vec<Option<i128>>> {{
        let mut rows = Vec::new(alloc);
        for row in 0..1024_u16 {{
            rows.push(Some({least} + i128::from(row % 8)))?;
        }}
        Ok(rows)
    }}

    #[test]
    fn its_tree_is_smaller(rt: HostRuntime) -> Result<(), Fail> {{
        let rows = rows(rt.alloc())?;
        let array = column(rt.alloc(), U16, rows.as_slice())?;
        let tree = compressor(rt.alloc())?.compress(&array, &mut context(rt.alloc())?)?;
        assert!(rt; tree.encoding_id() == {id} && tree.nbytes() < array.nbytes());
        Ok(())
    }}
}}
"""

TEXTS_TEST = """//! Tests of `{type}`, with ample memory.
#![tactic(auto)]

#[cfg(test)]
mod tests {{
{uses}

    // Two letters, different for each of 1,024 rows.
    fn text(alloc: Global, row: u16) -> VortexResult<Bytes> {{
        let letters = [48 + (row / 32 % 32) as u8, 48 + (row % 32) as u8];
        Ok(Bytes::from_vec(Vec::from_slice(alloc, letters.as_slice())?))
    }}

    fn rows(alloc: Global) -> VortexResult<ByteRows> {{
        let mut rows = Vec::new(alloc);
        for row in 0..1024_u16 {{
            rows.push(text(alloc, row)?)?;
        }}
        Ok(ByteRows::from_vec(rows))
    }}

    #[test]
    fn its_tree_is_smaller(rt: HostRuntime) -> Result<(), Fail> {{
        let rows = rows(rt.alloc())?;
        let array = accepted(ArrayRef::var_bin_view(rows, None, DType::utf8(NonNullable)))?;
        let tree = compressor(rt.alloc())?.compress(&array, &mut context(rt.alloc())?)?;
        assert!(rt; tree.encoding_id() == {id} && tree.nbytes() < array.nbytes());
        Ok(())
    }}
}}
"""

# Words that the language keeps to itself.
KEYWORDS = set(
    "abstract as async await become box break const continue core crate do dyn else enum extern false final fn for ghost if impl in let "
    "loop macro match mod move mut override priv proc pub ref return self static std struct super test trait true try type typeof unsafe "
    "unsized use virtual where while yield".split()
)


# ---------------------------------------------------------------------------------------------
# names

def stop(reason):
    sys.exit(f"{Path(sys.argv[0]).name}: {reason}")


def libraries():
    """The names of the kit's libraries, or none where there is no rt to ask."""
    try:
        page = subprocess.run(["rt", "doc"], stdout=subprocess.PIPE, stderr=subprocess.DEVNULL, encoding="utf-8", check=True).stdout.strip()
        return {path.stem for path in (Path(page).parent / "rlibs").glob("*.rlib")}
    except (OSError, subprocess.CalledProcessError):
        return set()


def listed_crates():
    return set(re.findall(r"^(\w+)[^#:\n]*:", (TOP / "crates.txt").read_text(), re.M))


def check_name(*crates):
    """Stops where a crate can't have such a name."""
    for crate in crates:
        if not re.fullmatch(r"[a-z][a-z0-9_]*", crate):
            stop(f"{crate} is no name of a crate: small letters, digits and _, with a letter first.")
        if crate in KEYWORDS:
            stop(f"{crate} is a word of the language.")
        if crate in libraries():
            stop(f"{crate} is a library of the kit.")
        if (TOP / "crates" / crate).exists() or crate in listed_crates():
            stop(f"crates/{crate} is there already.")


def snake(name):
    return re.sub(r"(?<!^)(?=[A-Z])", "_", name).lower()


# ---------------------------------------------------------------------------------------------
# the copy

def renaming(crate, name, kind):
    """What makes a text of the old scheme one of the new."""
    old_type, old_name, old_id, old_compressor, _, _ = KINDS[kind]
    old_words, words = old_name.replace("_", " "), f"`{name}`"
    renamed = [
        # comments: one scheme is one thing, whatever its name
        (f"the scheme of {old_words}s?\\b", words),
        (f"(?i:{old_words})s?, and behind them", f"{words}, and behind it"),
        (f"(?i:{old_words})s?\\b", words),
        # code: the old names have a plural, which not every name has
        (f"{old_name}s\\b", snake(name)),
        (re.escape(old_id), f"{crate}.{snake(name)}"),
        (r"Rattle\.vx_examples\b", f"Rattle.{crate}"),
        (rf"\b{old_compressor}\b", "compressor"),
        (old_type, name),
        (old_name, snake(name)),
    ]

    def rename(text):
        for old, new in renamed:
            text = re.sub(old, lambda found: new, text)
        return text

    return rename


def copied(crate, name, kind):
    """The files of the new crate, by their paths in it."""
    rename, other, source = renaming(crate, name, kind), LEFT_OUT[kind], TOP / "crates" / "vx_examples"
    files = {}
    for path in sorted(source.rglob("*")):
        inside = path.relative_to(source)
        if path.is_dir() or inside.parts[0] not in ("src", "specs", "proofs") or any(word in str(inside) for word in other):
            continue
        text = path.read_text()
        if path.name in ("lib.rt", "Lib.antt"):
            text = "".join(line for line in text.splitlines(True) if not any(word in line for word in other))
        if re.search(rf"\b{name}\b", text):
            stop(f"{name} is a name that the copied files use already.")
        text = rename(text)
        if inside.parts[0] == "src" and len(inside.parts) == 2:     # the root, and the scheme's own file
            head = f"//! The scheme `{name}`, which begins as a copy of `{KINDS[kind][0]}` of vx_examples.\n"
            text = head + re.sub(r"\A(//!.*\n)+", "", text)
        files[rename(str(inside))] = text
    return files


def wrong_body(crate, name, kind, files):
    """The edit of must-fail/: its path and text."""
    edit, old, new = EDITS[kind]
    file = f"src/{snake(name)}.rt"
    if files[file].count(old) != 1:
        stop(f"the line of the wrong body isn't in vx_examples as expected: {old.strip()}")
    return f"must-fail/{edit}.edit", f"file: {file}\nold: {old}\nnew: {new}\n"


def test_of(crate, name, kind):
    *_, encoding, least = KINDS[kind]
    paths = [f"{crate}::compressor", "std::alloc::Global", "std::test::Fail", f"vx_base::ArrayId::{encoding}"]
    if kind == "texts":
        paths += ["vx_array::ArrayRef", "vx_base::Nullability::NonNullable", "vx_base::{ByteRows, Bytes, DType, VortexResult}",
                  "vx_fixtures::{accepted, context}"]
        uses = "\n".join(f"    use {path};" for path in sorted(paths))
        return TEXTS_TEST.format(type=name, uses=uses, id=encoding)
    paths += ["vx_base::PType::U16", "vx_base::VortexResult", "vx_fixtures::{column, context}"]
    uses = "\n".join(f"    use {path};" for path in sorted(paths))      # in the order in which `rt fmt` has them
    return TEST.format(type=name, uses=uses, id=encoding, least=least, greatest=least + 7)


# ---------------------------------------------------------------------------------------------
# writing

def write_crate(crate, files):
    for path, text in files.items():
        target = TOP / "crates" / crate / path
        target.parent.mkdir(parents=True, exist_ok=True)
        target.write_text(text)


def list_crates(lines):
    listed = TOP / "crates.txt"
    listed.write_text(listed.read_text() + "\n" + "".join(f"{line}\n" for line in lines))


def main():
    if len(sys.argv) != 4 or sys.argv[3] not in KINDS:
        sys.exit(__doc__.strip())
    crate, name, kind = sys.argv[1:]
    if not re.fullmatch(r"([A-Z][a-z0-9]+)+", name):
        stop(f"{name} is no name of a scheme: words that begin with a capital, as MyScheme.")
    check_name(crate, f"{crate}_tests")
    files = copied(crate, name, kind)
    files.update([wrong_body(crate, name, kind, files)])
    write_crate(crate, files)
    write_crate(f"{crate}_tests", {"src/lib.rt": test_of(crate, name, kind)})
    below = re.search(r"^vx_examples: (.*)$", (TOP / "crates.txt").read_text(), re.M).group(1)
    under_test = " ".join(dict.fromkeys(["vx_fixtures", crate, *below.split(), "vx_base"]))
    list_crates([f"{crate}: {below}", f"{crate}_tests: {under_test}"])
    print(f"crates/{crate} and crates/{crate}_tests stand, and are listed in crates.txt.")


if __name__ == "__main__":
    main()
