#!/usr/bin/env bash
# Installs into a temporary folder, and builds and runs programs in C, C++, Rust and Python over what is there.
# The command and the static library must have been built (bash tools/build).
set -euo pipefail
cd "$(dirname "$0")/.."

work=$(mktemp -d)
trap 'rm -rf "$work"' EXIT
prefix=$work/prefix
export PKG_CONFIG_PATH=$prefix/lib/pkgconfig PYTHONDONTWRITEBYTECODE=1
warnings=(-Wall -Wextra -Wpedantic -Werror)
day=crates/cases/data/case_of_document_01
programs=tests/installed

fail() {
    echo "installed: does not hold: $*" >&2
    exit 1
}

ok() {
    echo "installed: $*"
}

# What is asked, the text that a command must print, and the command.
prints() {
    local what=$1 expected=$2 printed
    printed=$("${@:3}" 2>&1) || fail "$what: status $?: $printed"
    [ "$printed" = "$expected" ] || fail "$what: it printed: $printed"
    ok "$what"
}

# Runs a command that must end with this status.
with_status() {
    local status=0
    "${@:2}" || status=$?
    [ "$status" -eq "$1" ]
}

first_line() {
    "$@" | sed -n 1p
}

# The names that a library offers to the linker.
symbols() {
    nm --defined-only "$@" | awk 'NF == 3 { print $3 }' | sort
}

# The names that a library needs from outside.
needed() {
    nm --undefined-only "$@" | awk '$1 == "U" { sub(/@.*/, "", $2); print $2 }' | sort -u
}

# The sections that a program may write to.
writable_sections() {
    readelf -SW "$1" | sed -n 's/^ *\[ *[0-9]*\] \(\.[^ ]*\) .* W[A-Z]* .*/\1/p'
}

# The flags that pkg-config has for the library.
flags() {
    pkg-config "$@" citronreef
}

# Files

bash tools/libraries
bash tools/install PREFIX="$prefix" >/dev/null
bash tools/install DESTDIR="$work/packaged" PREFIX=/usr >/dev/null
documents=$prefix/share/doc/citronreef
for file in bin/citronreef include/citronreef.h lib/libcitronreef.a lib/libcitronreef.so lib/libcitronreef.so.0 \
    lib/libcitronreef.so.0.1.0 lib/pkgconfig/citronreef.pc lib/python3/dist-packages/citronreef/__init__.py \
    share/man/man1/citronreef.1 share/bash-completion/completions/citronreef \
    share/doc/citronreef/{COMMAND,LIBRARY,REFUSALS,TEXT}.md share/doc/citronreef/samples/{case,day}.txt; do
    [ -f "$prefix/$file" ] || fail "$file is installed under PREFIX"
    [ -f "$work/packaged/usr/$file" ] || fail "$file is installed under DESTDIR"
done
ok "every file is in its place, under PREFIX and under DESTDIR"
prints "pkg-config names the version" 0.1.0 flags --modversion
prints "pkg-config names the prefix of a package" /usr \
    env PKG_CONFIG_PATH="$work/packaged/usr/lib/pkgconfig" pkg-config --variable=prefix citronreef
prints "the installed command runs" "citronreef 0.1.0" first_line "$prefix/bin/citronreef" --version
completed=$(source "$prefix/share/bash-completion/completions/citronreef" && complete -p citronreef)
[[ $completed = *'-F _citronreef citronreef' ]] || fail "bash completes the command's words: $completed"
ok "bash completes the command's words"
for words in prefix=/tmp PREFIX= PREFIX=relative DESTDIR=relative 'PREFIX=/a$b' 'PREFIX=/a(b' $'PREFIX=/a\nb'; do
    said=$(with_status 2 bash tools/install DESTDIR="$work/refused" "$words" 2>&1) || fail "install refuses $words: $said"
    [ -n "$said" ] && [ ! -e "$work/refused" ] && [ ! -e relative ] || fail "install says why it refuses $words, and does nothing"
done
said=$(PREFIX='' with_status 2 bash tools/install DESTDIR="$work/refused" 2>&1) || fail "install refuses no PREFIX at all: $said"
ok "install refuses words that it does not know, and folders that do not start with / or that pkg-config cannot say"

# The shared library

shared=$prefix/lib/libcitronreef.so
declared=$(grep -o 'citronreef_[a-z_]*(' include/citronreef.h | tr -d '(' | sort)
prints "the shared library has the functions of the header and nothing else" "$declared" symbols -D "$shared"
prints "the static library has the same" "$declared" symbols --extern-only "$prefix/lib/libcitronreef.a"
prints "the static library needs nothing but memset" memset needed "$prefix/lib/libcitronreef.a"
prints "the shared library needs no more" memset needed -D "$shared"
readelf -dW "$shared" | grep -q 'SONAME.*\[libcitronreef\.so\.0\]' || fail "the name of the shared library"
readelf -lW "$shared" | grep -q 'GNU_STACK.* RW ' || fail "no executable stack is demanded"
ok "the shared library is libcitronreef.so.0 and demands no executable stack"
# The loader makes these two read-only once it has filled them.
prints "no writable data in the shared library" $'.dynamic\n.got' writable_sections "$shared"
readelf -lW "$shared" | grep -q 'GNU_RELRO' || fail "what the loader fills is read-only afterwards"
prints "no writable data in the static library" "" writable_sections "$prefix/lib/libcitronreef.a"

# C and C++

settled=$'24060 cents\n-9624 cents\nAUD 14436, NZD 0, resent 1'
read -ra with < <(flags --cflags --libs)
gcc -std=c11 "${warnings[@]}" "$programs/example.c" "${with[@]}" -Wl,-rpath,"$prefix/lib" -o "$work/shared"
readelf -dW "$work/shared" | grep -q 'NEEDED.*libcitronreef\.so\.0' || fail "the C program takes the shared library"
prints "a C program with the shared library" "$settled" "$work/shared" <"$day"
read -ra with < <(flags --cflags --libs --static)
gcc -std=c11 "${warnings[@]}" "$programs/example.c" -static "${with[@]}" -o "$work/static"
prints "a C program with the static library" "$settled" "$work/static" <"$day"
read -ra with < <(flags --cflags --libs)
gcc -std=c11 "${warnings[@]}" "$programs/making.c" "${with[@]}" -Wl,-rpath,"$prefix/lib" -o "$work/making"
prints "a C program that makes a day file" "" cmp <("$work/making") "$day"
g++ -std=c++11 "${warnings[@]}" "$programs/example.cpp" "${with[@]}" -Wl,-rpath,"$prefix/lib" -o "$work/vectors"
prints "a C++ program with empty vectors" $'refused 1, positions 0\nrefused 0, positions 0' "$work/vectors"
gcc -std=c11 "${warnings[@]}" "$programs/lent.c" "${with[@]}" -Wl,-rpath,"$prefix/lib" -o "$work/lent"
prints "null with length 0, files, lists and sheets at any byte, and lists that overlap" "" "$work/lent"
gcc -std=gnu11 "${warnings[@]}" -pthread "$programs/stack.c" "${with[@]}" -Wl,-rpath,"$prefix/lib" -o "$work/stack"
stack=$("$work/stack") || fail "the stack that the header promises: $stack"
ok "stack: $stack"

# What docs/LIBRARY.md says of a folder that the loader does not know.
mkdir "$work/told"
cp "$programs/example.c" "$day" "$work/told"
mv "$work/told/${day##*/}" "$work/told/day.bin"
sed -n '/^### An install that the loader/,/^### Rust/s/^    //p' docs/LIBRARY.md |
    sed "s|/opt/citronreef|$prefix|g" >"$work/told/commands"
[ "$(wc -l <"$work/told/commands")" -eq 6 ] || fail "docs/LIBRARY.md says how the loader finds the library"
prints "a run path, or LD_LIBRARY_PATH, as docs/LIBRARY.md says" "$settled"$'\n'"$settled" env -C "$work/told" bash -e commands

# Folders with a space and with what sed, pkg-config or a shell would take as theirs: of an install, and of the repository itself.

odd=$work/$'a b&c|d\\e\'f"g#h*i\\1@version@'
from_odd() {
    local PKG_CONFIG_PATH=$1
    eval gcc "$programs/example.c" "$(flags --cflags --libs)" -o "$work/from_odd"
    LD_LIBRARY_PATH=$1/$2 "$work/from_odd" <"$day"
}
bash tools/install PREFIX="$odd/prefix" >/dev/null
prints "a C program with an odd PREFIX" "$settled" from_odd "$odd/prefix/lib/pkgconfig" ..
prints "the Python module of an odd PREFIX" "$odd/prefix/lib/libcitronreef.so.0" \
    env PYTHONPATH="$odd/prefix/lib/python3/dist-packages" python3 -c 'import citronreef; print(citronreef._library._name)'
mkdir -p "$odd/checkout/crates/citronreef/out"
cp -r tools include "$odd/checkout"
cp crates/citronreef/out/libcitronreef.a "$odd/checkout/crates/citronreef/out"
bash "$odd/checkout/tools/libraries"
prints "a C program with an odd repository" "$settled" from_odd "$odd/checkout/target/lib" .
mkdir "$work/with(parentheses)"
cp -r "$odd/checkout/"* "$work/with(parentheses)"
told=$(bash "$work/with(parentheses)/tools/libraries" 2>&1) || fail "libraries where pkg-config cannot say the folder: $told"
[[ $told = pkgconfig:* ]] && [ ! -e "$work/with(parentheses)/target/lib/citronreef.pc" ] || fail "no pkg-config file there: $told"
ok "where pkg-config cannot say the folder, the libraries are made and it is told"

# Python

export PYTHONPATH=$prefix/lib/python3/dist-packages
prints "the Python module is the installed one" "$PYTHONPATH/citronreef/__init__.py $prefix/lib/libcitronreef.so.0" \
    python3 -c 'import citronreef; print(citronreef.__file__, citronreef._library._name)'
prints "a Python program" "98784544 cents
(24060, -9624) 14436 0 1
MarkPrices(previous=Decimal('95.0000'), final_price=Decimal('95.0100'), corrected_by=7, change_cents=2406)
True
7 0 a mark's price is not a multiple of its product's tick" python3 "$programs/example.py" <"$day"
for test in python/test_*.py; do
    tested=$(python3 "$test" 2>&1) || fail "$test: $tested"
    ok "$test: $(sed -n 's/^Ran \([0-9]* tests\).*/\1/p' <<<"$tested")"
done
if told=$(CITRONREEF_LIBRARY=/nonexistent python3 -c 'import citronreef' 2>&1); then fail "no import without a library"; fi
grep -q '^ImportError: /nonexistent cannot be loaded' <<<"$told" || fail "a sentence where there is no library: $told"
ok "Python without the library says what to do"

# Rust

mkdir "$work/rust"
cat >"$work/rust/Cargo.toml" <<END
[package]
name = "example"
version = "0.0.0"
edition = "2021"
[[bin]]
name = "example"
path = "$PWD/$programs/example.rs"
[dependencies]
citronreef = { path = "$PWD/rust/citronreef" }
END
built() {
    CITRONREEF_LIB=$1 cargo build --offline --quiet --manifest-path "$work/rust/Cargo.toml" --target-dir "$work/rust/target" 2>&1
}
if told=$(built /nonexistent); then fail "no Rust build without the library"; fi
grep -q 'There is no /nonexistent/libcitronreef.a. Run `' <<<"$told" || fail "a sentence where there is no library: $told"
ok "a Rust build without the library says what to run"
for folder in crates/citronreef/out ''; do
    if told=$(built "$folder"); then fail "no Rust build with a folder that does not start with /"; fi
    grep -q "^ *CITRONREEF_LIB=$folder does not start with /\." <<<"$told" || fail "a sentence on a relative folder: $told"
done
ok "a Rust build with a relative CITRONREEF_LIB says so"
told=$(built "$prefix/lib") || fail "a Rust program is built: $told"
prints "a Rust program" "[24060, -9624] cents, AUD 14436, NZD 0, resent 1
MarkPrices { previous: 950000, final_price: 950100, corrected_by: Some(7), change: 2406 }
true
Error: Refusal { number: 7, index: 0 }" with_status 1 "$work/rust/target/debug/example" <"$day"

# Documents

page=$prefix/share/man/man1/citronreef.1
python3 - "$page" "$documents" "$programs"/{example.*,making.c} <<'END' || exit 1
"""LIBRARY.md shows every program, the manual page has every row of REFUSALS.md, and no page names a page that is not installed."""
import re
import sys
from pathlib import Path

page, documents = Path(sys.argv[1]).read_text().replace("\\-", "-"), Path(sys.argv[2])
shown, refusals = (Path(documents, name).read_text() for name in ("LIBRARY.md", "REFUSALS.md"))
for text in (page, shown, refusals, Path("include/citronreef.h").read_text()):
    for named in re.findall(r"(?!CHECKS)\b[A-Z]+\.md|samples/\w+\.txt", text):
        if not Path(documents, named).exists():
            sys.exit(f"installed: does not hold: {named} is installed")
    if "docs/" in text:
        sys.exit("installed: does not hold: pages are named by words that hold where they are installed")
for name in sys.argv[3:]:
    program = "".join(f"    {line}".rstrip() + "\n" for line in Path(name).read_text().splitlines())
    if program not in shown:
        sys.exit(f"installed: does not hold: docs/LIBRARY.md shows {name}")
for number, words in re.findall(r"^\| (\d+) \| (.*?) \|", refusals, re.MULTILINE):
    if f"\n.B {number}\n{words[0].upper()}{words[1:]}.\n" not in page:
        sys.exit(f"installed: does not hold: the manual page has the words of {number}")
END
ok "LIBRARY.md shows these programs, the manual page the checks, and the pages that are named are installed"
for name in $("$prefix/bin/citronreef" --help | sed -n '/^Commands:/,/^$/s/^  \([a-z]*\) .*/\1/p'); do
    grep -q "^\.B citronreef $name\$" "$page" || fail "the manual page has the command $name"
    for option in $("$prefix/bin/citronreef" "$name" --help | sed -n 's/^ .* --\([a-z]*\).*/\1/p'); do
        grep -q -- "\\\\-\\\\-$option" "$page" || fail "the manual page has the option --$option of $name"
    done
done
ok "the manual page has every command and every option"
env -C "$documents" "$prefix/bin/citronreef" make samples/day.txt -o "$work/day.bin"
prints "the examples of the manual page run beside the installed documents" "1001 IR 3 27 1810500 AUD" \
    first_line "$prefix/bin/citronreef" sheet "$work/day.bin"
row=$(with_status 1 "$prefix/bin/citronreef" explain --csv 2>/dev/null </dev/null) || fail "a refusal with --csv has status 1"
[[ $row = refused,1,0,*'the file is shorter than 24 bytes'* ]] || fail "a refusal is one row of --csv: $row"
with_status 2 "$prefix/bin/citronreef" sheet "$work/day.bin" -o "$work/day.bin" 2>/dev/null || fail "-o refuses its own input"
[[ $("$prefix/bin/citronreef" --version) = *1,000,000* ]] || fail "--version prints the limit of lots"
closed='import os, subprocess as s, sys; r, w = os.pipe(); os.close(r); print(s.run(sys.argv[1:], stdout=w, stderr=s.PIPE))'
said=$(python3 -c "$closed" "$prefix/bin/citronreef" sheet "$work/day.bin")
[[ $said = *"returncode=2, stderr=b'')" ]] || fail "a closed pipe is quiet: $said"
ok "the command does what the manual page says of --csv, -o, --version and a closed pipe"
if command -v groff >/dev/null; then
    groff -man -Tutf8 -ww "$page" >/dev/null 2>"$work/faults"
    prints "the manual page has no fault" "" cat "$work/faults"
fi
