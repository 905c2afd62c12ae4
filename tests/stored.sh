# shellcheck shell=bash
# For scripts that run programs and hold what they print to stored texts: they set `subject`, their folder below tests/, and `root`, the
# repository, and source this file. `runs` counts the runs that were as stored.
runs=0

fault() {
    echo "FAULT: $subject: $*"
    exit 1
}

# Writes the pages to this folder: good, damaged, and too long by a byte and by more.
make_pages() {
    "$root/tests/target/release/listing_files" .
    cp "$root/crates/gvrs_list/data/page.gvrs" .
    cp page.gvrs too-long.gvrs
    truncate -s 16777217 too-long.gvrs
    cp page.gvrs longer.gvrs
    truncate -s 40000000 longer.gvrs
}

# Runs a program of the folder and writes the command, what it prints and a status that is not 0.
show() {
    local status=0
    echo "\$ $*"
    ./"$@" >printed 2>said || status=$?
    [ "$status" -lt 126 ] || fault "'$*': exit status $status"
    cat printed said
    [ "$status" -eq 0 ] || echo "exit status $status"
}

# $1 a function, whose output is to be what is stored under that name. It runs in a shell of its own, so that its fault is shown.
as_stored() {
    ("$1") >"$1.txt" || fault "$(tail -n 1 "$1.txt")"
    diff "$root/tests/$subject/$1.txt" "$1.txt" || fault "not what is stored as tests/$subject/$1.txt"
    runs=$((runs + $(grep -c '^\$ ' "$1.txt")))
}
