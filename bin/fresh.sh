# Sourced by scripts that use what is proved, with $root as the repository's root: has it proved and built first where it
# is missing or older than the crates.

# Whether a file is missing or older than something that it is proved from. Must-fail edits, what programs are run on and
# what rt keeps in out/ are no part of that.
stale() {
    [ "$root/crates.txt" -nt "$1" ] ||
        [ -n "$(find "$root"/crates/*/src "$root"/crates/*/specs "$root"/crates/*/proofs -newer "$1" -print -quit)" ]
}

# Makes a file under the root fresh: the file, the crate that it is made from, the command that makes it in the crate's
# folder, and its place there. It then bears the time before the build, so that an edit made meanwhile counts. One build
# at a time; others wait for it.
fresh() {
    local file=$root/$1 crate=$root/crates/$2 make=$3 made=$4
    stale "$file" || return 0
    (
        flock 9
        stale "$file" || exit 0
        before=$(mktemp)
        trap 'rm -f "$before" "$file.new"' EXIT
        cd "$crate" && "$make" </dev/null && mkdir -p "${file%/*}" && cp "$made" "$file.new" &&
            touch -r "$before" "$file.new" && mv "$file.new" "$file"
    ) 9<"$root/crates.txt"
}

# What rt says goes to standard error. It proves a program, builds it and runs it once, here over no input.
make_library() { rt lib >&2; }
make_program() { rt run >/dev/null; }

fresh_library() { fresh target/staticlib/libzalghimo.a zalghimo_c make_library out/libzalghimo_c.a; }
fresh_listing_program() { fresh target/bin/btsnoop_list btsnoop_list make_program out/btsnoop_list; }
