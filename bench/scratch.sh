# Sourced by the measuring scripts, which go to the top of the repository first.

top=$(pwd)
scratch=$(mktemp -d)
trap 'rm -rf "$scratch"' EXIT

# scratch_with PROGRAM "DEPS OF THE PROGRAM" CRATE..: makes a repository in $scratch with these crates of this one, and a
# program that has no sources yet, in $bench. A crate that was built here comes with its library, so that it isn't proved once more.
scratch_with() {
    program=$1
    deps=$2
    shift 2
    for crate in "$@"; do
        mkdir -p "$scratch/crates/$crate"
        for part in src specs proofs; do cp -r "$top/crates/$crate/$part" "$scratch/crates/$crate/"; done
        if [ -d "$top/crates/$crate/out/rlib" ]; then
            mkdir "$scratch/crates/$crate/out"
            cp -r "$top/crates/$crate/out/rlib" "$scratch/crates/$crate/out/"
        fi
        grep "^$crate:" "$top/crates.txt" >> "$scratch/crates.txt"
    done
    cp "$top/HANDLES" "$scratch/"
    git -C "$scratch" init -q
    bench="$scratch/crates/$program"
    mkdir -p "$bench/src" "$bench/specs" "$bench/proofs" "$bench/data"
    echo "$program: $deps" >> "$scratch/crates.txt"
    printf '' > "$bench/proofs/Lib.antt"
    printf '' > "$bench/specs/Lib.antt"
}

# Proves and builds the program, and prints what is left to prove where that fails.
build() {
    cd "$bench"
    rt run > "$scratch/log" 2>&1 || true
    if [ ! -x "out/$program" ]; then
        grep -v '^statements\|^logic\|proved$' "$scratch/log" | cut -c1-600
        exit 1
    fi
}
