# Sourced by what runs the programs, with the repository's top folder in $root.
#   program_at NAME   where a program stands once it is built
#   is_current NAME   whether it stands there, and no source is newer
#   build NAME        proves and builds it, and says whether it is built; what the prover prints comes on standard output
program_at() { echo "$root/crates/$1/out/$1"; }

is_current() (
    built=$(program_at "$1")
    [[ -x $built ]] || exit 1
    shopt -s globstar nullglob
    for file in "$root"/crates.txt "$root"/crates/*/{src,specs,proofs}/**/*; do
        [[ -f $file && $file -nt $built ]] && exit 1
    done
    exit 0
)

# `rt run` builds, and then runs the program, here on no input. Beside a program that is built it leaves a stamp: an older one is taken away first, so that one
# is there only if this build came to its end.
build() {
    local built
    built=$(program_at "$1")
    rm -f "$built.stamp"
    (cd "$root/crates/$1" && rt run </dev/null 2>&1 >/dev/null)
    [[ -x $built && -e $built.stamp ]] && touch "$built"
}
