# Sourced by the scripts that build C, from the repository's top folder. The archive and the programs are x86-64 code, and so is what is built here.
#   $cc          the compiler, with its warnings          $archive     the archive
#   $nm, $size   what lists an archive's names and sections
#   $stand_in    C files that answer the archive's calls with the plain C of bench/
#   $with        what a program is linked with: the archive, or where STAND_IN is 1 what stands in for it
#   build_archive FOLDER   proves and builds the archive where it is linked; the folder gets the log
[ "$(uname -m)" = x86_64 ] || { echo 'the archive and the programs are x86-64 code, which this machine does not run' >&2; exit 1; }
command -v gcc >/dev/null || { apt-get update && apt-get install -y gcc libc6-dev; } >/dev/null
cc='gcc -std=gnu11 -Wall -Wextra -Wno-unused-function' nm=nm size=size
archive=crates/flute/out/libflute.a
stand_in='tests/stand_in.c bench/plain.c'
with=$archive
[ "${STAND_IN:-0}" = 1 ] && with=$stand_in
build_archive() {
    [ "$with" = "$archive" ] || return 0
    echo 'proving and building the archive: some minutes the first time' >&2
    (cd crates/flute && rt lib) >"$1/build.log" 2>&1 || { cat "$1/build.log"; exit 1; }
}
