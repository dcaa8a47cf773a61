# shellcheck shell=bash disable=SC2154
# Sourced by the scripts at the root: builds a program on first use, and again when a source has changed. A script sets `root`, the
# repository's folder, before it sources this, and then
#   name      the program's name
#   program   the file that is run
#   sources   the files and folders that it is built from
#   tools     the commands that its build needs
#   build     a function that builds it in the folder `root`, with nothing on standard input

declare -A what=([rt]="the command of the Rattle toolchain" [cargo]="the command of the Rust toolchain" [cc]="a C compiler")

# fail STATUS WORDS..: says why there is no answer, and ends.
fail() {
    echo "${*:2}" >&2
    exit "$1"
}

# is_built: the program is there, and no source is newer than its stamp.
is_built() {
    [ -x "$program" ] && [ -e "$stamp" ] || return 1
    [ -z "$(find "${sources[@]}" -newer "$stamp" -print -quit 2>/dev/null)" ]
}

# build_on_first_use: builds the program if it is not there or too old, one program at a time; what is said meanwhile goes to standard
# error. The stamp is from before the sources are read.
build_on_first_use() {
    local stamp=$root/target/$name.stamp tool
    if is_built; then return; fi
    for tool in "${tools[@]}"; do
        command -v "$tool" >/dev/null || fail 1 "$name: it has to be built, and $tool, ${what[$tool]}, is not on the PATH"
    done
    mkdir -p "$root/target"
    exec 9>"$root/target/first-use.lock"
    if command -v flock >/dev/null; then flock 9; fi
    if ! is_built; then
        echo "$name: proving and building it (some minutes if nothing is proved yet)" >&2
        touch "$stamp.new"
        (cd "$root" && build) </dev/null 3<&- 9>&- >&2
        mv "$stamp.new" "$stamp"
    fi
    exec 9>&-
}
