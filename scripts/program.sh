# What ./coati, ./explain and ./build share: which sources a program is built from, where the proved program of them is
# kept, and how it is run, proved or not. A program goes by the name of its crate.
# It is read with `root` set to the top of the repository, and `script` to the name that messages begin with.
# shellcheck shell=sh
: "${root:?}" "${script:?}"

say() {
    echo "$script: $*" >&2
}

fail() {
    say "$@"
    exit 1
}

# The program of this name and each crate of the repository below it, lowest first: a line has a crate and the crates
# that it uses.
crates_of_program() {
    awk -v program="$1" '
        function visit(name,    names, count, at, own) {
            if (!(name in below) || name in visited) return
            visited[name] = 1
            count = split(below[name], names, " ")
            for (at = 1; at <= count; at++) {
                visit(names[at])
                if (names[at] in below) own = own " " names[at]
            }
            print name own
        }
        { sub(/#.*/, "") }
        at = index($0, ":") {
            split(substr($0, 1, at - 1), head, " ")
            below[head[1]] = substr($0, at + 1)
        }
        END { visit(program) }
    ' "$root/crates.txt"
}

# A checksum of all that the program of this name is built from: names and contents alone, so that neither times nor
# places count. A run computes it each time. cksum takes a third of the time of sha256sum, and what it guards against is
# accident.
sum_of_sources() (
    cd "$root" || exit 1
    crates=$(crates_of_program "$1")
    set -- crates.txt
    while read -r crate _; do
        for part in src specs proofs; do
            [ ! -d "crates/$crate/$part" ] || set -- "$@" "crates/$crate/$part"
        done
    done <<END
$crates
END
    find "$@" -type f -exec cksum {} + | LC_ALL=C sort | cksum | {
        read -r checksum length
        echo "$checksum-$length"
    }
)

# Where the proved program of this name, of sources with that checksum, is kept. It is not below crates/, where `rt ci`
# clears out/.
program_of() {
    echo "$root/out/$1-$2"
}

need_toolchain() {
    command -v rt >/dev/null ||
        fail "rt is not on the PATH: it is the command of the Rattle toolchain; README.md tells of it under \"The kit\""
}

# `rt try` reads a pipe only until it is silent for two seconds, so it gets a file. coati needs no input for no words,
# and must not wait for a terminal's.
keep_input() {
    if [ "$name" = coati ] && [ $# -eq 0 ]; then
        : >"$room/input"
    else
        # The status is the program's for an input that fails.
        cat >"$room/input" || exit 3
    fi
}

# Passes on what was said, other than the two lines with which `rt try` ends a run that went well.
tell_the_rest() {
    grep -v -e '^checked: ended status=' -e '^run=ended status=' "$room/said" >&2
}

# Runs the sources of the program `name` unproved, with these words.
run_unproved() {
    say "not proved yet: rt try runs these sources, in about a minute; $(build_command_of "$name") proves them for later runs"
    room=$(mktemp -d) || exit 1
    trap 'rm -rf "$room"' EXIT
    trap 'exit 130' HUP INT TERM
    keep_input "$@"
    (cd "$root/crates/$name" && exec rt try --seconds 3600 -- "$@") <"$room/input" 2>"$room/said"
    status=$?
    tell_the_rest
    # The statuses of rt try itself are among the program's too, so its last line tells whose this one is.
    tail -n 1 "$room/said" | grep -q "^run=ended status=$status " ||
        fail "the unproved run gave no answer, as told above"
    exit "$status"
}

# What builds the program of this name.
build_command_of() {
    case $1 in
    coati) echo ./build ;;
    *) echo "./build $1" ;;
    esac
}

# Runs the program of this name with the words behind it, in place of this script: proved, where it is built from these
# very sources.
run_program() {
    name=$1
    shift
    program=$(program_of "$name" "$(sum_of_sources "$name")")
    if [ -x "$program" ]; then
        exec "$program" "$@"
    fi
    need_toolchain
    run_unproved "$@"
}
