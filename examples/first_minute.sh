#!/bin/sh
# Tries what somebody meets who has just cloned this: that ./coati runs at once with nothing built, and that it runs a
# proved program exactly where that was built from sources of the same content. It says what is broken, and ends with
# status 1 where something is.
#
# Runs with nothing built use the toolchain itself, and take about a minute. What is said of proved programs is tried
# over a stand-in for `rt`, since a proof takes long.
cd "$(dirname "$0")/.." || exit 1
room=$(mktemp -d) || exit 1
trap 'rm -rf "$room"' EXIT
trap 'exit 130' HUP INT TERM
broken=0

# Says what is broken where the second word is not the third.
expect() {
    if [ "$2" != "$3" ]; then
        printf 'broken: %s\n  wanted: %s\n  found:  %s\n' "$1" "$2" "$3" >&2
        broken=1
    fi
}

# A copy of the repository as a clone has it, with nothing built.
clone() {
    mkdir "$1" || exit 1
    tar -cf - --exclude=./.git --exclude="./crates/*/out" --exclude=./out . | tar -xf - -C "$1"
}

# Runs ./coati of a clone, and keeps its output, what it says on standard error, and its status.
run_in() {
    copy=$1 name=$2
    shift 2
    "$copy/coati" "$@" >"$room/$name.output" 2>"$room/$name.said"
    echo $? >"$room/$name.status"
}

expect_unproved() {
    expect "$1: one line says that the run is not proved, and what proves it" \
        "1 1" "$(wc -l <"$room/$1.said") $(grep -c 'not proved.*\./build' "$room/$1.said")"
}

# The program's own stored run, and no words at all, which are answered with the usage line and status 2.
try_with_nothing_built() {
    clone "$room/new"
    # shellcheck disable=SC2046 # a word a line
    run_in "$room/new" stored $(cat crates/coati/args) <crates/coati/stdin &
    run_in "$room/new" usage </dev/null &
    wait
    cmp -s crates/coati/stdout "$room/stored.output"
    expect "the stored run writes its text" 0 $?
    expect "the stored run's status" 0 "$(cat "$room/stored.status")"
    expect_unproved stored
    expect "no words are answered with the usage line" 1 "$(grep -c '^usage: coati ' "$room/usage.output")"
    expect "the status for no words" 2 "$(cat "$room/usage.status")"
    expect_unproved usage
}

# A stand-in for `rt`. Its programs tell what they are, their words and their input, and end with statuses of their own.
make_stand_in() {
    mkdir "$room/stand-in"
    cat >"$room/program" <<'END'
#!/bin/sh
printf 'proved:'
printf ' <%s>' "$@" "$(cat)"
exit 4
END
    cat >"$room/stand-in/rt" <<END
#!/bin/sh
echo "\$1" >>"$room/calls"
case \$1 in
version) echo "a toolchain" ;;
try)
    while [ "\$1" != -- ]; do shift; done
    shift
    printf 'unproved:'
    printf ' <%s>' "\$@" "\$(cat)"
    printf 'checked: ended status=6\nrun=ended status=6 runners=1 proved=no\n' >&2
    exit 6
    ;;
all) printf '== %s\n' coati_word coati summary ;;
run)
    name=\${PWD##*/}
    mkdir -p out && cp "$room/program" "out/\$name" && chmod 755 "out/\$name"
    printf 'logic=proved\nrt: running out/%s\n' "\$name"
    exit 2
    ;;
esac
END
    chmod 755 "$room/stand-in/rt"
}

# Tells what ./coati of a clone does on two words and an input, and what it asked of `rt`.
told_by() {
    : >"$room/calls"
    told=$(echo input | "$1" one 'two words' 2>/dev/null)
    echo "$told $?$(sed 's/^/ rt /' "$room/calls")"
}

# A folder with the commands that a run needs, and no `rt`.
make_path_without_toolchain() {
    mkdir "$room/plain"
    for tool in awk cat cksum cut dirname env find grep mktemp readlink rm sed sh sort tail tr; do
        ln -s "$(command -v "$tool")" "$room/plain/$tool"
    done
}

try_matching_by_content() {
    make_stand_in
    make_path_without_toolchain
    with_toolchain=$room/stand-in:$PATH
    proved='proved: <one> <two words> <input> 4'
    unproved='unproved: <one> <two words> <input> 6 rt try'
    here=$room/new

    PATH=$with_toolchain
    expect "with nothing built the sources run unproved" "$unproved" "$(told_by "$here/coati")"
    "$here/build" </dev/null 2>"$room/first" &
    "$here/build" </dev/null 2>"$room/second"
    expect "a build beside another" 0 $?
    wait $!
    expect "another build beside it" 0 $?
    expect "the program that was built is run, with its words, input and status" "$proved" "$(told_by "$here/coati")"
    find "$here" -exec touch {} +
    expect "newer times start no build" "$proved" "$(told_by "$here/coati")"
    expect "the explaining program is another, and not built yet" "$unproved" "$(told_by "$here/explain")"
    "$here/build" explain </dev/null 2>/dev/null
    expect "the status of its build" 0 $?
    expect "the explaining program is run once it is built" "$proved" "$(told_by "$here/explain")"
    "$here/build" another </dev/null 2>/dev/null
    expect "the status of the build of no program" 1 $?
    cp -R "$here" "$room/elsewhere"
    expect "a copy elsewhere starts no build" "$proved" "$(told_by "$room/elsewhere/coati")"
    ln -s "$here/coati" "$room/link"
    expect "a run through a symbolic link, from another folder" "$proved" "$(cd / && told_by "$room/link")"
    : >"$room/calls"
    "$here/build" </dev/null 2>/dev/null
    expect "a second build proves nothing" version "$(cat "$room/calls")"
    cp "$here/crates/coati_word/src/lib.rt" "$room/before"
    echo '// A change.' >>"$here/crates/coati_word/src/lib.rt"
    expect "changed sources of a crate below run unproved" "$unproved" "$(told_by "$here/coati")"
    cp "$room/before" "$here/crates/coati_word/src/lib.rt"
    expect "sources changed back have their program" "$proved" "$(told_by "$here/coati")"

    # shellcheck disable=SC2123 # to have no `rt` is what is tried
    PATH=$room/plain
    expect "a proved program needs no toolchain" "$proved" "$(told_by "$here/coati")"
    rm -rf "$here/out"
    for command in coati explain build; do
        "$here/$command" </dev/null >"$room/output" 2>"$room/said"
        expect "the status of ./$command without the toolchain" 1 $?
        expect "./$command without the toolchain says in one line what it is, and nothing else" "1 1" \
            "$(grep -c '' "$room/said") $(cat "$room/output" "$room/said" | grep -c 'rt.*toolchain.*README.md')"
    done
}

try_with_nothing_built
try_matching_by_content
exit "$broken"
