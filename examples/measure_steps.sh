#!/bin/sh
# Times 500,000 steps over 256 variables: a task that assigns to each of them, so that its log is full.
cd "$(dirname "$0")/.." || exit 1
# What is timed is the proved program.
./build || exit 1
input=$(mktemp) || exit 1
trap 'rm -f "$input"' EXIT
{
    awk 'BEGIN {
        for (i = 0; i < 256; i++) printf "nv v%d;\n", i
        print "task main {"
        for (i = 0; i < 256; i++) printf "    v%d = v%d + v%d;\n", i, i, 255 - i
        print "    next main;\n}"
    }'
    echo '%%'
    echo 'limit 500000'
} >"$input"
time ./coati run split <"$input" >/dev/null
