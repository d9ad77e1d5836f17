#!/usr/bin/env bash
# ask.sh BOOK QUESTION: answers a question over a book, both in readable hex: document 01's two lines.
# A file holds bytes in hexadecimal, in any grouping; '#' starts a comment that goes to the end of the line. The program is built first if it is not there.
set -eu
[ $# -eq 2 ] || { sed -n 2,3p "$0" | cut -c3- >&2; exit 2; }
for f in "$1" "$2"; do [ -r "$f" ] || { echo "ask.sh: can't read $f" >&2; exit 2; }; done
root=$(cd "$(dirname "$0")/.." && pwd)
digits() { sed 's/#.*//' "$1" | tr -d ' \t\r\n'; }
book=$(digits "$1") question=$(digits "$2")
case $book$question in *[!0-9a-fA-F]*) echo "ask.sh: not a hexadecimal digit" >&2; exit 2 ;; esac
[ $((${#book} % 2)) -eq 0 ] && [ $((${#question} % 2)) -eq 0 ] || { echo "ask.sh: half a byte at the end" >&2; exit 2; }
length=$((${#book} / 2))
[ "$length" -le 65535 ] || { echo "ask.sh: a book that 2 bytes announce has at most 65,535" >&2; exit 2; }
[ -x "$root/crates/ask/out/ask" ] || (cd "$root/crates/ask" && rt run </dev/null >&2)
# the length, low byte first, the book, the question
bytes=$(printf '%02x%02x%s%s' $((length % 256)) $((length / 256)) "$book" "$question" | sed 's/../\\x&/g')
printf '%b' "$bytes" | "$root/crates/ask/out/ask"
