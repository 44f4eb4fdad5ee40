#!/bin/sh
# Checks the manual page: `man --warnings` says nothing of it, and it has the version of the program, and its options, and no other.
# man/check.sh PROGRAM
page="$(dirname "$0")/mcserver.1"
said=$(LC_ALL=C.UTF-8 MANROFFSEQ='' MANWIDTH=80 man --warnings -E UTF-8 -Z -l "$page" 2>&1 >/dev/null)
if [ -n "$said" ]; then
    printf 'man --warnings says:\n%s\n' "$said"
    exit 1
fi
options() { grep -oE -- '--?[a-zA-Z][a-z-]*' | sort -u; }
of_page=$(sed 's/\\-/-/g' "$page" | sed -n '/^\.SH OPTIONS/,/^\.SH EXIT/p' | grep -A1 '^\.TP' | grep -E '^\.(B|BI|BR) ' | options)
of_program=$("$1" --help | sed -n 's/^  *\(-.*\)/\1/p' | sed 's/   *.*//' | options)
if [ -z "$of_program" ] || [ "$of_page" != "$of_program" ]; then
    echo "the page has the options" $of_page
    echo "the program has" $of_program
    exit 1
fi
version=$("$1" --version | sed 's/^\(mcserver [0-9.]*\) .*/\1/')
if ! grep -q "^\.TH .*\"$version\"" "$page"; then
    echo "the page isn't of $version"
    exit 1
fi
echo "man/mcserver.1: no warnings, and the program's options:" $of_page
