#!/bin/sh
# What libmemcached's tools do over HOST PORT (Debian: libmemcached-tools). A line for each: its name, and yes or no.
# memccapable asks flush_all, which empties a memcached.
set -u
servers=--servers=$1:$2
work=$(mktemp -d)
trap 'rm -rf "$work"' EXIT
cd "$work" || exit 1
printf 'hello\n' > lt:greeting

# A name, and the words of a command that ends with 0.
tried() {
    name=$1
    shift
    if timeout 30 "$@" > "$work/told" 2>&1; then
        echo "$name yes"
    else
        echo "$name no: $(grep -v '^$' "$work/told" | tail -1)"
    fi
}
reads() { [ "$(memccat "$servers" lt:greeting)" = hello ]; }
gone() { ! memccat "$servers" lt:greeting; }

tried memccp memccp "$servers" lt:greeting
if reads > told 2>&1; then echo "memccat yes"; else echo "memccat no: $(cat told)"; fi
tried memcexist memcexist "$servers" lt:greeting
tried memctouch memctouch "$servers" --expire=60 lt:greeting
tried memcrm memcrm "$servers" lt:greeting
if gone > told 2>&1; then echo "memcrm.gone yes"; else echo "memcrm.gone no"; fi
tried memcslap.set memcslap "$servers" --test=set --execute-number=500 --concurrency=2
tried memcslap.get memcslap "$servers" --test=get --execute-number=500 --initial-load=500 --concurrency=2
tried memcslap.mget memcslap "$servers" --test=mget --execute-number=500 --initial-load=500 --concurrency=2
tried memcping memcping "$servers"
tried memcstat memcstat "$servers"
tried memcflush memcflush "$servers"
timeout 120 memccapable -h "$1" -p "$2" -a -t 2 > told 2>&1
echo "memccapable $(grep -c '\[pass\]' told) of $(grep -c '^ascii' told)"
