#!/bin/sh
# What each client library that Debian has for memcached does over a server: sh examples/clients/run.sh HOST PORT. It runs those that are
# installed, each with a time limit, and prints a table: a row for each thing tried, a column for each client; then what libmemcached's tools do.
# `run.sh member [PROGRAM]` does the same over a member of a group of six, p0, which heads no key. It starts them on this machine by the settings
# examples/machines/member.toml; without a program it is built first, without a proof (examples/machines/unproved.sh).
# `apt-get install python3-pymemcache python3-memcache python3-pylibmc php-cli php-memcached php-memcache libcache-memcached-perl
# libcache-memcached-fast-perl golang-go golang-github-bradfitz-gomemcache-dev libspymemcached-java default-jdk-headless libmemcached-tools`
# installs all.
set -u
here=$(cd "$(dirname "$0")" && pwd)
work=$(mktemp -d)
members=
trap 'for each in $members; do kill "$each"; done; rm -rf "$work"' EXIT
trap 'exit 1' INT TERM

# Starts six members, and waits until p0 serves.
start_members() {
    program=${1:-$work/built/cocytus_main}
    [ $# -gt 0 ] || sh "$here/../machines/unproved.sh" "$work/built" || exit 1
    for name in d0 d1 d2 d3 p0 p1; do
        "$program" member "$name" < "$here/../machines/member.toml" > /dev/null 2> "$work/$name.said" &
        members="$members $!"
    done
    waited=0
    until grep -q 'serves at' "$work/p0.said"; do
        [ "$waited" -lt 120 ] || { cat "$work/p0.said" >&2; exit 1; }
        waited=$((waited + 1))
        sleep 1
    done
}

if [ "$1" = member ]; then
    shift
    start_members "$@"
    set -- 127.0.0.1 21204
fi
host=$1
port=$2
jars=/usr/share/java/spymemcached.jar:/usr/share/java/slf4j-api.jar
go_source=/usr/share/gocode/src/github.com/bradfitz/gomemcache

has() { command -v "$1" > /dev/null; }

# Runs a client: its name, and the words of its command. What it says goes to a file of its name.
client() {
    name=$1
    shift
    timeout 90 "$@" "$host" "$port" > "$work/$name.told" 2> "$work/$name.faults" || echo "$name ended with $?: $(tail -1 "$work/$name.faults")" >&2
}

for library in pymemcache memcache pylibmc; do
    name=$library
    if [ "$library" = memcache ]; then name=python-memcached; fi
    if /usr/bin/python3 -c "import $library" 2> /dev/null; then client "$name" /usr/bin/python3 "$here/${library}_client.py"; fi
done
for library in memcached memcache; do
    if has php && php -m | grep -qx "$library"; then client "php-$library" php "$here/${library}_client.php"; fi
done
if perl -MCache::Memcached -e 1 2> /dev/null; then client Cache::Memcached perl "$here/cache_memcached_client.pl"; fi
if perl -MCache::Memcached::Fast -e 1 2> /dev/null; then client Cache::Memcached::Fast perl "$here/memcached_fast_client.pl"; fi
if has go && [ -d "$go_source" ]; then
    (cd "$work" && GO111MODULE=off GOPATH=/usr/share/gocode GOCACHE="$work/go" go build -o gomemcache_client "$here/gomemcache_client.go") \
        && client gomemcache "$work/gomemcache_client"
fi
if has javac && [ -f "${jars%%:*}" ]; then
    javac -cp "$jars" -d "$work" "$here/SpymemcachedClient.java" && client spymemcached java -cp "$jars:$work" SpymemcachedClient
fi

cd "$work" || exit 1
awk '
    function row(name, at) { printf "| %s |", name; for (at = 1; at < ARGC; at++) printf " %s |", told[name, at] ? told[name, at] : "-"; print "" }
    FNR == 1 { file++; names[file] = substr(FILENAME, 3, length(FILENAME) - 7) }
    { if (!($1 in seen)) { seen[$1]; rows[++many] = $1 } name = $1; sub(/^[^ ]+ /, ""); told[name, file] = $0 == "yes" ? "yes" : "no"; if ($0 != "yes") reasons[++faults] = names[file] ": " name ": " $0 }
    END { printf "| |"; for (at = 1; at <= file; at++) printf " %s |", names[at]; printf "\n|---|"; for (at = 1; at <= file; at++) printf "---|"; print ""
          for (at = 1; at <= many; at++) row(rows[at]); print ""; for (at = 1; at <= faults; at++) print reasons[at] }' ./*.told
if has memccapable; then echo; timeout 300 sh "$here/tools.sh" "$host" "$port"; fi
