#!/bin/sh
# A person's word that members are dead, where watchers run: condemn.sh SETTINGS NAME.. It stands in etcd with all other words, and the watchers tell it.
set -eu
[ $# -ge 2 ] || { echo "condemn.sh SETTINGS NAME.." >&2; exit 1; }
settings=$1
shift
# shellcheck source-path=SCRIPTDIR
. "$(dirname "$0")/group.sh"

look || fail "etcd doesn't answer"
next=$dead
for name in "$@"; do
    [ -n "$(control_of "$name")" ] || fail "$settings: no member is called $name"
    has "$next" "$name" || next="$next${next:+ }$name"
done
# shellcheck disable=SC2086
[ "$(count $next)" -le "$m" ] || fail "not taken: $next would be more than the group can lose, which is $m"
set_dead "$next" || fail "not taken: who is dead has changed meanwhile, or etcd is away: try it again"
echo "dead: $next"
