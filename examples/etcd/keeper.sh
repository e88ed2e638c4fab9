#!/bin/sh
# Beside a member's program: says in etcd that it lives, by a lease, and takes that back at once when the program ends: keeper.sh SETTINGS NAME.
#
# It holds a connection to the member's control address, whose end is the program's end. Where the machine ends or its network does, the
# lease runs out by itself after TTL seconds (3 where it isn't set, and no less). Who stops a keeper for longer than that says that its member is dead.
# It waits until the member is there, and ends with status 0 when the member does.
set -eu
[ $# -eq 2 ] || { echo "keeper.sh SETTINGS NAME" >&2; exit 1; }
settings=$1 name=$2
# shellcheck source-path=SCRIPTDIR
. "$(dirname "$0")/group.sh"
control=$(control_of "$name")
[ -n "$control" ] || fail "$settings: no member is called $name"
lease=''
split "$control"

# What the keeper's children say comes by `ends`, and by `quiet` nothing goes to them: however the keeper ends, both do, and then its children. Its
# lease runs out then: only the end of the program takes it back.
work=$(mktemp -d)
mkfifo "$work/ends" "$work/quiet"
exec 3<> "$work/ends" 4<> "$work/quiet"
trap 'rm -rf "$work"' EXIT
trap 'exit 1' INT TERM

is_there() { nc -z -w 2 "$host" "$port" 2> /dev/null; }

# Holds a connection to the member, until it ends or the keeper does.
hold() {
    nc -d "$host" "$port" > /dev/null 2>&1 &
    connection=$!
    (read -r _ < "$work/quiet" || kill "$connection") &
    wait "$connection" || true
    kill "$!" 2> /dev/null || true
}

hold_on() {
    (hold; echo ended) 3>&- 4>&- > "$work/ends" &
}

# Keeps the lease, of which a line comes each time, and says when it ran out.
breathe() {
    (etcdctl lease keep-alive "$lease" 2> /dev/null; echo lapsed) 3>&- 4>&- > "$work/ends" &
}

# Takes a lease and says under it that the member lives, in one transaction with that it was seen.
register() {
    lease=$(etcd lease grant "${TTL:-3}" 2> /dev/null | sed -n 's/^lease \([0-9a-f]*\) granted.*/\1/p')
    [ -n "$lease" ] || return 1
    printf '\nput --lease=%s %s/alive/%s "%s"\nput %s/seen/%s "%s"\n\n\n' \
        "$lease" "$root" "$name" "$control" "$root" "$name" "$control" | etcd txn > /dev/null 2>&1 || return 1
    breathe
    echo "$name is alive in etcd" >&2
}

# The same, tried until etcd answers or the member is gone.
register_again() {
    told=''
    until register; do
        [ -n "$told" ] || echo "$name: etcd doesn't answer, which is tried again" >&2
        told=yes
        is_there || return 0
        sleep 0.5
    done
}

until is_there; do sleep 1; done
hold_on
register_again

while read -r what <&3; do
    case $what in
        lapsed)
            echo "$name: the lease ran out" >&2
            register_again
            ;;
        ended)
            # A member has sixteen such connections: one that it closed isn't its end.
            if is_there; then
                sleep 0.2
                hold_on
            else
                echo "$name has ended" >&2
                etcd lease revoke "$lease" > /dev/null || true
                exit 0
            fi
            ;;
    esac
done
