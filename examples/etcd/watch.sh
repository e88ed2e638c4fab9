#!/bin/sh
# Says which members of a group are dead, by what keepers say in etcd, and tells members so: watch.sh SETTINGS [NAME]. Any number of them may run;
# one beside each member that tells this one alone, or one that reaches the control addresses of all.
#
# A member is dead where it was seen and its lease is gone, where at least k others live, and where no more than m are dead then. That is
# written by a transaction, so that all watchers say the same. A watcher looks at its start, at each event and twice a second. It believes that
# a lease is gone only where etcd has answered steadily for SETTLE seconds (10 where it isn't set), by which keepers have leases again: where etcd
# was away for longer than they had left, those of living members ran out.
set -eu
[ $# -ge 1 ] || { echo "watch.sh SETTINGS [NAME]" >&2; exit 1; }
settings=$1 only=${2:-}
# shellcheck source-path=SCRIPTDIR
. "$(dirname "$0")/group.sh"
controls=$(echo "$members" | awk -v only="$only" 'only == "" || $1 == only { print $2 }' | sort -u)
[ -n "$controls" ] || fail "$settings: no member is called $only"
settle=${SETTLE:-10} since='' last=0 told='' told_at=0 events=''

# A lease of 3 s is asked for anew after 1.5 at the latest: so no time without etcd that is shorter than this ends one. In hundredths of a second,
# as all times here.
gap=130

work=$(mktemp -d)
mkfifo "$work/lines"
exec 3<> "$work/lines"
trap 'kill $events 2> /dev/null || true; rm -rf "$work"' EXIT
trap 'exit 1' INT TERM

# Events of etcd come as lines, of which the first says of what kind one is.
follow_events() {
    [ -n "$events" ] && kill -0 "$events" 2> /dev/null && return
    etcdctl watch --prefix "$root/" 3>&- > "$work/lines" 2> /dev/null &
    events=$!
}

next_tick() { (sleep 0.5; echo tick) 3>&- > "$work/lines" & }

# How long the system runs.
tell_time() {
    read -r now _ < /proc/uptime
    now=${now%.*}${now#*.}
}

# Looks, and sees since when etcd has answered without a gap. Says whether it answered.
look_again() {
    if ! look 2> "$work/why"; then
        [ -z "$since" ] || echo "etcd doesn't answer: $(tail -1 "$work/why")" >&2
        since=''
        return 1
    fi
    tell_time
    if [ -z "$since" ]; then
        since=$now
    elif [ $((now - last)) -gt "$gap" ]; then
        since=$now
        echo "etcd didn't answer for $((now - last)) hundredths of a second: nobody more is dead for $settle s" >&2
    fi
    last=$now
}

# Those that are dead: those that were so, and of those that were seen and aren't alive as many as may be.
judge() {
    lives=0 next=$dead
    for name in $alive; do has "$dead" "$name" || lives=$((lives + 1)); done
    [ "$lives" -ge "$k" ] || return 0
    for name in $seen; do
        # shellcheck disable=SC2086
        if ! has "$alive $next" "$name" && [ "$(count $next)" -lt "$m" ]; then next="$next${next:+ }$name"; fi
    done
}

# Tells members who is dead, where they weren't told so or five seconds ago: one that didn't answer is told once more.
tell() {
    [ -n "$dead" ] && { [ "$dead" != "$told" ] || [ $((now - told_at)) -ge 500 ]; } || return 0
    for control in $controls; do
        if [ "$dead" = "$told" ]; then
            say "$control" "dead $dead" > /dev/null &
        else
            (echo "said dead $dead at $control: $(say "$control" "dead $dead")" >&2) &
        fi
    done
    told=$dead told_at=$now
}

turn() {
    look_again || return 0
    tell
    [ $((now - since)) -ge $((settle * 100)) ] || return 0
    judge
    [ "$next" != "$dead" ] || return 0
    if set_dead "$next"; then
        echo "dead are $next: seen were $seen, alive are $alive" >&2
        dead=$next
        tell
    fi
}

echo tick >&3
while read -r line <&3; do
    case $line in
        tick)
            follow_events
            turn
            next_tick
            ;;
        PUT | DELETE) turn ;;
    esac
done
