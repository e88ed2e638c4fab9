# What the scripts of this folder share, read by them with `.` where `settings` names the file of a group's members: the settings that they
# need, what etcd says of the group, and the word that some of its members are dead. It needs etcdctl with the third version of its API,
# whose own variables say where etcd is (ETCDCTL_ENDPOINTS, ETCDCTL_CACERT ..), and Debian's netcat-openbsd.
#
# Under /cocytus/GROUP/ etcd has `alive/NAME` while a keeper holds its lease, `seen/NAME` for ever, and `dead`, the names that are dead.
# shellcheck shell=sh disable=SC2034,SC2154

export ETCDCTL_API=3

fail() { echo "$*" >&2; exit 1; }

etcd() { etcdctl --command-timeout=2s "$@"; }

# A key of the settings that stands on a line of its own, above the members.
setting() { sed -n '/^ *\[\[/q; s/^ *'"$1"' *= *"\{0,1\}\([0-9A-Za-z]*\)"\{0,1\} *\(#.*\)\{0,1\}$/\1/p' "$settings"; }

# A line for each member: its name and its control address.
members() {
    awk '/^ *\[\[ *members *\]\]/ { inside = 1; name = "" }
        inside && split($0, part, "\"") == 3 {
            if ($1 == "name") name = part[2]
            if ($1 == "control") print name, part[2]
        }' "$settings"
}

group=$(setting group) k=$(setting k) m=$(setting m) members=$(members)
case $k$m in
    '' | *[!0-9]*) fail "$settings: k and m have to stand on lines of their own" ;;
esac
[ "${#group}" -eq 32 ] || fail "$settings: group has 32 hexadecimal digits"
[ "$(echo "$members" | grep -c .)" -eq $((k + m)) ] ||
    fail "$settings: k + m = $((k + m)) members have to stand as tables [[members]], each key on a line of its own"
root=/cocytus/$group

# The control address of a member.
control_of() { echo "$members" | awk -v name="$1" '$1 == name { print $2 }'; }

# Whether a list has a word.
has() { case " $1 " in *" $2 "*) ;; *) return 1 ;; esac; }

count() { echo "$#"; }

# What etcd says of the group, all of one moment: `alive`, `seen` and `dead` as lists of names, and `revision`, that of `dead` or 0.
look() {
    said=$(etcd get --prefix "$root/" -w fields) || return 1
    state=$(echo "$said" | awk -v root="$root/" -F '" : ' '
        { sub(/^"/, "", $1); gsub(/"/, "", $2) }
        $1 == "Key" { key = substr($2, length(root) + 1) }
        $1 == "ModRevision" { modified = $2 }
        $1 == "Value" && key == "dead" { dead = $2; revision = modified }
        $1 == "Value" && key ~ /^alive\// { alive = alive substr(key, 7) " " }
        $1 == "Value" && key ~ /^seen\// { seen = seen substr(key, 6) " " }
        END { print alive; print seen; print dead; print (revision == "" ? 0 : revision) }')
    { read -r alive; read -r seen; read -r dead; read -r revision; } << END
$state
END
}

# These and no others are dead, unless that has changed since `look`. Says whether it was so.
set_dead() {
    answer=$(printf 'mod("%s/dead") = "%s"\n\nput %s/dead "%s"\n\n\n' "$root" "$revision" "$root" "$1" | etcd txn) || return 1
    case $answer in SUCCESS*) ;; *) return 1 ;; esac
}

# `host`, without brackets, and `port` of an address.
split() { host=${1%:*} port=${1##*:} && host=${host#\[} && host=${host%\]}; }

# Says a line to a member, and what it answers: it has two seconds.
say() {
    split "$1"
    answer=$(printf '%s\n' "$2" | nc -N -w 2 "$host" "$port" 2> /dev/null) || true
    echo "${answer:-no answer}"
}
