#!/bin/sh
# The page docs/OPERATING.md as it stands, on machines with a systemd of their own, by hand: sh bench/systemd.sh PROGRAM [TRIAL..]. Ten containers of
# systemd-nspawn on one bridge: six for members, three for etcd, one for HAProxy. What the page has an operator type is taken from it and typed there; then
# programs, machines, links and etcds are taken away, and what clients read and members say is judged. The status is 1 where anything was wrong.
# It runs as root, makes a Debian in a folder first (in FOLDER, where it is given, it is kept), and needs Debian's debootstrap and systemd-container.
set -eu
top=$(cd "$(dirname "$0")/.." && pwd)
work=$(mktemp -d)
trap 'rm -rf "$work"' EXIT
trap 'exit 1' INT TERM
export PYTHONDONTWRITEBYTECODE=1
debian=${FOLDER:-$work/debian}
packages=systemd,systemd-sysv,dbus,netcat-openbsd,curl,iproute2,procps,ca-certificates,etcd-server,etcd-client,haproxy
[ -d "$debian/etc" ] || debootstrap --variant=minbase --include="$packages" bookworm "$debian" > "$work/debian.txt" 2>&1 || { tail -20 "$work/debian.txt" >&2; exit 1; }
python3 "$top/bench/systemd/trials.py" "$debian" "$work" "$@"
