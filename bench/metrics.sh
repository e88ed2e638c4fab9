#!/bin/sh
# Six members on this machine under Prometheus: the files of examples/prometheus by promtool, with the tests of the alerts, each member's /metrics
# by `promtool check metrics`, and then a Prometheus that scrapes them while one is killed, is said to be dead, and a second is said to be dead that
# lives (metrics/watch.py). The status is 0 only where each alert was there that has to be, and no other, and /health of all was right.
# sh bench/metrics.sh [PROGRAM], by hand, over the executable that `rt run` leaves; a minute. Where promtool is missing it installs Debian's.
set -eu
here=$(cd "$(dirname "$0")" && pwd)
program=${1:-$here/../crates/cocytus_main/out/cocytus_main}
files=$here/../examples/prometheus
command -v promtool > /dev/null || apt-get install -y -qq --no-install-recommends prometheus > /dev/null
promtool check config "$files/prometheus.yml"
promtool check rules "$files/alerts.yml"
promtool test rules "$files/alerts_test.yml"
exec python3 "$here/metrics/watch.py" "$program" "$here/../examples"
