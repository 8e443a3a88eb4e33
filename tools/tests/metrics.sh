#!/bin/sh
# The metrics of the page go from their unit through node_exporter to Prometheus, whose alerts fire; the dashboard names metrics that there are.
. "$(dirname "$0")/common.sh"
unset TSP_HOSTS TSP_SELF TSP_PROGRAM
export TSP_CLOCK="$out/page"
page() { python3 tools/tests/made_page.py "$out/page" "$1" "$2"; }
folder=/var/lib/prometheus/node-exporter

# The unit writes to one folder, by tools that the package has, and is off until it is turned on.
unit=daemon/tsp-metrics.service
[ "$(sed -n 's/^ConditionPathIsDirectory=//p; s/^ReadWritePaths=//p' "$unit" | sort -u)" = "$folder" ] || fail 'the unit writes to another folder'
! grep -o -e "--output [^ ;']*" "$unit" | grep -v " $folder/tsp\(-clock\)\?[.]prom$" || fail 'the unit writes elsewhere'
grep -q '^OnCalendar=minutely$' daemon/tsp-metrics.timer && grep -q '^WantedBy=timers.target$' daemon/tsp-metrics.timer && ! grep -q '^\[Install\]' "$unit" || fail 'the timer is no timer that is turned on by one line'

# Its commands, run here as systemd would: with a hosts file, without one, and where it is turned off.
mkdir "$out/metrics"
printf '#!/bin/sh\nexit 6\n' >"$out/fake"
chmod +x "$out/fake"
echo 'alpha 192.0.2.11 master' >"$out/hosts"
sed -n 's/^ExecStart=//p' "$unit" | sed "s|/usr/bin/tsp-|$PWD/tools/tsp-|g; s|$folder|$out/metrics|g; s/[\$][\$]/\$/g" >"$out/commands"
[ "$(wc -l <"$out/commands")" -eq 2 ] || fail 'the unit has other commands'
# Runs them, and wants these files.
writes() {
    rm -f "$out/metrics"/*
    status=0
    TSP_METRICS_HOSTS=$1 TSP_HOSTS=$out/hosts TSP_PROGRAM=$out/fake sh -e "$out/commands" >"$out/said" 2>"$out/told" || status=$?
    [ "$status" -eq 0 ] || { [ "$status" -eq 1 ] && [ "$1" = on ]; } || fail "the unit's commands end with status $status: $(cat "$out/told")"
    written=$(find "$out/metrics" -type f -printf '%f\n' | sort | paste -sd ' ')
    [ "$written" = "$2" ] && [ ! -s "$out/said" ] || fail "the unit writes $written, and says '$(cat "$out/said")'"
}
page -2000:5000 -3000
writes on 'tsp-clock.prom tsp.prom'
grep -qx 'tsp_host_reached{network="1",host="alpha"} 0' "$out/metrics/tsp.prom" || fail "of the hosts there is '$(cat "$out/metrics/tsp.prom")'"
cp "$out/metrics/tsp.prom" "$out/hosts.prom"
writes off tsp-clock.prom
rm "$out/hosts"
writes on tsp-clock.prom

# The metrics that the rules and the dashboard name are there.
{
    sed -n 's/^# TYPE \([a-z_]*\) .*/\1/p' "$out/metrics/tsp-clock.prom"
    grep -o 'tsp_[a-z_]*' tools/tsp-status | grep -e '^tsp_host_' -e '^tsp_spread_'
    echo node_textfile_mtime_seconds
} | sort -u >"$out/there"
python3 - daemon/tsp-dashboard.json "$out/dashboard.yml" <<'END' || fail 'the dashboard is not read'
import json
import sys
with open(sys.argv[1], encoding='utf-8') as file:
    board = json.load(file)
panels = board['panels']
assert len({panel['id'] for panel in panels}) == len(panels) and all(panel['title'] and panel['description'] for panel in panels)
places = {(panel['gridPos']['x'], panel['gridPos']['y']) for panel in panels}
assert len(places) == len(panels) and [each['name'] for each in board['templating']['list']] == ['datasource']
exprs = [target['expr'] for panel in panels for target in panel['targets']]
with open(sys.argv[2], 'w', encoding='utf-8') as file:
    json.dump({'groups': [{'name': 'dashboard', 'rules': [{'record': f'panel_{place}', 'expr': expr} for place, expr in enumerate(exprs)]}]}, file)
END
grep -oh -e 'tsp_[a-z_]*' -e 'node_[a-z_]*' daemon/tsp-alerts.yml "$out/dashboard.yml" | sort -u >"$out/named"
[ -z "$(comm -23 "$out/named" "$out/there")" ] || fail "there is no metric $(comm -23 "$out/named" "$out/there")"
[ "$(wc -l <"$out/named")" -ge 14 ] || fail 'too few metrics are named'

if has systemd-analyze && systemd-analyze --help | grep -q -e --root; then
    root=$out/root
    install -d "$root/usr/lib/systemd/system" "$root/usr/bin" "$root/bin"
    install -m 644 "$unit" daemon/tsp-metrics.timer "$root/usr/lib/systemd/system"
    for tool in /usr/bin/tsp-now /usr/bin/tsp-status /bin/sh; do install -m 755 /dev/null "$root$tool"; done
    for units in /usr/lib/systemd/system /lib/systemd/system; do
        [ ! -d "$units" ] || { cp -r "$units"/*.target "$root/usr/lib/systemd/system" 2>/dev/null || :; }
    done
    systemd-analyze --no-pager verify --man=no --root="$root" tsp-metrics.timer tsp-metrics.service >"$out/told" 2>&1 || :
    [ ! -s "$out/told" ] || fail "$(head -n 1 "$out/told")"
    systemd-analyze --no-pager security --offline=true --threshold=35 "$unit" >"$out/told" 2>&1 || fail "$(tail -n 1 "$out/told")"
else
    skip 'there is no systemd-analyze, or it knows no other root' "what systemd says of $unit"
fi

has promtool || { skip 'there is no promtool' 'whether the alerts fire'; exit; }
# What promtool says of the metrics, the rules, the dashboard's questions, and of each alert in a test of its own.
for text in "$out/metrics/tsp-clock.prom" "$out/hosts.prom"; do
    promtool check metrics <"$text" >"$out/told" 2>&1 || fail "$(cat "$out/told")"
done
promtool check rules daemon/tsp-alerts.yml "$out/dashboard.yml" >"$out/told" 2>&1 || fail "$(cat "$out/told")"
cp daemon/tsp-alerts.yml tools/tests/alerts.yml "$out"
promtool test rules "$out/alerts.yml" >"$out/told" 2>&1 || fail "$(cat "$out/told")"
sed -n 's/.*- alert: //p' daemon/tsp-alerts.yml >"$out/alerts"
while IFS= read -r alert; do
    grep -A 3 "alertname: $alert\$" tools/tests/alerts.yml | grep -q 'exp_labels' || fail "$alert is tried nowhere"
done <"$out/alerts"
[ "$(wc -l <"$out/alerts")" -eq 4 ] || fail 'there are not four alerts'
# (and it would say so if one didn't fire)
sed -i 's/> 0.05$/> 0.07/' "$out/tsp-alerts.yml"
! promtool test rules "$out/alerts.yml" >"$out/told" 2>&1 || fail 'an alert that does not fire is not found'

has prometheus && has prometheus-node-exporter || { skip 'there is no prometheus or no node_exporter' 'what they make of the metrics'; exit; }
# The files as node_exporter serves them, and the alerts as Prometheus raises them of these: those of a page where all is well, and of others.
ports=$(free_ports 2)
exporter=${ports% *} server=${ports#* }
prometheus-node-exporter --web.listen-address="127.0.0.1:$exporter" --collector.disable-defaults --collector.textfile --collector.textfile.directory="$out/metrics" 2>"$out/exporter" &
note_process
sed 's/for: .*/for: 0s/' daemon/tsp-alerts.yml >"$out/at-once.yml"
cat >"$out/prometheus.yml" <<END
global: {scrape_interval: 500ms, evaluation_interval: 500ms}
rule_files: [at-once.yml]
scrape_configs: [{job_name: node, static_configs: [{targets: ['127.0.0.1:$exporter']}]}]
END
prometheus --config.file="$out/prometheus.yml" --web.listen-address="127.0.0.1:$server" --storage.tsdb.path="$out/data" 2>"$out/prometheus" &
note_process
cat >"$out/wait.py" <<'END'
import json
import sys
import time
import urllib.request
exporter, server, wanted = sys.argv[1], sys.argv[2], sorted(sys.argv[3].split())
until, seen = time.monotonic() + 60, None
while time.monotonic() < until:
    time.sleep(0.2)
    try:
        with urllib.request.urlopen(f'http://127.0.0.1:{exporter}/metrics') as answer:
            served = answer.read().decode().splitlines()
        with urllib.request.urlopen(f'http://127.0.0.1:{server}/api/v1/alerts') as answer:
            alerts = json.load(answer)['data']['alerts']
    except OSError:
        continue
    if 'node_textfile_scrape_error 0' not in served:
        sys.exit('node_exporter refuses the file')
    seen = sorted(alert['labels']['alertname'] for alert in alerts if alert['state'] == 'firing')
    if seen == wanted and any(line.startswith('tsp_clock_status') for line in served):
        sys.exit()
sys.exit(f'the alerts are {seen}, and not {wanted}')
END
# Wants these alerts to fire of a page, whose metrics were written so long ago.
fires() {
    page "$1" "$2"
    writes off tsp-clock.prom
    touch -d "-$3 minutes" "$out/metrics/tsp-clock.prom"
    timeout 90 python3 "$out/wait.py" "$exporter" "$server" "$4" || fail "of a page '$1 $2', $3 minutes old, other alerts fire"
}
fires -2000:5000 -3000 0 TspNobodyLeads
fires 2 -3000 0 ''
fires -40000:40000 200000 0 'TspNobodyLeads TspIntervalWide TspOwnClockFar'
fires 1 0 0 'TspNobodyLeads TspNotSynchronised'
fires 2 0 10 'TspNobodyLeads TspNotSynchronised'
fires 0 0 0 TspNotSynchronised
echo "$check: the unit, its metrics, four alerts, and a dashboard"
