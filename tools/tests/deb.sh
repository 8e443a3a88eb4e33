#!/bin/sh
# The package has the program, the daemon's unit, the tools, pages and examples, and they work where they are unpacked.
. "$(dirname "$0")/common.sh"
for needed in dpkg-deb git gzip python3; do
    has "$needed" || { skip "there is no $needed" 'the package'; exit; }
done

# debian/changelog is made of CHANGELOG.md.
debian/make-changelog --check || fail 'debian/changelog tells other things than CHANGELOG.md: debian/make-changelog makes it'

# Words: help, a version, and those that are none.
tools/make-deb --help >"$out/help" && grep -q '^usage: tools/make-deb ' "$out/help" || fail 'there is no help'
for words in --all "''" "$out/none" 'a b' '--source a b' '--source --all' '--source --version'; do
    status=0
    eval "tools/make-deb $words" >"$out/said" 2>"$out/told" || status=$?
    [ "$status" -eq 2 ] && [ ! -s "$out/said" ] && [ "$(wc -l <"$out/told")" -eq 1 ] || fail "'$words' ends with status $status: $(cat "$out/told")"
done

# Without one of the tools that it needs it says which, and makes nothing.
mkdir "$out/few" "$out/nothing"
for folder in $(echo "$PATH" | tr : ' '); do
    for file in "$folder"/*; do
        case ${file##*/} in git | python3 | dpkg-buildpackage | dh | cc) ;; *) ln -sf "$file" "$out/few/" 2>/dev/null || : ;; esac
    done
done
for lacking in git python3 dpkg-buildpackage dh cc; do
    for other in git python3 dpkg-buildpackage dh cc; do
        printf '#!/bin/sh\nexit 1\n' >"$out/few/$other"
        chmod +x "$out/few/$other"
    done
    rm "$out/few/$lacking"
    status=0
    PATH=$out/few tools/make-deb "$out/nothing" >"$out/said" 2>"$out/told" || status=$?
    [ "$status" -eq 1 ] && [ "$(cat "$out/told")" = "make-deb: there is no $lacking" ] || fail "without $lacking make-deb says '$(cat "$out/told")', status $status"
done
[ -z "$(ls "$out/nothing")" ] || fail 'without its tools make-deb makes something'

# The version begins with the program's, and rises with each change that ships: with its commit, and with a heading of the changes.
program=$(realpath -- "${TSP_PROGRAM:-$(./tsp --path)}") || fail 'there is no program'
unset TSP_PROGRAM
version=$(tools/make-deb --version)
case $version in "$("$program" --version | cut -d ' ' -f 2)"*) ;; *) fail "the version of the package is $version" ;; esac
git clone -q . "$out/clone"
in_clone() {
    git -C "$out/clone" -c user.name=nobody -c user.email=nobody@example.org "$@"
}
cp tools/make-deb "$out/clone/tools" && cp -r debian CHANGELOG.md "$out/clone" && in_clone add -A
in_clone commit -q --allow-empty -m 'As it is here'
last=$("$out/clone/tools/make-deb" --version)
# Wants another version, or the same where nothing ships.
wants_version() {
    now=$("$out/clone/tools/make-deb" --version) || fail "$2: there is no version"
    dpkg --compare-versions "$now" "$1" "$last" || fail "$2: the version goes from $last to $now"
    last=$now
}
echo '#' >>"$out/clone/tools/tests/deb.sh"
in_clone commit -q -a -m 'A change of a test'
wants_version eq 'a change of a test'
echo '#' >>"$out/clone/daemon/hosts"
wants_version gt 'a change that is not committed'
in_clone commit -q -a -m 'A change that ships'
echo '#' >>"$out/clone/man/tsp.8"
in_clone commit -q -a -m 'A change that ships'
wants_version gt 'two changes'
for heading in 0.1.98 0.1.99; do
    sed -i "0,/^## /s//## $heading\n\n- Changes.\n\n## /" "$out/clone/CHANGELOG.md"
    in_clone commit -q -a -m 'A heading'
    wants_version gt 'a heading'
    [ "$last" = "$heading" ] || fail "under the heading $heading the version is $last"
    ! "$out/clone/debian/make-changelog" --check || fail 'a new heading is not missed in debian/changelog'
done
for heading in Later 0.1-1; do
    sed -i "0,/^## .*/s//## $heading/" "$out/clone/CHANGELOG.md"
    ! "$out/clone/tools/make-deb" --version >"$out/said" 2>"$out/told" || fail "the heading $heading is taken for a version"
done

for needed in dpkg-buildpackage dh cc strip; do
    has "$needed" || { skip "there is no $needed (Debian's packages debhelper, dpkg-dev, gcc)" 'how the package is made'; exit; }
done
make_deb() {
    TSP_PROGRAM=$program tools/make-deb "$@"
}
package=$(make_deb "$out") || fail 'no package is made'
dpkg-deb --info "$package" >"$out/info" || fail 'the package is not read'
[ "$(dpkg-deb --field "$package" Version)" = "$version" ] || fail 'the package has another version than make-deb says'
dpkg-deb --extract "$package" "$out/root"
! find "$out/root" -type l ! -exec test -e {} \; -print | grep . || fail 'a link of the package leads nowhere'
(cd "$out/root" && dpkg-deb --control "$package" "$out/control" && md5sum --quiet -c "$out/control/md5sums") || fail 'a checksum of the package is wrong'

# It is of one version: that of each program that it has, of the manual pages, and of what Debian reads.
for tool in "$out/root/usr/bin"/tsp* "$out/root/usr/sbin/tsp-launch"; do
    [ "$("$tool" --version </dev/null)" = "${tool##*/} $version" ] || fail "the packed ${tool##*/} says '$("$tool" --version </dev/null)', and the package is of $version"
done
for page in "$out/root/usr/share/man"/man*/*.gz; do
    gzip -dc "$page" | head -n 1 | grep -qF "\"tsp $version\"" || fail "$page isn't of $version"
done
gzip -dc "$out/root/usr/share/doc/tsp/changelog.gz" | head -n 1 | grep -qF "tsp ($version) " || fail "Debian's list of changes doesn't begin with $version"

# It has what its pages name, and tells of itself and not of a clone.
for document in ACCURACY ANSWERS CHANGELOG FORMATS GUARANTEES JUDGE NETWORK OPERATOR PROGRAMS PROGRESS PROMISES PROOFS PROTOCOL README RELIABILITY; do
    [ -s "$out/root/usr/share/doc/tsp/$document.md" ] || fail "$document.md isn't packed"
done
cmp -s "$out/root/usr/share/doc/tsp/README.md" debian/README.md || fail 'another README is packed'

# No link of its documents is dead.
find "$out/root/usr/share/doc" -name '*.md' >"$out/documents"
while IFS= read -r document; do
    grep -o ']([^)#:]*)' "$document" | sed 's/^](//; s/)$//' | while IFS= read -r link; do
        [ -e "$(dirname "$document")/$link" ] || fail "$(basename "$document") points to $link, which isn't packed"
    done
    grep -o ']([^)#:]*)' "$document" >>"$out/links" || :
done <"$out/documents"
[ "$(wc -l <"$out/links")" -ge 10 ] || fail 'the documents have too few links'

# The packed program replays each example, and the packed tools run it.
tools/tsp-status --help >"$out/help"
"$out/root/usr/lib/tsp/tsp" --help >"$out/words-of-tsp"
PATH=$out/root/usr/bin:$PATH
[ "$(command -v tsp)" = "$out/root/usr/bin/tsp" ] || fail 'the packed program is not found'
# It explains two statuses, and knows how one asks for help.
for words in -h help --help; do
    tsp "$words" | cmp -s - "$out/words-of-tsp" || fail "tsp $words gives something else"
done
status=0
tsp clockdiff alpha >"$out/said" 2>"$out/told" || status=$?
[ "$status" -eq 1 ] && [ "$(cat "$out/said")" = usage ] && grep -qx "tsp: the first argument that the grammar has no place for is 'alpha' (argument 2): an address A.B.C.D:PORT belongs there" "$out/told" ||
    fail "of wrong arguments the packed tsp says '$(cat "$out/said" "$out/told")', status $status"
status=0
tsp serve 192.0.2.1:525 a s 1 >"$out/said" 2>"$out/told" || status=$?
[ "$status" -eq 5 ] && grep -q "^tsp: 192.0.2.1:525 can't be bound: " "$out/told" || fail "of an address that isn't there the packed tsp says '$(cat "$out/told")', status $status"
ln -s "$out/root/usr/bin/tsp" "$out/linked"
[ "$("$out/linked" --version)" = "$(tsp --version)" ] || fail 'a link to the packed tsp gives something else'
examples=$out/root/usr/share/doc/tsp/examples
count=0
for schedule in "$examples"/*.tsp "$examples"/schedules/*.tsp; do
    tsp replay <"$schedule" | cmp -s - "${schedule%.tsp}.trace" || fail "$(basename "$schedule"): the packed program gives another trace"
    count=$((count + 1))
done
[ "$count" -eq "$(find examples -name '*.tsp' | wc -l)" ] || fail 'not each example is packed'
cd "$out"
python3 root/usr/bin/tsp-lint "$examples/election.tsp" || fail 'the packed tsp-lint refuses an example'
python3 root/usr/bin/tsp-plot "$examples/election.tsp" | cmp -s - "$examples/election.svg" || fail 'the packed tsp-plot draws another picture'
python3 root/usr/bin/tsp-sim --until 500 | tsp replay | grep -q 'become candidate' || fail 'the packed tsp-sim gives no schedule'
python3 root/usr/bin/tsp-witness --help | grep -q '^usage: tsp-witness' || fail 'the packed tsp-witness has no help'
cd "$OLDPWD"

# The daemon: what the unit starts is there and gives words, its variables are a file that upgrades leave, and nothing starts by itself.
unit=$out/root/usr/lib/systemd/system/tsp.service
for packed in tsp.service tsp-metrics.service tsp-metrics.timer tsp-feed.service; do
    cmp -s "${unit%/*}/$packed" "daemon/$packed" || fail "another $packed is packed"
done
sed -n 's|^ExecStart=.*\(/usr/bin/[^ ]*\) .*|\1|p' daemon/tsp-metrics.service >"$out/starts"
[ "$(paste -sd ' ' "$out/starts")" = '/usr/bin/tsp-now /usr/bin/tsp-status' ] || fail "the metrics' unit starts $(cat "$out/starts")"
while IFS= read -r start; do
    [ -x "$out/root$start" ] || fail "the metrics' unit starts $start, which isn't there"
done <"$out/starts"
cmp -s "$examples/chrony.conf" daemon/tsp-chrony.conf || fail "the lines for chronyd are not packed"
for example in tsp-alerts.yml tsp-dashboard.json; do
    cmp -s "$examples/$example" "daemon/$example" || fail "$example isn't packed"
done
launch=$(sed -n 's/^ExecStart=\([^ ]*\).*/\1/p' "$unit")
[ -x "$out/root$launch" ] || fail "the unit starts $launch, which isn't there"
"$out/root$launch" -n -f "$examples/hosts" -s beta >"$out/words" || fail 'the packed tsp-launch gives no words'
[ "$(cut -d ' ' -f 1-4 "$out/words")" = 'serve 192.0.2.12:525 beta m' ] || fail "the packed tsp-launch gives '$(cat "$out/words")'"
python3 "$out/root/usr/bin/tsp-status" --help | cmp -s - "$out/help" || fail 'the packed tsp-status has another help'
python3 "$out/root/usr/bin/tsp-watch" tools/tests/watch.trace | grep -q ' leads$' || fail 'the packed tsp-watch reads no trace'
python3 "$out/root/usr/bin/tsp-now" --help | grep -q '^usage: tsp-now ' || fail 'the packed tsp-now has no help'
echo "a 127.0.0.1:$(free_ports 1) master" >"$out/hosts"
TSP_CLOCK="$out/clock" timeout --preserve-status 2 "$out/root$launch" --supervise --spread 0 --trace -f "$out/hosts" -s a >"$out/trace" 2>"$out/told" ||
    fail "the packed tsp-launch ends with status $?: $(cat "$out/told")"
grep -q ' trace on$' "$out/trace" || fail 'the packed tsp-launch starts no daemon'

# Programs read the time: the header is found where compilers look, and the module where Python does, which is also where the tools take it.
cmp -s "$out/root/usr/include/tsp_clock.h" tools/tsp_clock.h || fail 'tsp_clock.h is not packed'
cmp -s "$out/root/usr/share/tsp/tsp_clock.py" tools/tsp_clock.py || fail 'the packed tools have another tsp_clock'
PYTHONPATH="$out/root/usr/lib/python3/dist-packages" python3 -c 'import tsp_clock; tsp_clock.Clock("'"$out/clock"'").now()' || fail 'the packed tsp_clock does not read the page'
if has cc; then
    cc -std=c99 -Wall -Wextra -Werror -isystem "$out/root/usr/include" -o "$out/read_time" "$examples/read_time.c" || fail 'the packed example does not compile'
    TSP_CLOCK="$out/clock" timeout 1 "$out/read_time" >"$out/said" || :
    grep -q "the daemon doesn't run$" "$out/said" || fail "the packed example says $(cat "$out/said")"
    cc -std=c99 -Wall -Wextra -Werror -isystem "$out/root/usr/include" -o "$out/stamp" "$examples/stamp.c" || fail 'the packed example of a stamp does not compile'
fi
cmp -s "$out/root/etc/default/tsp" daemon/tsp.default || fail 'other variables of the daemon are packed'
[ "$(sort "$out/control/conffiles" | paste -sd ' ')" = '/etc/apparmor.d/tsp /etc/default/tsp /etc/needrestart/conf.d/tsp.conf' ] || fail "what is kept of the administrator's is $(cat "$out/control/conffiles")"
[ -d "$out/root/etc/tsp" ] && [ ! -e "$out/root/etc/tsp/hosts" ] || fail 'there is a hosts file that nobody wrote'
for script in postinst prerm postrm; do
    sh -n "$out/control/$script" && [ -x "$out/control/$script" ] || fail "$script can't be run"
done
[ "$(dpkg-deb --field "$package" Conflicts)" = task-spooler ] || fail 'another package has /usr/bin/tsp too, and may be installed beside it'
! grep -v '^ *#' "$out/control/postinst" | grep -e invoke -e ' start ' -e restart || fail 'the daemon starts by itself'

# needrestart reads its file, which keeps it from the daemon and from nothing else.
if has perl; then
    perl -we 'our %nrconf; eval do { local(@ARGV, $/) = shift; <> }; die $@ if $@; my %rc = %{$nrconf{override_rc}};
        sub kept { my $name = shift; grep { $name =~ /$_/ && !$rc{$_} } keys %rc } exit !(kept("tsp.service") && !kept("tsp-other.service") && !kept("atsp.service"))' \
        "$out/root/etc/needrestart/conf.d/tsp.conf" || fail 'needrestart restarts the daemon, or leaves others alone'
else
    skip 'there is no perl' 'what needrestart reads'
fi

# Shells complete words: the files are where they look.
cmp -s "$out/root/usr/share/bash-completion/completions/tsp" completions/tsp.bash && cmp -s "$out/root/usr/share/zsh/vendor-completions/_tsp" completions/_tsp ||
    fail 'other completions are packed'
for file in completions/*.fish; do
    cmp -s "$out/root/usr/share/fish/vendor_completions.d/${file##*/}" "$file" || fail "other completions are packed than ${file##*/}"
done
for name in "$out/root/usr/bin"/tsp* tsp-launch; do
    [ -e "$out/root/usr/share/bash-completion/completions/${name##*/}" ] && [ -e "completions/${name##*/}.fish" ] || fail "the words of ${name##*/} are not completed"
done
for page in man/*.[1-8]; do
    gzip -dc "$out/root/usr/share/man/man${page##*.}/${page#man/}.gz" | sed 1d >"$out/page"
    sed 1d "$page" | cmp -s - "$out/page" || fail "$page isn't packed"
done

# Installed in a root of its own and purged, it leaves nothing but folders that are the system's.
install -d "$out/system/var/lib/dpkg/info" "$out/system/var/lib/dpkg/updates" "$out/system/var/lib/dpkg/triggers" "$out/system/etc/systemd/system/multi-user.target.wants" \
    "$out/system/etc/systemd/system/timers.target.wants" "$out/system/var/lib/prometheus/node-exporter"
: >"$out/system/var/lib/dpkg/status"
in_system() {
    dpkg --root="$out/system" --force-script-chrootless --force-depends --force-not-root --log=/dev/null "$@" >"$out/told" 2>&1
}
left() {
    find "$out/system" -path "$out/system/var/lib/dpkg" -prune -o -print | sort
}
if in_system --install "$package"; then
    [ -x "$out/system$launch" ] || fail 'the package is not installed'
    [ -z "$(find "$out/system/etc/systemd" -name 'tsp*')" ] || fail 'the daemon is enabled by itself'
    echo 'a 192.0.2.1 master' >"$out/system/etc/tsp/hosts"
    ln -s /usr/lib/systemd/system/tsp.service "$out/system/etc/systemd/system/multi-user.target.wants"
    ln -s /usr/lib/systemd/system/tsp-metrics.timer "$out/system/etc/systemd/system/timers.target.wants"
    ln -s /usr/lib/systemd/system/tsp-feed.service "$out/system/etc/systemd/system/multi-user.target.wants"
    for file in tsp-clock.prom tsp.prom; do : >"$out/system/var/lib/prometheus/node-exporter/$file"; done
    for folder in tsp_texts tsp_daemon tsp_supervise tsp_demo tsp_witness; do
        for module in "$out/system/usr/share/tsp/$folder"/*.py; do
            name=$(basename "$module" .py)
            ls "$out/system/usr/share/tsp/$folder/__pycache__/$name".*.pyc >/dev/null || fail "$name is not compiled"
        done
    done
    install -d "$out/system/usr/share/tsp/__pycache__" "$out/system/usr/share/tsp/tsp_daemon/__pycache__" "$out/system/usr/share/tsp/tsp_texts/__pycache__" \
        "$out/system/usr/share/tsp/tsp_witness/__pycache__" "$out/system/etc/systemd/system/tsp.service.d"
    echo '[Service]' >"$out/system/etc/systemd/system/tsp.service.d/mine.conf"
    # (where systemd keeps the state of a unit with a user of its own)
    install -d "$out/system/var/lib/private/tsp"
    echo '0 0' >"$out/system/var/lib/private/tsp/rate"
    ln -s private/tsp "$out/system/var/lib/tsp"
    # (where AppArmor keeps what it made of the profile)
    install -d "$out/system/var/cache/apparmor/6b0d76a2.0"
    : >"$out/system/var/cache/apparmor/6b0d76a2.0/tsp"
    in_system --purge tsp || fail "$(tail -n 1 "$out/told")"
    left >"$out/rest"
    grep -v -x -e "$out/system" -e "$out/system/etc\(/systemd.*\)*" -e "$out/system/var\(/lib\(/private\|/systemd\|/prometheus\(/node-exporter\)*\)*\)*" \
        -e "$out/system/var/cache\(/apparmor\(/6b0d76a2.0\)*\)*" "$out/rest" >"$out/beyond" || :
    [ ! -s "$out/beyond" ] && ! grep -q 'wants/tsp' "$out/rest" || fail "a purge leaves $(cat "$out/beyond")"
    [ -s "$out/system/etc/systemd/system/tsp.service.d/mine.conf" ] || fail "a purge takes along the administrator's own changes of the unit"
else
    skip "this dpkg installs into no other root: $(tail -n 1 "$out/told")" 'what a purge leaves'
fi

# The same commit gives the same octets, also by way of the source package, in another folder.
mkdir "$out/source"
if has dpkg-source; then
    sources=$(make_deb --source "$out/source") || fail 'no source package is made'
    (cd "$out/source" && dpkg-source --no-check -x "$sources" unpacked && cd unpacked && find . -exec touch -h -d 2001-01-01 {} + && TSP_PROGRAM=$program dpkg-buildpackage -d -b -us -uc) >"$out/told" 2>&1 ||
        fail "of the source package no package becomes: $(tail -n 1 "$out/told")"
    cmp -s "$package" "$out/source/${package##*/}" || fail 'of the source package another package becomes'
    (cd "$out/source/unpacked" && dpkg-buildpackage -d -T clean) >"$out/told" 2>&1 && [ ! -e "$out/source/unpacked/debian/build" ] || fail 'debian/rules cleans nothing'
else
    skip 'there is no dpkg-source' 'whether the package is made of its source package'
    mkdir "$out/again"
    cmp -s "$package" "$(make_deb "$out/again")" || fail 'a second package is another one'
fi

# Debian's own checker finds nothing, or what debian/lintian-overrides explains. (of the sources: they are a clone's, and no upload)
if has lintian; then
    lintian --fail-on none "$package" 2>/dev/null | grep -e '^E: ' -e '^W: ' >"$out/errors" || :
    [ ! -s "$out/errors" ] || fail "$(head -n 1 "$out/errors")"
else
    skip 'there is no lintian' 'what it says of the package'
fi
echo "$check: $(basename "$package")"
