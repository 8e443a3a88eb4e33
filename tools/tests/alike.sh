#!/bin/sh
# The plays for Ansible. One is well where all hosts have the same hosts file, and names who has another one; also if a daemon was started by another one.
# The other one brings a package to all hosts, and restarts them one after the other, who leads last; it ends at the first host that isn't well again.
. "$(dirname "$0")/common.sh"
unset TSP_HOSTS TSP_SELF
has ansible-playbook || { skip 'there is no ansible-playbook' 'the example of a play'; exit; }
export ANSIBLE_NOCOLOR=1 ANSIBLE_RETRY_FILES_ENABLED=0 ANSIBLE_LOCALHOST_WARNING=0 HOME="$out" LANG=C.UTF-8
sed 's/#.*//' daemon/hosts >"$out/one"
cp daemon/hosts "$out/two"
sed 's/slave/master/' daemon/hosts >"$out/other"
# A journal that has what is told it, or nothing.
mkdir "$out/path"
ln -s "$PWD/tools/tsp-launch" "$out/path"
cat >"$out/path/journalctl" <<END
#!/bin/sh
cat "$out/journal" 2>/dev/null
END
chmod +x "$out/path/journalctl"

# Wants this of the play if the third host has this file: its status, and a text.
plays() {
    {
        echo '[all:vars]'
        printf '%s\n' 'ansible_connection=local' "ansible_python_interpreter=$(python3 -c 'import sys; print(sys.executable)')" "tsp_path=$out/path:$PATH"
        echo '[hosts]'
        printf '%s\n' "first tsp_hosts=$out/one" "second tsp_hosts=$out/two" "third tsp_hosts=$out/$1"
    } >"$out/inventory"
    status=0
    PATH=$out/path:$PATH ansible-playbook -i "$out/inventory" examples/alike.yml >"$out/said" 2>&1 || status=$?
    [ "$status" -eq "$2" ] && grep -qF "$3" "$out/said" || fail "if the third host has the file '$1', status $status: $(cat "$out/said")"
}

ansible-playbook --syntax-check -i localhost, examples/alike.yml >"$out/said" 2>&1 || fail "$(cat "$out/said")"
digest=$(tools/tsp-launch --lint -f daemon/hosts -s alpha)
other=$(tools/tsp-launch --lint -f "$out/other" -s alpha)
plays two 0 "$digest on all 3 hosts"
plays other 2 "first has $digest, second has $digest, third has $other"
echo "alpha runs and answers at 192.0.2.11:525, by a hosts file with the digest $digest; after 80 s it asks who leads" >"$out/journal"
plays two 0 "$digest on all 3 hosts"
sed -i "s/$digest/$other/" "$out/journal"
plays two 2 'the daemon was started by another hosts file'
plays none 2 "$out/none: there is no such file"

# Three machines of which the second leads: what is called on which, in its order. The third one isn't synchronised again, if that is wanted.
for name in apt-get systemctl tsp-now; do
    cat >"$out/path/$name" <<END
#!/bin/sh
echo "\${TSP_HOSTS##*/} $name \$*" >>"$out/calls"
case "$name \$*:\$TSP_HOSTS" in
*--tracking*:*/two) echo '{"role": "master"}' ;;
*--tracking*) echo '{"role": "follow"}' && exit 5 ;;
*--wait*:*/"\$(cat "$out/ill")") exit 1 ;;
esac
END
    chmod +x "$out/path/$name"
done
cp "$out/two" "$out/three"
sed -i 's,other$,three,; s,none$,three,' "$out/inventory"
echo package >"$out/new.deb"
upgrades() {
    : >"$out/calls"
    echo "$1" >"$out/ill"
    status=0
    ansible-playbook -i "$out/inventory" -e "tsp_package=$out/new.deb" -e "tsp_copy=$out/copy.deb" examples/upgrade.yml >"$out/said" 2>&1 || status=$?
    [ "$status" -eq "$2" ] || fail "status $status: $(cat "$out/said")"
    grep -v -e apt-get -e tracking "$out/calls" >"$out/restarts"
    cmp -s - "$out/restarts" || fail "the hosts were restarted so: $(cat "$out/restarts")"
    for host in one two three; do
        [ "$(grep -n "$host apt-get -y install $out/copy.deb" "$out/calls" | cut -d: -f1)" -lt "$(grep -n -m 1 systemctl "$out/calls" | cut -d: -f1)" ] ||
            fail "the package wasn't on $host before the first restart"
    done
    cmp -s "$out/new.deb" "$out/copy.deb" || fail 'another package was brought'
}
ansible-playbook --syntax-check -i localhost, examples/upgrade.yml >"$out/said" 2>&1 || fail "$(cat "$out/said")"
upgrades nobody 0 <<END
one systemctl restart tsp
one tsp-now --timeout 900 --wait
three systemctl restart tsp
three tsp-now --timeout 900 --wait
two systemctl restart tsp
two tsp-now --timeout 900 --wait
END
upgrades one 2 <<END
one systemctl restart tsp
one tsp-now --timeout 900 --wait
END
echo "$check: an upgrade of three hosts, and one that ends at a host that isn't well again"
echo "$check: three hosts, with one file, another one, none, and a daemon that has another one"
