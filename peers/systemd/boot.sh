# What is tried in the guest at its first boot, after a reboot, and after a power cut. Each line on the second serial port is one check.
exec 3> /dev/ttyS1
cd /try
boot=$(($(cat boot 2> /dev/null || echo 0) + 1))
echo $boot > boot

# says NAME COMMAND..: one check, tried for so long.
says() {
    name=$1; shift
    tries=0
    until "$@" > said 2>&1; do
        tries=$((tries + 1))
        if [ $tries -ge 60 ]; then
            echo "failed: $name: $(tr '\n' ' ' < said)" >&3
            { systemctl status --no-pager -l "bx@$day" "bx-bridge@$day"; journalctl --no-pager -u "bx@*" -u "bx-bridge@*" | tail -n 60; } 2>&1
            return 1
        fi
        sleep 0.5
    done
    echo "ok: $name" >&3
}
is() { [ "$1" = "$2" ] || { echo "$1, not $2"; return 1; }; }
of() { systemctl show -P "$2" "bx@$1"; }
has() { of "$1" "$2" > found; is "$(cat found)" "$3"; }
until_second() { while [ "$(date +%s)" -lt $((midnight + $1)) ]; do sleep 0.2; done; }
ask() { curl -s -m 20 --unix-socket "/run/bx/$day/office.sock" "$@"; }
is_well() { is "$(ask -o /dev/null -w '%{http_code}' http://localhost/healthz)" 200; }
on_day() { date -u -d "@$((midnight + $1))" +%Y-%m-%dT%H:%M:%SZ; }

bridge_runs() { is "$(systemctl is-active "bx-bridge@$day")" active; }

. ./tries-$boot
