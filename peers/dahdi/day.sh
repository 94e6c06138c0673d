# Read by the first program of the guest.
# day NAME PLAN POLICY USER.. -- BRIDGE..: a live day at a pace of 1, of 72 seconds, with BRIDGE between the line of `bx` and its channel, and USER, to
# which the day and the policy are told, at the other end of the channel.
day() {
    name=$1 plan=$2 policy=$3; shift 3
    user=; while [ "$1" != -- ]; do user="$user $1"; shift; done; shift
    midnight=$(($(date +%s) + 6)) into=/results/$name
    bx serve /plans/$plan --live --line 9931:9932 --date "$(date -u -d @$midnight +%Y-%m-%d)" --zone "XXX+$(date -u -d @$midnight +%H:%M:%S)" \
        --turns 72 --journal $into.journal --quiet > $into.outcomes 2> $into.bx &
    exchange=$!
    sleep 1
    "$@" > $into.bridge 2>&1 &
    bridge=$!
    DCHAN_FRAMES=1 $user $midnight 1 120 $policy $garbles $(cat /plans/$plan.offers) > $into.counts 2> $into.libpri &
    peer=$!
    # an exchange with a call that it cannot clear goes on past its day
    (sleep 130; kill $exchange) 2> /dev/null & limit=$!
    wait $exchange; echo $? > $into.status
    kill $limit $peer 2> /dev/null
    wait $peer
    kill $bridge 2> /dev/null || echo "had ended" >> $into.bridge
    wait
    echo "=== $name"; cat $into.outcomes $into.bx $into.counts
}
