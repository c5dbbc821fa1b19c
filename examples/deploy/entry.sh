#!/bin/sh
# Runs `rollout serve` with its own arguments, as the first process of a container. Linux gives such
# a process no default action for a signal, so by itself the server would ignore SIGTERM, by which a
# container is stopped. Here SIGTERM and SIGINT do what `rollout stop --wait` does: all accepted
# connections are answered, and then the container ends.
#
# `entry.sh --health` calls `rollout show` at the operator's port of the first process.
set -fu

# The operator's port that these arguments name.
operator_of() {
    before=
    for word; do
        [ "$before" = --operator ] && echo "$word"
        case $word in --operator=*) echo "${word#*=}" ;; esac
        before=$word
    done
}

if [ "$*" = --health ]; then
    exec rollout show --operator "$(operator_of $(tr '\0' ' ' </proc/1/cmdline))"
fi
operator=$(operator_of "$@")

rollout serve "$@" &
server=$!

# If nobody is answered yet, SIGTERM ends the server, which isn't the first process.
stop() {
    asked=yes
    rollout stop --operator "$operator" --wait || kill "$server" 2>/dev/null
}
trap stop TERM INT

# A signal ends a wait before the server has ended.
while asked=; do
    wait "$server"
    status=$?
    [ "$asked" ] && [ "$status" -gt 128 ] || exit "$status"
done
