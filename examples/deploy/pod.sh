#!/bin/sh
# Puts manifests in place in one of several equal servers, each with its share of every quota: the
# shares of all of them add up to the quota. In a pod of a StatefulSet its number is the end of its
# name, and REPLICAS says how many pods there are.
#
#   pod.sh first FOLDER        copies the files of FOLDER, if the pod has no manifest yet
#   pod.sh put [OPTION ..]     unpacks a tar of current.toml and its files from standard input, and
#                              loads them by `rollout stage put`, with these options
set -eu
place=/etc/rollout

# A quota that is written otherwise can't be divided.
odd() {
    echo "pod.sh: write this as a line quota = N, from its first column on: $1" >&2
    exit 1
}

# A pod whose number isn't below REPLICAS has no share, so it isn't begun.
none_left() {
    echo "pod.sh: pod $number has no share, since REPLICAS is $REPLICAS" >&2
    exit 1
}

# The manifest with this pod's share of each line `quota = N`. A quota of fewer than REPLICAS leaves a
# pod with 0, which is refused.
share() {
    number=${HOSTNAME##*-}
    while IFS= read -r line || [ "$line" ]; do
        case $line in
        "quota = "[0-9]*)
            all=${line#quota = } && rest=${all#"${all%%[!0-9]*}"} && all=${all%%[!0-9]*}
            case $rest in "" | [[:blank:]]* | "#"*) ;; *) odd "$line" ;; esac
            [ "$number" -lt "$REPLICAS" ] || none_left
            line="quota = $((all / REPLICAS + (number < all % REPLICAS)))"
            ;;
        "#"*) ;;
        *quota*=*) odd "$line" ;;
        esac
        printf '%s\n' "$line"
    done <"$1"
}

case ${1-} in
first)
    [ -e "$place/current.toml" ] && exit
    for it in "$2"/*; do
        [ "${it##*/}" = current.toml ] || cp "$it" "$place"
    done
    share "$2/current.toml" >"$place/current.toml.new"
    mv "$place/current.toml.new" "$place/current.toml"
    ;;
put)
    new=$(mktemp -d)
    trap 'rm -rf "$new"' EXIT
    tar -x -C "$new"
    share "$new/current.toml" >"$new/mine"
    mv "$new/mine" "$new/current.toml"
    shift
    rollout stage put "$new/current.toml" "$@"
    ;;
*)
    echo "usage: pod.sh first FOLDER | put [OPTION ..]" >&2
    exit 2
    ;;
esac
