#!/bin/sh
# Halts an app when its page says that a version of it fails: at least three of the version's newest 20
# installs failed, and more than 5 percent; none fails before it has 20. Nobody is asked first, so it
# is only an example.
#
#   cp rollout-halt-failing.sh /usr/local/sbin/rollout-halt-failing
#   echo '* * * * * root /usr/local/sbin/rollout-halt-failing editor' > /etc/cron.d/rollout-halt-failing
#
# Clients aren't authenticated: anyone who reports three failed installs can stop a release so. Each
# version is halted once: after `rollout stage resume` it goes on, failing or not. A page that is
# missing, cut short or older than ten minutes halts nothing, and ends this with status 1. What it did
# is in the journal (`journalctl -t rollout-halt-failing`), and in the step's reason.
#
# Its second argument is the page, its third the file of the versions for which the app was halted.
set -eu
export PATH="/opt/rollout/bin:$PATH" LC_ALL=C
# One call at a time: a server that others occupy may reply late.
[ "${ALONE-}" ] || { export ALONE=yes && exec flock -w 50 "$0" "$0" "$@"; }
app=$1 page=${2-/run/rollout-report/index.html} halted=${3-/var/lib/rollout-halted}

say() {
    echo "$*"
    logger -t rollout-halt-failing -- "$*" 2> /dev/null || :
}

case $app in
"" | -* | *[!A-Za-z0-9._-]*)
    say "$app: an appid of letters, digits, dots, hyphens and underscores, please"
    exit 2
    ;;
esac

# The versions that fail, a line each. The names of a page are escaped, so a line that begins like the
# heading of the app is the page's own.
failing() {
    app=$app awk '
        BEGIN { heading = "<section><h2><span class=\"name\">" ENVIRON["app"] "</span>" }
        NR == 2 { is_page = $0 == "<!-- A page of rollout report -->" }
        index($0, heading) == 1 {
            count = split($0, parts, "<b class=\"bad\"><span class=\"name\">")
            for (k = 2; k <= count; k++) { sub("<.*", "", parts[k]); print parts[k] }
        }
        { last = $0 }
        END { exit !(is_page && last == "</html>") }' "$page"
}

if [ -z "$(find "$page" -mmin -10 2> /dev/null)" ] || ! versions=$(failing); then
    say "nothing is judged: $page is missing, cut short or older than ten minutes"
    exit 1
fi
[ "$versions" ] || exit 0
known=/dev/null
[ -f "$halted" ] && [ -r "$halted" ] && known=$halted
new=$(printf '%s\n' "$versions" | sed "s/^/$app /" | grep -vxF -f "$known") || exit 0

keep() {
    printf '%s\n' "$new" >> "$halted" || say "$halted can't be written, so it will halt again"
}

# The servers that reply: after an upgrade by rollout@9 that is the one at 8091.
servers='' offers=
for port in 8081 8091; do
    state=$(timeout 15 rollout state --operator $port 2> /dev/null) || continue
    servers="$servers --operator $port"
    printf '%s\n' "$state" | grep -qxF "halted $app" || offers=yes
done
if [ "$servers" ] && [ -z "$offers" ]; then
    keep
    say "$app is halted already. Failing, by $page: $new"
    exit
fi

# At the servers first, as that takes no file; then in the files, which a restart reads. If a server
# doesn't reply, the next call tries again.
why="failing by the page: $(printf '%s' "$new" | tr -c 'A-Za-z0-9._+-' ' ' | cut -c 1-80)"
status=0
# shellcheck disable=SC2086
said=$(rollout stage halt "$app" ${servers:---operator 8081} --by rollout-halt-failing \
    --because "$why" 2>&1) || status=$?
[ $status != 0 ] || keep
say "stage halt $app, $why: $said (status $status)"
exit $status
