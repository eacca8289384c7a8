#!/bin/sh
# Runs a server whose standard input ends when this script is sent SIGTERM or SIGINT, and ends with the server's status:
#
#     end_on_term.sh peer_front --until-eof --listen 127.0.0.1:8001 --demo
folder=$(mktemp -d) && mkfifo "$folder/input" || exit 1
# For reading and writing, since a pipe that is opened for writing alone waits for its reader.
exec 3<> "$folder/input"
exec 4< "$folder/input"
rm -r "$folder"
# Before the server is there, so that no signal comes too early.
trap 'exec 3>&-' TERM INT
"$@" <&4 3>&- 4<&- &
server=$!
exec 4<&-
wait "$server"
status=$?
# A signal ends a wait before the server does.
while kill -0 "$server" 2> /dev/null; do
    wait "$server"
    status=$?
done
exit "$status"
