#!/usr/bin/env bash
# Drives cct_live by two pipes: a coin comes in, something is sold, and four coins are paid.
#   examples/live/drive.sh LIVE PORT [WORD..]      with the program, its port, and further words for it
set -u
coproc HOST { "$1" "$(dirname "$0")/setup" "${@:2}"; }
host=$HOST_PID

# ask COMMAND: gives a command, and shows what is written; `line` is then the balance, and `end` the last line like `ends`.
ends='^$'
ask() {
    printf '%s\nbalance\n' "$1" >&"${HOST[1]}" || exit 1
    while read -r line <&"${HOST[0]}"; do
        echo "$line"
        [[ $line =~ $ends ]] && end=$line
        [[ $line == balance* ]] && return
    done
    exit 1
}

# work COMMAND A: gives a command, and polls until the job at A ends. So acceptors are read while a hopper pays.
work() {
    ends="^(no |refused |sold$|(started|unsure|unquiet|posted|clean|moved|broke|stopped|closed|oddlife|noanswer) $2( |$))"
    end=
    ask "$1"
    while [[ -z $end ]]; do
        ask poll
    done
}

read -r line <&"${HOST[0]}"
echo "$line"
[[ $line == 'protocol 1' ]] || exit 1
work 'settle 3' 3
for _ in 1 2 3; do
    work 'start 2 0010' 2
    [[ $end == unquiet* ]] || break
done
for _ in $(seq 400); do
    ask poll
    [[ $line == 'balance 0 '* ]] || break
done
# Ids rise: these are the seconds of a clock.
work "vend $(date +%s) 30" 1
sleep 1
work "pay 3 $(date +%s) 4" 3
until work 'stop 2' 2 && [[ $end == stopped* || $end == broke* || $end == no* ]]; do :; done
echo end >&"${HOST[1]}"
wait "$host"
