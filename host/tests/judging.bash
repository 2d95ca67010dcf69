# How tests/hosts runs and judges its cases. The script sets `bin`, the programs' folder, and `work`, its own.
# shellcheck shell=bash disable=SC2154

# Whether a console hung in this group of cases.
hung=0

# ok NAME TEXT, fail NAME TEXT: the line of a case.
ok() { echo "ok    $1: $2"; }
fail() { echo "FAIL  $1: $2"; }

# judge NAME EXPECTED_STATUS STATUS TEXT PATTERN: a case that must end with the status and say the pattern.
judge() {
    if [[ $3 == "$2" && $4 =~ $5 ]]; then ok "$1" "${BASH_REMATCH[0]}"; else fail "$1" "status $3, $4"; fi
}

# ends STATUS NAME PATTERN COMMAND...: the command ends by itself with that status, and its last line has the pattern.
ends() {
    local expected=$1 name=$2 pattern=$3 status=0
    shift 3
    timeout 20 "$@" >"$work/$name.out" 2>&1 || status=$?
    judge "$name" "$expected" "$status" "$(tail -n 1 "$work/$name.out")" "$pattern"
}

# events SIDE FILE: the events of a side in a transcript, each with the PDU's type or the timer's name.
events() { awk -v side="$1" '$2 == side { printf "%s %s;", $4, $5 }' "$2"; }

# says NAME PATTERN: the first line of a case that has ended has the pattern.
says() { judge "$1, told" 0 0 "$(head -n 1 "$work/$1.out")" "$2"; }

# listen FILE PROGRAM ARGUMENTS...: starts a controller that prints into the file; sets `controller` and `port`.
listen() {
    local file=$1
    shift
    : >"$file"
    timeout 55 "$@" >"$file" 2>"$file.err" &
    controller=$!
    port=
    for ((tries = 0; tries < 200; tries++)); do
        port=$(sed -n 's/^listening on 127\.0\.0\.1:\([0-9]*\)$/\1/p' "$file")
        [[ -z $port ]] || return 0
        sleep 0.05
    done
    fail "$1" "does not say that it listens: $(cat "$file" "$file.err")"
}

# calls NAME LEAST CONSOLE_ARGUMENTS...: each of 5 calls is good or its failure is told, at least so many are good.
# What the console prints must agree with itself and with its exit status.
calls() {
    local name=$1 least=$2 file="$work/$1.console" status=0 good failed last
    shift 2
    # One hang is enough to see.
    ((hung == 0)) || { fail "$name" "not run, an earlier case hung"; return 0; }
    timeout 20 "$bin/console" --to "127.0.0.1:$port" --calls 5 "$@" >"$file" 2>&1 || status=$?
    hung=$((status == 124))
    good=$(grep -c '^call [0-9]*: good, ' "$file" || true)
    failed=$(grep -cE '^call [0-9]*: failed, cause [12]: .* it may have been executed' "$file" || true)
    last=$(tail -n 1 "$file")
    if [[ $last == "5 calls, $good good, $failed failed" && $good -ge $least && $status == $((failed > 0)) ]]; then
        ok "$name" "$last"
    else
        fail "$name" "status $status, $(tail -n 3 "$file" | tr '\n' ';')"
    fi
    total_good=$((total_good + good))
}

# executed NAME IDEMPOTENT: the controller's own count, when it has ended: every good call was executed, and one that
# is not idempotent once.
executed() {
    local name=$1 status=0 last count executions
    wait "$controller" || status=$?
    last=$(tail -n 1 "$work/$name.controller")
    if ! [[ $last =~ ^([0-9]+)\ calls\ executed,\ ([0-9]+)\ executions,\ 0\ not\ idempotent\ executed\ twice$ ]]; then
        fail "$name, count" "status $status, $last $(cat "$work/$name.controller.err")"
        return
    fi
    count=${BASH_REMATCH[1]} executions=${BASH_REMATCH[2]}
    if [[ $status == 0 ]] && ((count >= total_good && executions >= count && ($2 || executions == count))); then
        ok "$name, count" "$total_good calls good, $last"
    else
        fail "$name, count" "status $status, $total_good calls good, $last"
    fi
}

# other_interface NAME: the controller that listens answers a request of an interface that it does not have by a fault.
other_interface() {
    local got
    exec 3<>"/dev/udp/127.0.0.1/$port"
    # Version 4, a request, no fack wanted, little-endian; interface, activity and all else are 0.
    { printf '\4\0\10\0\20' && head -c 75 /dev/zero; } | dd bs=80 iflag=fullblock status=none >&3
    got=$(timeout 5 dd bs=2048 count=1 status=none <&3 | od -An -v -tx1 -w1472 | cut -d ' ' -f 3,82-) || true
    exec 3>&-
    judge "$1, other interface" 0 0 "$got" '^03 03 00 01 1c$'
}

# Arguments that are bad: one line with the usage on standard error, nothing on standard output, status 2.
usage() {
    local program=$1 line=$2 status=0 words
    read -ra words <<<"$line"
    timeout 10 "$bin/$program" "${words[@]}" >"$work/usage.out" 2>"$work/usage.err" || status=$?
    if [[ $status == 2 && ! -s $work/usage.out && $(wc -l <"$work/usage.err") == 1 ]] &&
        grep -q "^$program: .*; usage: $program " "$work/usage.err"; then
        ok "$program $line" "$(sed 's/; usage.*//' "$work/usage.err"), status 2"
    else
        fail "$program $line" "status $status, $(cat "$work/usage.out" "$work/usage.err")"
    fi
}
