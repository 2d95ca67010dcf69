# The groups of tests/hosts in which stop is pressed at the console. Where WAIT, CANCEL and the work are long, they do
# not run out in a case that has nothing to do with them.
# shellcheck shell=bash disable=SC2154

# Timers that do not run out.
long_timers=(--wait 9000 --cancel 9000)

# cancels SIDE FILE: the cancels and cancel_acks in a transcript: event, type, call, and what is told of them.
cancels() {
    awk -v side="$1" '$2 == side && $5 ~ /^cancel/ {
        printf "%s %s %s %s;", $4, $5, $6, substr($0, index($0, "number "))
    }' "$2"
}

# packets FILE: each PDU of a capture file: type, call number, and of fault, cancel and cancel_ack the body's words.
packets() {
    od -An -v -tu1 -w1 "$1" | awk '
        function word(at) { return bytes[at] + 256 * (bytes[at + 1] + 256 * (bytes[at + 2] + 256 * bytes[at + 3])) }
        { bytes[NR - 1] = $1 }
        END {
            # A file header of 24 bytes; before each PDU the packet header (16), those of IPv4 (20) and of UDP (8).
            for (packet = 24; packet < NR; packet = end) {
                end = packet + 16 + word(packet + 8)
                pdu = packet + 44
                printf "%d %d", bytes[pdu + 1], word(pdu + 64)
                if (bytes[pdu + 1] ~ /^(3|8|10)$/) for (at = pdu + 80; at < end; at += 4) printf " %d", word(at)
                printf ";"
            }
        }'
}

# came_of NAME PATTERN: what the console says of call 0 at its end.
came_of() { judge "$1, told" 0 0 "$(grep -E '^call 0: (good|failed), ' "$work/$1.out" || true)" "$2"; }

# counted NAME PATTERN: what the controller says when it has ended, its last two lines.
counted() {
    wait "$controller" || fail "$1, controller" "status $?"
    judge "$1, count" 0 0 "$(tail -n 2 "$work/$1.controller" | tr '\n' ';')" "$2"
}

# A cancel that arrives while the call runs: the stub ends the call by a fault, which the console tells.
cancel_arrives() {
    local name="cancel"
    listen "$work/$name.controller" "$bin/controller" --work 30000 --calls 1 --idle 5 --trace --resend 100
    ends 1 "$name" "^1 calls, 0 good, 1 failed" "$bin/console" --to "127.0.0.1:$port" --calls 1 --size 1 \
        "${long_timers[@]}" --stop 300 --trace --pcap "$work/$name.pcap"
    came_of "$name" 'fault 0x1c00000d back, cancelled: the controller ended it'
    judge "$name, console's transcript" 0 0 "$(events console "$work/$name.out")" \
        '^start 0;sent request;sent cancel;received cancel_ack;received fault;$'
    judge "$name, cancels of the console" 0 0 "$(cancels console "$work/$name.out")" \
        '^sent cancel 0 number 1;received cancel_ack 0 number 1, accepts 1;$'
    counted "$name" '^1 of the executions ended by a cancel, without effect;1 calls executed, 1 executions, 0 .*;$'
    judge "$name, controller's transcript" 0 0 "$(events controller "$work/$name.controller")" \
        '^received request;received cancel;sent cancel_ack;fault 0;sent fault;(timer RESEND;(sent|lost) fault;)*timer'
    judge "$name, cancels of the controller" 0 0 "$(cancels controller "$work/$name.controller")" \
        '^received cancel 0 number 1; cancel: the call is to end;sent cancel_ack 0 number 1, accepts 1;$'
    captured "$name"
}

# captured NAME: the capture file of the case above, by its bytes, and in tshark where it is at hand. 469762061 is
# 0x1c00000d.
captured() {
    judge "$1, capture file" 0 0 "$(packets "$work/$1.pcap")" '^0 0;8 0 0 1;10 0 0 1 1;3 0 469762061;$'
    decoded "$1, capture file in tshark" "$work/$1.pcap" '^0 0 0 1;8 0 0 1;10 0 0 1;3 0 0 1;$' "${every_pdu[@]}"
    decoded "$1, malformed in tshark" "$work/$1.pcap" '^$' -Y '_ws.malformed' -e frame.number
    has_cancel_fields || return 0
    # Some versions say 1 of a server that accepts, others True.
    decoded "$1, bodies in tshark" "$work/$1.pcap" '^8 0 1 ?;10 0 1 (1|True);$' \
        -Y 'dcerpc.pkt_type == 8 || dcerpc.pkt_type == 10' -e dcerpc.pkt_type -e dcerpc.dg_cancel_vers \
        -e dcerpc.dg_cancel_id -e dcerpc.server_accepting_cancels
}

# Whether tshark is at hand and has the fields of both bodies under these names.
has_cancel_fields() {
    local known
    command -v tshark >"$work/which_tshark" || return 1
    known=$(tshark -G fields 2>"$work/fields.err" | cut -f 3 |
        grep -cxE 'dcerpc\.(dg_cancel_vers|dg_cancel_id|server_accepting_cancels)') || true
    ((known == 3))
}

# A stub that does not end the call: the cancel_ack disarms CANCEL, which would run out long before the reply comes,
# and the call completes. After the end of standard input the console waits without using the processor.
cancel_ignored() {
    local name="cancel ignored" spent TIMEFORMAT='%U %S'
    listen "$work/$name.controller" "$bin/controller" --work 3500 --ignore-cancels --calls 1 --idle 5 --trace
    spent=$({ time ends 0 "$name" "^1 calls, 1 good, 0 failed" "$bin/console" --to "127.0.0.1:$port" --calls 1 \
        --wait 9000 --cancel 1500 --stop 300 --trace </dev/null >"$work/$name.line"; } 2>&1)
    cat "$work/$name.line"
    judge "$name, processor's seconds" 0 0 "$spent" '^0\.[0-4][0-9]* 0\.[0-4][0-9]*$'
    came_of "$name" '1000 back, completed although stop was pressed'
    judge "$name, console's transcript" 0 0 "$(events console "$work/$name.out")" \
        '^start 0;sent request;sent cancel;received cancel_ack;received response;timer ACK;sent ack;$'
    counted "$name" ';1 calls executed, 1 executions, 0 .*;$'
    judge "$name, controller's transcript" 0 0 "$(events controller "$work/$name.controller")" \
        '^received request;received cancel;sent cancel_ack;reply 0;sent response;received ack;$'
}

# All that the controller sends is lost, so no cancel_ack comes: the console gives up, and does not know that the stub
# has ended the call.
cancel_ack_lost() {
    local name="cancel_ack lost"
    listen "$work/$name.controller" "$bin/controller" --work 30000 --calls 1 --idle 5 --trace --resend 100 --loss 100
    ends 1 "$name" "^1 calls, 0 good, 1 failed" "$bin/console" --to "127.0.0.1:$port" --calls 1 --wait 9000 \
        --cancel 400 --stop 300 --trace
    came_of "$name" 'failed, cause 3: no cancel_ack, CANCEL ran out .*; it may have been executed'
    judge "$name, console's transcript" 0 0 "$(events console "$work/$name.out")" \
        '^start 0;sent request;sent cancel;timer CANCEL;$'
    counted "$name" '^1 of the executions ended by a cancel, without effect;'
    judge "$name, controller's transcript" 0 0 "$(events controller "$work/$name.controller")" \
        '^received request;received cancel;lost cancel_ack;fault 0;lost fault;'
}

# The cancel is lost, by the seed: the console gives up in the same way, and the call is executed all the same.
cancel_lost() {
    local name="cancel lost"
    listen "$work/$name.controller" "$bin/controller" --work 3000 --calls 1 --idle 5 --trace --resend 100
    ends 1 "$name" "^1 calls, 0 good, 1 failed" "$bin/console" --to "127.0.0.1:$port" --calls 1 --wait 9000 \
        --cancel 400 --stop 300 --trace --loss 50 --seed 6
    came_of "$name" 'failed, cause 3: no cancel_ack, CANCEL ran out .*; it may have been executed'
    judge "$name, console's transcript" 0 0 "$(events console "$work/$name.out")" \
        '^start 0;sent request;lost cancel;timer CANCEL;$'
    counted "$name" ';1 calls executed, 1 executions, 0 .*;$'
    judge "$name, controller's transcript" 0 0 "$(events controller "$work/$name.controller")" \
        '^received request;reply 0;sent response;'
}

# A person types: a line that is not stop, and stop twice. The first cancel is lost, by the seed; the cancel_ack of the
# second is taken.
cancel_typed() {
    local name="stop typed"
    listen "$work/$name.controller" "$bin/controller" --work 30000 --calls 1 --idle 5 --trace --resend 100
    { sleep 1 && echo stpo && sleep 0.5 && echo stop && sleep 0.5 && echo stop; } |
        ends 1 "$name" "^1 calls, 0 good, 1 failed" "$bin/console" --to "127.0.0.1:$port" --calls 1 --trace \
            "${long_timers[@]}" --loss 50 --seed 6
    came_of "$name" 'fault 0x1c00000d back, cancelled: the controller ended it'
    judge "$name, another line" 0 0 "$(grep '^console: ' "$work/$name.out" || true)" \
        '^console: not stop: "stpo"; the calls go on$'
    judge "$name, pressed" 0 0 "$(grep -c '^call 0: stop pressed, the controller is asked' "$work/$name.out")" '^2$'
    judge "$name, cancels" 0 0 "$(cancels console "$work/$name.out")" \
        '^lost cancel 0 number 1;sent cancel 0 number 2;received cancel_ack 0 number 2, accepts 1;$'
    counted "$name" '^1 of the executions ended by a cancel, without effect;'
}

# Stop after the end of the call, while its ack is owed: refused with 15 and told, and nothing is sent.
cancel_late() {
    local name="stop too late"
    listen "$work/$name.controller" "$bin/controller" --calls 1 --idle 5 --trace --resend 5000
    ends 0 "$name" "^1 calls, 1 good, 0 failed" "$bin/console" --to "127.0.0.1:$port" --calls 1 --wait 9000 \
        --ack 2000 --stop 900 --trace
    judge "$name, told" 0 0 "$(grep '^stop' "$work/$name.out" || true)" \
        '^stop pressed, but no call is out: refused 15 \(nothing to do in this state\)$'
    judge "$name, console's transcript" 0 0 "$(events console "$work/$name.out")" \
        '^start 0;sent request;received response;timer ACK;sent ack;$'
    wait "$controller"
}

# Two consoles at one controller: the cancel of one leaves the call of the other alone.
cancel_of_one() {
    local name="cancel of one" other status=0
    listen "$work/$name.controller" "$bin/controller" --work 3000 --calls 2 --idle 5 --resend 100
    timeout 20 "$bin/console" --to "127.0.0.1:$port" --calls 1 --wait 9000 >"$work/$name.other" 2>&1 &
    other=$!
    ends 1 "$name" "^1 calls, 0 good, 1 failed" "$bin/console" --to "127.0.0.1:$port" --calls 1 "${long_timers[@]}" \
        --idempotent --stop 200
    came_of "$name" 'fault 0x1c00000d back, cancelled: the controller ended it'
    wait "$other" || status=$?
    judge "$name, the other" 0 "$status" "$(head -n 1 "$work/$name.other")" '^call 0: good, 1000 bytes, 1000 back, '
    counted "$name" '^1 of the executions ended by a cancel, without effect;2 calls executed, 2 executions, 0 .*;$'
}

# The C controller, which is built already: it hears the cancel while it works.
c_cancel() {
    local name="C controller, cancel"
    listen "$work/$name.controller" "$work/controller_c" 0 4 9000
    ends 1 "$name" "^1 calls, 0 good, 1 failed" "$bin/console" --to "127.0.0.1:$port" --calls 1 "${long_timers[@]}" \
        --stop 300
    came_of "$name" 'fault 0x1c00000d back, cancelled: the controller ended it'
    counted "$name" '^ended 1 calls because of a cancel;executed 0 calls;$'
}
