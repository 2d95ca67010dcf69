# The groups of tests/hosts that hold transcripts and capture files to what must be in them. Timers are long, so that a
# machine that is busy does not let them run out.
# shellcheck shell=bash disable=SC2154

# numbered SIDE FILE: the events of a side in a transcript; requests, responses and facks with call and fragment.
numbered() {
    awk -v side="$1" '$2 == side {
        printf "%s %s", $4, $5
        if ($5 ~ /^(request|response|fack)$/) printf " %s %s", $6, $7
        printf ";"
    }' "$2"
}

# facks SIDE EVENT FILE: the facks in a transcript that a side sent or received: call, number, mask, serial answered.
facks() {
    awk -v side="$1" -v event="$2" '$2 == side && $4 == event && $5 == "fack" {
        told = substr($0, index($0, "mask "))
        gsub(/mask |,|answers serial /, "", told)
        printf "%s %s %s;", $6, $7, told
    }' "$3"
}

# facked NAME SIDE OTHER FACKS: the facks of one side, in its own transcript, in the other's, and in the capture file.
facked() {
    local filter='dcerpc.pkt_type == 9 && udp.srcport' own=" 0 43 1472 1472 1;"
    local -A transcripts=([controller]="$work/$1.controller" [console]="$work/$1.out")
    judge "$1, facks sent by the $2" 0 0 "$(facks "$2" sent "${transcripts[$2]}")" "^$4\$"
    judge "$1, facks received by the $3" 0 0 "$(facks "$3" received "${transcripts[$3]}")" "^$4\$"
    [[ $2 == controller ]] || filter=${filter/src/dst}
    # Version, window, two sizes and the count of masks are the same in all.
    decoded "$1, facks of the $2 in tshark" "$work/$1.pcap" "^${4//;/$own}\$" -Y "$filter == $port" \
        -e dcerpc.dg_seqnum -e dcerpc.dg_frag_num -e dcerpc.fack_selack -e dcerpc.fack_serial_num -e dcerpc.fack_vers \
        -e dcerpc.fack_window_size -e dcerpc.fack_max_tsdu -e dcerpc.fack_max_frag_size -e dcerpc.fack_selack_len
}

# decoded NAME FILE PATTERN OPTIONS...: what tshark reads in a capture file, where it is at hand. Without its first
# option a first request of one fragment, not idempotent, passes for WireGuard: it begins 4, 0, 0, 0.
decoded() {
    local name=$1 file=$2 pattern=$3 got
    shift 3
    command -v tshark >"$work/$name.which" || return 0
    got=$(tshark --disable-heuristic wg -o ip.check_checksum:TRUE -r "$file" -T fields -E separator=/s "$@" \
        2>"$work/$name.err" | tr '\n' ';')
    judge "$name" 0 0 "$got" "$pattern"
}

# Of every PDU of a capture file: type, call number, fragment, and that the IPv4 checksum is good.
every_pdu=(-e dcerpc.pkt_type -e dcerpc.dg_seqnum -e dcerpc.dg_frag_num -e ip.checksum.status)

# A call of one fragment each way: transcripts and capture file are complete, in order, and have no fack.
records() {
    local expected got
    listen "$work/records.controller" "$bin/controller" --calls 1 --idle 5 --trace --resend 5000
    ends 0 "transcript" "1 calls, 1 good, 0 failed" "$bin/console" --to "127.0.0.1:$port" --calls 1 --size 1 \
        --wait 5000 --ack 50 --trace --pcap "$work/call.pcap"
    wait "$controller"
    expected='start 0;sent request;received response;timer ACK;sent ack;'
    judge "console's transcript" 0 0 "$(events console "$work/transcript.out")" "^$expected\$"
    expected='received request;reply 0;sent response;received ack;'
    judge "controller's transcript" 0 0 "$(events controller "$work/records.controller")" "^$expected\$"
    # Mark, version, link type; three packets: request and response (81) and ack (80).
    expected=' a1b2c3d4 00040002 00000000 00000000 0000ffff 00000065 398'
    got="$(od -An -v -tx4 -N24 "$work/call.pcap" | tr -d '\n') $(wc -c <"$work/call.pcap")"
    judge "capture file" 0 0 "$got" "^$expected\$"
    decoded "capture file in tshark" "$work/call.pcap" '^0 0 0 1;2 0 0 1;7 0 0 1;$' "${every_pdu[@]}"
}

# Two calls, C, of three fragments there and four back: each fragment gets its fack. A side sends all fragments that it
# has before it takes a datagram, and loopback keeps the order; so both sides have one order only.
several_fragments() {
    local name="several fragments" console_does controller_does capture by_controller by_console
    console_does='start C;sent request C 0;sent request C 1;sent request C 2;received fack C 0;received fack C 1;'
    console_does+='received fack C 2;received response C 0;sent fack C 0;received response C 1;sent fack C 1;'
    console_does+='received response C 2;sent fack C 2;received response C 3;sent fack C 3;'
    controller_does='received request C 0;sent fack C 0;received request C 1;sent fack C 1;received request C 2;'
    controller_does+='sent fack C 2;reply C;sent response C 0;sent response C 1;sent response C 2;sent response C 3;'
    controller_does+='received fack C 0;received fack C 1;received fack C 2;received fack C 3;'
    capture='0 C 0 1;0 C 1 1;0 C 2 1;9 C 0 1;9 C 1 1;9 C 2 1;'
    capture+='2 C 0 1;9 C 0 1;2 C 1 1;9 C 1 1;2 C 2 1;9 C 2 1;2 C 3 1;9 C 3 1;'
    by_controller='C 0 0x00000000 1;C 1 0x00000000 2;C 2 0x00000000 3;'
    by_console="${by_controller}C 3 0x00000000 4;"
    listen "$work/$name.controller" "$bin/controller" --calls 2 --idle 5 --trace --resend 5000
    ends 0 "$name" "^2 calls, 2 good, 0 failed" "$bin/console" --to "127.0.0.1:$port" --calls 2 --size 3000 \
        --reply 5000 --wait 5000 --ack 50 --trace --pcap "$work/$name.pcap"
    wait "$controller"
    judge "$name, console's transcript" 0 0 "$(numbered console "$work/$name.out")" \
        "^$(twice "$console_does")timer ACK;sent ack;\$"
    judge "$name, controller's transcript" 0 0 "$(numbered controller "$work/$name.controller")" \
        "^$(twice "$controller_does")received ack;\$"
    decoded "$name, capture file in tshark" "$work/$name.pcap" "^$(twice "$capture")7 1 0 1;\$" "${every_pdu[@]}"
    facked "$name" controller console "$(twice "$by_controller")"
    facked "$name" console controller "$(twice "$by_console")"
}

# twice TEXT: the text of call 0 and of call 1.
twice() { echo "${1//C/0}${1//C/1}"; }

# One call of four fragments each way. Fragment 1 of the request and fragment 0 of the reply are held back and come
# last, so that masks tell what is held behind a gap. That it is these goes by the seeds; what is held back goes out
# when its sender waits for a datagram, which is after all other fragments.
late_fragments() {
    local name="late fragments" got
    listen "$work/$name.controller" "$bin/controller" --calls 1 --idle 5 --trace --resend 5000 --delay 10 --seed 249 \
        --pcap "$work/$name.pcap"
    ends 0 "$name" "^1 calls, 1 good, 0 failed" "$bin/console" --to "127.0.0.1:$port" --calls 1 --size 5000 \
        --reply 5000 --wait 5000 --ack 50 --trace --delay 10 --seed 13
    wait "$controller"
    got=$(numbered console "$work/$name.out" | grep -oE '(delayed|sent) request [0-9 ]*;' | tr -d '\n')
    judge "$name of the request" 0 0 "$got" \
        '^sent request 0 0;delayed request 0 1;sent request 0 2;sent request 0 3;sent request 0 1;$'
    got=$(numbered controller "$work/$name.controller" | grep -oE '(delayed|sent) response [0-9 ]*;' | tr -d '\n')
    judge "$name of the reply" 0 0 "$got" \
        '^delayed response 0 0;sent response 0 1;sent response 0 2;sent response 0 3;sent response 0 0;$'
    facked "$name" controller console '0 0 0x00000000 1;0 0 0x00000002 3;0 0 0x00000006 4;0 3 0x00000000 2;'
    facked "$name" console controller \
        '0 65535 0x00000002 2;0 65535 0x00000006 3;0 65535 0x0000000e 4;0 3 0x00000000 1;'
}

# One call of four fragments each way. Fragments 2 and 3 are lost at their first sending, of the request and of the
# reply, by the seeds. What is sent again begins with 2, because a fack has told of 0 and 1.
lost_fragments() {
    local name="lost fragments"
    listen "$work/$name.controller" "$bin/controller" --calls 1 --idle 9 --trace --resend 9000 --loss 10 --seed 601
    ends 0 "$name" "^1 calls, 1 good, 0 failed" "$bin/console" --to "127.0.0.1:$port" --calls 1 --size 5000 \
        --reply 5000 --wait 2000 --ack 50 --trace --loss 10 --seed 1744
    wait "$controller"
    judge "$name of the request" 0 0 "$(numbered console "$work/$name.out")" \
        'lost request 0 2;lost request 0 3;.*received nocall;sent request 0 2;sent request 0 3;'
    judge "$name of the reply" 0 0 "$(numbered controller "$work/$name.controller")" \
        'lost response 0 2;lost response 0 3;.*received ping;sent response 0 2;sent response 0 3;'
}
