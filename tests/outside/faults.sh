#!/bin/sh
# Can the harness of tests/outside/second see? It must find nothing in the second implementation behind the library's interface, and each fault put in.
set -eu
cd "$(dirname "$0")/../.."
tests/outside/second/build stand_in
tried=target/second/stand_in.log
target/second/stand_in 1 20000 >"$tried" || { cat "$tried"; exit 1; }
# Kind and fault. What 63 to 65 tell is tried twice: by the second implementation, and by the caller's bytes, the kind digits. So are faults of judging
# what is collected: in histories of packets, and in the packets that were written. The kinds fades and schedules ask no second
# implementation: fades holds two histories against each other from a section start on, schedules has a definition over sequences of
# sections, each from an empty roll on, so that it sees no fault of a roll made by hand.
all="bytes:1 bytes:6 sections:2 sections:3 sections:4 sections:5 sections:23 sections:24 sections:25 sections:26
    packets:7 packets:8 packets:9 packets:10 packets:27 descriptors:11 descriptors:12 descriptors:13 times:14 times:15
    rolls:16 rolls:17 rolls:18 sheets:19 sheets:20 sheets:21 sheets:22
    descriptors:28 descriptors:29 times:29 times:30 descriptors:31 descriptors:32 descriptors:33 times:33
    digits:14 digits:28 digits:29 digits:30 digits:31 digits:32 digits:33
    packets:34 packets:35 packets:36 packets:37 packets:38 packets:39 packets:40 packets:41
    writer:42 writer:43 writer:44 writer:45 writer:46 writer:47 writer:48 writer:49 writer:50 writer:51 writer:52 writer:53
    writer:54 writer:55
    packets:56 packets:57 packets:58 packets:59 packets:60 packets:61 packets:62 packets:63 packets:64 packets:65 packets:66
    packets:67 packets:68 packets:69 packets:70 packets:71 packets:72 packets:73 packets:74
    writer:57 writer:63 writer:64 writer:65 writer:66 writer:67 writer:69
    fades:75 fades:76 fades:77 fades:78 fades:79 fades:80 fades:81 fades:9 fades:35 fades:63 fades:65 fades:73 fades:74
    rolls:82 rolls:83 rolls:84 rolls:85 rolls:86 rolls:87 rolls:88 rolls:89 rolls:90 rolls:91 rolls:92 rolls:93 rolls:94 rolls:95
    rolls:96 rolls:97 rolls:98 rolls:99 rolls:100 rolls:101 rolls:102 rolls:103 rolls:104 rolls:105 rolls:106 rolls:107 rolls:108
    schedules:16 schedules:82 schedules:84 schedules:85 schedules:86 schedules:87 schedules:92 schedules:93 schedules:95
    schedules:96 schedules:97 schedules:98 schedules:99 schedules:104 schedules:105 schedules:106 schedules:107
    writers:109 writers:110 writers:111 writers:112 writers:113 writers:114 writers:115 writers:116 writers:117 writers:118
    writers:119 writers:120 writers:121 writers:122 writers:123 writers:124 writers:125 writers:126 writers:127 writers:128
    writers:129 writers:130 writers:131 writers:132 writers:133 writers:134 writers:135 writers:136 writers:137 writers:138
    writers:139 writers:140 writers:141 writers:142 writers:143 writers:144 writers:145 writers:146 writers:147 writers:148
    writers:149 writers:150 writers:151 writers:152 writers:153 writers:154 writers:155 writers:156 writers:157 writers:158
    writers:159 writers:160 writers:161 writers:162 writers:163 writers:164 writers:165"
for kind in $all; do
    status=0
    FAULT=${kind#*:} target/second/stand_in 1 20000 "${kind%:*}" >"$tried" || status=$?
    [ $status -eq 1 ] || { echo "faults: the kind ${kind%:*} does not see fault ${kind#*:} of stand_in.c (status $status)"; exit 1; }
done
faults=$(printf '%s\n' $all | sed 's/.*://' | sort -u | wc -l)
written=$(grep -o 'fault([0-9]*)' tests/outside/second/stand_in.c | sort -u | wc -l)
[ "$faults" -eq "$written" ] || { echo "faults: stand_in.c has $written faults, and $faults are tried here"; exit 1; }
echo "faults: each of the $faults faults of stand_in.c is seen"
