#!/bin/sh
# Tests docs/nlshow.jq, and the queries and the document of docs/json.md, with stored captures. Not part of CI, since it
# needs jq. The argument is `nlshow`; without one, it is the one that `rt run` leaves in crates/nlshow.
#
# The documents are those of a start of tcpdump (live40.pcap), of requests (requests.pcap) and of stored messages
# (captured.pcapng), one after the other. The expected outputs were worked out from what the plain form prints.
#
# Prints a line `ok ..` or `FAILED ..` for each test. The last line is 'N passed, M failed', and the status 0 only if
# nothing failed.
set -eu

nlshow=$(realpath "${1-$(dirname "$0")/../crates/nlshow/out/nlshow}")
cd "$(dirname "$0")/.."
. tools/counted.sh
page=docs/json.md

# Checks that the file `found` has the expected lines, which are on standard input.
finds() {
    check "$1" diff - "$room/found"
}

# Tests `o` of an input, which is $1.
o() {
    echo "$1" | jq -L docs -c 'include "nlshow"; o' >"$room/found" 2>&1 || true
    finds "o of $1"
}

# Tests the query of the page below the comment $1.
query() {
    grep -A 1 -xF "# $1" "$page" | sed -n 's/^jq \(-L [^ ]* \)\{0,1\}/jq -L docs /p' >"$room/query"
    sh "$room/query" <"$room/documents" >"$room/found" 2>&1 || true
    asked=$((asked + 1))
    finds "$1"
}

for it in runs/captures/inputs/live40.pcap runs/captures/inputs/requests.pcap docs/captured.pcapng; do
    "$nlshow" --format json <"$it" || test $? = 1
done >"$room/documents"

o '[]' <<'END'
{}
END
o '[{"name":"ifname","value":"br0"},{"name":"mtu","value":1500},{"name":"99","value":{"type":99,"hex":""}}]' <<'END'
{"ifname":"br0","mtu":1500,"99":{"type":99,"hex":""}}
END
o '[{"name":"linkinfo","value":[{"name":"kind","value":"bond"},{"name":"data","value":[{"name":"miimon","value":0,"unit":"ms"}]}]}]' <<'END'
{"linkinfo":{"kind":"bond","data":{"miimon":0}}}
END
o '[{"name":"peer","value":{"index":0,"attrs":[{"name":"ifname","value":"x1"},{"error":{"at":8,"text":"nla_len 3 is below 4"}}]}}]' <<'END'
{"peer":{"index":0,"attrs":{"ifname":"x1"}}}
END
o '[{"name":"id","value":1},{"name":"flush","value":false},{"name":"id","value":2}]' <<'END'
{"id":2,"flush":false}
END
o '[{"name":"id","value":1},{"error":{"at":8,"text":"nla_len 3 is below 4"}}]' <<'END'
{"id":1}
END
o '[{"error":{"at":0,"text":"nla_len 3 is below 4"}}]' <<'END'
{}
END
o '[{"name":"bitrate_const","value":[1,2],"unit":"bit/s"},{"name":"arp_ip_target","value":["10.0.0.1"]},{"name":"data","value":[]}]' <<'END'
{"bitrate_const":[1,2],"arp_ip_target":["10.0.0.1"],"data":{}}
END
o '[{"name":"flags","value":{"number":6,"names":["PVID","UNTAGGED"]}}]' <<'END'
{"flags":{"number":6,"names":["PVID","UNTAGGED"]}}
END
o '{"name":"id","value":[]} null "a" [1,2] [[]]' <<'END'
{"name":"id","value":[]}
null
"a"
[1,2]
[[]]
END

# Tests a filter, $2, on a document about a bond with counters. $1 says what it is.
made() {
    echo '{"packet":{"time":{"utc":"T"}},"type":{"number":16,"name":"RTM_NEWLINK"},"flags":{"number":'"$3"'},
        "link":{"family":{"number":0},"index":6,"flags":{"number":1,"names":["UP"]},"attrs":[{"name":"ifname","value":"b"},
        {"name":"linkinfo","value":[{"name":"kind","value":"bond"},{"name":"data","value":[{"name":"miimon","value":100}]}]},
        {"name":"stats64","value":{"rx_packets":0,"tx_packets":3}}]}}
        {"type":{"number":3,"name":"NLMSG_DONE"},"flags":{"number":0,"names":[]}}' |
        jq -L docs -c "include \"nlshow\"; $2" >"$room/found" 2>&1 || true
    finds "$1"
}

made "link" "link | [.utc, .index, .flags, .ifname, .linkinfo.data.miimon]" '1,"names":["REQUEST"]' <<'END'
["T",6,["UP"],"b",100]
END
made "told of a request" "told" '1,"names":["REQUEST"]' </dev/null
made "bond without a mode" "told | bond" '0,"names":[]' <<'END'
{"name":"b","mode":null,"miimon":100,"arp_interval":null}
END
made "port of none" "told | port" '0,"names":[]' </dev/null
made "counters" "told | counters" '0,"names":[]' <<'END'
{"name":"b","tx_packets":3}
END

asked=0
query "Links that changed, as the kernel announced them, and when. AF_BRIDGE messages of ports are left out" <<'END'
2026-11-27T19:06:35.924100Z	4	nlmon0	3776
2026-11-27T19:06:36.030252Z	5	br0	1500
2026-11-27T19:06:36.419831Z	6	vb	1500
2026-11-27T19:06:36.439019Z	7	va	1500
2026-11-27T19:06:37.013311Z	7	va	1500
2026-11-27T19:06:37.028317Z	7	va	1500
2026-11-27T19:06:37.029460Z	5	br0	1500
2026-11-27T19:06:37.065571Z	5	br0	1500
2026-11-27T19:06:37.482302Z	7	va	1500
END
query "Links that were deleted" <<'END'
bond0
END
query "Requests to set a link up or down" <<'END'
38	7	up
19	3	down
20	3	up
END
query "Requests that the kernel rejected, and why" <<'END'
[11,0,"ENODEV",null]
[16,0,"ENODEV",null]
[22,0,"ENODEV",null]
[35,0,"ENODEV",null]
END
query "Bridges, and their forward delay in seconds" <<'END'
br0	7
br0	7
br0	7
br0	7
br0	7
br1	7
br0	4
br0	4
END
query "Bonds that use LACP" <<'END'
bond0
bond0
bond0
bond0
END
query "Bonds, with their mode and intervals" <<'END'
{"name":"bond0","mode":"balance-rr","miimon":0,"arp_interval":0}
{"name":"bond0","mode":"802.3ad","miimon":100,"arp_interval":0}
{"name":"bond0","mode":"802.3ad","miimon":100,"arp_interval":0}
END
query "Ports, with their state and the name of their master" <<'END'
{"name":"va","master":"dsa0","kind":"bridge","state":"disabled"}
{"name":"va","master":"dsa0","kind":"bridge","state":"disabled"}
{"name":"va","master":"dsa0","kind":"bridge","state":"disabled"}
{"name":"va","master":"dsa0","kind":"bridge","state":"disabled"}
{"name":"va","master":"br0","kind":"bridge","state":"listening"}
{"name":"vc","master":"br0","kind":"bridge","state":"listening"}
{"name":"eth0","master":"dsa0","kind":"bond","state":"active"}
{"name":"va","master":"br0","kind":"bridge","state":"listening"}
{"name":"eth0","master":"dsa0","kind":"bond","state":"active"}
END
query "Changes of state, as they happen" <<'END'
{"utc":"2026-11-27T19:06:35.723832Z","name":"lo","was":null,"now":"UNKNOWN"}
{"utc":"2026-11-27T19:06:35.723832Z","name":"dummy0","was":null,"now":"DOWN"}
{"utc":"2026-11-27T19:06:35.724582Z","name":"bond0","was":null,"now":"DOWN"}
{"utc":"2026-11-27T19:06:35.724582Z","name":"nlmon0","was":null,"now":"UNKNOWN"}
{"utc":"2026-11-27T19:06:36.030252Z","name":"br0","was":null,"now":"DOWN"}
{"utc":"2026-11-27T19:06:36.419831Z","name":"vb","was":null,"now":"DOWN"}
{"utc":"2026-11-27T19:06:36.439019Z","name":"va","was":null,"now":"DOWN"}
{"utc":"2026-11-27T19:06:37.482302Z","name":"va","was":"DOWN","now":"LOWERLAYERDOWN"}
{"utc":"2026-11-27T19:06:35.548148Z","name":"va","was":"UNKNOWN","now":"UP"}
{"utc":"2026-11-27T19:06:35.549382Z","name":"vc","was":"DOWN","now":"UP"}
{"utc":"2026-11-27T19:06:35.551851Z","name":"lo","was":"UNKNOWN","now":"DOWN"}
END
query "Packets that were dropped" <<'END'
br0	0	2
br0	0	2
END
query "VLANs of bridge ports" <<'END'
[7,1,["PVID","UNTAGGED"]]
[7,1,["PVID","UNTAGGED"]]
[3,10,["PVID","UNTAGGED"]]
[3,100,["RANGE_BEGIN"]]
[3,200,["RANGE_END"]]
[3,10,[]]
[7,1,["PVID","UNTAGGED"]]
[7,10,[]]
[7,1,["PVID","UNTAGGED"]]
[7,10,[]]
END
query "All errors, with their offsets" <<'END'
[51,0,"nlmsg_len 332 exceeds the 329 bytes left"]
[53,112,"IFLA_DSA_CONDUIT has 1 byte, expected 4"]
END
query "How many documents there are of each type" <<'END'
{"RTM_GETLINK":8,"RTM_NEWLINK":74,"NLMSG_DONE":3,"22":1,"20":2,"NLMSG_ERROR":7,"NETLINK_GENERIC":1,"other":1,"NETLINK_ROUTE":2,"RTM_DELLINK":4,"108":1,"RTM_SETLINK":4}
END
query "Milliseconds until the kernel replied" <<'END'
1795806396	16.312
1795806397	29.613
1795806397	72.314
END
grep -c '^jq ' "$page" >"$room/found"
finds "each query of the page is tested" <<END
$asked
END
sed -n '/^{"packet": /,/^```$/p' "$page" | sed '$d' | jq -c . >"$room/found"
jq -c 'select(.packet.number == 4 and .len == 64)' <"$room/documents" >"$room/fourth"
finds "the document of the page" <"$room/fourth"

echo "$passed passed, $failed failed"
[ "$failed" = 0 ]
