#!/bin/sh
# Wraps a frame as a pcap file and has tshark read it: LLDP with the TLV of the organization 20:0e:95, and nothing malformed.
# Usage: sh c/tshark.sh FRAME
set -eu
frame=$1
pcap=$frame.pcap
if ! command -v tshark > /dev/null; then
    echo "c/tshark.sh: skipped: tshark is missing"
    exit 0
fi
size=$(wc -c < "$frame")
# A number of 32 bits, low byte first.
word() {
    printf "\\$(printf %03o $(($1 & 255)))\\$(printf %03o $(($1 >> 8 & 255)))\\$(printf %03o $(($1 >> 16 & 255)))\\$(printf %03o $(($1 >> 24 & 255)))"
}
{
    word 0xA1B2C3D4 # the file's head: magic, version 2.4, zone, accuracy, longest packet, Ethernet
    word 0x00040002
    word 0
    word 0
    word 65535
    word 1
    word 0 # the packet's head: time, then its length twice
    word 0
    word "$size"
    word "$size"
    cat "$frame"
} > "$pcap"
text=$(tshark -r "$pcap" -V 2> /dev/null)
for wanted in 'Link Layer Discovery Protocol' '20:0e:95|0x200e95' 'End of LLDPDU'; do
    if ! printf '%s\n' "$text" | grep -qiE -- "$wanted"; then
        echo "c/tshark.sh: tshark does not show: $wanted"
        exit 1
    fi
done
if printf '%s\n' "$text" | grep -qi malformed; then
    echo "c/tshark.sh: tshark finds a malformed part"
    exit 1
fi
echo "c/tshark.sh: ok"
