#!/bin/sh
# Makes examples/morning.pcap and examples/restart.pcap again, byte for byte. The truths go to the directory that is given, or to a temporary one.
cd "$(dirname "$0")/.." || exit 1
truths=${1:-$(mktemp -d)}
python3 tools/generate_capture.py --seed 34 --packets 190 --symbols 5 --depth 6 --loss-a 0.12 --loss-b 0.12 --unavailable 0.006 --longest 3 --late 0.02 \
    --check --out examples/morning.pcap --truth "$truths/morning" || exit 1
python3 tools/generate_capture.py --seed 11 --packets 90 --symbols 3 --depth 4 --resets 1 --noise 0.15 --link vlan --order big --unit nanos --unavailable 0.01 --longest 2 \
    --check --out examples/restart.pcap --truth "$truths/restart" || exit 1
echo "truths: $truths"
