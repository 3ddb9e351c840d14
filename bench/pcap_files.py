"""Captures as pcap files and back, by the plain program that is written straight from docs/FORMAT.md.

    pcap_files.py wrap PORT < capture > file
    pcap_files.py unwrap PORT < file > capture
    pcap_files.py big < file > file    the same in the other order of bytes, with nanoseconds
"""
import sys

from plain import network, pcap


def big_endian(data):
    """The file of the same records in the other order of bytes, with nanoseconds."""
    words = [pcap.MAGICS[1], 2 << 16 | 4, 0, 0, 65535, 1]
    out = [b"".join(word.to_bytes(4, "big") for word in words)]
    for captured in pcap.records_of(data):
        out.append(b"".join(word.to_bytes(4, "big") for word in (1, 999_999_999, len(captured), len(captured))) + captured)
    return b"".join(out)


def main(command, port, data):
    if command == "wrap":
        return pcap.file_of(network.frames_of(data), port)
    if command == "unwrap":
        packets, stepped = pcap.unwrapped(data, port)
        print(f"stepped {stepped}", file=sys.stderr)
        return network.capture_of(packets)
    return big_endian(data)


if __name__ == "__main__":
    port = int(sys.argv[2]) if len(sys.argv) > 2 else 0
    sys.stdout.buffer.write(main(sys.argv[1], port, sys.stdin.buffer.read()))
