"""Captures of a network: pcapng is written, pcap and pcapng are read."""
