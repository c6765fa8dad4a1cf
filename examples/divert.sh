#!/bin/sh
# Writes the divert of divert.c, its tree and its rows, as the records that ticklist reads: examples/divert.sh | target/bin/ticklist
# Bytes are in octal, as every printf takes them. What ticklist prints of them stands in divert.listing.
set -eu

# the outer record: 30 bytes follow, kind 0x0101; in them the tree
printf '\036\000\001\001'
printf '\004\000\007\000\002\000' # node 0, ReactiveFallback of two: go ahead, or else hold
printf '\004\000\004\000\003\000' # node 1,   Sequence of three: go ahead
printf '\002\000\001\000'         # node 2,     Leaf, slot 0: is a parcel present?
printf '\002\000\001\000'         # node 3,     Leaf, slot 1: is the lane clear?
printf '\002\000\001\000'         # node 4,     Leaf, slot 2: fire shoes
printf '\002\000\001\000'         # node 5,   Leaf, slot 3: hold shoes

# rows: 6 bytes follow, kind 0x0100, then a status a slot: 0 success, 1 failure, 2 running
printf '\006\000\000\001\001\000\002\002' # 0: no parcel: hold
printf '\006\000\000\001\000\001\002\002' # 1: a parcel, but the lane is full: hold on
printf '\006\000\000\001\000\000\002\002' # 2: the lane clears: fire, and halt the hold
printf '\006\000\000\001\001\001\002\002' # 3: the shoes still run: parcel and lane are not asked again
printf '\006\000\000\001\001\000\000\002' # 4: the shoes are across: done
printf '\006\000\000\001\001\000\002\002' # 5: no parcel: hold
printf '\006\000\000\001\000\000\001\002' # 6: a parcel, but the shoes do not move: hold on
printf '\006\000\000\001\000\000\000\002' # 7: they fire within one scan: halt the hold
printf '\006\000\000\001\000\377\002\002' # 8: no status: refused, 15 at slot 1
printf '\006\000\000\001\001\000\002\002' # 9: never reached
