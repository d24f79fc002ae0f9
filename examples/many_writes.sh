#!/bin/sh
# Makes a script: one write of a data unit to each block of a disk of N blocks (8 unless told), numbered by its block, and
# then a read of each. Try: sh examples/many_writes.sh 16 | ./blkcrypt serial
blocks=${1:-8}
key=$(i=0; while [ $i -lt 64 ]; do printf '%02x' $i; i=$((i + 1)); done)
echo "blkcrypt 1"
echo "disk $blocks"
echo "fallback on"
echo "key a aes-256-xts 4096 8 $key"
echo "thread"
for operation in write read; do
    block=0
    while [ "$block" -lt "$blocks" ]; do
        if [ $operation = write ]; then text=$(printf ' fill %02x' $((block % 256))); else text=; fi
        printf '%s a %d 1 %x%s\n' $operation $((8 * block)) "$block" "$text"
        block=$((block + 1))
    done
done
echo "end"
