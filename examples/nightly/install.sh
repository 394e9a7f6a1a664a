#!/bin/bash
# Installs the update in air.ts into a new flash, and compares what boot takes then with the files of the plan.
# usage: examples/nightly/install.sh      exits with 0 where they are the same
set -e
cd "$(dirname "$0")"
ssu=../../ssu
$ssu . find                # the way to the update, in seven lines
$ssu . blank 32            # a flash of 32 blocks
$ssu . format boot.bin     # with an image of software 1.7
$ssu . replay              # the box hears the stream and installs 1.8
$ssu . boot                # the image that boot takes now
cat boot.bin system.bin fonts.bin | cmp - image.bin
echo "image.bin is the three files of the plan, joined"
