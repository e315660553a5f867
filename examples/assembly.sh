#!/bin/sh
# Takes an assembly of 150 volunteers from two spreadsheet files to a drawn panel, and over a dropout to a second round.
#
#     examples/assembly.sh FOLDER [PEOPLE]
#
# All files go into FOLDER, which is new; after a failure remove it. PEOPLE is the table of the people, with the columns of ours. The variable
# PROGRAM names the program; without it, it is ./sortition of this repository, or the installed one where no repository is around. Stops at the
# first command that refuses. docs/CLERK.md explains each step.
set -eu
here=$(dirname "$0")
folder=${1:?"usage: examples/assembly.sh FOLDER [PEOPLE]"}
people=${2:-$here/assembly-people.csv}
program=${PROGRAM:-$here/../sortition}
prepare=$here/../tools/prepare.py
if [ ! -e "$prepare" ]; then
  program=${PROGRAM:-sortition}
  prepare=sortition-prepare
fi
store=$folder/assembly.store

# The digits of ten-sided dice, in the order of the throws. Digits behind the group that decides are ignored, so these are more than enough.
# In a draw of your own throw the dice once the seal is published, and only then call what follows.
dice_1=5616716807825502012121711011433129678276325044593873660669547349346875519480468828535276672188472225
dice_2=3605779019570532981264416458475059251584330964474077958537639590252678018495299619123819342766972947

say() { printf '\n== %s\n' "$1"; }

# Answers round $1 by a proof, and writes what has to be published before the draw.
answer() {
  say "Round $1: the lottery. (Word, round, panels, total)"
  "$program" prove --store "$store" --round "$1"
  say "Round $1: publish the seal, round-$1.bundle and round-$1.proof before the dice are thrown."
  "$program" seal --store "$store" --round "$1" > "$folder/round-$1.seal"
  "$program" show --store "$store" --round "$1" > "$folder/round-$1.bundle"
  "$program" prove < "$folder/round-$1.bundle" > "$folder/round-$1.proof"
  "$program" verify < "$folder/round-$1.proof"
  cat "$folder/round-$1.seal"
}

# Draws round $1 with the digits $2.
draw() {
  say "Round $1: the draw. (Ticket, digits that were read; the members' ids)"
  "$program" draw --store "$store" --round "$1" --seal "$(cut -f 2 "$folder/round-$1.seal")" --digits "$2" > "$folder/round-$1.panel"
  cat "$folder/round-$1.panel"
}

mkdir "$folder"
say "From the two files of the city to the three of the office. office/letters.csv says who has which id."
"$prepare" "$people" "$here/assembly-quotas.csv" --household street,number,flat,postcode \
  --title "City assembly" --size 25 --out "$folder/office"
say "The store is filled."
"$program" import-charter --store "$store" < "$folder/office/charter.toml"
"$program" import-rules --store "$store" < "$folder/office/rules.csv"
"$program" import-register --store "$store" < "$folder/office/register.csv"
answer 1
draw 1 "$dice_1"
left=$(awk '$1 == "panel" { print $2 }' "$folder/round-1.panel")
say "$left can't come. Who comes keeps the seat, and the second round draws for the free one."
"$program" drop --store "$store" --round 1 --id "$left"
"$program" next-round --store "$store" --after 1
answer 2
draw 2 "$dice_2"
"$program" report --store "$store" --round 2 > "$folder/report.txt"
say "Done. $folder/report.txt has the panel, the quotas and everybody's chance."
