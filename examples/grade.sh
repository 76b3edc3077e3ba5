#!/bin/sh
# examples/grade.sh FILE.s ..: grades solutions of the lab lost-update (examples/labs). For each it prints why the text isn't
# assembled, or what a search of the runs with at most two delays answers; FILE.schedule has the run that goes wrong. The
# program is ./s161, or $S161.
s161=${S161:-./s161}
for source; do
    file=${source%.s}
    if said=$("$s161" as --symbols 2>&1 <"$source" >"$file.elf"); then
        "$s161" search "$file.elf" --cpus 2 --delays 2 --within 100 --events 2000 >"$file.schedule"
        said=$(sed '/^# machine /d' "$file.schedule" | head -n 2 | paste -s -d ' ' -)
    fi
    echo "${file##*/}: $said"
done
