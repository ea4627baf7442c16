#!/bin/sh
# Looks whether each block of docs/TOUR.md below the name of a file of this folder is that file, or its
# beginning, and tells of the first line of each block that is not.
set -eu
here=$(dirname "$0")
awk -v here="$here/" '
    /^`[a-z_]+\.[a-z]+`/ { split($0, part, "`"); name = part[2] }
    /^```/ && inside { inside = 0; name = ""; next }
    /^```/ { inside = 1; if (name != "") { blocks++; close(here name) } next }
    inside && name != "" && ((getline line < (here name)) <= 0 || line != $0) {
        print name ": " $0
        name = ""
        faults++
    }
    END { if (blocks && !faults) print "each block is as its file" }' "$here/../docs/TOUR.md"
