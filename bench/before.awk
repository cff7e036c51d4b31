# From the figures of bench/README.md: a line "operation | map | window | instructions of the library" for each cell of
# the first two tables; of the third, two such lines for each key, with the instructions and with the divisions; and a
# line for each cell with a tile of 32 x 32 pixels, for each of many windows, for each of asking why, whose table has
# the columns of the first, for each salvage of a sound map and of a broken lake, and for each report of an overlay; the
# table of the other calls on overlays has the columns of the first too.
function cell(operation, map, window, count) { print operation " | " map " | " window " | " count }

BEGIN { FS = "|" }

{ for (i = 1; i <= NF; i++) { sub(/^ +/, "", $i); sub(/ +$/, "", $i) } }

$2 == "operation" { table = 1; next }
$2 == "map" { table = 2; next }
$2 == "key" { table = 3; next }
$2 == "tile = 5" { table = 4; next }
$2 == "256 windows" { table = 5; next }
$2 == "sound map" { table = 6; next }
$2 == "broken lake" { table = 7; next }
$2 == "today" { table = 8; next }
NF < 2 { table = 0 }
$2 ~ /^:-/ { next }
table == 1 { cell($2, $3, $4, $5) }
table == 2 { cell("month_add, first map", $2, $3, $5); cell("month_add, next map", $2, $3, $10) }
table == 3 { cell("check, a key is read", $2, "", $3); cell("divisions, a key is read", $2, "", $8) }
table == 4 { cell($2 ", tile = 5", "lake", $3, $4) }
table == 5 { cell("windows", $3, $2, $4) }
table == 6 { cell("salvage", $2, "", $4) }
table == 7 { cell("salvage, broken", "lake", $2, $6) }
table == 8 { cell("overlay_report", $2, $3, $5) }
