# The rows of `sweep` as a table for other programs: a row a unit, and one an end. Where the script has no place for losses the rate is empty.
BEGIN { OFS = ","; print "seed,loss,end,unit,sent,shown,delay,gone" }
function cell(text) { return text == "-" ? "" : text }
{ rate = place == "no" ? "" : $3 }
$1 == "U" { print $2, rate, $4, $5, $6, cell($7), cell($8), "" }
$1 == "E" { print $2, rate, $4, "", "", "", "", $5 }
