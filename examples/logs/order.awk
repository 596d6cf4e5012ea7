NR > 1 { gsub("-", "_"); print $2 ": " ($3 == "send" ? "out " $4 " to " : "in " $4 " from ") $5 ";" }
