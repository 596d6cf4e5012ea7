# A line of a log in JSON as a line of the text form.
def act:
  if .kind == "out" then "out \(.text) to \(.far)"
  elif .kind == "in" then "in \(.text) from \(.far)"
  elif .kind == "lost" then "out \(.text) to lost" + (if .far then " \(.far)" else "" end)
  elif .kind == "found" then "in \(.text) from found" + (if .far then " \(.far)" else "" end)
  else ({start: "starttimer", stop: "stoptimer"}[.kind] // .kind) + " \(.text)" end;
if has("log") then "log \(.log);" else "\(.at): \(act);" end
