# A line of the trace as an event of a log of sessions: `session` is its key. A name has letters, digits, `_` and `.` alone.
def name: gsub("[^A-Za-z0-9_.]"; "_");
{session: .session | name, at: .service | name, kind: {send: "out", receive: "in"}[.event], text: .message, far: .peer | name}
