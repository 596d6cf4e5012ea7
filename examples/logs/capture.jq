# The segments that one end captured, each as a time and an event of a log. $at is the end that captured them.
def name: {"10.0.0.1": "client", "10.0.0.2": "server"}[.];
def text: {"0x0002": "SYN", "0x0012": "SYN_ACK", "0x0010": "ACK", "0x0011": "FIN"}[.];
.[]._source.layers
| {time: .["frame.time_epoch"][0], source: .["ip.src"][0] | name, target: .["ip.dst"][0] | name, text: .["tcp.flags"][0] | text}
| [.time, (if .source == $at then {at: $at, kind: "out", text, far: .target} else {at: $at, kind: "in", text, far: .source} end | tojson)]
| @tsv
