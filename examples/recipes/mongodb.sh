jq -Rrn 'reduce (inputs | (fromjson? | objects) // {}) as $line ({ticks: [], last: {}, sent: {}, heard: {}, missed: 0};
    ($line.host // "" | split(":")[0] // "" | ltrimstr("m")) as $node
    | ($line.attr.id | tostring) as $message
    | if $line.msg == "gossipOut" then .sent[$message] = .last[$node] | .ticks[.last[$node]].kind = "send"
      elif $line.msg == "gossipIn" then .heard[$node] = .sent[$message]
      elif $line.msg == "tick" then .last[$node] = (.ticks | length)
        | .ticks += [{kind: (if .heard[$node] then "receive" else "local" end), $node, from: .heard[$node],
                      reading: ($line.t["$date"][:19] + "Z" | fromdate), stamp: $line.attr.clusterTime["$timestamp"]}]
        | .heard[$node] = null
      else .missed += 1 end)
  | (.ticks[] | [.kind, .node, .reading, (if .kind == "receive" then .from else empty end), .stamp.t, .stamp.i - 1]
     | map(tostring) | join(",")),
    (select(.missed > 0) | "lines not understood: \(.missed)\n" | halt_error(1))'
