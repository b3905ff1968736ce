echo kind,node,reading,l,c,from,carried_l,carried_c
jq -Rr '. as $text | ((fromjson? | objects) // {}) as $line
  | ($line.t["$date"][:19] + "Z" | fromdate? // "") as $reading
  | $line.attr.clusterTime["$timestamp"] as {$t, $i}
  | if $line.msg == "tick" then ["send", $line.host, $reading, $t, $i - 1, "", "", ""]
    elif $line.msg == "gossipIn" then ["receive", $line.host, $reading, "", "", $line.attr.remote, $t, $i - 1]
    elif $line.msg == "gossipOut" then []
    else [$text] end
  | map(tostring) | join(",")'
