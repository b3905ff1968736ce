sed -E '
  s/^.*\["(.*)"\] \[pd=([^]]+)\] \[now=([0-9]+)\] \[ts=([0-9]+)\]$/,\1,tso,\3,\4,\2/
  s/^,(tso alloc|save timestamp),/local,/
  s/^,sync timestamp,/restart,/'
