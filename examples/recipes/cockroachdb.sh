echo kind,node,reading,stamp,from,carried
sed -E '
  s/^.* \[(n[0-9]+)\] [0-9]+ clock=([0-9]+) /,\1,\2,/
  s/^,(.*),ts=([0-9.]+) rpc\.send$/send,\1,\2,,/
  s/^,(.*),rpc\.recv from=(n[0-9]+) now=([0-9.]+)$/receive,\1,,\2,\3/
  s/^,(.*),ts=([0-9.]+) .*/local,\1,\2,,/'
