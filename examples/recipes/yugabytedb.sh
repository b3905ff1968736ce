echo kind,node,reading,stamp,from,carried
sed -E '
  s/^.* P ([^ ]+) .*: now=([0-9]+) /,\1,\2,/
  s/^,(.*),ht=([0-9]+) op=send$/send,\1,\2,,/
  s/^,(.*),op=recv from=([^ ]+) propagated=([0-9]+)$/receive,\1,,\2,\3/
  s/^,(.*),ht=([0-9]+) op=.*/local,\1,\2,,/'
