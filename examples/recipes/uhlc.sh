echo kind,node,reading,stamp,from,carried
sed -E '
  s/^.* uhlc: id=([^ ]+) now=([0-9]+) /,\1,\2,/
  s/^,(.*),ts=([0-9]+)[^ ]* send .*/send,\1,\2,,/
  s/^,(.*),recv ([0-9]+)\/([^ ]+)$/receive,\1,,\3,\2/
  s/^,(.*),ts=([0-9]+)[^ ]* .*/local,\1,\2,,/'
