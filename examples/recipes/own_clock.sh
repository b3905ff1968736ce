awk -F, -v OFS=, '
{
  l = last_l[$2]; c = last_c[$2]
  if ($1 == "receive" && sent_l[$6] > l) { l = sent_l[$6]; c = 0 }
  if ($3 > l) { l = $3; c = 0 } else { c++ }
  $4 = last_l[$2] = l; $5 = last_c[$2] = c
  if ($1 == "send") { sent_l[$6] = l; sent_c[$6] = c }
  print
}'
